//! Reed-Solomon codes over bytes that correct errors.

use crate::Error;
use crate::functions::*;

/// A Reed-Solomon code over bytes that corrects errors: words of so many symbols, at most 255, of which the first are data. The first
/// symbol is the coefficient of the highest power, and a word is one of the code where its polynomial is 0 at each root. Words stand one
/// after the other in a slice, and a call finds the code anew, which takes as long as some words. [`ReedSolomon`](crate::ReedSolomon) is
/// another code, which restores what is known to be lost.
///
/// ```
/// use binary_field::CorrectingCode;
///
/// let code = CorrectingCode::qr(26, 16)?;
/// let mut words = [7; 52];
/// code.encode(&mut words)?;
/// words[30] ^= 1;
/// let mut flags = [false; 2];
/// code.are_words(&words, &mut flags)?;
/// assert_eq!(flags, [true, false]);
/// # Ok::<(), binary_field::Error>(())
/// ```
#[derive(Clone, Copy, Debug, PartialEq, Eq)]
pub struct CorrectingCode {
    modulus: u64,
    symbols: usize,
    data: usize,
    first_root: u64,
    root_step: u64,
}

/// What [`CorrectingCode::correct`] writes of a word that stands for no word of the code.
pub const NOT_CORRECTED: u16 = u16::MAX;

impl CorrectingCode {
    /// The code over the field with this modulus, bit i for x^i: 0x11d (QR codes, DVB) and 0x187 (CCSDS), whose generator is 2, or 0x11b
    /// (AES), with 3. Its roots are the powers root_step (first_root + m) of the generator, for m below the number of symbols that are not
    /// data. It fails with `Error::Code` where there is no such code.
    ///
    /// ```
    /// use binary_field::{CorrectingCode, Error};
    ///
    /// assert!(CorrectingCode::new(0x11b, 85, 9, 1, 3).is_ok());
    /// // The third power of the generator has the order 85.
    /// assert_eq!(CorrectingCode::new(0x11b, 86, 9, 1, 3), Err(Error::Code));
    /// ```
    pub fn new(
        modulus: u64,
        symbols: usize,
        data: usize,
        first_root: u64,
        root_step: u64,
    ) -> Result<CorrectingCode, Error> {
        let code = CorrectingCode {
            modulus,
            symbols,
            data,
            first_root,
            root_step,
        };
        code.encode(&mut [])?;
        Ok(code)
    }

    /// The code of telemetry, with 223 symbols of data in words of 255 (CCSDS 131.0-B, section 4), over bytes in the basis of powers of x.
    ///
    /// ```
    /// assert_eq!(binary_field::CorrectingCode::ccsds_223().symbols(), 255);
    /// ```
    pub fn ccsds_223() -> CorrectingCode {
        CorrectingCode {
            modulus: 0x187,
            symbols: 255,
            data: 223,
            first_root: 112,
            root_step: 11,
        }
    }

    /// The code of DVB, with 188 symbols of data in words of 204 (ETSI EN 300 421, section 4.4.2).
    ///
    /// ```
    /// assert_eq!(binary_field::CorrectingCode::dvb_188().data(), 188);
    /// ```
    pub fn dvb_188() -> CorrectingCode {
        CorrectingCode {
            modulus: 0x11d,
            symbols: 204,
            data: 188,
            first_root: 0,
            root_step: 1,
        }
    }

    /// The code of a block of a QR code (ISO/IEC 18004, section 7.5).
    ///
    /// ```
    /// assert!(binary_field::CorrectingCode::qr(26, 26).is_err());
    /// ```
    pub fn qr(symbols: usize, data: usize) -> Result<CorrectingCode, Error> {
        CorrectingCode::new(0x11d, symbols, data, 0, 1)
    }

    /// How many symbols a word has.
    ///
    /// ```
    /// assert_eq!(binary_field::CorrectingCode::dvb_188().symbols(), 204);
    /// ```
    pub fn symbols(&self) -> usize {
        self.symbols
    }

    /// How many symbols of a word are data.
    ///
    /// ```
    /// assert_eq!(binary_field::CorrectingCode::ccsds_223().data(), 223);
    /// ```
    pub fn data(&self) -> usize {
        self.data
    }

    /// Writes the symbols behind the data of each word, so that it is a word of the code. It fails with `Error::Length` where the slice
    /// does not have whole words.
    ///
    /// ```
    /// // 2 (x + 1) (x + 2) = 2 x^2 + 6 x + 4
    /// let mut word = [2, 0, 0];
    /// binary_field::CorrectingCode::qr(3, 1)?.encode(&mut word)?;
    /// assert_eq!(word, [2, 6, 4]);
    /// # Ok::<(), binary_field::Error>(())
    /// ```
    pub fn encode(&self, words: &mut [u8]) -> Result<(), Error> {
        Error::of(
            call!(bf_code_encode: self.modulus, self.symbols, self.data, self.first_root, self.root_step, [mut words]),
        )
    }

    /// Writes the values of each word at the roots, those of a word one after the other. It fails with `Error::Length` where a slice has
    /// another length.
    ///
    /// ```
    /// let mut values = [0; 2];
    /// binary_field::CorrectingCode::qr(3, 1)?.syndromes(&[0, 1, 0], &mut values)?;
    /// assert_eq!(values, [1, 2]);
    /// # Ok::<(), binary_field::Error>(())
    /// ```
    pub fn syndromes(&self, words: &[u8], values: &mut [u8]) -> Result<(), Error> {
        Error::of(
            call!(bf_code_syndromes: self.modulus, self.symbols, self.data, self.first_root, self.root_step, [words], [mut values]),
        )
    }

    /// Writes for each word whether it is one of the code. It fails with `Error::Length` where a slice has another length.
    ///
    /// ```
    /// let mut flags = [false; 2];
    /// binary_field::CorrectingCode::qr(3, 1)?.are_words(&[2, 6, 4, 2, 6, 5], &mut flags)?;
    /// assert_eq!(flags, [true, false]);
    /// # Ok::<(), binary_field::Error>(())
    /// ```
    pub fn are_words(&self, words: &[u8], flags: &mut [bool]) -> Result<(), Error> {
        Error::of(
            call!(bf_code_are_words: self.modulus, self.symbols, self.data, self.first_root, self.root_step, [words], [mut flags]),
        )
    }

    /// Corrects each word, and writes how many of its symbols changed. `erasures` has a flag for each symbol, or is empty where none is erased.
    /// A word becomes the only word of the code from which it differs at t places beside e erased ones, where 2 t + e is at most the number of
    /// symbols that are not data; where there is none it stays, and [`NOT_CORRECTED`] is written. It fails with `Error::Length` where a slice
    /// has another length.
    ///
    /// ```
    /// use binary_field::{CorrectingCode, NOT_CORRECTED};
    ///
    /// let code = CorrectingCode::qr(3, 1)?;
    /// let (mut words, mut corrected) = ([2, 6, 5, 9, 8, 7], [0; 2]);
    /// code.correct(&mut words, &[], &mut corrected)?;
    /// assert_eq!((words, corrected), ([2, 6, 4, 9, 8, 7], [1, NOT_CORRECTED]));
    /// # Ok::<(), binary_field::Error>(())
    /// ```
    pub fn correct(
        &self,
        words: &mut [u8],
        erasures: &[bool],
        corrected: &mut [u16],
    ) -> Result<(), Error> {
        Error::of(
            call!(bf_code_correct: self.modulus, self.symbols, self.data, self.first_root, self.root_step, [mut words], [erasures], [mut corrected]),
        )
    }

    /// Writes the symbols behind the data of each word, of words that stand interleaved: the first symbols of all words, one after the other,
    /// then the second symbols. It fails with `Error::Length` where the slice does not have whole words.
    ///
    /// ```
    /// let mut words = [2, 0, 0, 0, 0, 0];
    /// binary_field::CorrectingCode::qr(3, 1)?.encode_interleaved(&mut words)?;
    /// assert_eq!(words, [2, 0, 6, 0, 4, 0]);
    /// # Ok::<(), binary_field::Error>(())
    /// ```
    pub fn encode_interleaved(&self, words: &mut [u8]) -> Result<(), Error> {
        Error::of(
            call!(bf_code_encode_interleaved: self.modulus, self.symbols, self.data, self.first_root, self.root_step, [mut words]),
        )
    }

    /// Writes the values of interleaved words at the roots: those of all words at a root stand one after the other. It fails with
    /// `Error::Length` where a slice has another length.
    ///
    /// ```
    /// let mut values = [0; 4];
    /// binary_field::CorrectingCode::qr(3, 1)?.syndromes_interleaved(&[0, 2, 1, 6, 0, 4], &mut values)?;
    /// assert_eq!(values, [1, 0, 2, 0]);
    /// # Ok::<(), binary_field::Error>(())
    /// ```
    pub fn syndromes_interleaved(&self, words: &[u8], values: &mut [u8]) -> Result<(), Error> {
        Error::of(
            call!(bf_code_syndromes_interleaved: self.modulus, self.symbols, self.data, self.first_root, self.root_step, [words], [mut values]),
        )
    }

    /// Corrects each of the interleaved words as [`CorrectingCode::correct`] does, and writes whether it could. `erasures` has a flag for the
    /// symbols of all words at each place, as one packet has them, or is empty where none is erased. `values` becomes what
    /// [`CorrectingCode::syndromes_interleaved`] writes of the received words. It fails with `Error::Length` where a slice has another length.
    ///
    /// ```
    /// let code = binary_field::CorrectingCode::qr(3, 1)?;
    /// let (mut words, mut values, mut corrected) = ([2, 9, 6, 8, 5, 7], [0; 4], [false; 2]);
    /// code.correct_interleaved(&mut words, &[], &mut values, &mut corrected)?;
    /// assert_eq!((words, corrected), ([2, 9, 6, 8, 4, 7], [true, false]));
    /// # Ok::<(), binary_field::Error>(())
    /// ```
    pub fn correct_interleaved(
        &self,
        words: &mut [u8],
        erasures: &[bool],
        values: &mut [u8],
        corrected: &mut [bool],
    ) -> Result<(), Error> {
        Error::of(
            call!(bf_code_correct_interleaved: self.modulus, self.symbols, self.data, self.first_root, self.root_step, [mut words], [erasures], [mut values], [mut corrected]),
        )
    }
}
