//! Binary BCH codes.

use crate::Error;
use crate::functions::*;

/// A binary BCH code: words of so many bits, at most 255, each a byte that is 0 or 1, of which the first are data. The first bit is the
/// coefficient of the highest power, and a word is one of the code where its polynomial is 0 at the powers 1 to 2 t of an element of a
/// field of bytes, where t is how many errors are corrected. Words stand one after the other in a slice, and a call finds the code anew.
///
/// ```
/// use binary_field::{BinaryBch, NOT_CORRECTED};
///
/// let code = BinaryBch::whole(15, 2)?;
/// let mut word = [1, 0, 0, 1, 1, 0, 1, 0, 0, 0, 0, 0, 0, 0, 0];
/// code.encode(&mut word)?;
/// let (sent, mut corrected) = (word, [NOT_CORRECTED]);
/// word[3] ^= 1;
/// word[9] ^= 1;
/// code.correct(&mut word, &[], &mut corrected)?;
/// assert_eq!((word, corrected), (sent, [2]));
/// # Ok::<(), binary_field::Error>(())
/// ```
#[derive(Clone, Copy, Debug, PartialEq, Eq)]
pub struct BinaryBch {
    modulus: u64,
    bits: usize,
    errors: usize,
    root_step: u64,
    data: usize,
}

impl BinaryBch {
    /// The code over the field with this modulus, as `CorrectingCode::new` takes it, whose roots are the powers root_step, 2 root_step, ..,
    /// 2 errors root_step of its generator. It fails with `Error::Code` where there is no such code.
    ///
    /// ```
    /// use binary_field::{BinaryBch, Error};
    ///
    /// assert_eq!(BinaryBch::new(0x11d, 255, 10, 1)?.data(), 179);
    /// assert_eq!(BinaryBch::new(0x11d, 15, 8, 17), Err(Error::Code));
    /// # Ok::<(), Error>(())
    /// ```
    pub fn new(
        modulus: u64,
        bits: usize,
        errors: usize,
        root_step: u64,
    ) -> Result<BinaryBch, Error> {
        let mut data = 0u64;
        Error::of(call!(bf_bch_data: modulus, bits, errors, root_step, &raw mut data))?;
        Ok(BinaryBch {
            modulus,
            bits,
            errors,
            root_step,
            data: data as usize,
        })
    }

    /// The code of whole words, whose length has to divide 255: 3, 5, 15, 17, 51, 85 or 255 bits.
    ///
    /// ```
    /// assert_eq!(binary_field::BinaryBch::whole(15, 3)?.data(), 5);
    /// # Ok::<(), binary_field::Error>(())
    /// ```
    pub fn whole(bits: usize, errors: usize) -> Result<BinaryBch, Error> {
        if bits == 0 || 255 % bits != 0 {
            return Err(Error::Code);
        }
        BinaryBch::new(0x11d, bits, errors, (255 / bits) as u64)
    }

    /// How many bits a word has.
    pub fn bits(&self) -> usize {
        self.bits
    }

    /// How many bits of a word are data.
    pub fn data(&self) -> usize {
        self.data
    }

    /// How many errors are corrected, wherever they are.
    pub fn errors(&self) -> usize {
        self.errors
    }

    /// Writes the bits behind the data of each word, so that it is a word of the code. It fails with `Error::Length` where the slice does not
    /// have whole words, and with `Error::NotAnElement` where a byte of data is no bit.
    ///
    /// ```
    /// let mut word = [0, 0, 0, 1, 0, 0, 0, 0, 0, 0, 0, 0, 0, 0, 0];
    /// binary_field::BinaryBch::whole(15, 1)?.encode(&mut word)?;
    /// assert_eq!(word[11..], [1, 1, 1, 0]);
    /// # Ok::<(), binary_field::Error>(())
    /// ```
    pub fn encode(&self, words: &mut [u8]) -> Result<(), Error> {
        Error::of(
            call!(bf_bch_encode: self.modulus, self.bits, self.errors, self.root_step, [mut words]),
        )
    }

    /// Writes for each word whether it is one of the code. It fails with `Error::Length` where a slice has another length.
    ///
    /// ```
    /// let mut flags = [false; 2];
    /// binary_field::BinaryBch::whole(3, 1)?.are_words(&[1, 1, 1, 1, 0, 1], &mut flags)?;
    /// assert_eq!(flags, [true, false]);
    /// # Ok::<(), binary_field::Error>(())
    /// ```
    pub fn are_words(&self, words: &[u8], flags: &mut [bool]) -> Result<(), Error> {
        Error::of(
            call!(bf_bch_are_words: self.modulus, self.bits, self.errors, self.root_step, [words], [mut flags]),
        )
    }

    /// Corrects each word, and writes how many of its bits changed. `erasures` has a flag for each bit, or is empty where none is erased. A
    /// word becomes the only word of the code from which it differs at t places beside e erased ones, where 2 t + e is at most twice the
    /// number of errors; where there is none it stays, and [`NOT_CORRECTED`](crate::NOT_CORRECTED) is written. It fails with
    /// `Error::Length` where a slice has another length.
    ///
    /// ```
    /// let (mut words, mut corrected) = ([1, 1, 0, 1, 1, 1], [9; 2]);
    /// binary_field::BinaryBch::whole(3, 1)?.correct(&mut words, &[], &mut corrected)?;
    /// assert_eq!((words, corrected), ([1; 6], [1, 0]));
    /// # Ok::<(), binary_field::Error>(())
    /// ```
    pub fn correct(
        &self,
        words: &mut [u8],
        erasures: &[bool],
        corrected: &mut [u16],
    ) -> Result<(), Error> {
        Error::of(
            call!(bf_bch_correct: self.modulus, self.bits, self.errors, self.root_step, [mut words], [erasures], [mut corrected]),
        )
    }
}
