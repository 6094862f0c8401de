//! Reed-Solomon codes that correct errors over a field that the program chooses.

use crate::Error;
use crate::chosen::ChosenField;
use crate::functions::*;
use alloc::vec;

/// A Reed-Solomon code that corrects errors, over a field of at most 65,536 elements: words of so many symbols, at most 65,535, of which the
/// first are data. A symbol is an element, bit i for x^i. The first symbol is the coefficient of the highest power, and a word is one of the
/// code where its polynomial is 0 at each root. Words stand one after the other in a slice. A call finds the code anew, which takes as many
/// products as a word has symbols, and takes memory for what it works in. Over bytes [`CorrectingCode`](crate::CorrectingCode) is faster.
///
/// ```
/// use binary_field::{FieldCode, chosen::ChosenField};
///
/// // The field of PAR2.
/// let code = FieldCode::new(ChosenField::new(16, 0x100b)?, 20, 12, 0, 2)?;
/// let mut word = [0u16; 20];
/// word[..12].copy_from_slice(&[0x9e3e, 0x3c75, 0xdaac, 0x78e3, 0x171a, 0xb551, 0x5388, 0xf1bf, 0x8ff6, 0x2e2d, 0xcc64, 0x6a9b]);
/// code.encode(&mut word)?;
/// assert_eq!(word[12..], [0x9824, 0x2364, 0x04f9, 0xf876, 0x097f, 0x40e2, 0xc20c, 0xcb02]);
/// let (sent, mut corrected) = (word, [0]);
/// word[3] = 0;
/// word[17] ^= 0x8000;
/// code.correct(&mut word, &[], &mut corrected)?;
/// assert_eq!((word, corrected), (sent, [2]));
/// # Ok::<(), binary_field::Error>(())
/// ```
#[derive(Clone, Copy, Debug, PartialEq, Eq)]
pub struct FieldCode {
    field: ChosenField,
    symbols: usize,
    data: usize,
    first_root: u64,
    root: u64,
}

impl FieldCode {
    /// The code over the field. Its roots are the powers first_root + m of the element `root`, for m below the number of symbols that are not
    /// data. It fails with `Error::Code` where there is no such code: the field has more than 65,536 elements, no symbols are data or no
    /// others, there are more than 65,535, or the powers of the root that belong to the symbols are not different.
    ///
    /// ```
    /// use binary_field::{Error, FieldCode, chosen::ChosenField};
    ///
    /// let field = ChosenField::new(4, 3)?;
    /// assert!(FieldCode::new(field, 15, 11, 1, 2).is_ok());
    /// assert_eq!(FieldCode::new(field, 16, 11, 1, 2), Err(Error::Code));
    /// # Ok::<(), Error>(())
    /// ```
    pub fn new(
        field: ChosenField,
        symbols: usize,
        data: usize,
        first_root: u64,
        root: u64,
    ) -> Result<FieldCode, Error> {
        let code = FieldCode {
            field,
            symbols,
            data,
            first_root,
            root,
        };
        code.are_words(&[], &mut [])?;
        Ok(code)
    }

    /// How many symbols a word has.
    pub fn symbols(&self) -> usize {
        self.symbols
    }

    /// How many symbols of a word are data.
    pub fn data(&self) -> usize {
        self.data
    }

    /// Writes the symbols behind the data of each word, so that it is a word of the code. It fails with `Error::Length` where the slice does
    /// not have whole words, and with `Error::NotAnElement` where a symbol of data is none.
    ///
    /// ```
    /// use binary_field::{FieldCode, chosen::ChosenField};
    ///
    /// // 2 (x + 1) (x + 2) = 2 x^2 + 6 x + 4
    /// let mut word = [2, 0, 0];
    /// FieldCode::new(ChosenField::new(4, 3)?, 3, 1, 0, 2)?.encode(&mut word)?;
    /// assert_eq!(word, [2, 6, 4]);
    /// # Ok::<(), binary_field::Error>(())
    /// ```
    pub fn encode(&self, words: &mut [u16]) -> Result<(), Error> {
        let mut space = vec![0u16; self.symbols - self.data + 1];
        Error::of(
            call!(bf_field_code_encode: &raw const self.field.words, self.symbols, self.data, self.first_root, self.root, [mut words], [mut space]),
        )
    }

    /// Writes the values of each word at the roots, those of a word one after the other. It fails with `Error::Length` where a slice has
    /// another length, and with `Error::NotAnElement` where a symbol is none.
    ///
    /// ```
    /// use binary_field::{FieldCode, chosen::ChosenField};
    ///
    /// let mut values = [0; 2];
    /// FieldCode::new(ChosenField::new(4, 3)?, 3, 1, 0, 2)?.syndromes(&[0, 1, 0], &mut values)?;
    /// assert_eq!(values, [1, 2]);
    /// # Ok::<(), binary_field::Error>(())
    /// ```
    pub fn syndromes(&self, words: &[u16], values: &mut [u16]) -> Result<(), Error> {
        Error::of(
            call!(bf_field_code_syndromes: &raw const self.field.words, self.symbols, self.data, self.first_root, self.root, [words], [mut values]),
        )
    }

    /// Writes for each word whether it is one of the code. It fails with `Error::Length` where a slice has another length, and with
    /// `Error::NotAnElement` where a symbol is none.
    ///
    /// ```
    /// use binary_field::{FieldCode, chosen::ChosenField};
    ///
    /// let mut flags = [false; 2];
    /// FieldCode::new(ChosenField::new(4, 3)?, 3, 1, 0, 2)?.are_words(&[2, 6, 4, 2, 6, 5], &mut flags)?;
    /// assert_eq!(flags, [true, false]);
    /// # Ok::<(), binary_field::Error>(())
    /// ```
    pub fn are_words(&self, words: &[u16], flags: &mut [bool]) -> Result<(), Error> {
        Error::of(
            call!(bf_field_code_are_words: &raw const self.field.words, self.symbols, self.data, self.first_root, self.root, [words], [mut flags]),
        )
    }

    /// Corrects each word, and writes how many of its symbols changed. `erasures` has a flag for each symbol, or is empty where none is erased.
    /// A word becomes the only word of the code from which it differs at t places beside e erased ones, where 2 t + e is at most the number of
    /// symbols that are not data; where there is none it stays, and [`NOT_CORRECTED`](crate::NOT_CORRECTED) is written. It fails with
    /// `Error::Length` where a slice has another length, and with `Error::NotAnElement` where a symbol is none.
    ///
    /// ```
    /// use binary_field::{FieldCode, NOT_CORRECTED, chosen::ChosenField};
    ///
    /// let code = FieldCode::new(ChosenField::new(4, 3)?, 3, 1, 0, 2)?;
    /// let (mut words, mut corrected) = ([2, 6, 5, 1, 2, 4], [0; 2]);
    /// code.correct(&mut words, &[], &mut corrected)?;
    /// assert_eq!((words, corrected), ([2, 6, 4, 1, 2, 4], [1, NOT_CORRECTED]));
    /// # Ok::<(), binary_field::Error>(())
    /// ```
    pub fn correct(
        &self,
        words: &mut [u16],
        erasures: &[bool],
        corrected: &mut [u16],
    ) -> Result<(), Error> {
        let checks = self.symbols - self.data;
        let mut space = vec![0u16; 2 * self.symbols + 5 * checks + 3];
        let mut marks = vec![false; 2 * self.symbols];
        let mut places = vec![0usize; self.symbols];
        Error::of(
            call!(bf_field_code_correct: &raw const self.field.words, self.symbols, self.data, self.first_root, self.root, [mut words], [erasures], [mut corrected], [mut space], [mut marks], [mut places]),
        )
    }
}
