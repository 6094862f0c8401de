//! Why a text is no element, and answers to lines of text.

use crate::error::succeed;
use crate::functions::bf_answer;
use core::fmt;

/// A text, or a number, that is no element of the field.
///
/// ```
/// use binary_field::{BinaryField4, ParseError};
///
/// assert_eq!(("0xf".parse(), "16".parse::<BinaryField4>()), (Ok(BinaryField4::new(15).unwrap()), Err(ParseError)));
/// ```
#[derive(Clone, Copy, Debug, PartialEq, Eq, Hash)]
pub struct ParseError;

impl fmt::Display for ParseError {
    fn fmt(&self, formatter: &mut fmt::Formatter<'_>) -> fmt::Result {
        formatter.write_str("not an element of the field")
    }
}

impl core::error::Error for ParseError {}

/// The text with which a line is answered, of at most 48 characters.
#[derive(Clone, Copy, Debug, PartialEq, Eq, Hash)]
pub struct Answer {
    bytes: [u8; 48],
    length: usize,
}

impl Answer {
    /// The text.
    pub fn as_str(&self) -> &str {
        core::str::from_utf8(&self.bytes[..self.length]).expect("the library answers in ASCII")
    }
}

impl fmt::Display for Answer {
    fn fmt(&self, formatter: &mut fmt::Formatter<'_>) -> fmt::Result {
        formatter.write_str(self.as_str())
    }
}

/// What the program binfield answers to a line, `field operation operands`: the result in hexadecimal, `none` for the inverse of 0, or
/// `error` and the number of what is wrong with the line.
///
/// ```
/// assert_eq!(binary_field::answer("t8 mul 10 10").as_str(), "41");
/// ```
pub fn answer(line: impl AsRef<[u8]>) -> Answer {
    let (line, mut bytes, mut written) = (line.as_ref(), [0; 48], 0);
    succeed(call!(bf_answer: [line], [mut bytes], &raw mut written));
    Answer {
        bytes,
        length: written as usize,
    }
}
