//! The statuses of the library. Written by scripts/make_bindings.py; do not edit.

use crate::functions;
use core::fmt;

/// Why a call did nothing: everything that it could write is as before, but for the space and places in which it works.
///
/// ```
/// use binary_field::{Error, Field, Poly64};
///
/// let error = Poly64::square_slice(&[Poly64::new(3)], &mut []).unwrap_err();
/// assert_eq!((error, error.to_string().as_str()), (Error::Length, "mismatched or invalid lengths"));
/// ```
#[derive(Clone, Copy, Debug, PartialEq, Eq, Hash)]
pub enum Error {
    /// Mismatched or invalid lengths.
    Length,
    /// A word is not an element of the field.
    NotAnElement,
    /// Out of memory, which no function of this version returns.
    Memory,
    /// No code or shares have these numbers.
    Code,
    /// Too few shards or shares are present.
    TooFewShards,
    /// The equations have no solution, the matrix no inverse, or there is no secret or root.
    Unsolvable,
    /// The modulus is no irreducible polynomial of degree 1 to 128.
    Reducible,
}

impl Error {
    /// What a status of the library says.
    pub(crate) fn of(status: u32) -> Result<(), Error> {
        match status {
            functions::BF_OK => Ok(()),
            functions::BF_LENGTH => Err(Error::Length),
            functions::BF_NOT_AN_ELEMENT => Err(Error::NotAnElement),
            functions::BF_MEMORY => Err(Error::Memory),
            functions::BF_CODE => Err(Error::Code),
            functions::BF_TOO_FEW_SHARDS => Err(Error::TooFewShards),
            functions::BF_UNSOLVABLE => Err(Error::Unsolvable),
            functions::BF_REDUCIBLE => Err(Error::Reducible),
            other => panic!("the library has no status {other}"),
        }
    }
}

/// A call that returns no status but BF_OK: its slices have lengths that fit, and its words are elements.
#[inline]
pub(crate) fn succeed(status: u32) {
    if status != functions::BF_OK {
        refused(status);
    }
}

#[cold]
fn refused(status: u32) {
    Error::of(status).unwrap_or_else(|error| panic!("{error}"));
}

impl fmt::Display for Error {
    fn fmt(&self, formatter: &mut fmt::Formatter<'_>) -> fmt::Result {
        formatter.write_str(match self {
            Error::Length => "mismatched or invalid lengths",
            Error::NotAnElement => "a word is not an element of the field",
            Error::Memory => "out of memory",
            Error::Code => "no code or shares have these numbers",
            Error::TooFewShards => "too few shards or shares are present",
            Error::Unsolvable => "the equations have no solution",
            Error::Reducible => "the modulus is no irreducible polynomial of degree 1 to 128",
        })
    }
}

impl core::error::Error for Error {}
