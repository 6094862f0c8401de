//! Shares of a secret.

use crate::Error;
use crate::functions::*;

/// The field of bytes over which a secret is shared.
#[derive(Clone, Copy, Debug, Default, PartialEq, Eq, Hash)]
pub enum ShareField {
    /// Modulo x^8 + x^4 + x^3 + x + 1, as AES has it, and SLIP-0039 for shares.
    #[default]
    Rijndael,
    /// Modulo x^8 + x^4 + x^3 + x^2 + 1, as libgfshare has it.
    Gfshare,
}

impl ShareField {
    fn modulus(self) -> u64 {
        match self {
            ShareField::Rijndael => 0x11b,
            ShareField::Gfshare => 0x11d,
        }
    }
}

/// Writes `count` shares of a secret, any `needed` of which restore it, where fewer say nothing of it (A. Shamir, How to share a secret,
/// 1979). Share i, counted from 0, has the index i + 1, is as long as the secret, and stands behind those before it in `shares`.
///
/// `draws` has `needed` - 1 times as many bytes as the secret. They have to be drawn for this secret alone from a source of cryptographic
/// quality, as that of the crate `getrandom`, each from all 256, 0 among them, and be kept from everybody: this crate draws none. Neither
/// the secret nor the draws are overwritten. `Error::Code` where it is not 2 <= needed <= count <= 255, and `Error::Length` where the
/// secret is empty, or draws or shares have another length.
///
/// ```
/// use binary_field::{ShareField, combine_secret, split_secret};
///
/// // Here the draws are no secret.
/// let (secret, draws) = (*b"key", [7, 77, 177]);
/// let mut shares = [0; 9];
/// split_secret(ShareField::Rijndael, 2, 3, &secret, &draws, &mut shares)?;
/// let mut again = [0; 3];
/// combine_secret(ShareField::Rijndael, 2, &[2, 3], &shares[3..], &mut again)?;
/// assert_eq!(again, secret);
/// # Ok::<(), binary_field::Error>(())
/// ```
pub fn split_secret(
    field: ShareField,
    needed: usize,
    count: usize,
    secret: &[u8],
    draws: &[u8],
    shares: &mut [u8],
) -> Result<(), Error> {
    Error::of(
        call!(bf_secret_split: field.modulus(), needed, count, [secret], [draws], [mut shares]),
    )
}

/// Writes the secret of shares with these indexes, of which `needed` are needed; they stand one after the other. Of more all have to be
/// those of one secret, and it is not told which is wrong, as [`correct_secret`] does; whether bytes of `needed` shares are right cannot be
/// told.
///
/// `Error::TooFewShards` where there are fewer; `Error::Code` where `needed` is below 2, there are more than 255, an index is 0, or two
/// are equal; `Error::Length` where `secret` is empty, or the shares do not have its length; `Error::Unsolvable` where they are not those
/// of one secret.
pub fn combine_secret(
    field: ShareField,
    needed: usize,
    indexes: &[u8],
    shares: &[u8],
    secret: &mut [u8],
) -> Result<(), Error> {
    Error::of(call!(bf_secret_combine: field.modulus(), needed, [indexes], [shares], [mut secret]))
}

/// Restores a secret as [`combine_secret`] does, from shares some of which may be wrong, and writes which: a share is wrong if any of its
/// bytes is, and of n shares up to (n - `needed`) / 2 may be.
///
/// The errors are those of [`combine_secret`], and `Error::Length` also where there is not one flag for each share; it is
/// `Error::Unsolvable` where more shares are wrong, unless they are as near to the shares of another secret.
///
/// ```
/// use binary_field::{ShareField, correct_secret, split_secret};
///
/// // Here the draws are no secret.
/// let (secret, draws) = (*b"key", [7, 77, 177]);
/// let mut shares = [0; 12];
/// split_secret(ShareField::Rijndael, 2, 4, &secret, &draws, &mut shares)?;
/// shares[4] ^= 1;
/// let (mut again, mut wrong) = ([0; 3], [false; 4]);
/// correct_secret(ShareField::Rijndael, 2, &[1, 2, 3, 4], &shares, &mut again, &mut wrong)?;
/// assert_eq!((again, wrong), (secret, [false, true, false, false]));
/// # Ok::<(), binary_field::Error>(())
/// ```
pub fn correct_secret(
    field: ShareField,
    needed: usize,
    indexes: &[u8],
    shares: &[u8],
    secret: &mut [u8],
    wrong: &mut [bool],
) -> Result<(), Error> {
    Error::of(
        call!(bf_secret_combine_correcting: field.modulus(), needed, [indexes], [shares], [mut secret], [mut wrong]),
    )
}
