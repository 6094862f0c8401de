//! Erasure codes by transforms, over words of 16 bits.

use crate::Error;
use crate::error::succeed;
use crate::functions::*;

/// The code with so many shards of data and of parity, over `BinaryField16`, by additive transforms. A word is an element, by its
/// representation. Shards have one size, which is not 0; those of data stand one after the other, and so do those of parity. A call
/// works in `space`, of `space_length` words or more: what that has before does not matter, and behind the call nothing is said of it.
///
/// ```
/// use binary_field::TransformCode;
///
/// let code = TransformCode::new(3, 2)?;
/// let mut space = vec![0; code.space_length()];
/// let (mut data, mut parity) = ([1, 2, 3], [0; 2]);
/// code.encode(&data, &mut parity, &mut space)?;
/// // Two of five shards of one word are lost.
/// data[..2].fill(0);
/// code.reconstruct(&mut data, &mut parity, &[false, false, true, true, true], &mut space)?;
/// assert_eq!(data, [1, 2, 3]);
/// # Ok::<(), binary_field::Error>(())
/// ```
#[derive(Clone, Copy, Debug, PartialEq, Eq)]
pub struct TransformCode {
    data: usize,
    parity: usize,
}

impl TransformCode {
    /// The code, where there is at least one shard of data and one of parity, and both numbers, that of data counted up to a power of two,
    /// are together at most 65,536.
    pub fn new(data: usize, parity: usize) -> Result<TransformCode, Error> {
        const MOST: usize = 1 << 16;
        if data == 0 || parity == 0 || data > MOST || parity > MOST - data.next_power_of_two() {
            return Err(Error::Code);
        }
        Ok(TransformCode { data, parity })
    }

    /// How many words of space a call works in: forty times the least power of two that is at least that sum.
    pub fn space_length(&self) -> usize {
        let mut length = 0;
        succeed(call!(bf_erasure_space: self.data, self.parity, &raw mut length));
        length as usize
    }

    /// Writes the shards of parity.
    pub fn encode(
        &self,
        shards: &[u16],
        parity_shards: &mut [u16],
        space: &mut [u16],
    ) -> Result<(), Error> {
        Error::of(
            call!(bf_erasure_encode: self.data, self.parity, [shards], [mut parity_shards], [mut space]),
        )
    }

    /// Whether the shards of parity are those of the data.
    pub fn verify(
        &self,
        shards: &[u16],
        parity_shards: &[u16],
        space: &mut [u16],
    ) -> Result<bool, Error> {
        let mut whole = 0;
        Error::of(
            call!(bf_erasure_verify: self.data, self.parity, [shards], [parity_shards], [mut space], &raw mut whole),
        )?;
        Ok(whole == 1)
    }

    /// Writes the missing shards: shard i, of the data and then of the parity, is missing where `present[i]` is false.
    pub fn reconstruct(
        &self,
        shards: &mut [u16],
        parity_shards: &mut [u16],
        present: &[bool],
        space: &mut [u16],
    ) -> Result<(), Error> {
        Error::of(
            call!(bf_erasure_reconstruct: self.data, self.parity, [mut shards], [mut parity_shards], [present], [mut space]),
        )
    }
}
