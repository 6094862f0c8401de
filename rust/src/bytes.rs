//! Hashes of authentication tags, and Reed-Solomon codes over bytes.

use crate::Error;
use crate::error::succeed;
use crate::functions::*;
use core::fmt;

// A hash of a message under a key.
type Hash = unsafe extern "C" fn(*const u8, usize, *const u8, usize, *mut u8, usize) -> u32;

fn hashed(function: Hash, key: &[u8; 16], message: &[u8]) -> [u8; 16] {
    let mut hash = [0; 16];
    succeed(call!(function: [key], [message], [mut hash]));
    hash
}

/// GHASH of the message (NIST SP 800-38D), with zeros added to whole blocks.
///
/// ```
/// use binary_field::{Ghash128, ghash};
///
/// // The hash of one block is its product with the key, with the bits of every byte reversed.
/// let element = |bytes: [u8; 16]| Ghash128::new(u128::from_be_bytes(bytes).reverse_bits());
/// let (key, block) = ([0x35; 16], [0x9c; 16]);
/// assert_eq!(element(ghash(&key, &block)), element(key) * element(block));
/// ```
pub fn ghash(key: &[u8; 16], message: &[u8]) -> [u8; 16] {
    hashed(bf_tag_ghash, key, message)
}

/// POLYVAL of the message (RFC 8452), with zeros added to whole blocks.
///
/// ```
/// use binary_field::polyval;
///
/// // A message that is no whole number of blocks ends in zeros.
/// assert_eq!(polyval(&[7; 16], &[1]), polyval(&[7; 16], &[1, 0, 0]));
/// assert_eq!(polyval(&[7; 16], &[0; 40]), [0; 16]);
/// ```
pub fn polyval(key: &[u8; 16], message: &[u8]) -> [u8; 16] {
    hashed(bf_tag_polyval, key, message)
}

/// The hash of GCM over associated data and ciphertext, with the block of their lengths.
///
/// ```
/// use binary_field::{gcm_ghash, ghash};
///
/// // The last block has both lengths in bits, the highest byte first.
/// let mut blocks = [0; 48];
/// blocks[..2].copy_from_slice(&[1, 2]);
/// blocks[16] = 3;
/// (blocks[39], blocks[47]) = (16, 8);
/// assert_eq!(gcm_ghash(&[7; 16], &[1, 2], &[3]), ghash(&[7; 16], &blocks));
/// ```
pub fn gcm_ghash(key: &[u8; 16], associated: &[u8], ciphertext: &[u8]) -> [u8; 16] {
    let mut hash = [0; 16];
    succeed(call!(bf_tag_gcm_ghash: [key], [associated], [ciphertext], [mut hash]));
    hash
}

// A hash of a message in pieces, by the functions of the library.
macro_rules! in_pieces {
    ($(#[$about:meta])* $name:ident, $init:ident, $update:ident, $pad:ident, $last:ident) => {
        $(#[$about])*
        ///
        /// A copy goes on by itself, and one of the empty message serves for many messages. It tells the key.
        #[derive(Clone)]
        pub struct $name(pub(crate) [u64; 13]);

        impl $name {
            /// The hash of the empty message under the key.
            pub fn new(key: &[u8; 16]) -> $name {
                let mut state = [0; 13];
                succeed(call!($init: &raw mut state, [key]));
                $name(state)
            }

            /// Adds bytes to the message, of any number: no zeros come between them and the next ones.
            pub fn update(&mut self, message: &[u8]) {
                succeed(call!($update: &raw mut self.0, [message]));
            }

            /// Adds as many zeros as make the message whole blocks of 16 bytes, which may be none.
            pub fn pad(&mut self) {
                succeed(call!($pad: &raw mut self.0));
            }

            /// The hash of the message, with zeros added to whole blocks. The message is then empty, under the same key.
            pub fn finalize_reset(&mut self) -> [u8; 16] {
                let mut hash = [0; 16];
                succeed(call!($last: &raw mut self.0, [mut hash]));
                hash
            }

            /// The hash of the message, with zeros added to whole blocks.
            pub fn finalize(mut self) -> [u8; 16] {
                self.finalize_reset()
            }
        }

        // It does not show what tells the key.
        impl fmt::Debug for $name {
            fn fmt(&self, formatter: &mut fmt::Formatter<'_>) -> fmt::Result {
                formatter.debug_struct(stringify!($name)).finish_non_exhaustive()
            }
        }
    };
}

in_pieces! {
    /// GHASH (NIST SP 800-38D) of a message that comes in pieces of any length, as [`ghash`] is that of a whole one.
    ///
    /// ```
    /// use binary_field::{Ghash, ghash};
    ///
    /// let mut hash = Ghash::new(&[7; 16]);
    /// hash.update(b"a message in ");
    /// hash.update(b"two pieces");
    /// assert_eq!(hash.finalize(), ghash(&[7; 16], b"a message in two pieces"));
    /// ```
    Ghash, bf_tag_ghash_init, bf_tag_ghash_update, bf_tag_ghash_pad, bf_tag_ghash_final
}

in_pieces! {
    /// POLYVAL (RFC 8452) of a message that comes in pieces of any length, as [`polyval`] is that of a whole one.
    ///
    /// ```
    /// use binary_field::{Polyval, polyval};
    ///
    /// let of_key = Polyval::new(&[7; 16]);
    /// let mut hash = of_key.clone();
    /// hash.update(b"one of many messages");
    /// assert_eq!(hash.finalize(), polyval(&[7; 16], b"one of many messages"));
    /// ```
    Polyval, bf_tag_polyval_init, bf_tag_polyval_update, bf_tag_polyval_pad, bf_tag_polyval_final
}

impl Ghash {
    /// What [`gcm_ghash`] gives, where the message is the associated data, [`pad`](Ghash::pad) behind them, and the ciphertext, by their
    /// lengths in bytes. [`Error::Length`] where one is 2^61 or more.
    pub fn finalize_gcm(
        mut self,
        associated_length: usize,
        ciphertext_length: usize,
    ) -> Result<[u8; 16], Error> {
        let mut hash = [0; 16];
        Error::of(
            call!(bf_tag_gcm_ghash_final: &raw mut self.0, associated_length, ciphertext_length, [mut hash]),
        )?;
        Ok(hash)
    }
}

/// Whether the two have the same bytes. Nothing is claimed on the time that it takes.
///
/// ```
/// assert!(binary_field::tags_are_equal(&[1, 2], &[1, 2]) && !binary_field::tags_are_equal(&[1, 2], &[1]));
/// ```
pub fn tags_are_equal(left: &[u8], right: &[u8]) -> bool {
    let mut equal = 0;
    succeed(call!(bf_tags_are_equal: [left], [right], &raw mut equal));
    equal == 1
}

// A function that writes missing shards.
type Restoring = unsafe extern "C" fn(usize, usize, *mut u8, usize, *const u8, usize) -> u32;

/// The code with so many shards of data and of parity, over bytes modulo x^8 + x^4 + x^3 + x^2 + 1. Shards of one size, which is not
/// 0, stand one after the other, those of data first.
///
/// ```
/// use binary_field::ReedSolomon;
///
/// let code = ReedSolomon::new(3, 2)?;
/// let mut shards = *b"abcdef....";
/// code.encode(&mut shards)?;
/// let whole = shards;
/// // Two of five shards of two bytes are lost.
/// shards[2..4].fill(0);
/// shards[8..].fill(0);
/// code.reconstruct(&mut shards, &[true, false, true, true, false])?;
/// assert_eq!(shards, whole);
/// # Ok::<(), binary_field::Error>(())
/// ```
#[derive(Clone, Copy, Debug, PartialEq, Eq)]
pub struct ReedSolomon {
    data: usize,
    parity: usize,
}

impl ReedSolomon {
    /// The code, where there is at least one shard of data and one of parity, and at most 256 in all.
    pub fn new(data: usize, parity: usize) -> Result<ReedSolomon, Error> {
        if data == 0 || parity == 0 || data > 255 || parity > 256 - data {
            return Err(Error::Code);
        }
        Ok(ReedSolomon { data, parity })
    }

    /// Writes the shards of parity.
    pub fn encode(&self, shards: &mut [u8]) -> Result<(), Error> {
        Error::of(call!(bf_rs_encode: self.data, self.parity, [mut shards]))
    }

    /// Whether the shards of parity are those of the data.
    pub fn verify(&self, shards: &[u8]) -> Result<bool, Error> {
        let mut whole = 0;
        Error::of(call!(bf_rs_verify: self.data, self.parity, [shards], &raw mut whole))?;
        Ok(whole == 1)
    }

    /// How many bytes the tables of the code take: 32 for each pair of a shard of data and one of parity, where those of parity are
    /// counted up to a multiple of four.
    pub fn tables_length(&self) -> usize {
        let mut length = 0;
        succeed(call!(bf_rs_tables_length: self.data, self.parity, &raw mut length));
        length as usize
    }

    /// The code with its tables, which are written into `tables`, of `tables_length` bytes. They are read faster from a multiple of 16 on.
    pub fn prepare<'a>(&self, tables: &'a mut [u8]) -> Result<Prepared<'a>, Error> {
        Error::of(call!(bf_rs_prepare: self.data, self.parity, [mut tables]))?;
        Ok(Prepared {
            code: *self,
            tables,
        })
    }

    /// Writes the missing shards: shard i is missing where `present[i]` is false.
    pub fn reconstruct(&self, shards: &mut [u8], present: &[bool]) -> Result<(), Error> {
        self.restored(bf_rs_reconstruct, shards, present)
    }

    /// Writes the missing shards of data alone.
    pub fn reconstruct_data(&self, shards: &mut [u8], present: &[bool]) -> Result<(), Error> {
        self.restored(bf_rs_reconstruct_data, shards, present)
    }

    /// What restores the missing shards of stripes that all lack the same ones: its tables are written into `tables`, of `tables_length` bytes. They
    /// are read faster from a multiple of 16 on.
    pub fn prepare_reconstruct<'a>(
        &self,
        present: &'a [bool],
        tables: &'a mut [u8],
    ) -> Result<PreparedReconstruct<'a>, Error> {
        Error::of(
            call!(bf_rs_prepare_reconstruct: self.data, self.parity, [present], [mut tables]),
        )?;
        Ok(PreparedReconstruct {
            code: *self,
            present,
            tables,
        })
    }

    /// Writes the missing shards of shards that stand apart, all of one size.
    pub fn reconstruct_shards<S: AsRef<[u8]> + AsMut<[u8]>>(
        &self,
        shards: &mut [S],
        present: &[bool],
    ) -> Result<(), Error> {
        self.restore_shards(shards, present, self.data + self.parity)
    }

    /// Writes the missing shards of data alone of shards that stand apart, all of one size.
    pub fn reconstruct_data_shards<S: AsRef<[u8]> + AsMut<[u8]>>(
        &self,
        shards: &mut [S],
        present: &[bool],
    ) -> Result<(), Error> {
        self.restore_shards(shards, present, self.data)
    }

    // Writes the missing shards before shard `until`, each as the sum of the products of the present ones by their factors.
    fn restore_shards<S: AsRef<[u8]> + AsMut<[u8]>>(
        &self,
        shards: &mut [S],
        present: &[bool],
        until: usize,
    ) -> Result<(), Error> {
        let size = shards.first().map_or(0, |it| it.as_ref().len());
        if shards.len() != self.data + self.parity
            || present.len() != shards.len()
            || size == 0
            || shards.iter().any(|it| it.as_ref().len() != size)
        {
            return Err(Error::Length);
        }
        let mut factors = [0; 256];
        let factors = &mut factors[..shards.len()];
        for lost in (0..until).filter(|&it| !present[it]) {
            Error::of(
                call!(bf_rs_shard_factors: self.data, self.parity, [present], lost, [mut factors]),
            )?;
            shards[lost].as_mut().fill(0);
            for (at, &factor) in factors.iter().enumerate() {
                if factor != 0 {
                    let (shard, sums) = two_of(shards, at, lost);
                    succeed(call!(bf_rs_add_multiple: factor, [shard], [mut sums]));
                }
            }
        }
        Ok(())
    }

    fn restored(
        &self,
        function: Restoring,
        shards: &mut [u8],
        present: &[bool],
    ) -> Result<(), Error> {
        Error::of(call!(function: self.data, self.parity, [mut shards], [present]))
    }
}

// The bytes of a shard that is read, and of another one that is written.
fn two_of<S: AsRef<[u8]> + AsMut<[u8]>>(
    shards: &mut [S],
    read: usize,
    written: usize,
) -> (&[u8], &mut [u8]) {
    if read < written {
        let (front, back) = shards.split_at_mut(written);
        (front[read].as_ref(), back[0].as_mut())
    } else {
        let (front, back) = shards.split_at_mut(read);
        (back[0].as_ref(), front[written].as_mut())
    }
}

/// What restores the missing shards of stripes that all lack the same ones, by tables that are made once.
///
/// ```
/// use binary_field::ReedSolomon;
///
/// let code = ReedSolomon::new(3, 2)?;
/// let (mut shards, mut tables) = (*b"abcdef....", vec![0; code.tables_length()]);
/// code.encode(&mut shards)?;
/// let whole = shards;
/// let prepared = code.prepare_reconstruct(&[true, false, true, true, false], &mut tables)?;
/// shards[2..4].fill(0);
/// prepared.reconstruct_data(&mut shards)?;
/// assert_eq!(shards, whole);
/// # Ok::<(), binary_field::Error>(())
/// ```
#[derive(Clone, Copy, Debug)]
pub struct PreparedReconstruct<'a> {
    code: ReedSolomon,
    present: &'a [bool],
    tables: &'a [u8],
}

impl PreparedReconstruct<'_> {
    /// The code.
    pub fn code(&self) -> ReedSolomon {
        self.code
    }

    /// Writes the missing shards.
    pub fn reconstruct(&self, shards: &mut [u8]) -> Result<(), Error> {
        Error::of(
            call!(bf_rs_reconstruct_prepared: self.code.data, self.code.parity, [self.tables], [mut shards], [self.present]),
        )
    }

    /// Writes the missing shards of data alone.
    pub fn reconstruct_data(&self, shards: &mut [u8]) -> Result<(), Error> {
        Error::of(
            call!(bf_rs_reconstruct_data_prepared: self.code.data, self.code.parity, [self.tables], [mut shards], [self.present]),
        )
    }
}

/// A code with its tables, made once, so that a call makes none: that counts where shards are small.
///
/// ```
/// use binary_field::ReedSolomon;
///
/// let code = ReedSolomon::new(3, 2)?;
/// let mut tables = vec![0; code.tables_length()];
/// let prepared = code.prepare(&mut tables)?;
/// let (mut shards, mut parity) = (*b"abcdef....", [[0; 2]; 2]);
/// prepared.encode(&mut shards)?;
/// prepared.encode_shards(&[b"ab", b"cd", b"ef"], &mut parity)?;
/// assert_eq!(shards[6..], parity.concat());
/// # Ok::<(), binary_field::Error>(())
/// ```
#[derive(Clone, Copy, Debug)]
pub struct Prepared<'a> {
    code: ReedSolomon,
    tables: &'a [u8],
}

impl Prepared<'_> {
    /// The code.
    pub fn code(&self) -> ReedSolomon {
        self.code
    }

    /// Writes the shards of parity.
    pub fn encode(&self, shards: &mut [u8]) -> Result<(), Error> {
        Error::of(
            call!(bf_rs_encode_prepared: self.code.data, self.code.parity, [self.tables], [mut shards]),
        )
    }

    /// Adds to `sums` what a shard of data is in a shard of parity, both counted from 0. Once each shard of data was added to zeros, in any
    /// order, `sums` is that shard of parity.
    pub fn add_shard(
        &self,
        data_shard: usize,
        parity_shard: usize,
        shard: &[u8],
        sums: &mut [u8],
    ) -> Result<(), Error> {
        Error::of(
            call!(bf_rs_add_shard: self.code.data, self.code.parity, [self.tables], data_shard, parity_shard, [shard], [mut sums]),
        )
    }

    /// Writes the shards of parity of shards that stand apart, all of one size.
    pub fn encode_shards<D: AsRef<[u8]>, P: AsMut<[u8]>>(
        &self,
        data: &[D],
        parity: &mut [P],
    ) -> Result<(), Error> {
        let size = data.first().map_or(0, |it| it.as_ref().len());
        if data.len() != self.code.data
            || parity.len() != self.code.parity
            || size == 0
            || data.iter().any(|it| it.as_ref().len() != size)
            || parity.iter_mut().any(|it| it.as_mut().len() != size)
        {
            return Err(Error::Length);
        }
        for (row, sums) in parity.iter_mut().enumerate() {
            sums.as_mut().fill(0);
            for (at, shard) in data.iter().enumerate() {
                self.add_shard(at, row, shard.as_ref(), sums.as_mut())?;
            }
        }
        Ok(())
    }

    /// Whether the shards of parity are those of the data.
    pub fn verify(&self, shards: &[u8]) -> Result<bool, Error> {
        let mut whole = 0;
        Error::of(
            call!(bf_rs_verify_prepared: self.code.data, self.code.parity, [self.tables], [shards], &raw mut whole),
        )?;
        Ok(whole == 1)
    }
}
