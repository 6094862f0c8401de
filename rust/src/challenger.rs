//! Challengers, which stand for a verifier in proofs without interaction, and the bytes by which transcripts know
//! elements.
//!
//! The names are those of p3-challenger and p3-symmetric. What a challenger draws depends on all that it observed
//! before; how well that stands for draws of a verifier is a matter of the hash function, which the caller brings.

use crate::space::sealed::Sealed;
use crate::{BasedVectorSpace, Field, PrimeCharacteristicRing, TowerLevel};
use alloc::vec::Vec;
use core::fmt;
use core::iter;
use core::marker::PhantomData;

mod transcript;

pub use transcript::{Recorder, TranscriptError, TranscriptField, TypeTag};

/// What observes values.
///
/// ```
/// use binary_field::challenger::{CanObserve, Recorder};
///
/// let mut recorder = Recorder::default();
/// recorder.observe(1_u8);
/// recorder.observe_slice(&[2, 3]);
/// assert_eq!(recorder.into_absorbed(), [1, 2, 3]);
/// ```
pub trait CanObserve<T> {
    /// Observes a value.
    fn observe(&mut self, value: T);

    /// Observes values in order.
    fn observe_slice(&mut self, values: &[T])
    where
        T: Clone,
    {
        values.iter().for_each(|it| self.observe(it.clone()));
    }
}

/// What draws values.
///
/// ```
/// use binary_field::challenger::CanSample;
///
/// struct Counter(u8);
///
/// impl CanSample<u8> for Counter {
///     fn sample(&mut self) -> u8 {
///         self.0 += 1;
///         self.0
///     }
/// }
/// assert_eq!(Counter(6).sample_array(), [7, 8]);
/// ```
pub trait CanSample<T> {
    /// Draws a value.
    fn sample(&mut self) -> T;

    /// Draws as many values as the array has places.
    fn sample_array<const N: usize>(&mut self) -> [T; N] {
        core::array::from_fn(|_| self.sample())
    }

    /// Draws so many values.
    fn sample_vec(&mut self, count: usize) -> Vec<T> {
        (0..count).map(|_| self.sample()).collect()
    }

    /// Draws a value for each place.
    fn sample_into_slice(&mut self, values: &mut [T]) {
        values.fill_with(|| self.sample());
    }
}

/// What draws numbers of some bits.
///
/// ```
/// use binary_field::challenger::CanSampleBits;
///
/// struct Ones;
///
/// impl CanSampleBits<usize> for Ones {
///     fn sample_bits(&mut self, bits: usize) -> usize {
///         (1 << bits) - 1
///     }
/// }
/// assert_eq!(Ones.sample_bits(3), 7);
/// ```
pub trait CanSampleBits<T> {
    /// Draws a number below 2^`bits`.
    fn sample_bits(&mut self, bits: usize) -> T;
}

/// That a draw would not have been uniform, which happens to no challenger here.
///
/// ```
/// assert_eq!(binary_field::challenger::ResamplingError.to_string(), "a draw is to be repeated");
/// ```
#[derive(Clone, Copy, Debug, PartialEq, Eq)]
pub struct ResamplingError;

impl fmt::Display for ResamplingError {
    fn fmt(&self, formatter: &mut fmt::Formatter<'_>) -> fmt::Result {
        formatter.write_str("a draw is to be repeated")
    }
}

impl core::error::Error for ResamplingError {}

/// What draws numbers of some bits, each as likely as every other where its bytes are.
///
/// ```
/// use binary_field::challenger::{CanSampleUniformBits, ResamplingError};
///
/// fn coin<F, C: CanSampleUniformBits<F>>(challenger: &mut C) -> Result<bool, ResamplingError> {
///     Ok(challenger.sample_uniform_bits::<true>(1)? == 1)
/// }
/// ```
pub trait CanSampleUniformBits<F> {
    /// Draws a number below 2^`bits`, again and again where RESAMPLE says so.
    fn sample_uniform_bits<const RESAMPLE: bool>(
        &mut self,
        bits: usize,
    ) -> Result<usize, ResamplingError>;
}

/// A challenger of elements of a field.
///
/// ```
/// use binary_field::challenger::FieldChallenger;
/// use binary_field::{BinaryField8, BinaryField128};
///
/// fn round<C: FieldChallenger<BinaryField8>>(challenger: &mut C, sent: BinaryField128) -> BinaryField128 {
///     challenger.observe_algebra_element(sent);
///     challenger.sample_algebra_element()
/// }
/// ```
pub trait FieldChallenger<F: Field>:
    CanObserve<F> + CanSample<F> + CanSampleBits<usize> + Sync
{
    /// Observes the coefficients of an element, that of 1 first.
    fn observe_algebra_element<A: BasedVectorSpace<F>>(&mut self, element: A) {
        self.observe_slice(element.as_basis_coefficients_slice());
    }

    /// Draws the coefficients of an element, that of 1 first.
    fn sample_algebra_element<A: BasedVectorSpace<F>>(&mut self) -> A {
        A::from_basis_coefficients_fn(|_| self.sample())
    }
}

/// A challenger that asks for work: a witness after which the next bits that it draws are zeros.
///
/// ```
/// use binary_field::challenger::GrindingChallenger;
///
/// fn has_worked<C: GrindingChallenger>(prover: &mut C, verifier: &mut C) -> bool {
///     let witness = prover.grind(8);
///     verifier.check_witness(8, witness)
/// }
/// ```
pub trait GrindingChallenger:
    CanObserve<Self::Witness> + CanSampleBits<usize> + Sync + Clone
{
    /// What is looked for.
    type Witness: PrimeCharacteristicRing;

    /// A witness for so many bits, observed, with the bits drawn.
    fn grind(&mut self, bits: usize) -> Self::Witness;

    /// Observes the witness, draws so many bits, and says whether they are zeros. For no bits it does nothing and
    /// is true.
    fn check_witness(&mut self, bits: usize, witness: Self::Witness) -> bool {
        if bits == 0 {
            return true;
        }
        self.observe(witness);
        self.sample_bits(bits) == 0
    }
}

/// A hash function.
///
/// ```
/// use binary_field::challenger::CryptographicHasher;
///
/// /// It shows the form alone, and is no hash function.
/// #[derive(Clone)]
/// struct Sum;
///
/// impl CryptographicHasher<u8, [u8; 1]> for Sum {
///     fn hash_iter<I: IntoIterator<Item = u8>>(&self, input: I) -> [u8; 1] {
///         [input.into_iter().fold(0, u8::wrapping_add)]
///     }
/// }
/// assert_eq!(Sum.hash_item(7), [7]);
/// ```
pub trait CryptographicHasher<Item: Clone, Out>: Clone {
    /// The hash of the items.
    fn hash_iter<I: IntoIterator<Item = Item>>(&self, input: I) -> Out;

    /// The hash of the items of slices, one behind the other.
    fn hash_iter_slices<'a, I: IntoIterator<Item = &'a [Item]>>(&self, input: I) -> Out
    where
        Item: 'a,
    {
        self.hash_iter(input.into_iter().flatten().cloned())
    }

    /// The hash of the items of a slice.
    fn hash_slice(&self, input: &[Item]) -> Out {
        self.hash_iter(input.iter().cloned())
    }

    /// The hash of one item.
    fn hash_item(&self, input: Item) -> Out {
        self.hash_iter(iter::once(input))
    }
}

/// A challenger of the items that a hash function takes: what it observed is hashed once a draw is asked for, and
/// the hash is what it draws, the last item first, and what the next hash begins with.
///
/// ```
/// use binary_field::challenger::{CanObserve, CanSample, CryptographicHasher, HashChallenger};
///
/// #[derive(Clone)]
/// struct Sums;
///
/// impl CryptographicHasher<u8, [u8; 2]> for Sums {
///     fn hash_iter<I: IntoIterator<Item = u8>>(&self, input: I) -> [u8; 2] {
///         input.into_iter().fold([0, 0], |[sum, sums], it| [sum + it, sums + sum + it])
///     }
/// }
/// let mut challenger = HashChallenger::new(vec![1], Sums);
/// challenger.observe(2);
/// assert_eq!(challenger.sample_array(), [4, 3, 10]);
/// ```
#[derive(Clone, Debug)]
pub struct HashChallenger<T, H, const OUT: usize> {
    observed: Vec<T>,
    drawn: Vec<T>,
    hasher: H,
}

impl<T, H, const OUT: usize> HashChallenger<T, H, OUT> {
    /// The challenger that observed these items.
    pub const fn new(initial_state: Vec<T>, hasher: H) -> Self {
        HashChallenger {
            observed: initial_state,
            drawn: Vec::new(),
            hasher,
        }
    }
}

impl<T: Clone, H: CryptographicHasher<T, [T; OUT]>, const OUT: usize> CanObserve<T>
    for HashChallenger<T, H, OUT>
{
    fn observe(&mut self, value: T) {
        self.drawn.clear();
        self.observed.push(value);
    }
}

impl<T: Clone, H: CryptographicHasher<T, [T; OUT]>, const OUT: usize> CanSample<T>
    for HashChallenger<T, H, OUT>
{
    fn sample(&mut self) -> T {
        if self.drawn.is_empty() {
            let hash = self.hasher.hash_slice(&self.observed);
            self.observed = hash.to_vec();
            self.drawn = hash.into();
        }
        self.drawn.pop().expect("a hash has items")
    }
}

/// A hash of N words, of the elements of G.
///
/// ```
/// use binary_field::{Ghash128, challenger::Hash};
///
/// let hash: Hash<Ghash128, u8, 2> = Hash::from([1, 2]);
/// assert_eq!(hash.as_ref(), &[1, 2]);
/// ```
#[derive(Clone, Copy, Debug, PartialEq, Eq)]
pub struct Hash<G, W, const N: usize> {
    words: [W; N],
    of: PhantomData<G>,
}

impl<G, W, const N: usize> From<[W; N]> for Hash<G, W, N> {
    fn from(words: [W; N]) -> Self {
        Hash {
            words,
            of: PhantomData,
        }
    }
}

impl<G, W, const N: usize> From<Hash<G, W, N>> for [W; N] {
    fn from(hash: Hash<G, W, N>) -> [W; N] {
        hash.words
    }
}

impl<G, W, const N: usize> AsRef<[W; N]> for Hash<G, W, N> {
    fn as_ref(&self) -> &[W; N] {
        &self.words
    }
}

impl<G, W, const N: usize> IntoIterator for Hash<G, W, N> {
    type Item = W;
    type IntoIter = core::array::IntoIter<W, N>;

    fn into_iter(self) -> Self::IntoIter {
        self.words.into_iter()
    }
}

/// The hashes at one depth of a Merkle tree, over the elements of G.
///
/// ```
/// use binary_field::{Ghash128, challenger::MerkleCap};
///
/// let cap: MerkleCap<Ghash128, [u8; 2]> = MerkleCap::new(vec![[1, 2], [3, 4]]);
/// assert_eq!(cap.roots()[1], [3, 4]);
/// ```
#[derive(Clone, Debug, PartialEq, Eq)]
pub struct MerkleCap<G, D> {
    roots: Vec<D>,
    of: PhantomData<G>,
}

impl<G, D> MerkleCap<G, D> {
    /// The hashes, from the left.
    pub const fn new(roots: Vec<D>) -> Self {
        MerkleCap {
            roots,
            of: PhantomData,
        }
    }

    /// The hashes, from the left.
    pub fn roots(&self) -> &[D] {
        &self.roots
    }
}

/// A word of a hash, as bytes: `u8` or `u64`.
///
/// ```
/// use binary_field::challenger::{Hash, HashWord};
///
/// fn words_of<G, W: HashWord, const N: usize>(hash: Hash<G, W, N>) -> Vec<W> {
///     hash.into_iter().collect()
/// }
/// assert_eq!(words_of(Hash::<(), u8, 2>::from([1, 2])), [1, 2]);
/// ```
pub trait HashWord: Copy + Sealed {
    #[doc(hidden)]
    type Bytes: AsRef<[u8]>;

    #[doc(hidden)]
    fn bytes(self) -> Self::Bytes;
}

macro_rules! hash_words {
    ($($word:ty),*) => {$(
        impl Sealed for $word {}

        impl HashWord for $word {
            type Bytes = [u8; size_of::<$word>()];

            fn bytes(self) -> Self::Bytes {
                self.to_le_bytes()
            }
        }
    )*};
}

hash_words!(u8, u64);

// How many bytes a draw of bits takes.
const BYTES_OF_BITS: usize = 8;

// So many bits of a witness are left beside those that are asked for, so that there is one with near certainty.
const SPARE_BITS: usize = 8;

/// A challenger of elements of F over one of bytes: elements are observed and drawn as their bytes, the lowest
/// first. Each pattern of bytes is an element, or loses the bits above one, so that no draw is repeated.
///
/// ```
/// use binary_field::challenger::{CanObserve, CanSample, CanSampleBits, CryptographicHasher, GrindingChallenger};
/// use binary_field::{BinaryChallenger, BinaryField128, Ghash128};
///
/// /// It shows the form alone, and is no hash function.
/// #[derive(Clone)]
/// struct Weak;
///
/// impl CryptographicHasher<u8, [u8; 32]> for Weak {
///     fn hash_iter<I: IntoIterator<Item = u8>>(&self, input: I) -> [u8; 32] {
///         let mut hash = [7_u8; 32];
///         for (place, byte) in input.into_iter().enumerate() {
///             hash[place % 32] = hash[(place + 5) % 32].wrapping_mul(31).wrapping_add(byte);
///         }
///         hash
///     }
/// }
/// let mut challenger = BinaryChallenger::<Ghash128, _>::from_hasher(vec![], Weak);
/// challenger.observe(Ghash128::new(5));
/// let _challenge: Ghash128 = challenger.sample();
/// assert!(challenger.sample_bits(5) < 32);
/// ```
#[derive(Clone, Debug)]
pub struct BinaryChallenger<F, Inner> {
    inner: Inner,
    of: PhantomData<F>,
}

impl<F, Inner> BinaryChallenger<F, Inner> {
    /// The challenger over one of bytes.
    pub const fn new(inner: Inner) -> Self {
        BinaryChallenger {
            inner,
            of: PhantomData,
        }
    }
}

impl<F, H: CryptographicHasher<u8, [u8; 32]>> BinaryChallenger<F, HashChallenger<u8, H, 32>> {
    /// The challenger over that of a hash function, which observed these bytes.
    pub const fn from_hasher(initial_state: Vec<u8>, hasher: H) -> Self {
        Self::new(HashChallenger::new(initial_state, hasher))
    }
}

impl<F: TowerLevel, Inner: CanObserve<u8>> CanObserve<F> for BinaryChallenger<F, Inner> {
    fn observe(&mut self, value: F) {
        value
            .into_bytes()
            .into_iter()
            .for_each(|it| self.inner.observe(it));
    }
}

impl<F, G, W: HashWord, const N: usize, Inner: CanObserve<u8>> CanObserve<Hash<G, W, N>>
    for BinaryChallenger<F, Inner>
{
    fn observe(&mut self, hash: Hash<G, W, N>) {
        for word in hash {
            self.inner.observe_slice(word.bytes().as_ref());
        }
    }
}

impl<F, G, W: HashWord, const N: usize, Inner: CanObserve<u8>> CanObserve<&MerkleCap<G, [W; N]>>
    for BinaryChallenger<F, Inner>
{
    fn observe(&mut self, cap: &MerkleCap<G, [W; N]>) {
        for word in cap.roots.as_flattened() {
            self.inner.observe_slice(word.bytes().as_ref());
        }
    }
}

impl<F, G, W: HashWord, const N: usize, Inner: CanObserve<u8>> CanObserve<MerkleCap<G, [W; N]>>
    for BinaryChallenger<F, Inner>
{
    fn observe(&mut self, cap: MerkleCap<G, [W; N]>) {
        self.observe(&cap);
    }
}

impl<F: TowerLevel, A: BasedVectorSpace<F>, Inner: CanSample<u8>> CanSample<A>
    for BinaryChallenger<F, Inner>
{
    fn sample(&mut self) -> A {
        A::from_basis_coefficients_fn(|_| {
            F::from_le_byte_iter(iter::repeat_with(|| self.inner.sample()))
        })
    }
}

impl<F: TowerLevel, Inner: CanSample<u8>> CanSampleBits<usize> for BinaryChallenger<F, Inner> {
    /// Draws eight bytes, of which the lowest bits are kept.
    ///
    /// # Panics
    ///
    /// Where so many bits are no `usize`.
    fn sample_bits(&mut self, bits: usize) -> usize {
        assert!(bits < usize::BITS as usize, "{bits} bits are no usize");
        let drawn: [u8; BYTES_OF_BITS] = self.inner.sample_array();
        (u64::from_le_bytes(drawn) & ((1 << bits) - 1)) as usize
    }
}

impl<F: TowerLevel, Inner: CanSample<u8>> CanSampleUniformBits<F> for BinaryChallenger<F, Inner> {
    fn sample_uniform_bits<const RESAMPLE: bool>(
        &mut self,
        bits: usize,
    ) -> Result<usize, ResamplingError> {
        Ok(self.sample_bits(bits))
    }
}

impl<F, Inner> GrindingChallenger for BinaryChallenger<F, Inner>
where
    F: TowerLevel,
    Inner: CanSample<u8> + CanObserve<u8> + Clone + Send + Sync,
{
    type Witness = F;

    /// The witness of the least representation. For no bits it is ZERO, and nothing is observed.
    ///
    /// # Panics
    ///
    /// Where fewer than eight bits of the field, or of 64, are left beside those that are asked for, and where
    /// there is no witness.
    fn grind(&mut self, bits: usize) -> F {
        if bits == 0 {
            return F::ZERO;
        }
        let most = F::bits().min(u64::BITS as usize);
        assert!(
            bits + SPARE_BITS <= most,
            "{bits} bits of work in a field of {}",
            F::bits()
        );
        let last = if most < 64 {
            (1 << most) - 1
        } else {
            u64::MAX - 1
        };
        for candidate in 0..=last {
            let bytes = candidate.to_le_bytes().into_iter().chain(iter::repeat(0));
            let witness = F::from_le_byte_iter(bytes);
            let mut tried = self.clone();
            if tried.check_witness(bits, witness) {
                *self = tried;
                return witness;
            }
        }
        panic!("there is no witness for {bits} bits")
    }
}

impl<F, Inner> FieldChallenger<F> for BinaryChallenger<F, Inner>
where
    F: TowerLevel,
    Inner: CanSample<u8> + CanObserve<u8> + Clone + Send + Sync,
{
}
