//! More names of p3-binary-field 0.8.0 and of the crates beside it: the code below is one for both but for the
//! lines of `use`, and the numbers that it is compared with are the answers of p3-binary-field. Streams, powers and hash
//! challengers, whose code stands in p3-field and p3-challenger, were there those of stand-ins for these crates, written
//! anew after what their pages say.

mod drawn;

use binary_field::challenger::{
    CanObserve, CanSample, CanSampleBits, CanSampleUniformBits, CryptographicHasher,
    FieldChallenger, GrindingChallenger, Hash, MerkleCap, Recorder, TranscriptField,
};
use binary_field::{
    AlgebraIdentity, BasedVectorSpace, ExtensionField, HasFrobenius, PackedField,
    PackedFieldExtension, PackedFieldPow2, PackedValue, PrimeField32, PrimeField64, QuotientMap,
};
use binary_field::{BinaryChallenger, ByteMatrix, LinearizedPoly8b, PackedRijndael8b, TowerLevel};
use binary_field::{
    BinaryField2, BinaryField8, BinaryField16, BinaryField32, BinaryField64, BinaryField128,
};
use binary_field::{Divisible, M128, M256, M512, PackedGf2, Underlier, Word};
use binary_field::{Field, PrimeCharacteristicRing, RawDataSerializable};
use binary_field::{Gf2, Ghash128, Poly64, Poly192, Rijndael8b};
use drawn::Draw;

// A digest of bytes: the 64 bits of FNV-1a.
struct Digest(u64);

impl Digest {
    fn new() -> Digest {
        Digest(0xcbf2_9ce4_8422_2325)
    }

    fn take(&mut self, bytes: impl IntoIterator<Item = u8>) {
        for byte in bytes {
            self.0 = (self.0 ^ u64::from(byte)).wrapping_mul(0x0000_0100_0000_01b3);
        }
    }

    fn take_words(&mut self, words: impl IntoIterator<Item = u64>) {
        words.into_iter().for_each(|it| self.take(it.to_le_bytes()));
    }
}

fn wide(draw: &mut Draw) -> u128 {
    u128::from(draw.next()) << 64 | u128::from(draw.next())
}

// What rows of bits give.
fn of_rows<U: Underlier>(draw: &mut Draw) -> u64 {
    let mut digest = Digest::new();
    let mut rows: Vec<PackedGf2<U>> = (0..U::BITS)
        .map(|_| PackedGf2::new(U::from_words_fn(|_| U::Word::from_u64(draw.next()))))
        .collect();
    let (x, y) = (rows[0], rows[1]);
    let mut take = |row: PackedGf2<U>| digest.take_words(row.words().iter().map(|it| it.to_u64()));
    for it in [x + y, x - y, x * y, -x, x.square(), x.andn(&y), x.xor(&y)] {
        take(it);
    }
    for it in [x + Gf2::ONE, x * Gf2::ZERO, x / Gf2::ONE, x.bool_check()] {
        take(it);
    }
    take(PackedGf2::<U>::from_u8(3) + PackedGf2::broadcast(Gf2::ZERO));
    let mut length = 1;
    while length <= U::BITS {
        let (even, odd) = x.interleave(y, length);
        take(even);
        take(odd);
        length *= 2;
    }
    let mut changed = x;
    changed.set(U::BITS - 1, y.get(0));
    changed += Gf2::ONE;
    changed *= y;
    take(changed);
    take(PackedGf2::from_fn(|place| Gf2::from_bool(place % 3 == 1)));
    take(rows.iter().copied().sum());
    take(rows[..3].iter().copied().product());
    PackedGf2::transpose(&mut rows);
    rows.iter().for_each(|&it| take(it));
    digest.take(PackedGf2::as_bytes(&rows[..3]).iter().copied());
    digest.take_words([u64::from(x.count_ones()), U::BITS as u64]);
    digest.take(x.lanes().map(|it| it.to_repr()));
    digest.take(format!("{x:?}").bytes());
    digest.0
}

// What a row gives as narrower ones.
fn of_parts<U: Divisible<V>, V: Underlier>(draw: &mut Draw) -> u64 {
    let mut digest = Digest::new();
    let blocks: Vec<U> = (0..3)
        .map(|_| U::from_words_fn(|_| U::Word::from_u64(draw.next())))
        .collect();
    let mut rows: Vec<PackedGf2<U>> = blocks.iter().map(|&it| PackedGf2::new(it)).collect();
    rows[1].narrow_mut::<V>()[1] = PackedGf2::new(V::ONES);
    let narrow: &[PackedGf2<V>] = PackedGf2::narrow_slice(&rows);
    for it in narrow {
        digest.take_words(it.words().iter().map(|it| it.to_u64()));
    }
    for it in <U as Divisible<V>>::split_slice(&blocks) {
        digest.take_words(it.words().iter().map(|it| it.to_u64()));
    }
    assert_eq!(<U as Divisible<V>>::RATIO, blocks[0].parts().len());
    digest.0
}

// What maps of bytes give.
fn of_maps(draw: &mut Draw) -> u64 {
    let mut digest = Digest::new();
    let mut map = || ByteMatrix::from_images(draw.next().to_le_bytes());
    let (first, second) = (map(), map());
    let both = second.compose(first);
    digest.take_words([first, second, both, ByteMatrix::IDENTITY].map(ByteMatrix::to_quadword));
    digest.take(both.images());
    let mut bytes: Vec<u8> = (0..=255).collect();
    digest.take(bytes.iter().map(|&it| first.apply(it)));
    first.apply_slice(&mut bytes);
    digest.take(bytes);
    let coefficients = draw.next().to_le_bytes().map(Rijndael8b::from_byte);
    let polynomial = LinearizedPoly8b::new(coefficients);
    digest.take_words([polynomial.to_matrix().to_quadword()]);
    for byte in 0..=255 {
        let x = Rijndael8b::from_byte(byte);
        digest.take([polynomial.eval(x).to_byte(), x.invert_or_zero().to_byte()]);
        digest.take(x.frobenius_orbit().map(Rijndael8b::to_byte));
        digest.take_words([x.scaling_matrix().to_quadword()]);
    }
    digest.take_words((0..9).map(|log| Rijndael8b::frobenius_map(log).to_quadword()));
    let x = PackedRijndael8b::<16>::from_fn(|place| Rijndael8b::from_byte(17 * place as u8));
    let scalar = Rijndael8b::from_byte(0x53);
    for it in [
        x.apply(first),
        x.frobenius(3),
        x.invert_or_zero(),
        x * scalar,
        x / scalar,
    ] {
        digest.take(it.as_slice().iter().map(|it| it.to_byte()));
    }
    let (even, odd) = x.interleave(x * Gf2::ONE + scalar, 4);
    digest.take(
        even.as_slice()
            .iter()
            .chain(odd.as_slice())
            .map(|it| it.to_byte()),
    );
    digest.0
}

// What the packings of a field give, in whatever width they have.
fn of_packing<F: Field>(elements: &[F]) -> u64 {
    fn product_of<P: PackedField>(left: &[P::Scalar], right: &[P::Scalar]) -> Vec<P::Scalar> {
        let pairs = left
            .chunks_exact(P::WIDTH)
            .zip(right.chunks_exact(P::WIDTH));
        let products = pairs.map(|(x, y)| *P::from_slice(x) * *P::from_slice(y) + P::Scalar::ONE);
        products.flat_map(|it| it.as_slice().to_vec()).collect()
    }
    let reversed: Vec<F> = elements.iter().rev().copied().collect();
    let mut digest = Digest::new();
    for it in product_of::<F::Packing>(elements, &reversed) {
        digest.take(it.into_bytes());
    }
    digest.0
}

// What an extension gives: operators with the field below, names, coefficients, packings.
fn of_extension<F: Field, E: ExtensionField<F> + AlgebraIdentity<F> + HasFrobenius<F>>(
    elements: &[E],
    scalar: F,
) -> u64 {
    let mut digest = Digest::new();
    digest.take(E::algebra_id());
    for &x in elements {
        let mut changed = x * scalar + scalar;
        changed *= scalar;
        changed -= scalar;
        digest.take(changed.into_bytes());
        digest.take(x.pseudo_inv().into_bytes());
    }
    let below = E::flatten_to_base(elements.to_vec());
    digest.take(F::into_byte_stream(below.clone()));
    assert!(E::reconstitute_from_base(below) == elements);
    let packed = E::ExtensionPacking::from_ext_fn(|lane| elements[lane]);
    digest.take(packed.extract(0).into_bytes());
    let mut powers = E::ExtensionPacking::packed_ext_powers(elements[0]);
    let first = powers.next().unwrap();
    digest.take(first.extract(0).into_bytes());
    digest.0
}

// What elements give as streams.
fn of_streams<F: Field>(elements: &[F]) -> u64 {
    let mut digest = Digest::new();
    let pairs = || elements.iter().map(|&it| [it, it.square()]);
    digest.take(F::into_byte_stream(elements.iter().copied()));
    digest.take_words(
        F::into_u32_stream(elements.iter().copied())
            .into_iter()
            .map(u64::from),
    );
    digest.take_words(F::into_u64_stream(elements.iter().copied()));
    digest.take(F::into_parallel_byte_streams(pairs()).into_iter().flatten());
    let words = F::into_parallel_u32_streams(pairs()).into_iter().flatten();
    digest.take_words(words.map(u64::from));
    digest.take_words(F::into_parallel_u64_streams(pairs()).into_iter().flatten());
    digest.0
}

// It has the form of a hash function, and no more.
#[derive(Clone)]
struct Mix;

impl CryptographicHasher<u8, [u8; 32]> for Mix {
    fn hash_iter<I: IntoIterator<Item = u8>>(&self, input: I) -> [u8; 32] {
        let mut digest = Digest::new();
        digest.take(input);
        let mut draw = Draw(digest.0);
        core::array::from_fn(|_| draw.next() as u8)
    }
}

// What a challenger gives.
fn of_challenger<F, E>(x: F, y: E) -> u64
where
    F: TowerLevel,
    E: BasedVectorSpace<F> + RawDataSerializable + Copy,
{
    let mut digest = Digest::new();
    let mut challenger = BinaryChallenger::<F, _>::from_hasher(vec![1, 2, 3], Mix);
    challenger.observe(x);
    let drawn: F = challenger.sample();
    digest.take(drawn.into_bytes());
    challenger.observe_slice(&[x, drawn]);
    challenger.observe_algebra_element(y);
    let drawn: E = challenger.sample_algebra_element();
    digest.take(drawn.into_bytes());
    let hash: Hash<F, u8, 5> = Hash::from([1, 2, 3, 4, 5]);
    challenger.observe(hash);
    let hash: Hash<F, u64, 2> = Hash::from([1 << 40, 2]);
    challenger.observe(hash);
    let cap: MerkleCap<F, [u8; 3]> = MerkleCap::new(vec![[7, 8, 9], [10, 11, 12]]);
    challenger.observe(&cap);
    challenger.observe(cap);
    let cap: MerkleCap<F, [u64; 2]> = MerkleCap::new(vec![[7, 8]]);
    challenger.observe(cap);
    digest.take_words((0..64).map(|bits| challenger.sample_bits(bits) as u64));
    digest.take_words([challenger.sample_uniform_bits::<true>(17).unwrap() as u64]);
    assert!(challenger.grind(0).is_zero() && challenger.check_witness(0, x));
    let before = challenger.clone();
    let bits = F::bits().min(12) - 8;
    let witness = challenger.grind(bits);
    digest.take(witness.into_bytes());
    assert!(bits == 0 || before.clone().check_witness(bits, witness));
    digest.take_words([challenger.sample_bits(60) as u64]);
    digest.0
}

// What a field of transcripts gives.
fn of_transcript<F: TranscriptField>(x: F) -> u64 {
    let mut digest = Digest::new();
    for length in [0, 1, 7, 8, 9, 16, 31] {
        let mut recorder = Recorder::default();
        F::observe_seed(
            &mut recorder,
            &b"the bytes of a seed are not long"[..length],
        );
        for it in recorder.into_absorbed() {
            digest.take(it.into_bytes());
        }
    }
    let mut written = vec![1];
    F::encode(&x, &mut written);
    assert!(F::decode(&written[1..]).unwrap() == x && F::wire_len() == written.len() - 1);
    assert!(F::decode(&written[2..]).is_err());
    digest.take(written);
    digest.take(format!("{:?}", F::algebra_tag(3, [5; 32])).bytes());
    digest.0
}

// What the fields of 128 and 64 bits have beside those.
fn of_conversions(draw: &mut Draw) -> u64 {
    let mut digest = Digest::new();
    let tower: Vec<BinaryField128> = (0..130)
        .map(|_| BinaryField128::from_repr(wide(draw)))
        .collect();
    let values = Ghash128::from_tower_vec(tower.clone());
    digest.take(Ghash128::into_byte_stream(values.clone()));
    let halves = (0..130).map(|_| BinaryField64::from_repr(draw.next()));
    digest.take(Poly64::into_byte_stream(Poly64::from_tower_vec(
        halves.collect(),
    )));
    for length in [0, 1, 2, 17, 127, 128] {
        digest.take(Ghash128::dot_powers_of_x(&values[..length]).into_bytes());
    }
    digest.take(tower[0].reference_mul(tower[1]).into_bytes());
    assert!(tower[2].reference_mul(tower[3]) == tower[2] * tower[3]);
    let cubic = Poly192::new([
        Poly64::new(draw.next()),
        Poly64::new(3),
        Poly64::new(draw.next()),
    ]);
    digest.take(cubic.composed_mul(cubic + Poly64::new(5)).into_bytes());
    digest.take((cubic / Poly64::new(7)).into_bytes());
    digest.take(
        Ghash128::zero_vec(2)
            .into_iter()
            .flat_map(|it| it.into_bytes()),
    );
    digest.take((values[0] * tower[1] + tower[2] - BinaryField8::ONE).into_bytes());
    digest.take((tower[0] * BinaryField2::ONE).mul_2exp_u64(0).into_bytes());
    let integers = [
        Gf2::from_int(7_u8),
        Gf2::from_int(-2_i64),
        Gf2::from_int(-3_i128),
    ];
    digest.take(integers.map(|it| it.as_canonical_u32() as u8 + it.as_canonical_u64() as u8));
    assert_eq!((Gf2::ORDER_U32, Gf2::ORDER_U64), (2, 2));
    assert_eq!(Gf2::from_canonical_checked(2_u64), None);
    digest.0
}

fn of_blocks(draw: &mut Draw) -> Vec<u64> {
    vec![
        of_rows::<u8>(draw),
        of_rows::<u16>(draw),
        of_rows::<u32>(draw),
        of_rows::<u64>(draw),
        of_rows::<M128>(draw),
        of_rows::<M256>(draw),
        of_rows::<M512>(draw),
        of_parts::<M512, M256>(draw),
        of_parts::<M512, u8>(draw),
        of_parts::<M256, M128>(draw),
        of_parts::<M128, u32>(draw),
        of_parts::<u64, u16>(draw),
        of_parts::<u16, u8>(draw),
    ]
}

fn of_protocols(
    tower: &[BinaryField128],
    half: &[BinaryField16],
    poly: &[Ghash128],
    cubic: &[Poly192],
) -> [u64; 8] {
    [
        of_challenger(BinaryField8::from_repr(9), tower[0]),
        of_challenger(BinaryField16::from_repr(0x1234), half[0]),
        of_challenger(Poly64::new(5), cubic[0]),
        of_challenger(poly[0], poly[1]),
        of_transcript(BinaryField8::from_repr(0xa5)),
        of_transcript(BinaryField32::from_repr(0xa5c3_1234)),
        of_transcript(tower[1]),
        of_transcript(Poly64::new(0x0123_4567_89ab_cdef)),
    ]
}

fn answers() -> Vec<u64> {
    let mut draw = Draw(11);
    let mut found = of_blocks(&mut draw);
    let wides: Vec<u128> = (0..32).map(|_| wide(&mut draw)).collect();
    let each = wides.iter().copied();
    let bytes: Vec<Rijndael8b> = each
        .clone()
        .map(|it| Rijndael8b::from_byte(it as u8))
        .collect();
    let half: Vec<BinaryField16> = each
        .clone()
        .map(|it| BinaryField16::from_repr(it as u16))
        .collect();
    let tower: Vec<BinaryField128> = each.clone().map(BinaryField128::from_repr).collect();
    let poly: Vec<Ghash128> = each.map(Ghash128::from_repr).collect();
    let cubic: Vec<Poly192> = wides
        .windows(3)
        .map(|it| Poly192::new([0, 1, 2].map(|i| Poly64::new(it[i] as u64))))
        .collect();
    found.extend([
        of_maps(&mut draw),
        of_packing(&bytes),
        of_packing(&tower),
        of_packing(&poly),
        of_packing(&half),
    ]);
    found.extend([
        of_extension(&tower, BinaryField8::from_repr(0x35)),
        of_extension(&tower, BinaryField64::from_repr(77)),
    ]);
    found.extend([
        of_extension(&half, BinaryField8::from_repr(0x91)),
        of_extension(&cubic, Poly64::new(0x1234_5678_9abc)),
    ]);
    found.extend([
        of_streams(&bytes),
        of_streams(&half),
        of_streams(&half[..7]),
        of_streams(&cubic),
        of_streams(&[Gf2::ONE; 3]),
    ]);
    found.extend(of_protocols(&tower, &half, &poly, &cubic));
    found.push(of_conversions(&mut draw));
    found
}

#[test]
fn a_program_over_more_of_p3_binary_field_gives_the_same() {
    let found = answers();
    assert!(found == ANSWERS, "{found:#x?}");
}

// What the code above gives over p3-binary-field 0.8.0.
const ANSWERS: [u64; 36] = [
    0x2692cb98a79bf934,
    0x1fb97381235ed78c,
    0x1c88e177aab65e50,
    0x218f92b2d0ca48cb,
    0xc0256c1f22ba73ea,
    0xd777b346da12ad5c,
    0x23887e4c6226a28f,
    0x08d9bf185cbbe0a3,
    0xef60173be4903d3f,
    0x75652c8447974dac,
    0x29bde60e66441bc9,
    0x3f5818337c65ef76,
    0xa99b39539965d5bc,
    0xe4cb8b9d76a38db7,
    0xdb8b5cfbe66574a5,
    0x9485db17fec9e371,
    0xfe2fbbde61aef72d,
    0x57401f838355b03d,
    0xd82cbafec9aa5676,
    0x0d40df8ce404b466,
    0x0901b798f38b2129,
    0x6b10905b9180d1f5,
    0x0f21d2df78d5e943,
    0x7ce00ac9a8b28dfa,
    0xc3604495385ce2dc,
    0x68c7dc2bf39794ec,
    0x5efb364bf8970744,
    0xa9718e2782d676be,
    0x558989b3652f0777,
    0xfbdeae70e97da31b,
    0xab72e102f734e327,
    0xb68e7132e6836c63,
    0x8b7f509919175e5b,
    0x5d2fd9db84f52fe1,
    0x53adca49d211bb65,
    0x5345e00e368041e4,
];

// It draws zeros once it observed a byte that is not below the first.
#[derive(Clone)]
struct Since(u8, u8);

impl CanObserve<u8> for Since {
    fn observe(&mut self, value: u8) {
        self.1 = self.1.max(value);
    }
}

impl CanSample<u8> for Since {
    fn sample(&mut self) -> u8 {
        if self.1 < self.0 { 255 } else { 0 }
    }
}

#[test]
fn work_ends_with_the_least_witness() {
    for least in [0, 1, 7, 200] {
        let mut challenger = BinaryChallenger::<Ghash128, _>::new(Since(least, 0));
        assert_eq!(challenger.grind(8), Ghash128::from_repr(least.into()));
    }
}
