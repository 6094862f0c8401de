//! The same units over the types of the Rust crate.

use crate::draws::{EMPTY, Random, sum_of_bytes, sum_of_numbers, with_word};
use p3_binary_field::{
    ByteMatrix, Gf2, Ghash128, PackedRijndael8b, Rijndael8b, TowerLevel, poly_basis,
};
use p3_field::{Field, PackedValue, PrimeCharacteristicRing};

const CLASS_1: u64 = 0x2222_2222_2222_2222;

const CLASS_2: u64 = 0x4444_4444_4444_4444;

const CLASS_3: u64 = 0x8888_8888_8888_8888;

/// Masked products: the crate lends none, so a loop stands for them.
pub fn masked_products(rounds: u64, seed: u64, _: usize) -> u64 {
    let mut random = Random(seed);
    let words: [u64; 128] = std::array::from_fn(|_| random.word() & CLASS_1);
    let mut sums = [0; 128];
    for _ in 0..rounds {
        let factor = random.word() & CLASS_2;
        let mut products = words;
        for _ in 0..4 {
            multiply_masked(&mut products, factor, CLASS_3);
            multiply_masked(&mut products, factor, CLASS_1);
        }
        for (sum, product) in sums.iter_mut().zip(products) {
            *sum ^= product;
        }
    }
    sums.iter().fold(EMPTY, |sum, word| with_word(sum, *word))
}

#[inline(always)]
fn multiply_masked(words: &mut [u64], factor: u64, class: u64) {
    for word in words {
        *word = word.wrapping_mul(factor) & class;
    }
}

// The packing of this build of the crate, which may be the element itself: packings of four elements are as many of it as hold four.
type Packing = <Ghash128 as Field>::Packing;

const GROUPS: usize = 4 / <Packing as PackedValue>::WIDTH;

type Packings = [[Packing; 64]; GROUPS];

fn drawn_packings(random: &mut Random) -> Packings {
    let numbers = random.numbers(256);
    std::array::from_fn(|group| {
        std::array::from_fn(|place| {
            Packing::from_fn(|lane| {
                Ghash128::from_repr(numbers[4 * place + group * Packing::WIDTH + lane])
            })
        })
    })
}

fn drawn_factors(seed: u64) -> [Packings; 2] {
    let mut random = Random(seed);
    [(); 2].map(|()| drawn_packings(&mut random))
}

fn sum_of_packings(packings: &Packings) -> u64 {
    sum_of_numbers((0..64).flat_map(|place| {
        packings
            .iter()
            .flat_map(move |group| group[place].as_slice().iter().map(|lane| lane.to_repr()))
    }))
}

pub fn packed_ghash_product(rounds: u64, seed: u64, _: usize) -> u64 {
    let [mut left, right] = drawn_factors(seed);
    for _ in 0..rounds {
        for (left, right) in left.iter_mut().zip(&right) {
            for (left, right) in left.iter_mut().zip(right) {
                *left *= *right;
            }
        }
    }
    sum_of_packings(&left)
}

pub fn packed_ghash_by_element(rounds: u64, seed: u64, _: usize) -> u64 {
    let mut random = Random(seed);
    let mut packings = drawn_packings(&mut random);
    for _ in 0..rounds {
        let element = Ghash128::from_repr(random.number());
        for packing in packings.as_flattened_mut() {
            *packing *= element;
        }
    }
    sum_of_packings(&packings)
}

pub fn packed_ghash_dot_product(rounds: u64, seed: u64, _: usize) -> u64 {
    let [mut left, right] = drawn_factors(seed);
    for round in 0..rounds {
        for (left, right) in left.iter_mut().zip(&right) {
            left[(round % 64) as usize] = Packing::dot_product(left, right);
        }
    }
    sum_of_packings(&left)
}

pub fn mul_slice(rounds: u64, seed: u64, length: usize) -> u64 {
    let mut values = Random(seed).numbers(length);
    for _ in 0..rounds {
        let scalar = values[0];
        poly_basis::mul_slice(&mut values, scalar);
    }
    sum_of_numbers(values)
}

/// Products by one scalar that are added: a loop over single products.
pub fn add_products(rounds: u64, seed: u64, length: usize) -> u64 {
    let mut random = Random(seed);
    let mut values = random.numbers(length);
    let others = random.numbers(length);
    for _ in 0..rounds {
        let scalar = values[0];
        for (value, other) in values.iter_mut().zip(&others) {
            *value ^= poly_basis::mul(*other, scalar);
        }
    }
    sum_of_numbers(values)
}

pub fn butterfly_forward(rounds: u64, seed: u64, length: usize) -> u64 {
    let mut values = Random(seed).numbers(2 * length);
    let (low, high) = values.split_at_mut(length);
    for _ in 0..rounds {
        let scalar = low[0];
        poly_basis::butterfly_forward(low, high, scalar);
    }
    sum_of_numbers(values)
}

pub fn low_stages(rounds: u64, seed: u64, _: usize) -> u64 {
    let mut random = Random(seed);
    let shifts = random.numbers(4);
    let basis = random.numbers(13);
    let twiddles = poly_basis::LowStageTwiddles::new(&shifts, &basis);
    let mut values = random.numbers(1024);
    for _ in 0..rounds {
        twiddles.forward(&mut values, 0);
    }
    sum_of_numbers(values)
}

type Bytes<const N: usize> = [PackedRijndael8b<N>; 64];

fn drawn_bytes<const N: usize>(random: &mut Random) -> Bytes<N> {
    std::array::from_fn(|_| PackedRijndael8b::from_fn(|_| Rijndael8b::from_byte(random.byte())))
}

fn sum_of_packed_bytes<const N: usize>(packings: &Bytes<N>) -> u64 {
    sum_of_bytes(
        packings
            .iter()
            .flat_map(|packing| packing.as_slice().iter().map(|lane| lane.to_byte())),
    )
}

pub fn packed_bytes_product<const N: usize>(rounds: u64, seed: u64, _: usize) -> u64 {
    let mut random = Random(seed);
    let mut left = drawn_bytes::<N>(&mut random);
    let right = drawn_bytes::<N>(&mut random);
    for _ in 0..rounds {
        for (left, right) in left.iter_mut().zip(&right) {
            *left = *left * *right;
        }
    }
    sum_of_packed_bytes(&left)
}

pub fn packed_bytes_by_element<const N: usize>(rounds: u64, seed: u64, _: usize) -> u64 {
    let mut random = Random(seed);
    let mut packings = drawn_bytes::<N>(&mut random);
    for _ in 0..rounds {
        let element = Rijndael8b::from_byte(random.byte());
        for packing in &mut packings {
            *packing = *packing * element;
        }
    }
    sum_of_packed_bytes(&packings)
}

pub fn packed_bytes_by_bit<const N: usize>(rounds: u64, seed: u64, _: usize) -> u64 {
    let mut random = Random(seed);
    let mut packings = drawn_bytes::<N>(&mut random);
    let others = drawn_bytes::<N>(&mut random);
    let bits: [Gf2; 64] = std::array::from_fn(|_| Gf2::from_bool(random.word() % 2 == 1));
    for _ in 0..rounds {
        for ((packing, other), bit) in packings.iter_mut().zip(&others).zip(bits) {
            *packing = *packing * bit + *other;
        }
    }
    sum_of_packed_bytes(&packings)
}

pub fn packed_bytes_by_matrix<const N: usize>(rounds: u64, seed: u64, _: usize) -> u64 {
    let mut random = Random(seed);
    let mut packings = drawn_bytes::<N>(&mut random);
    let matrix = drawn_matrix(&mut random);
    for _ in 0..rounds {
        for packing in &mut packings {
            *packing = packing.apply(matrix);
        }
    }
    sum_of_packed_bytes(&packings)
}

fn drawn_matrix(random: &mut Random) -> ByteMatrix {
    let mut images = [1; 8];
    for bit in 1..8 {
        images[bit] = 1 << bit | random.byte() % (1 << bit);
    }
    ByteMatrix::from_images(images)
}

pub fn matrix(rounds: u64, seed: u64, length: usize) -> u64 {
    let mut random = Random(seed);
    let mut bytes = random.bytes(length);
    let matrix = drawn_matrix(&mut random);
    for _ in 0..rounds {
        matrix.apply_slice(&mut bytes);
    }
    sum_of_bytes(bytes)
}

pub fn bytes_by_scalar(rounds: u64, seed: u64, length: usize) -> u64 {
    let mut bytes = Random(seed).bytes(length);
    for _ in 0..rounds {
        let scalar = Rijndael8b::from_byte(bytes[0]);
        scalar.scaling_matrix().apply_slice(&mut bytes);
    }
    sum_of_bytes(bytes)
}
