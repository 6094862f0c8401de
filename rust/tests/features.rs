//! Number forms, draws and traits of numbers, which stand behind the features `serde`, `rand` and `num-traits`.
#![cfg(all(feature = "serde", feature = "rand", feature = "num-traits"))]

use binary_field::*;
use rand::distributions::{Distribution, Standard};
use rand::{Error as SourceError, Rng, RngCore};
use serde::Serialize;
use serde::de::DeserializeOwned;

// A source of bits from a fixed seed.
struct Source(u64);

impl RngCore for Source {
    fn next_u32(&mut self) -> u32 {
        (self.next_u64() >> 32) as u32
    }

    fn next_u64(&mut self) -> u64 {
        self.0 = self
            .0
            .wrapping_mul(6364136223846793005)
            .wrapping_add(1442695040888963407);
        self.0 ^ self.0 >> 29
    }

    fn fill_bytes(&mut self, bytes: &mut [u8]) {
        for byte in bytes {
            *byte = (self.next_u64() >> 56) as u8;
        }
    }

    fn try_fill_bytes(&mut self, bytes: &mut [u8]) -> Result<(), SourceError> {
        self.fill_bytes(bytes);
        Ok(())
    }
}

// Drawn elements are read back from their text, and not all of them are the same.
fn returns<F: Field + Serialize + DeserializeOwned>()
where
    Standard: Distribution<F>,
{
    let mut source = Source(47);
    let drawn: Vec<F> = (0..64).map(|_| source.r#gen()).collect();
    assert!(drawn.iter().any(|&it| it != drawn[0]));
    let text = serde_json::to_string(&drawn).unwrap();
    assert_eq!(serde_json::from_str::<Vec<F>>(&text).unwrap(), drawn);
}

#[test]
fn drawn_elements_return_from_their_numbers() {
    returns::<Gf2>();
    returns::<BinaryField2>();
    returns::<BinaryField4>();
    returns::<BinaryField8>();
    returns::<BinaryField16>();
    returns::<BinaryField32>();
    returns::<BinaryField64>();
    returns::<Rijndael8b>();
    returns::<Poly64>();
    returns::<Poly192>();
}

#[test]
fn packings_and_rows_are_drawn_place_by_place() {
    let (mut source, mut again) = (Source(5), Source(5));
    let packing: Packed<Ghash128, 4> = source.r#gen();
    assert_eq!(packing.0, [(); 4].map(|_| again.r#gen::<Ghash128>()));
    let row: PackedGf2x256 = source.r#gen();
    assert_eq!(row.words(), [(); 4].map(|_| again.next_u64()));
    let polynomial = LinearizedPoly8b::new([7; 8].map(Rijndael8b::new));
    let text = serde_json::to_string(&polynomial).unwrap();
    assert_eq!(
        (text.as_str(), serde_json::from_str(&text).ok()),
        ("[7,7,7,7,7,7,7,7]", Some(polynomial))
    );
}

#[test]
fn numbers_are_those_of_representations() {
    let text = |value: &dyn Fn() -> serde_json::Result<String>| value().unwrap();
    assert_eq!(
        text(&|| serde_json::to_string(&BinaryField16::new(0xa5c3))),
        "42435"
    );
    assert_eq!(text(&|| serde_json::to_string(&Ghash128::new(0x87))), "135");
    assert_eq!(
        text(&|| serde_json::to_string(&Poly192::from([1, 2, 3]))),
        "[1,2,3]"
    );
    assert_eq!(
        serde_json::from_str::<Ghash128>("135").unwrap(),
        Ghash128::new(0x87)
    );
}

#[test]
fn numbers_above_a_field_are_refused() {
    let refused = |text: &str, error: Option<serde_json::Error>| {
        let told = error.map(|it| it.to_string()).unwrap_or_default();
        assert!(told.starts_with("Value is out of range"), "{text}: {told}");
    };
    for (text, error) in [
        ("2", serde_json::from_str::<Gf2>("2").err()),
        ("4", serde_json::from_str::<BinaryField2>("4").err()),
        ("16", serde_json::from_str::<BinaryField4>("16").err()),
        ("255", serde_json::from_str::<BinaryField4>("255").err()),
    ] {
        refused(text, error);
    }
    assert_eq!(
        serde_json::from_str::<BinaryField2>("3").ok(),
        BinaryField2::new(3)
    );
    assert_eq!(
        serde_json::from_str::<BinaryField4>("15").ok(),
        BinaryField4::new(15)
    );
}

#[test]
fn elements_are_numbers_of_num_traits() {
    fn power<
        T: num_traits::Zero
            + num_traits::One
            + num_traits::Pow<u64, Output = T>
            + num_traits::Inv<Output = T>
            + Copy,
    >(
        x: T,
    ) -> (T, bool) {
        let other = num_traits::Pow::pow(x, 3) * x.inv() + T::zero();
        (other * T::one(), T::zero().is_zero() && !x.is_zero())
    }
    let x = Ghash128::new(0x1234 << 100);
    assert_eq!(power(x), (x.square(), true));
    assert_eq!(power(Gf2::ONE), (Gf2::ONE, true));
}
