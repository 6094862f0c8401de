//! The functions by the carryless multiply instruction give what the proved ones give.
#![cfg(feature = "hardware")]

mod drawn;

use binary_field::{
    BinaryField64, BinaryField128, Carryless, Error, Field, Ghash, Ghash128, Hardware,
    HashInPieces, Poly64, Polyval,
};
use binary_field::{
    butterfly_forward, butterfly_inverse, gcm_ghash, ghash, inverse_transform, low_stages, polyval,
    transform,
};
use drawn::Draw;

fn number(draw: &mut Draw) -> u128 {
    u128::from(draw.next()) << 64 | u128::from(draw.next())
}

// The functions, or nothing on a machine without the instruction, where there is nothing to test.
fn hardware() -> Option<Hardware> {
    let found = Hardware::begin();
    #[cfg(target_arch = "x86_64")]
    assert_eq!(found.is_some(), std::is_x86_feature_detected!("pclmulqdq"));
    found
}

fn arithmetic<F: Carryless + Field + PartialEq + core::fmt::Debug>(of: impl Fn(u128) -> F) {
    let Some(hardware) = hardware() else { return };
    let mut draw = Draw(5);
    for n in [0, 1, 2, 3, 4, 5, 15, 16, 17, 64, 257] {
        let mut next = || {
            (0..n)
                .map(|i| {
                    if i % 6 == 5 {
                        F::ZERO
                    } else {
                        of(number(&mut draw))
                    }
                })
                .collect::<Vec<F>>()
        };
        let (a, b, mut out) = (next(), next(), vec![F::ZERO; n]);
        let scalar = of(0x1234_5678_9abc_def0_0fed_cba9_8765_4321);
        hardware.multiply(&a, &b, &mut out).unwrap();
        assert!((0..n).all(|i| out[i] == a[i] * b[i]));
        hardware.multiply_by(&a, scalar, &mut out).unwrap();
        assert!((0..n).all(|i| out[i] == a[i] * scalar));
        hardware.add_scaled(&mut out, scalar, &b).unwrap();
        assert!((0..n).all(|i| out[i] == (a[i] + b[i]) * scalar));
        hardware.square(&a, &mut out).unwrap();
        assert!((0..n).all(|i| out[i] == a[i].square()));
        hardware.inverse(&a, &mut out).unwrap();
        assert!((0..n).all(|i| out[i] == a[i].try_inverse().unwrap_or(F::ZERO)));
        hardware.power(&a, 11, &mut out).unwrap();
        assert!((0..n).all(|i| out[i] == a[i].exp_u64(11)));
        let sum = (0..n).fold(F::ZERO, |sum, i| sum + a[i] * b[i]);
        assert_eq!(hardware.dot_product(&a, &b), Ok(sum));
        hardware.evaluate(&[scalar, sum], &a, &mut out).unwrap();
        assert!((0..n).all(|i| out[i] == scalar + a[i] * sum));
        out.push(F::ZERO);
        assert_eq!(hardware.multiply(&a, &b, &mut out), Err(Error::Length));
        assert_eq!(hardware.dot_product(&a, &out), Err(Error::Length));
    }
}

#[test]
fn fields() {
    arithmetic(Ghash128::new);
    arithmetic(|it| Poly64::new(it as u64));
}

#[test]
fn products_of_the_tower() {
    let Some(hardware) = hardware() else { return };
    let mut draw = Draw(6);
    for _ in 0..100 {
        let (a, b) = (number(&mut draw), number(&mut draw));
        let (x, y) = (BinaryField128::new(a), BinaryField128::new(b));
        assert_eq!(hardware.product_128(x, y), x * y);
        let (x, y) = (BinaryField64::new(a as u64), BinaryField64::new(b as u64));
        assert_eq!(hardware.product_64(x, y), x * y);
    }
}

#[test]
fn stages() {
    let Some(hardware) = hardware() else { return };
    let mut draw = Draw(7);
    for m in 0..11 {
        let mut next = |n: usize| {
            (0..n)
                .map(|_| Ghash128::new(number(&mut draw)))
                .collect::<Vec<_>>()
        };
        let (a, b, basis, shifts, runs) = (
            next(1 << m),
            next(1 << m),
            next(m + 9),
            next(4),
            next(16 * m),
        );
        let same = |ours: &dyn Fn(&mut [Ghash128], &mut [Ghash128]),
                    proved: &dyn Fn(&mut [Ghash128], &mut [Ghash128])| {
            let (mut x, mut y, mut u, mut v) = (a.clone(), b.clone(), a.clone(), b.clone());
            ours(&mut x, &mut y);
            proved(&mut u, &mut v);
            assert_eq!((x, y), (u, v));
        };
        let s = shifts[0];
        same(
            &|x, y| hardware.butterfly_forward(x, y, s).unwrap(),
            &|x, y| butterfly_forward(x, y, s).unwrap(),
        );
        same(
            &|x, y| hardware.butterfly_inverse(x, y, s).unwrap(),
            &|x, y| butterfly_inverse(x, y, s).unwrap(),
        );
        same(&|x, _| hardware.transform(x, s).unwrap(), &|x, _| {
            transform(x, s).unwrap()
        });
        same(
            &|x, _| hardware.inverse_transform(x, s).unwrap(),
            &|x, _| inverse_transform(x, s).unwrap(),
        );
        let (mut x, mut y) = (runs.clone(), runs);
        hardware.low_stages(&mut x, &shifts, &basis, m).unwrap();
        low_stages(&mut y, &shifts, &basis, m).unwrap();
        assert_eq!(x, y);
    }
}

#[test]
fn hashes() {
    let Some(hardware) = hardware() else { return };
    let mut draw = Draw(8);
    let key = number(&mut draw).to_le_bytes();
    let message: Vec<u8> = (0..1000).map(|_| draw.next() as u8).collect();
    for length in (0..200).chain([512, 1000]) {
        let part = &message[..length];
        assert_eq!(hardware.ghash(&key, part), ghash(&key, part));
        assert_eq!(hardware.polyval(&key, part), polyval(&key, part));
        let (associated, text) = part.split_at(length / 3);
        assert_eq!(
            hardware.gcm_ghash(&key, associated, text),
            gcm_ghash(&key, associated, text)
        );
    }
}

// Pieces that go by both kinds of functions in turn, against the whole message.
fn in_pieces<H: HashInPieces + Clone>(
    new: impl Fn(&[u8; 16]) -> H,
    update: impl Fn(&mut H, &[u8]),
    finalize: impl Fn(H) -> [u8; 16],
    whole: impl Fn(&[u8; 16], &[u8]) -> [u8; 16],
) {
    let Some(hardware) = hardware() else { return };
    let mut draw = Draw(9);
    for length in 0..200 {
        let key = number(&mut draw).to_le_bytes();
        let message: Vec<u8> = (0..length).map(|_| draw.next() as u8).collect();
        let (mut ours, mut proved) = (hardware.new_hash::<H>(&key), new(&key));
        for (turn, part) in message.chunks(1 + length / 3).enumerate() {
            let (one, other) = if turn % 2 == 0 {
                (&mut ours, &mut proved)
            } else {
                (&mut proved, &mut ours)
            };
            hardware.update(one, part);
            update(other, part);
        }
        assert_eq!(
            [hardware.finalize(ours.clone()), finalize(ours.clone())],
            [whole(&key, &message); 2]
        );
        assert_eq!(
            [hardware.finalize(proved.clone()), finalize(proved.clone())],
            [whole(&key, &message); 2]
        );
        hardware.pad(&mut ours);
        update(&mut ours, b"more");
        let padded = [
            &message[..],
            &vec![0; message.len().next_multiple_of(16) - message.len()],
            b"more",
        ]
        .concat();
        assert_eq!(hardware.finalize_reset(&mut ours), whole(&key, &padded));
        assert_eq!(finalize(ours), [0; 16]);
    }
}

#[test]
fn hashes_in_pieces() {
    in_pieces(Ghash::new, Ghash::update, Ghash::finalize, ghash);
    in_pieces(Polyval::new, Polyval::update, Polyval::finalize, polyval);
    let Some(hardware) = hardware() else { return };
    let (key, associated, text) = ([7; 16], [1; 21], [2; 40]);
    let mut hash: Ghash = hardware.new_hash(&key);
    hardware.update(&mut hash, &associated);
    hardware.pad(&mut hash);
    hardware.update(&mut hash, &text);
    assert_eq!(
        hardware.finalize_gcm(hash.clone(), 21, 40),
        Ok(gcm_ghash(&key, &associated, &text))
    );
    assert_eq!(hardware.finalize_gcm(hash, 21, 1 << 61), Err(Error::Length));
}
