//! The fields. Written by scripts/make_bindings.py; do not edit.

use crate::error::succeed;
use crate::functions::*;
use crate::space::sealed::Sealed;
use crate::words::Word;
use crate::{
    Algebra, AlgebraIdentity, BasedVectorSpace, Error, ExtensionField, Field, HasFrobenius, PACKING, Packable, Packed,
    ParseError, PrimeCharacteristicRing, RawDataSerializable, TowerLevel,
};
use alloc::vec::Vec;
use core::fmt;
use core::iter::{Product, Sum};
use core::ops::{Add, AddAssign, Div, DivAssign, Mul, MulAssign, Neg, Sub, SubAssign};
use core::str::FromStr;

field! {
    /// GF(2).
    ///
    /// ```
    /// use binary_field::{Gf2, TowerLevel};
    ///
    /// let x = Gf2::from_repr(0x1);
    /// let y = Gf2::from_repr(0x1);
    /// assert_eq!(x * y, Gf2::from_repr(0x1));
    /// ```
    Gf2(u8), 1, 0x0, 0x1, 0x1, gf2,
    tables: Tower,
}

field! {
    /// GF(2^2), a level of the tower.
    ///
    /// ```
    /// use binary_field::{BinaryField2, TowerLevel};
    ///
    /// let x = BinaryField2::from_repr(0x2);
    /// let y = BinaryField2::from_repr(0x2);
    /// assert_eq!(x * y, BinaryField2::from_repr(0x3));
    /// ```
    BinaryField2(u8), 2, 0x0, 0x1, 0x2, t2,
    tables: Tower,
}

field! {
    /// GF(2^4), a level of the tower.
    ///
    /// ```
    /// use binary_field::{BinaryField4, TowerLevel};
    ///
    /// let x = BinaryField4::from_repr(0x5);
    /// let y = BinaryField4::from_repr(0x8);
    /// assert_eq!(x * y, BinaryField4::from_repr(0x6));
    /// ```
    BinaryField4(u8), 4, 0x0, 0x1, 0x5, t4,
    tables: Tower,
}

field! {
    /// GF(2^8), a level of the tower.
    ///
    /// ```
    /// use binary_field::{BinaryField8, TowerLevel};
    ///
    /// let x = BinaryField8::from_repr(0x13);
    /// let y = BinaryField8::from_repr(0x80);
    /// assert_eq!(x * y, BinaryField8::from_repr(0xa8));
    /// ```
    BinaryField8(u8), 8, 0x0, 0x1, 0x13, t8,
    tables: Tower,
}

field! {
    /// GF(2^16), a level of the tower.
    ///
    /// ```
    /// use binary_field::{BinaryField16, TowerLevel};
    ///
    /// let x = BinaryField16::from_repr(0x102);
    /// let y = BinaryField16::from_repr(0x8000);
    /// assert_eq!(x * y, BinaryField16::from_repr(0x2880));
    /// ```
    BinaryField16(u16), 16, 0x0, 0x1, 0x102, t16,
}

field! {
    /// GF(2^32), a level of the tower.
    ///
    /// ```
    /// use binary_field::{BinaryField32, TowerLevel};
    ///
    /// let x = BinaryField32::from_repr(0x10005);
    /// let y = BinaryField32::from_repr(0x80000000);
    /// assert_eq!(x * y, BinaryField32::from_repr(0x88808000));
    /// ```
    BinaryField32(u32), 32, 0x0, 0x1, 0x10005, t32,
}

field! {
    /// GF(2^64), a level of the tower.
    ///
    /// ```
    /// use binary_field::{BinaryField64, TowerLevel};
    ///
    /// let x = BinaryField64::from_repr(0x100000004);
    /// let y = BinaryField64::from_repr(0x8000000000000000);
    /// assert_eq!(x * y, BinaryField64::from_repr(0x880800080000000));
    /// ```
    BinaryField64(u64), 64, 0x0, 0x1, 0x100000004, t64,
}

field! {
    /// GF(2^128), a level of the tower.
    ///
    /// ```
    /// use binary_field::{BinaryField128, TowerLevel};
    ///
    /// let x = BinaryField128::from_repr(0x10000000000000005);
    /// let y = BinaryField128::from_repr(0x80000000000000000000000000000000);
    /// assert_eq!(x * y, BinaryField128::from_repr(0x88808000800000008000000000000000));
    /// ```
    BinaryField128(u128), 128, 0x0, 0x1, 0x10000000000000005, t128,
}

field! {
    /// GF(2)\[x\] modulo x^8 + x^4 + x^3 + x + 1, the bytes of AES (FIPS 197).
    ///
    /// ```
    /// use binary_field::{Rijndael8b, TowerLevel};
    ///
    /// let x = Rijndael8b::from_repr(0x88);
    /// let y = Rijndael8b::from_repr(0x80);
    /// assert_eq!(x * y, Rijndael8b::from_repr(0xf6));
    /// ```
    Rijndael8b(u8), 8, 0x0, 0x1, 0x88, r8,
    tables: Aes,
}

field! {
    /// GF(2)\[x\] modulo x^64 + x^4 + x^3 + x + 1.
    ///
    /// ```
    /// use binary_field::{Poly64, TowerLevel};
    ///
    /// let x = Poly64::from_repr(0xc313d8d1bfae2150);
    /// let y = Poly64::from_repr(0x8000000000000000);
    /// assert_eq!(x * y, Poly64::from_repr(0xb64b917263b0be4f));
    /// ```
    Poly64(u64), 64, 0x0, 0x1, 0xc313d8d1bfae2150, p64,
    one_inverse_in: BinaryField64,
}

field! {
    /// GF(2)\[x\] modulo x^128 + x^7 + x^2 + x + 1, the field of GHASH (NIST SP 800-38D), bit i for x^i.
    ///
    /// ```
    /// use binary_field::{Ghash128, TowerLevel};
    ///
    /// let x = Ghash128::from_repr(0xe5a5755ad217f07d1da70a747203d630);
    /// let y = Ghash128::from_repr(0x80000000000000000000000000000000);
    /// assert_eq!(x * y, Ghash128::from_repr(0x356073f69acff7fec1f806ba2ff001e0));
    /// ```
    Ghash128(u128), 128, 0x0, 0x1, 0xe5a5755ad217f07d1da70a747203d630, g128,
    one_inverse_in: BinaryField128,
}

field! {
    /// GF(2^64)\[y\] modulo y^3 + y + 1 over p64, the coefficient of 1 first.
    ///
    /// ```
    /// use binary_field::{Poly192};
    ///
    /// let x = Poly192::from([0x5, 0x3, 0x1]);
    /// let y = Poly192::from([0x0, 0x0, 0x8000000000000000]);
    /// assert_eq!(x * y, Poly192::from([0x800000000000001b, 0x1b, 0x36]));
    /// ```
    Poly192([u64; 3]), 192, [0x0, 0x0, 0x0], [0x1, 0x0, 0x0], [0x5, 0x3, 0x1], p192,
}

whole_words! {
    BinaryField8(u8, 1),
    BinaryField16(u16, 2),
    BinaryField32(u32, 4),
    BinaryField64(u64, 8),
    BinaryField128(u128, 16),
    Rijndael8b(u8, 1),
    Poly64(u64, 8),
    Ghash128(u128, 16),
}

parts_of_bytes!(Gf2, BinaryField2, BinaryField4);

cubic!(Poly192 over Poly64);

as_bytes!(Gf2 1, BinaryField2 1, BinaryField4 1, BinaryField8 1, BinaryField16 2, BinaryField32 4, BinaryField64 8, BinaryField128 16, Rijndael8b 1, Poly64 8, Ghash128 16, Poly192 24);

levels! {
    Gf2(u8, 0), 0x1, [
        0x1
    ];
    BinaryField2(u8, 1), 0x2, [
        0x1, 0x2
    ];
    BinaryField4(u8, 2), 0x4, [
        0x1, 0x2, 0xc, 0x6
    ];
    BinaryField8(u8, 3), 0x10, [
        0x1, 0x2, 0xc, 0x6, 0x66, 0xbe, 0x36, 0xac
    ];
    BinaryField16(u16, 4), 0x100, [
        0x1, 0x2, 0xc, 0x6, 0x66, 0xbe, 0x36, 0xac, 0x1444, 0x28f6, 0xc70e, 0x61b0, 0x67e6, 0xe4e8, 0x62f4, 0xcd68
    ];
    BinaryField32(u32, 5), 0x10000, [
        0x1, 0x2, 0xc, 0x6, 0x66, 0xbe, 0x36, 0xac, 0x1444, 0x28f6, 0xc70e, 0x61b0, 0x67e6, 0xe4e8, 0x62f4, 0xcd68, 0x110a454,
        0x220108c, 0xcc04ae6, 0x6608fe0, 0x66764360, 0xbecba7e2, 0x36a31b50, 0xacaabff8, 0x44c0ca14, 0xf6f7191e, 0xe278cfa,
        0xb04a5fbe, 0xe6f91854, 0xe89aa24c, 0xf49dac5c, 0x685bb70c
    ];
    BinaryField64(u64, 6), 0x100000000, [
        0x1, 0x2, 0xc, 0x6, 0x66, 0xbe, 0x36, 0xac, 0x1444, 0x28f6, 0xc70e, 0x61b0, 0x67e6, 0xe4e8, 0x62f4, 0xcd68, 0x110a454,
        0x220108c, 0xcc04ae6, 0x6608fe0, 0x66764360, 0xbecba7e2, 0x36a31b50, 0xacaabff8, 0x44c0ca14, 0xf6f7191e, 0xe278cfa,
        0xb04a5fbe, 0xe6f91854, 0xe89aa24c, 0xf49dac5c, 0x685bb70c, 0x101003bc34582, 0x20200396bb03a, 0xc0c00d0b0e8b8,
        0x606004e9ad958, 0x66660044f0b874, 0xbebe00aec9fbde, 0x363600635f3dec, 0xacac00e7fcaec8, 0x14444514b62553ae,
        0x28f6f4280229b55a, 0xc70e02c700c6a3ac, 0x61b0b66163f636ca, 0x67e68067519e8e0c, 0xe4e856e4fe5a106c, 0x62f4c26257122bf8,
        0xcd68c4cd741f31fc, 0xa4547fb4e2455764, 0x108ccf306a375460, 0x4ae6de8a2a81316e, 0x8fe0feefcd4bc340, 0x4360a235b3dc7fe0,
        0xa7e2466cf2223352, 0x1b5097b817c26446, 0xbff88f155221e120, 0xca148c0a63a8ee6a, 0x191e39ee81f99646, 0x8cfadcabc3c3aeee,
        0x5fbe2b152121db4a, 0x185473e1430fdc24, 0xa24cee38da4d8828, 0xac5c0231925591ac, 0xb70c3fecc1c7c4cc
    ];
    BinaryField128(u128, 7), 0x10000000000000000, [
        0x1, 0x2, 0xc, 0x6, 0x66, 0xbe, 0x36, 0xac, 0x1444, 0x28f6, 0xc70e, 0x61b0, 0x67e6, 0xe4e8, 0x62f4, 0xcd68, 0x110a454,
        0x220108c, 0xcc04ae6, 0x6608fe0, 0x66764360, 0xbecba7e2, 0x36a31b50, 0xacaabff8, 0x44c0ca14, 0xf6f7191e, 0xe278cfa,
        0xb04a5fbe, 0xe6f91854, 0xe89aa24c, 0xf49dac5c, 0x685bb70c, 0x101003bc34582, 0x20200396bb03a, 0xc0c00d0b0e8b8,
        0x606004e9ad958, 0x66660044f0b874, 0xbebe00aec9fbde, 0x363600635f3dec, 0xacac00e7fcaec8, 0x14444514b62553ae,
        0x28f6f4280229b55a, 0xc70e02c700c6a3ac, 0x61b0b66163f636ca, 0x67e68067519e8e0c, 0xe4e856e4fe5a106c, 0x62f4c26257122bf8,
        0xcd68c4cd741f31fc, 0xa4547fb4e2455764, 0x108ccf306a375460, 0x4ae6de8a2a81316e, 0x8fe0feefcd4bc340, 0x4360a235b3dc7fe0,
        0xa7e2466cf2223352, 0x1b5097b817c26446, 0xbff88f155221e120, 0xca148c0a63a8ee6a, 0x191e39ee81f99646, 0x8cfadcabc3c3aeee,
        0x5fbe2b152121db4a, 0x185473e1430fdc24, 0xa24cee38da4d8828, 0xac5c0231925591ac, 0xb70c3fecc1c7c4cc,
        0x10001000051ec1382cf362d58, 0x200020000988d9fd3a2bef392, 0xc000c00002f822c5f61945b52, 0x600060000b8f0134234d14098,
        0x6600660000df36d959956bdac0, 0xbe00be00001f2c8d1d900e9b18, 0x36003600005fe999a3debb9ea6, 0xac00ac0000637b1635bdb090a6,
        0x144414440000e3487406d92c5496, 0x28f628f600008db07c530db5036a, 0xc70ec70e00002e5834cfbf6bb772,
        0x61b061b00000d8a7c9649277163c, 0x67e667e60000aaef92cdbf75be70, 0xe4e8e4e800005336c5936a5e98b8,
        0x62f462f40000520751dd3dae2c88, 0xcd68cd68000043ec54073b43381c, 0x110a454a4550110393fb5bfb75f91c0,
        0x220108c108e02205d095f01c84ac1de, 0xcc04ae64aea0cc0f72c19c6d2dc3176, 0x6608fe08fe60660139b69c2aa148fc0,
        0x667643604306667624635608ad1d04a8, 0xbecba7e2a75cbecb36d02fddc0ce697c, 0x36a31b501b6636a3d3dea74e02b99a0c,
        0xacaabff8bf54acaae95d8634b11339fe, 0x44c0ca14de5044c05d11c1d0ef2f5148, 0xf6f7191e31e8f6f72b9f2efbb8c15e7c,
        0xe278cfa4bf40e27448196416b37c3e2, 0xb04a5fbe3e0eb04a8ec28859c3484036, 0xe6f918547fb2e6f9a23a62337d1227ac,
        0xe89aa24c46a4e89a4d60005a92307dc8, 0xf49dac5ccea8f49dd1917996f644f246, 0x685bb70c7a64685b5685858ec16125ce,
        0x3bc34582f5b83ac34f7d352c22a85848, 0x396bb03a88013b6bfa8e5b530962b4ec, 0xd0b0e8b86564dcb09c4967490a0eaf20,
        0x4e9ad9583710489a5782d8adc3ed609c, 0x44f0b8749c5622f097ff66566c81a23a, 0xaec9fbdeb8ce10c9560d64b18f1ea1e4,
        0x635f3dec44b9555f0d3718d7b4efd9f4, 0xe7fcaec8dc834bfc232edf18ad02d7cc, 0xb62553ae295cf3312d288469082f3e6c,
        0x229b55a94aef601f511844e1cdd037c, 0xc6a3aca2a20201e213bf6d8bd2a1cc, 0x63f636ca8719d597dc7886c0904bf926,
        0x519e8e0cb2bbd1f9fa3035797f5d6f52, 0xfe5a106cf17aa8be13062f9ad892a87c, 0x57122bf8fe5b9570162c56709eceba34,
        0x741f31fcf4e0b0d25386f18c7587e27c, 0xe245576468d29df19413bb1e4cc9c15a, 0x6a375460c586a507598b9ef6cf61f8a4,
        0x2a81316ed8a2f40b70ae9ec84dfeb48c, 0xcd4bc340ab6d33a4566d03b99de7c522, 0xb3dc7fe0fb3311e93163772c0d4592da,
        0xf22233522942b44e1bc51d5f4e30af34, 0x17c264468c01807a614eeccd14f35232, 0x5221e1208a8add3417755bb752221124,
        0x63a8ee6aaa1defa259bbf63fde0852da, 0x81f996468ed9b817c15dddc5c448b84a, 0xc3c3aeeeadd71f687b7440d8015c79a8,
        0x2121db4a37d50a345c04f31a67e0ea34, 0x430fdc246f3330eef0a8ff5700db4fec, 0xda4d8828fabe34758244f65913a656c0,
        0x925591ace16290644c9c0c5214ba545c, 0xc1c7c4ccd801fe2b6b65f1fbd173938c
    ];
    Rijndael8b(u8, 3), 0x35, [
        0x1, 0xbc, 0x5d, 0xb0, 0xf2, 0x56, 0xa0, 0xdf
    ];
    Poly64(u64, 6), 0x3f2a7c501e898bcd, [
        0x1, 0x19c9369f278adc03, 0xb848d14948d52b97, 0xe5f0921e86ad769e, 0x454a70e754ee7a57, 0xaf1869279f21569f,
        0x501d2518e3ce5a54, 0x189be8f8f84c1b84, 0x12f4ab0a52ba0969, 0x7732d7d6990c817, 0x6ec364d0a087b2c, 0x671f0101819757d,
        0x1e3cc5732db6a35f, 0xa30ac69959393f9a, 0x5f1d9ba5c49d877f, 0xa221e6bddc52370b, 0x5a8a2150f1199d10, 0xa646c4ced5ebfb52,
        0xed78145bce5f13b5, 0x535abdf47e23045b, 0x1f495b2fc7c16f0c, 0xbae647e26214676f, 0xe289803ea3111327, 0xf438b5b841a8e6a2,
        0x4133c799343d2e77, 0x128bc1f80582770, 0xab9c717a0356a682, 0x5573a31beb74af6a, 0xaf70240ad385f9cc, 0xe7e12811fd40a392,
        0x5efe680d7281f1f7, 0xba438d39f4fb9572, 0x5108dfbb8ceb659a, 0xaf5a3202fe8730fc, 0xfe52dc6dd7b2bad2, 0xe6c8aaeb3908a534,
        0x5b6f24a945fb5be4, 0xbf7db1d0e6f665fa, 0x55d0cbc381565492, 0xb65d26f8fc9c4549, 0x5bfc27d8851c6886, 0x1507220eec253fce,
        0xb27ba6fa45bb2b79, 0x5e279e3e88f35e3b, 0xbf60026bd98fd5d3, 0xe21d1a049522d137, 0x5bfd5a3a6c8ee081, 0x82c601ff5debc82,
        0xa48eb6001653fd99, 0x45308546c7a84d1a, 0xaf36f6889137cb81, 0x50622ea4ef28737e, 0x4d5151af0d73ec6, 0xd37a38212e4f02,
        0x1cb0cc7a071bdaeb, 0xeab379971de0230, 0xccd00a2358cae0c, 0xa3123e80cedf59d, 0x8f7252b21028a7e, 0xa453ca1e17ab8378,
        0x5c775dcdefd7e448, 0xb9ee0280ebad2406, 0xe0b8f257bc94ce81, 0xc517e9c6e21daf4c
    ];
    Ghash128(u128, 7), 0x9cfca25633f9993f4e1f511070b23e78, [
        0x1, 0x295ac0b1f4731af9676aac9fa4b20b08, 0xa2134422cd4054c9ff1099c31bbe8f23, 0x500317bd159d73bb34d2f7fba603e341,
        0x83bf3780d006f6d252c6edb8d642d26f, 0xbbd96189edf506ea868adf5edc550c8f, 0xffdb65d9987f058ca0415e708193f42b,
        0xfe7de7d03efd328e1087080009eb5bd3, 0x9ad8b122203c68c40c85baae0006a2d5, 0xda4ded3be50d84f4e93382e8995cd1ae,
        0x3cc15cf56b93b608e719c3519c21e560, 0x6d839f5b16a477066e16567f289efe6e, 0x8131ec5ef70cfceac23fd06b68c34d6,
        0x591184258a8f99a3e9054a8aceb415e, 0x116841a959d0c3220573bdfd518c957, 0xe7d5bbcbadae9e4e81038912e8b8d2ff,
        0x1c363ee10d7d27cdfd6a4e72fe3f0b89, 0x87abc5c3f4a3c47cdf2c90d11705d81b, 0x937a184b026fd632d87ec2973a7a4560,
        0x3973e0baef49fb804a5993fb7200802a, 0xc61f4899abadd9f5b02073a53178f696, 0xf7dc023dacb76bf141e632042f48d841,
        0x50f37fe87df2e33fc2ea5b3294817c46, 0xe6adcaa6ef49316d458c1a270b4c2820, 0x34ab34ff7842251c9f102c6c4eafd6db,
        0xdf71511a6e4b6ed4803dd6f1efc16bc, 0x86a8e8eb7b4b2da99405ca676fadabcc, 0xf6a63e80dfc7a8d5d90361bfd254843f,
        0x3515f50cfc61800fcaac0d195700be4e, 0xc3f5969ff438a95bac8bb6bebf1a7f1e, 0x3827d45d9f04271c94e0eacde8e194a0,
        0x45ea1e9176d8608435b4bd0785901ca9, 0x2874fdde71827d23ce063a1146b0176d, 0xeebb84f4fdcc1a68981ca7a4e2230bad,
        0x7c0eee366a76cf0fc39b46a16d0860b1, 0x8ab1e58e8fa474c678c692cacf059eee, 0xdbc3525c7aa4ea6db039068500868f82,
        0xbf9865c25e7e4d696dde827419af86fd, 0x5538ca6bd8ac434b7f78729c2b3c80db, 0x838309f5f9d021d26113049b6393e1a1,
        0x10b002e4fef7958964c534403d5554e2, 0x2993126e6bf4d36e2bf5471908c00240, 0x8be3b9c2558b713b9036a549a711ae2c,
        0xdbd09fa229c7ee75a9594a9c21f71894, 0x58489e13013e7fbafcccaf6ef4fe7170, 0x4763e3db484d9aaea983662b3dfdbfc,
        0x1dc24caa19d5b04322b185d278082dc, 0xafd6d89ddc18a41c3412f9816603fd, 0xab90c4b475cf1acaebfbc8d665928108,
        0xff9bf4d00697299fe1e6c12f0ca4ec67, 0xfe317a198a0edbbc127aabeb4899cb83, 0xff569614966351ac1a58d139ba693e76,
        0x9ae17bc94a54d5e3189c6b70d4b4d1de, 0x971bdbaf5e2926d18526032596f4e37a, 0xdecb0de063608acbffb66f046100613a,
        0x5857b06c2d6bda7cce8a717321d3e3a6, 0x2cce6e8e6bf760ce90ba15d658ba7815, 0xee31f5760c1bd5a2bd0ea5e0226ab219,
        0x9a8904605021b8ba4b4de81419dc9fb6, 0xbfda10fdc25bbff5fd097d3d2c9db968, 0xd736c5a96a9f52fdf3a5444b9dffaf01,
        0xdeac241e7efebf4a77630595a99da997, 0xbe006110437d6c0240b2d2e8b878eff7, 0xd673cda78b6dfed8f7b3d2a4ecbce929,
        0x93d1ab43747a8c0804d80a09454c88cb, 0x10b2f6604549e41128264f25e1680e1d, 0x1333bf8b838aef752e1b18303ab7af3,
        0x839d11da7fd7ba6486a7890b6a385bf4, 0x935a8176bb1a0b3ffead28c60d35aef9, 0x9203879825817db8ab2eed4b9f30c51a,
        0x11b79302310e3bb624bcd6a467498173, 0x4c4ad0e70734d80d2b4415bc35c9a82c, 0x48bdf2aa7a1a22def6cde5337fede5f8,
        0x5575b0dff401fd6b7ead16692af9884, 0x6469074ea1f301083a52ecbdd668a866, 0x8ea39da59ab7d19b1badfc2bb09edc0f,
        0xbfaf2e9de96eeac692a5aef92b7f665e, 0x312f1df65337dee673286b7a66e9d56d, 0xeb275b54876035f6fdc90269a035f050,
        0xb389be75e3d3972f162b6793bcc8d606, 0xb720f60ac7fab08bf8ee3b2de3e92025, 0x1cfeb385cb112d053bb0fdfcc39e78c6,
        0x483949cbdf6aae723381b7436438c0f6, 0x48d56227e521ecf6d365efeaa5a3a0b6, 0xe352c7131adf297936c1b7869dab3ba1,
        0x1c968a5fa80ae071df01d17060b1d422, 0xcbe768aff1a91275a1a56832f0a372de, 0x3defeebf2776725ca614dc405cf6b961,
        0x8a69a2def9127fceec130d5788e167fe, 0xdb6ce34002c14f9fbe23f88dc3bf4edf, 0xf223fde45099bfb60d06caeda2e25ff6,
        0x1d14769aa0809b1890225e8d93e9fc32, 0x46e31757f1c7df05009a53700f0d327, 0x4ce48521b6a974115543187be38101d8,
        0x61301a2116626dd69d202738b3df7897, 0x8eaaa1de8ec9654a27a0a365d3742e7d, 0xf28337565b6b886af6e5a94a36bf21f1,
        0x9fc5dfdc563cd6c61ace5f865bafcfaf, 0x157911cbd19741b5392c03216a5a9d18, 0xcea6c28a76bfa6238c327728ed21d78d,
        0xbfbef31d5e614d1814941bb2a0076534, 0x18715cc790f8f79213af400884dd3468, 0x5e8c52a284c980c7b6209c8f34d5c99,
        0x4de168e760f72bed57183c708d6d9c93, 0x61252d461588059189de88e4d4fedb37, 0x41937c9697485d8dc4698d7d0eed2379,
        0x29b72c2bf2fb66bdf81ec12878a24040, 0xee56d16fd07630ab8b017056a7c4ab1f, 0xd661bc9ee6a31c6c3d1faa884d2baff0,
        0xdf53584d203e510975584f6cebf8dea9, 0x962d2d7d0143d27a2483689adefa0606, 0x5ce7dfaf4d1a35486de4cd454c1116bb,
        0xcb99adcbf805e77822608198baa1cd35, 0xf34bbab3d5bbfa8a59a0f9a8a6086ef8, 0xb67974ae67bc0c7d6e2cde1ddaf3f9a2,
        0xb6487420c19b1141dfdabf171c3d991c, 0x78bf111b571cf552267450882b926c32, 0x6c477eebc6ce7e74d875df2eaa609e65,
        0xef72c3cf713ca11426e538a977f61555, 0x18da8777ab9845ddd9cb4b310e7c1e76, 0x49ab7827315f53300701c302bbe4810a,
        0x4f40b03530040f6b2ce925f8edfb462, 0xe70f6473267ee82fb4ad529843088758, 0x35c18485bf7a31ee94ccdf57c8b545ae,
        0xeba93c8049bea1a7d4b8afc954058604, 0x30d452fcf9d8a6688ed2bd3ec2268b9f, 0x69ed93fead3ce3e76fa65eb069d73957,
        0x2290948ea63c1979f88dad559b9fe35a
    ];
}

bases! {
    BinaryField8 Rijndael8b bf_t8_to_r8;
    Rijndael8b BinaryField8 bf_r8_to_t8;
    BinaryField64 Poly64 bf_t64_to_p64;
    Poly64 BinaryField64 bf_p64_to_t64;
    BinaryField128 Ghash128 bf_t128_to_g128;
    Ghash128 BinaryField128 bf_g128_to_t128;
}

embeddings! {
    Gf2 => BinaryField2 by |it| BinaryField2::from_bool(!it.is_zero());
    Gf2 => BinaryField4 by |it| BinaryField4::from_bool(!it.is_zero());
    Gf2 => BinaryField8 by |it| BinaryField8::from_bool(!it.is_zero());
    Gf2 => BinaryField16 by |it| BinaryField16::from_bool(!it.is_zero());
    Gf2 => BinaryField32 by |it| BinaryField32::from_bool(!it.is_zero());
    Gf2 => BinaryField64 by |it| BinaryField64::from_bool(!it.is_zero());
    Gf2 => BinaryField128 by |it| BinaryField128::from_bool(!it.is_zero());
    Gf2 => Rijndael8b by |it| Rijndael8b::from_bool(!it.is_zero());
    Gf2 => Poly64 by |it| Poly64::from_bool(!it.is_zero());
    Gf2 => Ghash128 by |it| Ghash128::from_bool(!it.is_zero());
    Gf2 => Poly192 by |it| Poly192::from_bool(!it.is_zero());
    BinaryField2 => BinaryField4 by |it| BinaryField4(it.0);
    BinaryField2 => BinaryField8 by |it| BinaryField8(it.0);
    BinaryField4 => BinaryField8 by |it| BinaryField8(it.0);
    BinaryField2 => BinaryField16 by |it| BinaryField16(u16::from(it.0));
    BinaryField4 => BinaryField16 by |it| BinaryField16(u16::from(it.0));
    BinaryField8 => BinaryField16 by |it| BinaryField16(u16::from(it.0));
    BinaryField2 => BinaryField32 by |it| BinaryField32(u32::from(it.0));
    BinaryField4 => BinaryField32 by |it| BinaryField32(u32::from(it.0));
    BinaryField8 => BinaryField32 by |it| BinaryField32(u32::from(it.0));
    BinaryField16 => BinaryField32 by |it| BinaryField32(u32::from(it.0));
    BinaryField2 => BinaryField64 by |it| BinaryField64(u64::from(it.0));
    BinaryField4 => BinaryField64 by |it| BinaryField64(u64::from(it.0));
    BinaryField8 => BinaryField64 by |it| BinaryField64(u64::from(it.0));
    BinaryField16 => BinaryField64 by |it| BinaryField64(u64::from(it.0));
    BinaryField32 => BinaryField64 by |it| BinaryField64(u64::from(it.0));
    BinaryField2 => BinaryField128 by |it| BinaryField128(u128::from(it.0));
    BinaryField4 => BinaryField128 by |it| BinaryField128(u128::from(it.0));
    BinaryField8 => BinaryField128 by |it| BinaryField128(u128::from(it.0));
    BinaryField16 => BinaryField128 by |it| BinaryField128(u128::from(it.0));
    BinaryField32 => BinaryField128 by |it| BinaryField128(u128::from(it.0));
    BinaryField64 => BinaryField128 by |it| BinaryField128(u128::from(it.0));
    BinaryField2 => Rijndael8b by |it| Rijndael8b::from(BinaryField8::from(it));
    BinaryField4 => Rijndael8b by |it| Rijndael8b::from(BinaryField8::from(it));
    BinaryField2 => Poly64 by |it| Poly64::from(BinaryField64::from(it));
    BinaryField4 => Poly64 by |it| Poly64::from(BinaryField64::from(it));
    BinaryField8 => Poly64 by |it| Poly64::from(BinaryField64::from(it));
    BinaryField16 => Poly64 by |it| Poly64::from(BinaryField64::from(it));
    BinaryField32 => Poly64 by |it| Poly64::from(BinaryField64::from(it));
    BinaryField2 => Ghash128 by |it| Ghash128::from(BinaryField128::from(it));
    BinaryField4 => Ghash128 by |it| Ghash128::from(BinaryField128::from(it));
    BinaryField8 => Ghash128 by |it| Ghash128::from(BinaryField128::from(it));
    BinaryField16 => Ghash128 by |it| Ghash128::from(BinaryField128::from(it));
    BinaryField32 => Ghash128 by |it| Ghash128::from(BinaryField128::from(it));
    BinaryField64 => Ghash128 by |it| Ghash128::from(BinaryField128::from(it));
    Poly64 => Poly192 by |it| Poly192([it.0, 0, 0]);
}

subfields! {
    BinaryField8 => Rijndael8b;
    BinaryField64 => Poly64;
    BinaryField128 => Ghash128;
    Gf2 => BinaryField2;
    Gf2 => BinaryField4;
    Gf2 => BinaryField8;
    Gf2 => BinaryField16;
    Gf2 => BinaryField32;
    Gf2 => BinaryField64;
    Gf2 => BinaryField128;
    Gf2 => Rijndael8b;
    Gf2 => Poly64;
    Gf2 => Ghash128;
    Gf2 => Poly192;
    BinaryField2 => BinaryField4;
    BinaryField2 => BinaryField8;
    BinaryField4 => BinaryField8;
    BinaryField2 => BinaryField16;
    BinaryField4 => BinaryField16;
    BinaryField8 => BinaryField16;
    BinaryField2 => BinaryField32;
    BinaryField4 => BinaryField32;
    BinaryField8 => BinaryField32;
    BinaryField16 => BinaryField32;
    BinaryField2 => BinaryField64;
    BinaryField4 => BinaryField64;
    BinaryField8 => BinaryField64;
    BinaryField16 => BinaryField64;
    BinaryField32 => BinaryField64;
    BinaryField2 => BinaryField128;
    BinaryField4 => BinaryField128;
    BinaryField8 => BinaryField128;
    BinaryField16 => BinaryField128;
    BinaryField32 => BinaryField128;
    BinaryField64 => BinaryField128;
    BinaryField2 => Rijndael8b;
    BinaryField4 => Rijndael8b;
    BinaryField2 => Poly64;
    BinaryField4 => Poly64;
    BinaryField8 => Poly64;
    BinaryField16 => Poly64;
    BinaryField32 => Poly64;
    BinaryField2 => Ghash128;
    BinaryField4 => Ghash128;
    BinaryField8 => Ghash128;
    BinaryField16 => Ghash128;
    BinaryField32 => Ghash128;
    BinaryField64 => Ghash128;
    Poly64 => Poly192;
}

extensions! {
    BinaryField8 => BinaryField16, 2, b"p3-Wiedemann-tower-v1:chunk-basis:8:16";
    BinaryField8 => BinaryField32, 4, b"p3-Wiedemann-tower-v1:chunk-basis:8:32";
    BinaryField16 => BinaryField32, 2, b"p3-Wiedemann-tower-v1:chunk-basis:16:32";
    BinaryField8 => BinaryField64, 8, b"p3-Wiedemann-tower-v1:chunk-basis:8:64";
    BinaryField16 => BinaryField64, 4, b"p3-Wiedemann-tower-v1:chunk-basis:16:64";
    BinaryField32 => BinaryField64, 2, b"p3-Wiedemann-tower-v1:chunk-basis:32:64";
    BinaryField8 => BinaryField128, 16, b"p3-Wiedemann-tower-v1:chunk-basis:8:128";
    BinaryField16 => BinaryField128, 8, b"p3-Wiedemann-tower-v1:chunk-basis:16:128";
    BinaryField32 => BinaryField128, 4, b"p3-Wiedemann-tower-v1:chunk-basis:32:128";
    BinaryField64 => BinaryField128, 2, b"p3-Wiedemann-tower-v1:chunk-basis:64:128";
    Poly64 => Poly192, 3, b"p3-binary-cubic-v1:y^3+y+1:64:192";
}
