"""Calls whose results stand in standards and papers, or were worked out by hand or by another implementation: each is the name of a function
and the values of its parameters, as `cases.case` takes them. No value here is computed by the library or by definitions.py."""


def hexadecimal(text):
    return list(bytes.fromhex(text))


def of_tags():
    """GHASH of the test cases 1 to 10 and 13 to 18 of D. McGrew and J. Viega, The Galois/Counter Mode of operation (GCM), appendix B: key, associated
    data, encrypted text, hash, by AES-GCM of the Python library cryptography, as the tag plus the encrypted first counter block. And RFC 8452:
    POLYVAL of two blocks and GHASH of the same bytes reversed under the key times x (appendix A), and the hashed blocks of the examples with
    plaintexts of 8, 12, 32 and 64 bytes (appendix C.1)."""
    for key, associated, text, wanted in GCM:
        yield "tag_gcm_ghash", *map(hexadecimal, (key, associated, text, wanted))
    for name, key, blocks, wanted in RFC_8452:
        yield name, *map(hexadecimal, (key, blocks, wanted))


ASSOCIATED = "feedfacedeadbeeffeedfacedeadbeefabaddad2"
GCM = [
    ("66e94bd4ef8a2c3b884cfa59ca342b2e", "", "", "00" * 16),
    ("66e94bd4ef8a2c3b884cfa59ca342b2e", "", "0388dace60b6a392f328c2b971b2fe78", "f38cbb1ad69223dcc3457ae5b6b0f885"),
    (
        "b83b533708bf535d0aa6e52980d53b78", "",
        "42831ec2217774244b7221b784d0d49ce3aa212f2c02a4e035c17e2329aca12e21d514b25466931c7d8f6a5aac84aa051ba30b396a0aac973d58e091473f5985",
        "7f1b32b81b820d02614f8895ac1d4eac",
    ),
    (
        "b83b533708bf535d0aa6e52980d53b78", ASSOCIATED,
        "42831ec2217774244b7221b784d0d49ce3aa212f2c02a4e035c17e2329aca12e21d514b25466931c7d8f6a5aac84aa051ba30b396a0aac973d58e091",
        "698e57f70e6ecc7fd9463b7260a9ae5f",
    ),
    (
        "b83b533708bf535d0aa6e52980d53b78", ASSOCIATED,
        "61353b4c2806934a777ff51fa22a4755699b2a714fcdc6f83766e5f97b6c742373806900e49f24b22b097544d4896b424989b5e1ebac0f07c23f4598",
        "df586bb4c249b92cb6922877e444d37b",
    ),
    (
        "b83b533708bf535d0aa6e52980d53b78", ASSOCIATED,
        "8ce24998625615b603a033aca13fb894be9112a5c3a211a8ba262a3cca7e2ca701e4a9a4fba43c90ccdcb281d48c7c6fd62875d2aca417034c34aee5",
        "1c5afe9760d3932f3c9a878aac3dc3de",
    ),
    ("aae06992acbf52a3e8f4a96ec9300bd7", "", "", "00" * 16),
    ("aae06992acbf52a3e8f4a96ec9300bd7", "", "98e7247c07f0fe411c267e4384b0f600", "e2c63f0ac44ad0e02efa05ab6743d4ce"),
    (
        "466923ec9ae682214f2c082badb39249", "",
        "3980ca0b3c00e841eb06fac4872a2757859e1ceaa6efd984628593b40ca1e19c7d773d00c144c525ac619d18c84a3f4718e2448b2fe324d9ccda2710acade256",
        "51110d40f6c8fff0eb1ae33445a889f0",
    ),
    (
        "466923ec9ae682214f2c082badb39249", ASSOCIATED,
        "3980ca0b3c00e841eb06fac4872a2757859e1ceaa6efd984628593b40ca1e19c7d773d00c144c525ac619d18c84a3f4718e2448b2fe324d9ccda2710",
        "ed2ce3062e4a8ec06db8b4c490e8a268",
    ),
    ("dc95c078a2408989ad48a21492842087", "", "", "00" * 16),
    ("dc95c078a2408989ad48a21492842087", "", "cea7403d4d606b6e074ec5d3baf39d18", "83de425c5edc5d498f382c441041ca92"),
    (
        "acbef20579b4b8ebce889bac8732dad7", "",
        "522dc1f099567d07f47f37a32a84427d643a8cdcbfe5c0c97598a2bd2555d1aa8cb08e48590dbb3da7b08b1056828838c5f61e6393ba7a0abcc9f662898015ad",
        "4db870d37cb75fcb46097c36230d1612",
    ),
    (
        "acbef20579b4b8ebce889bac8732dad7", ASSOCIATED,
        "522dc1f099567d07f47f37a32a84427d643a8cdcbfe5c0c97598a2bd2555d1aa8cb08e48590dbb3da7b08b1056828838c5f61e6393ba7a0abcc9f662",
        "8bd0c4d8aacd391e67cca447e8c38f65",
    ),
    (
        "acbef20579b4b8ebce889bac8732dad7", ASSOCIATED,
        "c3762df1ca787d32ae47c13bf19844cbaf1ae14d0b976afac52ff7d79bba9de0feb582d33934a4f0954cc2363bc73f7862ac430e64abe499f47c9b1f",
        "75a34288b8c68f811c52b2e9a2f97f63",
    ),
    (
        "acbef20579b4b8ebce889bac8732dad7", ASSOCIATED,
        "5a8def2f0c9e53f1f75d7853659e2a20eeb2b22aafde6419a058ab4f6f746bf40fc0c3b780f244452da3ebf1c5d82cdea2418997200ef82e44ae7e3f",
        "d5ffcf6fc5ac4d69722187421a7f170b",
    ),
]

RECORD_KEY = "d9b360279694941ac5dbc6987ada7377"
RFC_8452 = [
    (
        "tag_polyval", "25629347589242761d31f826ba4b757b", "4f4f95668c83dfb6401762bb2d01a262d1a24ddd2721d006bbe45f20d3c9f362",
        "f7a3b47b846119fae5b7866cf5e5b77e",
    ),
    (
        "tag_ghash", "dcbaa5dd137c188ebb21492c23c9b112", "62a2012dbb621740b6df838c66954f4f62f3c9d3205fe4bb06d02127dd4da2d1",
        "7eb7e5f56c86b7e5fa1961847bb4a3f7",
    ),
    ("tag_polyval", RECORD_KEY, "01000000000000000000000000000000" "00000000000000004000000000000000", "eb93b7740962c5e49d2a90a7dc5cec74"),
    ("tag_polyval", RECORD_KEY, "01000000000000000000000000000000" "00000000000000006000000000000000", "48eb6c6c5a2dbe4a1dde508fee06361b"),
    (
        "tag_polyval", RECORD_KEY, "01000000000000000000000000000000" "02000000000000000000000000000000" "00000000000000000001000000000000",
        "ce6edc9a50b36d9a98986bbf6a261c3b",
    ),
    (
        "tag_polyval", RECORD_KEY,
        "01000000000000000000000000000000" "02000000000000000000000000000000" "03000000000000000000000000000000" "04000000000000000000000000000000"
        "00000000000000000002000000000000",
        "1e39b6d3344d348f6044f89935d1cf78",
    ),
]


def of_codes():
    """The shards of TestOneEncode of klauspost/reedsolomon (reedsolomon_test.go), five of data and five of parity: written, verified with a byte
    changed and as they are, and the data alone restored where a shard of each kind is lost. And the code words of 01234567 in a QR code of version
    1-M (ISO/IEC 18004, annex I), which are read with five wrong and with ten that are lost. Then words of other codes."""
    shards = [0, 1, 4, 5, 2, 3, 6, 7, 8, 9, 12, 13, 10, 11, 14, 15, 90, 91, 94, 95]
    yield "rs_encode", 5, 5, (shards[:10] + [0] * 10, shards)
    yield "rs_verify", 5, 5, shards, [1]
    yield "rs_verify", 5, 5, shards[:7] + [4] + shards[8:], [0]
    without_parity = shards[:18] + [0] + shards[19:]
    yield "rs_reconstruct_data", 5, 5, (shards[:2] + [0, 0] + without_parity[4:], without_parity), [1, 0, *[1] * 7, 0]
    symbol = hexadecimal("10200c566180ec11ec11ec11ec11ec11" "a524d4c1ed36c7872c55")
    yield "code_encode", 0x11D, 26, 16, 0, 1, (symbol[:16] + [0] * 10, symbol)
    yield "code_are_words", 0x11D, 26, 16, 0, 1, symbol + symbol[:25] + [0x56], [1, 0]
    read = [it ^ 0xFF if at % 5 == 0 and at < 25 else it for at, it in enumerate(symbol)]
    yield "code_correct", 0x11D, 26, 16, 0, 1, (read, symbol), [], [5]
    yield "code_correct", 0x11D, 26, 16, 0, 1, (symbol[:16] + [0] * 10, symbol), [0] * 16 + [1] * 10, [10]
    for modulus, first, step, data, checks in LIBFEC_WORDS:
        checks = hexadecimal(checks)
        size = len(data) + len(checks)
        yield "code_encode", modulus, size, len(data), first, step, (data + [0] * len(checks), data + checks)
    for degree, tail, size, first, word in FIELD_WORDS:
        checks = len(word) - size
        yield "field_code_encode", degree | tail << 64, len(word), size, first, 2, (word[:size] + [0] * checks, word), checks + 1
    # The format information of a QR code with the level M and the mask 101, before it is masked (ISO/IEC 18004, annex C).
    word = [0, 0, 1, 0, 1, 0, 0, 1, 1, 0, 1, 1, 1, 0, 0]
    yield "bch_encode", 0x11D, 15, 3, 17, (word[:5] + [0] * 10, word)


# Words as libfec 1.0 writes them, by `encode_rs_8` and by `encode_rs_char` of `init_rs_char(8, 0x11d, 0, 1, 16, 51)`: the modulus, the first root,
# its step, the data and the symbols behind them.
LIBFEC_WORDS = [
    (
        0x187, 112, 11, [(7 * it + 3) % 256 for it in range(223)],
        "3f56af8183b8ad235310d48f4ce7c60e458d1948b674923ab100c186f0bc1519",
    ),
    (0x11D, 0, 1, [(5 * it + 1) % 256 for it in range(188)], "98fbc77bba892a9ac09ac99aae1adb6e"),
]
# Words over other fields, whose root is the element 2: the degree and the tail, how many symbols are data, the first root, and the word. Two as
# libfec 1.0 writes them, by `encode_rs_int` of `init_rs_int(16, 0x1100b, 0, 1, 8, 65515)` and of `init_rs_int(12, 0x1053, 1, 1, 6, 4081)`. And the
# mode message of a compact Aztec symbol of 4 layers and 64 words of data (ISO/IEC 24778): both less one, in 2 bits and in 6.
FIELD_WORDS = [
    (
        16, 0x100B, 12, 0,
        [
            0x9E3E, 0x3C75, 0xDAAC, 0x78E3, 0x171A, 0xB551, 0x5388, 0xF1BF, 0x8FF6, 0x2E2D, 0xCC64, 0x6A9B,
            0x9824, 0x2364, 0x04F9, 0xF876, 0x097F, 0x40E2, 0xC20C, 0xCB02,
        ],
    ),
    (12, 0x053, 8, 1, [0x9EA, 0x3CD, 0xDB0, 0x793, 0x176, 0xB59, 0x53C, 0xF1F, 0x080, 0x1B0, 0xB30, 0x088, 0x8A5, 0xE46]),
    (4, 0b11, 2, 1, [15, 15, 4, 1, 3, 4, 12]),
]


# FIPS 197, figure 7, row by row.
SBOX = """
637c777bf26b6fc53001672bfed7ab76ca82c97dfa5947f0add4a2af9ca472c0b7fd9326363ff7cc34a5e5f171d8311504c723c31896059a071280e2eb27b275
09832c1a1b6e5aa0523bd6b329e32f8453d100ed20fcb15b6acbbe394a4c58cfd0efaafb434d338545f9027f503c9fa851a3408f929d38f5bcb6da2110fff3d2
cd0c13ec5f974417c4a77e3d645d197360814fdc222a908846eeb814de5e0bdbe0323a0a4906245cc2d3ac629195e479e7c8376d8dd54ea96c56f4ea657aae08
ba78252e1ca6b4c6e8dd741f4bbd8b8a703eb5664803f60e613557b986c11d9ee1f8981169d98e949b1e87e9ce5528df8ca1890dbfe6426841992d0fb054bb16
"""
# The matrix of FIPS 197, section 5.1.1: bit i of the result is the sum of the bits i, i + 4, i + 5, i + 6 and i + 7 modulo 8.
AFFINE = [0x1F, 0x3E, 0x7C, 0xF8, 0xF1, 0xE3, 0xC7, 0x8F]
# That matrix back: bit i of the result is the sum of the bits i + 2, i + 5 and i + 7 modulo 8.
AFFINE_BACK = [0x4A, 0x94, 0x29, 0x52, 0xA4, 0x49, 0x92, 0x25]


def of_bytes():
    """The S-box, from its definition: the inverse, 0 for 0, then the matrix, then 63 added. So the table less 63 is the matrix at the inverses,
    and the inverses are the matrix back at that."""
    sums = [it ^ 0x63 for it in hexadecimal(SBOX)]
    inverses = [sum_of(AFFINE_BACK, it) for it in sums]
    yield "r8_linear_map", sums, AFFINE_BACK, inverses
    yield "r8_linear_map", inverses, AFFINE, sums
    yield "r8_inverse", list(range(256)), inverses


def sum_of(images, byte):
    """The sum of the images of the set bits."""
    result = 0
    for place, image in enumerate(images):
        result ^= image if byte >> place & 1 else 0
    return result


def turned(first_row):
    """The matrix each of whose rows is the one above, turned by a place."""
    return [first_row[(column - row) % 4] for row in range(4) for column in range(4)]


def of_matrices():
    """Over the byte field of AES: the inverse of the matrix of MixColumns, which is that of InvMixColumns (FIPS 197, sections 5.1.3 and 5.3.3), the
    determinants of turned rows, equations with a solution and with none, a product, and the reduced form of a matrix of rank 1."""
    mixing = turned([2, 3, 1, 1])
    yield "r8_matrix_inverse", mixing, 4, turned([0x0E, 0x0B, 0x0D, 0x09]), 32, 4
    # The fourth power of the sum of the row: the product of the values of its polynomial at the roots of x^4 + 1, which is (x + 1)^4.
    for first_row, determinant in (([2, 3, 1, 1], 1), ([0, 1, 2, 7], 0x1B), ([1, 2, 3, 0], 0)):
        yield "r8_matrix_determinant", turned(first_row), 4, 16, [determinant]
    # x + 2 y = 7 and x + y = 2; the product of 2 and 3 is 6.
    yield "r8_matrix_solve", [1, 2, 1, 1], 2, 2, [7, 2], [1, 3], 6, 2
    # The row (57, 1) times the rows (83, 13, 0) and (1, 2, 3), by the products of FIPS 197, sections 4.2 and 4.2.1: c1 + 1, fe + 2, 3.
    yield "r8_matrix_multiply", [0x57, 1], [0x83, 0x13, 0, 1, 2, 3], [0xC0, 0xFC, 3], 1, 2, 3
    # Two rows of which one is twice the other.
    yield "r8_matrix_row_reduce", ([0, 2, 4, 0, 1, 2], [0, 1, 2, 0, 0, 0]), 2, 3, [1, UNWRITTEN], [1]
    yield "r8_matrix_rank", [0, 2, 4, 0, 1, 2], 2, 3, 6, 2, [1]


# A place that no call writes, as the programs fill what is only written.
UNWRITTEN = int.from_bytes(bytes([0xA5] * 8), "little")


def of_fields():
    """By the Rust crate p3-binary-field 0.8.0, drawn from the seed 20261122: elements squared so many times, as powers, and so often that the last
    squaring of all is left out, as roots; sums of products, and products. And values of polynomials, by hand."""
    for element, count, wanted in ((0x0100, 8, 0x0110), (0x0100, 16, 0x0100), (0xFB38, 0x23, 0xD36D), (0x6CB5, 0x3B, 0x0B81)):
        yield "t16_power", [element], 1 << count, [wanted]
    yield "t16_square_root", [0x1001, 0xD984], [0x0100, 0xA29B]
    yield "t16_product", [], [1]
    yield "t16_dot_product", [0x6F65], [0xC0FE], [0x949C]
    left, right = [0xCB78, 0xD478, 0xC68B], [0x7EEB, 0x8B4C, 0xA2E5]
    yield "t16_dot_product", left, right, [0x6C03]
    yield "t16_product", left, [0x64C9]
    yield "g128_power", [0x3BF4491FF32B4D9A204E585A1369734F], 1 << 3, [0xF54719FFFF91A56C7A0B1AE6971277D6]
    yield "g128_square_root", [0xAB37A5189A9F2140C90A7FA16F4C241A], [0xABC05CF6CDD52B2DEB74A203C68EC70A]
    left = [0x4C6EFB81FFC1A5FD6F2DB152DB612FE7, 0x8FCC5ED4B048845C590CCB667C3B0650, 0xFD9EA377D16773689E3AB083A043729A]
    right = [0x615AA4E95278E1F306C6ABB2C7BBB831, 0xBCE191CFBE8904A84546EE22F519FBB3, 0xEED0F6704B8C437FFF8B9573AE8F3AA1]
    yield "g128_dot_product", left, right, [0x52D86F0E5F8B94BA1456E712522F3252]
    yield "g128_product", left, [0xF56D3A5DBF95CC8533B4AA88EA98EA13]
    # 1 + x + x^2 is 0 at 2 in the field of four elements; 5 + x^2 is 5 + 4 at 2.
    yield "t2_evaluate", [1, 1, 1], [2], [0]
    yield "g128_evaluate", [5, 0, 1], [2], [1]


def rows():
    for them in (of_tags, of_codes, of_bytes, of_matrices, of_fields):
        yield from them()
