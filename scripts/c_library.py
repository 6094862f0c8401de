"""The functions of the C library, in one table, from which scripts write the header and the calls of other languages.

The fields are those of fields.py. A parameter is (kind, name) or (kind, name, word), where the field gives no word:
  in      an array that is read: a pointer and a length
  inout   an array that is read and written: a pointer and a length
  out     an array that is written: a pointer and a length
  scalar  one element that is read: by value up to 64 bits, else by a pointer that is not null
  result  one element or number that is written: a pointer that is not null
  state   a struct of the caller that is read and written: a pointer that is not null
  space   an array in which a call works, and of which nothing is said behind it: a pointer and a length
  number  a number of 64 bits, by value
  count   a number of things, by value: a size_t, which has 64 bits
Every function returns a status but where the table says otherwise. Lengths count words, not bytes.
"""

from fields import FIELDS

STATUSES = [
    ("BF_OK", 0, "success"),
    ("BF_LENGTH", 1, "mismatched or invalid lengths"),
    ("BF_NOT_AN_ELEMENT", 2, "a word is not an element of the field"),
    ("BF_MEMORY", 3, "out of memory, which no function of this version returns"),
    ("BF_CODE", 4, "no code or shares have these numbers"),
    ("BF_TOO_FEW_SHARDS", 5, "too few shards or shares are present"),
    ("BF_UNSOLVABLE", 6, "the equations have no solution, the matrix no inverse, or there is no secret or root"),
    ("BF_REDUCIBLE", 7, "the modulus is no irreducible polynomial of degree 1 to 128"),
]

# How many words of 64 bits a hash in pieces has.
STATE_WORDS = 13

# How many a field that the caller chooses has.
FIELD_WORDS = 5

# The word of C for each word of the table. The wide ones are structs of words of 64 bits, the lowest first.
WORDS = {
    "u8": "uint8_t", "u16": "uint16_t", "u32": "uint32_t", "u64": "uint64_t", "u128": "bf_u128", "u192": "bf_u192", "usize": "size_t",
    "ghash_state": "bf_ghash_state", "polyval_state": "bf_polyval_state",
    "field": "bf_field", "bool": "bool",
}
# Those that are structs: a scalar of such a word is passed by a pointer.
STRUCTS = ("u128", "u192", "field")

# For every field, as bf_FIELD_NAME. Arrays have one length unless the text says otherwise.
FIELD_FUNCTIONS = [
    ("add", [("in", "left"), ("in", "right"), ("out", "sums")], "the sum of the elements at each place"),
    ("multiply", [("in", "left"), ("in", "right"), ("out", "products")], "the product of the elements at each place"),
    ("multiply_by", [("in", "values"), ("scalar", "scalar"), ("out", "products")], "the product of each element and the scalar"),
    ("add_scaled", [("inout", "sums"), ("scalar", "scalar"), ("in", "values")], "adds to each element of sums the scalar times the value at its place"),
    ("square", [("in", "values"), ("out", "squares")], "the square of each element"),
    ("inverse", [("in", "values"), ("out", "inverses")], "the inverse of each element, and 0 for 0"),
    ("batch_inverse", [("in", "values"), ("out", "inverses")], "the same as inverse"),
    ("square_root", [("in", "values"), ("out", "roots")], "the square root of each element"),
    ("power", [("in", "values"), ("number", "exponent"), ("out", "powers")], "each element to the power of the exponent; to the power 0 it is 1"),
    ("product", [("in", "values"), ("result", "product")], "the product of all elements, 1 of none"),
    ("dot_product", [("in", "left"), ("in", "right"), ("result", "sum")], "the sum of the products at each place, 0 of none"),
    ("evaluate", [("in", "coefficients"), ("in", "points"), ("out", "values")],
     "the value at each point of the polynomial with these coefficients, the constant one first; any number of coefficients"),
    ("add_in_place", [("inout", "sums"), ("in", "values")], "adds to each element of sums the value at its place"),
    ("multiply_in_place", [("inout", "products"), ("in", "values")], "multiplies each element of products by the value at its place"),
    ("multiply_by_in_place", [("inout", "values"), ("scalar", "scalar")], "multiplies each element by the scalar"),
    ("square_in_place", [("inout", "values")], "squares each element"),
    ("inverse_in_place", [("inout", "values")], "leaves the inverse of each element, and 0 of 0"),
    ("square_root_in_place", [("inout", "values")], "leaves the square root of each element"),
    ("power_in_place", [("inout", "values"), ("number", "exponent")], "raises each element to the power of the exponent; to the power 0 it is 1"),
    ("generator", [("result", "generator")], "the generator of the field's multiplicative group that the library names"),
]

# For every field too, and as bf_field_NAME: matrices, whose elements stand row after row.
MATRIX_FUNCTIONS = [
    ("matrix_multiply", [("in", "left"), ("in", "right"), ("out", "product"), ("count", "rows"), ("count", "inner"), ("count", "columns")],
     "the product of left, of rows rows of inner elements, and right, of inner rows of columns elements"),
    ("matrix_row_reduce", [("inout", "matrix"), ("count", "rows"), ("count", "columns"), ("out", "pivots", "usize"), ("result", "rank", "usize")],
     "brings a matrix of rows rows of columns elements to reduced row echelon form; rank is its rank, the first rank of the rows places of pivots "
     "become the columns of its leading entries, and the others stay"),
    ("matrix_rank", [("in", "matrix"), ("count", "rows"), ("count", "columns"), ("space", "space"), ("space", "places", "usize"),
                     ("result", "rank", "usize")],
     "the rank of a matrix of rows rows of columns elements, in as much space and rows places, which may be written whatever the status"),
    ("matrix_determinant", [("in", "matrix"), ("count", "size"), ("space", "space"), ("result", "determinant")],
     "the determinant of a matrix of size rows of size elements, in as much space, which may be written whatever the status; 1 of no rows"),
    ("matrix_inverse", [("in", "matrix"), ("count", "size"), ("out", "inverse"), ("space", "space"), ("space", "places", "usize")],
     "the inverse of a matrix of size rows of size elements, in space for two of these and size places, which may be written whatever the status"),
    ("matrix_solve", [("in", "matrix"), ("count", "rows"), ("count", "columns"), ("in", "right"), ("out", "solution"), ("space", "space"),
                      ("space", "places", "usize")],
     "a solution x of matrix * x = right, of rows equations in columns unknowns, in space for rows times columns + 1 elements and rows places, which may "
     "be written whatever the status; an unknown that the others leave open is 0"),
]

# Of codes that correct errors, as bf_code_NAME, whose parameters follow those that say which code it is.
CODE_FUNCTIONS = [
    ("encode", [("inout", "words", "u8")], "writes the symbols behind the data of each word, so that it is a word of the code"),
    ("syndromes", [("in", "words", "u8"), ("out", "syndromes", "u8")],
     "the values of each word at the roots, that at the first root first; symbols - data of them a word"),
    ("are_words", [("in", "words", "u8"), ("out", "flags", "u8")], "1 for each word that is one of the code, 0 for each other"),
    ("correct", [("inout", "words", "u8"), ("in", "erasures", "u8"), ("out", "corrected", "u16")],
     "corrects each word, and writes how many of its symbols changed; a symbol is erased where its byte of erasures is not 0. A word becomes the only "
     "word of the code from which it differs at t places beside e erased ones, with 2 * t + e at most symbols - data. Where there is none it stays, "
     "and corrected is 65535"),
    ("encode_interleaved", [("inout", "words", "u8")],
     "the same as code_encode, of words that stand interleaved: the first symbols of all words, one after the other, then the second symbols"),
    ("syndromes_interleaved", [("in", "words", "u8"), ("out", "syndromes", "u8")],
     "the same as code_syndromes, of words that stand interleaved, whose values do too: those of all words at a root stand one after the other"),
    ("correct_interleaved", [("inout", "words", "u8"), ("in", "erasures", "u8"), ("out", "syndromes", "u8"), ("out", "corrected", "u8")],
     "corrects each word as code_correct does, of words that stand interleaved, and writes to corrected 1 for a word that it could correct, or that had no "
     "error, and 0 for each other. Symbol i of every word is erased where byte i of erasures is not 0. To syndromes it writes the values of the received "
     "words, as code_syndromes_interleaved does"),
]

# Of such codes over a field that the caller chooses, as bf_field_code_NAME, and of binary BCH codes, as bf_bch_NAME.
FIELD_CODE_FUNCTIONS = [
    ("encode", [("inout", "words", "u16"), ("space", "space", "u16")],
     "writes the symbols behind the data of each word, so that it is a word of the code; what stood there is not read"),
    ("syndromes", [("in", "words", "u16"), ("out", "syndromes", "u16")],
     "the values of each word at the roots, that at the first root first; symbols - data of them a word"),
    ("are_words", [("in", "words", "u16"), ("out", "flags", "u8")], "1 for each word that is one of the code, 0 for each other"),
    ("correct", [("inout", "words", "u16"), ("in", "erasures", "u8"), ("out", "corrected", "u16"), ("space", "space", "u16"),
                 ("space", "marks", "bool"), ("space", "places", "usize")],
     "corrects each word as code_correct does, and writes how many of its symbols changed, or 65535 where it is near to no word of the code. A bool is the "
     "byte 0 or 1, before the call too"),
]
BCH_FUNCTIONS = [
    ("data", [("result", "data", "u64")], "how many bits of a word are data: all but one for each root and each square of a root, of a square and so on"),
    ("encode", [("inout", "words", "u8")],
     "writes the bits behind the data of each word, so that it is a word of the code; what stood there is not read"),
    ("are_words", [("in", "words", "u8"), ("out", "flags", "u8")], "1 for each word that is one of the code, 0 for each other; a byte above 1 is in no word"),
    ("correct", [("inout", "words", "u8"), ("in", "erasures", "u8"), ("out", "corrected", "u16")],
     "corrects each word, and writes how many of its bits changed; a bit is erased where its byte of erasures is not 0. A word becomes the only word of the "
     "code from which it differs at t places beside e erased ones, with t + e / 2 at most errors. Where there is none it stays, and corrected is 65535"),
]


def typed(parameters, word):
    """The parameters of a function of a field, with the field's word."""
    return [(*it, word)[:3] if it[0] not in ("number", "count") else (*it, "u64") for it in parameters]


# (name, parameters, what it computes). The word of every parameter stands in it.
OTHER_FUNCTIONS = [
    *[(f"{a.name}_to_{b.name}", [("in", "values", a.word), ("out", "images", a.word)],
       f"the image in {b.name} of each element of {a.name}, by the isomorphism of the two fields")
      for it in FIELDS if it.modulus for a, b in [(it.partner, it), (it, it.partner)]],
    ("r8_linear_map", [("in", "values", "u8"), ("in", "images", "u8"), ("out", "mapped", "u8")],
     "for each byte the sum of the images at its set bits; eight images, that of bit 0 first"),
    ("g128_linear_map", [("in", "values", "u128"), ("in", "images", "u128"), ("out", "mapped", "u128")],
     "for each word the sum of the images at its set bits; 128 images, that of bit 0 first"),
    ("bit_matrix_multiply", [("in", "left", "u64"), ("in", "right", "u64"), ("out", "product", "u64"), ("count", "rows"), ("count", "inner"),
                             ("count", "columns")],
     "the product over GF(2) of left, of rows rows of inner bits, and right, of inner rows of columns bits"),
    ("bit_matrix_transpose", [("in", "matrix", "u64"), ("out", "transposed", "u64"), ("count", "rows"), ("count", "columns")],
     "the transpose of a matrix over GF(2) of rows rows of columns bits, which has columns rows of rows bits"),
    ("bit_matrix_row_reduce", [("inout", "matrix", "u64"), ("count", "rows"), ("count", "columns"), ("out", "pivots", "usize"),
                               ("result", "rank", "usize")],
     "brings a matrix over GF(2) of rows rows of columns bits to reduced row echelon form; rank is its rank, the first rank of the rows places of "
     "pivots become the columns of its leading entries, and the others stay"),
    ("bit_matrix_rank", [("in", "matrix", "u64"), ("count", "rows"), ("count", "columns"), ("space", "space", "u64"), ("space", "places", "usize"),
                         ("result", "rank", "usize")],
     "the rank of a matrix over GF(2) of rows rows of columns bits, in as much space and rows places, which may be written whatever the status"),
    ("field_init", [("result", "field", "field"), ("count", "degree"), ("scalar", "tail", "u128")],
     "the field of the polynomials modulo x^degree + tail, for the other functions bf_field_*"),
    *[(f"field_{name}", [("scalar", "field", "field"), *parameters], text) for name, parameters, text in [
        ("add", [("in", "left", "u128"), ("in", "right", "u128"), ("out", "sums", "u128")], "the sum of the elements at each place"),
        ("multiply", [("in", "left", "u128"), ("in", "right", "u128"), ("out", "products", "u128")], "the product of the elements at each place"),
        ("multiply_by", [("in", "values", "u128"), ("scalar", "scalar", "u128"), ("out", "products", "u128")],
         "the product of each element and the scalar"),
        ("square", [("in", "values", "u128"), ("out", "squares", "u128")], "the square of each element"),
        ("inverse", [("in", "values", "u128"), ("out", "inverses", "u128")], "the inverse of each element, and 0 for 0"),
        ("square_root", [("in", "values", "u128"), ("out", "roots", "u128")], "the square root of each element"),
        ("power", [("in", "values", "u128"), ("number", "exponent"), ("out", "powers", "u128")],
         "each element to the power of the exponent; to the power 0 it is 1"),
        ("trace", [("in", "values", "u128"), ("out", "traces", "u128")], "the trace of each element over GF(2), which is 0 or 1"),
        ("divide", [("in", "left", "u128"), ("in", "right", "u128"), ("out", "quotients", "u128")],
         "the quotient of the elements at each place, and 0 where that of right is 0"),
        ("dot_product", [("in", "left", "u128"), ("in", "right", "u128"), ("result", "sum", "u128")],
         "the sum of the products of the elements at each place, which is 0 of none"),
        ("evaluate", [("in", "coefficients", "u128"), ("in", "points", "u128"), ("out", "values", "u128")],
         "the value at each point of the polynomial with these coefficients, the constant one first; of none it is 0"),
        ("primitive_element", [("result", "element", "u128")], "the least primitive element, whose powers are all elements but 0"),
        ("logarithm", [("in", "values", "u128"), ("scalar", "base", "u128"), ("out", "logarithms", "u128")],
         "the logarithm of each element to the base: the least exponent to which the power of the base is the element, found in as many steps as "
         "the greatest prime factor of the order of the base is"),
        ("order", [("in", "values", "u128"), ("out", "orders", "u128")],
         "the order of each element, the least exponent above 0 to which its power is 1, and 0 for 0, which has none"),
        ("trace_to", [("in", "values", "u128"), ("count", "subfield_degree"), ("out", "traces", "u128")],
         "the trace of each element over the subfield of 2^subfield_degree elements: the sum of its conjugates, an element of the subfield as it lies in the field"),
        ("norm_to", [("in", "values", "u128"), ("count", "subfield_degree"), ("out", "norms", "u128")],
         "the norm of each element over the subfield of 2^subfield_degree elements: the product of its conjugates, an element of the subfield as it lies in the "
         "field"),
        ("minimal_polynomial", [("scalar", "element", "u128"), ("result", "degree", "usize"), ("result", "tail", "u128")],
         "the minimal polynomial of the element over GF(2), which is x^degree + tail: the irreducible polynomial of which the element is a root"),
        *[(name, typed(parameters, "u128"), text) for name, parameters, text in MATRIX_FUNCTIONS],
    ]],
    ("field_next_irreducible", [("count", "degree"), ("scalar", "tail", "u128"), ("result", "next", "u128")],
     "the least tail from tail on, as a number, with which x^degree + next is irreducible, for field_init; from tail + 1 on it is the next after one"),
    ("field_next_primitive", [("count", "degree"), ("scalar", "tail", "u128"), ("result", "next", "u128")],
     "the least tail from tail on, as a number, with which x^degree + next is primitive: it is irreducible, and x has the order 2^degree - 1 modulo it"),
    ("field_embedding", [("scalar", "source", "field"), ("scalar", "target", "field"), ("result", "root", "u128")],
     "an element of target that is a root of the modulus of source, by which field_embed takes elements of source to target"),
    ("field_embed", [("scalar", "source", "field"), ("scalar", "target", "field"), ("scalar", "root", "u128"), ("in", "values", "u128"),
                     ("out", "images", "u128")],
     "the image in target of each element of source: the value at the root of the polynomial that it is, so that sums and products are kept"),
    ("g128_butterfly_forward", [("inout", "low", "u128"), ("inout", "high", "u128"), ("scalar", "scalar", "u128")],
     "low += scalar * high, and then high += low, at each place"),
    ("g128_butterfly_inverse", [("inout", "low", "u128"), ("inout", "high", "u128"), ("scalar", "scalar", "u128")],
     "high += low, and then low += scalar * high, at each place"),
    ("g128_low_stages", [("inout", "values", "u128"), ("in", "shifts", "u128"), ("in", "basis", "u128"), ("count", "first_run")],
     "the four lowest stages of an additive transform over runs of sixteen values, the first of which is run first_run; four shifts, and a "
     "basis of 3 to 128 elements, 2 to the power of three less than which is at least the number behind the last run"),
    ("g128_transform", [("inout", "values", "u128"), ("scalar", "shift", "u128")],
     "the value at each of 2^m points, m from 0 to 40, of the polynomial with these coefficients in the basis of subspace polynomials"),
    ("g128_inverse_transform", [("inout", "values", "u128"), ("scalar", "shift", "u128")],
     "the coefficients that g128_transform takes to these values"),
    *[it for field in FIELDS if field.is_transformed for it in [
        (f"{field.name}_transform", [("inout", "values", field.word), ("scalar", "shift", field.word)],
         f"the same as g128_transform, over {field.name}; it is fastest where the shift is 0 or below 65536"),
        (f"{field.name}_inverse_transform", [("inout", "values", field.word), ("scalar", "shift", field.word)],
         f"the coefficients that {field.name}_transform takes to these values")]],
    ("tag_ghash", [("in", "key", "u8"), ("in", "message", "u8"), ("out", "hash", "u8")],
     "GHASH of the message (NIST SP 800-38D), zeros added to whole blocks; key and hash have 16 bytes"),
    ("tag_polyval", [("in", "key", "u8"), ("in", "message", "u8"), ("out", "hash", "u8")],
     "POLYVAL of the message (RFC 8452), zeros added to whole blocks; key and hash have 16 bytes"),
    ("tag_gcm_ghash", [("in", "key", "u8"), ("in", "associated", "u8"), ("in", "ciphertext", "u8"), ("out", "hash", "u8")],
     "the hash of GCM over associated data and ciphertext, each below 2^61 bytes, with the block of their lengths; key and hash have 16 bytes"),
    *[it for name in ("ghash", "polyval") for it in [
        (f"tag_{name}_init", [("result", "state", f"{name}_state"), ("in", "key", "u8")],
         f"the hash of the empty message under the key, to which tag_{name}_update adds bytes; key has 16 bytes"),
        (f"tag_{name}_update", [("state", "state", f"{name}_state"), ("in", "message", "u8")],
         "adds bytes to the message, of any number: no zeros come between them and the next ones"),
        (f"tag_{name}_pad", [("state", "state", f"{name}_state")],
         "adds as many zeros as make the message whole blocks, which may be none"),
        (f"tag_{name}_final", [("state", "state", f"{name}_state"), ("out", "hash", "u8")],
         f"what tag_{name} gives of the message, which is then empty, under the same key; hash has 16 bytes"),
    ]],
    ("tag_gcm_ghash_final", [("state", "state", "ghash_state"), ("count", "associated_length"), ("count", "ciphertext_length"),
                             ("out", "hash", "u8")],
     "what tag_gcm_ghash gives, where the message is the associated data, tag_ghash_pad behind them, and the ciphertext, by their lengths "
     "in bytes, each below 2^61; the message is then empty, under the same key; hash has 16 bytes"),
    ("tags_are_equal", [("in", "left", "u8"), ("in", "right", "u8"), ("result", "equal", "u8")],
     "1 where the two have the same bytes, else 0. What a compiler made of it was looked at: all bytes are read whatever they are, and one test "
     "comes at the end; unlike lengths return at once. docs/THEOREMS.md says what was looked at of other functions"),
    ("rs_encode", [("count", "data"), ("count", "parity"), ("inout", "shards", "u8")],
     "writes the shards of parity, which stand behind those of data; all shards stand one after the other and have one size"),
    ("rs_verify", [("count", "data"), ("count", "parity"), ("in", "shards", "u8"), ("result", "whole", "u8")],
     "1 where the shards of parity are those of the data, else 0"),
    ("rs_tables_length", [("count", "data"), ("count", "parity"), ("result", "length", "u64")],
     "how many bytes the tables of the code take: 32 for each pair of a shard of data and one of parity, parity counted up to a multiple of 4"),
    ("rs_prepare", [("count", "data"), ("count", "parity"), ("out", "tables", "u8")],
     "the tables of the code, by which rs_encode_prepared and rs_verify_prepared work; they are read faster from a multiple of 16 on"),
    ("rs_encode_prepared", [("count", "data"), ("count", "parity"), ("in", "tables", "u8"), ("inout", "shards", "u8")],
     "writes the shards of parity, as rs_encode does, by the tables that rs_prepare wrote for this code; by other bytes it writes parity of which "
     "nothing is said, and the data stay"),
    ("rs_verify_prepared", [("count", "data"), ("count", "parity"), ("in", "tables", "u8"), ("in", "shards", "u8"), ("result", "whole", "u8")],
     "1 where the shards of parity are those of the data, else 0, by the tables that rs_prepare wrote for this code; by other bytes it is 0 or 1"),
    ("rs_add_shard", [("count", "data"), ("count", "parity"), ("in", "tables", "u8"), ("count", "data_shard"), ("count", "parity_shard"),
                      ("in", "shard", "u8"), ("inout", "sums", "u8")],
     "adds to sums what a shard of data is in a shard of parity, by the tables that rs_prepare wrote for this code; once each shard of data was "
     "added to zeros, in any order, sums is that shard of parity"),
    ("rs_shard_factors", [("count", "data"), ("count", "parity"), ("in", "present", "u8"), ("count", "shard"), ("out", "factors", "u8")],
     "the factor of each shard in a missing one, which is the sum of the products of the present shards by their factors: shard i is missing "
     "where present[i] is 0, and the factors of all but the first present shards, as many as data, are 0"),
    ("rs_add_multiple", [("scalar", "factor", "u8"), ("in", "shard", "u8"), ("inout", "sums", "u8")],
     "adds to each byte of sums the product of the byte of shard at its place by the factor, modulo x^8 + x^4 + x^3 + x^2 + 1"),
    ("rs_reconstruct", [("count", "data"), ("count", "parity"), ("inout", "shards", "u8"), ("in", "present", "u8")],
     "writes the missing shards: shard i is missing where present[i] is 0"),
    ("rs_reconstruct_data", [("count", "data"), ("count", "parity"), ("inout", "shards", "u8"), ("in", "present", "u8")],
     "writes the missing shards of data alone"),
    ("rs_prepare_reconstruct", [("count", "data"), ("count", "parity"), ("in", "present", "u8"), ("inout", "tables", "u8")],
     "the tables of the missing shards, by which rs_reconstruct_prepared and rs_reconstruct_data_prepared restore them in every stripe that lacks "
     "the same ones; they have as many bytes as those of the code, whatever shards are missing, and of the bytes behind them nothing is said"),
    ("rs_reconstruct_prepared", [("count", "data"), ("count", "parity"), ("in", "tables", "u8"), ("inout", "shards", "u8"), ("in", "present", "u8")],
     "writes the missing shards, as rs_reconstruct does, by the tables that rs_prepare_reconstruct wrote for this code and these flags; by other "
     "bytes it writes missing shards of which nothing is said, and those present stay"),
    ("rs_reconstruct_data_prepared", [("count", "data"), ("count", "parity"), ("in", "tables", "u8"), ("inout", "shards", "u8"),
                                      ("in", "present", "u8")],
     "writes the missing shards of data alone, by the same tables"),
    *[(f"code_{name}", [("number", "modulus"), ("count", "symbols"), ("count", "data"), ("number", "first_root"), ("number", "root_step"), *parameters],
       text) for name, parameters, text in CODE_FUNCTIONS],
    *[(f"field_code_{name}", [("scalar", "field", "field"), ("count", "symbols"), ("count", "data"), ("number", "first_root"), ("number", "root"),
                              *parameters], text) for name, parameters, text in FIELD_CODE_FUNCTIONS],
    *[(f"bch_{name}", [("number", "modulus"), ("count", "bits"), ("count", "errors"), ("number", "root_step"), *parameters], text)
      for name, parameters, text in BCH_FUNCTIONS],
    ("erasure_space", [("count", "data"), ("count", "parity"), ("result", "length", "u64")],
     "how many words of space each call of the code takes: 40 times the least power of two that is at least data, counted up to a power of two, "
     "and parity together"),
    ("erasure_encode", [("count", "data"), ("count", "parity"), ("in", "shards", "u16"), ("out", "parity_shards", "u16"), ("space", "space", "u16")],
     "the shards of parity of these shards of data"),
    ("erasure_verify", [("count", "data"), ("count", "parity"), ("in", "shards", "u16"), ("in", "parity_shards", "u16"), ("space", "space", "u16"),
                        ("result", "whole", "u8")],
     "1 where the shards of parity are those of the data, else 0"),
    ("answer", [("in", "line", "u8"), ("out", "answer", "u8"), ("result", "written", "u64")],
     "writes to the front of answer what the program binfield answers to the line, as 41 to t8 mul 10 10, without a line feed; written is how "
     "many bytes that is, at most 48, and the bytes of answer behind them stay"),
    ("erasure_reconstruct", [("count", "data"), ("count", "parity"), ("inout", "shards", "u16"), ("inout", "parity_shards", "u16"),
                             ("in", "present", "u8"), ("space", "space", "u16")],
     "writes the missing shards: shard i, of the data and then of the parity, is missing where present[i] is 0"),
    ("secret_split", [("number", "modulus"), ("count", "needed"), ("count", "count"), ("in", "secret", "u8"), ("in", "draws", "u8"), ("out", "shares", "u8")],
     "writes count shares of a secret, any needed of which restore it, where fewer say nothing of it. Share i, counted from 0, has the index i + 1, is "
     "as long as the secret and stands behind those before it. modulus is 0x11b for the field of AES, or 0x11d for that of libgfshare. draws has needed - 1 "
     "times the length of secret bytes, which the caller draws for this secret alone from a source of cryptographic quality, each from all 256, 0 among "
     "them, and keeps from everybody"),
    ("secret_combine", [("number", "modulus"), ("count", "needed"), ("in", "indexes", "u8"), ("in", "shares", "u8"), ("out", "secret", "u8")],
     "writes the secret of shares with these indexes, of which needed are needed; they stand one after the other. Of more than needed all have to be "
     "those of one secret; whether bytes of needed shares are right cannot be told"),
    ("secret_combine_correcting", [("number", "modulus"), ("count", "needed"), ("in", "indexes", "u8"), ("in", "shares", "u8"), ("out", "secret", "u8"),
                                   ("out", "wrong", "u8")],
     "restores a secret as secret_combine does, of shares some of which may be wrong, and writes to wrong for each share 1 where it is wrong, else 0. A "
     "share is wrong if any of its bytes is, and of n shares up to (n - needed) / 2 may be"),
]

# Of these the proved crate exports a second form too, which gives the same and is made for x86-64-v3, whose vectors have 256 bits. No
# caller names it: where the library goes by its code for x86-64-v3, it stands behind the name of the first (`second_forms`).
WIDE = [
    "g128_multiply", "g128_multiply_in_place", "g128_multiply_by", "g128_multiply_by_in_place", "g128_add_scaled", "g128_dot_product",
    "g128_butterfly_forward", "g128_butterfly_inverse", "g128_low_stages", "g128_transform", "g128_inverse_transform",
    *[f"{field}_{name}" for field in ("t16", "t32", "t64", "t128", "p64")
      for name in ("multiply", "multiply_in_place", "inverse", "inverse_in_place", "batch_inverse", "power", "power_in_place")],
    "t8_multiply", "t8_multiply_in_place",
    *[f"g128_{name}" for name in ("inverse", "inverse_in_place", "batch_inverse")],
    *[f"g128_{name}" for name, _, _ in MATRIX_FUNCTIONS],
    "tag_ghash", "tag_polyval", "tag_gcm_ghash",
    "tag_ghash_update", "tag_polyval_update",
]

# This returns no status.
PLAIN_FUNCTIONS = [
    ("version", "uint32_t", "the version of the library, 65536 times the major number, 256 times the minor one, and the patch"),
]

# These return no status either, and no crate exports them: they stand where the library is made of what is proved.
CHOICE_FUNCTIONS = [
    ("processor", "const char *",
     'the processor whose form of the functions is called: "x86-64-v2", "x86-64-v3" or "aarch64", and never NULL. The form is chosen once, '
     "before main, as the best that runs on the processor at hand. The environment variable BINARY_FIELD_PROCESSOR=x86-64-v2 lowers that "
     "choice, and never raises it"),
]


def functions():
    """Every function that returns a status: its name without `bf_`, its parameters with their words, and what it computes."""
    for functions in (FIELD_FUNCTIONS, MATRIX_FUNCTIONS):
        for field in FIELDS:
            for name, parameters, text in functions:
                yield f"{field.name}_{name}", typed(parameters, field.word), text
    yield from other_functions()


def other_functions():
    """Those of no field, of the same form."""
    for name, parameters, text in OTHER_FUNCTIONS:
        yield name, [it if len(it) == 3 else (*it, "u64") for it in parameters], text


def second_forms():
    """The pairs of a function that has a second form and of that form, both without `bf_`."""
    for name in WIDE:
        yield name, f"{name}_wide"


def sentence(text, parameters=()):
    """A text as a sentence; it keeps its first letter where it begins with the name of a parameter."""
    keeps = text.split()[0] in [it[1] for it in parameters]
    return f"{text}." if keeps else f"{text[0].upper()}{text[1:]}."
