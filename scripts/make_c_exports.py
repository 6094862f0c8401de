#!/usr/bin/env python3
"""Writes the exported functions of crates/binary_field_c/src/, a file for each field and for each group of other functions, from the
tables of fields.py and c_library.py. With --check it compares instead.

An exported function has no type parameter, and a macro cannot write it; each passes its slices on to a function of c_calls, which
has the same contract. Only lib.rt is written by hand.
"""
import re
import sys
import textwrap

import c_library
import fields
import files

# The words `W` of slices by those of the table.
WORDS = {"u128": "Wide", "u192": "Cubic", "ghash_state": "HashState", "polyval_state": "HashState", "field": "ChosenField"}

# The stored words of kernels that are no integers of Rust, by those of the table.
STORED = {"u192": "Triple"}

# The function over any field that a call goes to, the word of its contract, and the operation that it applies.
CALL_ROWS = [row.split() for row in """\
add            slices::write_each_of_two  Adds          Sum
multiply       multiply                   Multiplies
multiply_by    multiply_by                MultipliesBy
add_scaled     add_scaled                 AddsScaled
square         slices::write_each         Squares       Square
inverse        invert                     Inverts
batch_inverse  batch_invert               Inverts
square_root    slices::write_each         TakesRoots    SquareRoot
power          raise                      RaisesTo
product        slices::product            TakesProduct
dot_product    dot_product                TakesDotProduct
evaluate       evaluate                   Evaluates
add_in_place          in_place::change_each_by  Adds          Sum
multiply_in_place     multiply_in_place         Multiplies
multiply_by_in_place  multiply_by_in_place      MultipliesBy
square_in_place       in_place::change_each     Squares       Square
inverse_in_place      invert_in_place           Inverts
square_root_in_place  in_place::change_each     TakesRoots    SquareRoot
power_in_place        raise_in_place            RaisesTo
generator      slices::generator          NamesGenerator
""".splitlines()]
CALLS = {row[0]: row[1:3] for row in CALL_ROWS}
OPERATIONS = {row[0]: row[3] for row in CALL_ROWS if len(row) > 3}

# The vectors that the calls work in, and the functions of c_calls of no field over a type of vectors.
NARROW, WIDE = "u64x2", "u64x4"
WITH_WIDTH = {
    "butterfly_forward", "butterfly_inverse", "low_stages", "transform", "inverse_transform", "hash", "hash_update", "gcm_ghash",
}

# Calls whose loops may take two elements in a turn.
IN_TURNS = {"square", "square_root"}

# The function whose loops may, and the one over kernels alone.
MAY_TAKE_TURNS, OF_KERNELS = "slices::write_each", "slices::generator"

# The functions of no field and of the stages: the file, the function of c_calls, and the contract.
OTHER_CALLS = {row.split()[0]: row.split(maxsplit=3)[1:] for row in """\
r8_linear_map           linear      map_bytes          MapsLinearly itself 8 images.now values.now mapped.old mapped.new result
g128_linear_map         linear      map_wide           MapsLinearly wide_number 128 images.now values.now mapped.old mapped.new result
bit_matrix_multiply     bit_matrices  bit_matrices::multiply    MultipliesBits rows inner columns left.now right.now product.old product.new result
bit_matrix_transpose    bit_matrices  bit_matrices::transpose   TransposesBits rows columns matrix.now transposed.old transposed.new result
bit_matrix_row_reduce   bit_matrices  bit_matrices::row_reduce  ReducesBitRows rows columns matrix.old pivots.old rank.old matrix.new pivots.new \
rank.new result
bit_matrix_rank         bit_matrices  bit_matrices::rank        TakesBitRank rows columns matrix.now (length space.old) (length places.old) \
rank.old rank.new result
field_init  chosen  fields::init  PreparesField degree (wide_number tail.now) field.old field.new result
field_add  chosen  fields::add  OverField field.now (Adds (chosen_field field.now) left.now right.now sums.old sums.new result) \
sums.old sums.new result
field_multiply  chosen  fields::multiply  OverField field.now (Multiplies (chosen_field field.now) left.now right.now products.old products.new \
result) products.old products.new result
field_multiply_by  chosen  fields::multiply_by  OverField field.now (MultipliesBy (chosen_field field.now) scalar.now values.now products.old \
products.new result) products.old products.new result
field_square  chosen  fields::square  OverField field.now (Squares (chosen_field field.now) values.now squares.old squares.new result) \
squares.old squares.new result
field_inverse  chosen  fields::inverse  OverField field.now (Inverts (chosen_field field.now) values.now inverses.old inverses.new result) \
inverses.old inverses.new result
field_square_root  chosen  fields::square_root  OverField field.now (TakesRoots (chosen_field field.now) values.now roots.old roots.new result) \
roots.old roots.new result
field_power  chosen  fields::power  OverField field.now (RaisesTo (chosen_field field.now) exponent values.now powers.old powers.new result) \
powers.old powers.new result
field_trace  chosen  fields::trace  OverField field.now (TakesTraces (chosen_field field.now) values.now traces.old traces.new result) \
traces.old traces.new result
field_divide  chosen  fields::divide  OverField field.now (TakesQuotients (chosen_field field.now) left.now right.now quotients.old quotients.new \
result) quotients.old quotients.new result
field_primitive_element  chosen  fields::primitive_element  OverField field.now (TakesPrimitive (chosen_field field.now) element.old element.new \
result) element.old element.new result
field_logarithm  chosen  fields::logarithm  OverField field.now (TakesLogarithms (chosen_field field.now) base.now values.now logarithms.old \
logarithms.new result) logarithms.old logarithms.new result
field_order  chosen  field_elements::order  OverField field.now (TakesOrders (chosen_field field.now) values.now orders.old orders.new result) \
orders.old orders.new result
field_trace_to  chosen  field_elements::trace_to  OverField field.now (TakesTracesOver (chosen_field field.now) subfield_degree values.now traces.old \
traces.new result) traces.old traces.new result
field_norm_to  chosen  field_elements::norm_to  OverField field.now (TakesNormsOver (chosen_field field.now) subfield_degree values.now norms.old norms.new \
result) norms.old norms.new result
field_minimal_polynomial  chosen  field_elements::minimal_polynomial  TakesMinimalPolynomialOver field.now element.now degree.old tail.old \
degree.new tail.new result
field_next_irreducible  chosen  moduli::irreducible  FindsIrreducible degree (wide_number tail.now) next.old next.new result
field_next_primitive  chosen  moduli::primitive  FindsPrimitive degree (wide_number tail.now) next.old next.new result
field_embedding  chosen  fields::embedding  FindsARootOver source.now target.now root.old root.new result
field_embed  chosen  fields::embed  EmbedsOver source.now target.now root.now values.now images.old images.new result
field_dot_product  chosen  fields::dot_product  OverField field.now (TakesDotProduct (chosen_field field.now) left.now right.now sum.old sum.new \
result) sum.old sum.new result
field_evaluate  chosen  fields::evaluate  OverField field.now (Evaluates (chosen_field field.now) coefficients.now points.now values.old values.new \
result) values.old values.new result
g128_butterfly_forward  transforms  butterfly_forward  ButterfliesForward (wide_number scalar.now) low.old high.old low.new high.new result
g128_butterfly_inverse  transforms  butterfly_inverse  ButterfliesInverse (wide_number scalar.now) low.old high.old low.new high.new result
g128_low_stages         transforms  low_stages         RunsLowStages shifts.now basis.now first_run values.old values.new result
g128_transform          transforms  transform          Transforms (wide_number shift.now) values.old values.new result
g128_inverse_transform  transforms  inverse_transform  InvertsTransform (wide_number shift.now) values.old values.new result
tag_ghash               messages    hash::<tags::HighestFirst>  Hashes (Unit {0}) key.now (ghash key.now (blocks_of message.now)) hash.old hash.new result
tag_polyval             messages    hash::<tags::LowestFirst>   Hashes (Unit {0}) key.now (polyval key.now (blocks_of message.now)) hash.old hash.new result
tag_ghash_init  messages  hash_begin::<tags::HighestFirst>  BeginsHash HoldsGhash key.now state.old state.new result
tag_ghash_update  messages  hash_update::<tags::HighestFirst>  ChangesMessage HoldsGhash (λ m. m ++ message.now) state.old state.new result
tag_ghash_pad  messages  hash_pad::<tags::HighestFirst>  ChangesMessage HoldsGhash (λ m. zero_padded m) state.old state.new result
tag_ghash_final  messages  hash_end::<tags::HighestFirst>  EndsHash HoldsGhash (Unit {0}) (λ key m. ghash key (blocks_of m)) \
state.old hash.old state.new hash.new result
tag_polyval_init  messages  hash_begin::<tags::LowestFirst>  BeginsHash HoldsPolyval key.now state.old state.new result
tag_polyval_update  messages  hash_update::<tags::LowestFirst>  ChangesMessage HoldsPolyval (λ m. m ++ message.now) \
state.old state.new result
tag_polyval_pad  messages  hash_pad::<tags::LowestFirst>  ChangesMessage HoldsPolyval (λ m. zero_padded m) state.old state.new result
tag_polyval_final  messages  hash_end::<tags::LowestFirst>  EndsHash HoldsPolyval (Unit {0}) (λ key m. polyval key (blocks_of m)) \
state.old hash.old state.new hash.new result
tag_gcm_ghash_final  messages  gcm_hash_end  EndsHash HoldsGhash ((associated_length < 2 ^ 61) × (ciphertext_length < 2 ^ 61)) \
(hash_with_lengths associated_length ciphertext_length) state.old hash.old state.new hash.new result
tag_gcm_ghash           messages    gcm_ghash          Hashes ((length associated.now < 2 ^ 61) × (length ciphertext.now < 2 ^ 61)) key.now \
(ghash key.now (gcm_blocks associated.now ciphertext.now)) hash.old hash.new result
tags_are_equal          messages    tags_are_equal     Compares left.now right.now equal.new result
answer                  lines       answer_line        AnswersLine line.now answer.old written.old answer.new written.new result
secret_split            secrets     split_secret       SplitsSecret modulus needed count secret.now draws.now shares.old shares.new result
secret_combine          secrets     combine_shares     CombinesShares modulus needed indexes.now shares.now secret.old secret.new result
secret_combine_correcting  secrets  correct_shares     CorrectsShares modulus needed indexes.now shares.now secret.old wrong.old secret.new wrong.new result
rs_encode               shards      encode             Encodes «data» parity shards.old shards.new result
rs_verify               shards      verify             Verifies «data» parity shards.now whole.old whole.new result
rs_tables_length        shards      tables_length      TellsTablesLength «data» parity length.old length.new result
rs_prepare              shards      prepare            Prepares «data» parity tables.old tables.new result
rs_encode_prepared      shards      encode_prepared    EncodesPrepared «data» parity tables.now shards.old shards.new result
rs_verify_prepared      shards      verify_prepared    VerifiesPrepared «data» parity tables.now shards.now whole.old whole.new result
rs_add_shard            shards      add_shard          AddsOneShard «data» parity tables.now data_shard parity_shard shard.now sums.old sums.new result
rs_shard_factors        shards      factors_of         TellsFactors «data» parity present.now shard factors.old factors.new result
rs_add_multiple         shards      add_multiple       AddsOneMultiple factor shard.now sums.old sums.new result
rs_reconstruct          shards      reconstruct        Reconstructs «data» parity («data» + parity) present.now shards.old shards.new result
rs_reconstruct_data     shards      reconstruct_data   Reconstructs «data» parity «data» present.now shards.old shards.new result
rs_prepare_reconstruct  shards      prepare_reconstruct  PreparesMissing «data» parity present.now tables.old tables.new result
rs_reconstruct_prepared  shards     reconstruct_prepared  ReconstructsPrepared «data» parity («data» + parity) present.now tables.now \
shards.old shards.new result
rs_reconstruct_data_prepared  shards  reconstruct_data_prepared  ReconstructsPrepared «data» parity «data» present.now tables.now \
shards.old shards.new result
""".splitlines()}

# The transforms over levels of the tower, which are written once over the level.
for _field in fields.FIELDS:
    if _field.is_transformed:
        _number, _shift = ("wide_number", "(wide_number shift.now)") if _field.word in WORDS else ("itself", "shift")
        for _name, _contract in (("transform", "TransformsLevel"), ("inverse_transform", "InvertsLevelTransform")):
            OTHER_CALLS[f"{_field.name}_{_name}"] = [
                "transforms", f"{_name}_level::<{_field.word}, {WORDS.get(_field.word, _field.word)}, Bits{_field.bits}>",
                f"{_contract} {_number} {_field.bits.bit_length() - 1} {_shift} values.old values.new result",
            ]

# The calls of erasure codes by transforms, which are written once over the level too.
for _name, _clause in (
    ("space", "TellsSpace 4 «data» parity length.old length.new result"),
    ("encode", "EncodesErasure itself 0 4 «data» parity shards.now parity_shards.old parity_shards.new (length space.old) result"),
    ("verify", "VerifiesErasure itself 0 4 «data» parity shards.now parity_shards.now (length space.old) whole.old whole.new result"),
    ("reconstruct", "ReconstructsErasure itself 0 4 «data» parity present.now shards.old parity_shards.old shards.new parity_shards.new "
                    "(length space.old) result"),
):
    OTHER_CALLS[f"erasure_{_name}"] = ["erasure", f"erasure_{_name}::<u16, Bits16>", _clause]

# The calls of codes that correct errors, whose contracts begin with what says which code it is.
for _name, _contract, _clause in (
    ("encode", "EncodesWords", "words.old words.new result"),
    ("syndromes", "WritesSyndromes", "words.now syndromes.old syndromes.new result"),
    ("are_words", "TellsCodeWords", "words.now flags.old flags.new result"),
    ("correct", "CorrectsWords", "erasures.now words.old corrected.old words.new corrected.new result"),
):
    OTHER_CALLS[f"code_{_name}"] = ["codes", f"codes::{_name}", f"{_contract} modulus symbols «data» first_root root_step {_clause}"]
for _name, _contract, _clause in (
    ("encode", "EncodesInterleaved", "words.old words.new result"),
    ("syndromes", "WritesInterleavedSyndromes", "words.now syndromes.old syndromes.new result"),
    ("correct", "CorrectsInterleaved", "erasures.now words.old syndromes.old corrected.old words.new syndromes.new corrected.new result"),
):
    OTHER_CALLS[f"code_{_name}_interleaved"] = [
        "codes", f"interleaved_codes::{_name}", f"{_contract} modulus symbols «data» first_root root_step {_clause}",
    ]
for _name, _contract, _clause in (
    ("encode", "EncodesWordsOver", "(length space.old) words.old words.new result"),
    ("syndromes", "WritesSyndromesOver", "words.now syndromes.old syndromes.new result"),
    ("are_words", "TellsCodeWordsOver", "words.now flags.old flags.new result"),
    ("correct", "CorrectsWordsOver", "(length space.old) (length marks.old) (length places.old) erasures.now words.old corrected.old words.new corrected.new "
     "result"),
):
    OTHER_CALLS[f"field_code_{_name}"] = ["field_codes", f"field_codes::{_name}", f"{_contract} field.now symbols «data» first_root root {_clause}"]
for _name, _call, _contract, _clause in (
    ("data", "dimension", "TellsDataBits", "«data».old «data».new result"),
    ("encode", "encode", "EncodesBits", "words.old words.new result"),
    ("are_words", "are_words", "TellsBinaryWords", "words.now flags.old flags.new result"),
    ("correct", "correct", "CorrectsBits", "erasures.now words.old corrected.old words.new corrected.new result"),
):
    OTHER_CALLS[f"bch_{_name}"] = ["binary_codes", f"binary_codes::{_call}", f"{_contract} modulus bits errors root_step {_clause}"]

# The functions of matrices: the contract over a field.
MATRIX_CALLS = {row.split()[0]: row.split(maxsplit=1)[1] for row in """\
matrix_multiply     MultipliesMatrices {} rows inner columns left.now right.now product.old product.new result
matrix_row_reduce   ReducesRows {} rows columns matrix.old pivots.old rank.old matrix.new pivots.new rank.new result
matrix_rank         TakesRank {} rows columns matrix.now (length space.old) (length places.old) rank.old rank.new result
matrix_determinant  TakesDeterminant {} size matrix.now (length space.old) determinant.old determinant.new result
matrix_inverse      InvertsMatrix {} size matrix.now (length space.old) (length places.old) inverse.old inverse.new result
matrix_solve        SolvesEquations {} rows columns matrix.now right.now (length space.old) (length places.old) solution.old solution.new result
""".splitlines()}

# Those over a field that the caller chooses: what a call writes is kept where its words name no field.
for _name, _parameters, _ in c_library.MATRIX_FUNCTIONS:
    _written = [it[1] for it in _parameters if it[0] in ("out", "inout", "result")]
    _clause = MATRIX_CALLS[_name].format("(chosen_field field.now)")
    if len(_written) > 1:
        _clause = MATRIX_CALLS[_name].replace(" {}", "Over field.now")
    else:
        _clause = f"OverField field.now ({_clause}) {_written[0]}.old {_written[0]}.new result"
    OTHER_CALLS[f"field_{_name}"] = ["field_matrices", f"field_matrices::{_name.removeprefix('matrix_')}", _clause]

# What each file of such functions has.
ABOUT = {
    "binary_codes": "Calls of binary BCH codes, on words of bits that stand one after the other, a byte each.",
    "bit_matrices": "Calls over matrices over GF(2), whose rows are packed in words of 64 bits.",
    "changes": "Calls over slices of elements of a level of the tower, and of their images in a field of polynomials.",
    "codes": "Calls of Reed-Solomon codes over bytes that correct errors, on words that stand one after the other or interleaved.",
    "chosen": "Calls over slices of elements of a field that the caller chooses.",
    "erasure": "Calls of erasure codes by transforms, over words of 16 bits: shards of data, and those of parity, stand one after the other.",
    "field_codes": "Calls of Reed-Solomon codes that correct errors over a field that the caller chooses, on words that stand one after the other.",
    "field_matrices": "Calls over matrices over a field that the caller chooses, row after row.",
    "linear": "Calls that map words linearly.",
    "lines": "Calls over lines of text.",
    "transforms": "Calls that transform values in the field of GHASH, and in levels of the tower.",
    "messages": "Calls over messages.",
    "secrets": "Calls that share a secret: its shares stand one after the other.",
    "shards": "Calls over shards, which stand one after the other and have one size: those of data, and then those of parity.",
    "wide": "Second forms of calls, made for x86-64-v3, whose vectors have 256 bits.",
}

# The modules that define the words of contracts, in the order in which a file brings them in.
HOMES = {
    "std.specs.Prelude": ["◌^◌", "◌<◌", "◌++◌", "◌+◌", "length"],
    "field_base.specs.Basis": ["aes_images", "basis_image", "ghash_images", "poly64_images"],
    "field_base.specs.Remainder": ["aes_modulus", "ghash_modulus", "poly64_modulus"],
    "tags.specs.Absorbed": ["HoldsGhash", "HoldsPolyval"],
    "tags.specs.Blocks": ["blocks_of", "gcm_blocks", "zero_padded"],
    "tags.specs.Gcm": ["ghash"],
    "tags.specs.Pieces": ["hash_with_lengths"],
    "tags.specs.Polyval": ["polyval"],
    "c_calls.specs.BinaryCodes": ["CorrectsBits", "EncodesBits", "TellsBinaryWords", "TellsDataBits"],
    "c_calls.specs.BitMatrices": ["MultipliesBits", "ReducesBitRows", "TakesBitRank", "TransposesBits"],
    "c_calls.specs.Bytes": [
        "AddsOneMultiple", "AddsOneShard", "BeginsHash", "ChangesMessage", "Compares", "Encodes", "EncodesPrepared", "EndsHash", "Hashes",
        "Prepares", "PreparesMissing", "Reconstructs", "ReconstructsPrepared", "TellsFactors", "TellsTablesLength", "Verifies",
        "VerifiesPrepared",
    ],
    "c_calls.specs.ChosenCodes": ["CorrectsWordsOver", "EncodesWordsOver", "TellsCodeWordsOver", "WritesSyndromesOver"],
    "c_calls.specs.ChosenElements": [
        "FindsIrreducible", "FindsPrimitive", "TakesMinimalPolynomialOver", "TakesNormsOver", "TakesOrders", "TakesTracesOver",
    ],
    "c_calls.specs.Codes": ["CorrectsWords", "EncodesWords", "TellsCodeWords", "WritesSyndromes"],
    "c_calls.specs.InterleavedCodes": ["CorrectsInterleaved", "EncodesInterleaved", "WritesInterleavedSyndromes"],
    "c_calls.specs.ChosenFields": [
        "EmbedsOver", "FindsARootOver", "OverField", "PreparesField", "ReducesRowsOver", "TakesLogarithms", "TakesPrimitive", "TakesQuotients", "TakesTraces", "chosen_field",
    ],
    "c_calls.specs.Erasure": ["EncodesErasure", "ReconstructsErasure", "TellsSpace", "VerifiesErasure"],
    "c_calls.specs.Linear": ["MapsLinearly"],
    "c_calls.specs.Lines": ["AnswersLine"],
    "c_calls.specs.Secrets": ["CombinesShares", "CorrectsShares", "SplitsSecret"],
    "c_calls.specs.Transforms": [
        "ButterfliesForward", "ButterfliesInverse", "InvertsLevelTransform", "InvertsTransform", "RunsLowStages", "Transforms", "TransformsLevel",
    ],
    "c_calls.specs.Calls": sorted({word for _, word in CALLS.values()} | {"TakesImages", "TakesPreimages"}),
    "c_calls.specs.Fields": [
        "cubic_field", "ghash_field", "level_field", "poly64_field", "wide_level_field", "wide_number",
    ],
    "many_words.specs.Fields": ["itself", "rijndael_field"],
    "c_calls.specs.Matrices": ["InvertsMatrix", "MultipliesMatrices", "ReducesRows", "SolvesEquations", "TakesDeterminant", "TakesRank"],
}

# The columns of a line of code, of those that `rt fmt` does not break, and of a contract.
COLUMNS, LONG_COLUMNS, CONTRACT_COLUMNS = 100, 135, 140
# The columns that the arguments of a call have on a line of their own at most.
ARGUMENT_COLUMNS = 60
# The length of an argument that shares a line where a call does not fit one.
SHORT = 10


def parameter(kind, name, word):
    """A parameter as the signature has it."""
    types = {
        "in": f"&[{word}]",
        "out": f"&mut [{word}]",
        "inout": f"&mut [{word}]",
        "space": f"&mut [{word}]",
        "scalar": f"&{word}" if word in WORDS.values() else word,
        "result": f"&mut {word}",
        "state": f"&mut {word}",
        "number": "u64",
        "count": "u64",
    }
    return f"{name}: {types[kind]}"


def clause_words(kind, name, word):
    """What a contract says of a parameter: before the words that are written, and those."""
    if kind == "in" or kind == "scalar" and word in WORDS.values():
        return [f"{name}.now"], []
    if kind in ("out", "inout", "result"):
        return [], [f"{name}.old", f"{name}.new"]
    return [name], []


def field_clause(contract, field, parameters, is_in_place=False):
    """The contract over a field: the field, a scalar or an exponent, what is read, what is written, and the status."""
    reads, writes = [], []
    for it in sorted(parameters, key=lambda it: it[0] not in ("scalar", "number")):
        read, written = clause_words(*it)
        # In place, what is written was the first operand.
        reads += [*written[:1], *read] if is_in_place else read
        writes += written
    if contract == "NamesGenerator":
        writes = writes[1:]
    named = f"({field})" if " " in field else field
    return " ".join([contract, named, *reads, *writes, "result"])


def function(name, parameters, text, called, clause, more=(), first=()):
    """An exported function: what it computes, its signature, its contract and its call, with arguments before its own and behind them."""
    typed = [(kind, it, WORDS.get(word, word)) for kind, it, word in parameters]
    arguments = [f"*{it}" if kind == "scalar" and word in WORDS.values() else it for kind, it, word in typed]
    shown = [parameter(*it) for it in typed]
    signature = f'pub extern "C" fn bf_{name}({", ".join(shown)}) -> u32'
    if len(signature) > COLUMNS:
        rows = "".join(f"    {it},\n" for it in shown)
        signature = f'pub extern "C" fn bf_{name}(\n{rows}) -> u32'
    contract = f"    ensures {{ {clause} }}"
    if len(contract) > CONTRACT_COLUMNS:
        contract = textwrap.fill(contract, COLUMNS, subsequent_indent=" " * 8, drop_whitespace=True)
    passed = [*first, *arguments, *more]
    body = f"    {called}({', '.join(passed)})"
    if len(body) > COLUMNS or len(", ".join(passed)) > ARGUMENT_COLUMNS:
        # Short arguments that are no calls share their lines.
        lines = [", ".join(passed)] if all(len(it) <= SHORT and "(" not in it for it in passed) else passed
        rows = "".join(f"        {it},\n" for it in lines)
        body = f"    {called}(\n{rows}    )"
    return "\n".join([
        *(f"/// {it}" for it in textwrap.wrap(c_library.sentence(text, parameters), LONG_COLUMNS)),
        "#[unsafe(no_mangle)]",
        signature,
        contract,
        "{",
        body,
        "}",
        "",
    ])


def called_over(field, call, more=""):
    """The call of a function over any field: its stored word, the word of its slices, its kernel, and what is found by the arguments."""
    return called_over_words(field, call, f"{WORDS.get(field.word, field.word)}, {field.kernel}{more}")


def called_over_words(field, call, more):
    """The call of a function over fields: its stored word, and then what else names the field."""
    return f"{call}::<{STORED.get(field.word, field.word)}, {more}>"


def of_width(call, vector):
    """The call of a function of c_calls, over vectors of that type where it has a type of vectors, which stands behind its other types."""
    name, _, types = call.partition("::<")
    if name not in WITH_WIDTH:
        return f"c_calls::{call}"
    return f"c_calls::{name}::<{types.replace('>', ', ')}{vector}>"


def words_of(field):
    """The arithmetic of a field on its words, by the name that a file gives its type."""
    return f"{field.name.capitalize()}::new()"


def called_on_words(name):
    """The call of a function over words of any field."""
    call = CALLS[name][0]
    return call if "::" in call else f"c_calls::{call}"


def field_function(field, name, parameters, text):
    """A function of a field."""
    (call, contract), operation = CALLS[name], OPERATIONS.get(name)
    called, first, more = called_on_words(name), [words_of(field)], [f"&{operation}"] if operation else []
    if call == OF_KERNELS:
        called, first = called_over(field, call), []
    if call == MAY_TAKE_TURNS:
        more.append(str(name in IN_TURNS and field.is_looked_up).lower())
    typed = c_library.typed(parameters, field.word)
    words = [(kind, it, WORDS.get(of, of)) for kind, it, of in typed]
    clause = field_clause(contract, field.contract, words, name.endswith("_in_place"))
    return function(f"{field.name}_{name}", typed, text, called, clause, more, first=first)


def matrix_function(field, name, parameters, text, vector=NARROW):
    """A function of matrices over a field, whose rows are added in vectors of that type."""
    own = name.removesuffix("_wide")
    named = f"({field.contract})" if " " in field.contract else field.contract
    called, first = f"c_calls::matrices::{own.removeprefix('matrix_')}", [words_of(field)]
    if own == "matrix_multiply" and field.bits == 8:
        called, first = f"c_calls::byte_matrices::multiply::<{field.kernel}, {vector}>", []
    return function(f"{field.name}_{name}", parameters, text, called, MATRIX_CALLS[own].format(named), first=first)


def change_of_basis(name, parameters, text):
    """A change of basis: the field of polynomials that it goes to or comes from has the map."""
    source, image = (fields.field_named(it) for it in name.split("_to_"))
    is_image = image.modulus is not None
    field = image if is_image else source
    contract, change = ("TakesImages", "FromTower") if is_image else ("TakesPreimages", "ToTower")
    number = "wide_number" if field.word in WORDS else "itself"
    basis = f"(basis_image {field.bits} {field.basis}_modulus {field.basis}_images)"
    called = called_over_words(field, "slices::change_basis", f"{WORDS.get(field.word, field.word)}, {change}<{field.kernel}>")
    return function(name, parameters, text, called, f"{contract} {number} {basis} values.now images.old images.new result")


def other_function(name, parameters, text):
    """A function of no field, or of stages."""
    _, call, clause = OTHER_CALLS[name]
    return function(name, parameters, text, of_width(call, NARROW), clause)


def wide_function(name, second, parameters):
    """The second form of a function, by its own name."""
    field_name, own = name.split("_", 1)
    if own in MATRIX_CALLS:
        field, wide = fields.field_named(field_name), second.removeprefix(f"{field_name}_")
        return matrix_function(field, wide, parameters, f"the same as `bf_{name}`", WIDE)
    if name in OTHER_CALLS:
        _, call, clause = OTHER_CALLS[name]
        called = of_width(call, WIDE)
    else:
        field = fields.field_named(field_name)
        typed = [(kind, it, WORDS.get(word, word)) for kind, it, word in parameters]
        clause = field_clause(CALLS[own][1], field.contract, typed, own.endswith("_in_place"))
        return function(second, parameters, f"the same as `bf_{name}`", called_on_words(own), clause, first=[words_of(field)])
    return function(second, parameters, f"the same as `bf_{name}`", called, clause)


def brought_in(clauses):
    """The lines that bring in the words of contracts."""
    words = set(re.findall(r"[\w]+", clauses)) | {f"◌{it}◌" for it in re.findall(r" ([\^<]|\+{1,2}) ", clauses)}
    for home, names in HOMES.items():
        line = []
        for name in [it for it in names if it in words]:
            if line and len(f"ghost use Rattle.{home}.{{{', '.join([*line, name])}}};") > LONG_COLUMNS:
                yield f"ghost use Rattle.{home}.{{{', '.join(line)}}};"
                line = []
            line.append(name)
        if line:
            yield f"ghost use Rattle.{home}.{{{', '.join(line)}}};"


def in_order(name):
    """The key by which `rt fmt` sorts names: numbers in them by their size."""
    return [int(it) if it.isdigit() else it for it in re.split(r"(\d+)", name)]


def import_of(names):
    """The import of several names, in lines as `rt fmt` breaks them."""
    line = f"use c_calls::{{{names}}};"
    if len(line) <= COLUMNS:
        return line
    return "\n".join(["use c_calls::{", textwrap.fill(f"{names},", COLUMNS, initial_indent=" " * 4, subsequent_indent=" " * 4), "};"])


def used(bodies):
    """The line that brings in what bodies and signatures name without a path."""
    operations = sorted({it for it in OPERATIONS.values() if re.search(rf"&{it}\b", bodies)})
    parameters = " ".join(" ".join(it) for it in re.findall(r"::<([^(]+)>\(|Words<(.+)>;", bodies))
    named = {"Words"} if " Words<" in bodies else set()
    named |= set(re.findall(r"(?<![:\w])[A-Z]\w+", parameters)) | set(re.findall(r"(?<![:\w])(slices|in_place)::", bodies))
    named |= {it for it in [*WORDS.values(), *STORED.values()] if re.search(rf"\b{it}\b", bodies)}
    lines = [f"use c_calls::operations::{{{', '.join(operations)}}};"] if operations else []
    if named:
        lines.append(import_of(", ".join(sorted(named, key=in_order))) if len(named) > 1 else f"use c_calls::{named.pop()};")
    lines += ["use std::simd::prelude::*;"] if re.search(rf"\b({NARROW}|{WIDE})\b", bodies) else []
    return [*lines, ""] if lines else []


def types_of_words(text, vector):
    """The types of the arithmetic of fields that functions name, in vectors of that type."""
    for it in fields.FIELDS:
        if words_of(it) in text:
            yield f"type {it.name.capitalize()} = {called_over(it, 'Words', f', {vector}').replace('::', '')};"
            yield ""


def write(name, about, functions):
    """Writes a file."""
    text = "\n".join(functions)
    clauses = "\n".join(re.findall(r"    ensures \{ (.*?) \}\n\{", text, re.DOTALL))
    types = list(types_of_words(text, WIDE if name == "wide" else NARROW))
    lines = [f"// {about}", f"// {files.generated('make_c_exports.py')}", *brought_in(clauses), "", *used("\n".join([*types, text])), *types]
    files.keep(f"crates/binary_field_c/src/{name}.rt", "\n".join([*lines, text]))


def write_version():
    """Writes the file of the version."""
    major, minor, patch = fields.VERSION
    (name, _, text), = c_library.PLAIN_FUNCTIONS
    files.keep("crates/binary_field_c/src/version.rt", f"""\
// The version of the library.
// {files.generated("make_c_exports.py")}
ghost use Rattle.std.specs.Prelude.{{◌≡◌, ◌+◌, ◌*◌}};

// The numbers of the version.
const MAJOR: u32 = {major};

const MINOR: u32 = {minor};

const PATCH: u32 = {patch};

/// {c_library.sentence(text)}
#[unsafe(no_mangle)]
pub extern "C" fn bf_{name}() -> u32
    ensures {{ result ≡ 65536 * MAJOR + 256 * MINOR + PATCH }}
{{
    65536 * MAJOR + 256 * MINOR + PATCH
}}
""")


def main():
    for field in fields.FIELDS:
        functions = [field_function(field, *it) for it in c_library.FIELD_FUNCTIONS]
        functions += [
            matrix_function(field, name, c_library.typed(parameters, field.word), text) for name, parameters, text in c_library.MATRIX_FUNCTIONS
        ]
        write(field.name, f"Calls over slices of elements of {field.about}.", functions)
    groups = {it: [] for it in ABOUT}
    named = {name: parameters for name, parameters, _ in c_library.functions()}
    for name, parameters, text in c_library.functions():
        if "_to_" in name:
            groups["changes"].append(change_of_basis(name, parameters, text))
        elif name in OTHER_CALLS:
            groups[OTHER_CALLS[name][0]].append(other_function(name, parameters, text))
    groups["wide"] = [wide_function(name, second, named[name]) for name, second in c_library.second_forms()]
    for name, functions in groups.items():
        write(name, ABOUT[name], functions)
    write_version()
    root = (files.CRATES / "binary_field_c/src/lib.rt").read_text(encoding="utf-8")
    modules = sorted([*(it.name for it in fields.FIELDS), *ABOUT, "version"])
    if re.findall(r"^mod (\w+);$", root, re.MULTILINE) != modules:
        sys.exit(f"crates/binary_field_c/src/lib.rt does not have the modules {', '.join(modules)}")


if __name__ == "__main__":
    main()
