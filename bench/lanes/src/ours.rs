//! The units of the library, in the build for x86-64-v2 and in that for x86-64-v3.

use crate::Unit;

/// Units over a fixed number of operands.
macro_rules! fixed {
    ($($unit:ident: $v2:ident $v3:ident;)*) => {
        unsafe extern "C" {
            $(
                safe fn $v2(rounds: u64, seed: u64) -> u64;
                safe fn $v3(rounds: u64, seed: u64) -> u64;
            )*
        }

        $(
            pub const $unit: [Unit; 2] = [
                |rounds, seed, _| $v2(rounds, seed),
                |rounds, seed, _| $v3(rounds, seed),
            ];
        )*
    };
}

/// Units over slices.
macro_rules! sliced {
    ($($unit:ident: $v2:ident $v3:ident;)*) => {
        unsafe extern "C" {
            $(
                safe fn $v2(rounds: u64, seed: u64, length: usize) -> u64;
                safe fn $v3(rounds: u64, seed: u64, length: usize) -> u64;
            )*
        }

        $(
            pub const $unit: [Unit; 2] = [
                |rounds, seed, length| $v2(rounds, seed, length),
                |rounds, seed, length| $v3(rounds, seed, length),
            ];
        )*
    };
}

fixed! {
    MASKED_PRODUCTS: v2_bench_masked_products v3_bench_masked_products;
    PACKED_GHASH_PRODUCT: v2_bench_packed_ghash_product v3_bench_packed_ghash_product;
    PACKED_GHASH_BY_ELEMENT: v2_bench_packed_ghash_by_element v3_bench_packed_ghash_by_element;
    PACKED_GHASH_DOT_PRODUCT: v2_bench_packed_ghash_dot_product v3_bench_packed_ghash_dot_product;
    LOW_STAGES: v2_bench_low_stages v3_bench_low_stages;
    LOW_STAGES_BY_FOURS: v2_bench_low_stages_by_fours v3_bench_low_stages_by_fours;
    TRANSFORM: v2_bench_transform v3_bench_transform;
    PACKED_16_BYTES_PRODUCT: v2_bench_packed_16_bytes_product v3_bench_packed_16_bytes_product;
    PACKED_32_BYTES_PRODUCT: v2_bench_packed_32_bytes_product v3_bench_packed_32_bytes_product;
    PACKED_16_BYTES_BY_ELEMENT: v2_bench_packed_16_bytes_by_element v3_bench_packed_16_bytes_by_element;
    PACKED_32_BYTES_BY_ELEMENT: v2_bench_packed_32_bytes_by_element v3_bench_packed_32_bytes_by_element;
    PACKED_16_BYTES_BY_BIT: v2_bench_packed_16_bytes_by_bit v3_bench_packed_16_bytes_by_bit;
    PACKED_32_BYTES_BY_BIT: v2_bench_packed_32_bytes_by_bit v3_bench_packed_32_bytes_by_bit;
    PACKED_16_BYTES_BY_MATRIX: v2_bench_packed_16_bytes_by_matrix v3_bench_packed_16_bytes_by_matrix;
    PACKED_32_BYTES_BY_MATRIX: v2_bench_packed_32_bytes_by_matrix v3_bench_packed_32_bytes_by_matrix;
}

sliced! {
    MUL_SLICE: v2_bench_mul_slice v3_bench_mul_slice;
    ADD_IN_LANES: v2_bench_add_in_lanes v3_bench_add_in_lanes;
    ADD_IN_WIDE_LANES: v2_bench_add_in_wide_lanes v3_bench_add_in_wide_lanes;
    BUTTERFLY_FORWARD: v2_bench_butterfly_forward v3_bench_butterfly_forward;
    MATRIX: v2_bench_matrix v3_bench_matrix;
    BYTES_BY_SCALAR: v2_bench_bytes_by_scalar v3_bench_bytes_by_scalar;
}
