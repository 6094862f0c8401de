#!/bin/sh
# Times kernels in lanes that the C library does not reach, in builds for x86-64-v2 and x86-64-v3: run.sh [SAMPLES] [MILLISECONDS].
# See bench/README.md.
#
# The library of units stands here as text, library/, and not among the crates: it is for timing alone, and the gate has nothing to gain
# from it. It is proved and built in a copy of the crates: COPY names a folder outside of any repository that is kept, so that a later
# run proves only what changed.
set -eu
here=$(cd "$(dirname "$0")" && pwd)
. "$here/../common.sh"
kit=$(dirname "$("$RT" doc)")
archives="$here/target/archives"
work=$(mktemp -d)
trap 'rm -rf "$work"' EXIT
copy=${COPY:-$work/copy}

mkdir -p "$archives"
copy_crates "$copy"
to="$copy/crates/bench_lanes"
rm -rf "$to/src" "$to/proofs"
copy_texts "$here/library" "$to"
echo "bench_lanes staticlib: field_base field_element field_space packed_lanes word_carryless word_tables ghash_slices additive_transforms" >> "$copy/crates.txt"

# Both builds, with the kit's calls of malloc and free; of their symbols the units alone stay global, under a name of the build.
for build in v2 v3; do
    cd "$to"
    in_copy lib --cpu "x86-64-$build"
    ld -r --whole-archive "$to/out/libbench_lanes.a" --no-whole-archive "$kit/c/liblibc_c.a" -o "$work/all.o"
    objcopy --wildcard --keep-global-symbol='bench_*' "$work/all.o" "$work/units.o"
    nm -g --defined-only "$work/units.o" | awk -v build="$build" '{ print $3, build "_" $3 }' > "$work/names"
    objcopy --redefine-syms="$work/names" "$work/units.o" "$work/$build.o"
    rm -f "$archives/lib$build.a"
    ar rcsD "$archives/lib$build.a" "$work/$build.o"
done

export BENCH_LANES="$archives"
build_driver
print_machine "$(rust_words)"
"$target/release/bench-lanes" "$@"
