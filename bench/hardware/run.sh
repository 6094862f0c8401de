#!/bin/sh
# Times the functions by the carryless multiply instruction, all sides in one process: run.sh [SAMPLES] [MICROSECONDS] [dirty].
# ARCHIVES names the two archives of the library, for x86-64-v2 and x86-64-v3, and RUST_CRATE the folder of the Rust crate. See ../README.md.
set -eu
here=$(cd "$(dirname "$0")" && pwd)
. "$here/../common.sh"
target="$here/target"
mkdir -p "$target"
[ -n "${ARCHIVES:-}" ] || { echo "run.sh: ARCHIVES has to name the two archives" >&2; exit 2; }
from=""
for it in $ARCHIVES; do
    from="$from --from $it"
    # Each form by itself, since a process has one choice between them.
    for cpu in x86-64-v2 x86-64-v3; do
        "$top/scripts/build-library" --cpu $cpu --from "$it" "$target/$cpu" >"$target/said" 2>&1 && break
    done
done
# shellcheck disable=SC2086
"$top/scripts/build-library" $from "$target/library" >&2
"$top/hardware/build" "$target/library" >&2
if [ -n "${RUST_CRATE:-}" ]; then
    crate=$(cd "$RUST_CRATE/p3-binary-field" && pwd)
    mkdir -p "$target/rust/src"
    cp "$here/src/lib.rs" "$target/rust/src/"
    {
        cat "$here/Cargo.toml"
        echo "p3-binary-field = { path = \"$crate\" }"
        grep '^p3-field ' "$crate/Cargo.toml" | sed "s|path = \"|path = \"$crate/|"
    } > "$target/rust/Cargo.toml"
    RUSTFLAGS="-C target-feature=+pclmulqdq" cargo build --offline --quiet --release --manifest-path "$target/rust/Cargo.toml"
    RUST="$target/rust/target/release/libbench_hardware.so"
fi
"${CC:-cc}" -O2 -I "$target/library/include" "$here/../hardware.c" -o "$target/hardware" -lcrypto
echo "$(date -u +%Y-%m-%d); $(sed -n 's/^model name[^:]*: //p' /proc/cpuinfo | head -n 1); $("${CC:-cc}" -dumpfullversion); $(openssl version)"
export V2="$target/x86-64-v2/lib/libbinary_field.so" V3="$target/x86-64-v3/lib/libbinary_field.so" RUST="${RUST:-}"
HARDWARE="$target/library/lib/libbinary_field.so" exec "$target/hardware" "$@"
