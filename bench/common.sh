# What the scripts of the benchmark share. Each sets `here`, the folder that it is in, and reads this file.
# shellcheck shell=sh
# --help is answered by the head of the script, and nothing is done.
case ${1-} in
--help | -h)
    sed -n '2,/^[^#]/s/^# \{0,1\}//p' "$0"
    exit 0
    ;;
esac
RT=${RT:-rt}
top=$(cd "$(dirname "$here")" && git rev-parse --show-toplevel)

# copy_crates FOLDER: copies the crates, without what is stored for tests, into a folder outside of any repository. What was proved in the
# repository is not proved again there.
copy_crates() {
    mkdir -p "$1/crates"
    cp "$top/crates.txt" "$top/HANDLES" "$1"
    for crate in "$top"/crates/*; do
        to="$1/crates/$(basename "$crate")"
        mkdir -p "$to"
        for part in src specs proofs; do
            rm -rf "${to:?}/$part"
            if [ -d "$crate/$part" ]; then cp -r "$crate/$part" "$to/"; fi
        done
        if [ -d "$crate/out/rlib" ] && [ ! -e "$to/out" ]; then
            mkdir "$to/out"
            cp -r "$crate/out/rlib" "$to/out/"
        fi
    done
}

# copy_texts FROM TO: copies src/ and proofs/ of a crate that stands as text.
copy_texts() {
    (cd "$1" && for part in src proofs; do if [ -d $part ]; then find $part -name '*.txt'; fi; done) | while read -r text; do
        case $text in src/*) end=rt ;; *) end=antt ;; esac
        mkdir -p "$2/$(dirname "$text")"
        cp "$1/$text" "$2/${text%.txt}.$end"
    done
}

# in_copy COMMAND ..: a command of rt, whose output is shown where it fails.
in_copy() {
    "$RT" "$@" > "$copy/proved" 2>&1 || { tail -n 40 "$copy/proved" >&2; exit 1; }
}

# build_driver: builds the driver in `here`, with the Rust crate where RUST_CRATE names its folder. `target` is then the folder of what
# cargo made: one of its own where HARDWARE asks for the carryless multiplication of the processor.
build_driver() {
    manifest="$here/Cargo.toml" features=""
    if [ -n "${RUST_CRATE:-}" ]; then
        # A manifest beside the repository's own, since a path in it cannot come from the environment.
        rust_crate=$(cd "$RUST_CRATE/p3-binary-field" && pwd)
        both="$here/target/both"
        mkdir -p "$both"
        ln -sfn "$here/src" "$both/src"
        if [ -e "$here/build.rs" ]; then ln -sfn "$here/build.rs" "$both/build.rs"; fi
        {
            sed "s|\"../rust|\"$here/../rust|" "$here/Cargo.toml"
            echo "p3-binary-field = { path = \"$rust_crate\" }"
            # The traits of its fields, from where it has them.
            grep '^p3-field ' "$rust_crate/Cargo.toml" | sed "s|path = \"|path = \"$rust_crate/|"
        } > "$both/Cargo.toml"
        manifest="$both/Cargo.toml"
        features="--features rust_crate"
    fi
    target="$here/target"
    if [ -n "${HARDWARE:-}" ]; then
        export RUSTFLAGS="${RUSTFLAGS:+$RUSTFLAGS }-C target-feature=+pclmulqdq"
        target="$here/target/hardware"
    fi
    export CARGO_TARGET_DIR="$target"
    # shellcheck disable=SC2086
    cargo build --offline --quiet --release --manifest-path "$manifest" $features
}

# print_machine WORDS: the day, the processor, what the words say, and the kit.
print_machine() {
    processor=$(sed -n 's/^model name[^:]*: //p' /proc/cpuinfo | head -n 1)
    echo "$(date -u +%Y-%m-%d); $processor; ${1:+$1; }$("$RT" version)"
}

# rust_words: which Rust made the driver, and how.
rust_words() {
    echo "$(rustc --version), RUSTFLAGS='${RUSTFLAGS:-}'"
}
