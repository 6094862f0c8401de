#!/bin/sh
# Times what provers call, in nanoseconds: run.sh [ROUNDS] prints the field, the call, and the least of so many rounds. See bench/README.md.
#
# The program stands here as text, in src/ and proofs/, and not among the crates: it is for timing alone, and the gate has nothing to gain
# from it. It is proved, built and run in a copy of the crates, beside the program prove_sums: COPY names a folder outside of any
# repository that is kept, so that a later run proves only what changed. UNDER is what each is run under, as `chrt -f 5`.
set -eu
here=$(cd "$(dirname "$0")" && pwd)
. "$here/../common.sh"
rounds=${1:-5}
work=$(mktemp -d)
trap 'rm -rf "$work"' EXIT
copy=${COPY:-$work/copy}

copy_crates "$copy"
to="$copy/crates/bench_provers"
rm -rf "$to/src" "$to/proofs"
copy_texts "$here" "$to"
echo "bench_provers: field_base packed_lanes field_element field_slices field_space word_polynomial bit_slices many_words additive_transforms transcripts sum_checks transcript_elements protocols anyhow" >> "$copy/crates.txt"

# told CALL COMMAND ..: how long a command took, as the program tells its calls.
told() {
    call=$1
    shift
    before=$(date +%s%N)
    ${UNDER:-} "$@" > "$work/said"
    echo "prove_sums $call $((($(date +%s%N) - before) * 1000))"
}

# time_files WORDS: one round of the program prove_sums over two tables of so many words of 16 bytes, which repeat short texts.
time_files() {
    yes "the table on the left" | head -c "$((16 * $1))" > "$work/left"
    yes "another, on the right side" | head -c "$((16 * $1))" > "$work/right"
    told "commit_$1" "$program" commit --bits 80 "$work/left"
    left=$(cat "$work/said")
    right=$("$program" commit --bits 80 "$work/right")
    told "prove_$1" "$program" prove --bits 80 "$work/left" "$work/right" "$work/proof"
    told "verify_$1" "$program" verify --bits 80 "$work/proof" "$left" "$right"
}

print_machine ""
cd "$copy/crates/prove_sums"
in_copy run
program="$copy/crates/prove_sums/out/prove_sums"
cd "$to"
in_copy run
{
    ${UNDER:-} out/bench_provers "$rounds"
    round=0
    while [ "$round" -lt "$rounds" ]; do
        told start "$program" --version
        time_files 4096
        time_files 65536
        round=$((round + 1))
    done
} | awk '
    { key = $1 " " $2; if (!(key in least) || $3 < least[key]) least[key] = $3; if (!(key in order)) { order[key] = ++n; keys[n] = key } }
    END { for (i = 1; i <= n; i++) { split(keys[i], it, " "); printf "%-16s %-24s %14.2f\n", it[1], it[2], least[keys[i]] / 1000 } }'
