#!/bin/sh
# Times and weighs commitments to tables: run.sh [ROUNDS] prints the size of a table, its elements, the call, and the least of so many
# rounds, in microseconds or in bytes. See bench/README.md.
#
# The program stands here as text, as that of bench/provers does, and has timing.txt from there; it is proved, built and run in a copy of
# the crates. Each table has a process of its own, since the most memory that a process had is told. COPY names a folder outside of any
# repository that is kept, so that a later run proves only what changed. UNDER is what the program is run under, as `chrt -f 5`. SIZES are
# the logarithms of how many elements a table has.
set -eu
here=$(cd "$(dirname "$0")" && pwd)
. "$here/../common.sh"
rounds=${1:-5}
sizes=${SIZES:-"16 18 20 22"}
work=$(mktemp -d)
trap 'rm -rf "$work"' EXIT
copy=${COPY:-$work/copy}

copy_crates "$copy"
to="$copy/crates/bench_commitments"
rm -rf "$to/src" "$to/proofs"
copy_texts "$here" "$to"
cp "$here/../provers/src/timing.txt" "$to/src/timing.rt"
uses="field_base field_element field_space transcripts transcript_elements protocols small_tables anyhow"
echo "bench_commitments: $uses" >> "$copy/crates.txt"

# told KIND SIZE: what the program prints of one table.
told() {
    ${UNDER:-} "$program" "$1" "$2"
}

# weighed KIND SIZE: the same, and the most memory that the program had at once, which is known to who waited for it: the shell here, and
# what it becomes.
weighed() (
    told "$1" "$2"
    exec python3 -c 'import resource, sys
print(f"{sys.argv[1]}-bit peak_memory {1024000 * resource.getrusage(resource.RUSAGE_CHILDREN).ru_maxrss}")' "$1"
)

# time_tables SIZE: one round over tables of 2^SIZE elements.
time_tables() {
    for kind in 128 8 1; do weighed "$kind" "$1"; done > "$work/said"
    told parts "$1" >> "$work/said"
    sed "s/^/2^$1 /" "$work/said"
}

print_machine ""
cd "$to"
in_copy run
program="$to/out/bench_commitments"
round=0
while [ "$round" -lt "$rounds" ]; do
    for size in $sizes; do time_tables "$size"; done
    round=$((round + 1))
done > "$work/rounds"
awk '
    {
        key = $1 " " $2 " " $3
        if (!(key in least)) keys[++n] = key
        if (!(key in least) || $4 < least[key]) least[key] = $4
    }
    END {
        for (i = 1; i <= n; i++) {
            split(keys[i], it, " ")
            printf "%-6s %-8s %-20s %14.2f\n", it[1], it[2], it[3], least[keys[i]] / 1000
        }
    }' "$work/rounds"
