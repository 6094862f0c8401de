#!/bin/sh
# Builds the library and the driver, and runs it: run.sh [SAMPLES] [MILLISECONDS] [tower|polynomials]. ARCHIVES names
# archives that are built already. See README.md.
set -eu
here=$(cd "$(dirname "$0")" && pwd)
. "$here/common.sh"

mkdir -p "$here/target"
from=""
for it in ${ARCHIVES:-}; do from="$from --from $it"; done
# shellcheck disable=SC2086
"$top/scripts/build-library" $from "$here/target/library" >&2
export BINARY_FIELD_LIBRARY="$here/target/library/lib"
build_driver
print_machine "$(rust_words)"
exec "$target/release/bench" "$@"
