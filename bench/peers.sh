#!/bin/sh
# Installs what the drivers of the benchmark are linked with or run beside, and prints the version of each.
#
#   bench/peers.sh [--list]
#
# These are packages of Debian and Ubuntu: ISA-L, Go with klauspost's reedsolomon, GF-Complete, NTL, M4RI, M4RIE, FLINT, libfec, OpenSSL, BearSSL,
# Nettle, par2 and numpy. It calls apt-get, which asks for the rights of root, and installs nothing where all are there. With --list it installs
# nothing, and ends with status 1 where one is missing. The Rust crate is no package: bench/README.md says how it is named.
set -eu
here=$(cd "$(dirname "$0")" && pwd)
# shellcheck source=bench/common.sh
. "$here/common.sh"
packages='libisal-dev golang-go golang-github-klauspost-reedsolomon-dev libgf-complete-dev libntl-dev libm4ri-dev libm4rie-dev libflint-dev'
packages="$packages libfec-dev libssl-dev openssl libbearssl-dev nettle-bin par2 python3-numpy"

# version PACKAGE: the version that is installed; nothing where none is.
version() {
    dpkg-query --show --showformat='${db:Status-Status} ${Version}\n' "$1" 2>/dev/null | sed -n 's/^installed //p' | head -n 1
}

case ${1-} in
'' | --list) ;;
*)
    echo "peers.sh: there is no word $1; peers.sh --help says more" >&2
    exit 2
    ;;
esac
# lacking: the packages that are not installed.
lacking() {
    for package in $packages; do
        if [ -z "$(version "$package")" ]; then echo "$package"; fi
    done
}

if [ -z "${1-}" ] && [ -n "$(lacking)" ]; then
    # The names are words of their own.
    # shellcheck disable=SC2046
    apt-get install --yes --no-install-recommends $(lacking)
fi
for package in $packages; do
    installed=$(version "$package")
    printf '%-40s %s\n' "$package" "${installed:-missing}"
done
[ -z "$(lacking)" ]
