# shellcheck shell=bash
# What the scripts that test for callers share: steps that pass or fail, and the Python that they run. To be read by `source`, in a
# script that has a folder $work, and a variable $failed that is 0; it is then 1 once a step failed.
# shellcheck disable=SC2154

say() { echo "$(basename -- "$0"): $*"; }
left_out() { say "left out: $*"; }

# Runs a step: its name, and a command. Of what the command prints the counts of tests are shown, and where it fails its end.
step() {
    local name=$1
    shift
    if "$@" >"$work/log" 2>&1; then
        grep -h '^check_\|^hardware_\|^Ran\|^test result' "$work/log" | sed 's/^/    /'
        say "$name: as it has to be"
    else
        # (the scripts read it)
        # shellcheck disable=SC2034
        failed=1
        tail -n 40 "$work/log"
        say "$name: FAILED" >&2
    fi
}

# Prints a Python that has numpy: PYTHON, python3, or that of the system.
python_with_numpy() {
    local it
    for it in "${PYTHON:-python3}" /usr/bin/python3; do
        if "$it" -c 'import numpy' 2>/dev/null; then
            command -v "$it"
            return
        fi
    done
    say "it needs a Python with numpy (Debian: apt-get install python3-numpy)" >&2
    return 1
}

# Prints the head of a script of bash, what it says of itself.
print_head() { sed -n '2,/^[^#]/s/^# \{0,1\}//p' "$1"; }

# --help is answered by that, and nothing is done.
case ${1-} in
--help | -h)
    print_head "$(dirname "${BASH_SOURCE[0]}")/$(basename "$0")"
    exit 0
    ;;
esac
