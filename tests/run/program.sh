#!/usr/bin/env bash
# Checks the built program as its user sees it: what it writes on both streams, and its status.
#
#     tests/run/program.sh PROGRAM
#
# Prints `ok NAME`, `FAILED NAME` or `skipped NAME` for each case and, at the end, `N passed, M
# failed, K skipped`. Ends with status 1 if a case failed. Standard output and standard error are
# compared byte for byte, but for the texts of help and of refused words, which are only looked at.
set -euo pipefail
export LC_ALL=C

if [[ $# -ne 1 || ! -x $1 ]]; then
    echo 'usage: tests/run/program.sh PROGRAM   (a built one, as crates/afdx/out/afdx)' >&2
    exit 2
fi
program=$(readlink -f "$1")
top=$(cd "$(dirname "$(readlink -f "${BASH_SOURCE[0]}")")/../.." && pwd)
work=$(mktemp -d "${TMPDIR:-/tmp}/afdx-program.XXXXXX")
trap 'rm -rf "$work"' EXIT
cd "$top"

# shellcheck source=tests/lib/cases.sh
source "$top/tests/lib/cases.sh"
input=/dev/null # what the next cases read on standard input

launch() { # WORD.. : runs the program, and leaves both streams in files and the status in `status`
    status=0
    "$program" "$@" <"$input" >"$work/out" 2>"$work/err" || status=$?
}

differs() { # WHAT WANTED FILE
    printf '%s' "$2" >"$work/wanted"
    if ! cmp -s "$work/wanted" "$3"; then
        echo "$1 is not as wanted:"
        diff "$work/wanted" "$3" | head -n 10 | cut -c 1-200 || true
    fi
}

has_status() { # WANTED
    if [[ $status -ne $1 ]]; then echo "status $status, wanted $1"; fi
}

case_of() { # NAME STATUS OUT ERR WORD.. : OUT and ERR are the whole texts
    local name=$1 wanted=$2 out=$3 err=$4
    shift 4
    launch "$@"
    tell "$name" "$(
        has_status "$wanted"
        differs 'standard output' "$out" "$work/out"
        differs 'standard error' "$err" "$work/err"
    )"
}

listed() { # TEXT : the next cases read it on standard input
    printf '%s' "$1" >"$work/list"
    input=$work/list
}

# The text is on that stream, and nothing on the other.
text_case() { # NAME STATUS STREAM WORDS_TO_FIND WORD..
    local name=$1 wanted=$2 stream=$3 find=$4 other=err
    [[ $stream == out ]] || other=out
    shift 4
    launch "$@"
    tell "$name" "$(
        has_status "$wanted"
        if [[ ! -s $work/$stream ]]; then echo "nothing on the stream $stream"; fi
        if [[ -s $work/$other ]]; then echo "something on the stream $other"; fi
        if ! grep -qF -- "$find" "$work/$stream"; then echo "no '$find' in the text"; fi
    )"
}

# shellcheck disable=SC2034  # the parts use it
link_1='/^vl = 1/,/^subs/' # its lines in base.toml

zeros() { head -c "$1" /dev/zero | tr '\0' 0; }

# The frame of link 1 without its check sequence, but for the last byte, which is the sequence
# number.
head1=030000000001020000000120080045000021000000000111cdea0a000101e0e00001
head1+=03e803e8000d000068656c6c6f000000000000000000000000
# shellcheck disable=SC2034  # the parts use them
frame=${head1}00 accept1=$'V 1 A accept\n'

# Standard output is a device that takes nothing.
full_case() { # NAME STATUS ERR WORD..
    local name=$1 wanted=$2 err=$3
    shift 3
    status=0
    "$program" "$@" <"$input" >/dev/full 2>"$work/err" || status=$?
    tell "$name" "$(
        has_status "$wanted"
        differs 'standard error' "$err" "$work/err"
    )"
}

for part in police check replay conform conform_recordings words explain explained_causes send \
    solve standard_streams; do
    # shellcheck source=/dev/null
    source "$top/tests/program/$part.sh"
done

echo "$passed passed, $failed failed, $skipped skipped"
[[ $failed -eq 0 ]]
