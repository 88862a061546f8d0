#!/usr/bin/env bash
# Reads the Python and the shell of the repository with linters.
#
#     tests/run/lint.sh
#
# Debian has all three: apt-get install flake8 mypy shellcheck. flake8 is set up in .flake8, mypy in
# pyproject.toml. Where flake8 is missing pyflakes3 (apt-get install pyflakes3) reads the Python in
# its place. A linter that isn't installed is skipped, and named in a line. Prints `ok NAME`,
# `FAILED NAME` with what was found, or `skipped NAME: why`, then `N passed, M failed, K skipped`;
# ends with status 1 if something was found.
set -uo pipefail

top=$(cd "$(dirname "$(readlink -f "${BASH_SOURCE[0]}")")/../.." && pwd)
cd "$top" || exit 1

# shellcheck source=tests/lib/cases.sh
source "$top/tests/lib/cases.sh"

lint() { # NAME WORD.. : a linter, which prints what it finds
    local name=$1 found status=0
    shift
    found=$("$@" 2>&1) || status=$?
    if [[ $status -eq 0 ]]; then found=; else found=${found:-status $status}; fi
    tell "$name" "$found"
}

# The files by their language: a name without an ending says nothing, and the first line does.
python=()
shell=()
while IFS= read -r file; do
    case ${file##*/} in
        *.py) python+=("$file") ;;
        *.sh | *.bash) shell+=("$file") ;;
        *.*) ;;
        *)
            first=
            IFS= read -r first <"$file"
            case $first in
                '#!'*python3) python+=("$file") ;;
                '#!'*bash | '#!'*/sh) shell+=("$file") ;;
            esac
            ;;
    esac
done < <(
    find .ci bench bin examples tests tools \
        \( -name out -o -name build -o -name __pycache__ \) -prune -o -type f -print |
        LC_ALL=C sort
)
counted="${#python[@]} files"

if has flake8; then
    lint "flake8, $counted" flake8 "${python[@]}"
elif has pyflakes3; then
    skip flake8 'it is not installed (apt-get install flake8); pyflakes3 takes its place'
    lint "pyflakes3, $counted" pyflakes3 "${python[@]}"
else
    skip flake8 'it is not installed (apt-get install flake8)'
fi
if has mypy; then
    lint "mypy, $counted" mypy --cache-dir=/dev/null --scripts-are-modules "${python[@]}"
else
    skip mypy 'it is not installed (apt-get install mypy)'
fi
if has shellcheck; then
    lint "shellcheck, ${#shell[@]} files" shellcheck --format=gcc "${shell[@]}"
else
    skip shellcheck 'it is not installed (apt-get install shellcheck)'
fi

echo "$passed passed, $failed failed, $skipped skipped"
[[ $failed -eq 0 ]]
