#!/usr/bin/env bash
# Whether each crate is laid out as `rt fmt` lays it out. `rt ci` refuses a crate that isn't, half
# an hour later, and `rt check` doesn't say so. It takes some 15 seconds, in a copy.
#
#     bash tests/run/formatted.sh
set -euo pipefail

cd "$(dirname "$(readlink -f "$0")")/../.."
room=$(mktemp -d "${TMPDIR:-/tmp}/afdx-formatted.XXXXXX")
trap 'rm -rf "$room"' EXIT
tar --create --exclude=out crates crates.txt | tar --extract --directory="$room"
status=0
for crate in "$room"/crates/*/; do
    name=${crate%/}
    name=${name##*/}
    said=$(cd "$crate" && rt fmt 2>&1) || {
        printf 'formatted.sh: %s: %s\n' "$name" "$said" >&2
        status=1
    }
    while read -r _ word file; do
        [[ $word == formatted ]] || continue
        printf 'formatted.sh: %s: call rt fmt: %s is laid out otherwise\n' "$name" "$file" >&2
        status=1
    done <<<"$said"
done
exit "$status"
