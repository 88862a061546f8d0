#!/usr/bin/env bash
# Has the prover refuse the wrong bodies that the gate leaves out.
#
#     tests/run/further_edits.sh [CRATE..]
#
# The gate tries crates/*/must-fail/: of each public promise the wrong body that tells most. The
# others, crates/*/further-edits/, are tried here before a release, of each CRATE, or of all. While
# that lasts they stand in the place of those that the gate tries. All of them take hours; what
# `rt must-fail` tried before isn't tried again.
set -euo pipefail

top=$(cd "$(dirname "$(readlink -f "${BASH_SOURCE[0]}")")/../.." && pwd)
cd "$top"
crates=("$@")
if [[ $# -eq 0 ]]; then
    for folder in crates/*/further-edits; do
        crates+=("$(basename "$(dirname "$folder")")")
    done
fi
for crate in "${crates[@]}"; do
    if [[ ! -d crates/$crate/further-edits ]]; then
        echo "there is no folder crates/$crate/further-edits" >&2
        exit 2
    fi
done

# Each crate has those that the gate tries again.
put_back() {
    for crate in "${crates[@]}"; do
        if [[ -d crates/$crate/gate-edits ]]; then
            mv "crates/$crate/must-fail" "crates/$crate/further-edits"
            mv "crates/$crate/gate-edits" "crates/$crate/must-fail"
            rmdir --ignore-fail-on-non-empty "crates/$crate/must-fail" # of a crate that has none
        fi
    done
}

trap put_back EXIT
for crate in "${crates[@]}"; do
    mkdir -p "crates/$crate/must-fail"
    mv "crates/$crate/must-fail" "crates/$crate/gate-edits"
    mv "crates/$crate/further-edits" "crates/$crate/must-fail"
done
rt must-fail "${crates[@]}"
