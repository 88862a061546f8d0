#!/usr/bin/env bash
# Checks what stands around the built program: tools/, bin/install, the guide's commands.
#
#     tests/run/tools.sh [PROGRAM [PART..]]
#
# PROGRAM is the built program, crates/afdx/out/afdx where it isn't given. A PART is a script of
# tests/tools/; without one all are tried. Prints `ok NAME`, `FAILED
# NAME` or `skipped NAME: why` for each case and, at the end, `N passed, M failed, K skipped`. A
# case is skipped only where a package or a command of the program isn't there. Ends with status 1
# if a case failed.
set -uo pipefail
export LC_ALL=C TZ=UTC

top=$(cd "$(dirname "$(readlink -f "${BASH_SOURCE[0]}")")/../.." && pwd)
program=$(readlink -f "${1:-$top/crates/afdx/out/afdx}")
work=$(mktemp -d "${TMPDIR:-/tmp}/afdx-tools.XXXXXX")
trap 'rm -rf "$work"' EXIT
export AFDX=$program
cd "$top" || exit 1

# shellcheck source=tests/lib/cases.sh
source "$top/tests/lib/cases.sh"

launch() { # WORD.. : both streams go to files, the status to `status`
    status=0
    "$@" >"$work/out" 2>"$work/err" </dev/null || status=$?
}

# No program of it may take more of the processor than so many seconds of a usual machine.
launch_within() { # SECONDS WORD..
    launch timeout 3600 prlimit --cpu="$(($1 * slowness))" "${@:2}"
}

same() { # WANTED GOT : two files
    if ! cmp -s "$1" "$2"; then diff "$1" "$2" | head -n 10 | cut -c 1-160; fi
}

is_status() { # WANTED
    if [[ $status -ne $1 ]]; then
        echo "status $status, wanted $1"
        head -n 5 "$work/err"
    fi
}

says() { # STREAM WORDS
    if ! grep -qF -- "$2" "$work/$1"; then
        echo "no '$2' on the stream $1:"
        head -n 5 "$work/$1" | cut -c 1-160
    fi
}

# ---- the tools themselves ------------------------------------------------------------------

python=/usr/bin/python3
if [[ ! -x $python ]]; then
    echo "skipped everything: there is no $python (apt-get install python3)"
    echo '0 passed, 0 failed, 1 skipped'
    exit 0
fi

# How many times as much time of the processor as on a usual machine a command takes here.
slowness=$("$python" -c 'import time
USUAL = 0.025  # seconds
def took():
    begin = time.process_time()
    sum(n * n for n in range(300_000))
    return time.process_time() - begin
print(max(1, round(min(took() for _ in range(5)) / USUAL)))')

if "$python" -c 'import numpy' 2>"$work/err"; then numpy=1; else numpy=; fi
for tool in afdx-capture ${numpy:+afdx-report} afdx-campaign afdx-icd afdx-fill afdx-traffic \
    afdx-taps; do
    launch env COLUMNS=80 "tools/$tool" --help
    tell "$tool --help, in 80 columns" "$(is_status 0; says out usage; grep -E '.{81}' "$work/out")"
done
if [[ -n $numpy ]]; then
    launch env AFDX=/nowhere tools/afdx-report examples/base.toml examples/one_link.list
    tell 'a program that is not there' "$(is_status 4; says err '/nowhere')"
else
    skip 'afdx-report' 'there is no package numpy (apt-get install python3-numpy)'
fi

parts=(
    recordings
    report
    heads
    hardening
    criteria
    early
    page
    capture_faults
    wireshark
    icd
    naming
    explained
    icd_faults
    icd_documents
    icd_growth
    icd_cables
    large_tables
    traffic
    taps
    fill
    completion
    hostile_completion
    safe_outputs
    hostile_files
    around
    campaigns
    judged_campaigns
    recorded_reports
    absence
    evidence
    annotated
    several_switches
    several_reports
    conformance
    schemas
    workbooks
    package
)
if [[ $# -gt 1 ]]; then parts=("${@:2}"); fi
for part in "${parts[@]}"; do
    # shellcheck source=/dev/null
    source "$top/tests/tools/$part.sh"
done

echo "$passed passed, $failed failed, $skipped skipped"
[[ $failed -eq 0 ]]
