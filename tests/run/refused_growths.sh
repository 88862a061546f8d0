#!/usr/bin/env bash
# Refuses requests for memory, and looks at what the program, or a test, makes of it.
#
#     tests/run/refused_growths.sh PROGRAM             the built program, as crates/afdx/out/afdx
#     tests/run/refused_growths.sh --tests RUNNER..    built test runners, as afdx_test_parts_tests
#
# PROGRAM polices examples/one_link.list on standard input, checks examples/base.toml, the same with
# `--margins`, and with late links by `--all`, solves it with late links, explains a line, replays a
# frame and its copy in base.toml, replays examples/gigabit.list, and sends five messages, of which
# one is refused; it solves, replays and sends over examples/two_switches.toml. It polices and
# replays recordings, and replays and lists two at once, over the two switches too, if it reads them
# (tests/lib/reads.py). It judges two lists by `conform`, the systems too and alone, and recordings,
# if it takes them. Each of these is run with the first request refused, then the second, and so on,
# until a run meets no refusal; and again with all requests refused from the first on, from the
# second on, and so on. Each run must write a beginning of what the undisturbed run writes, and end
# either with the line `memory` and status 4, or as the undisturbed run does.
#
# Of each RUNNER the tests whose names, with their modules', contain `refused` are run, with one
# request refused at a time, and with all refused from one on. Such a test makes a call again where
# it was out of memory, and asserts what holds then, or asserts an answer that needs none: it
# must pass where one request was refused. Where all later ones are refused too it may fail, but
# only out of memory: the failure has to name it.
#
# The requests are refused by tests/lib/refuse_memory.c, which `cc` compiles. Prints `ok NAME` or
# `FAILED NAME` for each case (a program's whole row of runs, or one test's), then `N passed, M
# failed, K skipped`. Ends with status 1 if a case failed, or met no request at all, or if there was
# none.
set -euo pipefail
export LC_ALL=C

most=100000 # the last request in one case, after which something is wrong
none='no request came by malloc or realloc, so nothing was tried'
top=$(cd "$(dirname "$(readlink -f "${BASH_SOURCE[0]}")")/../.." && pwd)

usage() {
    sed -n '2,/^set /{/^set /d; s/^# \{0,1\}//; p}' "${BASH_SOURCE[0]}" >&2
    exit 2
}

tests=no
if [[ ${1-} == --tests ]]; then
    tests=yes
    shift
fi
[[ $# -ge 1 && ($tests == yes || $# -eq 1) ]] || usage
for built in "$@"; do
    if [[ ! -f $built || ! -x $built ]]; then
        echo "there is no built program at $built" >&2
        exit 2
    fi
done

work=$(mktemp -d "${TMPDIR:-/tmp}/afdx-refused.XXXXXX")
trap 'rm -rf "$work"' EXIT
cc -shared -fPIC -O1 -o "$work/refuse.so" "$top/tests/lib/refuse_memory.c" -ldl

# shellcheck source=tests/lib/cases.sh
source "$top/tests/lib/cases.sh"

# Runs WORD.. with request number N refused (HOW is REFUSE_AT), or all from that one on
# (REFUSE_FROM). Leaves what it wrote in `out` and, without the shim's own line, in `err`, its
# status in `status`, and in `met` whether a request was refused.
launch() { # HOW N WORD..
    local how=$1 n=$2
    shift 2
    status=0
    { # the shell reports a test that is aborted
        (
            export "$how=$n" LD_PRELOAD="$work/refuse.so"
            exec "$@"
        ) <"$input" >"$work/out" 2>"$work/err" || status=$?
    } 2>/dev/null
    IFS= read -r -d '' out <"$work/out" || true
    IFS= read -r -d '' err <"$work/err" || true
    met=no
    if [[ $'\n'$err == *$'\nrefused\n'* ]]; then
        met=yes
        err=${err/$'refused\n'/}
    fi
}

# What is wrong with the run that `launch` made, compared with the undisturbed one; left in `fault`.
look_at_run() {
    fault=
    if [[ $whole != "$out"* ]]; then
        fault='it wrote what the undisturbed run does not write'
    elif [[ $status -eq 4 && $met == yes && $err == $'memory\n' ]]; then
        :
    elif [[ $status -ne $whole_status ]]; then
        fault="status $status; on standard error: ${err:0:300}"
    elif [[ $out != "$whole" ]]; then
        fault='it has the status of the undisturbed run, but wrote less'
    elif [[ $err != "$whole_err" ]]; then
        fault="on standard error: ${err:0:300}"
    fi
}

# Runs WORD.. with each request refused in turn, and again with all from each on; LOOK, given which
# of these two, leaves in `fault` what is wrong with a run.
refuse() { # NAME LOOK WORD..
    local name=$1 look=$2 how n runs=0
    shift 2
    for how in REFUSE_AT REFUSE_FROM; do
        for ((n = 1; n <= most; n++)); do
            launch "$how" "$n" "$@"
            "$look" "$how"
            if [[ -n $fault ]]; then
                tell "$name" "$how=$n: $fault"
                return
            fi
            if [[ $met == no ]]; then break; fi
            runs=$((runs + 1))
        done
        if [[ $met == yes ]]; then
            tell "$name" "still refused at request $n"
            return
        fi
    done
    if [[ $runs -eq 0 ]]; then fault=$none; fi
    tell "$name" "$fault" "$runs runs with a refusal"
}

refuse_program() { # NAME WORD..
    local name=$1
    shift
    launch REFUSE_AT 0 "$@"
    whole=$out whole_err=$err whole_status=$status
    refuse "$name" look_at_run "$@"
}

# The recordings of tests/recordings/growing_recordings.py that the program reads, each by `police`
# and by `replay` with its options, two at once by `replay` and `list`, also over two switches; what
# it can't read yet is left out. Of one the frames stand out of order: all of them are held, or
# three.
refuse_recordings() { # PROGRAM
    local name path other base=$top/examples/base.toml two=$top/examples/two_switches.toml
    local options=(--interface '0=A:1' --interface '4095=-' --origin 1699999999000000000)
    python3 "$top/tests/recordings/growing_recordings.py" "$work" >"$work/recordings"
    while IFS=$'\t' read -r name path other; do
        input=$path
        if [[ -z $other ]]; then
            refuse_program "police $name" "$1" police 1 64 500 -
            refuse_program "replay $name" "$1" replay "${options[@]}" --summary "$base" -
            refuse_program "replay $name over two switches" "$1" replay --interface '0=A fwd' \
                "$two" -
            if [[ $name == *order ]]; then
                refuse_program "list $name" "$1" list --stamps start "$base" -
                refuse_program "list $name, three held" "$1" list --reorder 3 "$base" -
            fi
        else
            refuse_program "replay $name" "$1" replay "${options[@]}" --interface 0=B:2 \
                --summary "$base" - "$other"
            refuse_program "list $name" "$1" list "$base" - "$other"
            refuse_program "list $name over two switches" "$1" list --interface '0=B aft:2' \
                "$two" - "$other"
        fi
    done <"$work/recordings"
}

# Two lists with findings of each kind, by an exact judge and by one with all leeway, and two that
# conform, either of them as standard input.
refuse_conform() { # PROGRAM
    local base=$top/examples/base.toml two=$top/examples/two_switches.toml
    if ! "$1" conform --help >/dev/null 2>&1; then
        skip conform "the program doesn't have it"
        return
    fi
    python3 "$top/tests/conform/growing_lists.py" "$work"
    input=$work/came
    refuse_program 'conform' "$1" conform "$base" - "$work/left"
    refuse_program 'conform, a bad line' "$1" conform "$base" - "$work/bad"
    refuse_program 'conform, systems alone' "$1" conform --senders "$base" -
    refuse_program 'conform, a switch and its systems' "$1" conform --senders "$base" - \
        "$work/left"
    input=$work/left
    refuse_program 'conform with leeway' "$1" conform --slack 1000 --between 20000 --drift 100 \
        --inner 60000 --asked 10000 --from 5 --until 9000000 --leave-out 9 --leave-out other \
        --leave-out 7 --line-buffered "$base" "$work/came" -
    refuse_program 'conform of a switch of two' "$1" conform --switch fwd "$two" "$work/came" -
    refuse_program 'conform of a switch of two and its systems' "$1" conform --senders \
        --switch fwd "$two" "$work/came" -
    refuse_program 'conform, no such switch' "$1" conform --switch none "$two" "$work/came" -
    refuse_conform_recorded "$1" "$base" "$two"
}

# The same of a recording and of two, either as standard input: frames out of order, of which all
# are held; a recording that breaks off, one that has lost frames, and wrong words.
refuse_conform_recorded() { # PROGRAM BASE TWO
    local base=$2 two=$3 both=() each=()
    if [[ $("$1" conform --help) != *--left* ]]; then
        skip 'conform of recordings' 'the program takes lists alone'
        return
    fi
    mapfile -t both <"$work/both.words"
    mapfile -t each <"$work/two.words"
    input=$work/both.pcapng
    refuse_program 'conform of a recording' "$1" conform "${both[@]}" --summary "$base" -
    refuse_program 'conform of a recording with leeway' "$1" conform "${both[@]}" --slack 1000 \
        --drift 100 --from 5 --until 9000000 --leave-out other --stamps start --lossy --fcs yes \
        "$base" -
    refuse_program 'conform of a recording at a switch of two' "$1" conform "${both[@]}" \
        --switch fwd "$two" -
    refuse_program 'conform of a recording, as it is read' "$1" conform "${both[@]}" \
        --line-buffered "$base" -
    refuse_program 'conform of a recording, wrong words' "$1" conform "${both[@]}" --left 0=A \
        "$base" -
    input=$work/came.pcapng
    refuse_program 'conform of two recordings' "$1" conform "${each[@]}" --summary "$base" - \
        "$work/left.pcapng"
    refuse_program 'conform of two, the second breaks off' "$1" conform "${each[@]}" "$base" - \
        "$work/bad.pcapng"
    refuse_program 'conform of two that lost frames' "$1" conform "${each[@]}" "$base" - \
        "$work/lossy.pcapng"
    input=$work/left.pcapng
    refuse_program 'conform of two, the second as it comes' "$1" conform "${each[@]}" \
        --reorder 100 "$base" "$work/came.pcapng" -
}

# What is wrong with the test that `launch` ran; left in `fault`. It must pass where one request was
# refused. Where all are refused from one on it may fail, but only out of memory.
look_at_test() { # HOW
    fault=
    if [[ $status -eq 0 ]]; then return; fi
    if [[ $1 == REFUSE_FROM && $met == yes && $err =~ AllocError|Memory|(was refused) ]]; then
        return
    fi
    fault="status $status"$'\n'"${err:0:600}"
}

refuse_test() { # RUNNER TEST
    refuse "$(basename "$1") $2" look_at_test "$1" "$2"
}

if [[ $tests == no ]]; then
    input=$top/examples/one_link.list
    refuse_program 'police one_link.list' "$1" police 1 64 500 -
    refuse_program 'check base.toml' "$1" check "$top/examples/base.toml"
    sed 's/^latency_us = .*/latency_us = 16/' "$top/examples/base.toml" >"$work/late.toml"
    sed 's/^latency_us = .*/latency_us = 1/' "$top/examples/base.toml" >"$work/hasty.toml"
    refuse_program 'check --all of late links' "$1" check --all "$work/late.toml"
    refuse_program 'check --margins' "$1" check --margins "$top/examples/base.toml"
    refuse_program 'solve late links' "$1" solve --keep jitter "$work/hasty.toml"
    refuse_program 'solve in vain' "$1" solve --keep latency "$work/hasty.toml"
    refuse_program 'solve copies too far apart' "$1" \
        solve --apart 99990761 "$top/examples/base.toml"
    sed 's/^latency_us = .*/latency_us = 1/' "$top/examples/two_switches.toml" >"$work/cables.toml"
    refuse_program 'solve two switches' "$1" solve "$work/cables.toml"
    refuse_program 'solve two switches in vain' "$1" solve --keep jitter "$work/cables.toml"
    refuse_program 'solve two switches, copies too far apart' "$1" \
        solve --apart 99999999 "$work/cables.toml"
    refuse_program 'check --margins of two switches' "$1" \
        check --margins "$top/examples/two_switches.toml"
    input=$work/copies.list
    sed -n 's/^F 0 A/&/p; s/^F 0 A/F 0 B/p' "$top/examples/one_link.list" >"$input"
    refuse_program 'explain a line' "$1" explain config Missing link 1 key 7
    refuse_program 'replay a frame and its copy' "$1" replay "$top/examples/base.toml" -
    input=$top/examples/gigabit.list
    refuse_program 'replay gigabit.list' "$1" replay --no-admission "$top/examples/gigabit.toml" -
    input=$work/messages.list
    printf '0 1 %d 1000 61\n' 1 1 2 2 3 >"$input"
    refuse_program 'send five messages' "$1" send "$top/examples/base.toml" s1 -
    refuse_program 'send over two switches' "$1" send "$top/examples/two_switches.toml" s1 -
    input=$work/several.list
    sed 's/^F 0 [AB]/& fwd/' "$work/copies.list" >"$input"
    refuse_program 'replay over two switches' "$1" replay "$top/examples/two_switches.toml" -
    refuse_recordings "$1"
    refuse_conform "$1"
else
    input=/dev/null
    for runner in "$@"; do
        # A runner lists one test a line, as `tests::name: test`.
        mapfile -t names < <("$runner" --list | sed -n '/refused.*: test$/s/: test$//p')
        if [[ ${#names[@]} -eq 0 ]]; then echo "$(basename "$runner") has no such test"; fi
        for name in "${names[@]}"; do refuse_test "$runner" "$name"; done
    done
fi

echo "$passed passed, $failed failed, $skipped skipped"
[[ $failed -eq 0 && $passed -gt 0 ]]
