# Tests of what afdx-report says of late links, of criteria, and of two runs beside one another; a
# part of tests/run/tools.sh.
# shellcheck shell=bash
# shellcheck disable=SC2154  # what it uses is set by tests/run/tools.sh, which sources it

gigabit() { # WORD.. : the report of the network that isn't admitted, in which a link is late
    launch tools/afdx-report --no-admission examples/gigabit.toml examples/gigabit.list "$@"
}

late_tests() {
    gigabit --out "$work/late"
    tell 'the late link stands first, few as its frames are' "$(
        is_status 0
        says out 'nearest     link 2 at port 5, side A: 512000 of 400000 ns configured (128.0%)'
        says out 'link 2 at port 5, side B: 512000 of 400000 ns configured (128.0%), 4 of 4 copies'
        wants_number "$work/late/report.json" 'r["totals"]["late"]' 8
        wants_number "$work/late/report.json" 'r["frames"][0]["line"]' 19
        wants_number "$work/late/report.json" 'r["frames"][0]["time_ns"]' 8000000
        wants_number "$work/late/report.json" \
            '[sum(row["late"] for row in r["latency"] if row["side"] == s) for s in "AB"]' '[4, 4]'
        if ! grep -q 'LATE, 128.0%' "$work/late/report.html"; then echo 'no mark on the page'; fi
        "$python" tests/tools/html_tags.py "$work/late/report.html"
    )"
    grep -v '^#' examples/gigabit.list | grep . >"$work/gigabit.list"
    "$program" replay --no-admission examples/gigabit.toml "$work/gigabit.list" \
        >"$work/gigabit.lines"
    launch tools/afdx-report --no-admission examples/gigabit.toml "$work/gigabit.list" \
        --out "$work/gigabit"
    tell 'late copies and the worst frames, counted another way' "$(
        is_status 0
        "$python" tests/tools/recount_traffic.py examples/gigabit.toml "$work/gigabit.list" \
            "$work/gigabit.lines" "$work/gigabit/report.json"
    )"
    tell 'a share is 100 % only where all of it is' "$(
        cd tools && "$python" -B -c '
from afdx_tools.tables import percent
for share, words in ((0.9996, "99.9%"), (0.99999999, "99.9%"), (1.0, "100.0%"), (0.29, "29.0%"),
                     (1.0000001, "100.1%"), (1.28, "128.0%"), (0.0, "0.0%"), (0.0009, "<0.1%"),
                     (0.001, "0.1%"), (0.4567, "45.6%")):
    if percent(share) != words:
        print(share, percent(share), "wanted", words)'
    )"
}

criteria_tests() {
    gigabit --json --fail-on full-buffer,late,dropped --junit "$work/late.xml"
    tell 'criteria that are not met: status 6, each named' "$(
        is_status 6
        says err 'afdx-report: 2 full-buffer'
        says err 'afdx-report: 8 late'
        wants_number "$work/out" 'r["unmet"], r["status"]' "(['8 late', '2 full-buffer'], 0)"
        wants_cases "$work/late.xml" '4 0 2'
    )"
    gigabit --json --fail-on dropped --junit "$work/late.xml"
    tell 'a criterion that is met' "$(is_status 0; wants_cases "$work/late.xml" '2 0 0')"
    gigabit --json --fail-on lost
    tell 'lost is all that is gone' "$(
        is_status 6
        wants_number "$work/out" 'r["unmet"]' "['2 full-buffer', '2 too-old']"
    )"
    gigabit --json --fail-on too-old,refused
    tell 'each criterion is its own count' "$(
        is_status 6
        wants_number "$work/out" 'r["unmet"]' "['2 too-old']"
    )"
    launch tools/afdx-report examples/refused.toml examples/one_link.list --json --fail-on dropped \
        --junit "$work/refused.xml"
    tell "the program's status stands before that of the criteria" "$(
        is_status 1
        wants_cases "$work/refused.xml" '2 1 0'
    )"
    sed 's/^profile = 1/profile = 3/' examples/base.toml >"$work/bad.toml"
    launch tools/afdx-report "$work/bad.toml" examples/one_link.list --fail-on late \
        --junit "$work/bad.xml"
    tell 'a run without a report in JUnit' "$(
        is_status 1
        wants_cases "$work/bad.xml" '2 1 0'
    )"
}

compare_tests() { # of the sample of counted_tests, and of the same without its first second frame
    local again=$work/sample.again.list
    launch tools/afdx-report examples/network.toml "$work/sample.list" --json \
        --compare "$work/sample/report.json"
    tell 'a run compared with itself' "$(
        is_status 0
        wants_number "$work/out" 'r["compared"]["rows"]' '[]'
        wants_number "$work/out" 'r["compared"]["only_here"] + r["compared"]["only_there"]' '[]'
    )"
    { echo '# another line at the head'; grep -v "$(sed -n 3p "$work/sample.list")" \
        "$work/sample.list"; } >"$again"
    launch tools/afdx-report examples/network.toml "$again" --out "$work/again" \
        --compare "$work/sample/report.json"
    tell 'frames are compared by link, side, number and time, not by line' "$(
        is_status 0
        wants_number "$work/again/report.json" \
            '[row["change"] for row in r["compared"]["rows"] if row["number"] == "frames"][0]' -1
        wants_number "$work/again/report.json" \
            'len(r["compared"]["only_here"]) + len(r["compared"]["only_there"]) < 3' True
        if [[ ! -s $work/again/compared.csv ]]; then echo 'no compared.csv'; fi
        "$python" tests/tools/html_tags.py "$work/again/report.html"
        "$python" tests/tools/html_access.py "$work/again/report.html"
    )"
    for other in examples/base.toml "$work/nowhere.json"; do
        launch tools/afdx-report examples/base.toml examples/one_link.list --json \
            --compare "$other"
        tell "compared with ${other##*/}" "$(
            if [[ $status -ne 2 && $status -ne 4 ]]; then echo "status $status"; fi
            one_line
        )"
    done
}

jitter_tests() { # the program says of the measured jitter that it is just enough
    local jitter enough one
    "$python" - "$(frame_of A 0)" >"$work/jitter.list" <<'END_OF_FILE'
import sys
time = 0
for number in range(40):
    time += 1_000_000 - (number * 7919) % 40_000
    print(f"F {time} A 1 {sys.argv[1]}")
END_OF_FILE
    launch tools/afdx-report examples/base.toml "$work/jitter.list" --json --no-admission
    jitter=$(json_of "$work/out" 'r["sides"][0]["jitter_ns"]')
    enough=$(((jitter + 999) / 1000))
    for one in "$enough" "$((enough - 1))"; do
        "$program" police 1 64 "$one" "$work/jitter.list" | grep -c over-rate
    done >"$work/got"
    tell 'the measured jitter is the least with which all pass' "$(
        if [[ $enough -lt 100 || $enough -gt 999 ]]; then echo "jitter $jitter"; fi
        wants_text "$(head -n 1 "$work/got")" 0 'over-rate with it'
        if [[ $(tail -n 1 "$work/got") -eq 0 ]]; then echo 'all pass with less'; fi
    )"
}

if [[ -n $reporting ]]; then
    late_tests
    criteria_tests
    compare_tests
    jitter_tests
else
    skip 'late links, criteria, comparison' "there is no program $program, or no numpy"
fi
