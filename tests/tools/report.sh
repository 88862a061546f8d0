# Tests of tools/afdx-report; a part of tests/run/tools.sh.
# shellcheck shell=bash
# shellcheck disable=SC2154  # what it uses is set by tests/run/tools.sh, which sources it

# ---- the report ----------------------------------------------------------------------------

if [[ -x $program ]]; then built=1; else built=; fi
reporting=${numpy:+$built}

wants_text() { # GOT WANTED WHAT
    if [[ $1 != "$2" ]]; then echo "$3: '$1', wanted '$2'"; fi
}

wants_page() { # FILE
    if [[ ! -s $1 ]]; then echo "there is no page $1"; fi
}

wants_cases() { # JUNIT WANTED : how many test cases, errors, failures
    local got
    got=$("$python" -c 'import sys, xml.etree.ElementTree as xml
root = xml.parse(sys.argv[1]).getroot()
print(*(len(root.findall(".//" + name)) for name in ("testcase", "error", "failure")))' "$1")
    if [[ $got != "$2" ]]; then echo "cases, errors and failures are $got, wanted $2"; fi
}

json_of() { # FILE EXPRESSION : a Python expression over the report `r`
    "$python" -c 'import json, sys; r = json.load(open(sys.argv[1])); print(eval(sys.argv[2]))' \
        "$1" "$2"
}

wants_number() { # FILE EXPRESSION WANTED
    local got
    got=$(json_of "$1" "$2")
    if [[ $got != "$3" ]]; then echo "$2 is $got, wanted $3"; fi
}

frame_of_link_2() { # its first frame on side A
    frame_of A 0 | sed 's/^030000000001020000000120/030000000002020000000220/'
}

report_tests() {
    local json=$work/one/report.json
    launch tools/afdx-report examples/base.toml examples/one_link.list --out "$work/one"
    tell 'a report' "$(
        is_status 0
        says out 'nearest     no link has 10 copies at a port'
        wants_number "$json" \
            'r["totals"]["frames"], r["totals"]["accepted"], r["totals"]["dropped"]' '(3, 2, 1)'
        wants_number "$json" 'r["totals"]["delivered"], r["totals"]["redundant"]' '(1, 1)'
        wants_number "$json" 'r["latency"][0]["greatest_ns"], r["latency"][0]["bound_ns"]' \
            '(6720, 16800)'
        wants_number "$json" 'r["ports"][0]["backlog"], r["ports"][0]["bound"]' '(64, 252)'
        wants_number "$json" 'r["admission"], r["fault"], r["status"]' "('ok', '', 0)"
    )"
    tell 'its page needs nothing beside it' "$(
        if grep -qE 'src=|href="[^#]|@import|url\(' "$work/one/report.html"; then
            echo 'it refers to something'
        fi
        "$python" tests/tools/html_tags.py "$work/one/report.html"
    )"
    launch tools/afdx-report examples/base.toml - --json <examples/one_link.list
    tell 'nothing on standard input is an empty list' "$(
        is_status 0
        wants_number "$work/out" 'r["totals"]["frames"]' 0
    )"
    status=0
    tools/afdx-report examples/base.toml - --json <examples/one_link.list \
        >"$work/out" 2>"$work/err" || status=$?
    tell 'a list on standard input' "$(
        is_status 0
        wants_number "$work/out" 'r["totals"]["frames"]' 3
    )"
}

counted_tests() { # the tool's sums against sums made another way
    tests/tools/sample_list.py examples/network.toml --ms 120 >"$work/sample.list"
    "$program" replay examples/network.toml "$work/sample.list" >"$work/lines"
    launch tools/afdx-report examples/network.toml "$work/sample.list" --out "$work/sample"
    local json=$work/sample/report.json
    tell 'all sums are those of the lines' "$(
        is_status 0
        wants_number "$json" 'r["totals"]["frames"]' "$(grep -c '^V' "$work/lines")"
        wants_number "$json" 'r["totals"]["accepted"]' "$(grep -c '^V.*accept$' "$work/lines")"
        wants_number "$json" 'r["totals"]["dropped"]' "$(grep -c '^V.*drop' "$work/lines")"
        wants_number "$json" 'r["totals"]["departed"]' "$(grep -c '^D' "$work/lines")"
        wants_number "$json" 'r["totals"]["delivered"]' "$(grep -c '^M' "$work/lines")"
        wants_number "$json" 'r["totals"]["redundant"]' "$(grep -c '^X.*redundant$' "$work/lines")"
        wants_number "$json" 'r["totals"]["refused"]' \
            "$(grep '^X' "$work/lines" | grep -vc 'redundant$')"
        wants_number "$json" 'sum(l["reasons"].get("over-rate", 0) for l in r["links"])' \
            "$(grep -c 'drop over-rate$' "$work/lines")"
        if [[ $(grep -c 'drop over-rate$' "$work/lines") -lt 5 ]]; then
            echo 'the sample is too small'
        fi
    )"
    tell 'latencies and backlogs, counted another way' "$(
        "$python" tests/tools/recount_latencies.py examples/network.toml "$work/sample.list" \
            "$work/lines" "$json"
    )"
    tell 'gaps, jitter, missing numbers, skews and loads, counted another way' "$(
        "$python" tests/tools/recount_traffic.py examples/network.toml "$work/sample.list" \
            "$work/lines" "$json"
    )"
    tell 'no latency is over its bound, no backlog either' "$(
        wants_number "$json" 'max(l["greatest_ns"] - l["bound_ns"] for l in r["latency"]) <= 0' True
        wants_number "$json" 'max(p["backlog"] - p["bound"] for p in r["ports"]) <= 0' True
    )"
    tell 'CSV and JSON say the same' "$(
        wants_number "$json" 'len(r["latency"]) + 1' "$(wc -l <"$work/sample/latency.csv")"
        wants_number "$json" 'len(r["links"]) + 1' "$(wc -l <"$work/sample/links.csv")"
        wants_number "$json" 'len(r["ports"]) + 1' "$(wc -l <"$work/sample/ports.csv")"
        "$python" tests/tools/html_tags.py "$work/sample/report.html"
    )"
}

time_line_tests() { # of the sample of counted_tests
    launch tools/afdx-report examples/network.toml "$work/sample.list" --link 501 --from 50000000 \
        --out "$work/sample"
    tell 'the time line of a chosen link' "$(
        is_status 0
        if ! grep -q 'Time line of link 501' "$work/sample/report.html"; then
            echo 'it is not there'
        fi
    )"
}

fault_tests() {
    launch tools/afdx-report examples/refused.toml examples/one_link.list --out "$work/refused"
    tell 'a network that is refused: status 1 and the line' "$(
        is_status 1
        says err 'admit A3 7 104 267995'
        wants_number "$work/refused/report.json" 'r["admission"], r["fault"]' \
            "('no A3 7 104 267995', 'admit A3 7 104 267995')"
    )"
    launch tools/afdx-report --no-admission examples/refused.toml examples/one_link.list \
        --out "$work/refused"
    tell 'and replayed without admission' "$(
        is_status 0
        wants_number "$work/refused/report.json" 'r["totals"]["frames"]' 3
    )"
    printf 'F 0 A 1 %s\nF 5 A 1 %s\nF 4 A 1 00\n' "$(frame_of A 0)" "$(frame_of A 1)" \
        >"$work/fault.list"
    launch tools/afdx-report examples/base.toml "$work/fault.list" --out "$work/fault"
    tell "a list's fault: status 3, and what came before it" "$(
        is_status 3
        says err 'list TimeBack 3'
        wants_number "$work/fault/report.json" 'r["totals"]["frames"], r["fault"]' \
            "(2, 'list TimeBack 3')"
    )"
    printf 'F 0 A 1 %s\nF 5 A\n' "$(frame_of A 0)" >"$work/fault.list"
    launch tools/afdx-report examples/base.toml "$work/fault.list" --json
    tell 'a line that is no line' "$(is_status 3; says err 'list BadLine 2')"
    sed 's/^profile = 1/profile = 3/' examples/base.toml >"$work/bad.toml"
    launch tools/afdx-report "$work/bad.toml" examples/one_link.list --json
    tell "a configuration's fault" "$(is_status 1; says err 'config BadProfile')"
    launch tools/afdx-report examples/base.toml "$work/nowhere.list" --json
    tell 'a list that is not there' "$(
        if [[ $status -eq 0 ]]; then echo 'status 0'; fi
        says err nowhere.list
    )"
}

full_tests() { # a buffer for one frame
    sed 's/^buffer = .*/buffer = 64/' examples/base.toml >"$work/small.toml"
    printf 'F 0 A 1 %s\nF 0 A 2 %s\n' "$(frame_of A 0)" "$(frame_of_link_2)" >"$work/lost.list"
    launch tools/afdx-report --no-admission "$work/small.toml" "$work/lost.list" --json
    tell 'a copy that meets a full buffer' "$(
        is_status 0
        wants_number "$work/out" \
            'r["totals"]["full_buffer"], r["totals"]["departed"], r["ports"][0]["backlog"]' \
            '(1, 1, 64)'
    )"
}

old_tests() { # profile 2: a low frame that waits for longer than its latency
    sed 's/^profile = 1/profile = 2/; s/^latency_us = 21/latency_us = 6/' examples/base.toml \
        >"$work/old.toml"
    printf 'F 0 A 1 %s\nF 719 A 2 %s\n' "$(frame_of A 0)" "$(frame_of_link_2)" >"$work/old.list"
    launch tools/afdx-report --no-admission "$work/old.toml" "$work/old.list" --out "$work/old"
    tell 'a copy that is too old' "$(
        is_status 0
        wants_number "$work/old/report.json" 'r["totals"]["too_old"], r["totals"]["departed"]' \
            '(1, 1)'
        "$python" tests/tools/html_tags.py "$work/old/report.html"
    )"
}

chromium_test() {
    launch chromium --headless --no-sandbox --disable-gpu --hide-scrollbars --window-size=1120,900 \
        --screenshot="$work/page.png" "file://$work/sample/report.html"
    tell 'a browser shows the page' "$(
        if [[ ! -s $work/page.png || $(stat -c %s "$work/page.png") -lt 20000 ]]; then
            tail -n 3 "$work/err"
            echo 'no picture'
        fi
    )"
}

if [[ -n $reporting ]]; then
    report_tests
    counted_tests
    time_line_tests
    fault_tests
    full_tests
    old_tests
    if has chromium; then
        chromium_test
    else
        skip 'a browser shows the page' 'there is no chromium'
    fi
else
    skip 'reports' "there is no program $program, or no numpy (apt-get install python3-numpy)"
fi
