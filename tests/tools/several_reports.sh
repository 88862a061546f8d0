# Tests of afdx-report over several switches a side; a part of tests/run/tools.sh.
# shellcheck shell=bash
# shellcheck disable=SC2154  # what it uses is set by tests/run/tools.sh, which sources it

flying=$work/flying

is_counted() { # NAME CONFIG LIST [OPTION..] : a report, counted another way
    local name=$1 config=$2 list=$3 made=$flying/$1
    shift 3
    "$program" replay "$@" "$config" "$list" >"$flying/$name.lines" 2>"$work/said"
    launch tools/afdx-report "$@" "$config" "$list" --out "$made"
    "$python" tests/tools/recount_ways.py "$config" "$list" "$flying/$name.lines" \
        "$made/report.json" 2>&1
    "$python" tests/tools/html_tags.py "$made/report.html"
}

sums_are() { # NAME : those of the lines
    local lines=$flying/$1.lines json=$flying/$1/report.json
    wants_number "$json" 'r["totals"]["accepted"] + r["totals"]["dropped"]' \
        "$(grep '^V' "$lines" | sort -u -k 2,2n | wc -l)"
    wants_number "$json" 'r["totals"]["full_buffer"]' "$(grep -c '^L' "$lines")"
    wants_number "$json" 'r["totals"]["too_old"]' "$(grep -c '^T' "$lines")"
    wants_number "$json" 'r["totals"]["delivered"]' "$(grep -c '^M' "$lines")"
    wants_number "$json" 'r["totals"]["redundant"]' "$(grep -c '^X.*redundant$' "$lines")"
    wants_number "$json" 'sum(row["left"] for row in r["ports"])' "$(grep -c '^D' "$lines")"
}

counted_ways_tests() {
    local two=examples/two_switches
    tell 'two switches: all numbers are those of the lines' "$(
        is_counted two "$two.toml" "$two.list"
        sums_are two
    )"
    sed 's/^profile = 1/profile = 2/; s/^buffer = 254/buffer = 64/
        s/^latency_us = 21/latency_us = 6/
        s/^latency_us = 18/latency_us = 6/' "$two.toml" >"$flying/small.toml"
    tell 'and where copies are lost, late and too old' "$(
        is_counted small "$flying/small.toml" "$two.list" --no-admission
        sums_are small
        wants_number "$flying/small/report.json" 'r["totals"]["at_switches"]' \
            "{'dropped': {'fwd': 2, 'aft': 1}, 'full_buffer': {'aft': 1}, 'late': {'fwd': 2,\
 'aft': 10}, 'too_old': {'aft': 1}}"
        says out 'full-buffer: 1 copy (1 at aft) lost to a full buffer'
    )"
    tests/tools/sample_list.py examples/aircraft.toml --ms 200 >"$flying/sample.list"
    tell "an aircraft's switches" "$(
        is_counted aircraft examples/aircraft.toml "$flying/sample.list"
        sums_are aircraft
        wants_number "$flying/aircraft/report.json" 'len(r["switches"]), len(r["lines"])' \
            '(16, 88)'
        wants_number "$flying/aircraft/report.json" \
            'all(w["greatest_ns"] <= w["bound_ns"] <= w["promised_ns"] for w in r["ways"])' True
    )"
}

place_tests() { # of what was made before
    local two=examples/two_switches
    tell 'ports have their switches in all tables' "$(
        for name in ways latency ports dropped troubles receivers lines; do
            head -n 1 "$flying/aircraft/$name.csv" | grep -q switch || echo "not in $name"
        done
    )"
    launch tools/afdx-report "$two.toml" "$two.list" --compare "$flying/two/report.json" --json
    tell 'compared with itself' "$(
        is_status 0
        wants_number "$work/out" 'r["compared"]["rows"]' '[]'
    )"
    launch tools/afdx-report --no-admission "$flying/small.toml" "$two.list" --json \
        --compare "$flying/two/report.json" --fail-on dropped,lost --junit "$flying/junit.xml"
    tell 'compared, judged and reported with places' "$(
        is_status 6
        wants_number "$work/out" \
            '[d["this"] for d in r["compared"]["rows"] if d["table"] == "latency"
              and d["of"] == "link 1 switch aft port 3 side A" and d["number"] == "late"]' '[7]'
        wants_number "$work/out" '[t["switch"] for t in r["compared"]["only_here"]
            if t["what"] == "full-buffer"]' "['aft']"
        says err 'afdx-report: 1 full-buffer (1 at aft)'
        wants_cases "$flying/junit.xml" '5 0 3'
        grep -qF '3 frames that a switch dropped (2 at fwd, 1 at aft)' "$flying/junit.xml" ||
            echo 'no places in the test cases'
    )"
    launch tools/afdx-report "$two.toml" examples/one_link.list --json
    tell 'a list of one switch' "$(
        is_status 3
        says err 'list BadLine 1'
        wants_number "$work/out" 'r["totals"]["frames"]' 0
    )"
}

many_tests() { # lists of a campaign
    local two=examples/two_switches
    launch tools/afdx-campaign "$two.toml" "$flying/sample.list" "$two.list" --out "$flying/many"
    tell 'a campaign' "$(is_status 3; says out 'examples/two_switches.list')"
    launch tools/afdx-campaign examples/aircraft.toml "$flying/sample.list" --out "$flying/many"
    tell 'a campaign names ports with their switches' "$(
        is_status 0
        grep -qE '"[0-9]+ at [a-z]+ port [0-9]+, [AB]"' "$flying/many/campaign.csv" ||
            echo 'it has none'
    )"
}

picture_tests() {
    launch tools/afdx-report examples/aircraft.toml "$flying/sample.list" --link 1203 \
        --out "$flying/linked"
    tell 'a picture of the network, and the tree of a link' "$(
        is_status 0
        wants_text "$(grep -o '<svg [^>]*class="map"' "$flying/linked/report.html" | wc -l)" 1 maps
        # to three systems, over three cables: each half is shaded
        wants_text "$(grep -o 'class="tree"' "$flying/linked/report.html" | wc -l)" 4 shades
        wants_text "$(grep -oE 'section id="(arrivals|picture|network|drops)"' \
            "$flying/linked/report.html" | cut -d '"' -f 2 | tr '\n' ' ')" \
            'arrivals picture network drops ' sections
        wants_text "$(grep -o 'class="tree"' "$flying/aircraft/report.html" | wc -l)" 0 shades
        "$python" tests/tools/html_tags.py "$flying/linked/report.html"
    )"
    sed 's/^latency_us = .*/latency_us = 7/' examples/two_switches.toml >"$flying/late.toml"
    launch tools/afdx-report --no-admission "$flying/late.toml" examples/two_switches.list \
        --out "$flying/late"
    tell 'the picture shows where copies were late, and cards of what was lost are red' "$(
        is_status 0
        grep -q 'Late or lost: aft port 3: 2 late[.]' "$flying/late/report.html" ||
            echo 'it is not said'
        wants_text "$(grep -oE 'class="wrong"' "$flying/late/report.html" | wc -l)" 2 lines
        grep -qE '<dt>dropped</dt><dd class="bad">[1-9]' "$flying/late/report.html" ||
            echo 'dropped is not red'
    )"
    if has chromium; then
        for size in 1200,4000 400,4000; do
            launch chromium --headless --no-sandbox --disable-gpu --hide-scrollbars \
                --window-size="$size" --screenshot="$work/page.png" \
                "file://$flying/linked/report.html"
            tell "a browser shows it, $size" "$(
                if [[ $(stat -c %s "$work/page.png") -lt 50000 ]]; then echo 'no picture'; fi
            )"
        done
    fi
}

no_graphviz_tests() {
    mkdir -p "$flying/bin"
    printf '#!/bin/sh\nexit 1\n' >"$flying/bin/neato"
    chmod +x "$flying/bin/neato"
    launch env PATH="$flying/bin:$PATH" tools/afdx-report examples/two_switches.toml \
        examples/two_switches.list --out "$flying/broken"
    tell 'a layout that fails leaves the tables' "$(
        is_status 0
        grep -q 'Graphviz made no layout, so there is no picture' "$flying/broken/report.html" ||
            echo 'it is not said'
        if grep -q 'class="map"' "$flying/broken/report.html"; then echo 'a map'; fi
    )"
    launch env PATH=/nowhere "$python" tools/afdx-report examples/two_switches.toml \
        examples/two_switches.list --out "$flying/broken"
    tell 'without Graphviz the page says so' "$(
        is_status 0
        grep -qE 'Graphviz isn.{1,6}t installed \(apt-get install graphviz\)' \
            "$flying/broken/report.html" || echo 'it is not said'
    )"
}

if [[ -n $reporting ]]; then
    mkdir -p "$flying"
    counted_ways_tests
    place_tests
    if has parallel; then many_tests; else skip 'campaigns by place' 'there is no GNU parallel'; fi
    if has neato; then picture_tests; else skip 'a picture of the network' 'no graphviz'; fi
    no_graphviz_tests
else
    skip 'reports of several switches' "there is no program $program, or no numpy"
fi
