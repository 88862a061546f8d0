# Tests of what afdx-report says is absent or out of place; a part of tests/run/tools.sh.
# shellcheck shell=bash
# shellcheck disable=SC2154  # what it uses is set by tests/run/tools.sh, which sources it

absent=$work/absent
network=examples/network.toml

amiss() { # WHAT : the sound list with that amiss
    "$python" tests/tools/absent_list.py "$1" <"$absent/sound.list" >"$absent/$1.list"
}

found_in() { # NAME CONFIG WORD.. : a report in the folder of that name, with its text
    launch tools/afdx-report "${@:2}" --out "$absent/$1"
    cp "$work/out" "$absent/$1.text"
}

findings_are() { # NAME WORD.. : these criteria, and no others, have findings
    wants_number "$absent/$1/report.json" \
        '" ".join(dict.fromkeys(f["criterion"] for f in r["findings"]))' "${*:2}"
}

finds() { # NAME WORDS : a finding has them, in text, JSON and page
    local name=$1
    if ! grep -qF -- "$2" "$absent/$name.text"; then
        echo "no '$2' in the text:"
        grep '^finding' "$absent/$name.text"
    fi
    wants_number "$absent/$name/report.json" \
        "any('''$2''' in f['words'] for f in r['findings'])" True
    if ! grep -qF -- "${2//"'"/"&#x27;"}" "$absent/$name/report.html"; then
        echo "no '$2' on the page"
    fi
}

recounted() { # CONFIG NAME
    "$program" replay "$1" "$absent/$2.list" >"$work/lines" 2>"$work/said"
    "$python" tests/tools/recount_absence.py "$1" "$absent/$2.list" "$work/lines" \
        "$absent/$2/report.json"
    "$python" tests/tools/recount_traffic.py "$1" "$absent/$2.list" "$work/lines" \
        "$absent/$2/report.json"
}

sound_test() {
    "$python" tests/tools/sample_list.py "$network" --ms 400 --sound >"$absent/sound.list"
    local all
    all=$("$python" -B -c 'import sys; sys.path.insert(0, "tools")
from afdx_tools.report.criteria import CRITERIA; print(",".join(CRITERIA))')
    found_in sound "$network" "$absent/sound.list" --fail-on "$all" --junit "$work/all.xml"
    tell 'of a sound run nothing is found' "$(
        is_status 0
        findings_are sound
        wants_cases "$work/all.xml" '19 0 0'
        recounted "$network" sound
        if ! grep -q 'no findings' "$absent/sound/report.html"; then echo 'not said'; fi
        if grep -q '<li>' "$absent/sound/report.html"; then echo 'a finding on the page'; fi
    )"
}

silence_tests() {
    local one
    for one in half system link; do
        amiss "$one"
        found_in "$one" "$network" "$absent/$one.list" --fail-on silent
    done
    tell 'a network that falls silent, with the time, the BAGs and the frames of the other' "$(
        is_status 6
        findings_are half silent
        finds half 'network B: silent from 199.976817 ms to 399.970079 ms, the end, 199 BAGs of'
        finds half '199 BAGs of 1 ms; meanwhile 1,477 frames came on A'
        wants_number "$absent/half/report.json" \
            'r["totals"]["silent"], r["silences"][0]["side"], r["silences"][0]["next_line"]' \
            "(1, 'B', None)"
        recounted "$network" half
    )"
    tell 'a system that falls silent on a side is one silence' "$(
        findings_are system silent missing refused first-number
        finds system 'all of irs1 on A: silent from '
        wants_number "$absent/system/report.json" \
            '[(s["silent"], s["system"], s["side"]) for s in r["silences"]]' \
            "[('system', 'irs1', 'A')]"
        wants_number "$absent/system/report.json" \
            '[s["next_line"] for s in r["silences"]] != [None]' True
        recounted "$network" system
    )"
    tell 'a link that falls silent on both sides is one silence' "$(
        finds link 'link 501 (irs1) on A and B: silent from '
        finds link ' BAGs of 2 ms'
        recounted "$network" link
    )"
    tell 'it is on the page, and in the table' "$(
        wants_number "$absent/half/report.json" \
            '[len(l["silent_ns"]) for l in r["arrivals"]["links"] if l["link"] == 101]' '[0, 1]'
        for words in 'class="lane-silent"' 'link 101 on side B: 188 frames, 1 silences'; do
            if ! grep -qF "$words" "$absent/half/report.html"; then echo "no '$words'"; fi
        done
        wants_text "$(wc -l <"$absent/half/silences.csv")" 2 'lines of silences.csv'
        "$python" tests/tools/html_tags.py "$absent/half/report.html"
        "$python" tests/tools/html_access.py "$absent/half/report.html"
    )"
    printf 'F 5 A 1 %s\n' "$(frame_of A 0)" >"$absent/single.list"
    found_in single examples/base.toml "$absent/single.list"
    tell 'a network without a frame is silent in the shortest run' "$(
        is_status 0
        finds single 'network B: no frame in the whole run of 0.000 us, 0 BAGs of 1 ms'
    )"
}

number_tests() {
    local one
    for one in alone began steps babbler; do
        amiss "$one"
        found_in "$one" "$network" "$absent/$one.list"
    done
    tell 'frames that came on one side alone' "$(
        findings_are alone unequal missing
        finds alone '2 frames came on one side alone, on A 1, on B 1, of link 201'
        recounted "$network" alone
    )"
    tell 'a run that begins in the midst of it' "$(
        findings_are began first-number
        finds began "the first number isn't 0 of links 101, 102"
        recounted "$network" began
    )"
    tell 'frames that came on neither side' "$(
        findings_are steps missing refused
        finds steps '6 sequence numbers are missing, on A 3, on B 3, of link 201'
        recounted "$network" steps
    )"
    tell 'no babbler makes a number missing' "$(
        wants_number "$absent/babbler/report.json" 'r["totals"]["missing"]' 0
        wants_number "$absent/babbler/report.json" \
            '[s["jumps"] > 1000 for s in r["sides"] if s["link"] == 703]' '[True, True]'
        finds babbler 'frames of link 703 (disp1) dropped as over-rate on A and B, from '
        recounted "$network" babbler
        if ! grep -q 'class="lane-busy"' "$absent/babbler/report.html"; then echo 'no lane'; fi
    )"
}

wrong_port_tests() {
    amiss masquerade
    found_in masquerade "$network" "$absent/masquerade.list"
    tell 'a wrong port has its name' "$(
        findings_are masquerade dropped
        finds masquerade '22 frames of link 1001 (eec1) came in at port 11 (eec2) '
        finds masquerade "isn't its port 10: dropped as wrong-port; their source address names eec2"
        wants_number "$absent/masquerade/report.json" '{t["came_in"] for t in r["troubles"]}' '{11}'
        recounted "$network" masquerade
        for words in 'class="place">11<' 'class="lane-wrong"'; do
            if ! grep -qF "$words" "$absent/masquerade/report.html"; then echo "no $words"; fi
        done
    )"
}

# The words for what isn't there, each once in one table, with its count.
words_test() {
    tell 'one table has the words' "$("$python" - "$absent/masquerade" <<'END_OF_FILE'
import json, pathlib, re, sys
folder = pathlib.Path(sys.argv[1])
page = (folder / "report.html").read_text()
report = json.loads((folder / "report.json").read_text())
part = page.split('<section id="words"')[1].split("</section>")[0]
rows = dict(re.findall(r"<span>([a-z-]+)</span></th><td class=\"number\">([0-9,]+)<", part))
told = {word: int(count.replace(",", "")) for word, count in rows.items()}
wanted = ("silent missing first-number unequal recorder-lost left-out claimed contradicted dropped "
          "full-buffer too-old late refused redundant twice").split()
if list(told) != wanted:
    print(list(told), "wanted", wanted)
for word, count in told.items():
    if report["totals"][word.replace("-", "_")] != count:
        print(word, count, "wanted", report["totals"][word.replace("-", "_")])
END_OF_FILE
    )"
}

# Two recordings: none of B, both for one another, clocks that are apart.
pair_tests() {
    local a=$absent/A.pcap b=$absent/B.pcap tight=$absent/tight.toml one
    capture pcap --side A "$absent/sound.list" "$a"
    capture pcap --side B "$absent/sound.list" "$b"
    head -c 24 "$b" >"$absent/empty.pcap"
    for one in 1000000 -1000000 1000000000; do
        capture pcap --side B --origin "$((2000000000 + one))" "$absent/sound.list" \
            "$absent/B$one.pcap"
    done
    capture pcap --side A --origin 2000000000 "$absent/sound.list" "$absent/A0.pcap"
    sed -E 's/latency_us = ([0-9]+), skew_us = [0-9]+/latency_us = \1, skew_us = \1/' \
        "$network" >"$tight"
    found_in empty "$network" "$a" "$absent/empty.pcap" --fail-on silent,claimed
    tell 'an empty recording of B' "$(
        is_status 6
        findings_are empty silent claimed
        finds empty 'network B: no frame in the whole run of 399.8'
        finds empty 'meanwhile 2,959 frames came on A'
        finds empty '2,959 of 2,959 frames are only claimed'
    )"
    found_in swapped "$network" "$b" "$a" --fail-on contradicted
    tell 'recordings in one another'\''s place' "$(
        is_status 6
        findings_are swapped contradicted claimed
        finds swapped '5,918 of 5,918 frames name the other network in their address; are the reco'
    )"
    found_in later "$tight" "$absent/A0.pcap" "$absent/B1000000.pcap" --fail-on twice,clock,skew
    tell 'clocks that are 1 ms apart' "$(
        is_status 6
        findings_are later clock twice skew claimed
        finds later 'the clocks are apart: of all 12 senders that have enough copies, those on B '
        finds later ' messages were delivered twice, of links 101, 102'
        wants_number "$absent/later/report.json" \
            'all(990_000 < c["median_ns"] < 1_050_000 for c in r["clocks"])' True
        "$program" list "$tight" "$absent/A0.pcap" "$absent/B1000000.pcap" >"$absent/later.list"
        recounted "$tight" later
    )"
    found_in sooner "$tight" "$absent/A0.pcap" "$absent/B-1000000.pcap"
    tell 'or the other way round' "$(finds sooner ', those on A came ')"
    found_in second "$tight" "$absent/A0.pcap" "$absent/B1000000000.pcap"
    tell 'clocks that are 1 s apart' "$(
        finds second 'the clocks are apart: of all 12 senders that have enough copies, those on B '
        wants_number "$absent/second/report.json" \
            'all(999_000_000 < c["median_ns"] < 1_001_000_000 for c in r["clocks"])' True
        wants_number "$absent/second/report.json" \
            'r["totals"]["twice"], r["totals"]["unequal"]' '(4886, 0)'
    )"
}

# Counts that the program says of a recording.
skipped_test() {
    local fake=$absent/program counts='no-frame 0 left-out 0 not-afdx 2 unknown-sender 1'
    counts+=' no-network 0 before-origin 0 recorder-lost 7 claimed 1 contradicted 0 unused 1'
    cat >"$fake" <<END_OF_FILE
#!/bin/bash
case \$1 in
    list) printf 'F 0 A 1 $(frame_of A 0)\n'; echo 'skipped $counts' >&2 ;;
    replay) printf 'V 1 A accept\nD 1 6720 A 3\nM 6720 s3 1 00\n' ;;
    *) exec "$program" "\$@" ;;
esac
END_OF_FILE
    chmod +x "$fake"
    launch env AFDX="$fake" tools/afdx-report examples/base.toml "$absent/A.pcap" \
        --out "$absent/skipped" --fail-on recorder-lost,left-out,unused,claimed
    cp "$work/out" "$absent/skipped.text"
    tell 'what the recorder lost, what was left out, what was claimed' "$(
        is_status 6
        says err 'afdx-report: 7 recorder-lost'
        says err 'afdx-report: 3 left-out'
        says err 'afdx-report: 1 unused'
        finds skipped 'the recorder itself lost 7 frames'
        finds skipped '3 recorded frames were left out: 2 not-afdx, 1 unknown-sender'
        finds skipped '1 interface that --interface names, and that the recording'
    )"
}

mkdir -p "$absent"
if [[ -n $reporting ]]; then
    sound_test
    silence_tests
    number_tests
    wrong_port_tests
    words_test
    if [[ -n $dpkt && $reads == *two* ]]; then
        pair_tests
        skipped_test
    else
        skip 'recordings with something amiss' 'there is no dpkt, or the program takes no two yet'
    fi
else
    skip 'what is absent' "there is no program $program, or no numpy"
fi
