# Tests of afdx-report and afdx-campaign on recordings, and of all tools on two; a part of
# tests/run/tools.sh.
# shellcheck shell=bash
# shellcheck disable=SC2154  # what it uses is set by tests/run/tools.sh, which sources it

recorded=$work/recorded

record() { # LIST NAME : the list as a recording, and as those of both networks
    capture pcap "$1" "$recorded/$2.pcap"
    capture pcap --side A "$1" "$recorded/$2.A.pcap"
    capture pcap --side B "$1" "$recorded/$2.B.pcap"
}

report_on() { # NAME CONFIG WORD.. : a report in the folder of that name
    launch tools/afdx-report "${@:2}" --out "$recorded/$1"
}

same_reports() { # NAME OTHER : both say the same, except of their files and of what was left out
    "$python" - "$recorded/$1" "$recorded/$2" <<'END_OF_FILE'
import json, pathlib, sys
one, other = (json.loads((pathlib.Path(word) / "report.json").read_text()) for word in sys.argv[1:])
shown = "frames", "early_frames", "troubles"
for report in (one, other):
    report["totals"].pop("claimed")
    report["findings"] = [row for row in report["findings"] if row["criterion"] != "claimed"]
    for row in (row for name in shown for row in report.get(name, [])):
        row.pop("interface", row.pop("stamp", None))
for key in sorted({*one, *other} - {"run", "skipped", "where"}):
    if one.get(key) != other.get(key):
        print(f"{key}: {str(one.get(key))[:200]}, wanted {str(other.get(key))[:200]}")
if not one["totals"]["frames"]:
    print("there are no frames")
END_OF_FILE
}

# Two recordings and their list: the same, but that a frame has its number in its own recording.
same_but_numbers() { # NAME OTHER LIST
    "$python" - "$recorded/$1" "$recorded/$2" "$3" <<'END_OF_FILE'
import json, pathlib, sys
one, other = (json.loads((pathlib.Path(word) / "report.json").read_text())
              for word in sys.argv[1:3])
numbers, counts = {None: None}, {"A": 0, "B": 0}
for line, text in enumerate(pathlib.Path(sys.argv[3]).read_text().splitlines(), 1):
    side = text.split()[2]
    counts[side] += 1
    numbers[line] = counts[side]


def renamed(value, key=""):
    """The list's report, with the numbers of the recordings."""
    if isinstance(value, dict):
        return {n: renamed(v, n) for n, v in value.items() if n not in ("interface", "stamp")}
    if isinstance(value, list):
        return [renamed(each, key) for each in value]
    return numbers[value] if key == "line" or key.endswith("_line") else value


def sorted_rows(value):
    """The rows of equal lines may stand in another order."""
    return sorted(map(str, value)) if isinstance(value, list) else value


other = renamed(other)
numbers = {number: number for number in range(counts["A"] + counts["B"] + 1)} | {None: None}
one = renamed(one)
for key in sorted({*one, *other} - {"run", "skipped", "totals", "findings", "where"}):
    if sorted_rows(one.get(key)) != sorted_rows(other.get(key)):
        print(f"{key}: {str(one.get(key))[:300]}, wanted {str(other.get(key))[:300]}")
claimed = {"claimed": one["totals"]["frames"]}
if one["totals"] != other["totals"] | claimed or not one["totals"]["dropped"]:
    print(one["totals"], "wanted", other["totals"])
END_OF_FILE
}

wants_lines() { # NAME WORD.. : the report's sums are those of the lines of the replay
    local json=$recorded/$1/report.json letter key
    "$program" replay "${@:2}" >"$work/lines" 2>"$work/said"
    for key in frames:V departed:D full_buffer:L too_old:T delivered:M; do
        letter=${key#*:}
        wants_number "$json" "r['totals']['${key%:*}']" "$(grep -c "^$letter" "$work/lines")"
    done
    wants_number "$json" 'r["fault"]' "$(<"$work/said")"
}

# ---- one recording -------------------------------------------------------------------------

one_tests() {
    local config=examples/network.toml whole=$recorded/sample.pcap
    record "$work/sample.list" sample
    "$program" list "$config" "$whole" >"$recorded/sample.list" 2>"$work/err"
    report_on listed "$config" "$recorded/sample.list"
    tell 'a report on the list of a recording' "$(is_status 0)"
    report_on whole "$config" "$whole"
    tell 'the report on the recording says the same' "$(
        is_status 0
        same_reports whole listed
        wants_lines whole "$config" "$whole"
        wants_number "$recorded/whole/report.json" 'r["run"]["files"][1][2]' \
            "$(sha256sum "$whole" | cut -d ' ' -f 1)"
    )"
    tell 'it says what was left out' "$(
        "$program" list --summary "$config" "$whole" 2>&1 >"$work/got" | cut -d ' ' -f 2- \
            >"$work/wanted"
        json_of "$recorded/whole/report.json" \
            '" ".join(f"{word} {count}" for word, count in r["skipped"].items())' >"$work/got"
        same "$work/wanted" "$work/got"
        says out 'skipped     0 no-frame'
        if ! grep -q 'Left out of the recording: nothing' "$recorded/whole/report.html"; then
            echo 'its page does not'
        fi
    )"
    report_on piped "$config" <(cat "$whole")
    tell 'a recording from a pipe' "$(is_status 0; same_reports piped whole)"
    report_on placed "$config" --interface 0=A:5 --origin 0 --fcs yes "$whole"
    tell 'options of recordings are handed on' "$(
        is_status 0
        wants_lines placed --interface 0=A:5 --origin 0 --fcs yes "$config" "$whole"
        wants_number "$recorded/placed/report.json" \
            '{row["side"] for row in r["sides"]}, r["skipped"]["claimed"]' "({'A'}, 0)"
    )"
}

one_fault_tests() {
    local cut=$recorded/cut.pcap
    head -c -10 "$recorded/sample.pcap" >"$cut"
    report_on cut examples/network.toml "$cut"
    tell "a recording's fault: status 3, and what came before it" "$(
        is_status 3
        says err 'recording Ended'
        wants_lines cut examples/network.toml "$cut"
        wants_number "$recorded/cut/report.json" '"skipped" in r' False
    )"
    report_on none examples/base.toml --fcs no examples/one_link.list
    tell 'a list with an option of recordings' "$(is_status 3; says err 'recording NotRecording 0')"
    report_on none examples/base.toml --interface 0=C "$cut"
    tell 'an interface at no side, in a report' "$(is_status 2; one_line; says err BadInterface)"
    report_on refused examples/refused.toml "$cut"
    tell 'a recording on a network that is refused' "$(
        is_status 1
        wants_number "$recorded/refused/report.json" 'r["fault"]' 'admit A3 7 104 267995'
    )"
}

# A program whose frames have other numbers than the lines of the list, and in another order.
numbers_test() {
    local fake=$recorded/numbers
    cat >"$fake" <<END_OF_FILE
#!/bin/bash
case \$1 in
    list) printf '# not-afdx 1\nF 0 A 1 $(frame_of A 0)\nF 5000 A 1 $(frame_of A 1)\n' ;;
    replay)
        printf 'V 7 A accept\nV 3 A drop over-rate\nD 7 6720 A 3\nM 6720 s3 1 00\n'
        echo 'early 3 70' >&2
        ;;
    *) exec "$program" "\$@" ;;
esac
END_OF_FILE
    chmod +x "$fake"
    launch env AFDX="$fake" tools/afdx-report examples/base.toml "$recorded/sample.pcap" --json
    tell 'the i-th verdict is of the i-th arrival, whatever its number' "$(
        is_status 0
        wants_number "$work/out" '[(t["line"], t["time_ns"]) for t in r["troubles"]]' '[(3, 5000)]'
        wants_number "$work/out" 'r["latency"][0]["at_line"], r["latency"][0]["greatest_ns"]' \
            '(7, 6720)'
        wants_number "$work/out" 'r["sides"][0]["jitter_line"]' 3
        wants_number "$work/out" 'r["early_ns"][0]["greatest"]' 70
    )"
}

# ---- the order of a recording --------------------------------------------------------------

swap_frames() { # PCAP OTHER : each two frames of different times change their places
    "$python" - "$@" <<'END_OF_FILE'
import struct, sys
with open(sys.argv[1], "rb") as file:
    data = file.read()
at, frames = 24, []
while at < len(data):
    end = at + 16 + struct.unpack_from("<I", data, at + 8)[0]
    frames.append(data[at:end])
    at = end
pairs = [frames[place : place + 2] for place in range(0, len(frames), 2)]
swapped = [pair[::-1] if pair[0][:8] != pair[-1][:8] else pair for pair in pairs]
with open(sys.argv[2], "wb") as file:
    file.write(data[:24] + b"".join(frame for pair in swapped for frame in pair))
END_OF_FILE
}

without_numbers() { # NAME : the report's sums and rows, but for the numbers of frames
    json_of "$recorded/$1/report.json" 'r["totals"], [{key: value for key, value in row.items()
        if "line" not in key} for row in r["latency"] + r["sides"] + r["ports"]]'
}

order_tests() {
    local config=examples/network.toml mixed=$recorded/mixed.pcap
    swap_frames "$recorded/sample.pcap" "$mixed"
    report_on mixed "$config" --reorder 1 "$mixed"
    tell 'a report on a recording that is out of order' "$(
        is_status 0
        wants_lines mixed --reorder 1 "$config" "$mixed"
        wants_text "$(without_numbers mixed)" "$(without_numbers whole)" 'the report'
    )"
    report_on mixed "$config" --reorder 0 "$mixed"
    tell 'where none may be out of order' "$(is_status 3; says err 'recording TimeBack 2')"
    report_on starts "$config" --stamps start --origin 0 "$recorded/sample.pcap"
    tell 'a report on stamps of starts' "$(
        is_status 0
        wants_lines starts --stamps start --origin 0 "$config" "$recorded/sample.pcap"
    )"
}

# A program that notes its words, and hands on those that it may know.
noting() { # WORD..
    cat >"$recorded/noting" <<END_OF_FILE
#!/bin/bash
echo "\$*" >>"$recorded/words"
words=()
for word in "\$@"; do
    case \$word in
        --reorder=* | --stamps=*) ;;
        *) words+=("\$word") ;;
    esac
done
exec "$program" "\${words[@]}"
END_OF_FILE
    chmod +x "$recorded/noting"
    rm -f "$recorded/words"
    launch env AFDX="$recorded/noting" "$@"
}

handed_on() { # COMMAND.. : each of these got both options
    local command
    is_status 0
    for command in "$@"; do
        if ! grep -q "^$command .*--reorder=7 --stamps=start" "$recorded/words"; then
            echo "$command has other words:"
            grep "^$command " "$recorded/words"
        fi
    done
}

handed_on_tests() {
    local options=(--reorder 7 --stamps start) whole=$recorded/sample.pcap
    noting tools/afdx-report "${options[@]}" examples/network.toml "$whole" --json
    tell 'the order of a recording is handed on' "$(handed_on list replay)"
    noting tools/afdx-capture list "${options[@]}" --config examples/network.toml "$whole"
    tell 'that of a list too' "$(handed_on list)"
    if has parallel; then
        noting tools/afdx-campaign "${options[@]}" examples/network.toml "$whole" \
            --out "$recorded/noted"
        tell 'and that of a campaign' "$(handed_on list replay)"
    fi
    if [[ $reads == *two* ]]; then
        noting tools/afdx-report "${options[@]}" examples/network.toml "$recorded/sample.A.pcap" \
            "$recorded/sample.B.pcap" --json
        tell 'and that of two recordings' "$(handed_on list)"
    fi
}

# ---- two recordings ------------------------------------------------------------------------

two_tests() {
    local config=examples/network.toml
    local pair=("$recorded/sample.A.pcap" "$recorded/sample.B.pcap")
    "$program" list "$config" "${pair[@]}" >"$recorded/pair.list" 2>"$work/err"
    launch tools/afdx-capture list --config "$config" "${pair[@]}"
    tell 'the list of two recordings' "$(is_status 0; same "$recorded/pair.list" "$work/out")"
    report_on listed "$config" "$recorded/pair.list"
    report_on pair "$config" "${pair[@]}"
    tell 'the report on two recordings is that on their list' "$(
        is_status 0
        same_but_numbers pair listed "$recorded/pair.list"
        wants_lines pair "$config" "${pair[@]}"
        says out 'sample.A.pcap and sample.B.pcap on network.toml'
        wants_number "$recorded/pair/report.json" '[file[0] for file in r["run"]["files"]]' \
            "['Configuration', 'Recording of A', 'Recording of B']"
        wants_number "$recorded/pair/report.json" 'r["skipped"]["claimed"]' \
            "$(json_of "$recorded/pair/report.json" 'r["totals"]["frames"]')"
        "$python" tests/tools/html_tags.py "$recorded/pair/report.html"
    )"
    report_on pipes "$config" <(cat "${pair[0]}") <(cat "${pair[1]}")
    tell 'two pipes' "$(is_status 0; same_reports pipes pair)"
    report_on twice "$config" - -
    tell 'standard input twice' "$(is_status 2; one_line; says err 'words SameInput')"
}

two_fault_tests() {
    local config=examples/network.toml one=$recorded/sample.A.pcap other=$recorded/half.cut
    head -n $(($(wc -l <"$work/sample.list") / 2)) "$work/sample.list" >"$recorded/half.list"
    record "$recorded/half.list" half
    { cat "$recorded/half.B.pcap"; printf '0123456789'; } >"$other"
    report_on half "$config" "$one" "$other"
    tell 'a fault of one of two: its line, and what came before it, with no port emptied' "$(
        is_status 3
        if ! grep -qE '^afdx-report: recording Ended [0-9]+ B$' "$work/err"; then
            cat "$work/err"
        fi
        wants_lines half "$config" "$one" "$other"
    )"
    report_on none "$config" "$one" examples/one_link.list
    tell 'a list beside a recording' "$(is_status 3; says err 'recording NotRecording 0 B')"
    report_on refused examples/refused.toml "$one" "$other"
    tell 'two recordings on a network that is refused' "$(
        is_status 1
        says err 'admit A3 7 104 267995'
    )"
    launch tools/afdx-report "$config" "$one" "$recorded/nowhere" --json
    tell 'a second recording that is not there' "$(is_status 4; one_line; says err nowhere)"
}

# ---- campaigns of recordings ---------------------------------------------------------------

recorded_campaign_tests() {
    local a=$recorded/one.A.pcap b=$recorded/one.B.pcap out=$recorded/campaign
    printf 'F 0 A 1 %s\nF 2500 B 1 %s\n' "$(frame_of A 0)" "$(frame_of B 0)" \
        >"$recorded/one.list"
    record "$recorded/one.list" one
    cp "$recorded/one.list" "$recorded/a,b.list"
    campaign "$a,$b" "$recorded/one.pcap" "$recorded/a,b.list" --out "$out" --pages
    tell 'a campaign of a pair, a recording and a list with a comma' "$(
        is_status 0
        wants_text "$(column_of "$out/campaign.csv" 1)" '2 2 2' 'frames'
        wants_text "$(json_of "$out/runs/1/stdout" 'r["run"]["title"]')" \
            'one.A.pcap and one.B.pcap on base.toml' 'title'
        wants_page "$out/pages/1/report.html"
    )"
    campaign "$a,$b" "$recorded/one.pcap" --interface 0=A:1 --out "$out"
    tell 'options of recordings in a campaign' "$(
        is_status 0
        wants_number "$out/runs/2/stdout" '[row["side"] for row in r["sides"]]' "['A']"
    )"
    campaign "$a,$b" "$recorded/one.pcap" "$a" --interface 0=A:1 --out "$out" --resume
    tell 'one that goes on' "$(
        is_status 0
        wants_text "$(column_of "$out/campaign.csv" 1)" '2 2 1' 'frames'
    )"
    campaign "$a,$a" "$recorded/one.pcap" --interface 0=A:1 --out "$out" --resume
    tell 'another recording of B than before' "$(is_status 2; says err '--resume wants the lists')"
    campaign "$a,$recorded/nowhere" --out "$out"
    tell 'a pair of which one is not there' "$(is_status 4; says out 'No such file')"
}

# Another machine, as GNU parallel and rsync see it: another folder of this one, with the shell that
# a login gives.
transfer_tests() {
    local a=$recorded/one.A.pcap b=$recorded/one.B.pcap out=$recorded/there
    mkdir -p "$recorded/machine"
    cat >"$recorded/ssh" <<END_OF_FILE
#!/bin/bash
while [[ \$1 == -* ]]; do if [[ \$1 == -l ]]; then shift; fi; shift; done
shift
if [[ \$1 == -- ]]; then shift; fi
cd '$recorded/machine' || exit 1
HOME=\$PWD SHELL=/bin/bash exec bash -c "\$*"
END_OF_FILE
    chmod +x "$recorded/ssh"
    campaign "$a,$b" "$recorded/one.list" --out "$out" --pages --transfer \
        --sshlogin "1/$recorded/ssh one"
    tell 'a pair is copied to another machine, and its page back' "$(
        is_status 0
        wants_text "$(column_of "$out/campaign.csv" 1)" '2 2' 'frames'
        wants_text "$(json_of "$out/runs/1/stdout" '[file[1] for file in r["run"]["files"]]')" \
            "['./base.toml', './one.A.pcap', './one.B.pcap']" 'files'
        wants_page "$out/pages/1/report.html"
    )"
    printf '#!/bin/bash\n' >"$recorded/silent"
    chmod +x "$recorded/silent"
    campaign "$recorded/one.list" --out "$out" --sshlogin "1/$recorded/silent one"
    tell 'a machine that answers nothing' "$(is_status 4; says out 'no answer')"
    campaign "$a,$b" "$a,$a" --out "$out" --transfer --sshlogin "1/$recorded/ssh one"
    tell 'transfer wants two names for a pair' "$(is_status 2; says err 'than one another')"
}

mkdir -p "$recorded"
if [[ -z $reporting || -z $dpkt || $reads != *list* ]]; then
    skip 'reports on recordings' 'there is no program that lists them, no numpy, or no dpkt'
else
    one_tests
    one_fault_tests
    numbers_test
    handed_on_tests
    if [[ $reads == *reorder* ]]; then
        order_tests
    else
        skip 'recordings out of order' 'the program puts none in order yet (tests/lib/reads.py)'
    fi
fi
if [[ -z $reporting || -z $dpkt || $reads != *two* ]]; then
    skip 'two recordings at once' 'the program takes no two yet (tests/lib/reads.py), or as above'
else
    two_tests
    two_fault_tests
    if has parallel; then
        recorded_campaign_tests
        if has rsync; then
            transfer_tests
        else
            skip 'pairs on other machines' 'there is no rsync (apt-get install rsync)'
        fi
    else
        skip 'campaigns of recordings' 'there is no GNU parallel (apt-get install parallel)'
    fi
fi
