# Tests of tools/afdx-report --conform; a part of tests/run/tools.sh.
# shellcheck shell=bash
# shellcheck disable=SC2154  # what it uses is set by tests/run/tools.sh, which sources it

judged=$work/judged
mkdir "$judged"
one=$(head -n 1 examples/one_link.list | cut -d ' ' -f 5)

# Lists of one frame that came and left at these times.
came_and_left() { # CAME LEFT
    for time in $1; do echo "F $time A 1 $one"; done >"$judged/came.list"
    for time in $2; do echo "F $time A 3 $one"; done >"$judged/left.list"
}

judge() { # WORD..
    launch tools/afdx-report --conform "$@" examples/base.toml "$judged/came.list" \
        "$judged/left.list" --out "$judged/out"
}

conformance_tests() {
    local json=$judged/out/report.json
    came_and_left '0 500000' '6720 506720'
    mkdir "$judged/out"
    touch "$judged/out/silences.csv" # of an older report
    judge
    tell 'a recorded switch that conforms' "$(
        is_status 0
        says out 'verdict     conforms'
        says out 'account     no answer was left open beside 2 explained frames'
        wants_number "$json" 'r["totals"]["explained"], r["totals"]["measured"]' '(2, 2)'
        wants_number "$json" 'r["streams"][0]["greatest_ns"], r["streams"][0]["bound_ns"]' \
            '(6720, 16800)'
        if [[ -e $judged/out/silences.csv ]]; then echo 'a table of an older report stays'; fi
        wants_page "$judged/out/report.html"
    )"
    tell 'streams that are idle' "$(
        says out 'idle        3'
        wants_number "$json" '[(s["link"], s["side"], s["came"]) for s in r["idle"]]' \
            "[(1, 'B', 0), (2, 'A', 0), (2, 'B', 0)]"
        if [[ $(wc -l <"$judged/out/idle.csv") -ne 4 ]]; then cat "$judged/out/idle.csv"; fi
    )"
    came_and_left '0 499999 3000000' '6720 506719 3017001'
    judge --junit "$judged/junit.xml" --title 'Bench 7'
    tell 'a recorded switch that deviates' "$(
        is_status 5
        says out 'finding     passed: line 2 of CAME at 499999 ns, link 1, port 3 (s3) of A'
        says out 'finding     late: line 3 of CAME at 3000000 ns, link 1, port 3 (s3) of A, by 1 ns'
        wants_number "$json" 'r["verdict"], r["totals"]["passed"], r["totals"]["late"]' \
            "('deviates 2', 1, 1)"
        wants_number "$json" 'r["streams"][0]["late"], r["run"]["title"]' "(1, 'Bench 7')"
        wants_cases "$judged/junit.xml" '2 0 1'
        "$python" tests/tools/html_access.py "$judged/out/report.html"
        "$python" tests/tools/html_tags.py "$judged/out/report.html"
    )"
    came_and_left '0 500000' 6720
    judge --until 600000 --asked 1
    tell 'options are handed on' "$(
        is_status 0
        says out 'account     1 answer was left open beside 1 explained frame (100.0%)'
        says out 'little was shown'
    )"
    came_and_left 0 6720
    echo 'F 0 A' >>"$judged/left.list"
    judge
    tell 'a list with a fault is not measured' "$(
        is_status 3
        says err 'list left BadLine 2'
        wants_number "$json" 'r["fault"], r["streams"], r["idle"]' \
            "('list left BadLine 2', [], [])"
        wants_page "$judged/out/report.html"
    )"
}

numbered() { # NUMBER : the frame with this sequence number
    printf '%s%02x' "${one%??}" "$1"
}

# Frames with these numbers, one each 500 us, which left 7 us later.
came_and_left_numbered() { # CAME LEFT
    for number in $1; do
        echo "F $((number * 500000)) A 1 $(numbered "$number")"
    done >"$judged/came.list"
    for number in $2; do
        echo "F $((number * 500000 + 7000)) A 3 $(numbered "$number")"
    done >"$judged/left.list"
}

telling_tests() {
    local json=$judged/out/report.json
    came_and_left_numbered '16 18 19' '16 17 18 19'
    judge
    tell 'what the numbers say of a frame that a recorder lost' "$(
        is_status 5
        says out "A: no-arrival; number 17 left and never came: the recorder's"
    )"
    came_and_left_numbered '16 17 18' '16 18'
    judge
    tell 'what they say of one that never left' "$(
        is_status 5
        says out 'link 1, port 3 (s3) of A; number 17 came, and never left here'
    )"
    came_and_left_numbered "$(seq 1 40)" "$(seq 1 40)"
    awk '{ print; $2 += 7000; print }' "$judged/left.list" >"$judged/twice.list"
    mv "$judged/twice.list" "$judged/left.list"
    judge
    tell 'many findings: the first of a stream, and how many are of a kind' "$(
        is_status 5
        if [[ $(grep -c '^finding ' "$work/out") -ne 1 ]]; then grep '^finding ' "$work/out"; fi
        says out 'in all      40 frames of link 1 at port 3 of A left twice'
        wants_number "$json" '[(g["findings"], g["what"]) for g in r["groups"]]' \
            "[(40, 'strange'), (19, 'passed')]"
        wants_page "$judged/out/report.html"
    )"
    echo 'F 1 A 3 00' >>"$judged/left.list"
    judge
    tell 'what stands before a fault is no verdict' "$(
        is_status 3
        sed -n 3,4p "$work/out" >"$work/got"
        printf '%s\n' 'fault       list left TimeBack 81' \
            'verdict     none: the 58 findings before it are no verdict.' >"$work/wanted"
        same "$work/wanted" "$work/got"
        if ! grep -qF 'There is no verdict: the 58 findings' "$judged/out/report.html"; then
            echo 'the page does not say so'
        fi
    )"
}

# Recordings of what `came_and_left` made: came.pcap, left.pcap, and both in run.pcapng.
record_both() {
    for part in came left; do
        launch tools/afdx-capture pcap --fcs no "$judged/$part.list" "$judged/$part.pcap"
    done
    mergecap -I none -w "$judged/run.pcapng" "$judged/came.pcap" "$judged/left.pcap"
}

judge_recorded() { # WORD.. -- RECORDING..
    local words=()
    while [[ $1 != -- ]]; do words+=("$1"); shift; done
    launch tools/afdx-report --conform "${words[@]}" examples/base.toml "${@:2}" --out "$judged/out"
}

recording_tests() {
    local json=$judged/out/report.json places='"-".join(r["run"]["taps"])'
    came_and_left '0 499999 3000000' '6720 506719 3017001'
    record_both
    judge_recorded --interface 0=A:1 --left 1=A:3 -- "$judged/run.pcapng"
    tell 'a recording of a switch that deviates' "$(
        is_status 5
        says out 'finding     passed: frame 3 at 499999 ns, link 1, port 3 (s3) of A: over-rate'
        says out 'finding     late: frame 5 at 3000000 ns, link 1, port 3 (s3) of A, by 1 ns'
        says out 'what came in at B:1'
        says out '0 not-afdx'
        wants_number "$json" 'r["totals"]["unseen"], len(r["unseen"])' '(3, 3)'
        wants_number "$json" 'r["deviations"][0]["interface"], r["run"]["time_0"]' \
            "(0, '1970-01-01 00:00:00.000000000 UTC')"
        wants_number "$json" "$places" '0=A:1-left 1=A:3'
        wants_number "$json" 'r["streams"][0]["greatest_ns"]' 17001
        wants_page "$judged/out/report.html"
        "$python" tests/tools/html_access.py "$judged/out/report.html"
        "$python" tests/tools/html_tags.py "$judged/out/report.html"
    )"
    printf 'interface,side,port,direction\n#0,A,1,in\n#1,A,3,out\n' >"$judged/taps.csv"
    judge_recorded --taps "$judged/taps.csv" -- "$judged/run.pcapng"
    tell 'places by a table of taps' "$(
        is_status 5
        wants_number "$json" "$places" '0=A:1-left 1=A:3'
    )"
    judge_recorded --taps "$judged/taps.csv" -- "$judged/came.pcap" "$judged/left.pcap"
    tell 'a table of taps is of one recording' "$(is_status 2; says err 'one recording')"
    judge_recorded --interface 0=A:1 --left 0=A:3 -- "$judged/came.pcap" "$judged/left.pcap"
    tell 'two recordings of it' "$(
        is_status 5
        says out 'finding     passed: frame 2 of CAME at 499999 ns'
        wants_number "$json" 'list(r["skipped"])' "['CAME', 'LEFT']"
    )"
    came_and_left 0 1600
    record_both
    judge_recorded --interface 0=A:1 --left 1=A:3 --stamps end-start -- "$judged/run.pcapng"
    tell 'stamps of first bits where frames leave' "$(
        is_status 0
        wants_number "$json" 'r["streams"][0]["greatest_ns"]' 6720
    )"
    judge_recorded --interface 0=A:1 --left 1=B:3 -- "$judged/run.pcapng"
    tell 'a side on which what came was not recorded' "$(
        is_status 3
        says out 'verdict     undecided'
        wants_number "$json" 'r["streams"], r["totals"]["left_out"], len(r["unseen"])' '([], 1, 4)'
    )"
}

# A report on a right switch whose recorders have such clocks.
judge_stamps() { # NAME=NUMBER.. [-- WORD..]
    local words=()
    while [[ $# -gt 0 && $1 != -- ]]; do words+=("$1"); shift; done
    "$python" tests/tools/stamped_recording.py "$judged/stamps.pcapng" "${words[@]}"
    judge_recorded --interface 0=A:1 --interface 1=A:2 --left 2=A:3 "${@:2}" -- \
        "$judged/stamps.pcapng"
}

option_of() { # NAME : the value that the report proposes
    json_of "$judged/out/report.json" "[r['value'] for r in r['options'] if r['option'] == '$1']"
}

stamp_tests() {
    local slack
    judge_stamps
    tell 'exact stamps ask for no option' "$(
        is_status 0
        says out 'option      --slack 0 (as given): stamps have steps of 1 ns'
        says out 'option      --drift 0 (as given): '
        wants_page "$judged/out/report.html"
    )"
    judge_stamps step=8 -- --slack 100000
    tell 'a wider slack than stamps of 8 ns ask for' "$(
        is_status 0
        says out 'option      --slack 4 (100000 was given, which is more): stamps of what came in'
    )"
    judge_stamps digits=6
    tell 'stamps in us ask for half of one' "$(says out 'option      --slack 500: stamps of what')"
    judge_stamps late=20000
    slack=$(option_of --slack)
    slack=${slack//[^0-9]/}
    tell 'late stamps ask for a slack' "$(
        is_status 5
        says out "option      --slack $slack: a frame seems to leave"
    )"
    judge_stamps late=20000 -- --slack "$slack"
    tell 'with it the switch conforms' "$(
        is_status 0
        says out "option      --slack $slack (as given): "
        wants_page "$judged/out/report.html"
    )"
    judge_stamps behind=3000
    tell 'a clock that is behind' "$(
        is_status 5
        says out '--between 2040: the clock of what left is behind that of what came, from A:1'
        says out 'editcap -t 0.000002040'
        says out 'option      --slack 0 (as given): '
    )"
    judge_stamps behind=3000 -- --between 2040
    tell 'with what it is behind the switch conforms' "$(
        is_status 0
        says out 'option      --between 2040 (as given): '
    )"
    judge_stamps ppm=50
    tell 'clocks that go apart' "$(
        says out 'option      --drift 51: left less came grows by 50.1 ns each ms'
        wants_number "$judged/out/report.json" 'r["offsets"][0]["slope_ppm"]' 50.1
    )"
    judge_stamps back=100 -- --reorder 10
    tell 'frames that stand further back than the program looks' "$(
        is_status 3
        says out 'verdict     none: the finding before it is no verdict: with a greater --reorder'
        says out 'option      --reorder 50 (10 was given): a frame stands behind 50 frames'
    )"
    judge_stamps back=100 -- --reorder 50
    tell 'as far back as it says' "$(is_status 0; says out 'verdict     conforms')"
}

# One message on both networks at these times, of which the copy on B comes so much later; what came
# of it left 6,720 ns later.
sent_and_left() { # TIMES BEHIND
    local time twin=${one/020000000120/020000000140}
    for time in $1; do
        printf 'F %d A 1 %s\nF %d B 1 %s\n' "$time" "$one" "$((time + $2))" "$twin"
    done >"$judged/came.list"
    awk '{ $2 += 6720; $4 = 3; print }' "$judged/came.list" >"$judged/left.list"
}

senders_tests() {
    local json=$judged/out/report.json sums='r["of_senders"]["totals"]'
    sent_and_left 0 300
    judge --senders
    tell 'a switch and its senders' "$(
        is_status 0
        says out 'verdict     conforms'
        says out 'switch      conforms'
        says out 'senders     conforms'
        says out 'together    No sender left the law. The switch conforms. The tables are admitted,'
        says out 'each receiver that keeps the rules, from a reset on, got each message'
        wants_number "$json" "${sums}['sent'], ${sums}['alone']" '(2, 0)'
        wants_number "$json" '[s["sent"] for s in r["senders"]]' '[2, 0]'
        wants_number "$json" '{p["holds"] for p in r["premises"]}' "{'yes'}"
        wants_page "$judged/out/report.html"
    )"
    sent_and_left '0 499999' 988781
    sed -n '/ A /{s/ 1 / 2 /; s/499999/999999/; p}' "$judged/came.list" >"$judged/others.list"
    sort -k 2,2n -o "$judged/came.list" "$judged/came.list" "$judged/others.list"
    sort -k 2,2n -o "$judged/left.list" "$judged/left.list"
    printf 'title = "Bench 7"\n' >"$judged/cover.toml"
    judge --senders --slack 10 --junit "$judged/junit.xml" --cover "$judged/cover.toml"
    tell 'senders that left the law' "$(
        is_status 5
        says out 'finding     number: line 3 at 499999 ns, link 1, port 1 (s1) of A: 1 was next'
        says out 'finding     unlawful: line 2 at 0 ns, link 1, port 2 (s2) of A: not-its-link'
        says out 'finding     apart: line 4 at 988781 ns, link 1, port 1 (s1) of B, by 21 ns'
        says out 'together    Senders left the law: '
        wants_number "$json" "sum(s['sent'] for s in r['senders']) - ${sums}['sent']" 0
        wants_number "$json" 'len(r["deviations"] + r["sender_deviations"]) - int(
            r["verdict"].split()[1])' 0
        wants_number "$json" '[(s["link"], s["system"]) for s in r["senders"] if s["amiss"]]' \
            "[(1, 's1'), (1, 's2')]"
        wants_number "$json" '[s["reasons"] for s in r["senders"] if s["reasons"]]' \
            "[{'not-its-link': 2}]"
        wants_cases "$judged/junit.xml" '3 0 1'
        grep -qF '<caption>Answers</caption>' "$judged/out/report.html" || echo 'no answers'
        wants_page "$judged/out/report.html"
        "$python" tests/tools/html_tags.py "$judged/out/report.html"
    )"
    launch tools/afdx-report --conform --senders examples/base.toml "$judged/came.list" \
        --junit "$judged/junit.xml" --out "$judged/out"
    tell 'senders alone' "$(
        is_status 5
        says out 'senders     deviates '
        says out 'together    Senders left the law: '
        says out 'No switch was judged.'
        wants_number "$json" 'r["verdict"], r["fault"], "premises" in r' "('', '', False)"
        wants_number "$json" "sum(s['sent'] for s in r['senders']) - ${sums}['sent']" 0
        wants_number "$json" 'r["run"]["files"][1][0]' CAME
        wants_cases "$judged/junit.xml" '2 0 1'
        wants_page "$judged/out/report.html"
        if [[ -e $judged/out/streams.csv ]]; then echo 'there is a table of a switch'; fi
        "$python" tests/tools/html_tags.py "$judged/out/report.html"
    )"
    echo 'F 0 A' >"$judged/none.list"
    launch tools/afdx-report --conform --senders examples/base.toml "$judged/none.list" \
        --out "$judged/out"
    tell 'senders alone, of a list with a fault' "$(
        is_status 3
        wants_text "$(cat "$work/err")" 'afdx-report: list came BadLine 1' 'the fault'
        says out 'senders     none: list came BadLine 1'
    )"
    sent_and_left 0 0
    judge
    tell 'nothing is said of senders where nobody asks' "$(
        is_status 0
        wants_number "$json" '[name for name in r if "sender" in name or name == "premises"]' '[]'
        if grep -qi sender "$judged/out/report.html" "$work/out"; then echo 'it says something'; fi
        if [[ -e $judged/out/senders.csv ]]; then echo 'a table of an older report stays'; fi
    )"
    echo 'F 0 A' >>"$judged/left.list"
    judge --senders
    tell 'senders beside a list with a fault' "$(
        is_status 3
        wants_text "$(cat "$work/err")" 'afdx-report: list left BadLine 3' 'the fault'
        says out 'senders     none: list left BadLine 3'
        says out 'together    There is no verdict: list left BadLine 3.'
        wants_number "$json" 'r["senders"], r["of_senders"]["switch"]' "([], '')"
    )"
    judge --apart 1
    tell 'a distance of copies without senders' "$(is_status 2; says err 'with --senders only')"
    launch tools/afdx-report --senders examples/base.toml examples/one_link.list
    tell 'senders of a replay' "$(is_status 2; says err '--senders is an option with --conform')"
}

# Both copies of a frame have the number of the one before, and the switch stops them; then one
# leaves that never came.
both_amiss_tests() {
    local json=$judged/out/report.json
    sent_and_left '0 1000000' 0
    sed -i '3,4d' "$judged/left.list"
    echo "F 3000000 A 3 $one" >>"$judged/left.list"
    judge --senders --junit "$judged/junit.xml" --cover "$judged/cover.toml"
    tell 'a switch and its senders, both amiss' "$(
        is_status 5
        says out 'verdict     deviates 5'
        says out 'switch      deviates 3'
        says out 'senders     deviates 2'
        says out 'together    Senders left the law: 2 findings. The switch deviates: 3 findings.'
        wants_number "$json" 'r["status"], r["of_senders"]["status"], r["of_senders"]["switch"]' \
            "(5, 5, 'deviates 3')"
        wants_cases "$judged/junit.xml" '3 0 2'
    )"
}

# What s1 sends at the switch fwd, to which s2's frames come by a cable.
senders_at_tests() {
    local json=$judged/out/report.json
    awk '{ $4 = 24; $2 += 13440; print }' "$judged/came.list" >"$judged/left.list"
    launch tools/afdx-report --conform --senders --switch fwd examples/two_switches.toml \
        "$judged/came.list" "$judged/left.list" --out "$judged/out"
    tell 'senders at one of several switches' "$(
        is_status 0
        says out "doesn't follow, since this isn't so: there is one switch a side (--switch fwd)."
        wants_number "$json" '[(s["switch"], s["system"], s["sent"]) for s in r["senders"]]' \
            "[('fwd', 's1', 2)]"
        wants_number "$json" '[p["found"] for p in r["premises"] if p["holds"] == "no"]' \
            "['--switch fwd']"
    )"
}

# Recorded are what came in on A and on B, and what left on A, at first a frame that nobody sent.
recorded_senders_tests() {
    local json=$judged/out/report.json side
    local places=(--interface '0=A:1' --interface '1=B:1' --left '2=A:3')
    sent_and_left '1000000 3000000' 300
    for side in A B; do grep " $side " "$judged/came.list" >"$judged/$side.list"; done
    { echo "F 0 A 3 $one"; grep ' A ' "$judged/left.list"; } >"$judged/out.list"
    for side in A B out; do
        launch tools/afdx-capture pcap --fcs no "$judged/$side.list" "$judged/$side.pcap"
    done
    mergecap -I none -w "$judged/run.pcapng" "$judged"/{A,B,out}.pcap
    judge_recorded --senders "${places[@]}" --from 500000 --until 2500000 -- "$judged/run.pcapng"
    tell 'recorded senders, with times that count from what left first' "$(
        is_status 0
        says out 'senders     conforms'
        says out "each message came once and in order doesn't follow, since this isn't so: "
        wants_number "$json" 'r["totals"]["explained"], r["of_senders"]["totals"]["sent"]' '(1, 2)'
        wants_number "$json" '[p["found"] for p in r["premises"] if p["holds"] == "no"]' \
            "['unseen 3', 'alone 1', '--from 500000']"
    )"
    printf 'interface,side,port,direction\n#0,A,1,in\n#1,B,1,in\n#2,A,3,out\n' >"$judged/taps.csv"
    judge_recorded --senders --taps "$judged/taps.csv" --from 500000 -- "$judged/run.pcapng"
    tell 'a finding of a recorded sender has its interface and stamp' "$(
        is_status 5
        says out 'finding     number: frame 6 at 3000300 ns, link 1, port 1 (s1) of B: 1 was next'
        wants_number "$json" '[(d["line"], d["interface"], d["stamp"][-18:])
            for d in r["sender_deviations"] if d["side"] == "B"]' "[(6, 1, '00:00:00.003000300')]"
    )"
    judge_recorded --senders --interface 0=A:1 --interface 1=B:1 -- "$judged/run.pcapng"
    tell 'recorded senders alone' "$(
        is_status 5
        wants_number "$json" '[s["networks"] for s in r["senders"]]' "['AB']"
        wants_number "$json" '[d["line"] for d in r["sender_deviations"]]' '[5, 6]'
    )"
    judge_recorded --senders --interface 0=A:1 --left 0=A:3 --from 500000 -- "$judged/A.pcap" \
        "$judged/out.pcap"
    tell 'senders of one of two recordings' "$(
        is_status 5
        wants_number "$json" '[s["networks"] for s in r["senders"]]' "['A']"
    )"
}

refused_words() {
    came_and_left 0 6720
    judge --origin 0
    tell 'options of replays are refused' "$(is_status 2; says err '--origin')"
    launch tools/afdx-report --slack 1 examples/base.toml examples/one_link.list
    tell 'options of conform are refused for a replay' "$(is_status 2; says err '--slack')"
    launch tools/afdx-report --conform examples/base.toml "$judged/came.list"
    tell 'a recorded switch has two lists' "$(is_status 2; says err 'CAME and LEFT')"
    printf '\xd4\xc3\xb2\xa1' >"$judged/left.list"
    judge
    tell 'of a recording interfaces are said' "$(is_status 2; says err '--interface and --left')"
}

if [[ -z $reporting ]]; then
    skip 'afdx-report --conform' "there is no program, or no package numpy"
elif "$program" conform --help >"$judged/help" 2>&1; then
    conformance_tests
    telling_tests
    if grep -qF -- --senders "$judged/help"; then
        senders_tests
        both_amiss_tests
        sent_and_left 0 300
        launch "$program" conform --senders --switch fwd examples/two_switches.toml \
            "$judged/came.list"
        if [[ $status -eq 2 ]]; then
            skip 'senders at one of several switches' 'conform judges none'
        else
            senders_at_tests
        fi
    else
        skip 'afdx-report --conform --senders' 'conform judges no senders'
    fi
    if ! grep -qF -- --left "$judged/help"; then
        skip 'afdx-report --conform on recordings' 'conform takes no recordings'
    elif [[ -n $dpkt ]] && has mergecap; then
        recording_tests
        stamp_tests
        if grep -qF -- --senders "$judged/help"; then recorded_senders_tests; fi
    else
        skip 'afdx-report --conform on recordings' 'there is no package dpkt, or no mergecap'
    fi
    refused_words
else
    came_and_left 0 6720
    judge
    tell 'a program without conform' "$(is_status 2; says err 'this program has no conform')"
    skip 'afdx-report --conform' 'the program has no conform'
    refused_words
fi
