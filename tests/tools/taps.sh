# Tests of tools/afdx-taps; a part of tests/run/tools.sh.
# shellcheck shell=bash
# shellcheck disable=SC2154  # what it uses is set by tests/run/tools.sh, which sources it

tapped=$work/tapped

tap() { # NAME WORD.. : a recording of that name
    "$python" tests/tools/tapped_recording.py "$tapped/$1" "${@:2}"
}

taps() { # [OPTION..] RECORDING.. : by the table taps.csv
    launch env -C "$tapped" "$top/tools/afdx-taps" net.toml taps.csv "$@"
}

words_are() { # WORD.. : of the program, and nothing is said
    is_status 0
    text_is out "$(printf -- '--interface=%s\n' "$@")"$'\n'
    text_is err ''
}

says_all() { # LINE.. : on standard error
    text_is err "$(printf 'afdx-taps: %s\n' "$@")"$'\n'
}

disagrees() { # LINE.. : status 3, and a word that the program refuses
    is_status 3
    text_is out $'--interface=refused\n'
    says_all "$@"
}

set_taps() { # ROW.. : the table
    printf '%s\n' interface,side,port,direction "$@" >"$tapped/taps.csv"
}

set_usual() {
    set_taps eth1,A,1,in eth2,A,2,in eth3,A,3,in eth4,A,3,out eth5,B,1,in eth6,B,2,in eth7,B,3,in \
        mgmt,,,none
}

sound_taps_tests() {
    set_usual
    tap A.pcapng eth1=17A,17A mgmt=17A,x eth2=33A,x eth4=17A,33A eth3=49A
    tap B.pcapng eth7=49B eth6=33B eth5=17B
    taps A.pcapng
    tell 'places of interfaces by their names' "$(
        is_status 0
        text_is out '--interface=0=A:1
--interface=1=-
--interface=2=A:2
--interface=3=-
--interface=4=A:3
'
        says_all 'A.pcapng: no interface of side B is in it'
    )"
    taps --conform A.pcapng
    tell 'words of conform: what came, what left' "$(
        is_status 0
        text_is out $'--interface=0=A:1\n--interface=2=A:2\n--left=3=A:3\n--interface=4=A:3\n'
    )"
    taps --senders A.pcapng
    tell 'words of senders alone: what came' "$(
        is_status 0
        text_is out $'--senders\n--interface=0=A:1\n--interface=2=A:2\n--interface=4=A:3\n'
    )"
    taps --conform --senders A.pcapng
    tell 'words of a switch and its senders: what came, what left' "$(
        is_status 0
        text_is out $'--senders\n--interface=0=A:1\n--interface=2=A:2\n--left=3=A:3\n'"\
--interface=4=A:3"$'\n'
    )"
    taps --conform A.pcapng A.pcapng
    tell 'words of conform are of one recording' "$(is_status 2; says err 'one recording')"
    taps --senders A.pcapng A.pcapng
    tell 'words of senders are of one recording' "$(
        is_status 2
        text_is out $'--interface=refused\n'
        says err '--senders takes one recording'
    )"
    set_taps eth1,A,1,in mgmt,,,none
    tap in.pcapng eth1=17A mgmt=17A
    taps --conform --senders in.pcapng
    tell 'words of a switch and its senders where nothing left' "$(
        is_status 0
        text_is out $'--senders\n--interface=0=A:1\n'
        says err 'no interface goes out: these words judge the systems alone'
    )"
    set_taps eth1,A,1,out mgmt,,,none
    tap out.pcapng eth1=33A mgmt=17A
    for word in --conform ''; do
        taps $word --senders out.pcapng
        tell "words of senders where nothing came${word:+, beside the switch}" "$(
            disagrees 'no interface goes in: nothing that systems sent was recorded'
        )"
    done
    taps --conform out.pcapng
    tell 'words of conform where nothing came' "$(
        is_status 0
        text_is out $'--left=0=A:1\n'
    )"
    set_usual
    tap A.pcapng eth3=49A eth2=33A eth1=17A mgmt= eth4=17A
    taps A.pcapng B.pcapng
    tell 'places in two recordings' "$(
        words_are 0=A:3 0=B:3 1=A:2 1=B:2 2=A:1 2=B:1 3=- 4=-
    )"
    set_taps eth1,A,1,in eth2,A,2,in eth3,A,3,in eth1,B,1,in eth2,B,2,in eth3,B,3,in
    tap A.pcapng eth1=17A eth2=33A eth3=49A
    tap B.pcapng eth2=33B eth1=17B eth3=49B
    taps A.pcapng B.pcapng
    tell 'two recorders whose interfaces have the same names' "$(
        words_are 0=A:1 0=B:2 1=A:2 1=B:1 2=A:3 2=B:3
    )"
    set_taps '#0,b,3.0,In'
    tap one.pcap x=49B,49B
    taps one.pcap
    tell 'a pcap, whose interface has no name' "$(words_are 0=B:3)"
    set_taps eth1,A,1,in '#1,A,2,in' '#2,A,3,in'
    tap same.pcapng eth1=17A eth1=33A =49A
    taps same.pcapng
    tell 'names that two interfaces have, or none' "$(words_are 0=A:1 1=A:2 2=A:3)"
    set_taps eth1,A,1,in eth2,A,2,in
    tap two.pcapng eth1=17A eth2=33A / eth1=17A eth2= / eth1=
    taps two.pcapng
    tell 'sections of the same interfaces' "$(words_are 0=A:1 1=A:2)"
}

told_taps_tests() {
    set_usual
    set_taps eth1,A,1,in eth2,A,2,in eth3,A,3,in eth4,A,3,out
    tap run.pcapng eth1=17A eth2=33A,17A,33A,17A,33B,5A,33C,49A eth3= eth4=17A,49A
    taps run.pcapng
    tell 'what only some frames contradict is told; so is silence' "$(
        is_status 0
        text_is out "$(printf -- '--interface=%s\n' 0=A:1 1=A:2 2=A:3 3=-)"$'\n'
        says_all "run.pcapng: interface 1 (eth2) is A:2 in by taps.csv line 3, and 6 of its 8 \
AFDX frames name A:1 (adc), B:2 (fcc), no place (02:00:00:00:05:20) and 2 others; the first is \
number 3" 'run.pcapng: interface 2 (eth3) is A:3 in by taps.csv line 4, and has no AFDX frame' \
            "run.pcapng: interface 3 (eth4) is A:3 out by taps.csv line 5, and 1 of its 2 AFDX \
frames name A:3 (disp); the first is number 11"
    )"
    set_taps eth1,A,1,in eth2,A,4,in
    tap run.pcapng eth1=17A eth2=17A
    taps run.pcapng
    tell 'frames at a port without a system name another place, whatever the plug' "$(
        is_status 0
        text_is out "$(printf -- '--interface=%s\n' 0=A:1 1=A:4)"$'\n'
        says_all "run.pcapng: interface 1 (eth2) is A:4 in by taps.csv line 3, and 1 of its 1 \
AFDX frames name A:1 (adc); the first is number 2"
    )"
    set_taps eth1,A,1,in eth2,A,2,in eth3,A,3,in
    tap run.pcapng eth1=49A eth2=33A eth3=49A
    taps run.pcapng
    tell 'a system that sends as another one, and never as itself' "$(
        is_status 0
        says_all "run.pcapng: interface 0 (eth1) is A:1 in by taps.csv line 2, and 1 of its 1 \
AFDX frames name A:3 (disp); the first is number 1"
    )"
    set_taps eth1,A,1,in eth2,A,2,in eth3,A,3,in eth4,A,3,out
    tap run.pcapng eth1=17A,33A eth2=33A,17A,49A eth3=49A eth4=17A
    taps run.pcapng
    tell 'frames that could come out there' "$(
        is_status 0
        says_all "run.pcapng: interface 0 (eth1) is A:1 in by taps.csv line 2, and 1 of its 2 \
AFDX frames name A:2 (fcc); the first is number 2. Such frames come out there: were both \
directions recorded?" "run.pcapng: interface 1 (eth2) is A:2 in by taps.csv line 3, and 2 of its 3 \
AFDX frames name A:1 (adc), A:3 (disp); the first is number 4. Such frames come out there: were \
both directions recorded?"
    )"
}

wrong_place_tests() {
    local wrong='is A:1 in by taps.csv line 2, and 2 of its 2 AFDX frames name'
    local given_as_a='B.pcapng is given as the recording of A, and 3 of its 3 AFDX frames name '
    given_as_a+='side B, none A'
    set_usual
    tap A.pcapng eth1=17A,17A eth2=33A eth3=49A eth4=17A
    tap B.pcapng eth5=17B eth6=33B eth7=49B
    taps B.pcapng A.pcapng
    tell "A's recording given as B's" "$(
        disagrees "$given_as_a" "A.pcapng is given as the recording of B, and 5 of its 5 AFDX \
frames name side A, none B"
    )"
    taps A.pcapng B.pcapng
    tell 'each as what it is' "$(is_status 0)"
    tap A.pcapng eth1= eth2= eth3= eth4=
    taps B.pcapng A.pcapng
    tell "A's recording given as B's, without a frame" "$(
        disagrees "$given_as_a" \
            'A.pcapng is given as the recording of B, and the table has its interfaces on A'
    )"
    tap A.pcapng eth1=17A,17A eth2=33A eth3=49A eth4=17A
    cp "$tapped/A.pcapng" "$tapped/copy.pcapng"
    taps A.pcapng copy.pcapng
    tell 'the same recording twice' "$(disagrees 'A.pcapng and copy.pcapng are the same recording')"
    taps A.pcapng A.pcapng
    tell 'the same file twice' "$(disagrees 'A.pcapng and A.pcapng are the same recording')"
    set_taps eth1,A,1,in eth2,A,2,in eth3,A,3,in eth4,A,3,out
    tap run.pcapng eth1=17B,17B eth2=33A eth3=49A eth4=17A
    taps run.pcapng
    tell 'a tap of the other network' "$(
        disagrees "run.pcapng: interface 0 (eth1) $wrong B:1 (adc); the first is number 1"
    )"
    tap run.pcapng eth1=33A,33A eth2=17A eth3=49A eth4=17A
    taps run.pcapng
    tell 'two plugs that are crossed' "$(
        disagrees "run.pcapng: interface 0 (eth1) $wrong A:2 (fcc); the first is number 1" \
            "run.pcapng: interface 1 (eth2) is A:2 in by taps.csv line 3, and 1 of its 1 AFDX \
frames name A:1 (adc); the first is number 3"
    )"
    tap run.pcapng eth1=17A eth2=33A eth3=17A,33A eth4=
    taps run.pcapng
    tell 'the other direction of a tap' "$(
        is_status 3
        says err "eth3) is A:3 in by taps.csv line 4, and 2 of its 2 AFDX frames name A:1 (adc), \
A:2 (fcc); the first is number 3. Such frames come out there: was the other direction recorded?"
    )"
    tap run.pcapng eth1=17A eth2=33A eth3=17A,33A eth4=49A
    taps run.pcapng
    tell 'both directions of a tap that are crossed' "$(
        is_status 3
        says err '(eth3) is A:3 in by taps.csv line 4, and 2 of its 2 AFDX frames name'
        says err '(eth4) is A:3 out by taps.csv line 5, and 1 of its 1 AFDX frames name A:3 (disp)'
    )"
    taps --anyway run.pcapng
    tell 'the words all the same' "$(
        is_status 0
        text_is out "$(printf -- '--interface=%s\n' 0=A:1 1=A:2 2=A:3 3=-)"$'\n'
    )"
}

missing_taps_tests() {
    set_taps eth1,A,1,in eth2,A,2,in
    tap run.pcapng eth1=17A eth9=33A
    taps run.pcapng
    tell 'an interface without a row, a row without an interface' "$(
        disagrees "run.pcapng: interface 1 (eth9) has no row in the table; one named eth9 with \
direction none leaves it out" "taps.csv line 3: eth2 isn't in run.pcapng"
    )"
    tap run.pcapng eth1=17A =33A
    taps run.pcapng
    tell 'an interface without a name' "$(
        is_status 3
        says err 'interface 1 has no row in the table; one named #1 with direction none'
    )"
    tap run.pcapng eth1=17A eth1=17A eth2=33A
    taps run.pcapng
    tell 'two interfaces of one name' "$(
        disagrees "run.pcapng: interface 1 (eth1) has the name of another; a row #1 tells them \
apart"
    )"
    tap run.pcapng eth1=17A eth2=33A / eth2=33A eth1=17A
    taps run.pcapng
    tell 'sections whose interfaces stand otherwise' "$(
        is_status 3
        says err 'interface 0 (eth1) is eth2 in a later section of the file; mergecap makes one'
    )"
    set_taps eth1,A,1,in eth1,B,1,in
    tap run.pcapng eth1=17A
    taps run.pcapng
    tell 'a name on both sides, and one recording' "$(
        is_status 3
        says err 'interface 0 (eth1) is on both sides in the table; that takes a recording of each'
    )"
    set_taps eth1,A,1,out eth1,B,1,in
    tap A.pcapng eth1=33A
    tap B.pcapng eth1=17B
    taps A.pcapng B.pcapng
    tell 'an interface that only one recording leaves out' "$(
        is_status 3
        says err 'interface 0 is left out of one recording and not of the other'
    )"
}

table_tests() {
    local row
    tap run.pcapng eth1=17A
    while IFS='|' read -r row said; do
        set_taps eth9,A,9,in "$row"
        taps run.pcapng
        tell "a row with a fault: $row" "$(
            is_status 2
            text_is out $'--interface=refused\n'
            says_all "taps.csv line 3, $said"
        )"
    done <<'ROWS'
eth1,C,1,in|eth1: side C: it has to be A or B
eth1,A,0,in|eth1: port 0: it has to be a whole number from 1 to 24
eth1,A,25,in|eth1: port 25: it has to be a whole number from 1 to 24
eth1,A,1,both|eth1: direction both: it has to be in, out or none
eth9,A,1,in|eth9: interface eth9: taps.csv line 2 has it too
eth9,,,none|eth9: interface eth9: taps.csv line 2 has it too
eth1,A,9,in|eth1: port 9: taps.csv line 2 is A:9 in too
ROWS
    set_taps ,A,1,in eth1,D,30,out
    taps run.pcapng
    tell 'all faults of a table are told' "$(
        is_status 2
        wc -l <"$work/err" | grep -vx 3
        says err 'taps.csv line 2: interface (empty): it has to have a name'
    )"
    printf 'interface,side,port\neth1,A,1\n' >"$tapped/taps.csv"
    taps run.pcapng
    tell 'a table without directions' "$(
        is_status 2
        says_all 'taps.csv: no column is named direction'
    )"
}

file_taps_tests() {
    set_taps eth1,A,1,in
    launch env -C "$tapped" "$top/tools/afdx-taps" net.toml none.csv run.pcapng
    tell 'a table that is not there, of taps' "$(
        is_status 4
        text_is out $'--interface=refused\n'
        says err 'none.csv: No such file'
    )"
    taps none.pcapng
    tell 'a recording that is not there' "$(is_status 4; says err 'none.pcapng: No such file')"
    taps <(cat "$tapped/run.pcapng")
    tell 'a recording from a pipe, of afdx-taps' "$(is_status 2; says err 'to be read twice')"
    taps taps.csv
    tell 'a recording that is none' "$(
        disagrees 'taps.csv is no recording that has an interface'
    )"
    gzip -c "$tapped/run.pcapng" >"$tapped/run.pcapng.gz"
    taps run.pcapng.gz
    tell 'a recording that is packed' "$(
        disagrees 'run.pcapng.gz is a packed file: unpack it first'
    )"
    launch tools/afdx-taps
    tell 'words that are missing, of afdx-taps' "$(
        is_status 2
        text_is out $'--interface=refused\n'
    )"
    launch tools/afdx-taps --version
    tell 'no word where none was asked for' "$(is_status 0; grep refused "$work/out")"
}

reading_test() {
    launch "$python" tests/tools/read_interfaces.py 2000
    tell '2,000 recordings made at random are read as the reference does, changed ones too' "$(
        is_status 0
        head -n -1 "$work/out" | head -n 5
    )" "$(tail -n 1 "$work/out")"
}

# ---- the option of the tools ---------------------------------------------------------------

# The frames of these sides, at the interfaces where they came in. Those at port 11, all of another
# system, are left out.
annotated() { # NAME SIDES
    rm -f "$tapped/$1.pcapng" # annotate replaces no recording that it didn't write
    grep "^[FBR] [0-9]* [$2] " examples/bench.list | grep -v ' A 11 ' >"$tapped/$1.list"
    capture annotate --no-admission examples/network.toml "$tapped/$1.list" "$tapped/$1.pcapng"
}

bench_taps() { # a table of all places that examples/bench.list names
    echo interface,side,port,direction
    sed -n 's/^[FBR] [0-9]* \([AB]\) \([0-9]*\) .*/side \1 port \2,\1,\2,in/p' \
        "$tapped/whole.list" | sort -u
}

report_by() { # WORD.. : a report in the folder `by`, by the table bench.csv
    rm -rf "$tapped/by"
    launch tools/afdx-report examples/network.toml --taps "$tapped/bench.csv" --no-admission \
        --out "$tapped/by" "$@"
}

option_tests() {
    local whole=$tapped/whole.pcapng json=$tapped/by/report.json words
    annotated whole AB
    annotated A A
    annotated B B
    bench_taps >"$tapped/bench.csv"
    report_by "$whole"
    tell 'a report by a table of taps' "$(
        is_status 0
        wants_number "$json" 'r["skipped"]["claimed"]' 0
        wants_number "$json" 'r["totals"]["frames"] + sum(r["skipped"].values())' \
            "$(wc -l <"$tapped/whole.list")"
        wants_number "$json" 'r["taps"]["rows"][0]["direction"]' in
        wants_number "$json" 'sum(row["frames"] for row in r["taps"]["rows"]) > 50' True
    )"
    report_by "$tapped/A.pcapng" "$tapped/B.pcapng"
    tell 'a report on two recordings by a table of taps' "$(
        is_status 0
        wants_number "$json" 'r["skipped"]["claimed"]' 0
    )"
    {
        cat "$tapped/A.pcapng"
        printf '\1\0\0\0\x20\0\0\0\1\0\0\0\0\0\0\0\2\0\4\0mgmt\0\0\0\0\x20\0\0\0'
    } >"$tapped/more.pcapng"
    echo 'mgmt,,,none' >>"$tapped/bench.csv"
    report_by "$tapped/more.pcapng" "$tapped/B.pcapng" --fail-on unused
    tell 'an interface that one of two recordings has is no word for nothing' "$(is_status 0)"
    report_by "$tapped/B.pcapng" "$tapped/A.pcapng"
    tell 'recordings the other way round, in a report' "$(
        is_status 3
        says err "afdx-report: $tapped/B.pcapng is given as the recording of A, and"
        says err ' AFDX frames name side B, none A (and 1 more; afdx-taps says all)'
        wc -l <"$work/err" | grep -vx 1
        if [[ -e $tapped/by ]]; then echo 'there is a report'; fi
    )"
    report_by --interface 0=A "$whole"
    tell 'a table of taps beside --interface' "$(is_status 2; says err '--taps and --interface')"
    report_by <(cat "$whole")
    tell 'a recording from a pipe by a table of taps' "$(is_status 0; one_report)"
    capture list --config examples/network.toml "$whole" -o "$tapped/claimed.list"
    launch tools/afdx-capture list --config examples/network.toml --taps "$tapped/bench.csv" \
        "$whole" -o "$tapped/tapped.list"
    tell 'a list by a table of taps' "$(is_status 0; says err 'claimed 0')"
    mapfile -t words < <(tools/afdx-taps examples/network.toml "$tapped/bench.csv" "$whole")
    launch "$program" list "${words[@]}" examples/network.toml "$whole"
    tell 'the program takes the words of afdx-taps' "$(
        is_status 0
        same "$tapped/tapped.list" "$work/out"
        same <(grep -v '^#' "$tapped/whole.list" | cut -d ' ' -f 3,4) \
            <(cut -d ' ' -f 3,4 "$work/out")
    )"
    launch "$program" list --interface=refused examples/network.toml "$whole"
    tell 'the program refuses the word of a refusal' "$(
        is_status 2
        text_is err $'words BadInterface\n'
    )"
}

one_report() { # the table of taps is in the report
    wants_number "$tapped/by/report.json" 'len(r["taps"]["rows"]) > 4' True
}

campaign_taps_test() {
    launch tools/afdx-campaign examples/network.toml --taps "$tapped/bench.csv" --no-admission \
        "$tapped/whole.pcapng" "$tapped/A.pcapng,$tapped/B.pcapng" \
        "$tapped/B.pcapng,$tapped/A.pcapng" --out "$tapped/campaign"
    tell 'a campaign by a table of taps' "$(
        is_status 3
        wants_number "$tapped/campaign/runs/1/stdout" 'r["skipped"]["claimed"]' 0
        wants_number "$tapped/campaign/runs/2/stdout" 'r["skipped"]["claimed"]' 0
        grep -c 'as the recording of A' "$tapped/campaign/runs/3/stderr" | grep -vx 1
    )"
}

mkdir -p "$tapped"
cp examples/systems.csv examples/messages.csv "$tapped"
launch tools/afdx-icd examples/systems.csv examples/messages.csv "$tapped/net.toml"
if [[ -s $tapped/net.toml ]]; then
    sound_taps_tests
    told_taps_tests
    wrong_place_tests
    missing_taps_tests
    table_tests
    file_taps_tests
    reading_test
    if "$python" -c 'import dpkt' 2>/dev/null && [[ -n $reporting ]]; then
        option_tests
        if has parallel; then
            campaign_taps_test
        else
            skip 'a campaign by a table of taps' 'there is no GNU parallel'
        fi
    else
        skip 'the option --taps' 'there is no package dpkt, or no numpy'
    fi
else
    skip 'afdx-taps' 'there is no configuration'
fi
