# Tests of the tools with configurations, lists and recordings of several switches a side, reports
# apart; a part of tests/run/tools.sh.
# shellcheck shell=bash
# shellcheck disable=SC2154  # what it uses is set by tests/run/tools.sh, which sources it

several=$work/several

# ---- configurations ------------------------------------------------------------------------

filled_tests() {
    local two=examples/two_switches.toml low=$several/low.toml
    sed -E 's/^(latency_us =) [0-9]+/\1 1/; s/^(buffer =) [0-9]+/\1 64/
        s/^(jitter_us =) 5(17|21)/\1 0/' "$two" >"$low"
    fill "$low"
    tell 'filled: a configuration of several switches' "$(
        is_status 0
        is_solved "$low"
        is_kept "$low"
        says err 'vl 2 at fwd 1: 7137 ns needed, 1 us asked'
    )"
    fill --keep jitter "$low"
    tell 'what cannot be admitted' "$(is_status 1; says err 'no B3 fwd 2 517')"
    sed -E "/^($solved_keys) =/d" "$two" >"$several/bare.toml"
    fill "$several/bare.toml"
    tell 'filled: absent keys' "$(is_status 0; is_solved "$several/bare.toml")"
    inline_of "$low" >"$several/inline.toml"
    fill "$several/inline.toml"
    tell 'filled: tables in braces' "$(
        is_status 0
        is_solved "$several/inline.toml"
        is_kept "$several/inline.toml"
    )"
    fill examples/aircraft.toml
    tell "filled: an aircraft's" "$(
        is_status 0
        is_solved examples/aircraft.toml
        is_kept examples/aircraft.toml
    )"
    launch tools/afdx-fill <(sed 's/^bag_ms = 1/bag_ms = 3/' "$two") "$several/no.toml"
    tell 'a fault names its switch' "$(
        is_status 1
        says err 'config OutOfRange switch 1 link 1 key'
    )"
}

inline_of() { # FILE : the same tables, each switch in braces
    "$python" - "$1" <<'CODE'
import json, sys, tomllib

def text(value):
    if isinstance(value, dict):
        return "{" + ", ".join(f"{key} = {text(each)}" for key, each in value.items()) + "}"
    if isinstance(value, list):
        return "[" + ", ".join(map(text, value)) + "]"
    return json.dumps(value)

tables = tomllib.load(open(sys.argv[1], "rb"))["switch"]
print("switch = [" + ", # a remark\n  ".join(map(text, tables)) + "]")
CODE
}

# ---- recordings ----------------------------------------------------------------------------

annotated_tests() {
    local two=examples/two_switches made=$several/two.pcapng
    launch tools/afdx-capture annotate "$two.toml" "$two.list" "$made"
    tell 'annotated: a frame for each switch to which it came' "$(
        is_status 0
        says err '23 frames written'
        fields_of "$made" frame.time_epoch frame.interface_name frame.comment >"$work/got"
        sort -s -n -k 1,1 "$work/got" >"$work/wanted"
        same "$work/wanted" "$work/got"
        printf '%s\t%s\t%s;%s\n' 0.001000000 'A fwd port 1' \
            'V 17 A fwd accept;D 17 1006720 A fwd 24' 'latency 6720 of 17000 ns at A fwd 24' \
            0.001006720 'A aft port 20' 'V 17 A aft accept;D 17 1013440 A aft 3;M 1013440 s3 1' \
            'latency 6720 of 18000 ns at A aft 3' >"$work/wanted"
        grep 'V 17 ' "$work/got" >"$work/found"
        same "$work/wanted" "$work/found"
        same <(replayed_lines "$two.toml" "$two.list") <(lines_of "$made")
    )"
    shark -r "$made" -Y 'afdx.vl == 2 && afdx.side == "A"' -T fields -e afdx.switch -e afdx.port \
        -e afdx.seq -e afdx.step
    tell 'a filter by link follows its frames' "$(
        is_status 0
        text_is out $'aft\t2\t0\t\nfwd\t24\t0\t\naft\t2\t1\t1\nfwd\t24\t1\t1\n'
    )"
    launch tools/afdx-capture annotate examples/aircraft.toml "$several/sample.list" "$made"
    tell "annotated: an aircraft's list" "$(
        is_status 0
        same <(replayed_lines examples/aircraft.toml "$several/sample.list") <(lines_of "$made")
        fields_of "$made" frame.time_epoch >"$work/got"
        sort -s -n "$work/got" >"$work/wanted"
        same "$work/wanted" "$work/got"
    )"
}

recorded_several_tests() {
    local config=examples/aircraft.toml one=$several/one.pcapng side
    capture pcap "$several/sound.list" "$one"
    tell 'a list of several switches becomes a pcapng' "$(
        is_status 0
        wants_text "$(fields_of "$one" frame.interface_name | sort -u | wc -l)" 70 interfaces
        says err "$(wc -l <"$several/sound.list") frames written"
    )"
    capture pcap --fcs no "$several/sound.list" "$several/bare.pcapng"
    launch tools/afdx-capture list --config "$config" --origin 0 "$several/bare.pcapng"
    tell 'and back to the list' "$(is_status 0; same "$several/sound.list" "$work/out")"
    launch tools/afdx-capture annotate "$config" "$one" "$several/said.pcapng"
    tell 'annotated: recorded frames with the lines of all switches' "$(
        is_status 0
        as_recorded "$several/said.pcapng" "$one"
        same <(replayed_lines "$config" "$one") <(lines_of "$several/said.pcapng")
        own_numbers "$several/said.pcapng"
    )"
    for side in A B; do
        capture pcap --side "$side" "$several/sound.list" "$several/$side.pcapng"
    done
    launch tools/afdx-capture annotate "$config" "$several"/{A,B}.pcapng "$several/said.pcapng"
    tell 'annotated: recordings of both networks' "$(
        is_status 0
        same <(replayed_lines "$config" "$several"/{A,B}.pcapng) <(lines_of "$several/said.pcapng")
    )"
    if [[ -n $reporting ]]; then
        launch tools/afdx-report --json "$config" "$several"/{A,B}.pcapng
        tell 'a report of them' "$(
            is_status 0
            wants_number "$work/out" 'r["totals"]["frames"], r["totals"]["dropped"]' \
                "($(wc -l <"$several/sound.list"), 0)"
            wants_number "$work/out" 'sum(row["never"] for row in r["receivers"])' 0
        )"
    fi
}

pcap_faults_tests() {
    launch tools/afdx-capture pcap <(printf 'F 0 A fwd 1 00\nF 1 A 1 00\n') "$several/no.pcapng"
    tell 'lines with and without a switch' "$(
        is_status 2
        says err 'only one of the lines 1 and 2 names a switch'
        if [[ -e $several/no.pcapng ]]; then echo 'there is a recording'; fi
    )"
    launch tools/afdx-capture pcap <(printf 'F 0 A f_d 1 00\n') "$several/no.pcapng"
    tell 'a name that no switch can have' "$(is_status 2; says err 'line 1 is no line')"
}

# ---- taps ----------------------------------------------------------------------------------

several_taps() { # ROW.. : of the table; then the tool is called
    printf '%s\n' interface,side,switch,port,direction "$@" >"$several/taps.csv"
    words_by_taps
}

words_by_taps() { # WORD..
    launch env -C "$several" "$top/tools/afdx-taps" "$@" "$top/examples/two_switches.toml" \
        taps.csv run.pcapng
}

several_taps_tests() {
    local usual=('eth1,A,fwd,1,in' 'eth2,A,aft,2,in' 'eth3,A,aft,3,out' 'eth4,A,aft,20,in')
    "$python" tests/tools/tapped_recording.py "$several/run.pcapng" eth1=1A eth2=2A eth3=1A,2A \
        eth4=1A
    several_taps "${usual[@]}"
    tell 'taps at several switches; what a cable brings is left out' "$(
        is_status 0
        text_is out $'--interface=0=A fwd:1\n--interface=1=A aft:2\n--interface=2=-\n'"\
--interface=3=-"$'\n'
    )"
    words_by_taps --conform --switch aft
    tell 'words of conform at one of several switches, whose cables bring arrivals' "$(
        is_status 0
        text_is out $'--interface=1=A:2\n--left=2=A:3\n--interface=3=A:20\n'
    )"
    words_by_taps --senders --switch aft
    tell 'words of senders at one of several switches' "$(
        is_status 0
        text_is out $'--senders\n--interface=1=A:2\n--interface=3=A:20\n'
    )"
    words_by_taps --conform --senders --switch aft
    tell 'words of one of several switches and its senders' "$(
        is_status 0
        text_is out $'--senders\n--interface=1=A:2\n--left=2=A:3\n--interface=3=A:20\n'
    )"
    words_by_taps --conform
    tell 'words of conform are of one switch' "$(
        is_status 2
        says err '--switch is missing: it has to be one of fwd, aft'
    )"
    several_taps eth1,A,aft,3,in "${usual[@]:1:2}" eth4,A,fwd,24,in
    tell 'rows that the frames contradict' "$(
        is_status 3
        says err 'interface 0 (eth1) is A aft:3 in by taps.csv line 2'
        says err 'name A fwd:1 (s1)'
        says err 'interface 3 (eth4) is A fwd:24 in by taps.csv line 5'
    )"
    several_taps eth1,A,mid,1,in eth2,A,,2,in
    tell 'switches that are not there' "$(
        is_status 2
        says err 'taps.csv line 2, eth1: switch mid: it has to be one of fwd, aft'
        says err 'taps.csv line 3, eth2: switch (empty): it has to be one of fwd, aft'
    )"
    several_taps "${usual[@]}"
    launch env -C "$several" "$top/tools/afdx-taps" "$top/examples/base.toml" taps.csv run.pcapng
    tell 'a switch where there is one a side' "$(
        is_status 2
        says err 'switch fwd: the configuration has one switch a side'
    )"
    launch tools/afdx-capture list --config examples/two_switches.toml --taps "$several/taps.csv" \
        "$several/run.pcapng"
    tell 'a list by a table of taps' "$(
        is_status 0
        wants_text "$(grep -v '^#' "$work/out" | cut -d ' ' -f 3-5 | sort -u | paste -s -d ,)" \
            'A aft 2,A fwd 1' places
    )"
}

# ---- traffic -------------------------------------------------------------------------------

several_traffic_tests() {
    mkdir -p "$several/sent"
    printf '%s\n' system,port,id,partition,rate s1,1,1,1,100 s2,2,2,1,100 s3,3,3,1,100 \
        >"$several/systems.csv"
    printf '%s\n' message,vl,from,to,every_ms,bytes,within_us,priority,kind,depth,port \
        go,1,s1,s3,20,17,,high,sampling,1,1000 'back,2,s2,s1 s3,20,17,,low,queuing,4,2000' \
        >"$several/messages.csv"
    launch tools/afdx-traffic --config examples/two_switches.toml "$several/systems.csv" \
        "$several/messages.csv" "$several/sent"
    tell 'what the systems of several switches send' "$(
        is_status 0
        wants_text "$(cut -d ' ' -f 3-5 "$several/sent/all-systems.list" | sort -u |
            paste -s -d ,)" 'A aft 2,A fwd 1,B aft 2,B fwd 1' places
        "$program" replay --summary examples/two_switches.toml "$several/sent/all-systems.list" \
            2>&1 >/dev/null | grep -q ' delivered 150$' || echo 'not all is delivered'
    )"
}

if [[ -x $program ]]; then
    mkdir -p "$several"
    tests/tools/sample_list.py examples/aircraft.toml --ms 100 >"$several/sample.list"
    tests/tools/sample_list.py examples/aircraft.toml --ms 100 --sound >"$several/sound.list"
    filled_tests
    several_taps_tests
    several_traffic_tests
    if [[ -n $dpkt ]]; then
        pcap_faults_tests
    else
        skip 'lists of several switches as recordings' 'there is no package dpkt'
    fi
    if [[ -n $dpkt ]] && has tshark; then
        annotated_tests
        recorded_several_tests
    else
        skip 'recordings of several switches' 'there is no package dpkt, or no tshark'
    fi
else
    skip 'several switches a side' "there is no program $program"
fi
