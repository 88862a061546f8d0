# Tests of afdx-capture annotate on recordings, against tshark; a part of tests/run/tools.sh.
# shellcheck shell=bash
# shellcheck disable=SC2154  # what it uses is set by tests/run/tools.sh, which sources it

said=$work/annotated

fields_of() { # RECORDING FIELD.. : of each frame, with tabs between
    local words=() field
    for field in "${@:2}"; do words+=(-e "$field"); done
    env HOME="$work" tshark -r "$1" -T fields -E aggregator=';' "${words[@]}" 2>"$work/said"
}

as_recorded() { # GOT WANTED : frames are those of the other recording, as tshark sees them
    local fields=(frame.number frame.interface_id frame.time_epoch frame.len frame.cap_len)
    fields_of "$2" "${fields[@]}" | sed 's/\t\t/\t0\t/' >"$work/wanted"
    fields_of "$1" "${fields[@]}" | sed 's/\t\t/\t0\t/' >"$work/got"
    same "$work/wanted" "$work/got"
    env HOME="$work" tshark -r "$2" -x >"$work/wanted" 2>"$work/said"
    env HOME="$work" tshark -r "$1" -x >"$work/got" 2>"$work/said"
    same "$work/wanted" "$work/got"
    if [[ ! -s $work/got ]]; then echo 'no frames'; fi
}

lines_of() { # RECORDING : the comments with the program's lines, each line by itself
    fields_of "$1" frame.comment | tr ';' '\n' | sed '/^$/d; /^latency /d' | sort
}

replayed_lines() { # WORD.. : the lines of a replay, without messages
    "$program" replay "$@" 2>"$work/said" | awk '$1 == "M" {NF = 4} {print}' | sort
}

own_numbers() { # RECORDING : each frame's verdict has its number
    fields_of "$1" frame.number frame.comment | awk -F '\t' '{
        split($2, words, "[ ;]")
        if (words[1] == "V" && words[2] != $1) {print "frame " $1 " has " $2; exit}}'
}

one_tests() {
    local config=examples/network.toml one=$said/one.pcap
    capture pcap --origin 1764210600123456789 "$work/sample.list" "$one"
    launch tools/afdx-capture annotate "$config" "$one" "$said/one.said.pcapng"
    tell 'frames of a pcap as they were recorded, with their lines' "$(
        is_status 0
        as_recorded "$said/one.said.pcapng" "$one"
        same <(replayed_lines "$config" "$one") <(lines_of "$said/one.said.pcapng")
        own_numbers "$said/one.said.pcapng"
    )"
    capture annotate "$config" "$work/sample.list" "$said/many.pcapng"
    launch tools/afdx-capture annotate "$config" "$said/many.pcapng" "$said/many.said.pcapng"
    tell 'those of a pcapng keep interfaces, names and comments' "$(
        is_status 0
        as_recorded "$said/many.said.pcapng" "$said/many.pcapng"
        same <(fields_of "$said/many.pcapng" frame.interface_name) \
            <(fields_of "$said/many.said.pcapng" frame.interface_name)
        same <({
            lines_of "$said/many.pcapng"
            replayed_lines "$config" "$said/many.pcapng"
        } | sort) <(lines_of "$said/many.said.pcapng")
    )"
    launch tools/afdx-capture annotate --interface 0=A:5 --stamps start --reorder 50 --fcs yes \
        "$config" "$one" "$said/placed.pcapng"
    tell 'options of recordings are handed on' "$(
        is_status 0
        as_recorded "$said/placed.pcapng" "$one"
        same <(replayed_lines --interface 0=A:5 --stamps start --reorder 50 --fcs yes "$config" \
            "$one") <(lines_of "$said/placed.pcapng")
    )"
    tools/afdx-capture annotate "$config" - - <"$one" >"$said/piped.pcapng" 2>"$work/err"
    tell 'from standard input to standard output' "$(
        same "$said/one.said.pcapng" "$said/piped.pcapng"
    )"
}

two_tests() {
    local config=examples/network.toml a=$said/A.pcap b=$said/B.pcap
    capture pcap --side A "$work/sample.list" "$a"
    capture pcap --side B "$work/sample.list" "$b"
    launch tools/afdx-capture annotate "$config" "$a" "$b" "$said/two.pcapng"
    tell 'two recordings: each frame with its number and side' "$(
        is_status 0
        same <(replayed_lines "$config" "$a" "$b") <(lines_of "$said/two.pcapng")
        fields_of "$said/two.pcapng" frame.interface_name frame.comment | awk -F '\t' '{
            split($2, words, "[ ;]")
            if (words[3] != $1 || words[2] != ++count[$1]) {print "frame " NR ": " $0; exit}}'
        fields_of "$said/two.pcapng" frame.time_epoch >"$work/got"
        sort -c -n "$work/got" 2>&1
    )"
}

first_comments() { # RECORDING : number, interface and first comment of each frame
    fields_of "$1" frame.number frame.interface_id frame.comment | cut -d ';' -f 1
}

left_out_lists() { # writes $said/left.pcap, and that of the other network
    local other
    other=ffffffffffff0200000001200806$(printf '00%.0s' {1..50})
    {
        echo "F 0 A 1 $(frame_of A 0)"
        echo "F 1000000 A 1 $other"
        echo "F 2000000 A 1 $(frame_of A 1)"
        echo "F 3000000 A 1 $(frame_of A 2 | sed 's/0200000001/0200000099/')"
        echo "F 4000000 A 1 $(frame_of A 3)"
    } >"$said/left.list"
    capture pcap "$said/left.list" "$said/left.pcap"
    printf 'F 1500000 B 1 %s\nF 2500000 B 1 %s\n' "$other" "$(frame_of B 1)" >"$said/right.list"
    capture pcap "$said/right.list" "$said/right.pcap"
}

left_out_tests() {
    local config=examples/base.toml
    left_out_lists
    launch tools/afdx-capture annotate "$config" "$said/left.pcap" "$said/left.pcapng"
    tell 'frames that were left out say why' "$(
        is_status 0
        as_recorded "$said/left.pcapng" "$said/left.pcap"
        first_comments "$said/left.pcapng" | cut -f 1,3 >"$work/got"
        printf '%s\t%s\n' 1 'V 1 A accept' 2 '# not-afdx 2' 3 'V 3 A accept' \
            4 '# unknown-sender 4' 5 'V 5 A accept' >"$work/wanted"
        same "$work/wanted" "$work/got"
    )"
    mergecap -a -F pcapng -I none -w "$said/back.pcapng" "$said/right.pcap" "$said/left.pcap" \
        2>"$work/said"
    launch tools/afdx-capture annotate --fcs yes "$config" "$said/back.pcapng" \
        "$said/back.said.pcapng"
    tell 'also where frames are out of order' "$(
        is_status 0
        as_recorded "$said/back.said.pcapng" "$said/back.pcapng"
        first_comments "$said/back.said.pcapng" | cut -f 3 >"$work/got"
        printf '%s\n' '# not-afdx 1' 'V 2 B accept' 'V 3 A accept' '# not-afdx 4' \
            'V 5 A accept' '# unknown-sender 6' 'V 7 A accept' >"$work/wanted"
        same "$work/wanted" "$work/got"
    )"
    launch tools/afdx-capture annotate "$config" "$said/left.pcap" "$said/right.pcap" \
        "$said/both.pcapng"
    tell 'and in two recordings, with number and side' "$(
        is_status 0
        first_comments "$said/both.pcapng" >"$work/got"
        paste <(seq 7) <(printf '%s\t%s\n' 0 'V 1 A accept' 0 '# not-afdx 2 A' \
            1 '# not-afdx 1 B' 0 'V 3 A accept' 1 'V 2 B accept' 0 '# unknown-sender 4 A' \
            0 'V 5 A accept') >"$work/wanted"
        same "$work/wanted" "$work/got"
    )"
    cat >"$said/silent" <<END_OF_FILE
#!/bin/bash
if [[ \$1 != list ]]; then exec "$program" "\$@"; fi
"$program" "\$@" | sed '/^# not-afdx/d'
END_OF_FILE
    chmod +x "$said/silent"
    launch env AFDX="$said/silent" tools/afdx-capture annotate "$config" "$said/left.pcap" \
        "$said/no.pcapng"
    tell 'a program whose list does not say all reasons' "$(
        is_status 2
        one_line
        says err "don't agree on which frames are arrivals"
        if [[ -e $said/no.pcapng ]]; then echo 'there is a recording'; fi
    )"
}

odd_tests() {
    local config=examples/base.toml name
    "$python" tests/tools/odd_recordings.py "$said" "$(frame_of A 0)5d0b5f3c"
    for name in big sections; do
        launch tools/afdx-capture annotate "$config" "$said/$name.pcapng" "$said/$name.said.pcapng"
        tell "frames of odd recordings: $name" "$(
            is_status 0
            as_recorded "$said/$name.said.pcapng" "$said/$name.pcapng"
            same <(fields_of "$said/$name.pcapng" frame.section_number frame.interface_name) \
                <(fields_of "$said/$name.said.pcapng" frame.section_number frame.interface_name)
        )"
    done
    capture pcap --origin 1700000000000500000 "$said/left.list" "$said/later.pcap"
    launch tools/afdx-capture annotate "$config" "$said/sections.pcapng" "$said/later.pcap" \
        "$said/merged.pcapng"
    tell 'two recordings, of which one has two sections' "$(
        is_status 0
        fields_of "$said/merged.pcapng" frame.interface_id frame.interface_name frame.time_epoch \
            >"$work/got"
        printf '%s\t%s\t1700000000.00%s\n' 0 'A eth0' 0000000 2 B 0500000 1 'A eth1' 1000000 \
            2 B 1500000 3 'A eth2' 2000007 2 B 2500000 2 B 3500000 2 B 4500000 >"$work/wanted"
        same "$work/wanted" "$work/got"
    )"
    launch tools/afdx-capture annotate "$config" "$said/long.pcapng" "$said/later.pcap" \
        "$said/long.said.pcapng"
    tell 'and one with a name of 65,535 bytes' "$(is_status 0)"
    cp "$said/left.pcap" "$said/"$'-a\n\xff.pcap'
    launch env -C "$said" "$top/tools/afdx-capture" annotate "$top/$config" -- $'-a\n\xff.pcap' \
        -o.pcapng
    tell 'a name that begins with a dash, has a line feed and is no text' "$(
        is_status 0
        same "$said/left.pcapng" "$said/-o.pcapng"
    )"
    cp "$said/right.pcap" "$said/kept.pcap"
    launch tools/afdx-capture annotate "$config" "$said/left.pcap" "$said/kept.pcap"
    tell 'no recording is lost where the last word was forgotten' "$(
        is_status 2
        one_line
        says err "is a recording that annotate didn't write"
        same "$said/right.pcap" "$said/kept.pcap"
    )"
}

fault_tests_of_recordings() {
    head -c -10 "$said/one.pcap" >"$said/cut.pcap"
    launch tools/afdx-capture annotate examples/network.toml "$said/cut.pcap" "$said/no.pcapng"
    tell 'annotate on a recording that is cut' "$(
        is_status 3
        one_line
        says err 'recording Ended'
        if [[ -e $said/no.pcapng ]]; then echo 'there is a recording'; fi
    )"
    launch tools/afdx-capture annotate examples/refused.toml "$said/one.pcap" "$said/no.pcapng"
    tell 'annotate on a recording where the network is refused' "$(
        is_status 1
        one_line
        says err 'admit A3 7 104 267995'
    )"
    launch tools/afdx-capture annotate --fcs no examples/base.toml examples/one_link.list \
        "$said/no.pcapng"
    tell 'annotate on a list with options of recordings' "$(
        is_status 3
        says err 'recording NotRecording 0'
    )"
    launch tools/afdx-capture annotate --origin x examples/base.toml examples/one_link.list \
        "$said/no.pcapng"
    tell 'annotate on a list with an origin that is no number' "$(is_status 2; one_line)"
    launch tools/afdx-capture annotate examples/base.toml - - "$said/no.pcapng"
    tell 'annotate on standard input twice' "$(is_status 2; one_line; says err SameInput)"
}

random_tests() {
    launch "$python" tests/tools/read_frames.py 1000
    tell 'frames of recordings made at random, read and copied as the reference has them' "$(
        is_status 0
        if [[ $status -ne 0 ]]; then head -n 3 "$work/out"; fi
    )" "$(tail -n 1 "$work/out")"
}

mkdir -p "$said"
random_tests
if [[ -x $program && -n $dpkt && $reads == *two* ]] && has tshark; then
    one_tests
    two_tests
    left_out_tests
    odd_tests
    fault_tests_of_recordings
else
    skip 'annotated recordings' 'there is no program that reads two, no dpkt, or no tshark'
fi
