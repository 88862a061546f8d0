# Tests of tools/afdx.lua and of annotated recordings, by tshark; a part of tests/run/tools.sh.
# shellcheck shell=bash
# shellcheck disable=SC2154  # what it uses is set by tests/run/tools.sh, which sources it
# shellcheck disable=SC2034  # what it sets is used there

# ---- the fields of AFDX frames -------------------------------------------------------------

AFDX_FIELDS=(vl side system partition seq step gap_ms)

plugin=tools/afdx.lua

shark() { # WORD.. : tshark with the fields of AFDX, without the user's own settings
    launch env HOME="$work" tshark -X "lua_script:$plugin" "$@"
}

fields_told() { # RECORDING [WORD..] : the fields of AFDX, the gap in ns
    local words=() field recording=$1
    shift
    for field in "${AFDX_FIELDS[@]}"; do words+=(-e "afdx.$field"); done
    shark "$@" -r "$recording" -T fields "${words[@]}"
    awk -F '\t' -v OFS='\t' '$7 != "" { $7 = sprintf("%.0f", $7 * 1e6) } { print }' "$work/out"
}

fields_are_right() { # NAME LIST RECORDING [WORD..]
    "$python" tests/tools/expected_afdx_fields.py "$2" >"$work/wanted"
    fields_told "${@:3}" >"$work/got"
    tell "fields of AFDX: $1" "$(is_status 0; same "$work/wanted" "$work/got")"
}

without_note() { # PCAP OUT : the header doesn't say whether frames end with a check sequence
    cp "$1" "$2"
    printf '\1\0\0\0' | dd of="$2" bs=1 seek=20 conv=notrunc status=none
}

# A frame of link 1 that is padded to 196 bytes, with a check sequence 200, as for a link whose
# Lmin is 200.
padded_frame_of() { # SIDE NUMBER
    frame_of "$1" 0 | sed 's/00$//'
    printf '0%.0s' {1..272}
    printf '%02x' "$2"
}

lists_for_fields() { # writes $work/sound.list, $work/padded.list, $work/odd.list
    tests/tools/sample_list.py examples/network.toml --ms 60 --sound >"$work/sound.list"
    printf 'F %d A 1 %s\n' 5 "$(padded_frame_of A 0)" 1000005 "$(padded_frame_of A 7)" \
        2000005 "$(padded_frame_of A 8)" >"$work/padded.list"
    { # wrong check sequences at first, numbers that go round, come again, begin anew
        printf 'B %d A 1 %s\n' 0 "$(frame_of A 254)" 10 "$(frame_of A 255)"
        printf 'F %d B 1 %s\n' 15 "$(frame_of B 0)"
        printf 'F %d A 1 %s\n' 20 "$(frame_of A 1)" 30 "$(frame_of A 1)" 41 "$(frame_of A 0)" \
            52 "$(frame_of A 2)" 63 "$(frame_of A 0)" 74 "$(frame_of A 255)"
        printf 'F %d B 1 %s\n' 80 "$(frame_of B 2)"
        printf 'R %d A 1 %.80s\n' 90 "$(frame_of A 5)"
        printf 'F %d A 1 %s\n' 100 "$(frame_of A 2)" 110 "$(frame_of A 254)" \
            120 "$(frame_of A 126)" 130 "$(frame_of A 254)" 140 "$(frame_of A 125)"
    } >"$work/odd.list"
}

field_tests() {
    local each
    lists_for_fields
    for each in sound padded; do
        capture pcap "$work/$each.list" "$work/with.pcap"
        capture pcap --fcs no "$work/$each.list" "$work/without.pcap"
        without_note "$work/with.pcap" "$work/with_unsaid.pcap"
        without_note "$work/without.pcap" "$work/without_unsaid.pcap"
        local list=$work/$each.list
        fields_are_right "$each, check sequences" "$list" "$work/with.pcap"
        fields_are_right "$each, none" "$list" "$work/without.pcap"
        fields_are_right "$each, check sequences that no header tells" "$list" \
            "$work/with_unsaid.pcap"
        fields_are_right "$each, none, which no header tells" "$list" "$work/without_unsaid.pcap"
    done
    capture pcap "$work/odd.list" "$work/with.pcap"
    without_note "$work/with.pcap" "$work/with_unsaid.pcap"
    fields_are_right 'numbers that jump, damaged frames' "$work/odd.list" "$work/with_unsaid.pcap"
    fields_are_right 'the same in two passes' "$work/odd.list" "$work/with_unsaid.pcap" -2
    fields_are_right 'the preference is heeded' "$work/odd.list" "$work/with.pcap" \
        -o afdx.fcs:Yes
}

padding_tests() { # frames without check sequences, whose padding isn't zero
    local number
    for number in {0..13}; do
        printf 'F %d0 A 1 %s\n' "$number" \
            "$(padded_frame_of A "$number" | sed 's/00\(..\)$/a5\1/; s/0000/5aa5/5g')"
    done >"$work/grey.list"
    capture pcap --fcs no "$work/grey.list" "$work/grey.pcap"
    without_note "$work/grey.pcap" "$work/grey_unsaid.pcap"
    "$python" tests/tools/expected_afdx_fields.py "$work/grey.list" | tail -n +12 >"$work/wanted"
    fields_told "$work/grey_unsaid.pcap" | tail -n +12 >"$work/got"
    tell 'fields of AFDX: padding that is not zero, from the twelfth frame on' "$(
        is_status 0
        if [[ $(wc -l <"$work/wanted") -ne 3 ]]; then echo 'the list is too short'; fi
        same "$work/wanted" "$work/got"
    )"
    plugin=$work/other.lua
    sed 's/= bit32 or bit$/= bit/' tools/afdx.lua >"$plugin"
    capture pcap "$work/grey.list" "$work/with.pcap"
    without_note "$work/with.pcap" "$work/with_unsaid.pcap"
    fields_are_right 'check sequences behind it, with the other library of bits' \
        "$work/grey.list" "$work/with_unsaid.pcap"
    plugin=tools/afdx.lua
}

# Frames that are padded with zeros get no note of Wireshark's own, and where no header says whether
# they end with a check sequence, the number at their end is taken for none.
note_tests() {
    local each number count=20
    for ((number = 0; number < count; number++)); do
        printf 'F %d0 A 1 %s\n' "$number" "$(frame_of A "$number")"
    done >"$work/short.list"
    capture pcap "$work/short.list" "$work/with.pcap"
    capture pcap --fcs no "$work/short.list" "$work/without.pcap"
    without_note "$work/with.pcap" "$work/with_unsaid.pcap"
    without_note "$work/without.pcap" "$work/without_unsaid.pcap"
    for each in with without without_unsaid; do
        launch tshark -r "$work/$each.pcap" -Y '_ws.expert.message contains "padding"'
        tell "frames that are padded have a note without the fields: $each" "$(
            wants_text "$(wc -l <"$work/out")" $((count - 1)) 'frames'
        )"
        shark -r "$work/$each.pcap" -Y '_ws.expert.message contains "padding" || eth.trailer'
        tell 'and none with them' "$(is_status 0; head -n 2 "$work/out")"
    done
    shark -r "$work/without_unsaid.pcap" -Y eth.fcs
    tell 'no number is taken for a check sequence' "$(is_status 0; head -n 2 "$work/out")"
    shark -r "$work/with_unsaid.pcap" -o eth.check_fcs:TRUE -o eth.fcs:Always \
        -Y 'eth.fcs.status == 1 && !(_ws.expert.message contains "padding")'
    tell 'a check sequence is still checked' "$(
        is_status 0
        wants_text "$(wc -l <"$work/out")" "$count" 'frames'
    )"
}

interface_tests() { # side A with check sequences, side B without, in one file
    capture pcap --side A "$work/sound.list" "$work/a.pcap"
    capture pcap --side B --fcs no "$work/sound.list" "$work/b.pcap"
    without_note "$work/a.pcap" "$work/au.pcap"
    without_note "$work/b.pcap" "$work/bu.pcap"
    mergecap -I none -w "$work/mixed.pcapng" "$work/au.pcap" "$work/bu.pcap"
    fields_are_right 'one interface with check sequences, one without' "$work/sound.list" \
        "$work/mixed.pcapng"
}

numbers_found() { # FILTER WANTED : the frames of the odd list that a filter finds
    local got
    shark -r "$work/with.pcap" -Y "$1" -T fields -e frame.number
    got=$(paste -s -d ' ' "$work/out")
    if [[ $got != "$2" ]]; then echo "$1 finds '$got', wanted '$2'"; fi
}

expert_tests() {
    capture pcap "$work/odd.list" "$work/with.pcap"
    tell 'expert information finds what is odd about numbers' "$(
        numbers_found afdx.missing '7 10 12 14 16'
        numbers_found afdx.back '9 13 15'
        numbers_found afdx.repeated '5'
        numbers_found afdx.reset '6 8'
        numbers_found afdx.short '11'
        numbers_found 'afdx.step == -1' '9'
        numbers_found 'afdx.step < -1' '13 15'
        numbers_found '_ws.expert.message == "The sequence number goes back by 3"' '13'
        numbers_found 'afdx.vl == 1 && afdx.side == "B"' '3 10'
    )"
    printf 'F 0 A 1 ffffffffffff0200000001200806%092d\n' 0 >"$work/arp.list"
    printf 'F 5 A 1 %s\n' "$(frame_of A 0 | sed 's/0200000001200/0200000001600/')" \
        >>"$work/arp.list"
    capture pcap "$work/arp.list" "$work/with.pcap"
    tell 'other frames stay as they are; a network that is none is told' "$(
        numbers_found afdx '2'
        numbers_found afdx.no_side '2'
        numbers_found afdx.side ''
    )"
    "$python" tests/tools/odd_recordings.py "$work" "$(frame_of A 0)5d0b5f3c"
    shark -r "$work/cut.pcap" -Y afdx.cut -T fields -e frame.number -e afdx.seq
    tell 'a cut frame has no number' "$(
        is_status 0
        printf '2\t\n' >"$work/wanted"
        same "$work/wanted" "$work/out"
    )"
}

hundredths_of() { # WORD.. : processor time of tshark, in hundredths of a second
    local TIMEFORMAT=%U
    { time env HOME="$work" tshark "$@" >"$work/out" 2>"$work/err"; } 2>"$work/time"
    tr -d . <"$work/time" | sed 's/.$//; s/^0*\(.\)/\1/'
}

speed_tests() { # 30,000 frames; more of a recording takes as much longer
    local alone with tries
    tests/tools/sample_list.py examples/network.toml --ms 2050 >"$work/long.list"
    capture pcap "$work/long.list" "$work/long.pcap"
    for tries in {1..6}; do
        alone=$(hundredths_of -r "$work/long.pcap" -Y 'udp.port == 1')
        with=$(hundredths_of -X lua_script:tools/afdx.lua -r "$work/long.pcap" -Y 'afdx.seq == 1')
        if [[ $with -le $((5 * alone)) ]]; then break; fi
    done
    tell 'the fields take at most five times the time of tshark alone' "$(
        if [[ $with -gt $((5 * alone)) ]]; then
            echo "$with hundredths of a second, $alone without, $tries times"
        fi
    )" "$with and $alone hundredths of a second"
    rm -f "$work"/long.*
}

long_frame_tests() { # what is longer than a frame, each on a link of its own, is no AFDX frame
    local alone with
    "$python" -c 'import struct, sys
file = open(sys.argv[1], "wb")
file.write(struct.pack("<IHHIIII", 0xA1B2C3D4, 2, 4, 0, 0, 262144, 1))
for size, count in ((1518, 1), (1519, 1), (262000, 200)):
    for n in range(count):
        frame = bytes.fromhex("03000000%04x02000000012088b5" % n)
        file.write(struct.pack("<IIII", n, 0, size, size) + frame.ljust(size, b"\0"))' \
        "$work/with.pcap"
    alone=$(hundredths_of -r "$work/with.pcap" -Y 'udp.port == 1')
    with=$(hundredths_of -X lua_script:tools/afdx.lua -r "$work/with.pcap" -Y 'udp.port == 1')
    tell 'what is longer than a frame is passed over, without being read' "$(
        numbers_found afdx '1'
        if [[ $with -gt $((alone + 200 * slowness)) ]]; then
            echo "$with hundredths, $alone without"
        fi
    )" "$with and $alone hundredths of a second"
}

# ---- annotated recordings ------------------------------------------------------------------

comments_of() { # RECORDING : each frame's lines of the program, after the frame's place
    launch env HOME="$work" tshark -r "$1" -T fields -E aggregator=';' -e frame.number \
        -e frame.comment
    awk -F '\t' '{ n = split($2, line, ";"); for (i = 1; i <= n; i++) print $1, line[i] }' \
        "$work/out" | grep -v '^[0-9]* latency '
}

placed_lines() { # the lines of a replay, each after the place of its frame, without messages
    awk '$1 == "V" { place[$2] = ++count }
        $1 ~ /[VDTL]/ { last = $2 }
        $1 == "X" { last = $4 }
        $1 == "M" { NF = 4 }
        { print place[last], $0 }' | sort -s -n -k 1,1
}

annotated_tests() { # NAME CONFIG LIST [WORD..]
    local name=$1 config=$2 list=$3
    shift 3
    launch tools/afdx-capture annotate "$@" "$config" "$list" "$work/said.pcapng"
    tell "each frame of $name carries its lines" "$(
        is_status 0
        "$program" replay "$@" "$config" "$list" | placed_lines >"$work/wanted"
        comments_of "$work/said.pcapng" >"$work/got"
        same "$work/wanted" "$work/got"
    )"
    launch env HOME="$work" tshark -r "$work/said.pcapng" \
        -Y 'frame.comment contains "over-rate"' -T fields -e frame.number
    tell "a filter finds what was over-rate in $name" "$(
        is_status 0
        grep ' drop over-rate$' "$work/wanted" | cut -d ' ' -f 1 >"$work/over"
        same "$work/over" "$work/out"
    )" "$(wc -l <"$work/over") frames"
}

# Verdict, latency and its share of each frame, as the report counts them.
said_tests() {
    local list=examples/bench.list fields=(-e afdx.verdict -e afdx.latency_us -e afdx.share)
    local frame
    launch tools/afdx-capture annotate examples/network.toml "$list" "$work/said.pcapng"
    shark -r "$work/said.pcapng" -Y 'afdx.verdict && afdx.verdict != "too-short"' -T fields \
        -e frame.number "${fields[@]}"
    cp "$work/out" "$work/got"
    "$program" replay examples/network.toml "$list" | awk -v list="$list" \
        -v none='bad-address|too-short|too-long' '
        BEGIN { while ((getline line <list) > 0) { split(line, word, " "); came[++n] = word[2] } }
        $1 == "V" { place[$2] = ++count; verdict[count] = $NF }
        $1 == "D" { at = place[$2]; took[at] = took[at] "," ($3 - came[$2]) / 1000 }
        END {
            for (i = 1; i <= count; i++) {
                if (verdict[i] !~ none) print i "\t" verdict[i] "\t" substr(took[i], 2)
            }
        }' >"$work/wanted"
    tell 'fields for verdict and latency, from comments' "$(
        is_status 0
        cut -f 1-3 "$work/got" >"$work/out"
        same "$work/wanted" "$work/out"
    )" "$(wc -l <"$work/wanted") frames"
    printf 'passed 2 A 3 over-rate\nstrange 3 A 3 out-of-turn\ndeviates 2\n' >"$work/conform"
    launch tools/afdx-capture annotate --conform "$work/conform" examples/base.toml \
        examples/one_link.list "$work/judged.pcapng"
    tell 'annotate takes what conform said' "$(is_status 0)"
    shark -r "$work/judged.pcapng" -T fields -e afdx.conform "${fields[@]}"
    tell 'and a field has it' "$(
        printf '\taccept\t6.72\t39.529\npassed\tover-rate\t\t\n\taccept\t6.72\t39.529\n' \
            >"$work/wanted"
        same "$work/wanted" "$work/out"
    )"
    launch tools/afdx-capture pcap examples/one_link.list "$work/one.pcap"
    launch tools/afdx-capture annotate --conform "$work/conform" examples/base.toml \
        "$work/one.pcap" "$work/judged.pcapng"
    shark -r "$work/judged.pcapng" -Y 'afdx.latency_us > 6.7 && afdx.share < 40' -T fields \
        -e frame.number -e afdx.conform
    tell 'filters by latency and share find recorded frames' "$(
        printf '1\t\n3\tstrange\n' >"$work/wanted"
        same "$work/wanted" "$work/out"
    )"
    frame=$(frame_of A 0)
    printf 'F 0 A 1 %s\nF 0 A 2 %s\n' "$frame" "$frame" >"$work/same.list"
    printf 'passed x\n' >"$work/conform"
    launch tools/afdx-capture annotate --conform "$work/conform" examples/base.toml \
        "$work/same.list" "$work/judged.pcapng"
    tell 'what is no line of conform is refused' "$(is_status 2; says err 'conform line 1')"
    launch tools/afdx-icd examples/systems.csv examples/messages.csv "$work/called.toml"
    launch tools/afdx-traffic --config "$work/called.toml" examples/systems.csv \
        examples/messages.csv "$work/called"
    capture pcap "$work/called/adc.list" "$work/called.pcap"
    shark -o "afdx.names:$work/called.names.csv" -r "$work/called.pcap" -c 1 -T fields \
        -e afdx.message -e afdx.sender
    tell 'names from the table beside the configuration' "$(text_is out $'air data\tadc\n')"
    capture annotate "$work/called.toml" "$work/called.pcap" "$work/called.pcapng"
    shark -r "$work/called.pcapng" -c 1 -T fields -e afdx.message
    tell 'and from comments' "$(text_is out $'air data\n')"
}

annotate_fault_tests() {
    launch tools/afdx-capture annotate examples/refused.toml examples/one_link.list "$work/no.png"
    tell 'annotate where the network is refused' "$(
        is_status 1
        says err 'admit A3 7 104 267995'
        if [[ -e $work/no.png ]]; then echo 'there is a recording'; fi
    )"
    printf 'F 0 A 1 %s\nF 0 C 1 00\n' "$(frame_of A 0)" >"$work/three.list"
    launch tools/afdx-capture annotate examples/base.toml "$work/three.list" "$work/no.png"
    tell 'annotate where the list has a fault' "$(
        is_status 3
        says err 'list BadLine 2'
        if [[ -e $work/no.png ]]; then echo 'there is a recording'; fi
    )"
    launch env AFDX=/nowhere tools/afdx-capture annotate examples/base.toml \
        examples/one_link.list "$work/no.png"
    tell 'annotate without a program' "$(is_status 4; says err '/nowhere')"
    cat >"$work/echoing" <<END_OF_FILE
#!/bin/sh
if [ "\$1" = replay ]; then exec echo "\$@"; fi
exec "$program" "\$@"
END_OF_FILE
    chmod +x "$work/echoing"
    launch env AFDX="$work/echoing" tools/afdx-capture annotate examples/base.toml \
        examples/one_link.list "$work/no.png"
    tell 'annotate with another replay' "$(is_status 2; says err 'is none of this replay')"
    printf '#!/bin/sh\nkill -9 $$\n' >"$work/killed"
    chmod +x "$work/killed"
    launch env AFDX="$work/killed" tools/afdx-capture annotate examples/base.toml \
        examples/one_link.list "$work/no.png"
    tell 'annotate where the program is killed' "$(
        is_status 137
        says err 'signal 9 ended the program'
    )"
    launch tools/afdx-capture annotate examples/base.toml examples/one_link.list \
        "$work/listed.pcapng"
    status=0
    tools/afdx-capture annotate examples/base.toml - - <examples/one_link.list >"$work/out" \
        2>"$work/err" || status=$?
    tell 'annotate from standard input to standard output' "$(
        is_status 0
        same "$work/listed.pcapng" "$work/out"
    )"
    launch timeout 3600 tools/afdx-capture annotate <(cat examples/base.toml) \
        <(cat examples/one_link.list) "$work/piped.pcapng"
    tell 'annotate where both come by pipes' "$(
        is_status 0
        same "$work/listed.pcapng" "$work/piped.pcapng"
    )"
    launch tools/afdx-capture annotate - examples/one_link.list "$work/no.png"
    tell 'annotate where the configuration is not there' "$(is_status 4; says err './-: No such')"
}

if [[ -z $dpkt ]]; then
    :
elif has tshark && has mergecap; then
    field_tests
    padding_tests
    note_tests
    interface_tests
    expert_tests
    speed_tests
    long_frame_tests
    if [[ -n $built ]]; then
        annotated_tests 'a bench' examples/network.toml examples/bench.list
        annotated_tests 'a network that is not admitted' examples/gigabit.toml \
            examples/gigabit.list --no-admission
        said_tests
        annotate_fault_tests
    else
        skip 'annotated recordings' "there is no program $program"
    fi
else
    skip "fields of AFDX in Wireshark" 'there is no tshark (apt-get install tshark)'
fi
