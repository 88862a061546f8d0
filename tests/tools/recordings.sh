# Tests of tools/afdx-capture; a part of tests/run/tools.sh.
# shellcheck shell=bash
# shellcheck disable=SC2154  # what it uses is set by tests/run/tools.sh, which sources it

# ---- recordings ----------------------------------------------------------------------------

if "$python" -c 'import dpkt' 2>"$work/err"; then dpkt=1; else dpkt=; fi

frame_of() { # SIDE NUMBER : link 1's frame of the examples without its check sequence
    local head=030000000001020000000 network=20
    [[ $1 == A ]] || network=40
    printf '%s1%s0800' "$head" "$network"
    printf '45000021000000000111cdea0a000101e0e0000103e803e8000d000068656c6c6f'
    printf '000000000000000000000000%02x' "$2"
}

capture() { # WORD.. : afdx-capture, which has to work
    tools/afdx-capture "$@" 2>"$work/err" || cat "$work/err"
}

capture_tests() {
    local list=$work/five.list
    {
        echo "# a comment, as afdx send writes one"
        echo "F 0 A 1 $(frame_of A 0)"
        echo "F 2500 B 1 $(frame_of B 0)"
        echo "B 1000001 A 1 $(frame_of A 1)"
        echo "F 1000002 B 1 $(frame_of B 1)"
        echo "R 2000000 A 1 $(frame_of A 2)5d0b5f3c"
    } >"$list"
    launch tools/afdx-capture pcap "$list" "$work/five.pcap"
    tell 'a list becomes a recording' "$(is_status 0; says err '5 frames written')"

    launch tools/afdx-capture list --config examples/base.toml "$work/five.pcap"
    cp "$work/out" "$work/back.list"
    tell 'and a list again, of R lines' "$(
        is_status 0
        says err 'recorder-lost 0 claimed 5'
        cut -d ' ' -f 2-4 "$work/back.list" >"$work/got"
        grep -v '^#' "$list" | cut -d ' ' -f 2-4 >"$work/wanted"
        same "$work/wanted" "$work/got"
        if grep -qv '^R ' "$work/back.list"; then echo 'a line that is no R line'; fi
    )"
    launch "$program" list examples/base.toml "$work/five.pcap"
    tell 'as the program has it' "$(is_status 0; same "$work/back.list" "$work/out")"
    launch tools/afdx-capture pcap "$work/back.list" "$work/again.pcap"
    tell 'the same recording from both' "$(is_status 0; same "$work/five.pcap" "$work/again.pcap")"

    launch tools/afdx-capture list --config examples/base.toml --interface 0=A:7 --fcs no \
        --origin 1000 "$work/five.pcap"
    tell 'port, origin and lines without check sequence as told' "$(
        is_status 0
        says err 'before-origin 1'
        if [[ $(cut -d ' ' -f 1-4 "$work/out" | sed -n 2p) != 'F 1500 A 7' ]]; then
            head -n 2 "$work/out"
        fi
    )"

    sed 's/ 020000000 / /; s/0200000001\([24]\)/0200000009\1/' "$list" >"$work/rogue.list"
    tools/afdx-capture pcap "$work/rogue.list" "$work/rogue.pcap" 2>"$work/err"
    launch tools/afdx-capture list --config examples/base.toml -o "$work/rogues" "$work/rogue.pcap"
    tell 'nothing but unknown senders' "$(
        is_status 3
        says err 'recording NoArrival 5'
        if [[ -e $work/rogues ]]; then echo 'there is a list'; fi
    )"
    launch tools/afdx-capture list --config examples/base.toml --interface 0=A:3 "$work/rogue.pcap"
    tell 'they go to the port that is given' "$(
        is_status 0
        if [[ $(grep -c ' 3 03' "$work/out") -ne 5 ]]; then cut -c 1-30 "$work/out"; fi
    )"

    printf 'R 0 A 1 ffffffffffff020000000120080645\nF 5 A 1 %s\n' "$(frame_of A 0)" \
        >"$work/foreign.list"
    tools/afdx-capture pcap "$work/foreign.list" "$work/foreign.pcap" 2>"$work/err"
    launch tools/afdx-capture list --config examples/base.toml "$work/foreign.pcap"
    tell 'frames that are no AFDX frames are counted' "$(
        is_status 0
        says err 'not-afdx 1'
        says out '# not-afdx 1'
        if [[ $(grep -c '^R ' "$work/out") -ne 1 ]]; then cut -c 1-30 "$work/out"; fi
    )"

    head -c 100 "$work/five.pcap" >"$work/cut.pcap"
    launch tools/afdx-capture list --config examples/base.toml -o "$work/cut.list" "$work/cut.pcap"
    tell 'a damaged recording gives no list' "$(
        is_status 3
        says err 'recording Ended'
        if [[ -e $work/cut.list ]]; then echo 'there is a list'; fi
    )"
    launch tools/afdx-capture list --config examples/base.toml README.md
    tell 'what is no recording is refused' "$(is_status 3; says err 'recording NotRecording 0')"
    launch tools/afdx-capture list "$work/five.pcap"
    tell 'the ports have to come from somewhere' "$(is_status 2; says err '--config')"
}

many_lines_tests() { # 1,000,001 frames
    "$python" - "$work/many.pcap" <<'PY'
import struct, sys
frame = bytes.fromhex("03000000000102000000012008004500")
with open(sys.argv[1], "wb") as file:
    file.write(struct.pack("<IHHiIII", 0xA1B23C4D, 2, 4, 0, 0, 65535, 1))
    for n in range(1_000_001):
        head = struct.pack("<IIII", n // 10**6, n % 10**6 * 1000, len(frame), len(frame))
        file.write(head + frame)
PY
    launch tools/afdx-capture list --config examples/base.toml -o "$work/many.list" \
        "$work/many.pcap"
    tell 'more than 1,000,000 frames are refused' "$(
        is_status 3
        says err 'more than 1,000,000 numbers'
        if [[ -e $work/many.list ]]; then echo 'there is a list'; fi
    )"
    launch tools/afdx-capture list --config examples/base.toml --split "$work/many" \
        "$work/many.pcap"
    tell 'or split' "$(
        is_status 0
        wc -l <"$work/many-1.list" >"$work/got"
        wc -l <"$work/many-2.list" >>"$work/got"
        printf '1000000\n1\n' >"$work/wanted"
        same "$work/wanted" "$work/got"
    )"
    rm -f "$work"/many*
}

reads=$("$python" tests/lib/reads.py)
if [[ $reads != *list* ]]; then
    skip 'lists of recordings' 'the program has no command list yet (tests/lib/reads.py)'
elif [[ -n $dpkt ]]; then
    capture_tests
    many_lines_tests
else
    skip 'recordings' 'there is no package dpkt (apt-get install python3-dpkt)'
fi

# ---- recordings, with programs that are not ours -------------------------------------------

dump_of() { # TIME HEX : as text2pcap reads it
    printf '%s\n' "$1"
    printf '%s' "$2" | sed 's/../& /g' | fold -w 48 |
        awk '{ printf "%06x %s\n", (NR - 1) * 16, $0 } END { print "" }'
}

listed_as_wanted() { # NAME RECORDING : its list is that of $work/wanted
    launch tools/afdx-capture list --config examples/base.toml "$2"
    tell "$1" "$(is_status 0; same "$work/wanted" "$work/out")"
}

wireshark_tests() {
    tests/tools/sample_list.py examples/network.toml --ms 60 --sound >"$work/sound.list"
    launch tools/afdx-capture pcap "$work/sound.list" "$work/sound.pcap"
    launch tshark -r "$work/sound.pcap" -o eth.check_fcs:TRUE -o ip.check_checksum:TRUE -T fields \
        -e frame.time_epoch -e eth.dst -e eth.src -e eth.fcs.status -e ip.checksum.status \
        -e ip.src -e ip.dst -e udp.srcport -e udp.dstport -e data.data
    tell 'tshark reads what a list gave: times, addresses, payloads, both checksums good' "$(
        is_status 0
        "$python" tests/tools/expected_tshark_fields.py "$work/sound.list" >"$work/wanted"
        if [[ $(wc -l <"$work/wanted") -lt 100 ]]; then echo 'the sample is too small'; fi
        same "$work/wanted" "$work/out"
    )"
    printf 'B 7 A 1 %s\n' "$(frame_of A 0)" >"$work/bad.list"
    tools/afdx-capture pcap "$work/bad.list" "$work/bad.pcap" 2>"$work/err"
    launch tshark -r "$work/bad.pcap" -o eth.check_fcs:TRUE -T fields -e eth.fcs.status
    tell 'tshark sees a bad check sequence' "$(
        is_status 0
        printf '0\n' >"$work/wanted"
        same "$work/wanted" "$work/out"
    )"

    { dump_of '2026-01-02 03:04:05.000001000' "$(frame_of A 0)"
      dump_of '2026-01-02 03:04:05.001001000' "$(frame_of A 1)"; } >"$work/a.txt"
    { dump_of '2026-01-02 03:04:05.000003500' "$(frame_of B 0)"
      dump_of '2026-01-02 03:04:05.001000999' "$(frame_of B 1)"; } >"$work/b.txt"
    printf 'F 0 A 1 %s\nF 2500 B 1 %s\nF 999999 B 1 %s\nF 1000000 A 1 %s\n' "$(frame_of A 0)" \
        "$(frame_of B 0)" "$(frame_of B 1)" "$(frame_of A 1)" >"$work/wanted"
    launch text2pcap -q -F nsecpcap -t '%Y-%m-%d %H:%M:%S.%f' "$work/a.txt" "$work/ta.pcap"
    tell 'text2pcap writes pcap' "$(is_status 0)"
    launch text2pcap -q -F nsecpcap -t '%Y-%m-%d %H:%M:%S.%f' "$work/b.txt" "$work/tb.pcap"
    tell 'text2pcap writes it again' "$(is_status 0)"
    launch mergecap -I none -w "$work/two.pcapng" "$work/ta.pcap" "$work/tb.pcap"
    listed_as_wanted 'mergecap, two interfaces' "$work/two.pcapng"
    launch mergecap -I all -w "$work/one.pcapng" "$work/ta.pcap" "$work/tb.pcap"
    listed_as_wanted 'mergecap, one interface' "$work/one.pcapng"
    launch mergecap -a -I none -w "$work/behind.pcapng" "$work/tb.pcap" "$work/ta.pcap"
    local as_read=()
    if [[ $reads == *reorder* ]]; then
        listed_as_wanted 'a recording whose times go back' "$work/behind.pcapng"
        as_read=(--reorder 0)
    fi
    launch tools/afdx-capture list --config examples/base.toml "${as_read[@]}" "$work/behind.pcapng"
    tell 'a recording whose times go back, as read' "$(
        is_status 3
        says err 'recording TimeBack 3'
    )"
    launch reordercap "$work/behind.pcapng" "$work/ordered.pcapng"
    listed_as_wanted 'and in order' "$work/ordered.pcapng"
    launch tshark -r "$work/sound.pcap" -F pcapng -w "$work/sound.pcapng"
    tools/afdx-capture list --config examples/network.toml "$work/sound.pcap" \
        >"$work/wanted" 2>"$work/err"
    launch tools/afdx-capture list --config examples/network.toml --fcs yes "$work/sound.pcapng"
    tell 'tshark writes pcapng, and the list is the same' "$(
        is_status 0
        same "$work/wanted" "$work/out"
    )"
}

if [[ -z $dpkt || $reads != *list* ]]; then
    :
elif has tshark && has text2pcap && has mergecap; then
    wireshark_tests
else
    skip "recordings with Wireshark's programs" 'there is no tshark (apt-get install tshark)'
fi

# ---- what is to be taken from recordings ---------------------------------------------------

if has tshark && has tcpdump; then
    launch "$python" tests/run/recordings.py "$program"
    tell 'recordings: the reference, tshark and the rows say the same' "$(
        is_status 0
        grep -A 1 '^FAILED' "$work/out" | head -n 10 | cut -c 1-160
        grep '^skipped' "$work/out"
    )" "$(tail -n 1 "$work/out")"
else
    skip 'recordings against tshark' 'no tshark, or no tcpdump (apt-get install tshark tcpdump)'
fi
