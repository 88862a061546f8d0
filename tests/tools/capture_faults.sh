# Tests of what afdx-capture does with input that is odd or broken, and with output that fails; a
# part of tests/run/tools.sh.
# shellcheck shell=bash
# shellcheck disable=SC2154  # what it uses is set by tests/run/tools.sh, which sources it
# shellcheck disable=SC2034  # what it sets is used there

is_fault() { # STATUS WORDS : one line that says them, and no more
    is_status "$1"
    says err "$2"
    if grep -q Traceback "$work/err" || [[ $(grep -vc 'lines, with' "$work/err") -ne 1 ]]; then
        head -n 5 "$work/err"
    fi
}

to_list() { # WORD.. : a list of a recording of the base tables
    launch tools/afdx-capture list --config examples/base.toml "$@"
}

# ---- recordings that are broken ------------------------------------------------------------

broken_tests() {
    printf 'x' >"$work/short.pcap"
    to_list "$work/short.pcap"
    tell 'a recording of one byte' "$(is_fault 3 'recording NotRecording 0')"
    to_list "$work"
    tell 'a folder is no recording' "$(is_fault 4 'device Read')"
    to_list "$work/none.pcap"
    tell 'a recording that is not there' "$(is_fault 4 'device List')"
    launch tools/afdx-capture list --config "$work/none.toml" "$work/short.pcap"
    tell 'a configuration that is not there' "$(is_fault 4 'device Config')"
    to_list --interface 0=C "$work/short.pcap"
    tell 'an interface at no side' "$(is_fault 2 'words BadInterface')"
    launch env AFDX=/nowhere tools/afdx-capture list --config examples/base.toml "$work/short.pcap"
    tell 'list without a program' "$(is_fault 4 /nowhere)"
    printf '#!/bin/sh\nkill -9 $$\n' >"$work/killed"
    chmod +x "$work/killed"
    launch env AFDX="$work/killed" tools/afdx-capture list --config examples/base.toml \
        -o "$work/no.list" "$work/short.pcap"
    tell 'list where the program is killed' "$(
        is_fault 137 'signal 9 ended the program'
        if [[ -e $work/no.list ]]; then echo 'there is a list'; fi
    )"
}

# ---- recordings that come otherwise than as plain files --------------------------------------

pipe_tests() {
    printf 'F 0 A 1 %s\nF 2500 B 1 %s\n' "$(frame_of A 0)" "$(frame_of B 0)" >"$work/two.list"
    capture pcap "$work/two.list" "$work/two.pcap"
    capture list --config examples/base.toml "$work/two.pcap" >"$work/wanted"
    status=0
    tools/afdx-capture list --config examples/base.toml - <"$work/two.pcap" >"$work/out" \
        2>"$work/err" || status=$?
    tell 'a recording on standard input' "$(is_status 0; same "$work/wanted" "$work/out")"
    {
        head -c 1 "$work/two.pcap"
        "$python" tests/lib/until_read.py
        tail -c +2 "$work/two.pcap"
    } | tools/afdx-capture list --config examples/base.toml - >"$work/out" 2>"$work/err"
    tell 'through a pipe, its first byte alone' "$(same "$work/wanted" "$work/out")"
    gzip -c "$work/two.pcap" >"$work/two.pcap.gz"
    zcat "$work/two.pcap.gz" | tools/afdx-capture list --config examples/base.toml - \
        >"$work/out" 2>"$work/err"
    tell 'a recording packed by gzip, by zcat' "$(same "$work/wanted" "$work/out")"
}

# ---- where the output goes -------------------------------------------------------------------

written_as() { # NAME WORD.. : each command, which is to write to the last of its words
    local name=$1
    shift
    launch tools/afdx-capture list --config examples/base.toml -o "$@" "$work/two.pcap"
    tell "list onto $name" "$(is_status 0; still_there "$@")"
    launch tools/afdx-capture pcap "$work/two.list" "$@"
    tell "pcap onto $name" "$(is_status 0; still_there "$@")"
}

still_there() { # PATH : it is what it was
    if [[ $(stat -c %F "$1") != "$kind" ]]; then stat -c %F "$1"; fi
    if compgen -G "$1*.part" >/dev/null; then echo 'a part was left'; fi
}

output_tests() {
    local kind
    echo old >"$work/behind"
    ln -s behind "$work/link"
    kind='symbolic link'
    written_as 'a symbolic link' "$work/link"
    tell 'what is behind a symbolic link is written' "$(cmp "$work/behind" "$work/two.pcap" 2>&1)"
    mkfifo "$work/fifo"
    kind='fifo'
    cat "$work/fifo" >"$work/got" &
    launch tools/afdx-capture pcap "$work/two.list" "$work/fifo"
    wait $!
    tell 'pcap onto a FIFO' "$(
        is_status 0
        still_there "$work/fifo"
        cmp "$work/got" "$work/two.pcap" 2>&1
    )"
    if mknod "$work/null" c 1 3 2>/dev/null && { : >"$work/null"; } 2>/dev/null; then
        kind='character special file'
        written_as 'a device' "$work/null"
    else
        skip 'output onto a device' 'only root may make one'
    fi
    launch tools/afdx-capture pcap "$work/two.list" "$work"
    tell 'pcap onto a folder' "$(is_fault 4 'Is a directory')"
    launch tools/afdx-capture pcap "$work/two.list" "$work/none/x.pcap"
    tell 'pcap into a folder that is not there' "$(is_fault 4 'No such file or directory')"
}

failing_output_tests() {
    local row
    for row in "list --config examples/base.toml $work/two.pcap" "pcap $work/two.list -" \
        "annotate examples/base.toml $work/two.list -"; do
        # shellcheck disable=SC2086
        set -- $row
        status=0
        tools/afdx-capture "$@" >/dev/full 2>"$work/err" || status=$?
        tell "$1: a full device" "$(is_fault 4 'standard output: No space left on device')"
        status=0
        tools/afdx-capture "$@" >&- 2>"$work/err" || status=$?
        tell "$1: standard output is closed" "$(is_fault 4 'standard output: it is closed')"
        status=0
        tools/afdx-capture "$@" >"$work/wanted" 2>"$work/err" || status=$?
        tools/afdx-capture "$@" >"$work/out" 2>&- || status=$?
        tell "$1: standard error is closed" "$(is_status 0; same "$work/wanted" "$work/out")"
    done
    tests/tools/sample_list.py examples/network.toml --ms 60 >"$work/sample.list"
    { tools/afdx-capture pcap "$work/sample.list" - 2>"$work/err"; echo $? >"$work/status"; } |
        head -c 1 >"$work/out"
    status=$(<"$work/status")
    tell 'a pipe that its reader closes' "$(is_fault 4 'standard output: Broken pipe')"
}

# ---- how far it is, on a terminal ------------------------------------------------------------

progress_tests() { # a list that comes slowly: two seconds after its first half is read
    {
        seq 1500 | sed 's/.*/F & A 1 0300/'
        "$python" tests/lib/until_read.py
        sleep 2.1
        seq 1501 3000 | sed 's/.*/F & A 1 0300/'
    } >"$work/slow.fifo" &
    script -qec "tools/afdx-capture pcap $work/slow.fifo $work/slow.pcap" /dev/null \
        >"$work/out" 2>&1 </dev/null
    wait $!
    tell 'progress on a terminal' "$(
        says out ',000 lines' # the 2,000th, and on a busy machine an earlier one
        says out '3000 frames written'
    )"
    launch tools/afdx-capture pcap "$work/two.list" "$work/two.pcap"
    tell 'and none elsewhere' "$(if [[ $(wc -l <"$work/err") -ne 1 ]]; then cat "$work/err"; fi)"
}

# ---- lists and words that are wrong ----------------------------------------------------------

no_recording_tests() {
    local row
    echo old >"$work/old.pcap"
    while IFS='|' read -r -a row; do
        printf 'F 0 A 1 %s\n%s\n' "$(frame_of A 0)" "${row[0]}" >"$work/bad.list"
        # shellcheck disable=SC2086
        launch tools/afdx-capture pcap ${row[2]-} "$work/bad.list" "$work/old.pcap"
        tell "no recording of: ${row[0]:-nothing} ${row[2]-}" "$(
            is_fault 2 "${row[1]}"
            if [[ $(<"$work/old.pcap") != old ]]; then echo 'the old recording is gone'; fi
            if compgen -G "$work/*.part" >/dev/null; then echo 'a part was left'; fi
        )"
    done <<'ROWS'
F 0 A 1|line 2 is no line of a frame list
F 0 A 1 0x|line 2 has no hexadecimal digits
F -1 A 1 00|the time of line 2 is -1 ns
F 99999999999999999999 A 1 00|the time of line 2 is 99999999999999999999 ns
|the time of line 1 is -5 ns since 1970|--origin -5
|the time of line 1 is 99999999999999999999 ns|--origin 99999999999999999999
ROWS
    to_list --origin -1 "$work/two.pcap"
    tell 'a list whose origin is no number' "$(is_status 2)"
    to_list --origin 9223372036854775807 "$work/two.pcap"
    tell 'a list whose origin lies far ahead has no arrival' "$(
        is_fault 3 'recording NoArrival 2'
        printf '# before-origin 1\n# before-origin 2\n' >"$work/wanted"
        same "$work/wanted" "$work/out"
    )"
}

# ---- without check sequences -----------------------------------------------------------------

sealed_by() { # HEX : with its check sequence
    "$python" -c 'import sys, zlib; b = bytes.fromhex(sys.argv[1])
print((b + zlib.crc32(b).to_bytes(4, "little")).hex())' "$1"
}

fcs_tests() {
    {
        printf 'F 0 A 1 %s\nB 5 A 1 %s\n' "$(frame_of A 0)" "$(frame_of A 1)"
        printf 'R 9 A 1 %s\nR 11 A 1 0300\n' "$(sealed_by "$(frame_of A 2)")"
    } >"$work/four.list"
    launch tools/afdx-capture pcap --fcs no "$work/four.list" "$work/no.pcap"
    tell 'frames without their check sequences' "$(
        is_status 0
        says err '2 frames written, without check sequence'
        says err '2 left out: a wrong check sequence'
    )"
    to_list "$work/no.pcap"
    tell 'they come back as F lines' "$(
        is_status 0
        printf 'F 0 A 1 %s\nF 9 A 1 %s\n' "$(frame_of A 0)" "$(frame_of A 2)" >"$work/wanted"
        same "$work/wanted" "$work/out"
    )"
}

if [[ -n $dpkt && $reads == *list* ]]; then
    broken_tests
    pipe_tests
    output_tests
    if [[ -n $built ]]; then failing_output_tests; fi
    if has script; then
        mkfifo "$work/slow.fifo"
        progress_tests
    else
        skip 'progress on a terminal' 'there is no script (apt-get install bsdutils)'
    fi
    no_recording_tests
    fcs_tests
fi
