# Cases of `send`; tests/run/program.sh reads this file.
#
# Lists and outputs are written with ` / ` between lines, as for `replay`.
# shellcheck shell=bash
# shellcheck disable=SC2154  # what it uses is set by tests/run/program.sh, which sources it

# From s1 of the tables; OUT has only the sequence byte and the payload of each frame.
sends() { # NAME LIST OUT
    lines_of "$2" >"$work/list"
    launch send "$work/tables.toml" s1 "$work/list"
    cp "$work/out" "$work/told"
    sed -E 's/^(R [0-9]+ [AB] [0-9]+) .{84}(..).*(..).{8}$/\1 \2 \3/' "$work/told" >"$work/out"
    tell "$1" "$(
        has_status 0
        differs 'standard output' "$(lines_of "$3")${3:+$'\n'}" "$work/out"
        differs 'standard error' '' "$work/err"
    )"
}

send_fault() { # NAME STATUS LIST OUT ERR
    lines_of "$3" >"$work/list"
    case_of "$1" "$2" "$(lines_of "$4")${4:+$'\n'}" "$5"$'\n' \
        send "$work/tables.toml" s1 "$work/list"
}

counted() { # NAME COUNTS : those of a replay of what was sent
    launch replay --summary "$work/tables.toml" "$work/sent"
    tell "$1" "$(
        has_status 0
        differs 'standard error' "summary $2"$'\n' "$work/err"
    )"
}

both() { # TIME PAYLOAD NUMBER
    printf 'R %s A 1 %s %s / R %s B 1 %s %s' "$1" "$2" "$3" "$1" "$2" "$3"
}

# ---- send: the example ---------------------------------------------------------------------

file_case 'send messages.list' 0 examples/messages.out '' \
    send examples/network.toml fcc1 examples/messages.list
launch replay examples/network.toml examples/messages.out
tell 'what was sent is accepted, and each message is read once' "$(
    has_status 0
    if grep -q 'drop\|^[LT]' "$work/out"; then echo 'a frame was dropped'; fi
    sent=$(grep -c '^R .* A ' examples/messages.out)
    copies=$(grep -c '^X .* redundant$' "$work/out")
    read=$(grep -c '^M' "$work/out")
    if [[ $read -ne $copies || $read -lt $sent ]]; then
        echo "$sent sent, $read read, $copies copies"
    fi
)"

# ---- send: messages ------------------------------------------------------------------------

tables ''
four_lists='0 1 1 1000 61 / 0 1 1 1000 62 / 0 1 2 1000 63 / 0 1 2 1000 64'
sends 'sub-VLs in turn' "$four_lists" \
    "$(both 6720 61 00) / $(both 1006720 63 01) / $(both 2006720 62 02) / $(both 3006720 64 03)"
cp "$work/told" "$work/sent"
frame61=03000000000102000000012008004500001d000000000111cdee0a000101e0e0000103e803e80009000061
tell 'the first frame, byte for byte' "$(
    head -n 1 "$work/sent" | grep -q "^R 6720 A 1 ${frame61}$(zeros 32)00" || head -n 1 "$work/sent"
)"
lines_of "$four_told" >"$work/wanted_file"
file_case 'what was sent, replayed' 0 "$work/wanted_file" '' replay "$work/tables.toml" "$work/sent"
counted 'its counts' 'lines 8 accepted 8 dropped 0 lost 0 departed 8 too-old 0 delivered 4'
sends 'refused submissions' \
    "0 2 1 1000 00 / 0 1 3 1000 00 / 0 1 1 1000 - / 0 1 1 1000 $(zeros 36)" \
    '# 1 S1 / # 2 S2 / # 3 S3 / # 4 S4'
many='# 65 S5'
for ((k = 0; k < 64; k++)); do
    many+=" / $(both $((k * 1000000 + 6720)) 61 "$(printf '%02x' "$k")")"
done
sends 'a full queue' "$(times 65 '0 1 1 1000 61')" "$many"
sends 'nothing to send' '' ''
sends 'a submission with leading zeros' '007 01 01 01000 6A' "$(both 6727 6a 00)"

# Messages of link 2 from s2, one a ms: their numbers go round, and each is read once and in order.
for ((k = 0; k < 300; k++)); do
    printf '%d 2 1 2000 %04x\n' $((k * 1000000)) "$k"
done >"$work/list"
launch send "$work/tables.toml" s2 "$work/list"
cp "$work/out" "$work/sent"
tell 'numbers from 0, then 1 to 255 round and round' "$(
    numbers=$(sed -nE 's/^R [0-9]+ A 2 .*(..).{8}$/\1/p' "$work/sent" |
        sed -n '1p;2p;256p;257p;258p;300p' | tr '\n' ' ')
    if [[ $numbers != '00 01 ff 01 02 2c ' ]]; then echo "$numbers"; fi
)"
printf '%s' "$all_told" >"$work/wanted_file"
file_case 'each message once and in order, as sent' 0 "$work/wanted_file" '' \
    replay "$work/tables.toml" "$work/sent"
counted 'their counts' \
    'lines 600 accepted 600 dropped 0 lost 0 departed 600 too-old 0 delivered 300'

# Messages of 1 to 1,471 bytes.
longer='s/^buffer = 252/buffer = 4096/; /^vl = 1/,/^lmax/s/^lmax = 64/lmax = 1518/'
tables "$longer; s/^latency_us = [0-9]+/latency_us = 1000/"
awk 'BEGIN {
    for (k = 1; k <= 1471; k++) {
        hex = hex "00"
        printf "%d 1 1 1000 %s\n", k * 1000000, hex
    }
}' >"$work/list"
launch send "$work/tables.toml" s1 "$work/list"
cp "$work/out" "$work/sent"
tell 'messages of every length' "$(
    has_status 0
    last=$(tail -n 1 "$work/sent" | cut -d ' ' -f 1-3)
    if [[ $(wc -l <"$work/sent") -ne 2942 || $last != 'R 1471123040 B' ]]; then
        echo "$(wc -l <"$work/sent") lines, the last $last"
    fi
)"
launch replay "$work/tables.toml" "$work/sent"
tell 'messages of every length, replayed' "$(
    has_status 0
    awk '/^V/ && !/accept$/ { print "dropped: " $0 }
        /^[LT]/ { print "lost: " $0 }
        /^M/ {
            k++
            if (length($5) != 2 * k) print "message " k " has " length($5) / 2 " bytes"
            last = $2
        }
        END { if (k != 1471 || last != 1471246080) print k " messages, the last at " last }' \
        "$work/out" | head -n 5
)"

# ---- send: faults --------------------------------------------------------------------------

tables ''
send_fault 'send: too few fields' 3 '0 1 1 1000 61 / 0 1 1 1000' '' 'list BadLine 2'
send_fault 'send: a link over 65535' 3 '0 65536 1 1000 61' '' 'list BadLine 1'
send_fault 'send: a sub-VL over 255' 3 '0 1 256 1000 61' '' 'list BadLine 1'
send_fault 'send: a UDP port over 65535' 3 '0 1 1 65536 61' '' 'list BadLine 1'
send_fault 'send: a time over 10^15' 3 '1000000000000001 1 1 1000 61' '' 'list TimeTooLarge 1'
send_fault 'send: a time that goes back' 3 '5 9 1 1000 61 / 4 1 1 1000 61' '# 1 S1' \
    'list TimeBack 2'
send_fault 'send: an odd number of digits' 3 '5 9 1 1000 61 / 5 1 1 1000 6' '# 1 S1' 'list BadHex 2'
case_of 'a system that is not there' 2 '' $'words NoSuchSystem\n' \
    send "$work/tables.toml" s9 "$work/list"
case_of 'a system that is not there, before admission' 2 '' $'words NoSuchSystem\n' \
    send "$work/small.toml" s9 "$work/list"
case_of 'the configuration before the system' 1 '' $'config BadProfile\n' \
    send "$work/bad.toml" s9 "$work/list"
case_of 'send needs an admitted network' 1 '' $'admit A2 3 252\n' \
    send "$work/small.toml" s1 "$work/list"
case_of 'send: CONFIG before SUBMISSIONS' 4 '' $'device Config\n' send "$work/none" s1 "$work/none"
case_of 'send: SUBMISSIONS before the system' 4 '' $'device List\n' send "$good" s9 "$work/none"
case_of 'send: SUBMISSIONS that is a folder' 4 '' $'device Read\n' send "$good" s1 "$work"
printf '0 1 1 1000 61\n' >"$work/list"
full_case 'send on a full device' 4 $'device Write\n' send "$good" s1 "$work/list"
closed_case 'send into a closed pipe' $'device Write\n' send "$good" s1 "$work/list"
text_case 'send without a system' 2 err SYSTEM send "$good"
