# Cases of `conform` over recordings; tests/run/program.sh reads this file behind conform.sh.
# shellcheck shell=bash
# shellcheck disable=SC2154  # what it uses is set by tests/run/program.sh, which sources it
# shellcheck disable=SC2034  # what it sets is used there

"$program" conform --help >"$work/out" 2>&1 || true
if ! grep -q -- --left "$work/out"; then
    skip 'conform over recordings' "the program doesn't have it"
    return 0
fi

# ---- recordings in hexadecimal -------------------------------------------------------------------

section=0a0d0d0a1c0000004d3c2b1a01000000ffffffffffffffff1c000000
interface=0100000020000000010000000000000009000100090000000000000020000000 # in ns

low() { # NUMBER : 32 bits, the low byte first
    local digits
    printf -v digits %08x "$1"
    echo "${digits:6:2}${digits:4:2}${digits:2:2}${digits:0:2}"
}

packet() { # INTERFACE NS FRAME : a frame of 60 bytes
    echo "060000005c000000$(low "$1")00000000$(low "$2")3c0000003c000000${3}5c000000"
}

lost() { # INTERFACE COUNT : its recorder lost so many
    echo "0500000028000000$(low "$1")000000000000000005000800$(low "$2")000000000000000028000000"
}

recorded() { # FILE HEX.. : a section with two interfaces, and these blocks
    local file=$1 digits at
    shift
    printf -v digits %s "$section$interface$interface" "$@"
    for ((at = 0; at < ${#digits}; at += 2)); do
        printf '%b' "\\x${digits:at:2}"
    done >"$file"
}

came=$(packet 0 0 "$frame") left=$(packet 1 6720 "$frame") late=$(packet 1 17001 "$frame")
foreign=$(packet 0 20000 "ffffffffffff${frame:12}")
recorded "$work/both" "$came" "$left"
recorded "$work/came" "$came"
recorded "$work/left" "$(packet 0 6720 "$frame")" "$foreign"
recorded "$work/mixed" "$(packet 0 6720 "$frame")" "$left" "$foreign"
recorded "$work/late" "$came" "$late"
recorded "$work/lossy" "$came" "$left" "$(lost 0 5)" "$(lost 1 32)"
recorded "$work/back" "$left" "$came"
recorded "$work/nothing"
here=(--interface '0=A:1' --left '1=A:3') # of one recording
apart=(--interface '0=A:1' --left '0=A:3')

seen() { # VERDICT EXPLAINED OPEN UNCERTAIN LEFT_OUT UNSEEN [IDLE] : the last line
    echo "$1 explained $2 open $3 uncertain $4 left-out $5 unseen $6 idle ${7-0}"
}

skipped_line() { # LEFT_OUT NOT_AFDX LOST CLAIMED UNUSED : what --summary says of a recording
    echo "skipped no-frame 0 left-out $1 not-afdx $2 unknown-sender 0 no-network 0" \
        "before-origin 0 recorder-lost $3 claimed $4 contradicted 0 unused $5"
}

# ---- one, and two --------------------------------------------------------------------------------

right=$(seen conforms 1 0 0 0 3)$'\n'
case_of 'conform: one recording' 0 "$right" '' conform "${here[@]}" "$rules" "$work/both"
input=$work/both
case_of 'conform: one recording, by standard input' 0 "$right" '' \
    conform --line-buffered "${here[@]}" "$rules" -
input=/dev/null
case_of 'conform: one recording of which a frame is late' 5 \
    "late 1 A 3 1"$'\n'"$(seen 'deviates 1' 0 0 0 0 3)"$'\n' '' \
    conform "${here[@]}" "$rules" "$work/late"
case_of 'conform: one recording with all options' 0 "$right" '' conform "${here[@]}" --fcs no \
    --stamps end --reorder 0 --lossy --exercised "$rules" "$work/both"
case_of 'conform: all ports of a side' 0 "$(seen conforms 1 0 0 0 2 1)"$'\n' '' \
    conform --interface 0=A --left 1=A:3 "$rules" "$work/both"
foreign_left="strange 2 A 3 bad-address"$'\n'"$(seen 'deviates 1' 1 0 0 0 3)"$'\n'
case_of 'conform: two recordings' 5 "$foreign_left" '' \
    conform "${apart[@]}" "$rules" "$work/came" "$work/left"
input=$work/left
case_of 'conform: two recordings, that of LEFT by standard input' 5 "$foreign_left" '' \
    conform --line-buffered "${apart[@]}" "$rules" "$work/came" -
input=/dev/null
left_out=$(seen conforms 1 0 0 1 3)$'\n'
case_of 'conform: what is no frame of a link is left out' 0 "$left_out" '' \
    conform "${apart[@]}" --leave-out other "$rules" "$work/came" "$work/left"
case_of 'conform: stamps of starts' 0 "$(seen conforms 1 0 0 0 3)"$'\n' '' \
    conform "${here[@]}" --stamps end-start "$rules" "$work/both"
case_of 'conform: stamps of starts where frames came' 0 "$(seen conforms 1 0 0 0 3)"$'\n' '' \
    conform "${here[@]}" --stamps start-end "$rules" "$work/late"

# ---- two without options -------------------------------------------------------------------------

magic() { # HEX : a file of these bytes
    local at
    for ((at = 0; at < ${#1}; at += 2)); do printf '%b' "\\x${1:at:2}"; done >"$work/begins"
}
spelled 'F 0 A 1 H1' >"$work/came.list"
spelled 'F 6720 A 3 H1' >"$work/left.list"
for bytes in a1b2c3d4 d4c3b2a1 a1b23c4d 4d3cb2a1 0a0d0d0a; do
    magic "$bytes"
    case_of "conform: what came begins with $bytes, without options" 2 '' \
        $'words BadInterface\n' conform "$rules" "$work/begins" "$work/left.list"
    case_of "conform: what left begins with $bytes, without options" 2 '' \
        $'words BadInterface\n' conform "$rules" "$work/came.list" "$work/begins"
    magic "${bytes:0:6}"
    line=1
    if [[ $bytes == 0a* ]]; then line=2; fi
    case_of "conform: three bytes of $bytes are a list" 3 '' "list came BadLine $line"$'\n' \
        conform "$rules" "$work/begins" "$work/left.list"
done
for bytes in 1f8b0800 28b52ffd 425a6839 fd377a58 504b0304; do
    magic "$bytes"
    case_of "conform: what came is packed as $bytes, without options" 3 '' \
        $'recording Packed came\n' conform "$rules" "$work/begins" "$work/both"
    case_of "conform: what left is packed as $bytes, without options" 3 '' \
        $'recording Packed left\n' conform "$rules" "$work/came.list" "$work/begins"
done
for option in interface left; do
    tell "conform: the explanation names --$option, which recordings need" "$(
        both=("$work/came" "$work/left.list")
        if [[ $option == left ]]; then both=("$work/came.list" "$work/left"); fi
        "$program" conform --explain "$rules" "${both[@]}" >"$work/out" 2>"$work/err" || true
        grep -q -- "There is no --$option, and recordings" "$work/err" || cat "$work/err"
    )"
done
input=$work/came
case_of 'conform: a recording by standard input, without options' 2 '' $'words BadInterface\n' \
    conform "$rules" "$work/came.list" -
input=/dev/null
fault_case 'two recordings without options, before a wrong configuration' 2 'words BadInterface' \
    "$wrong" "$work/came" "$work/left"
fault_case 'a number, before two recordings without options' 2 'words BadNumber' \
    --slack 1000001 "$rules" "$work/came" "$work/left"
fault_case 'one that cannot be read, before a wrong configuration' 4 'device Read' \
    "$wrong" / "$work/left"

# ---- what was left out, and what was lost --------------------------------------------------------

case_of 'conform --summary of one recording' 0 "$right$(skipped_line 0 0 0 0 0)"$'\n' '' \
    conform --summary "${here[@]}" "$rules" "$work/both"
case_of 'conform --summary of one recording, claimed' 0 \
    "$(seen conforms 1 0 0 0 2 1)"$'\n'"$(skipped_line 0 0 0 1 0)"$'\n' '' \
    conform --summary --interface 0=A --left 1=A:3 "$rules" "$work/both"
case_of 'conform --summary of two recordings, of which one lost frames' 5 \
    "${foreign_left/2 A/3 A}$(skipped_line 1 0 37 0 0)"$'\n'"$(skipped_line 1 0 0 0 0)"$'\n' '' \
    conform --summary --line-buffered --lossy "${apart[@]}" "$rules" "$work/lossy" "$work/mixed"
case_of 'conform: frames that the recorder lost' 3 '' $'recording Lossy 37\n' \
    conform --summary "${here[@]}" "$rules" "$work/lossy"
case_of 'conform: frames that both recorders lost' 3 '' $'recording Lossy 74\n' \
    conform "${here[@]}" "$rules" "$work/lossy" "$work/lossy"
case_of 'conform: frames that may be lost' 0 "$right" '' \
    conform --lossy "${here[@]}" "$rules" "$work/lossy"

case_of 'conform: an interface that is not there' 3 '' $'recording Absent 4\n' \
    conform --summary "${here[@]}" --interface 7=B:9 --interface 4=B:1 "$rules" "$work/both"
case_of 'conform: an interface that is not there, behind a finding' 3 $'late 1 A 3 1\n' \
    $'recording Absent 2\n' conform "${here[@]}" --left 2=B:3 "$rules" "$work/late"
case_of 'conform: an interface that is not there, and lost frames' 3 '' $'recording Absent 7\n' \
    conform --lossy "${here[@]}" --left 7=B:3 "$rules" "$work/lossy"
case_of 'conform: an interface that what came has not' 3 '' $'recording Absent 2 came\n' \
    conform --line-buffered "${apart[@]}" --interface 2=B:1 --left 9=B:3 --leave-out other \
    "$rules" "$work/came" "$work/left"
case_of 'conform: an interface that what left has not' 3 '' $'recording Absent 9 left\n' \
    conform "${apart[@]}" --left 9=B:3 --leave-out other "$rules" "$work/came" "$work/left"
case_of 'conform: not all that was seen was exercised' 3 "$(seen undecided 1 0 0 0 2 1)"$'\n' '' \
    conform --exercised --interface 0=A --left 1=A:3 "$rules" "$work/both"
recorded "$work/elsewhere" "$came" "$(packet 1 6720 "${frame:0:10}02${frame:12}")"
case_of 'conform: a frame where its link does not go, whose sender was not recorded' 5 \
    $'strange 2 A 1 not-its-port\n'"$(seen 'deviates 1' 0 0 0 0 4)"$'\n' '' \
    conform --interface 0=A:1 --left 1=A:1 "$rules" "$work/elsewhere"

# ---- the order of faults -------------------------------------------------------------------------

bad=$'words BadInterface' number=$'words BadNumber'
fault_case 'LEFT before interfaces' 4 'device List' --lossy "$wrong" - "$none"
fault_case 'one input that is none, before interfaces' 4 'device List' "$wrong" "$none"
for words in '--interface 0=A:1' '--left 0=A:3' '--fcs yes' '--stamps end' '--reorder 0' --lossy; do
    # shellcheck disable=SC2086  # two words each
    fault_case "interfaces before numbers and one input, $words" 2 "$bad" \
        $words --slack 1000001 "$wrong" - -
done
fault_case 'one input needs interfaces' 2 "$bad" "$wrong" -
fault_case 'one input needs --left' 2 "$bad" --interface 0=A:1 "$wrong" -
fault_case 'one input needs --interface' 2 "$bad" --left 0=A:1 "$wrong" -
for word in =A 0 0= 0=C 0=a 00000=A 4096=A -1=A x=A '0=A ' '0=A:' 0=A:0 0=A:25 0=A:001 0=A:x \
    0=A:1:2 0=- '0=A fwd' '0=A fwd:1' ' 0=A' ''; do
    fault_case "an interface '$word'" 2 "$bad" "--interface=$word" --left 1=A:3 "$wrong" -
    fault_case "what left at '$word'" 2 "$bad" --interface 1=A:1 "--left=$word" "$wrong" -
done
fault_case 'what left at no port' 2 "$bad" --interface 1=A:1 --left 0=A "$wrong" -
fault_case 'an interface twice in one recording' 2 "$bad" \
    --interface 0=A:1 --left 00=A:3 "$wrong" -
fault_case 'an interface of CAME twice' 2 "$bad" \
    --interface 0=A:1 --interface 0=A:1 --left 0=A:3 "$wrong" - -
fault_case 'an interface of LEFT twice' 2 "$bad" \
    --interface 0=A:1 --left 0=A:3 --left 0=B:3 "$wrong" - -
fault_case 'no port of a switch of several' 2 "$bad" \
    --switch fwd --interface 0=A --left 1=A:3 "$two" -
fault_case 'numbers before one input of recordings' 2 "$number" --reorder 100001 "${apart[@]}" \
    "$wrong" - -
fault_case 'a number of two lists and of recordings' 2 "$number" --drift 1001 "${apart[@]}" \
    "$wrong" - -
fault_case 'one input before the configuration, of recordings' 2 'words SameInput' \
    "${apart[@]}" "$wrong" - -
fault_case 'the configuration before its switch, of one recording' 1 'config BadProfile' \
    --switch k "${here[@]}" "$wrong" -
fault_case 'the switch before the recordings' 2 'words NoSuchSwitch' \
    --switch k "${apart[@]}" "$rules" "$work/wrong.list" "$work/wrong.list"
fault_case 'no switch of two, of one recording' 2 'words NoSuchSwitch' \
    --interface 0=A --left 1=A:3 "$two" "$work/wrong.list"
fault_case 'no recording of both' 3 'recording NotRecording 0' "${here[@]}" "$rules" /dev/null
fault_case 'no recordings, CAME before LEFT' 3 'recording NotRecording 0 came' \
    "${apart[@]}" "$rules" "$work/wrong.list" "$work/wrong.list"
fault_case 'no recording of what left' 3 'recording NotRecording 0 left' \
    "${apart[@]}" "$rules" "$work/came" "$work/wrong.list"
fault_case 'a recording that is a folder' 4 'device Read' "${here[@]}" "$rules" "$work"
fault_case 'a recording of LEFT that is a folder' 4 'device Read' \
    "${apart[@]}" "$rules" "$work/came" "$work"
fault_case 'nothing in one recording came or left' 3 'recording NoArrival 2' \
    --interface 2=A:1 --left 3=A:3 "$rules" "$work/both"
fault_case 'times of one recording that go back' 3 'recording TimeBack 2' \
    --line-buffered "${here[@]}" "$rules" "$work/back"
case_of 'conform: no frame in a recording' 3 "$(seen undecided 0 0 0 0 3 1)"$'\n' '' \
    conform "${here[@]}" "$rules" "$work/nothing"
case_of 'conform of one of two switches, by a recording' 3 "$(seen undecided 0 0 0 0 4)"$'\n' '' \
    conform --switch fwd "${here[@]}" "$two" "$work/nothing"

# ---- words, and outputs that fail ----------------------------------------------------------------

for word in --interface --left --fcs --stamps --reorder --lossy pcapng 'recording Lossy' \
    '--interface 0=A:1 --left 1=A:3' 'start-end'; do
    text_case "help of conform tells of $word" 0 out "$word" conform --help
done
for word in --stamps=first --stamps=start-start --fcs=maybe --reorder=x --lossy=yes --origin=1; do
    text_case "conform $word" 2 err "${word%%=*}" conform "${here[@]}" "$word" "$rules" "$work/both"
done
full_case 'conform --summary on a full device' 4 $'device Write\n' \
    conform --summary "${here[@]}" "$rules" "$work/both"
full_case 'conform --summary on a full device, and a finding' 5 '' \
    conform --summary "${here[@]}" "$rules" "$work/late"
full_case 'conform --summary on a full device, and lost frames' 3 $'recording Lossy 37\n' \
    conform --summary "${here[@]}" "$rules" "$work/lossy"
full_case 'conform of one recording on a full device, each line at once' 4 $'device Write\n' \
    conform --line-buffered "${here[@]}" "$rules" "$work/late"

# ---- Ctrl-C while it is recorded -----------------------------------------------------------------

interrupted() { # INPUT [--blocks]
    python3 "$top/tests/program/interrupted.py" "$program" "$@" 2>&1 || true
}

for input_of in pipe fifo lists; do
    tell "conform --line-buffered: after Ctrl-C its findings stand there, $input_of" \
        "$(interrupted "$input_of")"
    tell "conform: after Ctrl-C none stands in a pipe, $input_of" \
        "$(interrupted "$input_of" --blocks)"
done
