# Cases of `explain` and of the option --explain; tests/run/program.sh reads this file.
# shellcheck shell=bash
# shellcheck disable=SC2154  # what it uses is set by tests/run/program.sh, which sources it
# shellcheck disable=SC2034  # what it sets is used there

# The fault's one line comes first and as ever, then text that has these words.
explained_case() { # NAME STATUS OUT FAULT WORDS WORD..
    local name=$1 wanted=$2 out=$3 fault=$4 find=$5
    shift 5
    launch "$@"
    tell "$name" "$(
        has_status "$wanted"
        differs 'standard output' "$out" "$work/out"
        if [[ $(head -n 1 "$work/err") != "$fault" ]]; then
            echo "the first line is not '$fault'"
        fi
        if ! grep -qF -- "$find" "$work/err"; then echo "no '$find' in the text"; fi
    )"
}

tell 'each row of FORMATS is explained in its words' \
    "$(python3 "$top/tests/program/explained_formats.py" "$program" 2>&1 || true)"

tell 'a fault is found in a configuration' \
    "$(python3 "$top/tests/program/located_faults.py" "$program" 2>&1 || true)"

text_case 'a key by its number' 0 out 'Key 7 of a link is jitter_us: 0 to 1000 times bag_ms.' \
    explain 'config Missing link 1 key 7'
text_case 'the same in several words' 0 out 'the key is absent' explain config Missing link 1 key 7
text_case 'a key of a switch' 0 out 'Key 6 of a switch is name: ' \
    explain 'config Missing switch 1 top 0 key 6'
text_case 'a key in a switch' 0 out 'where from is a neighbour, up to' \
    explain 'config OutOfRange switch 2 link 1 key 7'
text_case 'a link over several switches' 0 out 'E vl system ns: ' explain E 1 s3 35000
text_case 'a condition of several switches' 0 out 'B3 switch vl needed: ' explain no B3 aft 1 517
text_case 'a condition of one of several switches' 0 out 'A3 port vl bound: ' \
    explain no A3 fwd 24 1 10080
text_case 'a reason' 0 out 'over-rate: ' explain over-rate
text_case 'a line of one of several switches' 0 out 'at the switch of this name' \
    explain V 1 A fwd drop over-rate
text_case 'a line of a switch that is named as a word' 0 out 'accept: ' explain V 1 A drop accept
text_case 'a configuration of several switches' 0 out 'each with a' explain config BadProfile
text_case 'what a link needs at one of several switches' 0 out 'stands before PORT' \
    explain 'vl 1 at aft 3: 13810 ns needed, 1 us asked'
case_of 'no line of the program' 2 '' $'words UnknownText\n' explain nonsense
case_of 'a key that is not there' 2 '' $'words UnknownText\n' explain config Missing link 1 key 13
case_of 'a line feed is none of a line' 2 '' $'words UnknownText\n' explain $'memory\n'
case_of 'an empty text' 2 '' $'words UnknownText\n' explain ''
for line in ' ' 'config' 'config Twice link 1 key 7' 'config Missing link x key 7' \
    'config Missing link  key 7' 'config Missing link 1 key 7 ' ' config Missing link 1 key 7' \
    'list BadHex x' 'list over-rate' 'recording BadHex' 'BadHex 1' 'V 7 C drop over-rate' \
    'V 7 A drop overrate' '# 1 S6' 'n' '*' 'no|admit A1 3' 'config Missing top 0 key 6' \
    'config Missing switch 1 key 2' 'config BadProfile switch 2 top 0 key 2' \
    'config Twice link 1 key 2' 'config Missing switch 1 neighbour 1 key 4' 'S fwd aft' 'E 1 s3' \
    'V 1 fwd accept' 'V 1 A fwd aft accept' 'D 1 6720 C fwd 24' 'early 2 aft 5'; do
    case_of "no line of the program: '$line'" 2 '' $'words UnknownText\n' explain "$line"
done
for line in 'recording Ended 4 C' 'recording Ended 4 A B' 'recording Ended A' 'recording Ended 4A' \
    'recording Ended 4  A' ' A' 'list BadHex 1 A' 'recording Ended 4 gone' 'recording Ended came' \
    'recording Ended 4 came A' 'recording Ended 4 A left' 'recording Ended 4left' ' came'; do
    case_of "no line of two recordings: '$line'" 2 '' $'words UnknownText\n' explain "$line"
done
tell 'a fault is explained alike for each of two recordings' "$(
    meant=$("$program" explain recording Damaged 4)
    for which in A B came left; do
        [[ $("$program" explain recording Damaged 4 $which) == "$meant" ]] || echo "not for $which"
    done
)"
for name in OutOfRange 'config OutOfRange' TooManyLines BadHex 'list BadHex' 'recording Cut' \
    NotToml NotText 'device Read' Config; do
    text_case "the name of a fault: '$name'" 0 out ' ' explain "$name"
done
text_case 'frames that a recorder lost' 0 out '--lossy' explain recording Lossy 37
text_case 'an interface that is not there' 0 out 'capinfos' explain recording Absent 4 came
text_case 'of frames that a recorder lost, what was judged' 0 out 'All frames' \
    explain recording Lossy 37
text_case 'a name of two faults' 0 out "'recording TimeBack'" explain TimeBack
text_case 'the other fault of this name' 0 out 'arrivals in front' explain recording TimeBack
text_case 'help of explain' 0 out 'afdx explain over-rate' explain --help
text_case 'each word' 0 out 'drop over-rate' explain --list
text_case 'neither a text nor each word' 2 err 'TEXT' explain
full_case 'an explanation to a full device' 4 $'device Write\n' explain memory
full_case 'each word to a full device' 4 $'device Write\n' explain --list

{
    "$program" check examples/network.toml || true
    "$program" check examples/refused.toml || true
    "$program" check --margins examples/two_switches.toml || true
    "$program" replay --no-admission examples/gigabit.toml examples/gigabit.list
    "$program" send --summary examples/network.toml fcc1 examples/messages.list 2>&1
    echo '0 2 1 2000 61' | "$program" send examples/two_switches.toml s2 - | tee "$work/s2.list"
    "$program" replay examples/two_switches.toml "$work/s2.list"
} >"$work/lines"
tell 'each line of the examples is explained' "$(
    sort -u -t ' ' -k 1,1 -k 5,5 "$work/lines" >"$work/some"
    [[ -s $work/some ]] || echo 'no lines'
    while IFS= read -r line; do
        "$program" explain "$line" >/dev/null 2>&1 || echo "'$line' is not explained"
    done <"$work/some"
)"

sed 's/^bag_ms = .*/bag_ms = 3/' examples/base.toml >"$work/explained.toml"
explained_case 'check explains a fault' 1 '' 'config OutOfRange link 1 key 4' \
    'Key 4 of a link is bag_ms: 1, 2, 4, 8, 16, 32, 64 or 128.' \
    check --explain "$work/explained.toml"
sed 's/^jitter_us = 517/jitter_us = 101001/' examples/two_switches.toml >"$work/explained.toml"
for words in 'where from is a neighbour, up to' \
    'jitter_us of link 1 (vl 1) of switch 2 (name aft) is 101001.'; do
    explained_case "check explains a fault in a switch: '$words'" 1 '' \
        'config OutOfRange switch 2 link 1 key 7' "$words" check --explain "$work/explained.toml"
done
printf 'profile = 1\nbuffer = = 2\n' >"$work/explained.toml"
explained_case 'where a text stops being TOML' 1 '' 'config NotToml' 'line 2, column 10' \
    check --explain "$work/explained.toml"
printf 'profile = 1\n\nbuffer = "\xff"\n' >"$work/explained.toml"
explained_case 'where a text stops being UTF-8' 1 '' 'config NotToml' 'line 3, column 11' \
    replay --explain "$work/explained.toml" examples/one_link.list
launch check --explain examples/refused.toml
tell 'check explains a line of admission' "$(
    has_status 1
    if ! grep -qF 'A3 port vl bound' "$work/err"; then echo 'no explanation'; fi
    if [[ $(tail -n 1 "$work/out") != 'no A3 7 104 267995' ]]; then echo 'another last line'; fi
)"
sed 's/^jitter_us = 517/jitter_us = 500/' examples/two_switches.toml >"$work/explained.toml"
launch check --explain "$work/explained.toml"
tell 'check explains a line of admission of several switches' "$(
    has_status 1
    if ! grep -qF 'B3 switch vl needed' "$work/err"; then echo 'no explanation'; fi
    if [[ $(tail -n 1 "$work/out") != 'no B3 aft 1 517' ]]; then echo 'another last line'; fi
)"
case_of 'nothing to explain' 0 "$three" '' police --explain 1 64 500 examples/one_link.list
case_of 'nothing to explain of a configuration' 0 "$base"$'ok\n' '' \
    check --explain examples/base.toml
case_of 'nothing to explain of a replay' 0 '' '' replay --explain examples/base.toml -
case_of 'nothing to explain of messages' 0 '' '' send --explain examples/base.toml s1 -
explained_case 'police explains a number' 2 '' 'words BadRule' \
    'JITTER_US is 0 to 1000 times BAG_MS' police --explain 1 64 1001 examples/one_link.list
explained_case 'police explains a path' 4 '' 'device List' "$work/none: No such file or directory" \
    police --explain 1 64 500 "$work/none"
explained_case 'police explains a folder' 4 '' 'device Read' "$work: Is a directory" \
    police --explain 1 64 500 "$work"
input=$work
explained_case 'police explains standard input' 4 '' 'device Read' \
    'standard input: Is a directory' police --explain 1 64 500 -
input=/dev/null
listed $'F 0 A 1 0\n'
explained_case 'police explains a line' 3 '' 'list BadHex 1' 'An odd number of digits' \
    police --explain 1 64 500 -
input=/dev/null
listed $'F 0 A 1 0\n'
explained_case 'always' 3 '' 'list BadHex 1' 'An odd number of digits' \
    police --explain=always 1 64 500 -
input=/dev/null
listed $'F 0 A 1 0\n'
case_of 'never' 3 '' $'list BadHex 1\n' police --explain=never 1 64 500 -
input=/dev/null
listed $'F 0 A 1 0\n'
case_of 'no terminal, no explanation' 3 '' $'list BadHex 1\n' police --explain=auto 1 64 500 -
input=/dev/null
on_terminal() { # WORD.. : what the program writes there, of a path that isn't there
    python3 tests/lib/on_terminal.py "$program" police "$@" 1 64 500 "$work/none"
}
tell 'a terminal is told what a fault means' "$(
    if [[ $(on_terminal) != "$(on_terminal --explain)" ]]; then echo 'no explanation'; fi
    if [[ $(on_terminal) != *"$work/none: No such file or directory"* ]]; then echo 'no path'; fi
    if [[ $(on_terminal --explain=never) != 'device List' ]]; then echo 'never explained'; fi
)"
printf 'F 0 A 1 00\n' | gzip >"$work/packed.list.gz"
explained_case 'police explains a packed list' 3 '' 'recording Packed' 'zcat FILE | afdx' \
    police --explain 1 64 500 "$work/packed.list.gz"
explained_case 'replay explains admission' 1 '' 'admit A3 7 104 267995' 'A3 port vl bound' \
    replay --explain examples/refused.toml -
explained_case 'replay explains the same input' 2 '' 'words SameInput' 'which is standard input' \
    replay --explain examples/base.toml - -
explained_case 'replay explains two lists' 3 '' 'recording NotRecording 0 A' 'two LISTs' \
    replay --explain examples/base.toml examples/one_link.list examples/one_link.list

# pcap, without a frame
printf '\xd4\xc3\xb2\xa1\2\0\4\0\0\0\0\0\0\0\0\0\0\0\4\0\1\0\0\0' >"$work/empty.pcap"
explained_of_two() { # NAME FAULT WORDS A B : with the command, of a device
    explained_case "$command explains $1" 4 '' "$2" "$3" \
        "$command" --explain examples/base.toml "$4" "$5"
}
for command in list replay; do
    case_of "nothing to explain of two recordings, $command" 0 '' '' \
        "$command" --explain examples/base.toml "$work/empty.pcap" "$work/empty.pcap"
    explained_of_two 'the path of a first recording' 'device List' \
        "$work/none: No such file or directory" "$work/none" -
    explained_of_two 'the path of a second recording' 'device List' \
        "$work/none: No such file or directory" - "$work/none"
    explained_of_two 'a folder as a first recording' 'device Read' \
        "$work: Is a directory" "$work" "$work/empty.pcap"
    explained_of_two 'a folder as a second recording' 'device Read' \
        "$work: Is a directory" "$work/empty.pcap" "$work"
    input=$work
    explained_of_two 'standard input as a second recording' 'device Read' \
        'standard input: Is a directory' "$work/empty.pcap" -
    input=/dev/null
done
explained_case 'send explains a name' 2 '' 'words NoSuchSystem' 'no SYSTEM of that name' \
    send --explain examples/network.toml nobody -
# ---- characters that a terminal obeys ------------------------------------------------------

for word in $'ch\e[31meck' $'--\e]0;x\a' $'a\nb' $'\xe2\x80\xae'; do
    for words in "$word" "check
$word
$word" "police
--fcs
$word"; do
        mapfile -t given <<<"$words"
        if [[ $word == *$'\n'* ]]; then given=("$word"); fi
        launch "${given[@]}"
        tell "a refused word is shown as it can be: $(printf '%q ' "${given[@]}")" "$(
            has_status 2
            if grep -qP '[^\n -~]' "$work/err"; then echo 'a control character'; fi
            if ! grep -q '[\\]' "$work/err"; then echo 'no escape'; fi
        )"
    done
done
for word in check 'police 1 64 500'; do
    # shellcheck disable=SC2086  # the words of a command
    launch $word --explain $'/nowhere/\e[31m\xc2\x9b\n'
    tell "so is the name of a file, of $word" "$(
        has_status 4
        if grep -qP '[^\n -~]' "$work/err"; then echo 'a control character'; fi
        if ! grep -qF '/nowhere/\u{1b}[31m\u{9b}\n: No such' "$work/err"; then echo 'no name'; fi
    )"
done

status=0
"$program" police --explain 1 64 500 examples/one_link.list >/dev/full 2>"$work/err" || status=$?
tell 'why standard output failed' "$(
    has_status 4
    if [[ $(head -n 1 "$work/err") != 'device Write' ]]; then echo 'another first line'; fi
    if ! grep -qF 'standard output: No space left on device' "$work/err"; then echo 'no reason'; fi
)"
