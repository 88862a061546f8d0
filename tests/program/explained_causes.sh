# Cases of what an explanation says of the cause of a fault: which file, line, field and word, what
# a file looks like, what may be meant; and of the variable that asks for explanations.
# tests/run/program.sh reads this file, behind explain.sh.
# shellcheck shell=bash
# shellcheck disable=SC2154  # what it uses is set by tests/run/program.sh, which sources it
# shellcheck disable=SC2034  # what it sets is used there

mkdir "$work/causes"
causes=$work/causes
frame=examples/one_link.list
base_toml=examples/base.toml

# CONFIG and the list have changed places
for words in "$frame looks like a frame list." "$base_toml looks like a configuration." \
    'CONFIG and the list have changed places.'; do
    explained_case "changed places: '$words'" 1 '' 'config NotToml' "$words" \
        replay --explain "$frame" "$base_toml"
done
explained_case 'a list of messages in the place of CONFIG' 1 '' 'config NotToml' \
    'examples/messages.list looks like a submission list.' \
    send --explain examples/messages.list fcc1 examples/network.toml
explained_case 'a recording in the place of CONFIG' 1 '' 'config NotToml' \
    'examples/one_link.pcapng looks like a recording.' \
    list --explain examples/one_link.pcapng "$base_toml"
packed=$causes/base.toml.gz
gzip -c "$base_toml" >"$packed"
explained_case 'a packed CONFIG' 1 '' 'config NotToml' "$packed looks like a packed file." \
    check --explain "$packed"
explained_case 'CONFIG twice' 3 '' 'list BadLine 8' "$base_toml looks like a configuration." \
    replay --explain "$base_toml" "$base_toml"
explained_case 'messages in the place of frames' 3 '' 'list BadLine 7' \
    'examples/messages.list looks like a submission list.' \
    replay --explain examples/network.toml examples/messages.list
explained_case 'frames in the place of messages' 3 '' 'list BadLine 1' \
    "$frame looks like a frame list." send --explain "$base_toml" s1 "$frame"
tell 'what only looks odd is not accused' "$(
    echo 'bag_ms' >"$causes/odd.toml"
    launch check --explain "$causes/odd.toml"
    if grep -q 'looks like' "$work/err"; then cat "$work/err"; fi
)"

# which line, and which of its fields
line_case() { # NAME LINE WORDS WORD.. : with the command, before the path of the list
    local name=$1 line=$2 words=$3
    shift 3
    printf '# a remark\n%s\r\n' "$line" >"$causes/one.list"
    explained_case "the field of a line: $name" 3 '' 'list BadLine 2' \
        "Line 2 of $causes/one.list: $words." "$@" "$causes/one.list"
}
police_line() { line_case "$@" police --explain 1 64 500; }
replay_line() { line_case "$@" replay --explain examples/two_switches.toml; }
send_line() { line_case "$@" send --explain "$base_toml" s1; }
police_line 'too few' 'F 5 A' \
    '3 fields, with one space between, and not 5: K time side port HEX'
police_line 'one too many' 'F 5 A fwd 1 00' \
    '6 fields, with one space between, and not 5: K time side port HEX'
police_line 'two spaces' 'F  5 A 1 00' \
    '6 fields, with one space between, and not 5: K time side port HEX'
police_line 'a kind' 'G 5 A 1 00' "K is 'G', and not F, B or R"
police_line 'a time' 'F -5 A 1 00' "time is '-5', and not a number in decimal digits"
police_line 'a side' 'F 5 C 1 00' "side is 'C', and not A or B"
police_line 'a port' 'F 5 A x 00' "port is 'x', and not a number in decimal digits"
police_line 'no bytes' 'F 5 A 1 ' "HEX is '', and not hexadecimal digits, or -"
police_line 'the first of two' 'F 5 C x 00' "side is 'C', and not A or B"
police_line 'what a terminal would obey' $'F 5 \e[31m 1 00' \
    "side is '\\u{1b}[31m', and not A or B"
replay_line 'no switch' 'F 5 A 1 00' \
    '5 fields, with one space between, and not 6: K time side SWITCH port HEX'
replay_line 'another switch' 'F 5 A mid 1 00' \
    "SWITCH is 'mid', and not the name of a switch of CONFIG"
send_line 'a link' '0 65536 1 1000 61' "vl is '65536', and not 0 to 65535"
send_line 'a sub-VL' '0 1 256 1000 61' "sub is '256', and not 0 to 255"
send_line 'a UDP port' '0 1 1 65536 61' "udp is '65536', and not 0 to 65535"
printf 'F 0 A 1 00\nF 0 A 1 0\n' >"$causes/one.list"
explained_case 'the line of another fault' 3 $'V 1 A drop too-short\n' 'list BadHex 2' \
    "Line 2 of $causes/one.list." police --explain 1 64 500 "$causes/one.list"
printf '\n' >"$causes/came.list"
printf 'F 0 A 3 00 00\n' >"$causes/left.list"
explained_case 'the line of one of two lists' 3 '' 'list left BadLine 1' \
    "Line 1 of $causes/left.list: 6 fields" \
    conform --explain "$base_toml" "$causes/came.list" "$causes/left.list"
listed $'F 0 A\n'
explained_case 'a line of standard input' 3 '' 'list BadLine 1' 'Line 1 of standard input.' \
    police --explain 1 64 500 -
input=/dev/null
tell 'a pipe is not read again' "$(
    status=0
    "$program" police --explain 1 64 500 <(echo 'F 0 A') >"$work/out" 2>"$work/err" || status=$?
    has_status 3
    if ! grep -q '^Line 1 of /dev/fd/[0-9]*[.]$' "$work/err"; then cat "$work/err"; fi
)"
head -c 30 examples/one_link.pcapng >"$causes/cut.pcapng"
explained_case 'the file of a recording' 3 '' 'recording Ended 0' "$causes/cut.pcapng" \
    police --explain 1 64 500 "$causes/cut.pcapng"

# which word of --interface or --left, and why
place_case() { # NAME WORDS WORD..
    local name=$1 words=$2
    shift 2
    explained_case "the word of a place: $name" 2 '' 'words BadInterface' "$words" "$@"
}
police_place() { place_case "$1" "$2" police --explain "${@:3}" 1 64 500 "$work/empty.pcap"; }
replay_place() {
    place_case "$1" "$2" replay --explain "${@:3}" examples/two_switches.toml "$work/empty.pcap"
}
conform_place() { place_case "$1" "$2" conform --explain "${@:3}" "$base_toml" "$work/empty.pcap"; }
police_place 'a form' "--interface '0=C': this is no K=PLACE" --interface 0=A:1 --interface 0=C
police_place 'twice' "--interface '0=B': the interface was named before" \
    --interface 0=A:1 --interface 0=B
police_place 'a switch of one' "--interface '0=A fwd': no switch can be named here" \
    --interface '0=A fwd'
police_place 'what a terminal would obey' "--interface '0=\\u{1b}[31m': this is no" \
    --interface $'0=\e[31m'
replay_place 'no such switch' "--interface '0=A mid:1': CONFIG has no switch of this name." \
    --interface '0=A mid:1'
replay_place 'no name' "--interface '0=A:1': a port needs the name of its switch." --interface 0=A:1
replay_place 'a cable' "--interface '0=A fwd:24': a cable is at this port." --interface '0=A fwd:24'
place_case 'a name, and one switch a side' \
    "--interface '0=A fwd': CONFIG describes one switch a side." \
    replay --explain --interface '0=A fwd' "$base_toml" "$work/empty.pcap"
conform_place 'no words' "There is no --interface"
conform_place 'words of one kind' "There is no --left" --interface 0=A:1
conform_place 'a port' "--left '1=A': here a port is needed, as in A:1." \
    --interface 0=A:1 --left 1=A
conform_place 'nowhere' "--interface '0=-': this is no K=PLACE" --interface 0=- --left 1=A:3

# which word may be meant
meant_case() { # TEXT WORD
    local AFDX_EXPLAIN=always
    export AFDX_EXPLAIN
    explained_case "'$1' may mean '$2'" 2 '' 'words UnknownText' "Is '$2' meant?" explain "$1"
}
meant_case over-rat over-rate
meant_case overrate over-rate
meant_case OutofRange OutOfRange
meant_case TooManyLine TooManyLines
meant_case stoped stopped
tell 'nothing is like nonsense' "$(
    AFDX_EXPLAIN=always launch explain qqqqqq
    has_status 2
    if grep -q 'meant' "$work/err"; then cat "$work/err"; fi
)"

# the variable
explained_by() { # VALUE WORD.. : whether a fault is explained
    AFDX_EXPLAIN=$1 launch police "${@:2}" 1 64 500 "$work/none"
    if [[ $(head -n 1 "$work/err") != 'device List' ]]; then echo 'another first line'; fi
    [[ $(wc -l <"$work/err") -gt 1 ]]
}
tell 'the variable asks for explanations' "$(
    explained_by always || echo 'always: none'
    if explained_by never; then echo 'never: one'; fi
    if explained_by auto; then echo 'auto: one'; fi
    if explained_by whatever; then echo 'another value: one'; fi
    if explained_by always --explain=never; then echo 'the option is passed over'; fi
    explained_by never --explain || echo 'the option alone is passed over'
)"
tell 'the variable asks for none on a terminal' "$(
    AFDX_EXPLAIN=never python3 tests/lib/on_terminal.py "$program" police 1 64 500 "$work/none" \
        >"$work/out" || true
    if [[ $(<"$work/out") != 'device List' ]]; then cat "$work/out"; fi
)"

# help
for command in '' check conform explain list police replay send solve; do
    # shellcheck disable=SC2086  # no word, or one
    launch $command --help
    tell "the help of afdx${command:+ $command} has at most 100 columns" \
        "$(awk 'length($0) > 100 { print length($0) ": " $0 }' "$work/out")"
done
