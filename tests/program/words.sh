# Cases of words, help and the version; tests/run/program.sh reads this file.
# shellcheck shell=bash
# shellcheck disable=SC2154  # what it uses is set by tests/run/program.sh, which sources it
# shellcheck disable=SC2034  # what it sets is used there

text_case 'help' 0 out police --help
text_case 'version' 0 out afdx --version
text_case 'help of police' 0 out 'police 1 64 500' police --help
text_case 'no words' 2 err ''
text_case 'an unknown command' 2 err nonsense nonsense
text_case 'missing words' 2 err LIST police 1 64 500
text_case 'a word too many' 2 err more police 1 64 500 - more
text_case 'a number that is none' 2 err x police x 64 500 -
text_case 'a number below 0' 2 err -1 police -1 64 500 -
text_case 'a number beyond 64 bits' 2 err 99999999999999999999999 \
    police 99999999999999999999999 64 500 -
text_case 'first steps in the help' 0 out 'afdx check examples/network.toml' --help
for command in check police replay send solve; do
    text_case "help of $command tells of a closed pipe" 0 out "'device Write', status 4" \
        "$command" --help
done
for command in check replay send solve; do
    text_case "help of $command tells of /dev/stdin" 0 out /dev/stdin "$command" --help
done
for command in list replay; do
    text_case "help of $command tells of two recordings" 0 out 'recording of network B' \
        "$command" --help
    text_case "a third recording is too many for $command" 2 err third \
        "$command" examples/base.toml one two third
    case_of "standard input twice, $command" 2 '' $'words SameInput\n' \
        "$command" examples/base.toml - -
    case_of "a second list that isn't there, $command" 4 '' $'device List\n' \
        "$command" examples/base.toml - "$work/none"
done
text_case 'police reads one list' 2 err second police 1 64 500 - second

two=(examples/base.toml examples/one_link.list examples/one_link.list) # no recordings
of_two() { # NAME STATUS ERR WORD.. : the words of --interface
    local name=$1 wanted=$2 err=$3 word places=()
    shift 3
    for word in "$@"; do places+=(--interface "$word"); done
    case_of "$name: $*" "$wanted" '' "$err" replay "${places[@]}" "${two[@]}"
}
of_two 'an interface of each side' 3 $'recording NotRecording 0 A\n' 0=A:1 0=B:1 1=-
of_two 'a side of an interface twice' 2 $'words BadInterface\n' 0=A:1 0=B 0=A
of_two 'an interface that is left out, and of A' 2 $'words BadInterface\n' 0=- 0=A
of_two 'an interface that is left out, and of B' 2 $'words BadInterface\n' 0=- 0=B
of_two 'an interface of A, and left out' 2 $'words BadInterface\n' 0=A 0=-
of_two 'an interface of B, and left out' 2 $'words BadInterface\n' 0=B:2 0=-
of_two 'an interface that is left out twice' 2 $'words BadInterface\n' 0=- 0=-
case_of 'an interface of each side, of one recording' 2 '' $'words BadInterface\n' \
    replay --interface 0=A --interface 0=B examples/base.toml -
late=9223372036854775808
case_of 'a wrong interface before all others' 2 '' $'words BadInterface\n' \
    replay --origin $late --interface 0=C examples/base.toml - -
case_of 'a late origin before one input' 2 '' $'words BadNumber\n' \
    replay --origin $late examples/base.toml - -
case_of 'one input before the configuration' 2 '' $'words SameInput\n' \
    replay examples/one_link.list - -

input=examples/refused.toml
text_case 'a configuration on standard input' 1 out 'no A3 7 104 267995' check /dev/stdin
input=/dev/null

if kit=$(rt version 2>/dev/null); then
    case_of 'the version names the logic' 0 "afdx 0.1.0 (logic ${kit##* })"$'\n' '' --version
fi
