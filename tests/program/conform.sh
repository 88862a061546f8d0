# Cases of `conform`; tests/run/program.sh reads this file. Lists are spelled as in replay.sh.
# shellcheck shell=bash
# shellcheck disable=SC2154  # what it uses is set by tests/run/program.sh, which sources it
# shellcheck disable=SC2034  # what it sets is used there

if ! "$program" conform --help >"$work/out" 2>&1; then
    skip conform "the program doesn't have it"
    return 0
fi

rules=examples/base.toml
two_lists() { # CAME LEFT : leaves them in files
    spelled "$1" >"$work/came"
    spelled "$2" >"$work/left"
}

judged() { # VERDICT EXPLAINED OPEN UNCERTAIN LEFT_OUT [IDLE] : the last line
    echo "$1 explained $2 open $3 uncertain $4 left-out $5 unseen 0 idle ${6-3}"
}

# Two lists are judged; the same where one of them is standard input, and where each line is handed
# over at once.
conform_of() { # NAME STATUS CAME LEFT LINES ERR OPTION..
    local name=$1 wanted=$2 out err=${6:+$6$'\n'}
    out=$(lines_of "$5")${5:+$'\n'}
    two_lists "$3" "$4"
    shift 6
    case_of "conform: $name" "$wanted" "$out" "$err" conform "$@" "$rules" "$work/came" "$work/left"
    input=$work/came
    case_of "conform: $name, CAME by standard input" "$wanted" "$out" "$err" \
        conform "$@" "$rules" - "$work/left"
    input=$work/left
    case_of "conform: $name, LEFT by standard input" "$wanted" "$out" "$err" \
        conform --line-buffered "$@" "$rules" "$work/came" -
    input=/dev/null
}

conform_of 'a frame leaves in time' 0 'F 0 A 1 H1' 'F 6720 A 3 H1' "$(judged conforms 1 0 0 0)" ''
conform_of 'a switch and its systems' 0 'F 0 A 1 H1' 'F 6720 A 3 H1' \
    "$(judged conforms 1 0 0 0) sent 1 cut 1 alone 0" '' --senders
conform_of 'a switch and its systems, both amiss' 5 'F 0 A 1 H1 / F 0 A 1 H1' 'F 17001 A 3 H1' \
    "number 2 A 1 1 / soon 2 A 1 500000 / late 1 A 3 1 / $(
        judged 'deviates 3' 0 0 0 0
    ) sent 1 cut 2 alone 0" '' --senders
conform_of 'both links on both sides' 0 \
    'F 0 A 1 H1 / F 0 A 2 H2 / F 9 B 1 H1 / F 9 B 2 H2' \
    'F 6720 A 3 H1 / F 9000 B 3 H2 / F 13440 A 3 H2 / F 15720 B 3 H1' \
    "$(judged conforms 4 0 0 0 0)" ''
conform_of 'all links were exercised' 0 \
    'F 0 A 1 H1 / F 0 A 2 H2 / F 9 B 1 H1 / F 9 B 2 H2' \
    'F 6720 A 3 H1 / F 9000 B 3 H2 / F 13440 A 3 H2 / F 15720 B 3 H1' \
    "$(judged conforms 4 0 0 0 0)" '' --exercised
conform_of 'not all links were exercised' 3 'F 0 A 1 H1' 'F 6720 A 3 H1' \
    "$(judged undecided 1 0 0 0)" '' --exercised
conform_of 'a frame is late, and not all links were exercised' 5 'F 0 A 1 H1' 'F 17001 A 3 H1' \
    "late 1 A 3 1 / $(judged 'deviates 1' 0 0 0 0)" '' --exercised
conform_of 'a frame is late' 5 'F 0 A 1 H1' 'F 17001 A 3 H1' \
    "late 1 A 3 1 / $(judged 'deviates 1' 0 0 0 0)" ''
conform_of 'nothing came' 3 '' '' "$(judged undecided 0 0 0 0 4)" ''
conform_of 'nothing has left yet' 3 'F 0 A 1 H1' '' "$(judged undecided 0 1 0 0 4)" ''
conform_of 'a link is left out' 0 'F 0 A 1 H1 / F 0 A 2 H2' 'F 6720 A 3 H1' \
    "$(judged conforms 1 0 0 1)" '' --leave-out 2
conform_of 'slack, drift, time inside and asking' 0 'F 0 A 1 H1 / F 499999 A 1 H1' \
    'F 6720 A 3 H1 / F 577000 A 3 H1' "$(judged conforms 2 0 1 0)" '' \
    --slack 1 --drift=100 --inner 60000 --asked=1 --until 2000000
conform_of 'recorders that are apart' 0 'F 0 A 1 H1' 'F 37000 A 3 H1' \
    "$(judged conforms 1 0 0 0)" '' --between 20000 --until 60000
conform_of 'recorders that are apart, and a late frame' 5 'F 0 A 1 H1' 'F 37001 A 3 H1' \
    "late 1 A 3 20001 / $(judged 'deviates 1' 0 0 0 0)" '' --between=20000 --until=60000
conform_of 'a part of what was recorded' 0 'F 0 A 1 H1 / F 2000000 A 1 H1 / F 4000000 A 1 H1' \
    'F 2006720 A 3 H1 / F 5000000 A 3 H1' "$(judged conforms 1 0 1 0)" '' \
    --from 2000000 --until 3000000

# What a line's bytes are, not its kind, says which frame left: those of H1 with their check
# sequence, or with its complement. Four bytes name the link that theirs begins with.
right=H195178b51 wrong=H16ae874ae
conform_of 'bytes that are those of a frame' 0 "F 0 A 1 H1 / R 2000000 A 1 $right" \
    "R 6720 A 3 $right / F 2006720 A 3 H1" "$(judged conforms 2 0 0 0)" ''
conform_of 'a frame with a wrong check sequence leaves' 5 "B 0 A 1 H1 / R 1 A 1 $wrong" \
    "R 6720 A 3 $wrong / B 13440 A 3 H1" \
    "passed 1 A 3 bad-fcs / passed 2 A 3 bad-fcs / $(judged 'deviates 2' 0 0 0 0)" ''
conform_of 'a frame leaves with another check sequence' 5 'F 0 A 1 H1' "R 6720 A 3 $wrong" \
    "strange 1 A 3 bad-fcs / $(judged 'deviates 1' 0 1 0 0)" ''
conform_of 'four bytes name a link' 3 'F 0 A 1 03000000' '' "$(judged undecided 0 0 0 1 4)" '' \
    --leave-out 62064

conform_of 'a bad line of CAME' 3 'F 0 A 1 H1 / F 0 A' 'F 40000 A 3 H1' '' 'list came BadLine 2'
conform_of 'a bad line of LEFT behind a finding' 3 'F 0 A 1 H1' 'F 34001 A 3 H1 / F 0 C 1 -' \
    'stopped 1 A 3' 'list left BadLine 2'
conform_of 'times of LEFT that go back' 3 '' 'R 5 A 3 - / R 4 A 3 -' '' 'list left TimeBack 2'

two_lists 'F 0 A 1 H1' 'F 17001 A 3 H1'
lists=("$work/came" "$work/left")
found=$(lines_of "late 1 A 3 1 / $(judged 'deviates 1' 0 0 0 0)")$'\n'
case_of 'conform --summary of two lists' 5 "$found" '' conform --summary "$rules" "${lists[@]}"
case_of 'conform --explain of a finding' 5 "$found" '' conform --explain "$rules" "${lists[@]}"
sed 's/^buffer = 252/buffer = 64/' "$rules" >"$work/small.toml"
case_of 'conform by tables that are not admitted' 5 "$found" '' \
    conform "$work/small.toml" "${lists[@]}"
input=$rules
case_of 'conform by a configuration on standard input' 5 "$found" '' \
    conform /dev/stdin "${lists[@]}"
input=/dev/null

# ---- conform: the order of faults ----------------------------------------------------------

none=$work/none wrong=$work/wrong.toml
echo 'profile = 3' >"$wrong"
printf 'F\n' >"$work/wrong.list"
printf '\xd4\xc3\xb2\xa1\2\0\4\0' >"$work/recorded"
printf 'F 0 A fwd 1 -\n' >"$work/named"
fault_case() { # NAME STATUS ERR WORD.. : nothing is written but a fault
    local name=$1 wanted=$2 err=$3
    shift 3
    case_of "conform: $name" "$wanted" '' "$err"$'\n' conform "$@"
}
fault_case 'CONFIG before the lists and numbers' 4 'device Config' --slack 1000001 "$none" "$none" -
fault_case 'CONFIG that is a folder' 4 'device Config' "$work" "$none" "$none"
fault_case 'CAME before numbers' 4 'device List' --slack 1000001 "$wrong" "$none" -
fault_case 'LEFT before numbers' 4 'device List' --slack 1000001 "$wrong" - "$none"
fault_case 'numbers before one input' 2 'words BadNumber' --drift 1001 "$wrong" - -
for word in all -1 65536 '' Other; do
    fault_case "numbers before one input, --leave-out=$word" 2 'words BadNumber' \
        "--leave-out=$word" "$wrong" - -
done
fault_case 'one input before the configuration' 2 'words SameInput' "$wrong" - -
fault_case 'the configuration before its switch' 1 'config BadProfile' \
    --switch k "$wrong" - "$rules"
fault_case 'the switch before the lists' 2 'words NoSuchSwitch' \
    --switch k "$rules" "$work/wrong.list" "$work/wrong.list"
fault_case 'CAME before LEFT' 3 'list came BadLine 1' \
    "$rules" "$work/wrong.list" "$work/wrong.list"
fault_case 'CAME that is a folder' 4 'device Read' "$rules" "$work" "$work/wrong.list"
fault_case 'LEFT that is a folder' 4 'device Read' "$rules" /dev/null "$work"
fault_case 'a recording' 2 'words BadInterface' "$rules" "$work/recorded" /dev/null

two=examples/two_switches.toml
case_of 'conform of the switch fwd' 3 "$(judged undecided 0 0 0 0 4)"$'\n' '' \
    conform --switch fwd "$two" /dev/null /dev/null
case_of 'conform of the switch aft' 3 "$(judged undecided 0 0 0 0 6)"$'\n' '' \
    conform --switch aft "$two" /dev/null /dev/null
fault_case 'no switch of two' 2 'words NoSuchSwitch' "$two" /dev/null /dev/null
fault_case 'another switch' 2 'words NoSuchSwitch' --switch=none "$two" /dev/null /dev/null
fault_case 'a line with a switch' 3 'list left BadLine 1' \
    --switch fwd "$two" /dev/null "$work/named"

# ---- conform: words ------------------------------------------------------------------------

for word in CONFIG CAME LEFT --slack --between --drift --inner --asked --from --until --leave-out \
    --switch --exercised --line-buffered --explain --progress --summary 'afdx conform' \
    "'device Write', status 4"; do
    text_case "help of conform tells of $word" 0 out "$word" conform --help
done
text_case 'conform in the help' 0 out conform --help
case_of 'conform without LEFT, and without interfaces' 2 '' $'words BadInterface\n' \
    conform "$rules" -
text_case 'a third list is too many for conform' 2 err third conform "$rules" one two third
for word in --slack=x --between=2. --drift=-1 --inner= --asked=1e3 --from=0x1 \
    --until=99999999999999999999999 --jitter=1; do
    text_case "conform $word" 2 err "${word%%=*}" conform "$word" "$rules" "${lists[@]}"
done
for word in --senders --apart 'afdx conform --senders' unlawful number soon differs apart single \
    'sent S' 'cut C' 'alone G'; do
    text_case "help of conform tells of $word" 0 out "$word" conform --help
done
case_of 'conform --senders --left, and nothing that came' 2 '' $'words BadInterface\n' \
    conform --senders --left 0=A:3 "$rules" "$work/came"
case_of 'conform --senders --switch' 3 \
    $'undecided explained 0 open 0 uncertain 0 left-out 0 unseen 6 idle 0 sent 0 cut 0 alone 0\n' \
    '' conform --senders --switch aft --apart 5 "$two" /dev/null
case_of 'conform --senders of another switch' 2 '' $'words NoSuchSwitch\n' \
    conform --senders --switch none "$two" "$work/came"
text_case 'conform --apart alone' 2 err --senders conform --apart 5 "$rules" "$work/came"
text_case 'conform --apart beside LEFT' 2 err --apart conform --apart 5 "$rules" "${lists[@]}"
case_of 'conform --senders of several switches' 2 '' $'words NoSuchSwitch\n' \
    conform --senders "$two" "$work/came"
case_of 'conform --senders --apart, too great' 2 '' $'words BadNumber\n' \
    conform --senders --apart 100000001 "$rules" "$work/came"
case_of 'conform --senders of nothing' 3 \
    $'undecided explained 0 open 0 uncertain 0 left-out 0 unseen 4 idle 0 sent 0 cut 0 alone 0\n' \
    '' conform --senders "$rules" /dev/null
case_of 'an argument of conform that is no text' 2 '' $'words NotText\n' \
    conform "$rules" "$work/came" $'\xff'

# ---- conform: outputs that fail ------------------------------------------------------------

two_lists 'F 0 A 1 H1' 'F 6720 A 3 H1'
full_case 'conform on a full device' 4 $'device Write\n' conform "$rules" "${lists[@]}"
full_case 'conform on a full device, undecided' 3 '' conform "$rules" /dev/null /dev/null
full_case 'conform on a full device, and a fault' 3 $'list came BadLine 1\n' \
    conform "$rules" "$work/wrong.list" /dev/null
two_lists 'F 0 A 1 H1' 'F 17001 A 3 H1'
full_case 'conform on a full device, and a finding' 5 '' conform "$rules" "${lists[@]}"
full_case 'conform on a full device, each line at once' 4 $'device Write\n' \
    conform --line-buffered "$rules" "${lists[@]}"
tell 'conform without standard output' "$(
    status=0
    "$program" conform --line-buffered "$rules" "${lists[@]}" >&- 2>"$work/err" || status=$?
    has_status 4
    differs 'standard error' $'device Write\n' "$work/err"
)"
tell 'conform without standard input' "$(
    status=0
    "$program" conform "$rules" "${lists[0]}" - <&- >"$work/out" 2>"$work/err" || status=$?
    has_status 4
    differs 'standard output' '' "$work/out"
    differs 'standard error' $'device Read\n' "$work/err"
)"
its_end='To end this run stop what writes its input, not afdx: the last line is the verdict.'
tell 'a person who waits for conform is told how it ends' "$(
    python3 tests/lib/on_terminal.py "$program" conform --line-buffered "$rules" "${lists[0]}" - \
        <"${lists[1]}" >"$work/person" || [[ $? -eq 5 ]]
    differs 'the terminal' "$its_end"$'\n' "$work/person"
    python3 tests/lib/on_terminal.py "$program" conform "$rules" "${lists[@]}" \
        >"$work/person" || [[ $? -eq 5 ]]
    differs 'the terminal, of files' '' "$work/person"
)"
tell 'a person who waits for conform is told how much was read' "$(
    { python3 tests/lib/on_terminal.py --slowly 120 "$program" conform --progress "$rules" \
        "${lists[0]}" /dev/stdin <"${lists[1]}" || [[ $? -eq 5 ]]; } |
        tr '\r\033' '<e' >"$work/person"
    told='<e[K0 MiB read' # once or, on a busy machine, more often
    if [[ $(<"$work/person") != "$told"*'<e[K' ]]; then
        echo "told: $(<"$work/person")"
    fi
)"
