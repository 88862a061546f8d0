# Cases of `police`; tests/run/program.sh reads this file.
# shellcheck shell=bash
# shellcheck disable=SC2154  # what it uses is set by tests/run/program.sh, which sources it
# shellcheck disable=SC2034  # what it sets is used there

# ---- police: the examples ------------------------------------------------------------------

three=$'V 1 A accept\nV 2 A drop over-rate\nV 3 A accept\n'
case_of 'police one_link.list' 0 "$three" '' police 1 64 500 examples/one_link.list
input=examples/one_link.list
case_of 'police one_link.list on standard input' 0 "$three" '' police 1 64 500 -
input=/dev/null

babbling=
while read -r line word; do babbling+="V $line A $word"$'\n'; done <<'LINES'
8 accept
9 drop over-rate
10 drop over-rate
11 drop over-rate
12 drop over-rate
13 accept
15 drop wrong-port
16 drop over-rate
17 drop over-rate
18 drop over-rate
19 drop over-rate
20 drop over-rate
21 drop over-rate
22 drop over-rate
24 drop bad-fcs
25 drop over-rate
26 drop over-rate
27 accept
28 drop over-rate
29 drop over-rate
30 drop over-rate
31 drop over-rate
32 drop over-rate
34 drop too-short
35 drop over-rate
36 drop over-rate
37 drop over-rate
38 drop over-rate
39 accept
40 drop over-rate
41 drop over-rate
42 drop over-rate
43 drop over-rate
44 drop over-rate
LINES
case_of 'police babbling.list' 0 "$babbling" '' police 1 64 500 examples/babbling.list

# ---- police: verdicts ----------------------------------------------------------------------

listed ''
case_of 'an empty list' 0 '' '' police 1 64 500 -

listed "$(cat examples/one_link.list)
F 1499999 A 1 $frame
F 1500000 A 1 $frame
"
case_of 'every window counts' 0 "$three"$'V 4 A drop over-rate\nV 5 A accept\n' '' police 1 64 500 -

listed "F 0 A 1 $frame
F 0 A 1 $frame
F 0 A 1 $frame
F 0 A 1 $frame
"
case_of 'an account of more than one frame' 0 \
    $'V 1 A accept\nV 2 A accept\nV 3 A accept\nV 4 A drop over-rate\n' '' police 1 200 500 -

listed "B 0 A 1 $frame
R 0 A 1 $(zeros 126)
R 0 A 1 $(zeros 3038)
R 0 A 1 0300000000
F 0 A 1 $(zeros 120)
F 0 A 1 ${frame:0:11}9${frame:12}
F 0 A 1 ${frame}00
R 0 A 1 -
F 0 A 1 $frame
"
case_of 'one frame of each wrong kind' 0 "V 1 A drop bad-fcs
V 2 A drop too-short
V 3 A drop too-long
V 4 A drop too-short
V 5 A drop bad-address
V 6 A drop unknown-link
V 7 A drop over-lmax
V 8 A drop too-short
V 9 A accept
" '' police 1 64 500 -

listed "F 0 A 2 $frame
F 0 B 1 $frame
F 0 A 1 $frame
F 0 A 1 $frame
"
case_of 'a wrong port, and an account for each side' 0 \
    $'V 1 A drop wrong-port\nV 2 B accept\nV 3 A accept\nV 4 A drop over-rate\n' '' \
    police 1 64 500 -

listed "F 0 A 1 $frame
F 1000000000000000 A 1 $frame
F 1000000000000001 A 1 $frame
"
case_of 'a time over 10^15' 3 $'V 1 A accept\nV 2 A accept\n' $'list TimeTooLarge 3\n' \
    police 1 64 500 -

listed "F 000 A 01 ${frame^^}"
case_of 'leading zeros, upper-case digits, no last line feed' 0 "$accept1" '' police 1 64 500 -

# ---- police: lines -------------------------------------------------------------------------

listed "# a comment"$'\r'"
"$'\r'"
F 0 A 1 $frame"$'\r'"
"
case_of 'lines that end in carriage return and line feed' 0 $'V 3 A accept\n' '' police 1 64 500 -

fault_at_2() { # NAME LINE FAULT : the line comes second, after a good one
    listed "F 5 A 1 $frame
$2
F 5 A 1 $frame
"
    case_of "$1" 3 "$accept1" "list $3 2"$'\n' police 1 64 500 -
}
fault_at_2 'too few fields' 'F 5 A' BadLine
fault_at_2 'an empty field' "F  5 A 1 $frame" BadLine
fault_at_2 'an empty last field' 'F 5 A 1 ' BadLine
fault_at_2 'a sixth field' 'F 5 A 1 0300 00' BadLine
fault_at_2 'an unknown kind' 'G 5 A 1 00' BadLine
fault_at_2 'a side that is neither A nor B' 'F 5 C 1 00' BadLine
fault_at_2 'a time that is no number' 'F -5 A 1 00' BadLine
fault_at_2 'a port that is no number' 'F 5 A x 00' BadLine
fault_at_2 'a line of one space' ' ' BadLine
fault_at_2 'an odd number of digits' 'F 5 A 1 030' BadHex
fault_at_2 'a digit that is none' 'F 5 A 1 0g' BadHex
fault_at_2 'port 25' 'F 5 A 25 00' BadPort
fault_at_2 'port 0' 'F 5 A 0 00' BadPort
fault_at_2 'a time that goes back' 'F 4 A 1 00' TimeBack
fault_at_2 'a time beyond 64 bits' 'F 99999999999999999999999 A 1 00' TimeTooLarge
fault_at_2 'a port beyond 64 bits' 'F 5 A 99999999999999999999999 00' BadPort
fault_at_2 'the line before its numbers' 'F 4 C 25 0' BadLine
fault_at_2 'the time before the port' 'F 4 A 25 0' TimeBack
fault_at_2 'the port before the digits' 'F 5 A 25 0' BadPort
fault_at_2 'a long line' "#$(zeros 4200)" LineTooLong

listed "#$(zeros 4199)"
case_of 'a line of 4,200 bytes' 0 '' '' police 1 64 500 -
listed "#$(zeros 4200)"
case_of 'a line of 4,201 bytes' 3 '' $'list LineTooLong 1\n' police 1 64 500 -
listed "#$(zeros 4199)"$'\r\n'
case_of 'the carriage return counts' 3 '' $'list LineTooLong 1\n' police 1 64 500 -

head -c 1000000 /dev/zero | tr '\0' '\n' >"$work/list"
input=$work/list
case_of '1,000,000 line feeds' 0 '' '' police 1 64 500 -
printf '\n' >>"$work/list"
case_of '1,000,001 line feeds' 3 '' $'list TooManyLines\n' police 1 64 500 -
input=/dev/null

# ---- police: files, words, devices ---------------------------------------------------------

case_of 'a list that is not there' 4 '' $'device List\n' police 1 64 500 "$work/none"
case_of 'a list that is a folder' 4 '' $'device Read\n' police 1 64 500 "$work"
case_of 'a list that is not there, before a bad rule' 4 '' $'device List\n' \
    police 3 64 500 "$work/none"
case_of 'BAG 3' 2 '' $'words BadRule\n' police 3 64 500 -
case_of 'BAG 256' 2 '' $'words BadRule\n' police 256 64 500 -
case_of 'Lmax 63' 2 '' $'words BadRule\n' police 1 63 500 -
case_of 'Lmax 1519' 2 '' $'words BadRule\n' police 1 1519 500 -
case_of 'jitter over the BAG' 2 '' $'words BadRule\n' police 1 64 1001 -
case_of 'jitter as great as the BAG' 0 '' '' police 1 64 1000 -
case_of 'an argument that is no text' 2 '' $'words NotText\n' police 1 64 500 $'\xff'

full_case 'a full device' 4 $'device Write\n' police 1 64 500 examples/one_link.list
for ((k = 0; k < 10000; k++)); do echo "F $k A 1 $frame"; done >"$work/long"
full_case 'a full device, many lines' 4 $'device Write\n' police 1 64 500 "$work/long"
listed "F 0 A 1 $frame
F 0 A
"
full_case 'a full device and a list fault' 3 $'list BadLine 2\n' police 1 64 500 -
input=/dev/null
full_case 'a full device and no output' 0 '' police 1 64 500 -

# ---- police: another link ------------------------------------------------------------------

bench() { grep -c "$1" "$work/out" || true; } # WORDS : how many lines have them
launch police --vl 501 --port 5 2 160 200 examples/bench.list
tell 'link 501 of the bench, as in its table' "$(
    has_status 0
    if [[ $(bench accept) -eq 0 ]]; then echo 'no frame is accepted'; fi
    if [[ $(bench unknown-link) -eq 0 ]]; then echo 'no other link'; fi
    "$program" replay examples/network.toml examples/bench.list | grep '^V' >"$work/network"
    awk 'NR == FNR { verdict[$2] = $0; next } !/unknown-link/ && verdict[$2] != $0' \
        "$work/network" "$work/out" | head -n 3
)"
listed "F 0 A 1 $frame
F 0 A 7 $frame
F 0 A 7 ${frame:0:8}0002${frame:12}
"
case_of 'another port' 0 $'V 1 A drop wrong-port\nV 2 A accept\nV 3 A drop unknown-link\n' '' \
    police --port 7 1 64 500 -
case_of 'another link' 0 $'V 1 A drop unknown-link\nV 2 A drop unknown-link\nV 3 A accept\n' '' \
    police --vl 2 --port 7 1 64 500 -
listed "F 0 A 1 $frame
F 0 A 1 ${frame}00
"
case_of 'a least length' 0 $'V 1 A drop under-lmin\nV 2 A accept\n' '' police --lmin 65 1 65 500 -
case_of 'by frames nothing is too short' 0 $'V 1 A accept\nV 2 A accept\n' '' \
    police --lmin 65 --policing frame 1 65 1000 -
case_of 'by bytes, as without the word' 0 $'V 1 A accept\nV 2 A accept\n' '' \
    police --policing byte 1 65 1000 -
input=/dev/null
case_of 'link 65535' 0 '' '' police --vl 65535 1 64 500 -
case_of 'link 65536' 2 '' $'words BadRule\n' police --vl 65536 1 64 500 -
case_of 'port 24' 0 '' '' police --port 24 1 64 500 -
case_of 'port 25' 2 '' $'words BadRule\n' police --port 25 1 64 500 -
case_of 'port 0' 2 '' $'words BadRule\n' police --port 0 1 64 500 -
case_of 'port 257' 2 '' $'words BadRule\n' police --port 257 1 64 500 -
case_of 'Lmin over Lmax' 2 '' $'words BadRule\n' police --lmin 65 1 64 500 -
case_of 'Lmin 63' 2 '' $'words BadRule\n' police --lmin 63 1 64 500 -
case_of 'a list that is not there, before a bad port' 4 '' $'device List\n' \
    police --port 0 1 64 500 "$work/none"
text_case 'a kind of policing that is none' 2 err frame police --policing bit 1 64 500 -
text_case 'a port that is no number' 2 err x police --port x 1 64 500 -

# ---- counts --------------------------------------------------------------------------------

case_of 'the counts of police' 0 "$three" \
    $'summary lines 3 accepted 2 dropped 1 lost 0 departed 0 too-old 0 delivered 0\n' \
    police --summary 1 64 500 examples/one_link.list
launch replay --summary --no-admission examples/gigabit.toml examples/gigabit.list
tell 'the counts of a replay' "$(
    has_status 0
    count() { grep -c "$1" "$work/out" || true; }
    lines=$(grep -c '' examples/gigabit.list)
    wanted="summary lines $lines accepted $(count '^V.*accept') dropped $(count '^V.*drop')"
    wanted+=" lost $(count '^L') departed $(count '^D') too-old $(count '^T')"
    wanted+=" delivered $(count '^M')"
    differs 'standard error' "$wanted"$'\n' "$work/err"
)"
launch send --summary examples/network.toml fcc1 examples/messages.list
tell 'the counts of send' "$(
    has_status 0
    count() { grep -c "$1" "$work/out" || true; }
    wanted="summary lines $(grep -c '' examples/messages.list) accepted $(count '^R.* A ')"
    wanted+=" dropped $(count '^#') lost 0 departed $(count '^R.* B ') too-old 0 delivered 0"
    differs 'standard error' "$wanted"$'\n' "$work/err"
)"
listed "F 0 A 1 $frame
F 0
"
case_of 'no counts behind a fault' 3 "$accept1" $'list BadLine 2\n' police --summary 1 64 500 -
input=/dev/null
full_case 'no counts of output that is not there' 4 $'device Write\n' \
    police --summary 1 64 500 examples/one_link.list

# a list of three lines, in the second of which a person waits until something is told, or for so
# many seconds; on the terminal a return is shown as <
waited() { # SECONDS LAST LINE, WORD..
    printf 'F 0 A 1 00\n%s\n' "$2" | python3 tests/lib/on_terminal.py --slowly "$1" \
        "$program" police "${@:3}" --explain=never 1 64 500 - | tr '\r\033' '<e'
}
clear='<e[K'
tell 'a person who waits is told how much was read' "$(
    told=${clear}0' MiB read' # once or, on a busy machine, more often
    if [[ $(waited 120 '# done' --progress) != "$told"*"$clear" ]]; then echo 'not told'; fi
    if [[ $(waited 120 'F' --progress) != "$told"*"${clear}list BadLine 3" ]]; then
        echo 'not cleared before a fault'
    fi
    if [[ $(waited 3 '# done') != '' ]]; then echo 'told unasked'; fi
)"
case_of 'where no person reads, no progress' 0 "$three" '' \
    police --progress 1 64 500 examples/one_link.list
