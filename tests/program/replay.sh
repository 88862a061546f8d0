# Cases of `replay`; tests/run/program.sh reads this file.
#
# Lists and outputs are written with ` / ` between lines. In a list H1 is the frame of link 1 with
# the message `hello`, H2 that of link 2 with `world`, both with number 0; H1(05) is H1 with number
# 5.
# shellcheck shell=bash
# shellcheck disable=SC2154  # what it uses is set by tests/run/program.sh, which sources it
# shellcheck disable=SC2034  # what it sets is used there

head2=030000000002020000000220080045000021000000000111cce90a000201e0e00002
head2+=07d007d0000d0000776f726c64000000000000000000000000
hello=68656c6c6f
world=776f726c64

lines_of() { # LINES : each line of ` / ` on a line of its own
    if [[ -n $1 ]]; then printf '%s\n' "${1// \/ /$'\n'}"; fi
}

spelled() { # LIST : with the digits of the frames
    lines_of "$1" | sed -E -e "s/H1\((..)\)/$head1\1/; s/H2\((..)\)/$head2\1/" \
        -e "s/H1/${head1}00/; s/H2/${head2}00/"
}

tables() { # SED_SCRIPT : leaves base.toml as the script changes it in a file
    sed -E "$1" examples/base.toml >"$work/tables.toml"
}

replay_of() { # NAME LIST OUT : on tables that are admitted, the same with and without the option
    spelled "$2" >"$work/list"
    input=$work/list
    case_of "$1" 0 "$(lines_of "$3")${3:+$'\n'}" '' replay "$work/tables.toml" -
    case_of "$1, without admission" 0 "$(lines_of "$3")${3:+$'\n'}" '' \
        replay --no-admission "$work/tables.toml" -
    input=/dev/null
}

free_replay_of() { # NAME LIST OUT : on tables that are not admitted
    spelled "$2" >"$work/list"
    case_of "$1" 0 "$(lines_of "$3")${3:+$'\n'}" '' \
        replay --no-admission "$work/tables.toml" "$work/list"
}

fault_of() { # NAME STATUS LIST OUT ERR
    spelled "$3" >"$work/list"
    case_of "$1" "$2" "$(lines_of "$4")${4:+$'\n'}" "$5"$'\n' \
        replay "$work/tables.toml" "$work/list"
}

times() { # COUNT LINE : so many times, with ` / ` between
    local k
    for ((k = 1; k < $1; k++)); do printf '%s / ' "$2"; done
    printf '%s' "$2"
}

# ---- replay: the examples ------------------------------------------------------------------

file_case() { # NAME STATUS FILE ERR WORD.. : FILE holds the whole output
    local name=$1 wanted=$2 file=$3 err=$4
    shift 4
    launch "$@"
    tell "$name" "$(
        has_status "$wanted"
        if ! cmp -s "$file" "$work/out"; then
            echo "standard output is not $file:"
            diff "$file" "$work/out" | head -n 10
        fi
        differs 'standard error' "$err" "$work/err"
    )"
}

file_case 'replay bench.list' 0 examples/bench.out '' \
    replay examples/network.toml examples/bench.list
file_case 'replay bench.list, without admission' 0 examples/bench.out '' \
    replay --no-admission examples/network.toml examples/bench.list
file_case 'replay gigabit.list' 0 examples/gigabit.out '' \
    replay --no-admission examples/gigabit.toml examples/gigabit.list
file_case 'replay two_switches.list' 0 examples/two_switches.out '' \
    replay examples/two_switches.toml examples/two_switches.list

# the same before a person, who waits until it is told; on the terminal a return is shown as <
tell 'a person who waits for several switches is told how much was read' "$(
    python3 tests/lib/on_terminal.py --slowly 120 "$program" replay --progress \
        examples/two_switches.toml - <examples/two_switches.list | tr '\r\033' '<e' >"$work/person"
    told='<e[K0 MiB read' # once or, on a busy machine, more often
    if [[ $(<"$work/person") != "$told"*'<e[K' ]]; then
        echo "told: $(<"$work/person")"
    fi
)"
case_of 'gigabit.toml is not admitted' 1 '' $'admit A2 4 1430\n' \
    replay examples/gigabit.toml examples/gigabit.list
case_of 'refused.toml is not admitted' 1 '' $'admit A3 7 104 267995\n' \
    replay examples/refused.toml examples/bench.list

if command -v python3 >/dev/null; then
    tell 'make_bench.py writes the lists as they are' "$(
        mkdir "$work/made"
        python3 examples/make_bench.py "$work/made" 2>&1 || echo 'it failed'
        for list in bench.list gigabit.list two_switches.list; do
            cmp "$work/made/$list" "examples/$list" 2>&1 || true
        done
    )"
fi
tell 'the lines that NETWORK.md explains' "$(
    # shellcheck disable=SC2016  # the page's marks of code
    quoted=$(grep -oE '`[VLDTMX] [0-9][^`]*`' docs/NETWORK.md | tr -d '`')
    if [[ $(wc -l <<<"$quoted") -lt 40 ]]; then echo 'there are too few of them'; fi
    while read -r line; do
        grep -qxF "$line" examples/{bench,gigabit,two_switches}.out || echo "no output has: $line"
    done <<<"$quoted"
)"

# ---- replay: profile 1 ---------------------------------------------------------------------

# The frame of a line, H1 or H2, leaves and is read.
hello_at() { printf 'D %s %s A 3 / M %s s3 1 %s' "$1" "$2" "$2" "$hello"; } # LINE TIME
world_at() { printf 'D %s %s A 3 / M %s s3 2 %s' "$1" "$2" "$2" "$world"; } # LINE TIME

tables ''
replay_of 'an empty replay' '' ''
replay_of 'high before low at one moment' 'F 0 A 2 H2 / F 0 A 1 H1' \
    "V 1 A accept / V 2 A accept / $(hello_at 2 6720) / $(world_at 1 13440)"
replay_of 'a frame being sent is not interrupted' 'F 0 A 2 H2 / F 1 A 1 H1' \
    "V 1 A accept / V 2 A accept / $(world_at 1 6720) / $(hello_at 2 13440)"
replay_of 'a frame and its copy' 'F 0 A 1 H1 / F 0 B 1 H1' \
    "V 1 A accept / V 2 B accept / $(hello_at 1 6720) / D 2 6720 B 3 / X 6720 s3 2 redundant"
one_of_each="B 0 A 1 H1 / R 0 A 1 $(zeros 126) / R 0 A 1 $(zeros 3038) / R 0 A 1 0300000000"
one_of_each+=" / F 0 A 1 $(zeros 120) / F 0 A 1 ${frame:0:11}9${frame:12} / F 0 A 1 ${frame}00"
one_of_each+=' / R 0 A 1 - / F 0 A 1 H1'
verdicts='V 1 A drop bad-fcs / V 2 A drop too-short / V 3 A drop too-long / V 4 A drop too-short'
verdicts+=' / V 5 A drop bad-address / V 6 A drop unknown-link / V 7 A drop over-lmax'
verdicts+=' / V 8 A drop too-short'
replay_of 'a frame of each wrong kind' "$one_of_each" \
    "$verdicts / V 9 A accept / $(hello_at 9 6720)"
replay_of 'another system under the name of the link' 'F 0 A 2 H1 / F 0 A 1 H1' \
    "V 1 A drop wrong-port / V 2 A accept / $(hello_at 2 6720)"
replay_of 'an input port without a system' 'F 0 A 24 H1 / F 0 A 1 H1' \
    "V 1 A drop wrong-port / V 2 A accept / $(hello_at 2 6720)"

three() { # NAME NUMBERS OUT : frames of link 1 with these numbers, a ms apart
    local list='' time=0 number
    for number in $2; do
        list+="${list:+ / }F $time A 1 H1($number)"
        time=$((time + 1000000))
    done
    replay_of "$1" "$list" "$3"
}
# The frame came a slot before, was accepted and left then: it is read, or dropped.
read_at() { printf 'V %s A accept / %s' "$1" "$(hello_at "$1" "$2")"; } # LINE TIME
dropped_at() { # LINE TIME REASON
    printf 'V %s A accept / D %s %s A 3 / X %s s3 %s %s' "$1" "$1" "$2" "$2" "$1" "$3"
}
three 'one frame after a gap is dropped' '05 08 09' \
    "$(read_at 1 6720) / $(dropped_at 2 1006720 sequence) / $(read_at 3 2006720)"
three 'numbers go round' 'fe ff 01' \
    "$(read_at 1 6720) / $(read_at 2 1006720) / $(read_at 3 2006720)"
three 'a number twice' '04 04' "$(read_at 1 6720) / $(dropped_at 2 1006720 sequence)"
three 'a reset within the skew' '03 00' "$(read_at 1 6720) / $(dropped_at 2 1006720 redundant)"
replay_of 'a reset beyond the skew' 'F 0 A 1 H1(03) / F 1000001 A 1 H1(00)' \
    "$(read_at 1 6720) / $(read_at 2 1006721)"

babble="$(times 1000 'F 0 A 2 H2') / F 0 A 1 H1"
over=$(for ((k = 2; k <= 1000; k++)); do printf 'V %d A drop over-rate / ' "$k"; done)
replay_of 'a babbling link' "$babble" \
    "V 1 A accept / ${over}V 1001 A accept / $(hello_at 1001 6720) / $(world_at 1 13440)"
replay_of 'the same without it' "$(times 1000 '#') / F 0 A 1 H1" \
    "V 1001 A accept / $(hello_at 1001 6720)"
wrong=$(for ((k = 1; k <= 1000; k++)); do printf 'V %d A drop wrong-port / ' "$k"; done)
replay_of 'a babbling system under the name of the link' "$(times 1000 'F 0 A 2 H1') / F 0 A 1 H1" \
    "${wrong}V 1001 A accept / $(hello_at 1001 6720)"
told="V 1 A accept / V 2 A accept / $(hello_at 1 6720) / $(world_at 2 13440)"
told+=' / V 3 A accept / V 4 A accept / D 3 506720 A 3 / X 506720 s3 3 redundant'
told+=' / D 4 513440 A 3 / X 513440 s3 4 redundant'
replay_of 'all that policing lets through' \
    'F 0 A 1 H1 / F 0 A 2 H2 / F 500000 A 1 H1 / F 500000 A 2 H2' "$told"

wrong_datagram() { # WORD OLD NEW : H1 with NEW for OLD
    spelled 'F 0 A 1 H1' | sed "s/$2/$3/" >"$work/list"
    case_of "a receiver drops $1" 0 "$(lines_of "$(dropped_at 1 6720 "$1")")"$'\n' '' \
        replay "$work/tables.toml" "$work/list"
}
wrong_datagram not-ipv4 01200800 01200806
wrong_datagram bad-ip-header cdea cdeb
wrong_datagram fragment 000000000111cdea 000020000111adea
wrong_datagram not-udp 0111cdea 0101cdfa
wrong_datagram bad-udp-length 03e803e8000d 03e803e8000c
wrong_datagram no-port 03e803e8 03e803e9

# The other words of this header have the sum ffff, so that both zeros of ones' complement are
# right checksums.
for zero in 0000 ffff; do
    spelled 'F 0 A 1 H1' | sed "s/000000000111cdea/cdea00000111$zero/" >"$work/list"
    case_of "a receiver takes the checksum $zero" 0 "$(lines_of "$(read_at 1 6720)")"$'\n' '' \
        replay "$work/tables.toml" "$work/list"
done

# Four messages of one byte from two sub-VLs, as a sender gives them, a ms apart on both sides.
sent() { # TIME NUMBER PAYLOAD : the frame on side A and its copy on side B
    local ip=08004500001d000000000111cdee0a000101e0e0000103e803e800090000 pad
    pad=$(zeros 32)
    printf 'F %s A 1 030000000001020000000120%s%s%s%s / F %s B 1 030000000001020000000140%s%s%s%s' \
        "$1" "$ip" "$3" "$pad" "$2" "$1" "$ip" "$3" "$pad" "$2"
}
four="$(sent 6720 00 61) / $(sent 1006720 01 63) / $(sent 2006720 02 62) / $(sent 3006720 03 64)"
pair() { # LINE TIME PAYLOAD : the frame of a line and the copy on the next, both after a slot
    local copy=$(($1 + 1))
    printf 'V %s A accept / V %s B accept / ' "$1" "$copy"
    printf 'D %s %s A 3 / M %s s3 1 %s / ' "$1" "$2" "$2" "$3"
    printf 'D %s %s B 3 / X %s s3 %s redundant' "$copy" "$2" "$2" "$copy"
}
four_told="$(pair 1 13440 61) / $(pair 3 1013440 63) / $(pair 5 2013440 62) / $(pair 7 3013440 64)"
replay_of 'messages of a sender' "$four" "$four_told"
beside="V 1 A accept / ${over%V 101 *}$(pair 101 13440 61) / $(world_at 1 20160)"
beside+=" / $(pair 103 1013440 63) / $(pair 105 2013440 62) / $(pair 107 3013440 64)"
replay_of 'messages of a sender beside a babbling one' \
    "$(times 100 'F 6720 A 2 H2') / $four" "$beside"

# 300 messages of link 2, numbers 0 to 255 and from 1 again, with their copies.
all_sent='' all_told=''
for ((k = 0; k < 300; k++)); do
    number=$((k == 0 ? 0 : (k - 1) % 255 + 1))
    printf -v text '%04x' "$k"
    printf -v tail '45000%s%s%s%030d%02x' 01e000000000111ccec0a000201e0e00002 07d007d0000a0000 \
        "$text" 0 "$number"
    time=$((k * 1000000 + 6720)) end=$((k * 1000000 + 13440)) a=$((2 * k + 1)) b=$((2 * k + 2))
    all_sent+="F $time A 2 0300000000020200000002200800$tail"$'\n'
    all_sent+="F $time B 2 0300000000020200000002400800$tail"$'\n'
    all_told+="V $a A accept"$'\n'"V $b B accept"$'\n'"D $a $end A 3"$'\n'"M $end s3 2 $text"$'\n'
    all_told+="D $b $end B 3"$'\n'"X $end s3 $b redundant"$'\n'
done
listed "$all_sent"
case_of 'each message once and in order' 0 "$all_told" '' replay "$work/tables.toml" -
input=/dev/null

# ---- replay: by how much frames came too early ---------------------------------------------

early_of() { # NAME LIST OUT ERR : with --explain-drops; without it the same output alone
    spelled "$2" >"$work/list"
    case_of "$1" 0 "$(lines_of "$3")${3:+$'\n'}" "$(lines_of "$4")${4:+$'\n'}" \
        replay --explain-drops "$work/tables.toml" "$work/list"
    case_of "$1, unexplained" 0 "$(lines_of "$3")${3:+$'\n'}" '' \
        replay "$work/tables.toml" "$work/list"
}

# Link 1 has a gap of 1 ms, a jitter of 500 us and frames of 84 bytes on the line: its account is
# filled by 84 bytes in 1,000,000 ns up to 126 bytes. A first frame leaves 42, so the second lacks
# 42, which 500,000 ns give.
tables ''
first="V 1 A accept / $(hello_at 1 6720)"
early_of 'a frame that came half a gap too early' 'F 0 A 1 H1 / F 0 A 1 H1(01)' \
    "V 1 A accept / V 2 A drop over-rate / $(hello_at 1 6720)" 'early 2 500000'
early_of 'it comes 1 ns before that' 'F 0 A 1 H1 / F 499999 A 1 H1(01)' \
    "$first / V 2 A drop over-rate" 'early 2 1'
early_of 'it comes then' 'F 0 A 1 H1 / F 500000 A 1 H1(01)' \
    "$first / V 2 A accept / $(hello_at 2 506720)" ''
# What was dropped costs nothing, each side has its own account, and each drop its line.
early_of 'several too early' \
    'F 0 A 1 H1 / F 100 B 1 H1 / F 200 A 1 H1 / F 300 B 1 H1 / F 400 A 2 H1 / F 500 A 1 H1' \
    "V 1 A accept / V 2 B accept / V 3 A drop over-rate / V 4 B drop over-rate \
/ V 5 A drop wrong-port / V 6 A drop over-rate / $(hello_at 1 6720) / D 2 6820 B 3 \
/ X 6820 s3 2 redundant" 'early 3 499800 / early 4 499800 / early 6 499500'
# Policed by bytes, with frames of up to 87 bytes on the line: filled by 87 bytes in 1,000,000 ns up
# to 130.5. A frame of 84 leaves 46.5, the next lacks 37.5, which 431,034.48.. ns give.
tables 's/^lmax = 64/lmax = 67/; s/"frame"/"byte"/; s/^buffer = 252/buffer = 400/
    s/^latency_us = .*/latency_us = 40/'
early_of 'the wait is rounded up' 'F 0 A 1 H1 / F 0 A 1 H1(01)' \
    "V 1 A accept / V 2 A drop over-rate / $(hello_at 1 6720)" 'early 2 431035'
early_of 'it comes 1 ns before that, policed by bytes' 'F 0 A 1 H1 / F 431034 A 1 H1(01)' \
    "$first / V 2 A drop over-rate" 'early 2 1'
early_of 'it comes then, policed by bytes' 'F 0 A 1 H1 / F 431035 A 1 H1(01)' \
    "$first / V 2 A accept / $(hello_at 2 437755)" ''
# The same policed by frames: each is charged 87, so a first one leaves 43.5, as much as is lacked,
# which 500,000 ns give.
tables 's/^lmax = 64/lmax = 67/; s/^buffer = 252/buffer = 400/; s/^latency_us = .*/latency_us = 40/'
early_of 'each frame is charged the greatest' 'F 0 A 1 H1 / F 0 A 1 H1(01)' \
    "V 1 A accept / V 2 A drop over-rate / $(hello_at 1 6720)" 'early 2 500000'

tables ''
spelled 'F 0 A 1 H1 / F 0 A 1 H1(01) / F 1 A 1 H1(01) / F 0' >"$work/list"
case_of 'too early before a fault of the list' 3 \
    $'V 1 A accept\nV 2 A drop over-rate\nV 3 A drop over-rate\n' \
    $'early 2 500000\nearly 3 499999\nlist BadLine 4\n' \
    replay --explain-drops "$work/tables.toml" "$work/list"
spelled 'F 0 A 1 H1 / F 0 A 1 H1(01)' >"$work/list"
one_of_two='summary lines 2 accepted 1 dropped 1 lost 0 departed 1 too-old 0 delivered 1'
case_of 'too early before the counts' 0 \
    "$(lines_of "V 1 A accept / V 2 A drop over-rate / $(hello_at 1 6720)")"$'\n' \
    $'early 2 500000\n'"$one_of_two"$'\n' \
    replay --explain-drops --summary "$work/tables.toml" "$work/list"
case_of 'too early without admission' 0 \
    "$(lines_of "V 1 A accept / V 2 A drop over-rate / $(hello_at 1 6720)")"$'\n' \
    $'early 2 500000\n' replay --explain-drops --no-admission "$work/tables.toml" "$work/list"
case_of 'nothing is too early in a refused network' 1 '' $'admit A3 7 104 267995\n' \
    replay --explain-drops examples/refused.toml examples/bench.list

# ---- replay: tables that are not admitted --------------------------------------------------

tables 's/^buffer = 252/buffer = 64/'
full_list='F 0 A 1 H1 / F 0 A 2 H2 / F 1 A 2 H2'
free_replay_of 'a full buffer, and the lost frame stays charged' "$full_list" \
    "V 1 A accept / V 2 A accept / L 2 A 3 / V 3 A drop over-rate / $(hello_at 1 6720)"
fault_of 'the same tables are not admitted' 1 "$full_list" '' 'admit A2 3 252'
# The latency is 13 us, and a frame leaves after 13,440 ns. The skew is less than the latency: the
# copy on B comes too late to be known as one.
tables '/^vl = 2/,/^skew/s/^latency_us = 21/latency_us = 13/'
free_replay_of 'without A4 a frame is late' 'F 0 A 2 H2 / F 0 A 1 H1' \
    "V 1 A accept / V 2 A accept / $(hello_at 2 6720) / $(world_at 1 13440)"
tables "$(skew_is 1 "$link_1")"
free_replay_of 'without A7 a message is delivered twice' 'F 0 B 2 H2 / F 1 A 1 H1 / F 1 B 1 H1' \
    "V 1 B accept / V 2 A accept / V 3 B accept / D 1 6720 B 3 / M 6720 s3 2 $world \
/ $(hello_at 2 6721) / D 3 13440 B 3 / M 13440 s3 1 $hello"
lengths='s/^lmin = 64/lmin = 100/; s/^lmax = 64/lmax = 200/'
tables "/^vl = 2/,/^lmax/{$lengths}"
free_replay_of 'a frame below Lmin' 'F 0 A 2 H2' "V 1 A accept / $(world_at 1 6720)"
tables "/^vl = 2/,/^policing/{$lengths; s/\"frame\"/\"byte\"/}"
free_replay_of 'a frame below Lmin, policed by bytes' 'F 0 A 2 H2' 'V 1 A drop under-lmin'

# The largest tables: 24 systems, 4,096 links from the first to all others, 4,096 ports of the
# second.
python3 -B tests/lib/tables.py wide 4096 >"$work/tables.toml"
largest="V 1 A accept / D 1 6720 A 2 / M 6720 s2 1 $hello"
for ((p = 3; p <= 24; p++)); do largest+=" / D 1 6720 A $p / X 6720 s$p 1 no-port"; done
free_replay_of 'the largest tables' 'F 0 A 1 H1' "$largest"

# ---- replay: profile 2 ---------------------------------------------------------------------

tables 's/^profile = 1/profile = 2/; /^vl = 2/,/^skew/s/^latency_us = 21/latency_us = 6/'
free_replay_of 'a frame that is too old' 'F 0 A 1 H1 / F 719 A 2 H2' \
    "V 1 A accept / V 2 A accept / $(hello_at 1 6720) / T 2 6720 A 3"
free_replay_of 'a frame that is just not too old' 'F 0 A 1 H1 / F 720 A 2 H2' \
    "V 1 A accept / V 2 A accept / $(hello_at 1 6720) / $(world_at 2 13440)"
told="V 1 A accept / V 2 A accept / $(hello_at 1 6720) / V 3 B accept / T 2 6720 A 3"
told+=' / D 3 13440 B 3 / X 13440 s3 3 redundant'
free_replay_of 'frames that leave, arrivals, frames too old at one moment' \
    'F 0 A 1 H1 / F 0 A 2 H2 / F 6720 B 1 H1' "$told"
tables '/^vl = 2/,/^skew/s/^latency_us = 21/latency_us = 6/'
free_replay_of 'no frame is too old in profile 1' 'F 0 A 1 H1 / F 719 A 2 H2' \
    "V 1 A accept / V 2 A accept / $(hello_at 1 6720) / $(world_at 2 13440)"
tables 's/^profile = 1/profile = 2/; s/^rate = 100/rate = 1000/'
replay_of 'gigabit ports' 'F 0 A 2 H2 / F 0 A 1 H1' \
    "V 1 A accept / V 2 A accept / $(hello_at 2 672) / $(world_at 1 1344)"
tables 's/^profile = 1/profile = 2/'
replay_of 'messages of a sender beside a babbling one, profile 2' \
    "$(times 100 'F 6720 A 2 H2') / $four" "$beside"

# ---- replay: lists -------------------------------------------------------------------------

tables ''
printf '%s' "F 0 A 1 $frame" >"$work/list"
case_of 'replay of a last line without a line feed' 0 \
    "$(lines_of "$(read_at 1 6720)")"$'\n' '' replay "$work/tables.toml" "$work/list"
fault_of 'replay: too few fields' 3 'F 0 A 1 H1 / F 0 A' 'V 1 A accept' 'list BadLine 2'
fault_of 'replay: an odd number of digits' 3 'F 0 A 1 H1 / F 0 A 1 030' 'V 1 A accept' \
    'list BadHex 2'
fault_of 'replay: an unknown side' 3 'F 0 A 1 H1 / F 0 C 1 00' 'V 1 A accept' 'list BadLine 2'
fault_of 'replay: port 25' 3 'F 0 A 1 H1 / F 0 A 25 00' 'V 1 A accept' 'list BadPort 2'
fault_of 'replay: a time that goes back' 3 'F 5 A 1 H1 / F 4 A 1 H1' 'V 1 A accept' \
    'list TimeBack 2'
fault_of 'replay: a time over 10^15' 3 'F 0 A 1 H1 / F 1000000000000001 A 1 H1' 'V 1 A accept' \
    'list TimeTooLarge 2'
fault_of 'replay: a long line' 3 "F 0 A 1 H1 / #$(zeros 4200)" 'V 1 A accept' 'list LineTooLong 2'
fault_of 'what left before the last good line stands' 3 'F 0 A 1 H1 / F 6720 A 1 0300 / F 7000 A' \
    "V 1 A accept / $(hello_at 1 6720) / V 2 A drop too-short" 'list BadLine 3'
replay_of 'a frame of two bytes' 'F 0 A 1 H1 / F 0 A 1 0300' \
    "V 1 A accept / V 2 A drop too-short / $(hello_at 1 6720)"
tables 's/^profile = 1/profile = 2/; /^vl = 2/,/^skew/s/^latency_us = 21/latency_us = 6/'
spelled 'F 0 A 1 H1 / F 0 A 2 H2 / F 6720 B 1 H1 / F' >"$work/list"
case_of 'no T line of the last moment before a fault' 3 \
    "$(lines_of "V 1 A accept / V 2 A accept / $(hello_at 1 6720) / V 3 B accept")"$'\n' \
    $'list BadLine 4\n' replay --no-admission "$work/tables.toml" "$work/list"
tables ''
replay_of 'the longest remark' "#$(zeros 4199) / F 0 A 1 H1" "V 2 A accept / $(hello_at 2 6720)"
head -c 1000000 /dev/zero | tr '\0' '\n' >"$work/list"
case_of 'replay of 1,000,000 line feeds' 0 '' '' replay "$work/tables.toml" "$work/list"
printf '\n' >>"$work/list"
case_of 'replay of 1,000,001 line feeds' 3 '' $'list TooManyLines\n' \
    replay "$work/tables.toml" "$work/list"

# ---- replay: the order of faults, devices --------------------------------------------------

good=examples/base.toml
echo 'profile = 3' >"$work/bad.toml"
sed 's/^buffer = 252/buffer = 64/' "$good" >"$work/small.toml"
echo 'F' >"$work/bad.list"
text_case 'replay without a list' 2 err LIST replay "$work/none"
text_case 'an unknown option' 2 err --fast replay --fast "$work/none" "$work/none"
case_of 'an argument of replay that is no text' 2 '' $'words NotText\n' replay "$work/none" $'\xff'
case_of 'CONFIG before LIST' 4 '' $'device Config\n' replay "$work/none" "$work/none"
case_of 'CONFIG that is a folder' 4 '' $'device Config\n' replay "$work" "$work/bad.list"
head -c 4194305 /dev/zero | tr '\0' '#' >"$work/long.toml"
case_of 'CONFIG that is too long' 4 '' $'device Config\n' replay "$work/long.toml" "$work/none"
case_of 'LIST before the configuration' 4 '' $'device List\n' replay "$work/bad.toml" "$work/none"
case_of 'LIST before admission' 4 '' $'device List\n' replay "$work/small.toml" "$work/none"
case_of 'the configuration before the list' 1 '' $'config BadProfile\n' \
    replay "$work/bad.toml" "$work/bad.list"
case_of 'the configuration, without admission' 1 '' $'config BadProfile\n' \
    replay --no-admission "$work/bad.toml" "$work/bad.list"
case_of 'the configuration before a list that is a folder' 1 '' $'config BadProfile\n' \
    replay "$work/bad.toml" "$work"
case_of 'admission before the list' 1 '' $'admit A2 3 252\n' \
    replay "$work/small.toml" "$work/bad.list"
case_of 'admission before a list that is a folder' 1 '' $'admit A2 3 252\n' \
    replay "$work/small.toml" "$work"
case_of 'a replay of a folder' 4 '' $'device Read\n' replay "$good" "$work"
case_of 'the list' 3 '' $'list BadLine 1\n' replay "$good" "$work/bad.list"
case_of 'the list, without admission' 3 '' $'list BadLine 1\n' \
    replay --no-admission "$work/small.toml" "$work/bad.list"
sed '0,/^system = "s3"/s//link = 5\n&/' "$good" >"$work/changed.toml"
case_of 'a fault inside the configuration' 1 '' $'config NotToml\n' \
    replay "$work/changed.toml" "$work/bad.list"
sed '1,/^buffer/s/^buffer.*/&\nlink = 5/; /^\[\[link/,$d' "$good" >"$work/changed.toml"
case_of 'links that are a number' 1 '' $'config WrongKind top 0 key 4\n' \
    replay "$work/changed.toml" "$work/bad.list"

spelled 'F 0 A 1 H1' >"$work/one.list"
full_case 'replay on a full device' 4 $'device Write\n' replay "$good" "$work/one.list"
full_case 'replay on a full device, many lines' 4 $'device Write\n' replay "$good" "$work/long"
full_case 'replay on a full device, nothing to write' 0 '' replay "$good" /dev/null
full_case 'replay on a full device, not admitted' 1 $'admit A2 3 252\n' \
    replay "$work/small.toml" "$work/one.list"
spelled 'F 0 A 1 H1 / F' >"$work/list"
full_case 'replay on a full device, and a list fault' 3 $'list BadLine 2\n' \
    replay "$good" "$work/list"

# Standard output, or standard input, that is not open at all.
tell 'replay without standard output' "$(
    status=0
    "$program" replay "$good" "$work/one.list" >&- 2>"$work/err" || status=$?
    has_status 4
    differs 'standard error' $'device Write\n' "$work/err"
)"
tell 'replay without standard input' "$(
    status=0
    "$program" replay "$good" - <&- >"$work/out" 2>"$work/err" || status=$?
    has_status 4
    differs 'standard output' '' "$work/out"
    differs 'standard error' $'device Read\n' "$work/err"
)"

closed_case() { # NAME ERR WORD.. : standard output is a pipe that nobody reads
    local name=$1 err=$2 reads writes
    shift 2
    exec {reads}<>"$work/pipe"
    exec {writes}>"$work/pipe" {reads}<&-
    status=0
    "$program" "$@" </dev/null 1>&"$writes" 2>"$work/err" || status=$?
    exec {writes}>&-
    tell "$name" "$(
        has_status 4
        differs 'standard error' "$err" "$work/err"
    )"
}
mkfifo "$work/pipe"
closed_case 'replay into a closed pipe' $'device Write\n' replay "$good" "$work/one.list"
closed_case 'replay into a closed pipe, many lines' $'device Write\n' replay "$good" "$work/long"

sed 's/^buffer = 252/buffer = 4194304/' "$good" >"$work/large.toml"
case_of 'the largest buffers' 0 "$(lines_of "$(read_at 1 6720)")"$'\n' '' \
    replay "$work/large.toml" "$work/one.list"
limited() { (ulimit -v 12288 && exec "$program" "$@"); }
tell 'the largest buffers in 12 MiB' "$(
    status=0
    limited replay "$work/large.toml" "$work/one.list" >"$work/out" 2>"$work/err" || status=$?
    has_status 4
    differs 'standard output' '' "$work/out"
    differs 'standard error' $'memory\n' "$work/err"
)"
