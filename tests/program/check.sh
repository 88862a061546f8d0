# Cases of `check`; tests/run/program.sh reads this file.
# shellcheck shell=bash
# shellcheck disable=SC2154  # what it uses is set by tests/run/program.sh, which sources it

check_with() { # NAME STATUS OUT ERR SED_SCRIPT : `check` on base.toml as the script changes it
    sed -E "$5" examples/base.toml >"$work/changed.toml"
    case_of "$1" "$2" "$3" "$4" check "$work/changed.toml"
}

fault_with() { # NAME FAULT SED_SCRIPT : the script makes that fault of the configuration
    check_with "$1" 1 '' "config $2"$'\n' "$3"
}

idle=$'P 1 0 0 0\nP 2 0 0 0\n'
base=$idle$'P 3 16800 20297 252\n'
case_of 'check base.toml' 0 "$base"$'ok\n' '' check examples/base.toml
network='P 1 242910 284033 3350
P 2 242910 284033 3350
P 3 17600 67678 846
P 4 17600 67678 846
P 5 41576 95304 1190
P 6 41576 95304 1190
P 7 267995 684331 8462
P 8 267995 684331 8462
P 9 93216 305336 3803
P 10 76878 112199 1391
P 11 76878 112199 1391
P 12 97600 1003517 12544
'
case_of 'check network.toml' 0 "$network"$'ok\n' '' check examples/network.toml
case_of 'check refused.toml' 1 "$network"$'no A3 7 104 267995\n' '' check examples/refused.toml

check_with 'A2' 1 "$base"$'no A2 3 252\n' '' 's/^buffer = 252/buffer = 251/'
check_with 'A3' 1 "$base"$'no A3 3 1 16800\n' '' 's/^latency_us = 17/latency_us = 16/'
check_with 'A4' 1 "$base"$'no A4 3 2 20297\n' '' 's/^latency_us = 21/latency_us = 20/'
check_with 'A7' 1 "$base"$'no A7 1\n' '' "$(skew_is 16 "$link_1")"

ends_with() { # NAME STATUS LINES [OPTION] : `check` on the changed base.toml, which ends with them
    launch check ${4+"$4"} "$work/changed.toml"
    tail -c "${#3}" "$work/out" >"$work/end"
    tell "$1" "$(
        has_status "$2"
        differs 'the end of standard output' "$3" "$work/end"
    )"
}

all_with() { # NAME STATUS OUT SED_SCRIPT : all false lines of base.toml as the script changes it
    sed -E "$4" examples/base.toml >"$work/changed.toml"
    case_of "$1" "$2" "$3" '' check --all "$work/changed.toml"
}
all_with 'all lines: none is false' 0 "$base"$'ok\n' ''
all_with 'all lines: four are false' 1 \
    "$base"$'no A2 3 252\nno A3 3 1 16800\nno A4 3 2 20297\nno A7 1\n' \
    "s/^buffer = 252/buffer = 251/; s/^latency_us = 17/latency_us = 16/
    s/^latency_us = 21/latency_us = 20/; $(skew_is 15 "$link_1")"
all_with 'all lines: an overloaded port' 1 \
    "$idle"$'P 3 1912800 - 2433\nno A1 3\nno A2 3 2433\nno A3 3 1 1912800\nno A4 3 2 -\n' \
    '0,/^lmax = 64/s//lmax = 1518/; /^id = 3/,/^rate/s/^rate = 100/rate = 10/'

margins=$idle$'P 3 16800 20297 252\nm 3 1 16800 17000\nm 3 2 20297 21000\n'
left=$'ok\napart 1 988760\napart 2 984760\n'
case_of 'margins: base.toml' 0 "$margins$left" '' check --margins examples/base.toml
sed 's/^latency_us = 21/latency_us = 20/; s/^buffer = 252/buffer = 251/' examples/base.toml \
    >"$work/changed.toml"
margins=${margins/21000/20000}
case_of 'margins: a late link' 1 "$margins"$'no A2 3 252\n' '' \
    check --margins "$work/changed.toml"
case_of 'margins: with all lines' 1 "$margins"$'no A2 3 252\nno A4 3 2 20297\n' '' \
    check --all --margins "$work/changed.toml"
sed '0,/^lmax = 64/s//lmax = 1518/; /^id = 3/,/^rate/s/^rate = 100/rate = 10/' \
    examples/base.toml >"$work/changed.toml"
case_of 'margins: high links that take the whole line' 1 \
    "$idle"$'P 3 1912800 - 2433\nm 3 1 1912800 17000\nm 3 2 - 21000\nno A1 3\n' '' \
    check --margins "$work/changed.toml"

sed '0,/^jitter_us = 500/s//jitter_us = 46/' examples/base.toml >"$work/changed.toml"
ends_with 'A6' 1 $'no A6 1 46720\n'
sed '0,/^jitter_us = 500/s//jitter_us = 47/' examples/base.toml >"$work/changed.toml"
ends_with 'a jitter of one microsecond more' 0 $'ok\n'
sed '/^vl = 2/Q; s/^lmax = 64/lmax = 1518/; /^id = 3/,/^rate/s/^rate = 100/rate = 10/' \
    examples/base.toml | sed '$d' >"$work/changed.toml"
ends_with 'A1, a port that its high links fill' 1 $'P 3 1845600 - 2307\nno A1 3\n'

python3 -B tests/lib/tables.py long-links 4 >"$work/changed.toml"
ends_with 'A5' 1 $'\nno A5 s1 532160\n'
ends_with 'A5 and A6, all of them' 1 \
    $'\nno A5 s1 532160\nno A6 0 532160\nno A6 1 532160\nno A6 2 532160\nno A6 3 532160\n' --all
python3 -B tests/lib/tables.py long-links 3 >"$work/changed.toml"
ends_with 'the jitter of a sender' 0 $'\nP 3 370562 371634 4633\nok\n'

check_with 'profile 2 at 1000 Mbit/s' 0 "$idle"$'P 3 1680 2018 252\nok\n' '' \
    's/^profile = 1/profile = 2/; s/^rate = 100/rate = 1000/'
fault_with 'profile 1 at 1000 Mbit/s' 'OutOfRange system 1 key 5' '0,/^rate = 100/s//rate = 1000/'
fault_with 'no TOML' NotToml '1s/^/=\n/'
fault_with 'a key twice' NotToml 's/^buffer = 252/buffer = 252\nbuffer = 252/'
fault_with 'profile 3' BadProfile 's/^profile = 1/profile = 3/'
fault_with 'a profile that is text' BadProfile 's/^profile = 1/profile = "1"/'
fault_with 'no profile' BadProfile '/^profile/d'
fault_with 'no buffer' 'Missing top 0 key 2' '/^buffer/d'
fault_with 'a buffer too small' 'OutOfRange top 0 key 2' 's/^buffer = 252/buffer = 63/'
fault_with 'a buffer that is no whole number' 'WrongKind top 0 key 2' \
    's/^buffer = 252/buffer = 252.0/'
fault_with 'an identifier that is text' 'WrongKind link 1 key 1' 's/^vl = 1/vl = "1"/'
fault_with 'an identifier below 0' 'OutOfRange link 1 key 1' 's/^vl = 1/vl = -1/'
fault_with 'an unknown key' 'UnknownKey system 2 key 0' 's/^name = "s2"/name = "s2"\nx = 1/'
fault_with 'BAG 3 in a link' 'OutOfRange link 1 key 4' '0,/^bag_ms = 1/s//bag_ms = 3/'
fault_with 'a port twice' 'Twice system 2 key 2' 's/^port = 2/port = 1/'
fault_with 'a receiver that is not there' 'NoSuchSystem link 2 key 3' \
    '/^from = "s2"/,/^to/s/"s3"/"s9"/'
fault_with 'no receivers' 'OutOfRange link 1 key 3' '/^from = "s1"/,/^to/s/\["s3"\]/[]/'
fault_with 'a sender that receives' 'Twice link 1 key 3' '/^from = "s1"/,/^to/s/\["s3"\]/["s1"]/'
fault_with 'a port entry of no link' 'OutOfRange port 2 key 2' 's/^link = 2/link = 3/'
fault_with 'a name twice' 'Twice system 2 key 1' 's/^name = "s2"/name = "s1"/'
fault_with 'a system identifier twice' 'Twice system 3 key 3' 's/^id = 3/id = 1/'
fault_with 'a link identifier twice' 'Twice link 2 key 1' 's/^vl = 2/vl = 1/'
fault_with 'a receiver twice' 'Twice link 1 key 3' '/^from = "s1"/,/^to/s/"s3"/"s3", "s3"/'
fault_with 'a port entry twice' 'Twice port 2 key 3' \
    's/^link = 2/link = 1/; s/^udp = 2000/udp = 1000/'
check_with 'two UDP ports of one link' 0 "$base"$'ok\n' '' \
    's/^link = 2/link = 1/; s/^udp = 2000/udp = 1001/'
check_with 'a sender of 10 Mbit/s' 0 "$base"$'ok\n' '' '0,/^rate = 100/s//rate = 10/'

text_with() { # NAME STATUS OUT ERR TEXT : `check` on a text of its own
    printf '%b' "$5" >"$work/changed.toml"
    case_of "$1" "$2" "$3" "$4" check "$work/changed.toml"
}
text_with 'a top without a buffer' 1 '' $'config Missing top 0 key 2\n' 'profile = 1\n'
text_with 'links that are a number' 1 '' $'config WrongKind top 0 key 4\n' \
    'profile = 1\nlink = 5\nbuffer = 252\n'
text_with 'a link that is a number' 1 '' $'config WrongKind top 0 key 4\n' \
    'profile = 1\nlink = [5]\nbuffer = 252\n'
text_with 'an empty array of links' 0 $'ok\n' '' 'profile = 1\nlink = []\nbuffer = 252\n'
text_with 'a byte that is no UTF-8' 1 '' $'config NotToml\n' \
    'profile = 1\nbuffer = 252\nname = "\xff"\n'

# Beginnings of a configuration: each is answered, as that of a text that ends there.
begun_with() { # NAME LAST ERR : base.toml as far as the first line that begins with LAST
    sed "/^$2/q" examples/base.toml >"$work/changed.toml"
    case_of "$1" 1 '' "$3" check "$work/changed.toml"
}
begun_with 'the first line alone' 'profile' $'config Missing top 0 key 2\n'
begun_with 'as far as lmin of the first link' 'lmin' $'config Missing link 1 key 6\n'
tell 'each beginning of a configuration' "$(
    for ((k = 0; k <= $(wc -l <examples/base.toml); k++)); do
        head -n "$k" examples/base.toml >"$work/changed.toml"
        launch check "$work/changed.toml"
        if [[ $status -gt 1 || (-s $work/err && $(<"$work/err") != config\ *) ]]; then
            echo "line $k: status $status"
        fi
    done
)"

case_of 'a configuration that is not there' 4 '' $'device Config\n' check "$work/none"
case_of 'a configuration that is a folder' 4 '' $'device Config\n' check "$work"
head -c 4194305 /dev/zero | tr '\0' '#' >"$work/long.toml"
case_of 'a configuration that is too long' 4 '' $'device Config\n' check "$work/long.toml"
full_case 'check on a full device' 4 $'device Write\n' check examples/base.toml
