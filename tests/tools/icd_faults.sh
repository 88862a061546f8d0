# Tests of what afdx-icd says of tables with faults; a part of tests/run/tools.sh.
# shellcheck shell=bash
# shellcheck disable=SC2154  # what it uses is set by tests/run/tools.sh, which sources it
# shellcheck disable=SC2016  # $ in a script of sed is the last line

# A case of CASES: its name, what sed makes of the tables, and the lines that are reported.
fault_cases() { # FOLDER
    local name line systems messages told
    while IFS= read -r name; do
        systems='' messages='' told=()
        while IFS= read -r line && [[ -n $line ]]; do
            case $line in
                'systems: '*) systems=${line#*: } ;;
                'messages: '*) messages=${line#*: } ;;
                *) told+=("$line") ;;
            esac
        done
        tables "$1" "$systems" "$messages"
        icd "$1"
        tell "tables where $name" "$(is_refused "$1" 2 "${told[@]}")"
    done
}

fault_tests() {
    local at=$work/icd/fault
    fault_cases "$at" <<'CASES'
a sender is unknown
messages: 3s/fcc/fms/
messages.csv line 3, attitude: from fms: no system has that name

a receiver is unknown
messages: 2s/fcc disp/fcc Disp/
messages.csv line 2, air data: to fcc Disp: no system is named Disp

a receiver is the sender
messages: 3s/disp/fcc/
messages.csv line 3, attitude: to fcc: fcc is the sender

a receiver stands twice
messages: 2s/fcc disp/fcc fcc/
messages.csv line 2, air data: to fcc fcc: fcc stands twice

there is no receiver
messages: 3s/,disp,/,,/
messages.csv line 3, attitude: to (empty): it has to name a system

a period has no BAG
messages: 3s/,10,120/,0.5,120/
messages.csv line 3, attitude: every_ms 0.5: no BAG is so short; the least is 1 ms

a period is no number
messages: 3s/,10,120/,10 ms,120/
messages.csv line 3, attitude: every_ms 10 ms: it has to be a period, as 20 or 12.5 ms

a message is too long
messages: 3s/,10,120/,10,1472/
messages.csv line 3, attitude: bytes 1472: it has to be a whole number from 1 to 1471

a priority is unknown
messages: 3s/high/urgent/
messages.csv line 3, attitude: priority urgent: it has to be high or low

a sampling port is deep
messages: 3s/1$/2/
messages.csv line 3, attitude: depth 2: it has to be 1, or empty, for sampling

a queuing port has no depth
messages: 4s/4$//
messages.csv line 4, maintenance report: depth (empty): it has to be a whole number from 1 to 64

messages of a link have two senders
messages: 3s/,20,/,010,/
messages.csv line 3, attitude: from fcc: messages.csv line 2 has adc, on this link

messages of a link have two priorities
messages: 4s/,21,/,20,/
messages.csv line 4, maintenance report: priority low: messages.csv line 3 has high, on this link

messages of a link have two kinds of policing
messages: 1s/$/,policing/; 3s/$/,byte/; 4s/$/,frame/; 4s/,21,/,20,/; 4s/low/high/; 2d; 5,$d
messages.csv line 3, maintenance report: policing frame: messages.csv line 2 has byte, on this link

messages of a link have one UDP port
messages: 4s/,21,/,20,/; 4s/low,1021/high,1020/
messages.csv line 4, maintenance report: port 1020: messages.csv line 3 has it too, on this link

two rows for a message differ
messages: 2s/fcc disp/fcc/; 3s/.*/air data,10,adc,fcc disp,10,65,,high,1010,sampling,/; 4,$d
messages.csv line 3, air data: every_ms 10: messages.csv line 2 has 20, of this message
messages.csv line 3, air data: bytes 65: messages.csv line 2 has 64, of this message
messages.csv line 3, air data: to fcc disp: messages.csv line 2 has fcc too, of this message

messages of a link are too many
messages: 3s/,10,120,/,1,120,/; 4s/.*/heading,20,fcc,disp,128,9,,high,1021,sampling,/; 5,$d
messages.csv line 4, heading: every_ms 128: link 20 would have to send more than a frame a ms

a message has no name
messages: 3s/attitude//
messages.csv line 3: message (empty): it has to have a name

a system stands twice
systems: 3s/fcc/adc/; 4s/49/17/
messages: 3s/fcc/adc/; 4,$d
systems.csv line 3, adc: system adc: systems.csv line 2 has it too
systems.csv line 4, disp: id 17: systems.csv line 2 has it too
messages.csv line 2, air data: to fcc disp: no system is named fcc

a name is no name
systems: 2s/adc/a.dc/
messages: 2d; s/,adc,/,disp,/
systems.csv line 2, a.dc: system a.dc: it has to be a name of 1 to 16 letters A to Z and digits

a number may be a fraction or thousands
messages: 4s/,200,1000,1000,/,"1,200",1.000,"1000,0",/
messages.csv line 4, maintenance report: every_ms 1,200: it has to be a period, as 20 or 12.5 ms
messages.csv line 4, maintenance report: bytes 1.000: it has to be a whole number from 1 to 1471

a number has a fraction
messages: 3s/,10,120,120,/,10,120.5,120,/
messages.csv line 3, attitude: bytes 120.5: it has to be a whole number from 1 to 1471

a port stands twice, once with a fraction
systems: 3s/,2,/,1.0,/
systems.csv line 3, fcc: port 1.0: systems.csv line 2 has it too

a head has a unit that no one knows
messages: 1s/every_ms/every [fortnights]/
messages.csv: no column is named every_ms

a rate is of profile 2
systems: 2s/100$/1000/
systems.csv line 2, adc: rate 1000: it has to be 10 or 100; with --profile 2 also this

a rate is of profile 2, in Gbit/s
systems: 1s/rate/Rate (Gbit_s)/; s/,100$/,1/
systems.csv line 2, adc: rate_gbit_s 1: it has to be 0.01 or 0.1; with --profile 2 also this
systems.csv line 3, fcc: rate_gbit_s 1: it has to be 0.01 or 0.1; with --profile 2 also this
systems.csv line 4, disp: rate_gbit_s 1: it has to be 0.01 or 0.1; with --profile 2 also this

a rate is of no profile
systems: 2s/100$/1001/
systems.csv line 2, adc: rate 1001: it has to be 10 or 100

times are in ms
messages: 1s/within_us/within [ms]/; 2s/,150,/,0.0001,/; 3s/,120,120,/,120,101,/; 4,$d
messages.csv line 2, air data: within_ms 0.0001: it has to be 0.001 to 100, in steps of 0.001
messages.csv line 3, attitude: within_ms 101: it has to be 0.001 to 100, in steps of 0.001

a column is missing
messages: 1s/within_us/within/
messages.csv: no column is named within_us

columns are missing
systems: 1s/id,partition/i,p/
systems.csv: no column is named id, partition

a column stands twice
messages: 1s/depth/KIND/
messages.csv: two columns are named kind

a row is too long
messages: 3s/$/,,x/
messages.csv line 3: it has more cells than the table has columns

there are no rows
systems: 2,$d
systems.csv: no row stands below the names of the columns

there is nothing
systems: d
systems.csv: no column is named system, port, id, partition, rate

a quote isn't closed
messages: 3s/^/"/
messages.csv line 3: unexpected end of data

text follows a quote
messages: 3s/attitude/"attitude" x/
messages.csv line 3: ',' expected after '"'
CASES
}

many_faults_tests() {
    local at=$work/icd/many vl
    tables "$at" '' $'3s/attitude/H\xf6he/'
    icd "$at"
    tell "tables that aren't UTF-8" "$(is_refused "$at" 2 \
        "messages.csv line 3: it isn't UTF-8; save the table as CSV in UTF-8")"
    tables "$at" '' ''
    for vl in $(seq 31); do echo "m,1$vl,adc,fcc,x,0,0,,0,,"; done >>"$at/messages.csv"
    icd "$at"
    tell 'of many faults the first twenty are told' "$(
        is_status 2
        wc -l <"$work/err" | grep -vx 21
        says err 'afdx-icd: 197 more lines are like these'
    )"
    tables "$at" '' '2,$d'
    for vl in $(seq 4097); do echo "m,$vl,adc,fcc,9,9,9,low,9,sampling,1"; done >>"$at/messages.csv"
    icd "$at"
    tell 'more links and ports than a network has' "$(is_refused "$at" 2 \
        'messages.csv: it has more than 4096 links' \
        'messages.csv: its messages have 4097 receivers; 4096 are the most')"
}

mutated_tests() {
    launch "$python" tests/tools/mutated_tables.py 3000 examples/systems.csv examples/messages.csv
    tell '3,000 tables with cells and bytes changed are read without a fault, or refused' "$(
        is_status 0
        head -n -1 "$work/out" | head -n 5
    )" "$(tail -n 1 "$work/out")"
}

# Each number of a column is taken from its least to its greatest, by the tool and the program.
range_tests() {
    local at=$work/icd/range file column least most number wanted
    tell 'the ranges of the columns are those of the program' "$(
        while read -r file column least most; do
            for number in "$least" "$most" $((least - 1)) $((most + 1)); do
                tables "$at" '' '1s/$/,lmin,skew_us,subs/; 1!s/$/,,,/; 5,$d'
                "$python" - "$at/$file.csv" "$column" "$number" <<'CODE'
import csv, sys
path, column, number = sys.argv[1:]
rows = list(csv.reader(open(path, newline="")))
rows[3][rows[0].index(column)] = number
csv.writer(open(path, "w", newline="")).writerows(rows)
CODE
                icd "$at" --raise
                wanted=2
                if ((least <= number && number <= most)); then wanted=0; fi
                is_status "$wanted" | sed "s/^/$column $number: /"
            done
        done <<'ROWS'
systems port 3 24
systems id 34 65535
systems partition 0 255
messages vl 21 65535
messages bytes 1 1471
messages within_us 1 100000
messages port 1 65535
messages depth 1 64
messages lmin 64 1518
messages skew_us 1 100000
messages subs 1 4
ROWS
    )"
}

if [[ -n $built ]] && "$program" solve --help >/dev/null 2>&1; then
    fault_tests
    many_faults_tests
    mutated_tests
    range_tests
else
    skip 'faults of tables' 'there is no program with the command solve'
fi
