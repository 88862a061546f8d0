# Tests of tools/afdx-icd with a table of cables between several switches a side; a part of
# tests/run/tools.sh.
# shellcheck shell=bash
# shellcheck disable=SC2154  # what it uses is set by tests/run/tools.sh, which sources it
# shellcheck disable=SC2016  # $ in a script of sed is the last line

# Copies the examples' three tables to a folder, changed by sed.
three_tables() { # FOLDER SYSTEMS_SCRIPT MESSAGES_SCRIPT CABLES_SCRIPT
    mkdir -p "$1"
    rm -f "$1/made.toml"
    sed -E "$2" examples/light_systems.csv >"$1/systems.csv"
    sed -E "$3" examples/light_messages.csv >"$1/messages.csv"
    sed -E "$4" examples/light_cables.csv >"$1/cables.csv"
}

icd_over() { # FOLDER [OPTION..] : as `icd`, with cables
    icd "$1" --cables cables.csv "${@:2}"
}

# A file says of rows of links at a switch these words.
row_says() { # FOLDER SWITCH VL WORDS
    local here
    here=$(sed -n "/^name = \"$2\"/,/^port = /p" "$1/made.toml" | grep "vl = $3,")
    if ! grep -qF "$4" <<<"$here"; then
        echo "at $2 link $3 hasn't $4"
    fi
}

ends_say() { # FOLDER LINE.. : `check` writes these lines E
    printf 'E %s\n' "${@:2}" >"$work/wanted"
    "$program" check "$1/made.toml" | grep '^E' >"$work/got"
    same "$work/wanted" "$work/got"
}

# ---- tables that are sound -----------------------------------------------------------------

three_tests() {
    local at=$work/icd/three
    three_tables "$at" '' '' ''
    icd_over "$at"
    tell 'three tables to ok, and what each link may take from end to end' "$(
        is_ok "$at"
        head -n 5 "$at/made.toml" >"$work/got"
        printf '# Made by afdx-icd from systems.csv, messages.csv and cables.csv.\n\n[[switch]]\n' \
            >"$work/wanted"
        printf 'name = "nose"\nprofile = 1\n' >>"$work/wanted"
        same "$work/wanted" "$work/got"
        ends_say "$at" '10 disp 306000' '10 fcc 400000' '11 disp 229000' '11 fcc 300000' \
            '12 rec 1064000' '13 rec 1064000' '21 disp 5000000' '22 disp 600000' \
            '30 disp 600000' '30 fcc 270000' '40 fcc 2000000' '20 act 200000' '31 rec 971000'
    )"
    tell 'a row at each switch, where a link comes from and where it goes to' "$(
        row_says "$at" nose 10 'from = "adc", to = ["bay", "disp"], bag_ms = 16'
        row_says "$at" bay 10 'from = "nose", to = ["fcc"], bag_ms = 16'
        row_says "$at" bay 20 'from = "fcc", to = ["act"]'
        grep -c 'vl = 20,' "$at/made.toml" | grep -vx 1
        grep -c 'system = "disp", link = 10,' "$at/made.toml" | grep -vx 1
    )"
    cp "$at/made.toml" "$work/least.toml"
    three_tables "$at" 's/,/;/g' 's/$/\r/' '1s/.*/Port,Switch,PORT,rate (Gbit\/s),second_switch/
        2s/.*/24,nose,24.0,0.1,bay/'
    icd_over "$at"
    tell 'other orders, heads and ends' "$(is_ok "$at"; same "$work/least.toml" "$at/made.toml")"
    three_tables "$at" '' '' ''
    sed -i 's/$/,owner/' "$at/cables.csv"
    sed -i '3,4s/nose//; 2s/,1$/&/' "$at/systems.csv"
    icd_over "$at" --fill
    tell 'merged cells, columns that are passed over' "$(
        is_status 0
        text_is err 'afdx-icd: systems.csv: 2 empty cells have what stands above them
afdx-icd: cables.csv: columns passed over: owner
'
        same "$work/least.toml" "$at/made.toml"
    )"
    three_tables "$at" '1s/switch/place/; 1s/place/switch/' '' ''
    icd "$at"
    tell 'without cables a column of switches is passed over, as ever' "$(
        is_status 2
        says err 'afdx-icd: systems.csv: columns passed over: switch; with --cables each system is'
        says err 'systems.csv line 5, fcc: port 1: systems.csv line 2 has it too'
    )"
}

aircraft_tests() {
    launch env -C examples ../tools/afdx-icd --profile 2 --cables aircraft_cables.csv \
        aircraft_systems.csv aircraft_messages.csv -
    tell "an aircraft's tables make the example" "$(
        is_status 0
        same examples/aircraft.toml "$work/out"
    )"
}

name_over_tests() {
    local at=$work/icd/called
    three_tables "$at" 's/nose/no_se/; s/,bay/,rec-1/; s/rec,/rec1,/' 's/rec/rec1/' \
        's/nose/no_se/; s/bay/rec-1/'
    icd_over "$at"
    tell 'switches have other names in the configuration, if they have to' "$(
        is_status 0
        text_is err 'afdx-icd: cables.csv: in the configuration no_se is nose, rec-1 is rec1x2
'
        grep -A 1 '^# rec-1' "$at/made.toml" | grep -qx 'name = "rec1x2"' || echo 'no remark'
        grep -A 1 '^  # rec-1' "$at/made.toml" | grep -q 'name = "rec1x2", port = 24' || echo 'none'
    )"
}

way_tests() {
    local left_out='afdx-icd: cables.csv: cables that no message needs are left out: '
    local at=$work/icd/way mid='2s/$/\nnose,23,mid,1,100\nmid,2,bay,23,100\nmid,3,end,1,100/'
    three_tables "$at" '' '' "$mid"
    icd_over "$at"
    tell 'cables that no message needs are left out' "$(
        is_status 0
        text_is err "${left_out}nose to mid, mid to bay, mid to end"$'\n'
        same <(sed 1d "$work/least.toml") <(sed 1d "$at/made.toml")
    )"
    three_tables "$at" '' '1s/$/,via/; 2,$s/$/,/; 3s/$/nose mid bay/' "$mid"
    icd_over "$at"
    tell 'the way that a message names' "$(
        is_status 0
        text_is err "${left_out}mid to end"$'\n'
        row_says "$at" nose 10 'to = ["bay", "disp"]'
        row_says "$at" nose 11 'to = ["mid", "disp"]'
        row_says "$at" mid 11 'from = "nose", to = ["bay"]'
        row_says "$at" bay 11 'from = "mid", to = ["fcc"]'
        "$program" check "$at/made.toml" | grep 'E 11 fcc' | grep -vx 'E 11 fcc 300000'
    )"
    three_tables "$at" '' '' "2s/.*/nose,23,mid,1,100\nmid,2,bay,23,100\nnose,22,top,1,1000\n\
top,2,bay,22,1000/"
    icd_over "$at" --profile 2
    tell 'of two ways with as many cables the faster' "$(
        is_status 0
        row_says "$at" nose 11 'to = ["top", "disp"]'
        says err 'left out: nose to mid, mid to bay'
    )"
    three_tables "$at" '' '1s/$/,skew_us/; 2,$s/$/,/; 3s/$/3000/' ''
    icd_over "$at"
    tell 'a skew that is asked for' "$(
        is_ok "$at"
        row_says "$at" bay 11 'skew_us = 3000'
    )"
}

# ---- messages that can't be in time ------------------------------------------------------------

late_over_tests() {
    local at=$work/icd/late_over late='messages.csv line 3, attitude: within_us 150: to fcc it can '
    late+='take 192 us (nose 147, bay 45); 192 is enough'
    three_tables "$at" '' '/^attitude/s/,300,/,150,/' ''
    icd_over "$at"
    tell "a message that can't be in time over two switches" "$(is_refused "$at" 1 "$late")"
    icd_over "$at" --raise
    tell 'what is needed is shared, if that is asked for' "$(
        is_status 0
        text_is err "afdx-icd: $late"$'\n'
        "$program" check "$at/made.toml" | grep 'E 11 fcc' | grep -vx 'E 11 fcc 192000'
        "$program" check "$at/made.toml" | grep 'E 10 fcc' | grep -vx 'E 10 fcc 400000'
    )"
    three_tables "$at" '' '' 's/100$/10/'
    icd_over "$at"
    tell 'a cable that is too slow' "$(
        is_status 1
        wc -l <"$work/err" | grep -vx 4
        says err 'line 9, positions: within_us 600: to disp it can take 1351 us (bay 1203, nose '
    )"
    three_tables "$at" '' '/^acc/s/,5,200,/,1,1400,/' 's/100$/10/'
    icd_over "$at"
    tell 'messages that are too much for a cable' "$(is_refused "$at" 1 "cables.csv line 2, nose: \
rate 10: the messages from nose to bay are more than the line can carry (no A1 nose 24)" \
        "systems.csv line 7, rec: rate 10: the messages to rec are more than the line can carry \
(no A1 bay 3)")"
    three_tables "$at" '' '/^flight/s/,200,1200,/,1,1471,/' '2s/(.*),24,100/\1,24,10/'
    sed -i -E '2s/(.*),(.*),(.*),(.*),(.*)/\3,\4,\1,\2,\5/' "$at/cables.csv"
    icd_over "$at"
    tell 'the same, where the cable is named from its other end' "$(is_refused "$at" 1 "cables.csv \
line 2, bay: rate 10: the messages from bay to nose are more than the line can carry \
(no A1 bay 24)")"
    three_tables "$at" '/^rec/s/10$/10/' '/^acc/s/,5,200,/,1,1400,/' ''
    icd_over "$at"
    tell 'messages that are too much for a system' "$(is_refused "$at" 1 "systems.csv line 7, rec: \
rate 10: the messages to rec are more than the line can carry (no A1 bay 3)")"
    three_tables "$at" '/^ahrs/s/100$/10/' '/^acc/s/,5,200,/,128,1471,/' ''
    icd_over "$at"
    tell 'a sender that is too busy, over two switches' "$(is_refused "$at" 1 "systems.csv line 3, \
ahrs: rate 10: its messages can hold one up for 1420000 ns; 500000 are the most \
(no A5 nose ahrs 1420000)")"
    three_tables "$at" '/^(ahrs|act)/s/100$/10/' \
        '/^acc/s/,5,200,/,1,1471,/; /^actuator faults/s/,1000,400,/,128,1471,/' 's/100$/10/'
    icd_over "$at"
    tell 'all that is asked for too much at several switches is told at once' "$(
        is_status 1
        for line in A1 A5; do grep -q "(no $line " "$work/err" || echo "no $line"; done
        [[ $(grep -c '(no A[15] ' "$work/err") -ge 4 ]] || cat "$work/err"
    )"
}

room_over_tests() {
    local at=$work/icd/room_over
    three_tables "$at" '' '/attitude|commands/s/,(300|200),/,,/' ''
    icd_over "$at" --reserve 50
    tell 'room at each switch' "$(
        is_ok "$at"
        "$program" check --margins "$at/made.toml" | awk '
            $1 == "S" { at = $2 }
            $1 == "m" && 1.5 * $4 > $5 { print "at", at, "link", $3, "has", $5, "of", 1.5 * $4 }'
    )"
    three_tables "$at" '' '' ''
    icd_over "$at" --reserve 100
    tell 'a message for which there is no room over two switches' "$(
        is_status 1
        says err 'line 3, attitude: within_us 300: to fcc it can take 192 us (nose 147, bay 45); '
        says err '; 383 is enough with a reserve of 100 %'
    )"
}

# ---- what changed ------------------------------------------------------------------------------

since_over_tests() {
    local at=$work/icd/since_over heading='heading,23,fcc,disp,20,50,300,high,1023,sampling,1'
    three_tables "$at" '' '' ''
    icd_over "$at"
    cp "$at/made.toml" "$at/earlier.toml"
    icd_over "$at" --since earlier.toml
    tell 'nothing changed over two switches' "$(
        is_status 0
        text_is out $'nothing changed\nok\n'
        same "$at/earlier.toml" "$at/made.toml"
    )"
    sed -i "\$s/\$/\n$heading/; 9s/,600,/,700,/" "$at/messages.csv"
    icd_over "$at" --since earlier.toml
    tell 'each number that changed, at each switch' "$(
        is_status 0
        text_is err ''
        text_is out "nose: link 23, heading: new
nose: link 21, flight plan: jitter_us 2421 to 2430 (jitter and latency at bay)
nose: link 22, alerts: jitter_us 434 to 443 (jitter and latency at bay)
nose: link 30, positions: latency_us 330 to 430 (its share of what the table allows)
nose: link 30, positions: skew_us 600 to 700 (as the latencies on its way)
nose: buffer 1853 to 1972 (1972 bytes can wait for disp; new to disp: link 23; other jitter_us: \
links 21, 22)
bay: link 23, heading: new
bay: links 20, 21, 22: jitter_us 164 to 173 (new from fcc: link 23)
bay: buffer 1505 to 1623 (1623 bytes can wait for nose; new to nose: link 23; other jitter_us: \
links 21, 22)
ok
"
    )"
    icd_over "$at" --since earlier.toml --reserve 2
    tell 'room for what has to rise' "$(
        is_status 0
        says out 'bay: buffer 1505 to 1656 (1623 bytes can wait for nose; '
        row_says "$at" bay 12 'latency_us = 971'
    )"
    sed -i '2s/nose,24/nose,23/; $s/$/\nnose,22,mid,1,100/' "$at/cables.csv"
    sed -i '4s/nose/mid/' "$at/systems.csv"
    icd_over "$at" --raise --since earlier.toml
    tell 'cables, switches and systems that are others' "$(
        is_status 0
        says out 'switch mid: new'
        says out 'nose: cable to mid: new'
        says out 'nose: cable to bay: port 24 to 23'
        says out 'nose: system disp: gone'
    )"
    cp examples/base.toml "$at/one.toml"
    icd_over "$at" --since one.toml
    tell 'an earlier configuration of one switch a side' "$(
        is_status 2
        text_is err $'afdx-icd: one.toml: it has one switch a side, and the tables have several\n'
    )"
    tables "$at/one" '' ''
    icd "$at/one" --since ../earlier.toml
    tell 'an earlier configuration of several' "$(
        is_status 2
        says err 'earlier.toml: it has several switches a side, and the tables have one'
    )"
}

# ---- tables with faults ------------------------------------------------------------------------

fault_over_tests() {
    local at=$work/icd/fault_over no_name='it has to be a name of 1 to 16 letters A to Z and digits'
    three_tables "$at" '2s/nose/wing/; 3s/nose//; 4s/disp/bay/' '3,$d' \
        '2s/$/\nnose,3,bay,23,10\nbay,25,bay,7,1000\ntail,1,no se,2,100/'
    icd_over "$at"
    tell 'all faults of three tables at once' "$(is_refused "$at" 2 \
        'systems.csv line 2, adc: switch wing: no cable goes there' \
        'systems.csv line 3, ahrs: switch (empty): it has to name a switch' \
        'systems.csv line 4, bay: system bay: a switch has that name' \
        'cables.csv line 3, nose: second switch bay: cables.csv line 2 joins them too' \
        'cables.csv line 4, bay: port 25: it has to be a whole number from 1 to 24' \
        'cables.csv line 4, bay: rate 1000: it has to be 10 or 100; with --profile 2 also this' \
        'cables.csv line 4, bay: second switch bay: a cable joins two switches' \
        "cables.csv line 5, tail: second switch no se: $no_name" \
        'cables.csv line 3, nose: port 3: systems.csv line 4 has it too, at nose' \
        'messages.csv line 2, air data: to fcc disp: no system is named disp')"
    three_tables "$at" '7s/bay/tail/' '' '2s/$/\ntail,1,cone,2,100/'
    icd_over "$at"
    tell 'receivers to which no cables lead' "$(is_refused "$at" 2 \
        'messages.csv line 4, accelerations: to rec: no cables lead to rec at tail from nose' \
        'messages.csv line 5, air data faults: to rec: no cables lead to rec at tail from nose' \
        'messages.csv line 10, actuator faults: to rec: no cables lead to rec at tail from bay')"
    three_tables "$at" '' '' '1s/,port,rate/,rate/'
    icd_over "$at"
    tell 'a table of cables that names one port' "$(
        is_refused "$at" 2 'cables.csv: no column is named second port'
    )"
    three_tables "$at" '1s/switch/place/' '' ''
    icd_over "$at"
    tell 'systems without a column of switches' "$(
        is_refused "$at" 2 'systems.csv: no column is named switch'
    )"
}

via_tests() {
    local at=$work/icd/via row via wanted
    while IFS='|' read -r row via wanted; do
        three_tables "$at" '' "1s/$/,via/; 2,\$s/$/,/; ${row}s/$/$via/" \
            '2s/$/\nnose,23,mid,1,100\nmid,2,bay,23,100/'
        icd_over "$at"
        tell "a way that is none: $via" "$(
            is_status 2
            says err ": via $via: $wanted"
            wc -l <"$work/err" | grep -vx 1
        )"
    done <<'ROWS'
3|nose low bay|no switch is named low
3|nose mid nose|nose stands twice
3|bay nose|it has to begin at nose, where the sender is
6|nose bay|it has to begin at bay, where the sender is
9|bay mid|a receiver is at nose, which it doesn't name
8|bay nose mid|no receiver is at mid
ROWS
    three_tables "$at" '' '1s/$/,via/; 2,$s/$/,/; 3s/$/nose mid bay/
        3s/$/\nheading,11,ahrs,fcc,10,20,,high,1111,sampling,1,nose bay/' \
        '2s/$/\nnose,23,mid,1,100\nmid,2,bay,23,100/'
    icd_over "$at"
    tell "two ways of a link that don't agree" "$(is_refused "$at" 2 "messages.csv line 4, \
heading: via nose bay: messages.csv line 3 comes to bay from mid, on this link")"
}

# ---- at random -----------------------------------------------------------------------------

random_over_tests() {
    launch "$python" tests/tools/random_cables.py 40 "$program" examples/light examples/aircraft
    tell '40 documents of trees, rings and meshes, and the examples, by a second computation' "$(
        is_status 0
        head -n -1 "$work/out" | head -n 5
    )" "$(tail -n 1 "$work/out")"
    launch "$python" tests/tools/mutated_tables.py 3000 examples/light_{systems,messages,cables}.csv
    tell '3,000 triples of tables with cells and bytes changed are read, or refused' "$(
        is_status 0
        head -n -1 "$work/out" | head -n 5
    )" "$(tail -n 1 "$work/out")"
}

if [[ -n $built ]] && "$program" solve --help >/dev/null 2>&1; then
    three_tests
    aircraft_tests
    name_over_tests
    way_tests
    late_over_tests
    room_over_tests
    since_over_tests
    fault_over_tests
    via_tests
    random_over_tests
else
    skip 'tables of cables' 'there is no program with the command solve'
fi
