# Tests of tools/afdx-icd; a part of tests/run/tools.sh.
# shellcheck shell=bash
# shellcheck disable=SC2154  # what it uses is set by tests/run/tools.sh, which sources it
# shellcheck disable=SC2016  # $ in a script of sed is the last line

# Copies the examples' tables to a folder, changed by sed.
tables() { # FOLDER SYSTEMS_SCRIPT MESSAGES_SCRIPT
    mkdir -p "$1"
    sed -E "$2" examples/systems.csv >"$1/systems.csv"
    sed -E "$3" examples/messages.csv >"$1/messages.csv"
}

icd() { # FOLDER [OPTION..] : both streams go to files, the configuration to made.toml there
    launch env -C "$1" "$top/tools/afdx-icd" "${@:2}" systems.csv messages.csv made.toml
}

text_is() { # STREAM TEXT : all of it
    printf '%s' "$2" >"$work/wanted"
    same "$work/wanted" "$work/$1"
}

is_ok() { # FOLDER : it was made, without a remark, and `check` admits it
    is_status 0
    text_is out $'ok\n'
    text_is err ''
    "$program" check "$1/made.toml" 2>&1 | tail -n 1 | grep -vx ok
}

made_says() { # FOLDER VL WORDS : the link's row
    if ! grep "vl = $2," "$1/made.toml" | grep -qF "$3"; then
        echo "link $2 hasn't $3: $(grep "vl = $2," "$1/made.toml")"
    fi
}

is_refused() { # FOLDER STATUS LINE.. : the lines on standard error, and no configuration
    is_status "$2"
    text_is out ''
    text_is err "$(printf 'afdx-icd: %s\n' "${@:3}")"$'\n'
    if [[ -e $1/made.toml ]]; then echo 'there is a configuration'; fi
}

# ---- tables that are sound -----------------------------------------------------------------

sound_tests() {
    local one=$work/icd/one two=$work/icd/two file
    tables "$one" '' ''
    icd "$one"
    tell 'two tables to ok' "$(
        is_ok "$one"
        made_says "$one" 10 'from = "adc", to = ["fcc", "disp"], bag_ms = 16, lmin = 64, lmax = 111'
        made_says "$one" 20 'jitter_us = 148, priority = "high", policing = "byte"'
        made_says "$one" 20 'latency_us = 120, skew_us = 120, subs = 1 }'
        made_says "$one" 22 'bag_ms = 32, lmin = 64, lmax = 64'
        grep -qx '  # maintenance report' "$one/made.toml" || echo 'no name of a message'
        grep -qx 'buffer = 1391' "$one/made.toml" || echo 'the buffer is another'
    )"
    icd "$one" --apart 500001
    tell 'skews for copies that are not sent at one time' "$(
        is_ok "$one"
        made_says "$one" 20 'latency_us = 120, skew_us = 621, subs = 1 }'
        "$program" check --margins "$one/made.toml" | awk '
            $1 == "apart" && $3 < 500001 { print "link", $2, "leaves", $3 }'
    )"
    icd "$one" --apart 500001 --reserve 5
    tell 'the same above a reserve' "$(
        is_ok "$one"
        "$program" check --margins "$one/made.toml" | awk '
            $1 == "apart" && $3 < 500001 { print "link", $2, "leaves", $3 }'
    )"
    rm "$one/made.toml"
    icd "$one" --apart 99999999
    tell 'copies that no skew allows' "$(
        is_status 1
        text_is out ''
        says err "its copies can't be sent so far apart: that takes a skew of over 100000 us"
        if [[ -e $one/made.toml ]]; then echo 'there is a configuration'; fi
    )"
    tables "$two" '' ''
    sed -i 's/,/;/g; s/$/\r/; 1s/^/\xef\xbb\xbf/; 2s/fcc disp/" fcc  disp "/' "$two"/*.csv
    sed -i '1s/message/"Message"/; s/;20;64;/;"20,5";064;/; s/;high;/; High ;/' "$two/messages.csv"
    printf ';;;;\r\n' >>"$two/systems.csv"
    icd "$two"
    tell 'semicolons, a byte order mark, quotes, capitals, spaces, an empty row' "$(
        is_ok "$two"
        same "$one/made.toml" "$two/made.toml"
    )"
    tables "$two" 's/,/\t/g' 's/^([^,]*),/"\1",/; 3s/attitude/a, ""b""\n#/'
    icd "$two"
    tell 'tabs; names with commas, quotes and line feeds' "$(
        is_ok "$two"
        grep -qxF '  # a, "b"\n#' "$two/made.toml" || grep '# a' "$two/made.toml"
    )"
    tables "$two" '' ''
    for file in systems messages; do tr '\n' '\r' <"examples/$file.csv" >"$two/$file.csv"; done
    icd "$two"
    tell 'lines that end in a carriage return alone' "$(
        is_ok "$two"
        same "$one/made.toml" "$two/made.toml"
    )"
    launch tools/afdx-icd "$one/systems.csv" "$one/messages.csv" -
    tell 'the configuration on standard output' "$(
        is_status 0
        text_is err $'ok\n'
        same "$one/made.toml" "$work/out"
    )"
}

choice_tests() {
    local at=$work/icd/choices
    tables "$at" '' '/^attitude/s/,120,high/,,high/'
    icd "$at"
    tell 'where nothing is asked the latency is the least' "$(
        is_ok "$at"
        made_says "$at" 20 'latency_us = 112, skew_us = 112'
    )"
    tables "$at" '' '1s/$/,policing,subs,lmin,skew_us/
        3s/$/,frame,2,100,500/; 4s/$/,,,,/; 5s/$/,,,80,/'
    icd "$at"
    tell 'columns that may be there' "$(
        is_ok "$at"
        made_says "$at" 20 'lmin = 100, lmax = 167'
        made_says "$at" 20 'policing = "frame", latency_us = 120, skew_us = 500, subs = 2'
        made_says "$at" 21 'policing = "byte", latency_us = 1000, skew_us = 1000, subs = 1'
        made_says "$at" 22 'lmin = 80, lmax = 80'
    )"
    tables "$at" '4s/100$/1000/' '4s/,200,/,0.9e3,/; 4s/0.9e3/1/'
    icd "$at" --profile 2
    tell 'profile 2' "$(
        is_ok "$at"
        grep -qx 'profile = 2' "$at/made.toml" || echo 'it is profile 1'
        made_says "$at" 21 'bag_ms = 1,'
    )"
    tables "$at" '1s/$/,owner,remark/' '1s/$/,page/; 2s/$/,7/'
    icd "$at"
    tell 'columns that are passed over are named' "$(
        is_status 0
        text_is out $'ok\n'
        text_is err "afdx-icd: systems.csv: columns passed over: owner, remark
afdx-icd: messages.csv: columns passed over: page
"
    )"
}

# ---- messages that can't be in time --------------------------------------------------------

late_tests() {
    local at=$work/icd/late
    local late='messages.csv line 3, attitude: within_us 100: to disp it can take 111111 ns; '
    late+='112 is enough'
    tables "$at" '' '/^attitude/s/,120,high/,100,high/'
    icd "$at"
    tell "a message that can't be in time" "$(is_refused "$at" 1 "$late")"
    icd "$at" --raise
    tell 'what is needed is written, if that is asked for' "$(
        is_status 0
        text_is out $'ok\n'
        text_is err "afdx-icd: $late"$'\n'
        made_says "$at" 20 'latency_us = 112, skew_us = 112'
    )"
    tables "$at.ms" '' '1s/within_us/Within [ms]/; s/,([0-9]+),(high|low),/,,\2,/
        /^attitude/s/,,high/,0.1,high/'
    icd "$at.ms"
    tell 'a time is told as its column has it, in ms' "$(is_refused "$at.ms" 1 "messages.csv line \
3, attitude: within_ms 0.1: to disp it can take 111111 ns; 0.112 is enough")"
    cp "$at/made.toml" "$work/before.toml"
    tables "$at" '' '/^air/s/,150,high/,9,high/'
    icd "$at"
    tell 'a message that is late at two systems: what is enough at both' "$(
        is_status 1
        text_is err "afdx-icd: messages.csv line 2, air data: within_us 9: to disp it can take \
111111 ns; 112 is enough"$'\n'
    )"
    tell 'an earlier configuration stays' "$(same "$work/before.toml" "$at/made.toml")"
}

none_tests() {
    local at=$work/icd/none
    tables "$at" '4s/100$/10/' '3s/,10,120,/,1,1471,/'
    icd "$at"
    tell 'messages that are too much for a line' "$(is_refused "$at" 1 "systems.csv line 4, disp: \
rate 10: the messages to it are more than its line can carry (no A1 3)")"
    tables "$at" '4s/100$/10/' '2s/,20,64,/,1,64,/; 3s/,10,120,/,1,1038,/'
    icd "$at"
    tell 'a latency out of range' "$(
        is_status 1
        says err 'messages.csv line 4, maintenance report: within_us 1000: to disp it can take'
        says err 'a link may allow 100000 us (no A4 3 21 '
        wc -l <"$work/err" | grep -vx 1
    )"
    tables "$at" '3,4s/100$/10/' '3s/,10,120,/,1,1471,/; 4s/,200,1000,/,200,1471,/'
    icd "$at"
    tell 'all lines and senders that are asked for too much are told at once' "$(
        is_refused "$at" 1 "systems.csv line 4, disp: rate 10: the messages to it are more than \
its line can carry (no A1 3)" "systems.csv line 3, fcc: rate 10: its messages can hold one up for \
2568000 ns; 500000 are the most (no A5 fcc 2568000)"
    )"
    tables "$at" '3s/100$/10/' '4s/,200,1000,/,200,1471,/'
    icd "$at"
    tell 'a sender that is too busy' "$(is_refused "$at" 1 "systems.csv line 3, fcc: rate 10: its \
messages can hold one up for 1487200 ns; 500000 are the most (no A5 fcc 1487200)")"
    tables "$at" 's/100$/1000/' '3,$d'
    for vl in $(seq 100 2900); do
        echo "many,$vl,adc,fcc,128,1471,,low,$vl,sampling,1"
    done >>"$at/messages.csv"
    icd "$at" --profile 2
    tell 'a buffer that is too large' "$(is_refused "$at" 1 "systems.csv line 3, fcc: port 2: \
5469493 bytes can wait there; it has room for 4194304 (no A2 2 5469493)" "systems.csv line 2, adc: \
rate 1000: its messages can hold one up for 34504552 ns; 500000 are the most (no A5 adc 34504552)")"
}

# ---- files, devices ----------------------------------------------------------------------------

file_tests() {
    local at=$work/icd/files
    tables "$at" '' ''
    launch tools/afdx-icd "$at/none.csv" "$at/messages.csv" "$at/made.toml"
    tell 'a table that is not there' "$(
        is_status 4
        text_is err "afdx-icd: $at/none.csv: No such file or directory"$'\n'
    )"
    launch tools/afdx-icd "$at/systems.csv" "$at" "$at/made.toml"
    tell 'a table that is a folder' "$(is_status 4; says err "$at: Is a directory")"
    launch tools/afdx-icd "$at/systems.csv" "$at/messages.csv" /dev/full
    tell 'a configuration that finds no room' "$(is_status 4; says err 'No space left')"
    launch tools/afdx-icd "$at/systems.csv" "$at/messages.csv" "$at/none/made.toml"
    tell 'a folder that is not there' "$(is_status 4; says err "$at/none/made.toml")"
    AFDX=/nowhere icd "$at"
    tell 'a program that is not there, of afdx-icd' "$(
        is_refused "$at" 4 "/nowhere can't be run: No such file or directory"
    )"
    local said
    for said in 'true|said nothing' 'false|said nothing' 'echo|solve wrote other tables'; do
        printf '#!/bin/sh\nif [ "$1" = --version ]; then exec "%s" "$1"; fi\nexec %s "$@"\n' \
            "$program" "${said%|*}" >"$work/other_program"
        chmod +x "$work/other_program"
        AFDX=$work/other_program icd "$at"
        tell "a program that answers as ${said%|*} does" "$(
            is_status 4
            says err "${said#*|}"
            wc -l <"$work/err" | grep -vx 1
        )"
    done
    launch tools/afdx-icd "$at/systems.csv"
    tell 'tables that are not named' "$(is_status 2; says err 'required: MESSAGES.csv, CONFIG')"
}

if [[ -z $built ]]; then
    skip 'afdx-icd' "there is no program $program"
elif ! "$program" solve --help >/dev/null 2>&1; then
    skip 'afdx-icd' 'the program has no command solve'
else
    sound_tests
    choice_tests
    late_tests
    none_tests
    file_tests
fi
