# Tests of tools/afdx-traffic; a part of tests/run/tools.sh.
# shellcheck shell=bash
# shellcheck disable=SC2154  # what it uses is set by tests/run/tools.sh, which sources it
# shellcheck disable=SC2016  # $ in a script of sed is the last line

traffic() { # FOLDER [OPTION..] : what the tables there send, in FOLDER/sent
    launch env -C "$1" "$top/tools/afdx-traffic" "${@:2}" systems.csv messages.csv sent
}

# All is accepted, and so many messages are delivered. Of messages that share a link some go to
# systems without a port for them: then more copies of a side leave than are delivered.
is_sent() { # FOLDER MESSAGES DELIVERED [COPIES]
    local counts
    counts=$("$program" replay --summary "$1/made.toml" "$1/sent/all-systems.list" 2>&1 |
        sed -n 's/^summary //p')
    if [[ $counts != "lines $((2 * $2)) accepted $((2 * $2)) dropped 0 lost 0 departed \
$((2 * ${4:-$3})) too-old 0 delivered $3" ]]; then
        echo "the replay of $2 messages counts $counts"
    fi
}

lists_tests() {
    local at=$work/traffic/one
    tables "$at" '' ''
    icd "$at"
    traffic "$at"
    tell 'the messages of all systems in a second' "$(
        is_status 0
        text_is out ''
        text_is err $'afdx-traffic: 195 messages of 3 systems written\n'
        (cd "$at/sent" && grep -c -v '#' ./*) >"$work/got"
        printf './%s.messages:%d\n' adc 50 disp 20 fcc 125 >"$work/wanted"
        same "$work/wanted" "$work/got"
        grep -v '#' "$at/sent/fcc.messages" | cut -d ' ' -f 1-4 | sed -n '1,4p;$p' >"$work/got"
        printf '%s\n' '0 20 1 1020' '0 21 1 1021' '0 22 1 1022' '10000000 20 1 1020' \
            '990000000 20 1 1020' >"$work/wanted"
        same "$work/wanted" "$work/got"
    )"
    tell 'each says which it is, in its full length' "$(
        grep -v '#' "$at/sent/fcc.messages" | cut -d ' ' -f 5 | sed -n '3p;4p' >"$work/got"
        printf '30303030\n303030303030303120617474697475646500%0204d\n' 0 >"$work/wanted"
        same "$work/wanted" "$work/got"
    )"
    traffic "$at" --config made.toml --seconds 2.5
    tell 'what they send, accepted and delivered' "$(
        is_status 0
        text_is err $'afdx-traffic: 488 messages of 3 systems written\n'
        is_sent "$at" 488 613
        sort -s -n -k 2,2 <(grep -hv '#' "$at"/sent/{adc,fcc,disp}.list) >"$work/wanted"
        sort -s -n -k 2,2 -c "$at/sent/all-systems.list" 2>&1
        sort "$at/sent/all-systems.list" | cmp - <(sort "$work/wanted") 2>&1
    )"
}

chance_tests() {
    local at=$work/traffic/chance
    tables "$at" '' ''
    icd "$at"
    traffic "$at" --config made.toml --seed 7
    cp -r "$at/sent" "$work/traffic/first"
    tell 'messages that begin by chance' "$(
        is_status 0
        is_sent "$at" 195 245
        grep -h '#' "$at"/sent/*.messages | grep 'from 0 ns'
    )"
    traffic "$at" --config made.toml --seed 7
    tell 'the same chance gives the same' "$(diff -r "$work/traffic/first" "$at/sent" 2>&1)"
    traffic "$at" --config made.toml --seed 8
    tell 'another gives another' "$(
        if cmp -s "$work/traffic/first/fcc.messages" "$at/sent/fcc.messages"; then echo same; fi
    )"
    tables "$at" '' '3s/$/\nheading,23,fcc,disp adc,20,50,,high,1023,queuing,4/'
    traffic "$at" --seed 7
    tell 'a message more moves no other' "$(
        grep -v ' 23 \|#' "$at/sent/fcc.messages" >"$work/got"
        grep -v '#' "$work/traffic/first/fcc.messages" >"$work/wanted"
        same "$work/wanted" "$work/got"
    )"
}

shared_traffic_tests() {
    local at=$work/traffic/shared udp
    tables "$at" '' '1s/$/,subs/; 2,$s/$/,/
        3s/.*/attitude,20,fcc,disp,12.5,120,,high,1020,sampling,1,3\
heading,20,fcc,adc,33.3,90,,high,1021,queuing,4,\
speed,20,fcc,disp adc,50,3,,high,1022,queuing,4,/'
    icd "$at"
    traffic "$at" --config made.toml --seconds 10
    tell 'messages that share a link' "$(
        is_status 0
        is_sent "$at" 2251 2951 4052
        grep -v '#' "$at/sent/fcc.messages" | cut -d ' ' -f 2-4 | grep '^20 ' | sort -u >"$work/got"
        printf '20 %s\n' '1 1020' '2 1021' '3 1022' >"$work/wanted"
        same "$work/wanted" "$work/got"
        grep '20 2 1021' "$at/sent/fcc.messages" | sed -n '2p;3p' | cut -d ' ' -f 1 >"$work/got"
        printf '33300000\n66600000\n' >"$work/wanted"
        same "$work/wanted" "$work/got"
    )"
    tables "$at" '' '2,$d'
    for udp in $(seq 64); do
        echo "m$udp,20,fcc,disp,64,8,,high,$udp,sampling,"
    done >>"$at/messages.csv"
    icd "$at"
    traffic "$at" --config made.toml
    tell 'as many messages on a link as can wait for it' "$(
        is_status 0
        made_says "$at" 20 'bag_ms = 1,'
        is_sent "$at" 1024 1024
    )"
    echo 'more,20,fcc,disp,65536,8,,high,65,sampling,' >>"$at/messages.csv"
    sed -i '2s/,64,/,128,/' "$at/messages.csv"
    traffic "$at"
    tell 'more messages on a link than can wait for it' "$(
        is_status 2
        text_is err "afdx-traffic: messages.csv line 66, more: vl 20: no more than 64 messages \
can wait for a link
"
    )"
}

link_tests() { # of names that were planted
    local at=$work/traffic/planted
    tables "$at" '' ''
    icd "$at"
    mkdir -p "$at/sent"
    echo precious >"$at/precious"
    ln -s ../precious "$at/sent/adc.messages"
    ln -s ../precious "$at/sent/all-systems.list"
    traffic "$at" --config made.toml
    tell 'afdx-traffic follows no link in its folder' "$(
        is_status 0
        find "$at/sent" ! -type f ! -type d
        if [[ $(<"$at/precious") != precious ]]; then echo 'a link was followed'; fi
    )"
}

random_test() {
    launch nice -n 5 "$python" tests/tools/random_documents.py 10 "$program"
    tell '10 networks made at random: admitted with room, grown, all sent and delivered' "$(
        is_status 0
        head -n -1 "$work/out" | head -n 5
    )" "$(tail -n 1 "$work/out")"
}

traffic_fault_tests() {
    local at=$work/traffic/fault
    tables "$at" '' ''
    icd "$at"
    sed -i 's/lmax = 1047/lmax = 1046/' "$at/made.toml"
    traffic "$at" --config made.toml
    tell 'messages that the network refuses' "$(
        is_status 1
        text_is err $'afdx-traffic: made.toml refuses line 5 of sent/fcc.messages: S4\n'
        if [[ -e $at/sent/all-systems.list ]]; then echo 'there is a list'; fi
    )"
    mkdir -p "$at/sent/fcc.list"
    echo old >"$at/sent/adc.messages"
    traffic "$at" --config made.toml
    tell 'after that the lists of before are there, and no others' "$(
        is_status 1
        printf '%s\n' adc.messages fcc.list >"$work/wanted"
        ls -A "$at/sent" >"$work/got"
        same "$work/wanted" "$work/got"
        if [[ $(<"$at/sent/adc.messages") != old ]]; then echo 'a list is another'; fi
    )"
    traffic "$at"
    tell 'a folder that is in the place of no list is none in the way' "$(
        is_status 0
        if [[ ! -d $at/sent/fcc.list || ! -s $at/sent/fcc.messages ]]; then ls "$at/sent"; fi
    )"
    sed -i 's/lmax = 1046/lmax = 1047/' "$at/made.toml"
    traffic "$at" --config made.toml --seconds 2
    tell 'one that is in the place of a list leaves all as it was' "$(
        is_status 4
        text_is err $'afdx-traffic: sent/fcc.list: Is a directory\n'
        find "$at/sent" -mindepth 1 ! -name '*.messages' ! -name fcc.list
    )"
    rmdir "$at/sent/fcc.list"
    sed -i 's/"fcc"/"fms"/g' "$at/made.toml"
    traffic "$at" --config made.toml
    tell 'a system that the network has not' "$(
        is_status 2
        text_is err $'afdx-traffic: fcc: words NoSuchSystem\n'
    )"
    traffic "$at" --config none.toml
    tell 'a network that is not there' "$(is_status 4; says err 'afdx-traffic: adc: device Config')"
    printf '#!/bin/sh\necho afdx "$@"\n' >"$work/talker"
    chmod +x "$work/talker"
    AFDX=$work/talker traffic "$at" --config made.toml
    tell 'a program that sends no frames' "$(
        is_status 4
        text_is err $'afdx-traffic: send wrote other lines than those of frames\n'
    )"
    traffic "$at" --seconds 3000 --config made.toml
    tell 'more frames than a list has lines' "$(
        is_status 2
        text_is err "afdx-traffic: 1170000 lines, and a list has 1000000 at most; --seconds \
2564.102 has fewer
"
    )"
    for words in '--seconds 0' '--seconds 1e3' '--seconds 1000001' '--seed -1' '--profile 3'; do
        # shellcheck disable=SC2086
        traffic "$at" $words
        tell "a word that is refused: $words" "$(is_status 2; wc -l <"$work/err" | grep -vx 1)"
    done
    tables "$at" '' '3s/fcc/fms/'
    traffic "$at"
    tell 'tables with a fault, of afdx-traffic' "$(
        is_status 2
        says err 'messages.csv line 3, attitude: from fms: no system has that name'
    )"
    tables "$at" '' ''
    rm -rf "$at/sent"
    touch "$at/sent"
    traffic "$at"
    tell 'a folder that is a file' "$(is_status 4; says err 'sent: File exists')"
}

if [[ -z $built ]]; then
    skip 'afdx-traffic' "there is no program $program"
else
    lists_tests
    chance_tests
    shared_traffic_tests
    traffic_fault_tests
    link_tests
    random_test
fi
