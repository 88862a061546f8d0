# Tests of afdx-icd on networks that grow: room for what comes later, and what changed since; a part
# of tests/run/tools.sh.
# shellcheck shell=bash
# shellcheck disable=SC2154  # what it uses is set by tests/run/tools.sh, which sources it
# shellcheck disable=SC2016  # $ in a script of sed is the last line

no_times='s/,(150|120),high/,,high/; s/,1000,low/,,low/' # the document asks for none
heading='$s/$/\nheading,23,fcc,disp adc,20,50,,high,1023,sampling,1/' # one message more

# ---- room ----------------------------------------------------------------------------------

reserve_tests() {
    local at=$work/icd/reserve
    tables "$at" '' "$no_times"
    icd "$at"
    cp "$at/made.toml" "$work/least.toml"
    icd "$at" --reserve 20
    tell 'a fifth more than is needed' "$(
        is_ok "$at"
        "$python" - "$work/least.toml" "$at/made.toml" <<'CODE'
import sys, tomllib
least, made = (tomllib.load(open(path, "rb")) for path in sys.argv[1:])
if made["buffer"] != -(-least["buffer"] * 6 // 5):
    print("the buffer is", made["buffer"], "and was", least["buffer"])
for one, other in zip(least["link"], made["link"]):
    needed = one["latency_us"]
    if not 1.2 * (needed - 1) < other["latency_us"] <= -(-needed * 6 // 5):
        print("link", one["vl"], "has", other["latency_us"], "and had", needed)
    if other["skew_us"] != other["latency_us"]:
        print("link", one["vl"], "has another skew")
    if one["jitter_us"] != other["jitter_us"]:
        print("link", one["vl"], "has another jitter")
CODE
    )"
    icd "$at" --reserve 0
    tell 'no room' "$(is_ok "$at"; same "$work/least.toml" "$at/made.toml")"
    icd "$at" --reserve 1000
    tell 'eleven times as much' "$(is_ok "$at"; made_says "$at" 20 'latency_us = 1223,')"
    icd "$at" --reserve 1001
    tell 'room out of range' "$(is_status 2; says err '1001 is no whole number of 0 to 1000')"
}

roomless_tests() {
    local at=$work/icd/roomless late='messages.csv line 3, attitude: within_us 120: to disp it can '
    late+='take 111111 ns; 134 is enough with a reserve of 20 %'
    tables "$at" '' ''
    icd "$at" --reserve 20
    tell 'a message for which there is no room' "$(is_refused "$at" 1 "$late")"
    icd "$at" --reserve 20 --raise
    tell 'room beyond what the document allows' "$(
        is_status 0
        text_is err "afdx-icd: $late"$'\n'
        made_says "$at" 10 'latency_us = 150, skew_us = 150'
        made_says "$at" 20 'latency_us = 134, skew_us = 134'
    )"
    tables "$at" '4s/100$/10/' '3s/,10,120,120,/,1,1030,,/; 4s/,200,1000,1000,/,64,1471,,/'
    icd "$at" --raise --reserve 1000
    tell 'room out of the range of a latency' "$(
        is_status 1
        says err 'messages.csv line 4, maintenance report: within_us (empty): to disp it can take '
        says err ' us with a reserve of 1000 %; a link may allow 100000 us'
    )"
    printf 'system,port,id,partition,rate\n' >"$at/systems.csv"
    for port in {1..9}; do echo "s$port,$port,$port,1,1000"; done >>"$at/systems.csv"
    head -n 1 examples/messages.csv >"$at/messages.csv"
    for vl in {0..249}; do
        echo "many,$vl,s$((2 + vl % 8)),s1,128,1471,,low,1,sampling,"
    done >>"$at/messages.csv"
    icd "$at" --profile 2 --reserve 1000
    tell 'room out of the range of the buffer' "$(
        is_status 1
        text_is err "afdx-icd: systems.csv line 2, s1: port 1: 385777 bytes can wait there, and \
4243547 with a reserve of 1000 %; it has room for 4194304
"
    )"
}

# ---- what changed --------------------------------------------------------------------------

since_tests() {
    local at=$work/icd/since
    tables "$at" '' "$no_times"
    icd "$at" --since "$work/none.toml"
    tell 'an earlier configuration that is not there' "$(
        is_status 4
        says err "$work/none.toml: No such file"
    )"
    icd "$at" --reserve 20
    cp "$at/made.toml" "$work/earlier.toml"
    icd "$at" --since made.toml
    tell 'nothing changed' "$(
        is_status 0
        text_is out $'nothing changed\nok\n'
        same "$work/earlier.toml" "$at/made.toml"
    )"
    tables "$at" '' "$no_times; $heading"
    icd "$at" --since made.toml
    tell 'a message more, for which there was room: latencies and buffer stay' "$(
        is_status 0
        text_is err ''
        text_is out "link 23, heading: new
links 20, 21, 22: jitter_us 148 to 157 (new from fcc: link 23)
link 22, acknowledgement: latency_us 9 to 17 (it can take 16215 ns to adc; new to adc: link 23; \
other jitter_us: link 22)
link 22, acknowledgement: skew_us 9 to 17 (as its latency)
ok
"
        made_says "$at" 20 'latency_us = 134, skew_us = 134'
    )"
    icd "$at"
    cp "$at/made.toml" "$work/earlier.toml"
    tables "$at" '' "$no_times; 4s/,1000,/,1400,/"
    icd "$at" --since "$work/earlier.toml"
    tell 'each number that changed, and why' "$(
        is_status 0
        text_is out "link 23: gone
link 21, maintenance report: lmax 1047 to 1447 (the table says so)
links 20, 21, 22: jitter_us 157 to 180 (no longer from fcc: link 23; other lmax: link 21)
links 10, 20: latency_us 121 to 144 (it can take 143171 ns to disp; no longer to disp: link 23; \
other lmax: link 21; other jitter_us: links 20, 21)
link 21, maintenance report: latency_us 122 to 144 (it can take 143698 ns to disp; no longer to \
disp: link 23; other lmax: link 21; other jitter_us: links 20, 21)
links 10, 20: skew_us 121 to 144 (as its latency)
link 21, maintenance report: skew_us 122 to 144 (as its latency)
buffer 1509 to 1792 (1792 bytes can wait for disp; no longer to disp: link 23; other lmax: link \
21; other jitter_us: links 20, 21)
ok
"
    )"
}

table_change_tests() {
    local at=$work/icd/changed
    tables "$at" '' ''
    icd "$at"
    cp "$at/made.toml" "$work/earlier.toml"
    tables "$at" '2s/17/18/' '2s/,150,/,160,/; 3s/,disp,10/,disp adc,20/; 5s/,8$/,9/; 6s/1030/1031/'
    launch env -C "$at" "$top/tools/afdx-icd" --since "$work/earlier.toml" \
        systems.csv messages.csv -
    tell 'what the tables say otherwise' "$(
        is_status 0
        text_is err 'system adc: id 17 to 18
link 20, attitude: to ["disp"] to ["disp", "adc"] (the table says so)
link 20, attitude: bag_ms 8 to 16 (the table says so)
link 10, air data: latency_us 150 to 160 (the table says so)
link 10, air data: skew_us 150 to 160 (as its latency)
UDP port 1020 of link 20 at adc: new
UDP port 1031 of link 30 at fcc: new
UDP port 1030 of link 30 at fcc: gone
UDP port 1022 of link 22 at adc: depth 8 to 9
ok
'
    )"
    printf 'profile = 1\nbuffer = 64\n' >"$at/linkless.toml"
    icd "$at" --since linkless.toml
    tell 'an earlier configuration without systems and links' "$(
        is_status 0
        grep -c ': new$' "$work/out" | grep -vx 8
        says out 'link 10, air data: new'
    )"
    tables "$at" '' '3s/,120,high/,100,high/'
    icd "$at" --raise --since "$work/earlier.toml"
    tell 'what is asked for and raised has its reason, too' "$(
        is_status 0
        text_is out "link 20, attitude: latency_us 120 to 112 (it can take 111111 ns to disp)
ok
"
        made_says "$at" 20 'latency_us = 112, skew_us = 120'
    )"
    sed 's/latency_us = 120,/latency_us = 9,/' "$work/earlier.toml" >"$at/refused.toml"
    icd "$at" --since refused.toml
    tell "an earlier configuration that isn't admitted" "$(
        is_status 2
        text_is err $'afdx-icd: refused.toml: no A3 3 20 111111\n'
    )"
    icd "$at" --since systems.csv
    tell 'an earlier configuration that is none' "$(
        is_status 2
        text_is err $'afdx-icd: systems.csv: config NotToml\n'
    )"
}

if [[ -n $built ]] && "$program" solve --help >/dev/null 2>&1; then
    reserve_tests
    roomless_tests
    since_tests
    table_change_tests
else
    skip 'networks that grow' 'there is no program with the command solve'
fi
