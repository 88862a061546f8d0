# Tests of afdx-icd on interface documents as people write them: several messages on a link, names,
# heads and numbers of spreadsheets, merged cells; a part of tests/run/tools.sh.
# shellcheck shell=bash
# shellcheck disable=SC2154  # what it uses is set by tests/run/tools.sh, which sources it
# shellcheck disable=SC2016  # $ in a script of sed is the last line

# ---- several messages on a link ------------------------------------------------------------

shared_tests() {
    local at=$work/icd/shared
    tables "$at" '' '3s/$/\nheading,20,fcc,disp adc,20,90,115,high,1023,queuing,4/'
    icd "$at"
    tell 'two messages on a link: the greatest, the least time, a UDP port each' "$(
        is_ok "$at"
        made_says "$at" 20 'from = "fcc", to = ["disp", "adc"], bag_ms = 4, lmin = 64, lmax = 167'
        made_says "$at" 20 'latency_us = 115, skew_us = 115, subs = 1'
        grep -B 2 'vl = 20,' "$at/made.toml" | head -n 2 >"$work/got"
        printf '  # attitude\n  # heading\n' >"$work/wanted"
        same "$work/wanted" "$work/got"
        grep 'link = 20,' "$at/made.toml" >"$work/got"
        cat >"$work/wanted" <<'PORTS'
  { system = "disp", link = 20, udp = 1020, kind = "sampling", depth = 1 },
  { system = "disp", link = 20, udp = 1023, kind = "queuing", depth = 4 },
  { system = "adc", link = 20, udp = 1023, kind = "queuing", depth = 4 },
PORTS
        same "$work/wanted" "$work/got"
    )"
    tables "$at" '' '3s/.*/a,20,fcc,disp,32,9,,high,1,sampling,\
b,20,fcc,disp,32,8,,high,2,sampling,/'
    icd "$at"
    tell 'the BAG of a link is that in which all of its messages go' "$(
        is_ok "$at"
        made_says "$at" 20 'bag_ms = 16, lmin = 64, lmax = 64'
    )"
    tables "$at" '' '1s/$/,subs,lmin,skew_us,policing/; 2,$s/$/,,,,/
        3s/$/\nb,20,fcc,disp,99,99,,high,2,sampling,,2,90,300,frame/
        3s/,,,,/,,80,,/'
    icd "$at"
    tell 'what one of them says holds for the link' "$(
        is_ok "$at"
        made_says "$at" 20 'lmin = 80, lmax = 167'
        made_says "$at" 20 'policing = "frame", latency_us = 120, skew_us = 300, subs = 2'
    )"
}

split_tests() {
    local at=$work/icd/split line='messages.csv line 3, air data: within_us 9: to disp it can take '
    tables "$at" '' '2s/.*/air data,10,adc,fcc,20,64,150,high,1010,sampling,1\
air data,10,adc,disp,20,64,,high,1010,queuing,3/'
    icd "$at"
    tell 'a row for each receiver of a message' "$(
        is_ok "$at"
        made_says "$at" 10 'to = ["fcc", "disp"], bag_ms = 16'
        made_says "$at" 10 'latency_us = 150'
        grep -B 1 'vl = 10,' "$at/made.toml" | head -n 1 | grep -vx '  # air data'
        grep -q '"disp", link = 10, udp = 1010, kind = "queuing", depth = 3' "$at/made.toml" ||
            echo 'the port of the second row is another'
    )"
    rm "$at/made.toml"
    sed -i '2s/150/151/; 3s/,,high/,9,high/' "$at/messages.csv"
    icd "$at"
    tell 'of messages on a link each that asks too much is named' "$(
        is_refused "$at" 1 "${line}111111 ns; 112 is enough"
    )"
}

# ---- what spreadsheets write ---------------------------------------------------------------

name_tests() {
    local at=$work/icd/names
    tables "$at" '2s/^/A_/; 3s/fcc/F-C_C/' 's/,adc,/,A_adc,/g; s/fcc/F-C_C/g'
    icd "$at"
    tell 'names with _ and - are mapped, and told' "$(
        is_status 0
        text_is out $'ok\n'
        text_is err 'afdx-icd: systems.csv: in the configuration A_adc is Aadc, F-C_C is FCC
'
        made_says "$at" 10 'from = "Aadc", to = ["FCC", "disp"]'
        grep -A 1 '# A_adc' "$at/made.toml" | grep -qF 'name = "Aadc"' || echo 'no remark'
    )"
    tables "$at" '2s/adc/f_cc/; 4s/disp/fc_c/' 's/,adc,/,f_cc,/; s/disp/fc_c/g'
    icd "$at"
    tell 'two names that would be one' "$(
        is_status 0
        text_is err 'afdx-icd: systems.csv: in the configuration f_cc is fccx2, fc_c is fccx3
'
        made_says "$at" 10 'from = "fccx2", to = ["fcc", "fccx3"]'
    )"
    tables "$at" 's/adc/abcdefg_hijklmnop_/' 's/,adc,/,abcdefg_hijklmnop_,/'
    icd "$at"
    tell 'a name of sixteen letters, and two marks' "$(
        is_status 0
        made_says "$at" 10 'from = "abcdefghijklmnop"'
    )"
}

head_tests() {
    local at=$work/icd/heads one=$work/icd/one
    tables "$one" '' ''
    icd "$one"
    tables "$at" '1s/rate/Rate [Mbit\/s]/; s/,100$/,100.0/' ''
    cat >"$at/messages.csv" <<'MESSAGES'
Message,VL,From,To,Every (s),Bytes [B],within [ms],Priority,Port,Kind,Depth
air data,10,adc,fcc disp,0.02,64,0.15,high,1010,sampling,1
attitude,20,fcc,disp,0.01,120,0.12,high,1020,sampling,1
maintenance report,21,fcc,disp,0.2,1000,1,low,1021,queuing,4
acknowledgement,22,fcc,adc,0.05,4,1.0,low,1022,queuing,8
pilot's selections,30,disp,fcc,0.05,32,1.0,low,1030,queuing,8
MESSAGES
    icd "$at"
    tell 'heads with units, and numbers of these units' "$(
        is_ok "$at"
        same "$one/made.toml" "$at/made.toml"
    )"
    tables "$at" '2,$s/,([0-9]+),/,\1.0,/g' '1s/every_ms/every ms/; 2s/fcc disp/"fcc, disp"/
        1s/within_us/Within \[\xc2\xb5s\]/; 2,$s/,(10|16|20|50|200),/,\1.0,/g
        s/,64,150/,64.00,150/'
    icd "$at"
    tell 'whole numbers with .0, commas between receivers' "$(
        is_ok "$at"
        same "$one/made.toml" "$at/made.toml"
    )"
    tables "$at" '1s/rate/rate (Gbit\/s)/; s/,100$/,0.1/' ''
    sed -i 's/,/;/g; 2s/fcc disp/fcc, disp/' "$at"/*.csv
    icd "$at"
    tell 'a rate in Gbit/s, semicolons between cells' "$(
        is_ok "$at"
        same "$one/made.toml" "$at/made.toml"
    )"
}

merged_tests() {
    local at=$work/icd/merged
    tables "$at" '3,4s/,1,100/,1,/; 4s/,2,100/,2,/' \
        '3s/.*/attitude,20,fcc,disp,10,120,120,high,1020,sampling,1\
heading,,,,20,90,,,1023,queuing,4\
report,21,,,200,1000,1000,low,1021,,/; 4d'
    icd "$at"
    tell 'merged cells are empty' "$(
        is_status 2
        says err 'afdx-icd: systems.csv line 3, fcc: rate (empty): it has to be 10 or 100'
        says err 'afdx-icd: messages.csv line 4, heading: vl (empty)'
    )"
    icd "$at" --fill
    tell 'they are filled from above, if that is asked for' "$(
        is_status 0
        text_is err 'afdx-icd: systems.csv: 2 empty cells have what stands above them
afdx-icd: messages.csv: 8 empty cells have what stands above them
'
        made_says "$at" 20 'bag_ms = 4, lmin = 64, lmax = 167'
        made_says "$at" 20 'priority = "high", policing = "byte", latency_us = 120'
        made_says "$at" 21 'from = "fcc", to = ["disp"], bag_ms = 128'
        grep -q 'link = 21, udp = 1021, kind = "queuing", depth = 4' "$at/made.toml" ||
            echo 'its port is another'
    )"
    tables "$at" '' '2s/^air data,10/,/'
    icd "$at" --fill
    tell 'above the first row stands nothing' "$(
        is_status 2
        says err 'messages.csv line 2: message (empty): it has to have a name'
        says err 'messages.csv line 2: vl (empty): it has to be a whole number'
    )"
}

if [[ -n $built ]] && "$program" solve --help >/dev/null 2>&1; then
    shared_tests
    split_tests
    name_tests
    head_tests
    merged_tests
else
    skip 'documents as people write them' 'there is no program with the command solve'
fi
