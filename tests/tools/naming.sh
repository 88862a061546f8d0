# Tests of the names of a document: what afdx-icd writes beside a configuration, and where that is
# shown. A part of tests/run/tools.sh.
# shellcheck shell=bash
# shellcheck disable=SC2154  # what it uses is set by tests/run/tools.sh, which sources it

named=$work/named

has_text() { # FILE WORDS : there is such a text in it
    if ! grep -qF -- "$2" "$1"; then echo "no '$2' in ${1##*/}"; fi
}

make_named() { # tables of systems with names that a configuration doesn't take, and their network
    mkdir -p "$named"
    sed 's/^fcc,/FCC_1,/' examples/systems.csv >"$named/systems.csv"
    sed -E '2,$ s/\bfcc\b/FCC_1/' examples/messages.csv >"$named/messages.csv"
    ln -sf /dev/null "$named/net.names.csv"
    launch tools/afdx-icd "$named/systems.csv" "$named/messages.csv" "$named/net.toml"
}

written_tests() {
    make_named
    {
        echo 'part,name,number,udp,called'
        printf 'system,%s\n' adc,17,,adc FCC1,33,,FCC_1 disp,49,,disp
        printf 'message,,%s\n' '10,1010,air data' 20,1020,attitude '21,1021,maintenance report' \
            22,1022,acknowledgement "30,1030,pilot's selections"
    } | sort >"$named/wanted.csv"
    sort "$named/net.names.csv" >"$named/sorted.csv"
    tell 'afdx-icd writes what the tables call things, and follows no link there' "$(
        is_status 0
        same "$named/wanted.csv" "$named/sorted.csv"
        if [[ -L $named/net.names.csv ]]; then echo 'it is a link'; fi
    )"
    launch tools/afdx-icd "$named/systems.csv" "$named/messages.csv" -
    tell 'beside standard output there is no such table' "$(
        is_status 0
        compgen -G './-*' || :
    )"
    launch tools/afdx-fill "$named/net.toml" "$named/other.toml"
    tell 'afdx-fill copies it' "$(
        is_status 0
        same "$named/net.names.csv" "$named/other.names.csv"
    )"
}

shown_tests() {
    local list=$named/late.list
    launch tools/afdx-traffic --config "$named/net.toml" "$named/systems.csv" \
        "$named/messages.csv" "$named/traffic"
    awk '$2 < 100000000 && !(/ A 2 030000000014/ && ++n == 2)' \
        "$named/traffic/all-systems.list" >"$list"
    launch tools/afdx-report --fail-on missing,unequal --junit "$named/junit.xml" \
        "$named/net.toml" "$list" --out "$named/report"
    tell 'a report calls links and systems as the document does' "$(
        is_status 6
        says out 'link 20 (attitude) at port 3'
        has_text "$named/report/latency.csv" '21,maintenance report,FCC_1,3,disp,A'
        has_text "$named/report/arrivals.csv" '10,air data,A,'
        has_text "$named/report/report.html" 'maintenance report'
        has_text "$named/report/report.html" 'FCC_1'
        has_text "$named/report/report.json" '"link": 20, "message": "attitude"'
        has_text "$named/junit.xml" 'of link 20 (attitude)'
        grep -l 'FCC1' "$named/report/"*.csv
    )"
    sed -i 's/FCC_1/disp/' "$named/other.names.csv"
    launch tools/afdx-report "$named/other.toml" "$list" --out "$named/report2"
    tell 'a table that calls two systems alike is refused' "$(
        is_status 2
        says err 'other.names.csv: two are called disp'
    )"
    printf 'part,name,number,udp,called\nmessage,,20,1,"<b>\033[31m=1+1"\n' \
        >"$named/other.names.csv"
    launch tools/afdx-report "$named/other.toml" "$list" --out "$named/report2"
    tell 'a hostile name harms no page, terminal or spreadsheet' "$(
        is_status 0
        grep -l $'\033' "$work/out" "$named/report2/"*
        grep -o '<b>.x1b.*' "$named/report2/report.html" | head -n 1
        has_text "$named/report2/links.csv" '20,<b>\x1b[31m=1+1,'
    )"
    launch tools/afdx-report --conform "$named/net.toml" "$named/traffic/FCC1.list" /dev/null \
        --out "$named/judged" --junit "$named/judged.xml"
    tell 'so does a report on a recorded switch' "$(
        has_text "$named/judged/streams.csv" '20,attitude,FCC_1,3,disp,A'
        has_text "$named/judged.xml" 'of link 20 (attitude) at port 3 of A had to leave'
    )"
}

if [[ -n $built ]]; then written_tests; else skip 'names' "there is no program $program"; fi
if [[ -n $built && -n $numpy ]]; then
    shown_tests
else
    skip 'names in reports' 'there is no program, or no package numpy'
fi
