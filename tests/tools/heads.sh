# Tests that each CSV file of a report has the head of its table, also without a row; a part of
# tests/run/tools.sh.
# shellcheck shell=bash
# shellcheck disable=SC2154  # what it uses is set by tests/run/tools.sh, which sources it

headed=$work/headed

report_on() { # NAME WORD.. : a report with rows, or without
    tools/afdx-report --out "$headed/$1" "${@:2}" >"$work/out" 2>"$work/err" || cat "$work/err"
}

# The tables of both reports have the same heads; those without a row in the first are named, which
# has to have some in most.
same_heads() { # FULL EMPTY TABLES_WITHOUT_ROWS
    local path name full empty bare=
    for path in "$headed/$1"/*.csv; do
        name=${path##*/}
        if [[ ! -e $headed/$2/$name ]]; then continue; fi
        full=$(head -n 1 "$path") empty=$(head -n 1 "$headed/$2/$name")
        if [[ $name == arrivals.csv ]]; then
            empty=${empty%%,side*},side full=${full%%,side*},side
        fi
        if [[ $full != "$empty" || -z $full ]]; then
            printf '%s has the head\n%s\nand without rows\n%s\n' "$name" "$full" "$empty"
        fi
        if [[ $(wc -l <"$path") -lt 2 ]]; then bare+="${name%.csv} "; fi
    done
    if [[ $bare != "$3" ]]; then echo "there are no rows in $bare, wanted $3"; fi
}

head_tests() {
    local base=examples/base.toml two=examples/two_switches
    report_on full examples/network.toml examples/bench.list
    report_on nothing examples/network.toml "$work/nothing.list"
    tell 'the heads of tables without rows' "$(same_heads full nothing '')"
    report_on two "$two.toml" "$two.list"
    report_on two_nothing "$two.toml" "$work/nothing.list"
    tell 'the same of several switches a side' "$(same_heads two two_nothing '')"
    report_on compared --compare "$headed/full/report.json" examples/network.toml \
        examples/bench.list
    tell 'a comparison without a difference has its head' "$(
        printf 'table,of,number,other,this,change\n' >"$work/wanted"
        same "$work/wanted" "$headed/compared/compared.csv"
    )"
    report_on sides --conform "$base" "$work/came.list" "$work/left.list"
    report_on sides_nothing --conform "$base" "$work/nothing.list" "$work/nothing.list"
    tell 'the heads of a judged switch' "$(same_heads sides sides_nothing 'offsets options ')"
    if "$program" conform --help | grep -qF -- --senders; then
        tell 'the heads of a switch that is judged with its senders' "$(
            judged_heads senders --senders "$base"
            same_heads senders senders_faulty 'offsets options '
            [[ $(wc -l <"$headed/senders/sender_deviations.csv") -gt 1 ]] || echo 'no finding'
        )"
    fi
}

# What came and what left of a switch, and lists of which the second has a fault: no table has rows.
judged_heads() { # NAME WORD.. CONFIG
    report_on "$1" --conform "${@:2}" "$work/came.list" "$work/left.list"
    launch tools/afdx-report --conform "${@:2}" "$work/came.list" "$work/faulty.list" \
        --out "$headed/$1_faulty"
    is_status 3
}

# Beside a configuration stands what its messages are called.
named_network() { # NAME
    cp "examples/$1.toml" "$headed/$1.toml"
    printf 'part,name,number,udp,called\nmessage,,1,1000,air data\n' >"$headed/$1.names.csv"
}

several_and_named_head_tests() {
    local few='offsets options '
    tell 'the heads of one of several switches that is judged, of a list with a fault' "$(
        judged_heads fwd --switch fwd examples/two_switches.toml
        same_heads fwd fwd_faulty "$few"
        head -n 1 "$headed/fwd_faulty/streams.csv" | grep -v '^link,from,switch,port,'
    )"
    named_network base
    named_network two_switches
    report_on named "$headed/base.toml" examples/babbling.list
    report_on named_nothing "$headed/base.toml" "$work/nothing.list"
    tell 'the heads where links have names' "$(
        same_heads named named_nothing 'clocks skews '
        head -n 1 "$headed/named_nothing/links.csv" | grep -v '^link,message,frames,'
    )"
    tell 'the heads of a judged switch where links have names' "$(
        judged_heads called "$headed/base.toml"
        same_heads called called_faulty "$few"
        head -n 1 "$headed/called_faulty/groups.csv" | grep -v '^findings,what,reason,link,message,'
        judged_heads both --switch fwd "$headed/two_switches.toml"
        same_heads both both_faulty "$few"
        head -n 1 "$headed/both_faulty/idle.csv" | grep -v '^link,message,from,switch,port,'
    )"
}

recorded_head_tests() {
    local recorded=(--interface "0=A:1" examples/base.toml)
    tools/afdx-capture pcap examples/babbling.list "$work/full.pcap" 2>"$work/err"
    tools/afdx-capture pcap "$work/nothing.list" "$work/nothing.pcap" 2>"$work/err"
    report_on recorded "${recorded[@]}" "$work/full.pcap"
    report_on recorded_nothing "${recorded[@]}" "$work/nothing.pcap"
    tell 'the heads of a report on a recording' "$(
        same_heads recorded recorded_nothing 'clocks skews '
    )"
}

: >"$work/nothing.list"
echo 'F 0 A' >"$work/faulty.list"
printf 'F 0 A 1 %s\nF 9000000 A 1 %s\n' "$(frame_of A 0)" "$(frame_of A 1)" >"$work/came.list"
printf 'F 20000 A 2 %s\n' "$(frame_of A 0)" >"$work/left.list"
if [[ -n $reporting ]]; then
    head_tests
    several_and_named_head_tests
    if [[ -n $dpkt ]]; then recorded_head_tests; fi
else
    skip 'heads of tables' "there is no program $program, or no numpy"
fi
