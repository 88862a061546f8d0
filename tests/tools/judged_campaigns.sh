# Tests of afdx-campaign --conform: several recorded switches at once; a part of tests/run/tools.sh.
# shellcheck shell=bash
# shellcheck disable=SC2154  # what it uses is set by tests/run/tools.sh, which sources it

day=$work/day
aircraft=examples/aircraft.toml

# What the systems of the aircraft send in 128 ms, as the taps of its switches see it.
record_aircraft() {
    mkdir "$day"
    tools/afdx-traffic --profile 2 --cables examples/aircraft_cables.csv --config "$aircraft" \
        --seconds 0.128 examples/aircraft_{systems,messages}.csv "$day/sent" 2>"$work/err" &&
        "$python" -B tests/lib/tapped_switches.py "$aircraft" "$day/sent/all-systems.list" "$day"
}

judge_day() { # OUT WORD.. : a campaign
    launch tools/afdx-campaign --conform --out "$day/$1" "${@:2}"
}

judge_aircraft() { # OUT WORD.. : by the table of the recorders of each switch and side
    judge_day "$1" --taps "$day/taps.csv" "$aircraft" "${@:2}"
}

# What `conform` itself says of a switch.
told_alone() { # CONFIG SWITCH TAPS RECORDING
    local places
    mapfile -t places < <(tools/afdx-taps --conform --switch "$2" "$1" "$3" "$4" 2>"$work/told")
    "$program" conform "--switch=$2" "${places[@]}" "$1" "$4"
}

whole_aircraft_tests() {
    local names='nose left cockpit right cabin tail engine wing'
    judge_day whole --taps "$day/all.csv" "$aircraft" "$day/all.pcapng"
    tell 'one recording of eight switches: each is judged that its table has' "$(
        is_status 0
        wants_text "$(column_of "$day/whole/campaign.csv" 0)" "$names" switches
        wants_text "$(column_of "$day/whole/campaign.csv" 2 | tr ' ' '\n' | sort -u)" conforms \
            verdicts
        wants_text "$(tail -n 1 "$work/out" | awk '{ print $1, $2, $4, $5, $12 }')" \
            'all 8 conforms 0 0' 'the sums'
        told_alone "$aircraft" left "$day/all.csv" "$day/all.pcapng" >"$work/wanted"
        same "$work/wanted" "$day/whole/runs/2/stdout"
        says err 'interface 33 (left-A3out) is A left:3 out by '
        if [[ -s $day/whole/runs/2/stderr ]]; then cat "$day/whole/runs/2/stderr"; fi
    )"
    cp "$day/all.csv" "$day/ghost.csv"
    echo 'ghost,A,left,19,in' >>"$day/ghost.csv"
    judge_day ghost --taps "$day/ghost.csv" "$aircraft" "$day/all.pcapng"
    tell 'a table that one recording of all does not agree with: nothing is run' "$(
        is_status 3
        says err "ghost isn't in $day/all.pcapng"
        if [[ -e $day/ghost ]]; then ls "$day/ghost"; fi
    )"
    judge_aircraft sides {left,right,left}={left.A,right.B,left.B}.pcapng
    tell 'recordings that are not there' "$(is_status 4; says out 'No such file')"
    judge_aircraft sides left="$day/left.A.pcapng" right="$day/right.B.pcapng" \
        left="$day/left.B.pcapng" --fail-on open,uncertain
    tell 'recordings of switches and sides, whose interfaces have the same names' "$(
        is_status 0
        wants_text "$(column_of "$day/sides/campaign.csv" 0)" 'left right left' switches
        wants_text "$(column_of "$day/sides/campaign.csv" 10)" '0 0 0' statuses
    )"
    judge_aircraft sides --switch left "$day/left.A.pcapng" --fail-on unseen --junit "$day/one.xml"
    tell 'a criterion of a recorded switch' "$(
        is_status 6
        says out 'not met: '
        wants_cases "$day/one.xml" '3 0 1'
    )"
}

deviating_tests() {
    sed 's/latency_us = 1000/latency_us = 10/' "$aircraft" >"$day/wrong.toml"
    judge_day wrong --taps "$day/taps.csv" --junit "$day/wrong.xml" "$day/wrong.toml" \
        cabin="$day/cabin.A.pcapng" tail="$day/tail.A.pcapng"
    tell 'a switch that deviates among others' "$(
        is_status 5
        wants_text "$(column_of "$day/wrong/campaign.csv" 2)" 'conforms deviates' verdicts
        wants_text "$(column_of "$day/wrong/campaign.csv" 10)" '0 5' statuses
        wants_text "$(tail -n 1 "$work/out" | awk '{ print $1, $2, $4, $5 }')" \
            "all 2 deviates $(grep -c '^late ' "$day/wrong/runs/2/stdout")" 'the sums'
        told_alone "$day/wrong.toml" tail "$day/taps.csv" "$day/tail.A.pcapng" >"$work/wanted"
        same "$work/wanted" "$day/wrong/runs/2/stdout"
        wants_cases "$day/wrong.xml" '4 0 1'
        grep -q '<failure message="deviates [0-9]*">late ' "$day/wrong.xml" ||
            grep -A 2 failure "$day/wrong.xml"
    )"
    judge_aircraft mixed cabin="$day/tail.A.pcapng" wing="$day/later.pcapng" \
        tail="$day/tail.A.pcapng"
    tell 'the recording of another switch, and one that is not there' "$(
        is_status 4
        says out 'afdx-taps: '
        wants_text "$(column_of "$day/mixed/campaign.csv" 10)" '3 4 0' statuses
        says out '1 without a result'
    )"
    judge_day mixed --taps "$day/all.csv" "$aircraft" tail="$day/all.pcapng"
    tell 'one switch of a recording of all' "$(
        is_status 0
        says err 'tail: '
        says err 'and has no AFDX frame (and '
    )"
    judge_aircraft mixed cabin="$day/tail.A.pcapng" wing="$day/later.pcapng" \
        tail="$day/tail.A.pcapng"
    cp "$day/wing.B.pcapng" "$day/later.pcapng"
    judge_aircraft mixed cabin="$day/tail.A.pcapng" wing="$day/later.pcapng" \
        tail="$day/tail.A.pcapng" --resume
    tell 'resume repeats the run that has no result, and it alone' "$(
        is_status 3
        wants_text "$(column_of "$day/mixed/campaign.csv" 10)" '3 0 0' statuses
        wants_text "$(runs_logged "$day/mixed" 1) $(runs_logged "$day/mixed" 2)" '1 2' runs
    )"
    judge_aircraft mixed tail="$day/tail.A.pcapng" --resume
    tell 'resume wants the switches of before' "$(is_status 2; says err '--resume wants the lists')"
    judge_aircraft login tail="$day/tail.A.pcapng" --sshlogin 1/:
    tell 'sshlogin is handed on with --conform' "$(
        is_status 0
        wants_text "$(column_of "$day/login/campaign.csv" 12)" 1/: machine
    )"
}

# One switch a side, of which a frame came and left, or another.
list_tests() {
    local config=examples/base.toml one
    one=$(frame_of A 0)
    echo "F 0 A 1 $one" >"$day/came.list"
    echo "F 6720 A 3 $one" >"$day/left.list"
    echo "F 5759 A 3 $one" >"$day/early.list"
    : >"$day/none.list"
    judge_day lists "$config" "$day/came.list,$day/left.list" "$day/came.list,$day/early.list" \
        "$day/none.list,$day/none.list"
    tell 'lists of what came and left, by one switch a side' "$(
        is_status 3
        wants_text "$(column_of "$day/lists/campaign.csv" 1)" 'conforms deviates undecided' verdicts
        wants_text "$(column_of "$day/lists/campaign.csv" 2)" '0 1 0' findings
        wants_text "$(column_of "$day/lists/campaign.csv" 9)" '0 5 3' statuses
        wants_text "$(tail -n 1 "$work/out" | awk '{ print $4, $5 }')" '1 1' 'the sums'
    )"
    judge_day lists "$config" "$day/came.list,$day/early.list" --slack 1 --exercised --from 0
    tell 'options of conform are handed on' "$(
        is_status 3
        wants_text "$(column_of "$day/lists/campaign.csv" 1)" undecided verdict
        says err 'with --from a switch may have let frames through'
    )"
    echo 'F 0 C' >>"$day/left.list"
    judge_day lists "$config" "$day/came.list,$day/left.list"
    tell 'a list with a fault has no verdict' "$(
        is_status 3
        says out 'list left BadLine 2'
        wants_text "$(cell_of "$day/lists/campaign.csv" 1 1)" "''" verdict
    )"
    launch tools/afdx-campaign "$config" "$day/came.list" --out "$day/replayed"
    judge_day replayed "$config" "$day/came.list,$day/early.list" --resume
    tell 'a campaign of replays is not gone on with as one of judgements' "$(is_status 2)"
}

# A recording of 5 s of a switch of whose frames over half leave too late.
slices_tests() {
    local config=examples/base.toml late=$day/late.pcapng places
    places=(--interface '0=A:1' --interface '1=A:2' --left '2=A:3')
    printf '%s\n' interface,side,port,direction '#0,A,1,in' '#1,A,2,in' '#2,A,3,out' \
        >"$day/three.csv"
    "$python" -B tests/tools/stamped_recording.py "$late" frames=2500 inside=10500
    launch "$program" conform "${places[@]}" "$config" "$late"
    grep -c '^late ' "$work/out" >"$work/count"
    sed '$d' "$work/out" | sort >"$work/wanted"
    judge_day slices "${places[@]}" --slices 2 "$config" "$late" --junit "$day/slices.xml"
    tell 'a recording in slices of time: together they find what one run finds' "$(
        is_status 5
        if [[ $(<"$work/count") -lt 100 ]]; then cat "$work/count"; fi
        sed -s '$d' "$day"/slices/runs/*/stdout | sort -u | same "$work/wanted" -
        says err "a slice doesn't know the accounts at its start"
        wants_text "$(column_of "$day/slices/campaign.csv" 1)" '1 of 2 2 of 2' slices
        wants_cases "$day/slices.xml" '4 0 2'
        grep -q "name=\"$late, slice 2 of 2\"" "$day/slices.xml" || head -n 5 "$day/slices.xml"
    )"
    tell 'a slice goes on for a second where the next one has begun' "$(
        "$python" -c 'import csv, sys
one, two = csv.DictReader(open(sys.argv[1], newline=""))
seam = int(two["from_ns"])
is_so = int(one["until_ns"]) == seam + 10**9 and 2_490_000_000 < seam < 2_500_000_000
print(end="" if is_so and not one["from_ns"] and not two["until_ns"] else f"{one} {two}")' \
            "$day/slices/campaign.csv"
    )"
    cp "$day"/slices/runs/2/stdout "$work/wanted"
    judge_day tapped --taps "$day/three.csv" --slices 2 "$config" "$late"
    tell 'slices by a table of taps, which is checked once' "$(
        is_status 5
        same "$work/wanted" "$day/tapped/runs/2/stdout"
    )"
    judge_day tapped --taps "$day/three.csv" --slices 2 --from 1 "$config" "$late" --resume
    tell 'resume wants the slices of before' "$(is_status 2; says err '--resume wants the lists')"
    judge_day given "${places[@]}" --slices 2 --from 100000000 --until 4500000000 "$config" "$late"
    tell 'slices of what comes between two times' "$(
        is_status 5
        wants_text "$(column_of "$day/given/campaign.csv" 2)" '100000000 2300000000' begins
        wants_text "$(column_of "$day/given/campaign.csv" 3)" '3300000000 4500000000' ends
    )"
    head -c -2 "$late" >"$day/broken.pcapng"
    tell 'recordings that are not cut into slices' "$(
        refused "a replay isn't split" --slices 2 "$config" "$late"
        refused '--slices takes one recording' --conform --slices 2 "$config" "$day/came.list"
        refused '--slices takes one recording' --conform --slices 2 "$config" "$late,$late"
        refused "3 slices of it aren't two seconds each" --conform "${places[@]}" --slices 3 \
            "$config" "$late"
        refused "doesn't say how long it is" --conform "${places[@]}" --slices 2 "$config" \
            "$day/broken.pcapng"
        refused "doesn't say how long it is" --conform --slices 2 "$config" "$late"
        refused 'no whole number of 1 to 1000' --conform --slices 0 "$config" "$late"
    )"
}

refused() { # WORDS WORD.. : with status 2, and words that say why
    local why=$1
    launch tools/afdx-campaign --out "$day/refused" "${@:2}"
    is_status 2
    says err "$why"
}

refused_campaigns_tests() {
    tell 'words that say nothing of the kind' "$(
        refused '--fail-on late isn' --conform --fail-on late "$aircraft" tail=x
        refused '--fail-on idle is a criterion with --conform only' --fail-on idle "$aircraft" x
        refused '--pages isn' --conform --pages "$aircraft" tail=x
        refused '--no-admission isn' --conform --no-admission "$aircraft" tail=x
        refused '--slack is an option with --conform only' --slack 1 "$aircraft" x
        refused '--from is an option with --conform only' --from 1 "$aircraft" x
    )"
    tell 'switches that are not there, or not said' "$(
        refused 'NAME has to be one of nose, left' --conform "$aircraft" mid=x
        refused 'NAME=RECORDING, --switch or --taps says it' --conform "$aircraft" x
        refused '--switch mid: it has to be one of' --conform --switch mid "$aircraft" x
        refused '--switch nose: there is one switch a side' --conform --switch nose \
            examples/base.toml x
        refused '--switch and NAME= say the same' --conform --switch nose "$aircraft" nose=x
        refused 'one recording of what came' --conform --taps "$day/taps.csv" "$aircraft" tail=x,y
    )"
}

if [[ -z $reporting ]] || ! has parallel; then
    skip 'campaigns over recorded switches' 'there is no program, no numpy, or no GNU parallel'
else
    tell 'the taps of eight switches' "$(record_aircraft || cat "$work/err")"
    whole_aircraft_tests
    deviating_tests
    list_tests
    slices_tests
    refused_campaigns_tests
fi
