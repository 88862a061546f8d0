# Tests of campaigns: odd names, criteria, other machines; a part of tests/run/tools.sh.
# shellcheck shell=bash
# shellcheck disable=SC2154  # what it uses is set by tests/run/tools.sh, which sources it

odd=$work/'odd {} {#} names'

one_frame() { # FILE
    printf 'F 0 A 1 %s\n' "$(frame_of A 0)" >"$1"
}

column_of() { # CSV NUMBER : of all rows, joined by blanks
    "$python" -c 'import csv, sys
rows = list(csv.reader(open(sys.argv[1], newline="")))[1:]
print(*(row[int(sys.argv[2])] for row in rows))' "$1" "$2"
}

cell_of() { # CSV ROW COLUMN : as Python writes it
    "$python" -c 'import csv, sys
print(repr(list(csv.reader(open(sys.argv[1], newline="")))[int(sys.argv[2])][int(sys.argv[3])]))' \
        "$1" "$2" "$3"
}

odd_name_tests() {
    mkdir -p "$odd"
    cp examples/base.toml "$odd/base {}.toml"
    cp examples/one_link.list "$odd/one {.} {5}.list"
    one_frame "$odd"/$'two\nlines.list'
    one_frame "$odd/-x.list"
    one_frame "$odd"/$'\xff.list'
    (
        cd "$odd" || exit 1
        launch "$top/tools/afdx-campaign" --out 'out {}' --pages -- 'base {}.toml' \
            'one {.} {5}.list' $'two\nlines.list' -x.list $'\xff.list'
        echo "$status" >"$work/status"
    )
    status=$(<"$work/status")
    tell 'a campaign with braces, a line feed, a leading minus and bytes in its names' "$(
        is_status 0
        wants_text "$(column_of "$odd/out {}/campaign.csv" 1)" '3 1 1 1' 'frames'
        for number in 1 2 3 4; do
            if [[ ! -s "$odd/out {}/pages/$number/report.html" ]]; then echo "no page $number"; fi
        done
        says out 'two\nlines.list'
        says out '\xff.list'
    )"
    tell 'no cell of a CSV file is a formula' "$(
        wants_text "$(cell_of "$odd/out {}/campaign.csv" 3 0)" "\"'-x.list\"" 'the name'
    )"
    launch tools/afdx-campaign examples/base.toml "$odd/-x.list" --out "$odd/out {}" --resume
    tell 'resume compares odd names too' "$(is_status 2; says err '--resume wants the lists')"
}

criteria_campaign_tests() {
    cp examples/one_link.list "$work/dropping.list"
    one_frame "$work/sound.list"
    launch tools/afdx-campaign examples/base.toml "$work/sound.list" "$work/dropping.list" \
        --out "$work/criteria" --fail-on dropped,late --junit "$work/criteria.xml"
    tell 'a campaign with criteria' "$(
        is_status 6
        says out 'not met: 1 dropped'
        wants_text "$(column_of "$work/criteria/campaign.csv" 16)" '0 6' 'statuses'
        wants_cases "$work/criteria.xml" '6 0 1'
    )"
    launch tools/afdx-campaign examples/base.toml "$work/dropping.list" --out "$work/criteria"
    tell 'and without them' "$(is_status 0)"
}

named_config() { # FILE : it, and what a document calls its messages
    cp examples/base.toml "$1"
    printf 'part,name,number,udp,called\nmessage,,1,1000,air data\n' >"${1%.toml}.names.csv"
}

named_campaign_tests() {
    named_config "$work/named.toml"
    launch tools/afdx-campaign "$work/named.toml" "$work/sound.list" "$work/dropping.list" \
        --out "$work/criteria" --fail-on dropped,late --junit "$work/named.xml"
    tell 'a test case that failed says which links it is about, as the document calls them' "$(
        is_status 6
        wants_cases "$work/named.xml" '6 0 1'
        grep -q '^ *<failure message="1 frames that a switch dropped">1 frame of link 1 (air data' \
            "$work/named.xml" || grep -A 2 failure "$work/named.xml"
    )"
}

# ---- runs without a result, and what all of them come to -----------------------------------

runs_logged() { # FOLDER NUMBER : how often that run stands in the job log
    cut -f 9 "$1/joblog" | grep -c "^run=$2;"
}

worst_tests() {
    printf 'F 0 A 1 %s\nF 0 C 1 00\n' "$(frame_of A 0)" >"$work/faulty.list"
    launch tools/afdx-campaign examples/base.toml "$work/dropping.list" "$work/faulty.list" \
        "$work/sound.list" --out "$work/worst" --fail-on dropped
    tell 'a list with a fault is worse than a criterion that is not met' "$(
        is_status 3
        wants_text "$(column_of "$work/worst/campaign.csv" 16)" '6 3 0' 'statuses'
        wants_text "$(tail -n 1 "$work/out" | awk '{ print $1, $2, $3, $4, $5 }')" 'all 3 5 4 1' \
            'the sums'
    )"
    launch tools/afdx-campaign examples/base.toml "$work/sound.list" "$work/nowhere.list" \
        --out "$work/worst"
    tell 'a run without a result is the worst' "$(
        is_status 4
        says err '1 of 2 runs have no result (--resume repeats them)'
        if ! tail -n 1 "$work/out" | grep -q '^all 2 .* 1 without a result$'; then
            tail -n 1 "$work/out"
        fi
    )"
    cp "$work/sound.list" "$work/nowhere.list"
    launch tools/afdx-campaign examples/base.toml "$work/sound.list" "$work/nowhere.list" \
        --out "$work/worst" --resume
    tell 'resume repeats it, and it alone' "$(
        is_status 0
        wants_text "$(column_of "$work/worst/campaign.csv" 1)" '1 1' 'frames'
        wants_text "$(runs_logged "$work/worst" 1) $(runs_logged "$work/worst" 2)" '1 2' 'runs'
    )"
    rm "$work/nowhere.list"
    # shellcheck disable=SC2016  # the script expands it
    printf '#!/bin/sh\ncase $1 in replay) kill -9 $PPID ;; esac\nexec "%s" "$@"\n' "$program" \
        >"$work/deadly"
    chmod +x "$work/deadly"
    launch env AFDX="$work/deadly" tools/afdx-campaign examples/base.toml "$work/sound.list" \
        --out "$work/ended"
    tell 'a run that was killed has no result' "$(is_status 4; says err 'no result')"
    launch tools/afdx-campaign examples/base.toml "$work/sound.list" --out "$work/ended" --resume
    tell 'and is repeated too' "$(
        is_status 0
        wants_text "$(column_of "$work/ended/campaign.csv" 1)" 1 'frames'
    )"
}

# ---- other machines ------------------------------------------------------------------------

on_machines() { # FOLDER WORD.. : a campaign of two lists there, with relative paths
    local folder=$1 config=$work/machines/config
    shift
    (
        cd "$folder" || exit 1
        launch "$top/tools/afdx-campaign" base.toml one.list two.list --out out --pages \
            --sshlogin "1/ssh -F $config one" --sshlogin "1/ssh -F $config two" "$@"
        echo "$status" >"$work/status"
    )
    status=$(<"$work/status")
}

ran_there() { # FOLDER
    is_status 0
    head -n 3 "$work/err"
    wants_text "$(column_of "$1/out/campaign.csv" 1)" '3 1' 'frames'
    wants_text "$(tail -n +2 "$1/out/joblog" | grep -cE 'one|two')" 2 'runs on other machines'
    for number in 1 2; do
        if [[ ! -s $1/out/pages/$number/report.html ]]; then echo "no page $number"; fi
    done
}

many_lists() { # FOLDER COUNT
    local number
    for ((number = 1; number <= $2; number++)); do one_frame "$1/many$number.list"; done
}

on_machine() { # NAME : how many runs of the last campaign ended well there
    tail -n +2 "$work/many/joblog" | cut -f 2,7 | grep -c " $1"$'\t''0$'
}

all_ran() { # COUNT : each of so many lists has a result
    wants_text "$(column_of "$work/many/campaign.csv" 1 | tr -d ' ')" \
        "$(printf '1%.0s' $(seq "$1"))" 'frames of each'
}

# A program that on the machine two holds each run but the first until its cable is unplugged.
held_program() { # FILE
    cat >"$1" <<END_OF_FILE
#!/bin/sh
if [ "\$1" = replay ] && [ "\${SSH_CONNECTION#*$(<"$work/machines/two.address")}" != \
    "\$SSH_CONNECTION" ] && ! mkdir "$work/first" 2>/dev/null; then
    until [ -e "$work/unplugged" ]; do sleep 0.1; done
fi
exec "$program" "\$@"
END_OF_FILE
    chmod +x "$1"
}

unplug_later() { # takes machine two away when it has done a run; ten minutes are enough for one
    local tries
    for ((tries = 0; tries < 6000; tries++)); do
        if [[ -s $work/many/joblog ]] && [[ $(on_machine two) -gt 0 ]]; then break; fi
        sleep 0.1
    done
    tests/tools/two_hosts.sh cut "$work/machines" two
    touch "$work/unplugged"
}

# A machine that can't be reached, and one whose cable is unplugged once it has done a run.
dead_machine_tests() {
    local ssh="1/ssh -F $work/machines/config" count=12
    local quick="$ssh -oConnectTimeout=60 -oServerAliveInterval=1 -oServerAliveCountMax=10"
    many_lists "$work" "$count"
    launch tools/afdx-campaign examples/base.toml "$work"/many*.list --out "$work/many" \
        -S "$ssh refusing,$ssh one"
    tell 'a machine that cannot be reached takes no run away' "$(
        is_status 0
        all_ran "$count"
        says err 'refusing is left out, as 3 runs in a row failed there: ssh: connect to host'
        wants_text "$(on_machine one)" "$count" 'runs on machine one'
        wants_text "$(cell_of "$work/many/campaign.csv" 3 18)" "'$ssh one'" 'the machine'
    )"
    rm "$work/many/joblog"
    held_program "$work/held"
    unplug_later &
    launch env AFDX="$work/held" tools/afdx-campaign examples/base.toml "$work"/many*.list \
        --out "$work/many" -S "$ssh one" -S "$quick two"
    tell 'a machine that dies midway takes none either' "$(
        is_status 0
        all_ran "$count"
        wants_text "$(on_machine two) $(on_machine one)" "1 $((count - 1))" 'runs on two and one'
    )"
    wait
    launch tools/afdx-campaign examples/base.toml "$work"/many*.list --out "$work/many" \
        -S "$quick two,$ssh refusing"
    tell 'a campaign ends where no machine answers' "$(
        is_status 4
        says err "$count of $count runs have no result"
        says out "$count without a result"
    )"
    tests/tools/two_hosts.sh join "$work/machines" two
    launch tools/afdx-campaign examples/base.toml "$work"/many*.list --out "$work/many" \
        -S "4/ssh -F $work/machines/config two" --resume
    tell 'and goes on once one does' "$(is_status 0; all_ran "$count")"
    rm "$work"/many*.list
}

# A switch that was recorded as two lists, which are copied to another machine.
judged_there_test() {
    local config=$work/machines/config
    printf 'F 6720 A 3 %s\n' "$(frame_of A 0)" >"$work/machines/hidden/left.list"
    launch env -C "$work/machines/hidden" "$top/tools/afdx-campaign" --conform base.toml \
        two.list,left.list --out judged --transfer --sshlogin "1/ssh -F $config one"
    tell 'a recorded switch is judged on another machine' "$(
        is_status 0
        wants_text "$(column_of "$work/machines/hidden/judged/campaign.csv" 1)" conforms verdict
        wants_text "$(cell_of "$work/machines/hidden/judged/campaign.csv" 1 11)" \
            "'1/ssh -F $config one'" 'the machine'
    )"
}

machine_tests() {
    mkdir -p "$work/machines/hidden" "$work/shared"
    status=0
    tests/tools/two_hosts.sh up "$work/machines" "$work/machines/hidden" \
        >"$work/out" 2>"$work/err" || status=$?
    if [[ $status -eq 3 ]]; then
        skip 'campaigns on other machines' "$(tail -n 1 "$work/err")"
        return
    fi
    tell 'two machines' "$(is_status 0)"
    for folder in "$work/shared" "$work/machines/hidden"; do
        cp examples/base.toml "$folder/base.toml"
        cp examples/one_link.list "$folder/one.list"
        one_frame "$folder/two.list"
    done
    on_machines "$work/shared"
    tell 'a campaign on other machines, relative paths on a shared folder' \
        "$(ran_there "$work/shared")"
    on_machines "$work/machines/hidden"
    tell 'the lists are not there' "$(if [[ $status -eq 0 ]]; then echo 'status 0'; fi)"
    rm -rf "$work/machines/hidden/out"
    on_machines "$work/machines/hidden" --transfer
    tell 'and are copied with --transfer' "$(ran_there "$work/machines/hidden")"
    named_config "$work/machines/hidden/base.toml"
    on_machines "$work/machines/hidden" --transfer --fail-on dropped --junit "$work/there.xml"
    tell 'so is the table of names' "$(
        is_status 6
        grep -q 'of link 1 (air data' "$work/there.xml" || cat "$work/there.xml"
    )"
    rm "$work/machines/hidden/base.names.csv"
    on_machines "$work/machines/hidden" --transfer --sshlogin 1/:
    tell 'on this machine too' "$(
        is_status 0
        wants_text "$(column_of "$work/machines/hidden/out/campaign.csv" 1)" '3 1' 'frames'
    )"
    judged_there_test
    dead_machine_tests
    tests/tools/two_hosts.sh down "$work/machines" >>"$work/out" 2>&1
}

without_rsync_test() {
    local bin=$work/without
    mkdir -p "$bin"
    ln -sf "$(command -v parallel)" "$bin/parallel"
    launch env PATH="$bin" "$python" tools/afdx-campaign examples/base.toml "$work/sound.list" \
        --out "$work/criteria" --sshlogin somewhere --transfer
    tell 'transfer says that it wants rsync' "$(is_status 2; says err 'wants rsync')"
}

if [[ -n $reporting ]] && has parallel; then
    odd_name_tests
    criteria_campaign_tests
    named_campaign_tests
    worst_tests
    without_rsync_test
    if has rsync; then
        machine_tests
    else
        skip 'campaigns on other machines' 'there is no rsync (apt-get install rsync)'
    fi
else
    skip 'more campaigns' 'there is no program, no numpy, or no GNU parallel'
fi
