# Tests of afdx-report with odd words, names, files and outputs; a part of tests/run/tools.sh.
# shellcheck shell=bash
# shellcheck disable=SC2154  # what it uses is set by tests/run/tools.sh, which sources it

one_line() { # the stream err has one line, and no traceback
    if [[ $(wc -l <"$work/err") -ne 1 ]]; then
        echo "$(wc -l <"$work/err") lines on standard error:"
        head -n 3 "$work/err"
    fi
    if grep -q Traceback "$work/err"; then tail -n 1 "$work/err"; fi
}

refuses() { # WORDS WORD.. : afdx-report refuses these words, and says WORDS
    local words=$1
    shift
    launch tools/afdx-report examples/base.toml examples/one_link.list --json "$@"
    tell "refused: ${*: -2}" "$(is_status 2; one_line; says err "$words")"
}

word_tests() {
    refuses '0 is no whole number of 1 to 4096' --rows 0
    refuses '-1 is no whole number' --link=-1
    refuses '65536 is no whole number of 0 to 65535' --link 65536
    refuses 'no whole number' --from 1e3
    refuses 'no whole number' --worst '²'
    refuses 'early is none of silent, contradicted, clock' --fail-on dropped,early
    launch tools/afdx-report examples/base.toml
    tell 'a missing word is one line' "$(is_status 2; one_line; says err LIST)"
    launch tools/afdx-report examples/base.toml -- --
    tell 'a file that is named --' "$(is_status 2; one_line; says err 'written as ./--')"
}

name_tests() {
    local odd=$work/odd
    mkdir -p "$odd"
    cp examples/one_link.list "$odd"/$'\xff <b>&.list'
    cp examples/one_link.list "$odd/-x.list"
    launch tools/afdx-report examples/base.toml "$odd"/$'\xff <b>&.list' --title $'T \xfe' \
        --out "$odd"/$'\xfd' --junit "$odd/junit.xml"
    tell 'names that are not UTF-8' "$(
        is_status 0
        says out 'T \xfe'
        "$python" tests/tools/html_tags.py "$odd"/$'\xfd/report.html'
        wants_number "$odd"/$'\xfd/report.json' 'r["run"]["files"][1][1][-14:]' \
            '\xff <b>&.list'
        wants_cases "$odd/junit.xml" '1 0 0'
    )"
    (
        cd "$odd" || exit 1
        launch "$top/tools/afdx-report" --json -- "$top/examples/base.toml" -x.list
        echo "$status" >"$work/status"
    )
    status=$(<"$work/status")
    tell 'a list named -x.list' "$(
        is_status 0
        wants_number "$work/out" 'r["totals"]["frames"]' 3
    )"
}

output_tests() {
    local words=(tools/afdx-report examples/base.toml examples/one_link.list --json)
    status=0
    "${words[@]}" >&- 2>"$work/err" || status=$?
    tell 'a closed output' "$(is_status 4; one_line; says err 'device Write')"
    status=0
    "${words[@]}" >/dev/full 2>"$work/err" || status=$?
    tell 'a full output' "$(is_status 4; one_line; says err 'device Write')"
    local reads writes
    mkfifo "$work/broken"
    exec {reads}<>"$work/broken"
    exec {writes}>"$work/broken" {reads}<&- # which nobody reads now
    status=0
    (trap '' PIPE; exec "${words[@]}") 1>&"$writes" 2>"$work/err" || status=$?
    exec {writes}>&-
    tell 'a broken pipe' "$(is_status 4; one_line)"
    status=0
    "${words[@]}" <&- >"$work/out" 2>"$work/err" || status=$?
    tell 'a closed input' "$(is_status 0)"
    launch tools/afdx-report examples/base.toml examples/one_link.list --out /dev/null
    tell 'a folder that can not be made' "$(is_status 4; one_line; says err /dev/null)"
}

file_tests() {
    mkfifo "$work/fifo.list" "$work/fifo.toml"
    cat examples/one_link.list >"$work/fifo.list" &
    cat examples/base.toml >"$work/fifo.toml" &
    launch timeout 3600 tools/afdx-report "$work/fifo.toml" "$work/fifo.list" --json
    wait
    tell 'configuration and list from FIFOs' "$(
        is_status 0
        wants_number "$work/out" 'r["totals"]["frames"]' 3
    )"
    launch tools/afdx-report examples/base.toml examples --json
    tell 'a folder as a list' "$(is_status 2; one_line; says err 'is a folder')"
    sed 's/$/\r/' examples/one_link.list >"$work/returns.list"
    printf '\n# note\nF 000000000000000000009500000 A 01 %s' "$(frame_of A 1)" \
        >>"$work/returns.list"
    launch tools/afdx-report examples/base.toml "$work/returns.list" --json
    tell 'returns, empty lines, zeros, no last line feed' "$(
        is_status 0
        wants_number "$work/out" 'r["totals"]["frames"], r["totals"]["accepted"]' '(4, 3)'
    )"
    mkdir -p "$work/lacking"
    echo 'raise ModuleNotFoundError' >"$work/lacking/numpy.py"
    launch env PYTHONPATH="$work/lacking" tools/afdx-report examples/base.toml \
        examples/one_link.list
    tell 'without numpy' "$(is_status 4; one_line; says err 'apt-get install python3-numpy')"
}

cut_tests() { # a program that is killed in the middle of a line
    cat >"$work/killed" <<END_OF_FILE
#!/bin/bash
if [[ \$1 != replay ]]; then exec "$program" "\$@"; fi
"$program" "\$@" | head -c 40
kill -9 \$\$
END_OF_FILE
    chmod +x "$work/killed"
    launch env AFDX="$work/killed" tools/afdx-report examples/base.toml examples/one_link.list \
        --json
    tell 'a program that is killed in the middle of a line' "$(
        is_status 137
        one_line
        says err 'ended by signal 9'
        wants_number "$work/out" 'r["totals"]["departed"], r["totals"]["delivered"]' '(1, 0)'
    )"
}

progress_tests() { # standard error as a terminal
    if ! has script; then
        skip 'progress on a terminal' 'there is no script (apt-get install bsdutils)'
        return
    fi
    cat >"$work/slow" <<END_OF_FILE
#!/bin/sh
if [ "\$1" = replay ]; then sleep 3; fi
exec "$program" "\$@"
END_OF_FILE
    chmod +x "$work/slow"
    launch env AFDX="$work/slow" script -qec \
        "tools/afdx-report examples/base.toml examples/one_link.list --json >$work/json" \
        "$work/typed"
    tell 'progress on a terminal after two seconds' "$(
        if ! grep -q 'afdx-report: 100 % of the replay' "$work/typed"; then
            head -c 300 "$work/typed"
        fi
    )"
    launch env AFDX="$work/slow" tools/afdx-report examples/base.toml examples/one_link.list --json
    tell 'none where standard error is a file' "$(
        is_status 0
        if [[ -s $work/err ]]; then head -n 3 "$work/err"; fi
    )"
}

if [[ -n $reporting ]]; then
    word_tests
    name_tests
    output_tests
    file_tests
    cut_tests
    progress_tests
else
    skip 'reports of odd files' "there is no program $program, or no numpy"
fi
