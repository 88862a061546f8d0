# Cases of the standard streams, of many runs or closed; tests/run/program.sh reads this file.
# shellcheck shell=bash
# shellcheck disable=SC2154  # what it uses is set by tests/run/program.sh, which sources it
# shellcheck disable=SC2034  # what it sets is used there

printf 'x\n' >"$work/wrong.list"
sed '0,/^bag_ms = 1$/s//bag_ms = 3/' examples/base.toml >"$work/wrong.toml"

three_faults() { # FILE : runs with a fault, whose lines are appended to it
    {
        "$program" police 1 64 500 "$work/wrong.list"
        "$program" check "$work/wrong.toml"
        "$program" replay examples/refused.toml "$work/wrong.list"
    } 2>>"$1"
}

tell 'fault lines of many runs in one file are whole' "$(
    set +e
    errors=$work/appended
    for _ in {1..8}; do
        (for _ in {1..20}; do three_faults "$errors"; done) &
    done
    wait
    {
        yes 'admit A3 7 104 267995' | head -n 160
        yes 'config OutOfRange link 2 key 4' | head -n 160
        yes 'list BadLine 1' | head -n 160
    } >"$work/wanted"
    sort "$errors" | diff "$work/wanted" - | head -n 10 | cut -c 1-200
)"

tell 'each fault line is one write' \
    "$(python3 "$top/tests/program/error_writes.py" "$program" 2>&1 || true)"

closed_case() { # NAME STATUS OUT ERR STREAMS WORD.. : these streams are closed, as 0, 12 or 012
    local name=$1 wanted=$2 out=$3 err=$4 streams=$5
    shift 5
    status=0
    (
        [[ $streams != *0* ]] || exec 0<&-
        [[ $streams != *1* ]] || exec 1>&-
        [[ $streams != *2* ]] || exec 2>&-
        exec "$program" "$@"
    ) </dev/null >"$work/out" 2>"$work/err" || status=$?
    tell "$name" "$(
        has_status "$wanted"
        differs 'standard output' "$out" "$work/out"
        differs 'standard error' "$err" "$work/err"
    )"
}

no_read=$'device Read\n' no_write=$'device Write\n'
accepted=$'V 1 A accept\nV 2 A drop over-rate\nV 3 A accept\n'
police=(police 1 64 500)
printf '\xd4\xc3\xb2\xa1\2\0\4\0\0\0\0\0\0\0\0\0\xff\xff\0\0\1\0\0\0' \
    >"$work/head.pcap"

closed_case 'closed standard input' 4 '' "$no_read" 0 "${police[@]}" -
closed_case 'closed standard input beside a configuration' 4 '' "$no_read" 0 \
    replay examples/network.toml -
closed_case 'closed standard input of submissions' 4 '' "$no_read" 0 \
    send examples/network.toml fcc1 -
closed_case 'closed standard input behind a recording' 4 '' "$no_read" 0 \
    replay examples/network.toml "$work/head.pcap" -
closed_case 'closed standard input before a recording' 4 '' "$no_read" 0 \
    list examples/network.toml - "$work/head.pcap"
closed_case 'closed standard input by its path' 4 '' $'device Config\n' 0 check /dev/stdin
closed_case 'closed standard input that is not read' 0 "$accepted" '' 0 \
    "${police[@]}" examples/one_link.list
reason='Is a directory (os error 21), or closed'
closed_case 'closed standard input is explained' 4 '' \
    "$no_read$("$program" explain device Read)"$'\n'"standard input: $reason"$'\n' \
    0 "${police[@]}" --explain -
closed_case 'closed standard output' 4 '' "$no_write" 1 "${police[@]}" examples/one_link.list
closed_case 'closed standard output of check' 4 '' "$no_write" 1 check examples/network.toml
closed_case 'closed standard output of the version' 4 '' "$no_write" 1 --version
closed_case 'closed standard output beside a fault' 3 '' $'list BadLine 1\n' 1 \
    "${police[@]}" "$work/wrong.list"
closed_case 'closed standard error' 3 '' '' 2 "${police[@]}" "$work/wrong.list"
closed_case 'no standard stream' 3 '' '' 012 "${police[@]}" "$work/wrong.list"
closed_case 'no standard stream to read and write' 4 '' '' 012 "${police[@]}" -

status=0
(
    trap '' XFSZ
    ulimit -f 1
    exec "$program" replay examples/network.toml examples/bench.list
) >"$work/limited" 2>"$work/err" || status=$?
tell 'a limit on the size of files, whose signal is ignored' "$(
    has_status 4
    differs 'standard error' "$no_write" "$work/err"
    "$program" replay examples/network.toml examples/bench.list 2>/dev/null | head -c 1024 |
        cmp - "$work/limited" 2>&1
)"
