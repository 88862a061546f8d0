# Tests of what the tools say of the program's faults where standard error is a terminal, and that
# they say no more elsewhere; a part of tests/run/tools.sh.
# shellcheck shell=bash
# shellcheck disable=SC2154  # what it uses is set by tests/run/tools.sh, which sources it

on_terminal() { # WORD.. : standard error, a terminal, goes to $work/out, without progress
    launch "$python" tests/lib/on_terminal.py "$@"
    sed -i 's/.*\r//' "$work/out"
}

# The fault's line comes first, and after it all that the program says of it.
explained() { # NAME STATUS LINE WORD.. : LINE is what the tool writes, its name before it
    local name=$1 wanted=$2 line=$3
    shift 3
    on_terminal "$@"
    tell "$name, on a terminal" "$(
        is_status "$wanted"
        sed -n "/^${line%% *} ${line#* }\$/,\$p" "$work/out" >"$work/got"
        if [[ $(head -n 1 "$work/got") != "$line" ]]; then
            echo "no line '$line'"
            tail -n 3 "$work/out" | tail -c 300
        fi
        "$program" explain "${line#*: }" >"$work/wanted"
        if ! head -n 1 "$work/wanted" | grep -qxF -f - <(tail -n +2 "$work/got"); then
            echo "it isn't explained"
        fi
    )"
    launch "$@"
    tell "$name, elsewhere" "$(
        is_status "$wanted"
        if ! grep -qxF "$line" "$work/err"; then echo "no line '$line'"; fi
        "$program" explain "${line#*: }" | head -n 1 >"$work/wanted"
        if grep -qxF -f "$work/wanted" "$work/err"; then echo 'it is explained'; fi
    )"
}

explained_tests() {
    printf 'F 0 A 1 %s\nF 0 C 1 00\n' "$(frame_of A 0)" >"$work/faulty.list"
    sed 's/^bag_ms = .*/bag_ms = 3/' examples/base.toml >"$work/faulty.toml"
    explained 'a report of a list with a fault' 3 'afdx-report: list BadLine 2' \
        tools/afdx-report examples/base.toml "$work/faulty.list" --json
    explained 'a report of a network that is not admitted' 1 \
        'afdx-report: admit A3 7 104 267995' \
        tools/afdx-report examples/refused.toml examples/one_link.list --json
    explained 'a report of a configuration with a fault' 1 \
        'afdx-report: config OutOfRange link 1 key 4' \
        tools/afdx-report "$work/faulty.toml" examples/one_link.list --json
    "$program" check --explain=always "$work/faulty.toml" 2>"$work/wanted" || true
    on_terminal tools/afdx-report "$work/faulty.toml" examples/one_link.list --json
    tell 'the program says what it knows of that file' "$(
        sed 's/^afdx-report: //' "$work/out" >"$work/got"
        same "$work/wanted" "$work/got"
    )"
    explained 'annotate on a list with a fault' 3 'afdx-capture: list BadLine 2' \
        tools/afdx-capture annotate examples/base.toml "$work/faulty.list" "$work/no.pcapng"
    if [[ $reads == *list* ]]; then
        tools/afdx-capture pcap examples/one_link.list "$work/sound.pcap" 2>"$work/err"
        head -c 100 "$work/sound.pcap" >"$work/broken.pcap"
        on_terminal tools/afdx-capture list --config examples/base.toml "$work/broken.pcap"
        tell 'a list of a broken recording, on a terminal' "$(
            is_status 3
            head -n 1 "$work/out" | grep -q '^recording Ended' || head -n 1 "$work/out"
            if [[ $(wc -l <"$work/out") -lt 2 ]]; then echo 'it is not explained'; fi
        )"
    fi
    explained 'fill of a configuration with a fault' 1 'afdx-fill: config OutOfRange link 1 key 4' \
        tools/afdx-fill "$work/faulty.toml" -
    on_terminal tools/afdx-report nowhere.toml examples/one_link.list --json
    tell 'what is no line of the program stays one line' "$(
        is_status 4
        if [[ $(wc -l <"$work/out") -ne 1 ]]; then cat "$work/out"; fi
    )"
}

explained_campaign_tests() {
    on_terminal tools/afdx-campaign examples/base.toml "$work/faulty.list" examples/one_link.list \
        "$work/faulty.list" --out "$work/explained"
    tell 'a campaign explains each fault once' "$(
        is_status 3
        "$program" explain list BadLine 2 | head -n 1 >"$work/wanted"
        wants_text "$(grep -cxF -f "$work/wanted" "$work/out")" 1 'times'
    )"
}

if [[ -z $reporting || -z $dpkt ]]; then
    skip 'faults on a terminal' "there is no program $program, no numpy, or no dpkt"
else
    explained_tests
    if has parallel; then
        explained_campaign_tests
    else
        skip 'faults of a campaign on a terminal' 'there is no GNU parallel'
    fi
fi
