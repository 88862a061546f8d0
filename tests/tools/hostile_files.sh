# Tests of the tools with files that are meant to harm: what stands in them is neither obeyed by a
# terminal nor run nor taken for a formula, and no tool ends with a traceback. A part of
# tests/run/tools.sh.
# shellcheck shell=bash
# shellcheck disable=SC2154  # what it uses is set by tests/run/tools.sh, which sources it

one_plain_line() { # the stream err: no traceback, nothing that a terminal obeys
    if [[ $(wc -l <"$work/err") -ne 1 ]] || grep -q Traceback "$work/err"; then
        head -n 3 "$work/err"
    fi
    no_controls "$work/err"
}

no_controls() { # FILE..
    LC_ALL=C grep -lP '[\x00-\x08\x0b-\x1f\x7f]|\xc2[\x80-\x9f]' "$@"
}

# ---- the program ---------------------------------------------------------------------------------

by_each_tool() { # PROGRAM WORDS : each tool on sound files, with this as its program
    local base=examples/base.toml list=examples/one_link.list tables words
    tables='examples/systems.csv examples/messages.csv'
    printf 'interface,side,port,direction\neth0,A,1,in\n' >"$work/others.csv"
    for words in "report $base $list --json" "campaign $base $list --out $work/others" \
        "capture annotate $base $list $work/others.pcapng" \
        "capture list --config $base $list" "fill $base -" \
        "icd $tables -" "traffic --config $base $tables $work/others" \
        "taps $base $work/others.csv $list"; do
        # shellcheck disable=SC2086
        launch env AFDX="$1" tools/afdx-$words
        is_status 4
        says err "$2"
        one_plain_line
    done
}

other_program_tests() {
    local each
    for each in /bin/false /usr/bin/yes; do
        tell "each tool refuses $each as the program" "$(
            by_each_tool "$each" "$each is not the program afdx"
        )"
    done
    printf '#!/bin/sh\nprintf "afdx\\033]0;x\\007\\n"\nexit 7\n' >"$work/odd_program"
    printf '#!/bin/sh\nexit 70\n' >"$work/no_program"
    chmod +x "$work/odd_program" "$work/no_program"
    tell 'and one with an odd answer' "$(
        by_each_tool "$work/odd_program" "says 'afdx\\x1b]0;x\\x07', with status 7"
    )"
    tell 'and one that could not be built' "$(
        by_each_tool "$work/no_program" 'says nothing, with status 70'
    )"
}

stream_tests() {
    local tool
    for tool in report campaign capture icd fill traffic taps; do
        status=0
        "tools/afdx-$tool" --help >/dev/full 2>"$work/err" || status=$?
        tell "afdx-$tool --help onto a full device" "$(
            is_status 4
            one_plain_line
            says err 'device Write: No space left on device'
        )"
        status=0
        "tools/afdx-$tool" 2>/dev/full >"$work/out" || status=$?
        : >"$work/err"
        tell "afdx-$tool with standard error on a full device" "$(is_status 2)"
    done
}

# ---- lists ---------------------------------------------------------------------------------------

long_line_tests() {
    {
        printf 'F 0 A 1 %s\nF ' "$(frame_of A 0)"
        head -c 2000000 /dev/zero | tr '\0' 7
        printf ' A 1 %s\nF 9 A 1 %s\n' "$(frame_of A 1)" "$(frame_of A 2)"
    } >"$work/digits.list"
    launch_within 15 tools/afdx-report examples/base.toml "$work/digits.list" --json
    tell 'nothing is read of a line that the program refuses' "$(
        is_status 3
        one_plain_line
        says err 'list LineTooLong 2'
        wants_number "$work/out" 'r["totals"]["frames"]' 1
        wants_number "$work/out" 'r["run"]["files"][1][2]' \
            "$(sha256sum <"$work/digits.list" | cut -d ' ' -f 1)"
    )"
    launch_within 15 tools/afdx-report examples/refused.toml "$work/digits.list" --json
    tell 'nor of a list on a network that is refused' "$(
        is_status 1
        wants_number "$work/out" 'r["totals"]["frames"], r["fault"][:5]' "(0, 'admit')"
    )"
    launch_within 15 tools/afdx-capture pcap "$work/digits.list" "$work/digits.pcap"
    tell 'nor in a recording' "$(is_status 2; says err 'line 2 has more than 4,200 bytes')"
}

# ---- reports -------------------------------------------------------------------------------------

compare_tests() {
    local folder=$work/compared
    launch tools/afdx-report examples/base.toml examples/babbling.list --out "$folder"
    launch "$python" tests/tools/mutated_reports.py "$folder/report.json"
    tell 'a report is compared with one whose values are of another kind' "$(
        is_status 0
        grep -v ' refused, .* compared$' "$work/out" | head -n 5
    )" "$(tail -n 1 "$work/out")"
    "$python" -c 'import json, sys
report = json.load(open(sys.argv[1]))
report["run"]["title"] = "<img src=x>\x1b]0;pwned\x07\x9b2J\u202e"
json.dump(report, open(sys.argv[2], "w"))' "$folder/report.json" "$folder/titled.json"
    launch tools/afdx-report examples/base.toml examples/one_link.list --out "$folder/new" \
        --compare "$folder/titled.json"
    tell 'its title is obeyed by no terminal and no browser' "$(
        is_status 0
        says out 'Compared with <img src=x>\x1b]0;pwned\x07\x9b2J\u202e'
        no_controls "$work/out" "$folder/new/report.html" "$folder/new/compared.csv"
        grep -o '<img' "$folder/new/report.html"
    )"
    echo '{"run": {"title": []}}' >"$folder/short.json"
    launch tools/afdx-report examples/base.toml examples/one_link.list --json \
        --compare "$folder/short.json"
    tell 'what is no report is refused in a line' "$(
        is_status 2
        one_plain_line
        says err 'is no report.json'
    )"
}

name_tests() { # names of files that mean something to a browser
    local folder=$work/'<script>alert(1)<'
    mkdir -p "$folder"
    cp examples/base.toml "$folder/<img src=x onerror=alert(1)>.toml"
    cp examples/one_link.list "$folder/\"><svg onload=alert(1)>.list"
    launch tools/afdx-report "$folder"/*.toml "$folder"/*.list --out "$work/named"
    tell 'names of files are texts of the page' "$(
        is_status 0
        grep -oE '<(img|svg onload|script>alert)' "$work/named/report.html"
        "$python" tests/tools/html_tags.py "$work/named/report.html"
    )"
}

# ---- campaigns -----------------------------------------------------------------------------------

campaign_name_tests() {
    local folder=$work/cells
    mkdir -p "$folder"
    for name in $'a\rb' 'x;=1+1' '=1+1' 'y; @z' $'esc\e]0;x\a' '-5,7;"q"' 'plain;text'; do
        printf 'F 0 A 1 %s\n' "$(frame_of A 0)" >"$folder/$name.list"
    done
    (
        cd "$folder" || exit 1
        launch "$top/tools/afdx-campaign" "$top/examples/base.toml" --out out -- *.list
        echo "$status" >"$work/status"
    )
    status=$(<"$work/status")
    tell 'a campaign of lists with carriage returns and escapes in their names' "$(
        is_status 0
        head -n 3 "$work/err"
        no_controls "$work/out"
        says out 'a\rb.list'
        wants_text "$(tail -n +2 "$folder/out/campaign.csv" | grep -c ',0,,:$')" 7 'sound runs'
    )"
    tell 'no cell of its table is a formula, also where semicolons part cells' "$(
        no_controls "$folder/out/campaign.csv"
        "$python" -c 'import csv, sys
rows = list(csv.reader(open(sys.argv[1], newline="")))
print(*sorted(row[0] for row in rows[1:]), sep="\n")' "$folder/out/campaign.csv" >"$work/got"
        printf '%s\n' "'-5,7;\"q\".list" "'=1+1.list" 'a\rb.list' 'esc\x1b]0;x\x07.list' \
            'plain;text.list' "x;'=1+1.list" "y; '@z.list" >"$work/wanted"
        same "$work/wanted" "$work/got"
        sed 's/[,;]/\n/g' "$folder/out/campaign.csv" | grep -E '^"? *[=+@-]'
        grep -F 'plain;text' "$folder/out/campaign.csv" | grep -v '^"plain;text.list",'
    )"
}

go_on() { # a campaign that --resume goes on with, in $folder; its runs are repeated by parallel
    launch "$@" tools/afdx-campaign examples/base.toml examples/one_link.list --out "$folder" \
        --resume
    if grep -q Traceback "$work/err"; then tail -n 1 "$work/err"; fi
}

odd_run_tests() { # what a run gave is of another kind
    local folder=$work/odd_run idle=$work/idle given
    mkdir -p "$idle"
    printf '#!/bin/sh\nexit 0\n' >"$idle/parallel"
    chmod +x "$idle/parallel"
    launch tools/afdx-campaign examples/base.toml examples/one_link.list --out "$folder"
    cp "$folder/runs/1/stdout" "$work/kept.json"
    for given in '{}' '[[[' '{"fault": "", "totals": 5, "latency": []}' ''; do
        echo "$given" >"$folder/runs/1/stdout"
        tell "a run that gave $given has no result" "$(
            go_on env PATH="$idle:$PATH"
            is_status 4
        )"
        tell 'and is repeated' "$(
            go_on env
            is_status 0
            wants_number "$folder/runs/1/stdout" 'r["totals"]["frames"]' 3
        )"
    done
    sed 's/"words": "/"words": 5, "was": "/' "$work/kept.json" >"$folder/runs/1/stdout"
    tell 'nor has one with a finding in no words' "$(
        go_on env PATH="$idle:$PATH"
        is_status 4
        says out 'values of another kind'
        go_on env
        is_status 0
    )"
    sed 's/"share": [0-9.e-]*/"share": NaN/' "$work/kept.json" >"$folder/runs/1/stdout"
    printf '\e]0;x\a what\n' >"$folder/runs/1/stderr"
    printf 'cut' >>"$folder/joblog"
    tell 'nor has one with a share that is none' "$(
        go_on env PATH="$idle:$PATH"
        is_status 4
        says out 'values of another kind'
        no_controls "$work/out"
    )"
    tell 'and it is repeated after a line of the job log that was cut' "$(
        go_on env
        is_status 0
    )"
}

# ---- tables and configurations -------------------------------------------------------------------

icd_tests() {
    sed $'1s/$/,\e]0;x\a/' examples/systems.csv >"$work/heads.csv"
    launch tools/afdx-icd "$work/heads.csv" examples/messages.csv "$work/heads.toml"
    tell 'a column that is passed over is named without its escapes' "$(
        is_status 0
        says err 'columns passed over: \x1b]0;x\x07'
        no_controls "$work/err" "$work/heads.toml"
    )"
}

table_tests() { # tables that would take hours
    local name
    {
        head -n 1 examples/messages.csv
        sed -n 2p examples/messages.csv | sed "s/^/$(printf 'x %.0s' {1..2001})/"
    } >"$work/cell.csv"
    { cat examples/systems.csv; yes 'adc,1,1,1,100' | head -n 10000; } >"$work/rows.csv"
    {
        head -n 1 examples/systems.csv
        for name in a{-,_}{-,_}{-,_}{-,_}{-,_}{-,_}{-,_}{-,_}{-,_}{-,_}{-,_}{-,_}b; do
            echo "$name,1,1,1,100"
        done
    } >"$work/alike.csv"
    launch_within 30 tools/afdx-icd examples/systems.csv "$work/cell.csv" "$work/heads.toml"
    tell 'a cell of a table that is too long' "$(
        is_status 2
        one_plain_line
        says err 'a cell has more than 4,000 characters'
    )"
    launch_within 30 tools/afdx-icd "$work/rows.csv" examples/messages.csv "$work/heads.toml"
    tell 'a table that is too long' "$(
        is_status 2
        one_plain_line
        says err 'it has more than 10,000 rows'
    )"
    launch_within 30 tools/afdx-icd "$work/alike.csv" examples/messages.csv "$work/heads.toml"
    tell 'thousands of names that become one' "$(is_status 2)"
}

new_toml() { # FILE : base.toml's first tables in TOML 1.1
    local link
    link=$("$python" -B - <<'CODE'
import sys
sys.path.insert(0, "tests/lib")
from tables import key_lines, link_of
row = link_of(1, "s1", ["s2"], bag=2, lmax=200, latency=1000, skew=5000)
print(",\n    ".join(key_lines(row)))
CODE
    )
    cat >"$1" <<TOML
profile = 1
buffer = 16384
system = [
  {
    name = "s\x31", # of all
    port = 1, id = 1, partition = 1, rate = 100,
  },
  { name = "s2", port = 2, id = 2, partition = 1, rate = 100 },
]
link = [
  { $link,
  },
]
port = [{ system = "s2", link = 1, udp = 1000, kind = "queuing", depth = 4 }]
TOML
}

reads() { # FRAMES OPTION.. : report and annotate take $work/config.toml
    launch tools/afdx-report "$work/config.toml" "$work/one_line.list" --json "${@:2}"
    is_status 0
    wants_number "$work/out" 'r["totals"]["accepted"]' "$1"
    launch tools/afdx-capture annotate "${@:2}" "$work/config.toml" "$work/one_line.list" \
        "$work/config.pcapng"
    is_status 0
    says err '1 frames written'
}

reading_tests() {
    printf 'F 0 A 1 %s\n' "$(frame_of A 0)" >"$work/one_line.list"
    { printf '\xef\xbb\xbf'; cat examples/base.toml; } >"$work/config.toml"
    tell 'the tools read a configuration with a byte order mark' "$(reads 1)"
    new_toml "$work/config.toml"
    tell 'and one in TOML 1.1' "$(reads 1)"
    launch tools/afdx-fill "$work/config.toml" "$work/filled.toml"
    tell 'which afdx-fill fills, remarks and all' "$(
        is_status 0
        grep -cF 'name = "s\x31", # of all' "$work/filled.toml" | grep -vx 1
        sed -E 's/(buffer|_us) = [0-9]+/\1/g' "$work/config.toml" >"$work/wanted"
        sed -E 's/(buffer|_us) = [0-9]+/\1/g' "$work/filled.toml" >"$work/got"
        same "$work/wanted" "$work/got"
        "$program" check "$work/filled.toml" | tail -n 1 | grep -vx ok
    )"
    { printf '\xef\xbb\xbf'; sed 's/^buffer = .*/buffer = 64/' examples/base.toml; } \
        >"$work/config.toml"
    tell 'and one whose network is refused' "$(reads 1 --no-admission)"
    sed -i '1,2s/^buffer = .*/buffer = 64/' "$work/config.toml"
    new_toml "$work/config.toml"
    sed -i 's/^buffer = .*/buffer = 64/' "$work/config.toml"
    launch tools/afdx-report "$work/config.toml" "$work/one_line.list" --json
    tell 'of TOML 1.1 whose network is refused they say what it lacks' "$(
        is_status 2
        one_plain_line
        says err "isn't admitted (no A2 2 275)"
    )"
    sed 's/^lmax = 64/lmax = 63/' examples/base.toml >"$work/config.toml"
    for words in "report $work/config.toml $work/one_line.list --json" "fill $work/config.toml -" \
        "capture annotate $work/config.toml $work/one_line.list $work/config.pcapng"; do
        # shellcheck disable=SC2086
        launch tools/afdx-$words
        tell "afdx-${words%% *} says the program's own line of a configuration with a fault" "$(
            is_status 1
            wants_text "$(<"$work/err")" "afdx-${words%% *}: config OutOfRange link 1 key 6" 'line'
        )"
    done
}

every_tool_test() { # on a configuration in TOML 1.1 after a byte order mark
    local at=$work/every words tables='examples/systems.csv examples/messages.csv' config list
    mkdir -p "$at"
    config=$at/net.toml list=$at/traffic/all-systems.list
    # shellcheck disable=SC2086
    launch tools/afdx-icd $tables "$at/made.toml"
    { printf '\xef\xbb\xbf'; sed 's/{ name = "adc",/{\n    name = "\\x61dc", # TOML 1.1\n   /' \
        "$at/made.toml"; } >"$config"
    printf 'interface,side,port,direction\n#0,A,1,in\n' >"$at/taps.csv"
    tell 'each tool that takes a configuration takes one in TOML 1.1 with a byte order mark' "$(
        if cmp -s "$config" "$at/made.toml" || ! grep -q 1.1 "$config"; then echo 'as made'; fi
        for words in "traffic --config $config $tables $at/traffic" \
            "capture pcap --side A $at/traffic/adc.list $at/adc.pcap" \
            "taps $config $at/taps.csv $at/adc.pcap" \
            "capture list --config $config --taps $at/taps.csv $at/adc.pcap" \
            "capture annotate $config $list $at/said.pcapng" "report $config $list --json" \
            "campaign $config $list --out $at/campaign" "fill $config -" \
            "icd --since $config $tables -"; do
            # shellcheck disable=SC2086
            launch tools/afdx-$words
            if [[ $status -ne 0 ]]; then echo "afdx-$words: status $status"; fi
            grep -iE 'toml|traceback' "$work/err"
        done
    )"
}

if [[ -n $reporting && -n $dpkt ]] && has parallel; then
    other_program_tests
    stream_tests
    long_line_tests
    compare_tests
    name_tests
    campaign_name_tests
    odd_run_tests
    icd_tests
    table_tests
    reading_tests
    every_tool_test
else
    skip 'hostile files' "there is no program $program, or no numpy, dpkt or GNU parallel"
fi
