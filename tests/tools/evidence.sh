# Tests of what makes a report stand alone: what made it, its cover, where its frames stand, its
# paper; a part of tests/run/tools.sh.
# shellcheck shell=bash
# shellcheck disable=SC2154  # what it uses is set by tests/run/tools.sh, which sources it

proof=$work/evidence

made_test() {
    local config=examples/network.toml words=(--interface "0=A:5" --interface "0=B:6") first
    capture pcap --side A --origin 1764210600123456789 "$work/sample.list" "$proof/A.pcap"
    capture pcap --side B --origin 1764210600123456789 "$work/sample.list" "$proof/B.pcap"
    launch tools/afdx-report "${words[@]}" "$config" "$proof/A.pcap" "$proof/B.pcap" \
        --out "$proof/pair"
    first=$(tshark -t ud -r "$proof/A.pcap" -c 1 2>"$work/said" | awk '{print $2, $3}')
    tell 'words, taps, sums, versions, host and time 0' "$(
        is_status 0
        local json=$proof/pair/report.json
        wants_number "$json" '" ".join(r["run"]["words"][:6])' \
            "afdx-report --interface 0=A:5 --interface 0=B:6 $config"
        wants_number "$json" 'r["run"]["taps"]' "['0=A:5', '0=B:6']"
        wants_number "$json" '" ".join(file[2] for file in r["run"]["files"])' \
            "$(sha256sum "$config" "$proof/A.pcap" "$proof/B.pcap" | cut -d ' ' -f 1 | xargs)"
        wants_number "$json" 'r["run"]["program"]' "$("$program" --version)"
        wants_number "$json" 'r["run"]["tool"]' "$(tools/afdx-report --version)"
        wants_number "$json" 'r["run"]["host"]' "$(uname -n)"
        wants_number "$json" 'r["run"]["time_0"]' "$first UTC"
        for words in 'What made this report' 'SHA-256' '--interface 0=A:5' "$first UTC" \
            "numpy $("$python" -c 'import numpy; print(numpy.__version__)')"; do
            if ! grep -qF -- "$words" "$proof/pair/report.html"; then echo "no '$words'"; fi
        done
        "$python" tests/tools/html_tags.py "$proof/pair/report.html"
        "$python" tests/tools/html_access.py "$proof/pair/report.html"
    )"
    tell 'a list has no date' "$(
        wants_number "$work/sample/report.json" 'r["run"]["time_0"]' None
        wants_number "$work/sample/report.json" '"where" in r' False
    )"
}

as_in_tshark() { # NAME SIDE RECORDING : where.csv has what tshark says of these frames
    awk -F , -v side="$2" '$1 == side {print $2, $3, $4, $6}' "$proof/$1/where.csv" >"$work/got"
    tshark -r "$3" -T fields -e frame.number -e frame.interface_id -e frame.interface_name \
        -e frame.time_epoch 2>"$work/said" | awk -F '\t' '
            NR == FNR {split($0, words, " "); wanted[words[1]] = 1; next}
            $1 in wanted {print $1, $2 == "" ? 0 : $2, $3 == "unknown" ? "" : $3, $4}
        ' "$work/got" - >"$work/wanted"
    if [[ $(wc -l <"$work/got") -lt 20 ]]; then echo "only $(wc -l <"$work/got") frames"; fi
    same "$work/wanted" "$work/got"
}

where_tests() {
    tell 'rows lead to their frames: number, interface and stamp as in tshark' "$(
        as_in_tshark pair A "$proof/A.pcap"
        as_in_tshark pair B "$proof/B.pcap"
    )"
    capture annotate examples/network.toml "$work/sample.list" "$proof/said.pcapng"
    launch tools/afdx-report examples/network.toml "$proof/said.pcapng" --out "$proof/said"
    tell 'those of a pcapng with many interfaces' "$(
        is_status 0
        as_in_tshark said '' "$proof/said.pcapng"
        wants_number "$proof/said/report.json" \
            'len({row["interface"] for row in r["where"]}) > 10' True
        if ! grep -qE 'title="frame [0-9]+, interface [0-9]+ side [AB] port' \
            "$proof/said/report.html"; then
            echo 'no title on the page'
        fi
    )"
    editcap -F pcapng -r "$proof/A.pcap" "$proof/us.pcapng" 1-400 2>"$work/said"
    launch tools/afdx-report --fcs yes --stamps start --reorder 100 examples/network.toml \
        "$proof/us.pcapng" --out "$proof/us"
    tell 'those of stamps of the first bit' "$(
        is_status 0
        as_in_tshark us '' "$proof/us.pcapng"
    )"
    "$python" tests/tools/odd_recordings.py "$proof" "$(frame_of A 0)5d0b5f3c"
    launch tools/afdx-report examples/base.toml "$proof/sections.pcapng" --out "$proof/sections"
    tell 'interfaces of a later section by their own names' "$(
        is_status 0
        cut -d , -f 2-4,6 "$proof/sections/where.csv" >"$work/got"
        printf '%s\n' number,interface,name,epoch 1,0,eth0,1700000000.000000000 \
            2,1,eth1,1700000000.001000000 3,0,eth2,1700000000.002000007 >"$work/wanted"
        same "$work/wanted" "$work/got"
    )"
    launch tools/afdx-report examples/base.toml "$proof/long.pcapng" --out "$proof/long"
    tell 'a name that is too long is cut' "$(
        is_status 0
        wants_number "$proof/long/report.json" 'len(r["where"][0]["name"])' 66
        if [[ $(stat -c %s "$proof/long/report.html") -gt 200000 ]]; then echo 'it is long'; fi
    )"
    launch tools/afdx-report --stamps start --reorder 100 examples/network.toml "$proof/A.pcap" \
        --out "$proof/starts"
    tell 'also in a pcap' "$(
        is_status 0
        as_in_tshark starts '' "$proof/A.pcap"
        wants_number "$proof/starts/report.json" \
            '[row["stamp"] for row in r["troubles"]] != [] and r["troubles"][0]["interface"]' 0
    )"
    {
        echo "R 0 A 1 $(frame_of A 0)$(printf '00%.0s' {1..2000})"
        echo "F 9000000 A 1 $(frame_of A 1)"
    } >"$proof/giant.list"
    capture pcap --origin 1764210600123456789 "$proof/giant.list" "$proof/giant.pcap"
    launch tools/afdx-report --stamps start examples/base.toml "$proof/giant.pcap" \
        --out "$proof/giant"
    tell 'a frame of which the list has not all bytes' "$(
        is_status 0
        wants_number "$proof/giant/report.json" \
            '[row["epoch"] for row in r["where"]], r["run"]["time_0"]' \
            "(['1764210600.123456789', '1764210600.132456789'], \
'2025-11-27 02:30:00.123621589 UTC')"
    )"
}

cover_tests() {
    cat >"$proof/cover.toml" <<'END_OF_FILE'
title = "Acceptance of <the network>"
[fields]
Procedure = "TP-4711"
Date = 2026-11-27
"<i>Remarks\u001b" = """
first
</main>second\u001b"""
[[part]]
name = "Switch A"
number = "AX-100-01"
serial = "=0042"
[[signature]]
role = "Tester"
name = "A. Person"
END_OF_FILE
    launch tools/afdx-report examples/base.toml examples/one_link.list --out "$proof/cover" \
        --cover "$proof/cover.toml"
    tell 'a cover: fields, parts, serial numbers, signatures' "$(
        is_status 0
        for words in 'Acceptance of &lt;the network&gt;' TP-4711 2026-11-27 AX-100-01 '=0042' \
            'A. Person' 'serial number' signature; do
            if ! grep -qF "$words" "$proof/cover/report.html"; then echo "no '$words'"; fi
        done
        wants_number "$proof/cover/report.json" \
            'r["cover"]["parts"][0]["serial"], r["cover"]["signatures"][0]["role"]' \
            "('=0042', 'Tester')"
        wants_number "$proof/cover/report.json" 'r["cover"]["fields"][2]' \
            "{'field': '<i>Remarks\\\\x1b', 'content': 'first\\n</main>second\\\\x1b'}"
        wants_number "$proof/cover/report.json" 'r["run"]["files"][-1][0]' Cover
        wants_number "$proof/cover/report.json" 'r["run"]["files"][-1][2]' \
            "$(sha256sum "$proof/cover.toml" | cut -d ' ' -f 1)"
        if ! sed 's/Signatures.*//' "$proof/cover/report.html" |
            grep 'What made this' >/dev/null; then
            echo 'what made it stands behind the signatures'
        fi
        "$python" tests/tools/html_tags.py "$proof/cover/report.html"
        "$python" tests/tools/html_access.py "$proof/cover/report.html"
    )"
    local content
    for content in 'title = ' 'colour = "red"' '[[part]]\ncolour = "red"' 'fields = 1' 'part = 1' \
        'part = ["one"]' 'title = ["one"]' 'title = true' '\xff' "$(printf '[%.0s' {1..3000})" \
        "title = 0x$(printf 'f%.0s' {1..5000})" "$(printf '[[part]]\n%.0s' {1..41})" \
        "title = \"$(printf 'f%.0s' {1..10000})\""; do
        printf '%b\n' "$content" >"$proof/bad.toml"
        launch tools/afdx-report examples/base.toml examples/one_link.list --json \
            --cover "$proof/bad.toml"
        content=${content//$'\n'/ }
        tell "a cover with a fault: ${content:0:20}" "$(
            is_status 2
            one_line
            says err '--cover '
        )"
    done
    launch tools/afdx-report examples/base.toml examples/one_link.list --json \
        --cover "$proof/nowhere.toml"
    tell 'a cover that is not there' "$(is_status 4; one_line; says err nowhere.toml)"
}

words_on() { # WORDS [SHEET] : how often they stand on paper, of all sheets or of one
    pdftotext ${2:+-f "$2" -l "$2"} -layout "$proof/large.pdf" - | grep -o -- "$1" | wc -l
}

sheet_of() { # WORDS : the first sheet that has them
    local sheet
    for ((sheet = 1; sheet <= sheets; sheet++)); do
        if [[ $(words_on "$1" "$sheet") -gt 0 ]]; then break; fi
    done
    echo "$sheet"
}

least_type() { # thirds of a point
    pdftohtml -xml -i -zoom 3 -stdout "$proof/large.pdf" |
        sed -n 's/.*<fontspec [^>]*size="\([0-9]*\)".*/\1/p' | sort -n | head -n 1
}

paper_tests() {
    local sheets wrong
    sheets=$(pdfinfo "$proof/large.pdf" | awk '/^Pages/ {print $2}')
    tell 'it is at most 20 sheets' "$(
        if [[ ! $sheets -gt 5 || $sheets -gt 20 ]]; then echo "$sheets sheets"; fi
        for words in 'wrong-port' 'came in at port' 'What made this report' 'on paper' \
            "sheet $sheets of $sheets" 'the rest is in links.csv, latency.csv, frames.csv' \
            "Configuration $(sha256sum "$proof/large.toml" | cut -c 1-12), List "; do
            if [[ $(words_on "$words") -eq 0 ]]; then echo "no '$words'"; fi
        done
    )" "$sheets sheets"
    tell 'its type is of 7 pt or more' "$(
        if [[ ! $(least_type) -ge 21 ]]; then echo "$(least_type) thirds of a point"; fi
    )"
    wrong=$(cat "$proof/large/dropped.csv" <(head -n 501 "$proof/large/troubles.csv") |
        grep -c ',wrong-port,')
    tell 'all that is wrong stands there' "$(
        if [[ $(words_on wrong-port) -lt $wrong ]]; then
            echo "wrong-port stands there $(words_on wrong-port) times, not $wrong"
        fi
        awk -F , 'NR > 1 && $13 > 0 {print $1}' "$proof/large/sides.csv" >"$work/alone"
        pdftotext -layout "$proof/large.pdf" "$work/page.txt"
        while read -r number; do
            if ! grep -qE "! $number +[AB] " "$work/page.txt"; then echo "no link $number"; fi
        done <"$work/alone"
        if [[ $(wc -l <"$work/alone") -lt 70 ]]; then echo 'no frame came on one side alone'; fi
    )" "$wrong frames at wrong ports"
    tell 'no sheet ends in a small table' "$(
        for words in 'Senders: by how much' 'Ports: load'; do
            sheet=$(sheet_of "$words")
            if [[ $(words_on '\bs1[0-6]\b' "$sheet") -lt 7 ]]; then echo "$words"; fi
        done
    )"
}

large_test() { # the largest network, on a page and on paper
    "$python" tests/tools/large_network.py "$proof/large.toml" "$proof/large.list"
    launch tools/afdx-report --no-admission "$proof/large.toml" "$proof/large.list" \
        --out "$proof/large" --rows 4096 --worst 10000
    tell 'a report on 4,096 links' "$(
        is_status 0
        wants_number "$proof/large/report.json" 'r["totals"]["unequal"]' 70
        for words in '; on paper 20 of them, links.csv has all' \
            'the rest is in links.csv, latency.csv, frames.csv, sides.csv, skews.csv.'; do
            if ! grep -qF "$words" "$proof/large/report.html"; then echo "no '$words'"; fi
        done
    )"
    launch timeout 3600 chromium --headless --no-sandbox --disable-gpu --no-pdf-header-footer \
        --print-to-pdf="$proof/large.pdf" "file://$proof/large/report.html"
    paper_tests
}

mkdir -p "$proof"
if [[ -n $reporting && -n $dpkt && $reads == *two* ]]; then
    if has tshark; then
        made_test
        where_tests
    else
        skip 'where frames stand' 'there is no tshark (apt-get install tshark)'
    fi
    cover_tests
    if has chromium && has pdftotext; then
        large_test
    else
        skip 'the largest report on paper' 'there is no chromium, or no pdftotext (poppler-utils)'
    fi
else
    skip 'evidence' 'there is no program that lists recordings, no numpy, or no dpkt'
fi
