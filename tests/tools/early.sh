# Tests of what afdx-report says of frames that came too early; a part of tests/run/tools.sh.
# shellcheck shell=bash
# shellcheck disable=SC2154  # what it uses is set by tests/run/tools.sh, which sources it

early_lines() { # CONFIG LIST : the program's lines of standard error
    { "$program" replay --explain-drops "$1" "$2" >/dev/null; } 2>&1
}

wants_early() { # CONFIG LIST FOLDER : report and page against the program's lines
    early_lines "$1" "$2" >"$work/early"
    "$python" - "$2" "$work/early" "$3" <<'END_OF_FILE'
import csv, json, pathlib, re, sys
listed, early, folder = (pathlib.Path(word) for word in sys.argv[1:])
lines = [line.split() for line in listed.read_text().split("\n")]
amounts, frames = {}, []
for line in early.read_text().splitlines():
    word, number, amount = line.split()
    _, time, side, _, digits = lines[int(number) - 1]
    key = int(digits[8:12], 16), side
    amounts.setdefault(key, []).append(int(amount))
    frames.append((-int(amount), int(number), *key, int(time)))
wanted = []
for (link, side), found in sorted(amounts.items()):
    found.sort()
    half = next(n for n in found if 2 * sum(m <= n for m in found) >= len(found))
    wanted.append({"link": link, "side": side, "count": len(found), "median": half,
                   "greatest": found[-1]})
report = json.loads((folder / "report.json").read_text())
if report["early_ns"] != wanted or not wanted:
    print(report["early_ns"], "wanted", wanted)
over = {row["link"]: row["reasons"]["over-rate"] for row in report["links"]
        if "over-rate" in row["reasons"]}
if over != {link: sum(len(a) for (l, _), a in amounts.items() if l == link) for link in over}:
    print("over-rate by links", over)
with open(folder / "early.csv", newline="") as file:
    if list(csv.DictReader(file)) != [{k: str(v) for k, v in row.items()} for row in wanted]:
        print("early.csv differs")
page = (folder / "report.html").read_text()


def rows(name):
    part = page.split(f'<section id="{name}"')[1].split("<tbody>")[1].split("</tbody>")[0]
    return [[re.sub("<[^>]*>", "", cell) for cell in re.findall(r"<t[hd][ >].*?</t[hd]>", row)]
            for row in part.split("</tr>") if row.strip()]


def us(ns):
    return f"{ns / 1000:,.3f}"


shown = [[str(row["link"]), row["side"], f"{row['count']:,}", us(row["median"]),
          us(row["greatest"])] for row in wanted]
if rows("early") != shown:
    print(rows("early"), "wanted", shown)
worst = [[str(link), side, f"{time:,}", str(line), us(-less)]
         for less, line, link, side, time in sorted(frames)[:20]]
if [row[:2] + row[3:] for row in rows("early-frames")] != worst:
    print(rows("early-frames"), "wanted", worst)
END_OF_FILE
}

early_tests() {
    launch tools/afdx-report examples/network.toml examples/bench.list --out "$work/early.bench"
    tell 'how much too early frames came' "$(
        is_status 0
        wants_number "$work/early.bench/report.json" \
            '[list(row.values()) for row in r["early_ns"]]' "[[703, 'A', 23, 3474325, 4024325]]"
        says out '703  A        23  3474325   4024325'
        for words in '>3,474.325<' '>4,024.325<' '>44</td><td class="number">4,024.325<'; do
            if ! grep -qF "$words" "$work/early.bench/report.html"; then echo "no $words"; fi
        done
        wants_early examples/network.toml examples/bench.list "$work/early.bench"
        "$python" tests/tools/html_tags.py "$work/early.bench/report.html"
        "$python" tests/tools/html_access.py "$work/early.bench/report.html"
    )"
    tell 'the same of several links and both sides' "$(
        wants_early examples/network.toml "$work/sample.list" "$work/sample"
    )"
    launch tools/afdx-report examples/base.toml examples/one_link.list --out "$work/early.one"
    tell 'one nanosecond too early' "$(
        wants_number "$work/early.one/report.json" '[*r["early_ns"][0].values()]' \
            "[1, 'A', 1, 1, 1]"
        wants_early examples/base.toml examples/one_link.list "$work/early.one"
    )"
    "$python" -c 'import sys
for number in range(20_000):
    print(f"F {1000 * number} A 1 {sys.argv[1]}")' "$(frame_of A 0)" >"$work/early.list"
    launch timeout 3600 tools/afdx-report examples/base.toml "$work/early.list" \
        --out "$work/early.many"
    tell 'more of them than a pipe holds' "$(
        is_status 0
        early_lines examples/base.toml "$work/early.list" | cut -d ' ' -f 3 | sort -n >"$work/early"
        wants_text "$(json_of "$work/early.many/report.json" \
            '" ".join(str(r["early_ns"][0][w]) for w in ("count", "median", "greatest"))')" \
            "$(awk '{a[NR] = $1} END {print NR, a[int((NR + 1) / 2)], a[NR]}' "$work/early")" \
            'count, median, greatest'
    )"
}

early_fault_tests() {
    printf 'F 0 A 1 %s\nF 5 A 1 %s\nF 4 A 1 00\n' "$(frame_of A 0)" "$(frame_of A 1)" \
        >"$work/early.list"
    launch tools/afdx-report examples/base.toml "$work/early.list" --json
    tell 'too early before a fault of the list' "$(
        is_status 3
        wants_text "$(<"$work/err")" 'afdx-report: list TimeBack 3' 'standard error'
        wants_text "$(early_lines examples/base.toml "$work/early.list")" \
            "early 2 $(json_of "$work/out" 'r["early_ns"][0]["greatest"]')
list TimeBack 3" 'the program'
    )"
    cat >"$work/killed" <<END_OF_FILE
#!/bin/bash
if [[ \$1 != replay ]]; then exec "$program" "\$@"; fi
printf 'V 2 A drop over-rate\n'
printf 'early 2 70\nearly 2 8' >&2
kill -9 \$\$
END_OF_FILE
    chmod +x "$work/killed"
    launch env AFDX="$work/killed" tools/afdx-report examples/base.toml "$work/early.list" --json
    tell 'a line of them that was cut' "$(
        is_status 137
        one_line
        says err 'ended by signal 9'
        wants_number "$work/out" '[*r["early_ns"][0].values()]' "[1, 'A', 1, 70, 70]"
    )"
}

part_tests() { # the program says nothing of lines that it couldn't write
    cat >"$work/full" <<END_OF_FILE
#!/bin/bash
if [[ \$1 != replay ]]; then exec "$program" "\$@"; fi
"$program" "\$@" 2>"$work/early" || exit
head -n -1 "$work/early" >&2
END_OF_FILE
    chmod +x "$work/full"
    launch env AFDX="$work/full" tools/afdx-report examples/network.toml examples/bench.list --json
    tell 'a part of them' "$(
        is_status 4
        one_line
        says err "22 lines 'early' came for 23 over-rate frames"
    )"
}

dated() { # FOLDER : its page and JSON without the date, and without the words that made it
    sed -E 's/(<code>|"written": ")[-0-9]+ [0-9:]+ UTC/\1/; s/"words": \[[^]]*\]//
        s/<code>afdx-report [^<]*/<code>/' "$1/report.html" "$1/report.json"
}

no_early_tests() { # against a program that says nothing of early frames
    cat >"$work/silent" <<END_OF_FILE
#!/bin/bash
exec "$program" "\${@/#--explain-drops/--line-buffered}"
END_OF_FILE
    chmod +x "$work/silent"
    tests/tools/sample_list.py examples/network.toml --ms 40 --sound >"$work/sound.list"
    launch env AFDX="$work/silent" tools/afdx-report examples/network.toml "$work/sound.list" \
        --out "$work/silent.sound"
    launch tools/afdx-report examples/network.toml "$work/sound.list" --out "$work/sound"
    tell 'no frame too early: page and JSON without the tables' "$(
        is_status 0
        same <(dated "$work/silent.sound") <(dated "$work/sound")
        if grep -q '\bearly' "$work/sound/report.html" "$work/sound/report.json" "$work/out"; then
            echo 'early is there'
        fi
        if [[ -e $work/sound/early.csv ]]; then echo 'early.csv is there'; fi
    )"
    launch env AFDX="$work/silent" tools/afdx-report examples/network.toml examples/bench.list \
        --out "$work/silent.bench"
    tell 'all else stands as it is without them' "$(
        same <(dated "$work/silent.bench") <(dated "$work/early.bench" |
            sed '/^"early_/d; s| <a href="#early">[^<]*</a>||' | "$python" -c '
import re, sys
page = re.sub(r"<section id=\"early.*?</section>", "", sys.stdin.read(), flags=re.S)
print(page, end="")')
    )"
}

early_compare_tests() {
    sed 's/^F 10150000 /F 10140000 /' examples/bench.list >"$work/early.list"
    launch tools/afdx-report examples/network.toml "$work/early.list" --out "$work/early.moved" \
        --compare "$work/early.bench/report.json"
    tell 'the greatest amount of two runs' "$(
        is_status 0
        wants_number "$work/early.moved/report.json" \
            '[[*x.values()] for x in r["compared"]["rows"] if x["table"] == "early_ns"]' \
            "[['early_ns', 'link 703 side A', 'greatest', 4024325, 4034325, 10000]]"
    )"
    launch tools/afdx-report examples/network.toml "$work/sound.list" --json \
        --compare "$work/early.bench/report.json"
    tell 'of a run with and one without' "$(
        is_status 0
        wants_number "$work/out" \
            '[[*x.values()] for x in r["compared"]["rows"] if x["table"] == "early_ns"]' \
            "[['early_ns', 'link 703 side A', 'greatest', 4024325, None, None]]"
    )"
}

if [[ -n $reporting ]]; then
    early_tests
    early_fault_tests
    part_tests
    no_early_tests
    early_compare_tests
else
    skip 'reports of early frames' "there is no program $program, or no numpy"
fi
