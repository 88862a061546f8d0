# Tests of a report's page: for ears, on paper, in a browser; a part of tests/run/tools.sh.
# shellcheck shell=bash
# shellcheck disable=SC2154  # what it uses is set by tests/run/tools.sh, which sources it

parts_tests() { # of the sample of counted_tests
    launch tools/afdx-report examples/network.toml "$work/sample.list" --link 501 --link 101 \
        --link 9 --out "$work/timelines"
    tell 'time lines of several links' "$(
        is_status 0
        for words in 'Time line of link 501' 'Time line of link 101' 'It has no frames there'; do
            if ! grep -q "$words" "$work/timelines/report.html"; then echo "no '$words'"; fi
        done
        "$python" tests/tools/html_tags.py "$work/timelines/report.html"
    )"
    tell 'captions, heads, labels, anchors and colours' "$(
        "$python" tests/tools/html_access.py "$work/timelines/report.html"
        "$python" tests/tools/html_access.py "$work/late/report.html"
    )"
    tell 'of too many rows a page has those with the greatest share' "$(
        cd tools && "$python" -B -c '
from afdx_tools.report.parts import table
rows = [{"link": n, "share": n / 20_000} for n in range(10_001)]
page = table(rows, "Links")
for words in ("the 10,000 with the greatest share of 10,001 rows", ">10000<", ">1<"):
    if words not in page:
        print("no", words)
if page.count("<tr") != 10_001 or ">0</th>" in page:
    print("the least is there")'
    )"
    tell 'no latency is called seen' "$(
        grep -niE '\bseen\b' "$work/timelines/report.html" "$work/timelines"/*.csv README.md \
            docs/TOOLS.md | head -n 3
    )"
}

paper_test() {
    launch chromium --headless --no-sandbox --disable-gpu --no-pdf-header-footer \
        --print-to-pdf="$work/page.pdf" "file://$work/timelines/report.html"
    pdftotext -layout "$work/page.pdf" "$work/page.txt"
    tell 'on paper all rows stand, and all columns' "$(
        for name in links latency sides ports; do
            last=$(tail -n 1 "$work/timelines/$name.csv" | cut -d , -f 1)
            if ! grep -qE "(^|  ) *$last " "$work/page.txt"; then echo "no row $last of $name"; fi
        done
        for words in 'share +late$' 'table jitter|jitter +ns$' 'bound +buffer$' 'of configured$'; do
            if ! grep -qE "$words" "$work/page.txt"; then echo "no '$words'"; fi
        done
        pdftotext -f 1 -l 1 -layout "$work/page.pdf" "$work/first.txt"
        if [[ $(grep -c '[a-z]' "$work/first.txt") -lt 30 ]]; then echo 'page 1 is nearly empty'; fi
        if [[ $(grep -c 'of configured$' "$work/page.txt") -lt 10 ]]; then echo 'no latencies'; fi
    )"
}

with_script() { # PAGE SCRIPT : a page with another script too
    sed "s|</body>|<script>$2</script></body>|" "$1"
}

without_policy() { # a page that any script may run in
    sed 's|<meta http-equiv[^>]*>||'
}

find_on_page() { # WORDS FILTER : types words into the search field of a page that a filter wrote
    local typed="const field = document.getElementById(\"find\"); field.value = \"$1\";"
    typed+='field.dispatchEvent(new Event("input"))'
    with_script "$work/timelines/report.html" "$typed" | "$2" >"$work/find.html"
    launch chromium --headless --no-sandbox --disable-gpu --virtual-time-budget=3000 --dump-dom \
        "file://$work/find.html"
}

policy_test() {
    find_on_page 501 cat
    tell 'a page runs its own script, and no other' "$(
        if ! grep -q '<p class="find">' "$work/out"; then echo 'no field is shown'; fi
        grep -oE 'id="found"[^>]*>[^<]*rows' "$work/out"
    )"
}

found_rows() { # WORDS : what the page says of them in its search field
    find_on_page "$1" without_policy
    grep -oE 'id="found"[^>]*>[^<]*' "$work/out" | grep -oE '[0-9]+ rows'
}

find_tests() {
    local rows port
    rows=$(cat "$work/timelines"/{dropped,links,latency,frames,sides,skews,troubles}.csv |
        grep -c '^501,')
    tell 'the search field finds the rows of a link' "$(
        wants_text "$(found_rows 501)" "$rows rows" 'found'
    )"
    port=$(awk -F , '$3 == "wrong-port" {print $5; exit}' "$work/timelines/dropped.csv")
    rows=$({
        cut -d , -f 1,3,5 "$work/timelines/dropped.csv"
        cut -d , -f 1,7,8 "$work/timelines/troubles.csv"
    } | awk -F , -v port="$port" '$2 == "wrong-port" && ($3 == port || $1 == port)' | wc -l)
    tell 'and those of a wrong port' "$(
        if [[ $rows -eq 0 ]]; then echo 'there are none'; fi
        wants_text "$(found_rows "wrong-port $port")" "$rows rows" 'found'
    )"
}

narrow_test() { # a copy is late, and it is said within 400 pixels
    local script='document.documentElement.style.width = "400px";'
    script+='const all = [...document.querySelectorAll("svg text, tbody th b, li")];'
    script+='const late = all.filter(one => one.textContent.includes("LATE"));'
    script+='const seen = late.filter(one => one.getBoundingClientRect().right <= 400);'
    script+='document.title = "in sight: " + seen.map(one => one.tagName).join(" ")'
    with_script "$work/late/report.html" "$script" | without_policy >"$work/narrow.html"
    launch chromium --headless --no-sandbox --disable-gpu --dump-dom "file://$work/narrow.html"
    tell 'LATE is in sight at 400 pixels: in the head, the picture and the tables' "$(
        wants_text "$(grep -oE 'in sight: [A-Za-z ]+' "$work/out" | head -n 1)" \
            'in sight: LI text B B B B B' 'LATE'
    )"
}

picture_tests() { # of the README's picture, and of bin/picture where another page was pictured
    launch bin/picture --check "$program"
    tell "the README's picture is one of today's page" "$(is_status 0; cat "$work/out")"
    mkdir -p "$work/house/docs"
    cp -r bin tools examples tests "$work/house"
    sed 's/ findings$/ finding/' docs/report.txt >"$work/house/docs/report.txt"
    launch "$work/house/bin/picture" --check "$program"
    tell 'a picture of another page is found' "$(
        is_status 1
        says out 'docs/report.png is a picture of another page'
        says out '-9 finding'
    )"
}

if [[ -n $reporting ]]; then
    parts_tests
    picture_tests
    if has chromium && has pdftotext; then
        paper_test
        policy_test
        find_tests
        narrow_test
    else
        skip 'the page on paper' 'there is no chromium, or no pdftotext (poppler-utils)'
    fi
else
    skip 'pages' "there is no program $program, or no numpy"
fi
