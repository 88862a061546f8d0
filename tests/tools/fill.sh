# Tests of tools/afdx-fill; a part of tests/run/tools.sh.
# shellcheck shell=bash
# shellcheck disable=SC2154  # what it uses is set by tests/run/tools.sh, which sources it

fill() { # WORD.. : both streams go to files, the configuration to filled.toml
    rm -f "$work/filled.toml"
    launch tools/afdx-fill "$@" "$work/filled.toml"
}

without_values() { # FILE : without the numbers of the four keys
    sed -E "s/\b($solved_keys)( *= *)[0-9_]+/\1\2/g" "$1"
}

is_kept() { # FILE : filled.toml is the file with other numbers
    without_values "$1" >"$work/wanted"
    without_values "$work/filled.toml" >"$work/got"
    same "$work/wanted" "$work/got"
}

is_solved() { # FILE [OPTION..] : filled.toml says what `solve` writes of the file
    "$program" solve "${@:2}" "$1" >"$work/solved.toml" 2>"$work/needs"
    "$python" - "$work/solved.toml" "$work/filled.toml" 2>&1 <<'CODE'
import sys, tomllib
texts = (open(path, encoding="utf-8-sig", newline="").read() for path in sys.argv[1:])
one, other = map(tomllib.loads, texts)
if one != other | {key: rows for key, rows in one.items() if rows == []}:
    print("it has other tables than what solve writes")
CODE
    "$program" check "$work/filled.toml" 2>&1 | tail -n 1 | grep -vx ok
}

is_filled() { # FILE [OPTION..] : all is well with it, and nothing is reported
    is_status 0
    printf 'ok\n' >"$work/wanted"
    same "$work/wanted" "$work/out"
    head -n 3 "$work/err"
    is_solved "$@"
}

# ---- what is kept --------------------------------------------------------------------------

kept_tests() {
    local name layout file=$work/layout.toml
    for name in base network; do
        fill "examples/$name.toml"
        tell "$name.toml, filled, keeps its remarks and spaces" "$(
            is_filled "examples/$name.toml"
            is_kept "examples/$name.toml"
        )"
    done
    for layout in 's/$/\r/' '1s/^/\xef\xbb\xbf/' 's/ = / =  /' 's/= 1000 /= 1_000/' 's/^/\t/'; do
        sed "$layout" examples/base.toml >"$file"
        fill "$file"
        tell "base.toml by '$layout', filled" "$(is_filled "$file"; is_kept "$file")"
    done
    sed -E "/^($solved_keys) = /d" examples/base.toml >"$file"
    fill "$file"
    tell 'keys that are absent come behind the others' "$(
        is_filled "$file"
        grep -A 1 '^profile' "$work/filled.toml" | tail -n 1 | grep -vE '^buffer = [0-9]+$'
        grep -A 3 '^subs = 2' "$work/filled.toml" | tail -n 3 | cut -d ' ' -f 1 >"$work/got"
        tr '|' '\n' <<<"${solved_keys#buffer|}" >"$work/wanted"
        same "$work/wanted" "$work/got"
        grep -vE "^($solved_keys) = " "$work/filled.toml" >"$work/got"
        same "$file" "$work/got"
    )"
    sed -E "s/\b($solved_keys) = [0-9]+(, |\$)//" examples/network.toml >"$file"
    fill "$file"
    tell 'and so in rows of one line' "$(is_filled "$file")"
}

odd_layout_tests() {
    local file=$work/odd_layout.toml
    cat >"$file" <<'TOML'
  profile=0x1# { [ " '
[[ system ]]   # "name" = '
"name" = 's1'
port = 0b1
'id'=1
partition = +1
rate = 100
[["link"]] # jitter_us = 9
vl = 1
from = "s1"
bag_ms = 2
lmin = 64
lmax = 0xC8
"jitter_us" = 1_000 # us
priority = """high"""
policing = '''
byte'''
subs = 1
  to = [ # skew_us = 1, }
    "\u00732", # ]
  ]
[[system]]
name = "s2"
port = 2
id = 2
partition = 2
rate = 100
[[link]]
vl=2
from="s2"
to=["s1"]
bag_ms=2
lmin=64
lmax=100
jitter_us=0
priority="low"
policing="frame"
subs=1
skew_us=0x1
TOML
    truncate -s -1 "$file" # the last line has no end
    fill "$file"
    tell 'a layout as nobody writes it, and tables in several places' "$(
        is_filled "$file"
        sed -e '1a\  buffer = 227' -e 's/1_000/58/' -e 's/jitter_us=0$/jitter_us=50/' \
            -e '/^  \]$/a\  latency_us = 19\n  skew_us = 19' \
            -e 's/skew_us=0x1/skew_us=10\nlatency_us = 10/' "$file" >"$work/wanted"
        same "$work/wanted" "$work/filled.toml"
    )"
}

place_tests() {
    cp examples/network.toml "$work/own.toml"
    chmod 640 "$work/own.toml"
    fill examples/network.toml
    launch tools/afdx-fill "$work/own.toml" "$work/own.toml"
    tell 'a configuration is filled in its place, as open to others as it was' "$(
        is_status 0
        same "$work/filled.toml" "$work/own.toml"
        stat -c %a "$work/own.toml" | grep -vx 640
    )"
    launch tools/afdx-fill examples/network.toml -
    tell 'filled on standard output' "$(
        is_status 0
        same "$work/filled.toml" "$work/out"
        grep -vx ok "$work/err"
    )"
}

# ---- options, and what can't be filled -----------------------------------------------------

option_tests() {
    fill --raise-only examples/refused.toml
    tell 'what is raised only, and what is told of it' "$(
        is_status 0
        is_solved examples/refused.toml --raise-only
        is_kept examples/refused.toml
        sed 's/^/afdx-fill: /' "$work/needs" >"$work/wanted"
        same "$work/wanted" "$work/err"
        wc -l <"$work/err" | grep -vx 2
    )"
    fill --keep jitter,buffer examples/network.toml
    tell 'keys that are kept' "$(
        is_filled examples/network.toml --keep jitter,buffer
        grep -o 'buffer = [0-9]*' "$work/filled.toml" | grep -vx 'buffer = 16384'
    )"
}

is_left() { # STATUS LINE : this line, and no configuration
    is_status "$1"
    printf 'afdx-fill: %s\n' "$2" >"$work/wanted"
    same "$work/wanted" "$work/err"
    if [[ -s $work/out || -e $work/filled.toml ]]; then echo 'there is a configuration'; fi
}

left_tests() {
    local file=$work/left.toml
    fill --keep latency examples/refused.toml
    tell 'no values are enough' "$(is_left 1 'no A3 7 104 267674')"
    sed '0,/^lmax = 64/s//lmax = 63/' examples/base.toml >"$file"
    fill "$file"
    tell 'a configuration with a fault' "$(is_left 1 'config OutOfRange link 1 key 6')"
    sed 's/^latency_us/"latency\\u005fus"/' examples/base.toml >"$file"
    fill "$file"
    tell "a layout that can't be kept" "$(
        is_left 2 "this layout can't be kept; \`afdx solve\` writes one of its own"
    )"
    fill "$work/nowhere.toml"
    tell 'no configuration to fill' "$(is_left 4 "$work/nowhere.toml: No such file or directory")"
    fill --keep all examples/base.toml
    tell 'a key to keep that is none' "$(is_status 2; wc -l <"$work/err" | grep -vx 1)"
}

if [[ -z $built ]]; then
    skip 'afdx-fill' "there is no program $program"
elif ! "$program" solve --help >/dev/null 2>&1; then
    skip 'afdx-fill' 'the program has no command solve'
else
    kept_tests
    odd_layout_tests
    place_tests
    option_tests
    left_tests
fi
