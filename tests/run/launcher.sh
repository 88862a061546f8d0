#!/usr/bin/env bash
# Tests bin/afdx, which has the program from a build or from the release and starts it, with an `rt`
# of its own that writes a program of one line in place of proving anything, and releases of such.
#
#     tests/run/launcher.sh
#
# Prints a line for each fault, then `N passed, M failed`; ends with status 1 if there is one.
set -uo pipefail

top=$(cd "$(dirname "$(readlink -f "$0")")/../.." && pwd)
room=$(mktemp -d)
trap 'rm -rf "$room"' EXIT
passed=0
failed=0

mkdir -p "$room/house/bin" "$room/kit" "$room/machine" "$room/nobody"
for crate in afdx low tests; do
    mkdir -p "$room/house/crates/$crate/src"
    touch "$room/house/crates/$crate/src/lib.rt"
done
sed 's/^APART=30 /APART=1 /; s/^LOOK=10 /LOOK=0.2 /' "$top/bin/afdx" >"$room/house/bin/afdx"
chmod +x "$room/house/bin/afdx"
cp -r "$top/bin/lib" "$room/house/bin"
echo 'Handles allowed: none.' >"$room/house/HANDLES"
# The machine that the release is for, whatever this one is.
printf '#!/bin/sh\necho Linux x86_64\n' >"$room/machine/uname"
printf '#!/bin/sh\necho glibc 2.36\n' >"$room/machine/getconf"
chmod +x "$room"/machine/*
printf 'low: toml\ntests: afdx low\nafdx: low clap\n' >"$room/house/crates.txt"
# An rt that says what one says. Where the file SLOW is there it works, and then waits, until the
# launcher has said what it says meanwhile, up to ten minutes each. Where TAKEN is there it waits
# for another checkout, and takes over what that built.
cat >"$room/kit/rt" <<'RT'
#!/usr/bin/env bash
until_said() { # LINE : a pattern
    for ((k = 0; k < 6000; k++)); do
        ! grep -q "$1" "$SAID" || break
        sleep 0.1
    done
}
echo "$(basename "$PWD"): $1" >>"$CALLS"
[[ ! -e $BROKEN ]] || { echo 'one goal is open'; exit 1; }
if [[ -e $TAKEN ]]; then
    printf 'rt: low: another copy of the repository is building this library; %s\n' \
        'waiting for it, at most half an hour, to use its work' >&2
    until_said "$WAITS"
    echo 'rt: chose --jobs 2 for afdx'
    until_said "$TAKES"
    echo 'crate afdx: modules loaded=1 checked=1'
    exit 0
fi
echo 'rt: chose --jobs 2 for low'
echo 'so far: 0 of 2 functions checked; the verdict comes last'
if [[ -e $SLOW ]]; then
    timeout 600 sha256sum /dev/zero &
    until_said "$STANDS"
    kill $!
    wait
fi
echo 'crate low: modules loaded=1 checked=1'
[[ ! -e $SLOW ]] || until_said "$BETWEEN"
echo 'rt: chose --jobs 2 for afdx'
echo 'crate afdx: modules loaded=1 checked=1'
mkdir -p out
printf '#!/bin/sh\necho "ran $*"\nexit 3\n' >out/afdx
chmod +x out/afdx
RT
chmod +x "$room/kit/rt"
export CALLS=$room/calls BROKEN=$room/broken SLOW=$room/slow TAKEN=$room/taken SAID=$room/err
works='[1-9][0-9]*' # without the package procps nobody can say how much
command -v ps >/dev/null || works=0
STANDS='^afdx: 0 of 2 crates checked, after [1-9][0-9]* s; now low for [1-9][0-9]* s '
STANDS+="($works s of processor): 0 of 2 functions checked; in a large crate that stands"
BETWEEN='^afdx: 1 of 2 crates checked, after [1-9][0-9]* s$'
WAITS='^afdx: 0 of 2 crates checked, after [1-9][0-9]* s; waiting for low, which another copy of '
WAITS+='the repository builds, for [1-9][0-9]* s$'
TAKES='^afdx: 1 of 2 crates checked, after [1-9][0-9]* s; now afdx for '
export STANDS BETWEEN WAITS TAKES

export XDG_CACHE_HOME=$room/cache
path=$room/kit:$room/machine:$PATH
as=() # what runs it as somebody else

launch() { # WORD.. : runs the launcher, and keeps its status, streams, and what it called
    : >"$CALLS"
    PATH=$path "${as[@]}" "$room/house/bin/afdx" "$@" >"$room/out" 2>"$room/err"
    status=$?
}

expect() { # NAME, TEST.. : passes where the test holds
    local name=$1
    shift
    if "$@"; then
        passed=$((passed + 1))
    else
        failed=$((failed + 1))
        printf 'FAILED: %s: status %s, called %s, said %s\n' "$name" "$status" \
            "$(tr '\n' ';' <"$CALLS")" "$(tr '\n' ';' <"$room/err")"
    fi
}

called() { [[ $(tr '\n' ';' <"$CALLS") == "$1" ]]; }

# A function that is written a second time silently takes the place of the first.
written_once() {
    [[ -z $(sed -n 's/^\(\w*\)() {.*/\1/p' "$top/bin/afdx" "$top/bin/lib/program.sh" |
        sort | uniq -d) ]]
}

once='afdx: run;'

launch police --help
expect 'the first call proves what the program stands on, and builds' called "$once"
expect 'it ends as the program does' [ "$status" = 3 ]
expect 'standard output is the program'"'"'s alone' cmp -s "$room/out" <(echo 'ran police --help')
expect 'it says how far it is' grep -q '^afdx: checked low: 1 of 2, after' "$room/err"
expect 'and when all is checked' grep -q '^afdx: now the program is compiled,' "$room/err"
launch check
expect 'the second call builds nothing' called ''
expect 'and says nothing' [ ! -s "$room/err" ]
sleep 0.01
touch "$room/house/crates/low/src/lib.rt"
launch check
expect 'after an edit it builds again' called "$once"
rm "$room/house/crates/low/src/lib.rt"
launch check
expect 'after a file was deleted it builds again' called "$once"
touch "$room/house/crates/low/src/lib.rt" "$BROKEN"
launch check
expect 'where a crate is not proved the status is 70' [ "$status" = 70 ]
expect 'nothing is started' [ ! -s "$room/out" ]
expect 'what rt said is told' grep -q 'one goal is open' "$room/err"
rm "$BROKEN"
touch "$SLOW"
launch check
expect 'it is built once that is mended' [ "$status" = 3 ]
expect 'where a crate takes long it says which, how far it is, and how much work it was' \
    grep -q "$STANDS" "$room/err"
expect 'between two crates it says how many are checked' grep -q "$BETWEEN" "$room/err"
rm "$SLOW"
touch "$TAKEN"
sleep 0.01
touch "$room/house/crates/low/src/lib.rt"
launch check
expect 'where another checkout builds a crate it says for which it waits' \
    grep -q "$WAITS" "$room/err"
expect 'what it took over from there counts as checked' grep -q "$TAKES" "$room/err"
expect 'it is run then' [ "$status" = 3 ]
rm "$TAKEN"
expect 'each function of the launcher is written once' written_once

# ---- the release ---------------------------------------------------------------------------

house=$room/house
shipped=$house/release/afdx-x86_64-linux
printf '#!/bin/sh\necho "shipped $*"\nexit 4\n' >"$room/ships"

of_house() { # FUNCTION : of bin/lib/program.sh, over the house
    # shellcheck source=bin/lib/program.sh
    (top=$house && source "$house/bin/lib/program.sh" && "$@")
}

ship() { # a release of the sources as they are, in a house where nothing was built or unpacked
    rm -rf "$house/release" "$house/crates/afdx/out"
    mkdir -p "$house/release"
    xz -9e -c <"$room/ships" >"$shipped.xz"
    printf 'version %s\nprogram %s\nbytes %s\nsources %s\nkit %s\n' 0.1.0 \
        "$(sha256sum <"$room/ships" | cut -d ' ' -f 1)" "$(stat -c %s "$room/ships")" \
        "$(of_house sum_of_sources)" 'a kit' >"$shipped.txt"
}

left() { find "$1" -type f -printf '%f\n' 2>/dev/null | LC_ALL=C sort | tr '\n' ';'; } # FOLDER
left_whole() { [[ $(left "$1") == 'afdx;afdx.sources;' ]]; } # FOLDER
left_nothing() { [[ -z $(left "$house/release/out") ]]; }
is_shipped() { [[ $status == 4 && $(<"$room/out") == 'shipped check' ]]; }
said_lines() { [[ $(wc -l <"$room/err") == "$1" ]]; }

refused() { # NAME PATTERN : status 70, with such a line, and nothing run, built or left
    launch check
    expect "$1: the status is 70" [ "$status" = 70 ]
    expect "$1: nothing is started or built" test ! -s "$room/out" -a ! -s "$CALLS"
    expect "$1: a line says so" grep -q -- "$2" "$room/err"
    expect "$1: nothing is left" left_nothing
}

without_rt=$room/machine:${PATH//\/usr\/local\/bin:/}
ship
path=$without_rt
launch check
expect 'a release of these sources is run, without rt' is_shipped
expect 'it says so in one line' said_lines 1
expect 'it is unpacked as a whole' left_whole "$house/release/out"
launch check
expect 'the second time it says nothing' said_lines 0
expect 'and runs the same' is_shipped
touch "$house/crates/low/src/lib.rt"
launch check
expect 'a file that was touched is no other source' is_shipped
echo '// more' >>"$house/crates/tests/src/lib.rt"
echo 'more_tests: afdx' >>"$house/crates.txt"
launch check
expect 'nor is a test more' is_shipped
path=$room/kit:$room/machine:$PATH
echo '// edited' >>"$house/crates/low/src/lib.rt"
launch check
expect 'after an edit it is built' called "$once"
expect 'it says why' grep -q 'the sources are not those of the release' "$room/err"
rm -rf "$house/crates/afdx/out"
path=$without_rt
launch check
expect 'a stale release is not run, without rt either' test "$status" = 70 -a ! -s "$room/out"
expect 'it says why there, too' grep -q 'no command rt .* the sources are not those' "$room/err"
ship
echo 'Handles allowed: Net.' >"$house/HANDLES"
launch check
expect 'other handles are other sources' [ "$status" = 70 ]
echo 'Handles allowed: none.' >"$house/HANDLES"

ship
head -c 60 "$shipped.xz" >"$room/cut" && cp "$room/cut" "$shipped.xz"
refused 'a release that is cut' 'afdx-x86_64-linux.xz is cut or changed'
ship
: >"$shipped.xz"
refused 'an empty release' 'afdx-x86_64-linux.xz is cut or changed'
ship
sed 's/shipped/changed/' "$room/ships" | xz -9e >"$shipped.xz"
refused 'a release of another program' 'afdx-x86_64-linux.xz is cut or changed'
ship
{ cat "$room/ships" && head -c 100000000 /dev/zero; } | xz -1 >"$shipped.xz"
refused 'a release that unpacks to more' 'afdx-x86_64-linux.xz is cut or changed'
ship
rm "$shipped.xz"
refused 'a text alone' 'afdx-x86_64-linux.xz is cut or changed'
for lines in 0 1 4; do
    ship
    head -n "$lines" "$shipped.txt" >"$room/cut" && cp "$room/cut" "$shipped.txt"
    refused "a text of $lines lines" 'afdx-x86_64-linux.txt is cut or changed'
done
ship
sed -i 's/^program ./program x/' "$shipped.txt"
refused 'a text that was changed' 'afdx-x86_64-linux.txt is cut or changed'

# A path with these commands and no other, but for those that are given.
bare() { # COMMAND..
    local name
    rm -rf "$room/bare" && mkdir "$room/bare"
    for name in bash env dirname readlink find sort cmp sed tr sha256sum cut xargs head mktemp \
        chmod touch mv rm mkdir awk cat sh "$@"; do
        ln -s "$(PATH=/usr/bin:/bin command -v "$name")" "$room/bare/$name"
    done
    path=$room/machine:$room/bare
}
ship
bare
refused 'neither xz nor python3' 'neither xz nor python3 .* apt-get install xz-utils'
bare python3
launch check
expect 'python3 serves in the place of xz' is_shipped
path=$without_rt

ship
printf '#!/bin/sh\necho glibc 2.31\n' >"$room/machine/getconf"
launch check
expect 'an older glibc runs no release' grep -q '2.34 or later, and this is glibc 2.31' "$room/err"
printf '#!/bin/sh\necho glibc 2.36\n' >"$room/machine/getconf"
printf '#!/bin/sh\necho Linux aarch64\n' >"$room/machine/uname"
launch check
expect 'nor does another machine' grep -q 'x86_64, and this is Linux aarch64' "$room/err"
printf '#!/bin/sh\necho Linux x86_64\n' >"$room/machine/uname"

ship
at_once=()
for ((k = 0; k < 12; k++)); do
    {
        PATH=$path "$house/bin/afdx" check >"$room/out.$k" 2>"$room/err.$k"
        echo "$?" >>"$room/out.$k"
    } &
    at_once+=("$!")
done
wait "${at_once[@]}"
answers=$(sort "$room"/out.* | uniq -c | xargs)
expect 'twelve at once all run it' [ "$answers" = '12 4 12 shipped check' ]
expect 'and leave it whole' left_whole "$house/release/out"

# A checkout that can't be written: as nobody, where this runs as root.
ship
if [[ $EUID -eq 0 ]] && command -v setpriv >/dev/null; then
    chmod 755 "$room" && chown 65534 "$room/nobody"
    as=(setpriv --reuid 65534 --regid 65534 --clear-groups)
else
    chmod -R a-w "$house"
fi
as=(env -u XDG_CACHE_HOME "HOME=$room/nobody" "${as[@]}")
cached=$room/nobody/.cache/afdx/$(of_house told program)
launch check
expect 'in a checkout that is read alone it lies in the cache' is_shipped
expect 'there it is whole' left_whole "$cached"
launch check
expect 'the second time it says nothing there' said_lines 0
echo 'echo more' >>"$cached/afdx"
launch check
expect 'a cached program that was changed is not run' is_shipped
rm -rf "$room/nobody/.cache"
chmod a-w "$room/nobody"
as=("${as[@]/#HOME=*/HOME=/nowhere}")
launch check
expect 'with no folder for it the status is 70' test "$status" = 70 -a ! -s "$room/out"
expect 'and it says what to set' grep -q 'takes a program: set XDG_CACHE_HOME' "$room/err"
chmod -R u+w "$house" "$room/nobody"

printf '%d passed, %d failed\n' "$passed" "$failed"
[[ $failed == 0 ]]
