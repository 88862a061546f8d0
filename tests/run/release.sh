#!/usr/bin/env bash
# Tests bin/release, bin/prove and what bin/install takes, with an `rt` of its own that writes a
# program of a few lines in place of proving anything.
#
#     tests/run/release.sh
#
# Prints a line for each fault, then `N passed, M failed`; ends with status 1 if there is one.
set -uo pipefail

top=$(cd "$(dirname "$(readlink -f "$0")")/../.." && pwd)
room=$(mktemp -d)
trap 'rm -rf "$room"' EXIT
house="$room/a house"
shipped=$house/release/afdx-x86_64-linux
passed=0
failed=0

# An rt that builds the program from the sources, so that other sources give another one, and what
# differs from build to build where the file LUCK is there.
mkdir -p "$room/kit" "$house"
cat >"$room/kit/rt" <<'RT'
#!/usr/bin/env bash
case $1 in
    version) cat "$KIT"; exit ;;
    help) [[ -e $OLDER ]] || echo 'rt ci --anew'; exit ;;
    ci) { echo "$*"; ls crates; find . -name '*.edit'; } >"$CALLS"; cd crates/afdx || exit ;;
esac
[[ ! -e $BROKEN ]] || { echo 'one goal is open'; exit 1; }
[[ ! -e $EDITED ]] || echo '// edited' >>"$HOUSE/crates/low/src/lib.rt"
mkdir -p out
{
    printf '#!/bin/sh\necho "afdx 0.1.0 (logic x)"\n# %s\n' "$(tr '\n' ' ' <../low/src/lib.rt)"
    [[ ! -e $LUCK ]] || echo "# $$"
} >out/afdx
chmod +x out/afdx
RT
chmod +x "$room/kit/rt"
echo 'a kit of its own' >"$room/identity"
export KIT=$room/identity OLDER=$room/older HOUSE=$house
export CALLS=$room/calls BROKEN=$room/broken EDITED=$room/edited LUCK=$room/luck
export PATH=$room/kit:$PATH GIT_CONFIG_GLOBAL=/dev/null GIT_AUTHOR_NAME=a GIT_AUTHOR_EMAIL=a@b \
    GIT_COMMITTER_NAME=a GIT_COMMITTER_EMAIL=a@b
export XDG_CACHE_HOME=$room/cache
unset AFDX

for crate in afdx low tests; do
    mkdir -p "$house/crates/$crate/src" "$house/crates/$crate/must-fail"
    echo "// $crate" >"$house/crates/$crate/src/lib.rt"
    touch "$house/crates/$crate/must-fail/one.edit"
done
cp -r "$top/bin" "$house"
printf 'low: toml\ntests: afdx low\nafdx: low clap\n' >"$house/crates.txt"
echo 'Handles allowed: none.' >"$house/HANDLES"
echo out/ >"$house/.gitignore"
git -C "$house" init -q

commit() { git -C "$house" add -A && git -C "$house" commit -q -m one; }

call() { # SCRIPT WORD.. : keeps status and streams
    status=0
    "$house/bin/$1" "${@:2}" >"$room/out" 2>"$room/err" || status=$?
}

expect() { # NAME, TEST.. : passes where the test holds
    if "${@:2}"; then
        passed=$((passed + 1))
    else
        failed=$((failed + 1))
        printf 'FAILED: %s: status %s, said %s\n' "$1" "$status" "$(tr '\n' ';' <"$room/err")"
    fi
}

ends() { # STATUS PATTERN : with that on standard error
    [[ $status == "$1" && $(<"$room/err") =~ $2 ]]
}

build() { (cd "$house/crates/afdx" && rt run -- --version); }

commit
call release
expect 'there is no program to release' ends 1 'there is no program'
call release --check
expect 'where there is no release it says what to call' ends 3 'no release: .* call bin/release'
build
call release
expect 'a release is written' ends 0 'wrote .*release/afdx-x86_64-linux.xz'
call release --check
expect 'it is that of the program' ends 0 ''
commit
echo '// a test more' >>"$house/crates/tests/src/lib.rt"
commit
call release --check
expect 'a test that was edited is no other source' ends 0 ''
call afdx --version
expect 'bin/afdx takes no release where one is built' ends 0 ''
rm -r "$house/crates/afdx/out"
call install "$room/there"
expect 'bin/install takes the release' cmp -s "$room/there/bin/afdx" <(xz -dc "$shipped.xz")
cp "$shipped.xz" "$room/kept"
echo more >>"$shipped.xz"
rm -r "$house/release/out"
call install "$room/other"
expect 'bin/install refuses a release that was changed' ends 1 'cut or changed'
expect 'and installs nothing' [ ! -e "$room/other" ]
cp "$room/kept" "$shipped.xz"

call prove --jobs 3
expect 'what is proved is the release' ends 0 'proved and built'
expect 'prove says so, with both sums' grep -qE '^same [0-9a-f]{64} [0-9a-f]{64}$' "$room/out"
expect 'it proves what the program stands on, with no wrong bodies' \
    cmp -s "$CALLS" <(printf 'ci --anew\nafdx\nlow\n')
expect 'its program is the one that is run' test -x "$house/crates/afdx/out/afdx"
touch "$OLDER"
call prove
expect 'a kit without that word proves from nothing as it is' grep -qx ci "$CALLS"
rm "$OLDER"
call prove --jobs 0
expect 'no jobs are no number' [ "$status" = 2 ]
touch "$BROKEN"
call prove
expect 'what is not proved has status 1' ends 1 'not proved'
rm "$BROKEN"
touch "$EDITED"
call prove
expect 'an edit meanwhile is told' ends 1 'edited meanwhile'
rm "$EDITED"
call prove
expect 'other sources are told' ends 1 'the release is of other sources'
call release --check
expect 'a stale release is told, with what to call' ends 3 'of other sources: .* call bin/release'
cp -r "$house/release" "$room/stale"
echo more >>"$shipped.xz"
call release --check
expect 'one that was cut as well is wrong' ends 1 'cut or changed'
cp "$room/stale"/* "$house/release"
call release
expect 'files that were changed are refused' ends 1 'changed and not committed'
commit
touch "$LUCK"
call release
expect 'a build that differs is refused' ends 1 'a second build gives other bytes'
rm "$LUCK"
call release
expect 'the release is written anew' ends 0 'wrote'
call release --check
expect 'and is right again' ends 0 ''
echo 'another kit' >"$KIT"
call release --check
expect 'one of another kit is stale, and not wrong' ends 3 'of another kit, a kit of its own'
echo 'a kit of its own' >"$KIT"
mv "$house/crates/afdx/out" "$room/built"
call release --check
expect 'so it is where no program is built' ends 0 ''
mv "$room/built" "$house/crates/afdx/out"
sleep 0.01
touch "$house/crates/low/src/lib.rt"
call release
expect 'a program that is older is refused' ends 1 'the program is older than crates/low/src/lib.rt'
build
echo '# more' >>"$house/crates/afdx/out/afdx"
call release --check
expect 'another program is told' ends 1 "of the release 'program' is"
touch "$LUCK"
call prove
expect 'a proved program that differs is told' ends 1 "but the release's program is"

printf '%d passed, %d failed\n' "$passed" "$failed"
[[ $failed == 0 ]]
