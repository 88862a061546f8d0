#!/usr/bin/env bash
# Tries a clone of this repository in a fresh Debian 12 that has git, xz-utils and python3 and no
# toolchain: the README's first command, as root and as a user, in a folder whose name has spaces.
#
#     tests/run/fresh_debian.sh [--quick] [ROOT]
#
# ROOT is the folder of such a system, by default a new one, which debootstrap makes and which is
# removed. With --quick the README's second command, bin/test --quick, is run there too. Skipped
# where debootstrap isn't installed, reaches no mirror or needs root, and where the release is of
# other sources. Prints a line for each case, then how many passed and failed; ends with status 1 if
# one failed.
set -uo pipefail

top=$(cd "$(dirname "$(readlink -f "$0")")/../.." && pwd)
# shellcheck source=tests/lib/cases.sh
source "$top/tests/lib/cases.sh"
quick=
if [[ ${1:-} == --quick ]]; then
    quick=yes
    shift
fi
room=$(mktemp -d "${TMPDIR:-/tmp}/afdx-debian.XXXXXX")
root=${1:-$room/debian}
folder='srv/a clone'

# shellcheck disable=SC2317  # the trap calls it
clean() {
    if mountpoint -q "$root/proc"; then umount "$root/proc"; fi
    rm -rf --one-file-system "$room" "${root:?}/$folder"
}
trap clean EXIT

end() {
    echo "$passed passed, $failed failed, $skipped skipped"
    [[ $failed -eq 0 ]]
    exit
}

why_not() { # says why there is no such system here
    [[ $EUID -eq 0 ]] || echo 'only root can change to it'
    [[ -d $root ]] || has debootstrap ||
        echo 'there is no debootstrap (apt-get install debootstrap)'
}

make_system() {
    [[ -d $root ]] || debootstrap --variant=minbase --include=git,xz-utils,python3 bookworm \
        "$root" >"$room/said" 2>&1
}

inside() { # USER COMMAND : in the clone; keeps streams, status and how long it took
    local began=$EPOCHREALTIME
    status=0
    chroot "$root" setpriv --reuid "$1" --regid "$1" --clear-groups env -i HOME=/nowhere \
        PATH=/usr/bin:/bin bash -c "cd '/$folder' && $2" >"$room/out" 2>"$room/err" || status=$?
    took=$(((${EPOCHREALTIME/./} - ${began/./}) / 1000))
}

# A fresh clone for this user.
clone() { # USER
    rm -rf "${root:?}/$folder"
    git clone -q --no-hardlinks "file://$top" "$root/$folder"
    rm -rf "$root/$folder/release"
    cp -r "$top/release" "$root/$folder"
    rm -rf "$root/$folder/release/out"
    chown -R "$1:$1" "$root/$folder"
}

first_verdict() { # NAME USER
    clone "$2"
    inside "$2" 'bin/afdx check examples/network.toml'
    tell "$1: a verdict" "$(
        [[ $status -eq 0 && $(tail -n 1 "$room/out") == ok ]] || cat "$room/out" "$room/err"
    )" "$took ms"
    tell "$1: one line says where it is from" "$(
        [[ $(wc -l <"$room/err") -eq 1 ]] || cat "$room/err"
        grep -q 'unpacked the program of release/' "$room/err" || echo 'no such line'
    )"
    inside "$2" 'bin/afdx check examples/network.toml'
    tell "$1: the second call says nothing of it" "$(cat "$room/err")" "$took ms"
}

why=$(why_not)
if [[ -n $why ]]; then
    skip 'a fresh Debian' "$why"
    end
fi
if [[ $(git -C "$top" status --porcelain -- crates crates.txt HANDLES bin) ]]; then
    skip 'a fresh Debian' 'files were changed and not committed'
    end
fi
checked=0
"$top/bin/release" --check >"$room/said" 2>&1 || checked=$?
if [[ $checked -ne 0 ]]; then
    skip 'a fresh Debian' "$(cat "$room/said")"
    end
fi
if ! make_system; then
    skip 'a fresh Debian' "debootstrap failed: $(tail -n 1 "$room/said")"
    end
fi
mountpoint -q "$root/proc" || mount -t proc proc "$root/proc"
first_verdict 'as root' 0
first_verdict 'as a user' 1000
if [[ -n $quick ]]; then
    inside 1000 'bin/test --quick'
    tell 'bin/test --quick' "$([[ $status -eq 0 ]] || grep -v '^ok' "$room/out")" "$took ms"
    grep '^bin/test:' "$room/out"
fi
end
