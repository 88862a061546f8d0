# Sourced by the scripts of bin/, with `top` set: what the program is made of, and the release of it
# that stands in the repository (release/, which bin/release writes).
# shellcheck shell=bash

# shellcheck disable=SC2154  # who sources it sets `top`
crate=$top/crates/afdx
program=$crate/out/afdx # the program that was built here
release=$top/release/afdx-x86_64-linux # .xz is the program, .txt says what it is
unpacked=$top/release/out/afdx
found= # the program that is to be run
why=   # why there is none, or why the release doesn't serve

# The lines of crates.txt of these crates and of all that they stand on; those of tests and
# benchmarks are others.
listed() { # NAME..
    awk -F '[: ]+' -v names="$*" '
        /^[a-z]/ { line[$1] = $0; name = $1; $1 = ""; below[name] = $0 }
        function visit(name, words, i) {
            if (!(name in below) || name in seen) return
            seen[name] = 1
            print line[name]
            for (i = split(below[name], words, " "); i > 0; i--) visit(words[i])
        }
        END { for (k = split(names, given, " "); k > 0; k--) visit(given[k]) }' "$top/crates.txt"
}

stands_on() { listed "$@" | sed 's/[: ].*//'; } # NAME.. : the names alone

# The names of all source files that the program is made of, or with -newer FILE those that are
# newer. Crates of tests and benchmarks have none.
sources() {
    local below
    mapfile -t below < <(stands_on afdx)
    (cd "$top" && find "${below[@]/#/crates/}" -name out -prune -o -type f \
        \( -name '*.rt' -o -name '*.antt' \) "$@" -print | LC_ALL=C sort)
}

# Is this program there, and no source file newer, new or deleted? Beside it lie the names of the
# files that it was built from.
is_current() { # PROGRAM
    [[ -x $1 && -f $1.sources && ! $top/HANDLES -nt $1 && ! $top/crates.txt -nt $1 ]] || return 1
    [[ -z $(sources -newer "$1") ]] && sources | cmp -s - "$1.sources"
}

sum() { sha256sum | cut -d ' ' -f 1; } # of standard input

# One SHA-256 over names and bytes of all sources, their lines of crates.txt, and the handles that
# they may have.
sum_of_sources() {
    {
        listed afdx | LC_ALL=C sort
        (cd "$top" && { sources && echo HANDLES; } | xargs -d '\n' sha256sum)
    } | sum
}

# ---- the release ---------------------------------------------------------------------------

told() { # WORD : what the release's text says of it
    sed -n "s/^$1 //p" "$release.txt"
}

# Is the text whole? One that was cut or changed says nothing.
text_is_whole() {
    local sum='[0-9a-f]{64}' lines
    lines="version [^"$'\n'"]+ program $sum bytes [1-9][0-9]{0,8} sources $sum kit [^"$'\n'"]+"
    [[ $(tr '\n' ' ' <"$release.txt" && echo .) =~ ^$lines' .'$ ]]
}

# The program runs where glibc is as new as the one that it was linked with; on others it is built.
runs_here() {
    local libc
    if [[ $(uname -sm) != 'Linux x86_64' ]]; then
        why="the release is for Linux on x86_64, and this is $(uname -sm)"
        return 1
    fi
    libc=$(getconf GNU_LIBC_VERSION 2>/dev/null) || libc=
    if ! printf '%s\n' 2.34 "${libc#glibc }" | sort -C -V; then
        why="the release needs glibc 2.34 or later, and this is ${libc:-another C library}"
        return 1
    fi
}

# Standard input, unpacked; never more than a byte above what the text says, whatever came in.
plain() {
    if command -v xz >/dev/null; then
        xz -d -c 2>/dev/null
    else
        python3 -c 'import lzma, shutil, sys
shutil.copyfileobj(lzma.open(sys.stdin.buffer), sys.stdout.buffer)' 2>/dev/null
    fi | head -c $(($(told bytes) + 1))
}

# Is the release that of these very sources, for this machine? Else `why` says what it is not. One
# that is but was cut or changed is no reason to build: `fail`, which who sources this has, ends.
release_fits() {
    if [[ ! -e $release.txt && ! -e $release.xz ]]; then
        why='there is no release in release/'
        return 1
    fi
    runs_here || return 1
    text_is_whole 2>/dev/null || fail "$release.txt is cut or changed: git checkout HEAD -- release"
    if [[ $(sum_of_sources) != "$(told sources)" ]]; then
        why='the sources are not those of the release'
        return 1
    fi
}

release_is_whole() {
    local is
    command -v xz >/dev/null || command -v python3 >/dev/null ||
        fail 'neither xz nor python3 is here to unpack the program: apt-get install xz-utils'
    if ! is=$(plain 2>/dev/null <"$release.xz" | sum) || [[ $is != "$(told program)" ]]; then
        fail "$release.xz is cut or changed: git checkout HEAD -- release"
    fi
}

is_the_release() { # FILE : it is just what the text says
    [[ -x $1 && $(sum <"$1") == "$(told program)" ]]
}

# Unpacks it into a folder, under a name of its own, and gives it its name when it is whole: who
# calls at the same time sees a whole program or none. Fails where the folder takes no program (it
# can't be written, say, or nothing may be run there).
unpack_into() { # FOLDER SECONDS : when the sources were looked at; an edit since is newer
    local own well=no
    mkdir -p "$1" 2>/dev/null && own=$(mktemp "$1/.afdx.XXXXXX" 2>/dev/null) || return 1
    if { plain <"$release.xz" >"$own" && chmod 755 "$own"; } 2>/dev/null &&
        is_the_release "$own" && touch -d "@$2" "$own" && sources >"$own.sources" &&
        mv -f "$own" "$1/afdx" && mv -f "$own.sources" "$1/afdx.sources"; then
        well=yes
    fi
    rm -f "$own" "$own.sources"
    [[ $well == yes ]]
}

# Sets `found` to the program of the release, unpacked before or now, or `why` to why it is none. In
# a checkout that takes no program it lies in the user's cache, by its own checksum; there each call
# looks at the sources again.
take_release() {
    local looked=$EPOCHREALTIME folder cache=${XDG_CACHE_HOME:-~/.cache}/afdx
    found=$unpacked
    if is_current "$found"; then return; fi
    found=
    release_fits || return 1
    found=$cache/$(told program)/afdx
    if [[ ! -w $top/release ]] && is_the_release "$found"; then return; fi
    release_is_whole
    for folder in "${unpacked%/*}" "$cache/$(told program)"; do
        found=$folder/afdx
        if [[ $found != "$unpacked" ]] && is_the_release "$found"; then return; fi
        if unpack_into "$folder" "$looked"; then
            say "unpacked the program of release/, version $(told version), which these sources" \
                'make; bin/prove proves it again'
            return
        fi
    done
    fail "neither $top/release/out nor $cache takes a program: set XDG_CACHE_HOME"
}

# Sets `found` to the program that was built here, where it is one of these sources, else to that of
# the release; else `why` says why that isn't.
find_program() {
    found=$program
    is_current "$found" || take_release
}

# The same for who installs: AFDX may name another, and nothing is built.
chosen_program() {
    if [[ -n ${AFDX:-} ]]; then
        found=$AFDX
        [[ -x $found ]] || fail "there is no program $found"
    elif ! find_program; then
        fail "no program of these sources is built, and $why; bin/afdx --version builds one"
    fi
}
