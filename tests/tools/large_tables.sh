# Tests of afdx-icd and afdx-taps with tables as long as they may be: the time that the processor
# takes grows with them, and no faster; a part of tests/run/tools.sh.
# shellcheck shell=bash
# shellcheck disable=SC2154  # what it uses is set by tests/run/tools.sh, which sources it

large=$work/large

write_large() { # KIND ROWS FOLDER
    mkdir -p "$3"
    "$python" tests/tools/large_tables.py "$1" "$2" "$3"
}

milliseconds_of() { # WORD.. : the processor's time that a command takes
    local TIMEFORMAT=%3U
    { time "$@" >"$work/out" 2>"$work/err" </dev/null; } 2>"$work/time"
    tr -d . <"$work/time" | sed 's/^0*\(.\)/\1/'
}

least_of() { # MILLISECONDS COMMAND.. : that, or the processor's time of the command if it is less
    local now
    now=$(milliseconds_of "${@:2}")
    echo $((now < $1 ? now : $1))
}

# What is wrong if a command's time grows faster than its table. FOLDER/1, FOLDER/2 and FOLDER/4
# have one of a length, and of twice and of four times that. Of some tries the least time counts,
# and 300 ms of a usual machine are left to chance: what grows as the square takes seconds more
# there at these lengths.
grows() { # FOLDER COMMAND..
    local tries part least=([1]=999999 [2]=999999 [4]=999999)
    for tries in {1..9}; do
        for part in 1 2 4; do
            least[part]=$(least_of "${least[part]}" env -C "$1/$part" "${@:2}")
        done
        if [[ $((least[4] - least[2])) -le $((3 * (least[2] - least[1]) + 300 * slowness)) ]]; then
            return
        fi
    done
    echo "${least[1]}, ${least[2]} and ${least[4]} ms, after $tries tries"
}

# What is wrong if a command takes more than twice as long in a folder as in another one.
twice() { # FOLDER OTHER COMMAND..
    local tries one=999999 other=999999
    for tries in {1..9}; do
        one=$(least_of "$one" env -C "$1" "${@:3}")
        other=$(least_of "$other" env -C "$2" "${@:3}")
        if [[ $one -le $((2 * other)) ]]; then return; fi
    done
    echo "$one ms, and $other, after $tries tries"
}

write_sizes() { # KIND ROWS : so many, twice and four times as many
    local part
    for part in 1 2 4; do write_large "$1" $((part * $2)) "$large/$1/$part"; done
}

cable_growth_tests() {
    local icd=("$top/tools/afdx-icd" --cables cables.csv systems.csv messages.csv made.toml)
    write_large chain 2000 "$large/chain"
    launch_within 20 env -C "$large/chain" "${icd[@]}"
    tell '2,000 switches in a row are one line' "$(
        is_status 2
        text_is err "afdx-icd: cables.csv line 25, s23: second switch s24: a side has 24 switches \
at most
"
    )"
    write_sizes doubled 2500
    tell '10,000 cables between 24 switches' "$(grows "$large/doubled" "${icd[@]}")"
}

message_growth_tests() {
    local icd=("$top/tools/afdx-icd" systems.csv messages.csv made.toml)
    write_sizes odd 2400
    write_sizes unsent 2400
    tell '9,600 messages of odd periods on a link' "$(grows "$large/odd" "${icd[@]}")"
    tell '9,600 rows of a message without receivers' "$(grows "$large/unsent" "${icd[@]}")"
    write_large even 9600 "$large/even"
    tell 'odd periods take as long as even ones' \
        "$(twice "$large/odd/4" "$large/even" "${icd[@]}")"
}

tap_growth_tests() {
    local part taps=("$top/tools/afdx-taps" net.toml taps.csv run.pcapng)
    write_sizes taps 1000
    for part in 1 2 4; do
        cp examples/base.toml "$large/taps/$part/net.toml"
        tap_words "$part" | xargs "$python" tests/tools/tapped_recording.py \
            "$large/taps/$part/run.pcapng"
    done
    tell '4,000 interfaces of a recording' "$(grows "$large/taps" "${taps[@]}")"
    launch env -C "$large/taps/4" "${taps[@]}"
    tell 'each of them has its word' "$(
        is_status 0
        seq 0 3999 | sed 's/.*/--interface=&=-/' >"$work/wanted"
        same "$work/wanted" "$work/out"
    )"
}

tap_words() { # THOUSANDS : the interfaces of a recording, each with a frame
    seq 0 $(($1 * 1000 - 1)) | sed 's/.*/eth&=17A/'
}

if [[ -n $built ]]; then
    cable_growth_tests
    message_growth_tests
    tap_growth_tests
else
    skip 'tables as long as they may be' "there is no program $program"
fi
