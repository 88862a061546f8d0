# Cases of `solve`; tests/run/program.sh reads this file.
# shellcheck shell=bash
# shellcheck disable=SC2154  # what it uses is set by tests/run/program.sh, which sources it
# shellcheck disable=SC2034  # what it sets is used there

# `solve` of base.toml as the script changes it, with the options OPTIONS. What is written says
# WANTED of the four keys, in their order: buffer, then jitter, latency and skew of both links.
solve_with() { # NAME SED_SCRIPT WANTED ERR OPTION..
    local name=$1 wanted=$3 err=$4
    sed -E "$2" examples/base.toml >"$work/changed.toml"
    shift 4
    launch solve "$@" "$work/changed.toml"
    tell "$name" "$(
        has_status 0
        differs 'standard error' "$err" "$work/err"
        values=$(sed -nE "s/^($solved_keys) = //p" "$work/out" | tr '\n' ' ')
        if [[ $values != "$wanted " ]]; then echo "the keys are $values"; fi
        if ! "$program" check "$work/out" | tail -n 1 | grep -qx ok; then echo 'not admitted'; fi
    )"
}

unsolved() { # NAME STATUS OUT ERR SED_SCRIPT OPTION.. : `solve` of base.toml as it is changed
    local name=$1 wanted=$2 out=$3 err=$4
    sed -E "$5" examples/base.toml >"$work/changed.toml"
    shift 5
    case_of "$name" "$wanted" "$out" "$err" solve "$@" "$work/changed.toml"
}

least='176 47 14 14 47 15 15'
without="/^($solved_keys)/d"
late='s/^(latency_us) = .*/\1 = 13/'
need1='vl 1 at 3: 13756 ns needed, 13 us asked'
need2='vl 2 at 3: 14167 ns needed, 13 us asked'
solve_with 'the least values' '' "$least" ''
solve_with 'four keys that are absent' "$without" "$least" ''
solve_with 'keys out of range' "/^latency_us/!s/^($solved_keys) = .*/\\1 = 99999999999/" "$least" ''
solve_with 'keys that are 0' "s/^($solved_keys) = .*/\\1 = 0/" "$least" \
    "${need1/13 us/0 us}"$'\n'"${need2/13 us/0 us}"$'\n'
solve_with 'what is needed' "$late" "$least" "$need1"$'\n'"$need2"$'\n'
solve_with 'of one link' "0,/^latency_us = 17/s//latency_us = 13/" "$least" "$need1"$'\n'
solve_with 'an absent latency asks nothing' '0,/^latency_us/s//# &/' "$least" ''
solve_with 'raised only' 's/^latency_us = .*/latency_us = 1/' '252 500 17 1000 500 21 1000' \
    $'vl 1 at 3: 16800 ns needed, 1 us asked\nvl 2 at 3: 20297 ns needed, 1 us asked\n' --raise-only
solve_with 'kept jitters' '' '252 500 17 17 500 21 21' '' --keep jitter
solve_with 'all are kept' '' '252 500 17 1000 500 21 1000' '' --keep jitter,buffer,latency,skew
solve_with 'two options' '' '252 47 14 1000 47 15 1000' '' --keep buffer --keep skew
solve_with 'copies a millisecond apart' '' '176 47 14 1014 47 15 1015' '' --apart 1000000
solve_with 'copies a nanosecond apart' '' '176 47 14 15 47 15 16' '' --apart 1
solve_with 'copies at one time' '' "$least" '' --apart 0
solve_with 'copies apart, raised only' '' '252 500 17 1000 500 21 1000' '' \
    --raise-only --apart 979000
solve_with 'copies as far apart as can be' '' '176 47 14 100000 47 15 100000' '' --apart 99990760
tell 'a solution is the solution of itself' "$(
    launch solve "$work/changed.toml"
    "$program" solve "$work/out" >"$work/again" || echo "status $?"
    cmp "$work/out" "$work/again"
)"
# An example as `solve` lays it out, without remarks, whose first link and buffer have these values.
laid_out() { # FILE BUFFER JITTER LATENCY SKEW
    sed -E "s/ *#.*//; s/^buffer = .*/buffer = $2/; s/^jitter_us = .*/jitter_us = $3/
        s/^latency_us = .*/latency_us = $4/; $(skew_is "$5")" "$1" | sed '/^[^ ]/,$!d'
}
first_link() { sed -n '/^\[\[link/,/^$/p' "$1" | head -n 14; } # FILE
tell 'the layout' "$(
    launch solve examples/base.toml
    has_status 0
    laid_out examples/base.toml 176 47 14 14 >"$work/laid"
    diff <(head -n 10 "$work/laid") <(head -n 10 "$work/out")
    diff <(first_link "$work/laid") <(first_link "$work/out")
)"

unsolved 'an overloaded port' 1 $'no A1 3\n' '' \
    '0,/^lmax = 64/s//lmax = 1518/; /^id = 3/,/^rate/s/^rate = 100/rate = 10/'
unsolved 'a kept buffer that is too small' 1 $'no A2 3 252\n' '' 's/^buffer = .*/buffer = 251/' \
    --keep buffer,jitter
unsolved 'a kept latency that is too small' 1 $'no A3 3 1 16800\n' '' \
    's/^latency_us = .*/latency_us = 16/' --keep jitter,latency
cp "$work/changed.toml" "$work/late.toml"
unsolved 'a kept jitter that is too small' 1 $'no A6 1 46720\n' '' \
    's/^jitter_us = .*/jitter_us = 46/' --keep jitter
unsolved 'a kept skew that is too small' 1 $'no A7 1\n' '' \
    "$(skew_is 13)" --keep skew
unsolved 'copies too far apart' 1 $'no apart 2 99990760\n' '' '' --apart 99990761
unsolved 'a kept skew that leaves less' 1 $'no apart 2 990760\n' '' '' --keep skew --apart 990761
unsolved 'a distance out of range' 2 '' $'words BadNumber\n' '' --apart 100000001
text_case 'what is left, explained' 0 out 'asks for more than the tables' \
    explain 'no apart 2 990760'
unsolved 'a kept key that is absent' 1 '' $'config Missing top 0 key 2\n' '/^buffer/d' --keep buffer
unsolved 'a kept key out of range' 1 '' $'config OutOfRange link 1 key 10\n' \
    's/^latency_us = .*/latency_us = 0/' --keep latency
unsolved 'a value below 0' 1 '' $'config OutOfRange link 1 key 10\n' \
    's/^latency_us = .*/latency_us = -1/'
unsolved 'a value that is no whole number' 1 '' $'config WrongKind link 1 key 11\n' \
    "$(skew_is 1.5)"
unsolved 'another fault' 1 '' $'config OutOfRange link 1 key 4\n' 's/^bag_ms = .*/bag_ms = 3/'
case_of 'a configuration that is not there' 4 '' $'device Config\n' solve "$work/none"
full_case 'a solution to a full device' 4 $'device Write\n' solve examples/base.toml
full_case 'a denial to a full device' 4 $'device Write\n' \
    solve --keep jitter,latency "$work/late.toml"
text_case 'an unknown key to keep' 2 err bag solve --keep bag examples/base.toml
text_case 'keys to keep without a key' 2 err KEYS solve --keep
text_case 'help of solve' 0 out "aren't" solve --help
sed -E "$late" examples/base.toml >"$work/changed.toml"
status=0
"$program" solve "$work/changed.toml" >"$work/out" 2>/dev/full || status=$?
tell 'needs to a full device' "$(
    has_status 0
    if [[ $(head -n 1 "$work/out") != 'profile = 1' ]]; then echo 'no solution'; fi
)"
launch solve --explain --keep latency "$work/changed.toml"
tell 'solve explains a line of admission' "$(
    has_status 1
    if ! grep -qF 'A3 port vl bound' "$work/err"; then echo 'no explanation'; fi
    differs 'standard output' $'no A3 3 1 13756\n' "$work/out"
)"
text_case 'what is needed, explained' 0 out 'with the jitters that are written' explain "$need1"

# Two switches whose latencies are 1.
sed 's/^latency_us = .*/latency_us = 1/' examples/two_switches.toml >"$work/cables.toml"
told='vl 2 at fwd 1: 7137 ns needed, 1 us asked
vl 1 at fwd 24: 7036 ns needed, 1 us asked
vl 1 at aft 3: 13810 ns needed, 1 us asked
vl 2 at aft 3: 14222 ns needed, 1 us asked
vl 2 at aft 20: 7036 ns needed, 1 us asked
'
tell 'two switches' "$(
    launch solve "$work/cables.toml"
    has_status 0
    differs 'standard error' "$told" "$work/err"
    laid_out examples/two_switches.toml 90 47 8 8 >"$work/laid"
    diff <(head -n 31 "$work/laid") <(head -n 31 "$work/out")
    if ! "$program" check "$work/out" | tail -n 1 | grep -qx ok; then echo 'not admitted'; fi
)"
case_of 'two switches, kept latencies that are too small' 1 $'no A4 fwd 1 2 7043\n' '' \
    solve --keep latency "$work/cables.toml"
sed '0,/^buffer/s/^buffer.*//' "$work/cables.toml" >"$work/changed.toml"
case_of 'two switches, a kept key that is absent' 1 '' $'config Missing switch 1 top 0 key 2\n' \
    solve --keep buffer "$work/changed.toml"
text_case 'what is needed at one of two switches, explained' 0 out 'stands before PORT' \
    explain "${told%%$'\n'*}"
