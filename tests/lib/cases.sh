# Sourced by the tests in bash: counts cases, and reports each.
# shellcheck shell=bash

passed=0
failed=0
skipped=0
# the keys that `solve` finds, as sed -E and grep -E take them
# shellcheck disable=SC2034  # who sources this uses it
solved_keys='buffer|jitter_us|latency_us|skew_us'

# A script of sed that gives all links another skew, or those in the lines that ADDRESS names.
skew_is() { # US [ADDRESS]
    printf '%ss/^skew_us = .*/skew_us = %s/' "${2-}" "$1"
}

# A case, its fault if it has one, and what is reported of it where it passes.
tell() { # NAME FAULT [NOTE]
    if [[ -z $2 ]]; then
        passed=$((passed + 1))
        echo "ok $1${3:+ ($3)}"
    else
        failed=$((failed + 1))
        echo "FAILED $1"
        echo "    ${2//$'\n'/$'\n'    }"
    fi
}

# A case that can't be tried here, and why.
skip() { # NAME WHY
    skipped=$((skipped + 1))
    echo "skipped $1: $2"
}

has() { command -v "$1" >/dev/null; } # COMMAND
