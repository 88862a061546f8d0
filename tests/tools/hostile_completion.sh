# Tests that completion in bash, zsh and fish runs nothing that stands in a file or in its name, and
# offers nothing but names; a part of tests/run/tools.sh. Each line is typed in a terminal.
# shellcheck shell=bash
# shellcheck disable=SC2016,SC2154 # texts that no shell may expand; tests/run/tools.sh sets others

hostile=$work/hostile

config() { # NAME TEXT : as printf writes it
    # shellcheck disable=SC2059
    printf "$2" >"$hostile/$1.toml"
}

hostile_configs() { # each with the one name that is offered, or none
    config remark '#$(touch${IFS}pwned)\xff name = "x"\n'
    config before '$(touch${IFS}pwned)\xff name = "one"\n'
    config command 'name = "$(touch pwned)"\nname = "`touch pwned`"\nname = "two"\n'
    config behind 'name = "x$(touch pwned)"\nname = "three" ;touch pwned\n'
    config letters 'name = "\x1b]0;x\a"\nname = "\xc2\xa0"\nname = "a b"\nname = "four"\n'
    config words 'name = "-e"\nname = "{a,b}"\nname = "*"\nname = "$IFS"\nname = "five"\n'
    config nul 'name = "\0"\nname = "six"\0$(touch pwned)\n'
    printf 'name = "%02000000d"\nname = "seven"\n' 0 >"$hostile/long.toml"
    mkfifo "$hostile/fifo.toml"
    ln -s /dev/zero "$hostile/device.toml"
}

HOSTILE_CONFIGS=(remark before command behind letters words nul long fifo device)
HOSTILE_NAMES=('$(touch pwned).toml' '`touch pwned`.toml' ';touch pwned;.toml' '$HOME.toml'
    '(touch pwned).toml' '<(touch pwned).toml' "'\"x.toml" $'\xff \x1b]0;x\a.toml'
    '${(e):-$(touch pwned)}.toml' '*{a,b}~!x.toml')

hostile_lines() { # writes lines and wanted: what is typed, and the words that have to come of it
    local name number=0 offered=('' one two three four five six seven '' '')
    lines=()
    for name in "${HOSTILE_CONFIGS[@]}"; do
        lines+=("afdx send $name.toml ")
        printf 'send\0%s.toml\0' "$name"
        if [[ -n ${offered[number]} ]]; then printf '%s\0' "${offered[number]}"; fi
        printf '\n\0'
        number=$((number + 1))
    done >"$work/wanted.words"
    number=0
    for name in "${HOSTILE_NAMES[@]}"; do
        number=$((number + 1))
        mkdir "$hostile/$number"
        : >"$hostile/$number/$name"
        lines+=("afdx check $number/")
        printf 'check\0%d/%s\0\n\0' "$number" "$name"
    done >>"$work/wanted.words"
    "$python" -c 'import os, sys
lines = open(sys.argv[1], "rb").read().split(b"\0\n\0")[:-1]
for line in lines: print([os.fsdecode(word) for word in line.split(b"\0")])' \
        "$work/wanted.words" >"$work/wanted.typed"
}

mkdir "$hostile"
hostile_configs
hostile_lines
for shell in bash zsh fish; do
    if ! has "$shell"; then
        skip "hostile files in $shell" "there is no $shell (apt-get install $shell)"
        continue
    fi
    launch timeout 3600 tests/tools/typed_tabs.py "$shell" "$hostile" "${lines[@]}"
    tell "$shell runs nothing that stands in a file or its name, and offers names alone" "$(
        is_status 0
        same "$work/wanted.typed" "$work/out"
        find "$hostile" -name pwned
    )"
done
rm -r "$hostile"
