# Tests of the completion of words in bash, zsh and fish, of the tools' versions and of the man
# pages: what they offer and name is what the program and the tools take. A part of
# tests/run/tools.sh.
# shellcheck shell=bash
# shellcheck disable=SC2154  # what it uses is set by tests/run/tools.sh, which sources it

# ---- what each shell offers for the last word of a line ------------------------------------

# Words come as bash takes them apart, at = and : too.
# shellcheck disable=SC2016  # another shell expands it
offered_by_bash() { # LINE
    bash --norc -c '
        source tools/afdx.bash
        COMP_LINE=$1
        read -r -a COMP_WORDS <<<"$(sed "s/[=:]/ & /g" <<<"$1")"
        if [[ $1 == *" " ]]; then COMP_WORDS+=(""); fi
        COMP_CWORD=$((${#COMP_WORDS[@]} - 1)) COMPREPLY=()
        function_of=$(complete -p "${COMP_WORDS[0]}" | sed "s/.*-F \([^ ]*\).*/\1/")
        "$function_of" "${COMP_WORDS[0]}" 2>/dev/null
        printf "%s\n" "${COMPREPLY[@]}"' bash "$1"
}

offered_by_zsh() { # LINE
    mkdir -p "$work/zsh"
    cp tools/afdx.zsh "$work/zsh/_afdx"
    timeout 3600 zsh -f tests/tools/zsh_offers.zsh "$work/zsh" "$1"
}

# shellcheck disable=SC2016  # fish expands it
offered_by_fish() { # LINE
    HOME=$work XDG_CONFIG_HOME=$work fish --no-config \
        -c 'source tools/afdx.fish; complete -C $argv[1]' -- "$1" | cut -f 1
}

# These words, folders aside; of a path, of a list and behind `--name=` the last part.
offers() { # SHELL LINE WANTED..
    local got wanted
    got=$("offered_by_$1" "$2" | grep -v '/$' | sed 's|.*/||; s/=$//; s/^--[a-z-]*=//; s/.*,//' |
        sort -u | paste -s -d ' ')
    wanted=$(printf '%s\n' "${@:3}" | sort -u | paste -s -d ' ')
    if [[ $got != "$wanted" ]]; then echo "'$2' gives '$got', wanted '$wanted'"; fi
}

offer_tests() { # SHELL
    local files=$work/files
    mkdir -p "$files"
    touch "$files"/{one.toml,two.list,three.messages,four.pcap,five.pcapng.gz,six.html,seven.csv}
    printf 'system = [\n  { name = "adc" },\n  { name = "fcc" },\n]\nlink = []\n' >"$files/one.toml"
    tell "$1 completes words" "$(
        offers "$1" 'afdx ch' check
        offers "$1" 'afdx replay --n' --no-admission
        offers "$1" 'afdx police --po' --policing --port
        offers "$1" 'afdx police --policing ' byte frame
        offers "$1" 'afdx solve --keep ' buffer jitter latency skew
        offers "$1" 'afdx solve --ra' --raise-only
        offers "$1" 'afdx police 1' 1 16 128
        offers "$1" 'afdx police --vl 501 --port 5 1' 1 16 128
        offers "$1" 'afdx replay --fc' --fcs
        offers "$1" 'afdx replay --fcs ' yes no
        offers "$1" 'afdx police --interface 0=A:1 --fcs no 1' 1 16 128
        offers "$1" 'afdx police --reorder 0 1' 1 16 128
        offers "$1" 'afdx replay --reo' --reorder
        offers "$1" 'afdx replay --stamps ' end start
        offers "$1" 'afdx list --stamps s' start
        offers "$1" 'afdx-capture ' list pcap annotate
        offers "$1" 'afdx-capture list --fc' --fcs
        offers "$1" 'afdx-capture list --fcs y' yes
        offers "$1" 'afdx-capture pcap --fcs ' yes no
        offers "$1" 'afdx-capture list --interface 0=A --sp' --split
        offers "$1" 'afdx-capture list --reorder 7 --stamps ' end start
        offers "$1" 'afdx-report --stamps ' end end-start start start-end
        offers "$1" 'afdx conform --stamps end' end end-start
        offers "$1" 'afdx conform --l' --leave-out --left --line-buffered --lossy
        offers "$1" 'afdx-campaign --stamps e' end end-start
        offers "$1" 'afdx-campaign --conf' --conform
        offers "$1" "afdx send $files/one.toml " adc fcc
        offers "$1" 'afdx-icd --profile ' 1 2
        offers "$1" 'afdx-fill --keep ' jitter buffer latency skew
    )"
    tell "$1 completes words behind = and :" "$(
        offers "$1" 'afdx replay --fcs=' yes no
        offers "$1" 'afdx replay --fcs=n' no
        offers "$1" 'afdx check --explain=' always auto never
        offers "$1" 'afdx police --interface=0=A:1 --fcs=n' no
        offers "$1" 'afdx police --interface=0=A:1 1' 1 16 128
        offers "$1" 'afdx solve --keep=la' latency
        offers "$1" 'afdx-report --stamps=end-' end-start
        offers "$1" "afdx replay --interface 0=A:1 $files/" one.toml
        offers "$1" "afdx replay --interface=0=A:1 $files/one.toml $files/" two.list four.pcap
        offers "$1" "afdx send $files/one.toml --explain=never " adc fcc
    )"
    tell "$1 completes lists" "$(
        offers "$1" 'afdx solve --keep jitter,' buffer latency skew
        offers "$1" 'afdx solve --keep jitter,skew,la' latency
        offers "$1" 'afdx-fill --keep=skew,j' jitter
        offers "$1" 'afdx-report --fail-on silent,l' late left-out lost
        offers "$1" 'afdx-campaign --fail-on idle,un' unequal unused uncertain unseen
    )"
    tell "$1 completes files, each of the kind that is wanted there" "$(
        offers "$1" "afdx check $files/" one.toml
        offers "$1" "afdx solve --keep skew $files/" one.toml
        offers "$1" "afdx replay --no-admission $files/" one.toml
        offers "$1" "afdx replay $files/one.toml $files/" two.list four.pcap
        offers "$1" "afdx replay --reorder 7 --stamps end $files/" one.toml
        offers "$1" "afdx police --vl 7 1 64 500 $files/" two.list four.pcap
        offers "$1" "afdx list $files/one.toml $files/" four.pcap
        offers "$1" "afdx list $files/one.toml $files/four.pcap $files/" four.pcap
        offers "$1" "afdx replay $files/one.toml $files/four.pcap $files/" four.pcap
        offers "$1" "afdx send $files/one.toml adc $files/" two.list three.messages
        offers "$1" "afdx conform --left 1=A:3 $files/" one.toml
        offers "$1" "afdx conform $files/one.toml $files/" two.list four.pcap
        offers "$1" "afdx conform --lossy $files/one.toml - $files/" two.list four.pcap
        offers "$1" "afdx-capture list --config $files/" one.toml
        offers "$1" "afdx-capture list --config $files/one.toml $files/" four.pcap
        offers "$1" "afdx-capture list --config $files/one.toml $files/four.pcap $files/" four.pcap
        offers "$1" "afdx-capture list --taps $files/" seven.csv
        offers "$1" "afdx-capture pcap $files/" two.list
        offers "$1" "afdx-capture pcap --side A $files/two.list $files/" four.pcap
        offers "$1" "afdx-capture annotate $files/" one.toml
        offers "$1" "afdx-capture annotate $files/one.toml $files/" two.list four.pcap
        offers "$1" "afdx-capture annotate $files/one.toml $files/four.pcap $files/" four.pcap
        offers "$1" "afdx-report $files/" one.toml
        offers "$1" "afdx-report --rows 7 $files/one.toml $files/" two.list four.pcap
        offers "$1" "afdx-report --fcs no $files/one.toml $files/four.pcap $files/" four.pcap
        offers "$1" "afdx-report --cover $files/" one.toml
        offers "$1" "afdx-report --cover c.toml --worst 5 --fail-on late $files/" one.toml
        offers "$1" "afdx-report --reorder 0 --stamps end $files/" one.toml
        offers "$1" "afdx-report --out $files/"
        offers "$1" "afdx-report --taps $files/seven.csv $files/" one.toml
        offers "$1" "afdx-icd --profile 2 $files/" seven.csv
        offers "$1" "afdx-icd $files/seven.csv $files/" seven.csv
        offers "$1" "afdx-icd --fill --reserve 20 $files/seven.csv --since $files/" one.toml
        offers "$1" "afdx-icd $files/seven.csv $files/seven.csv $files/" one.toml
        offers "$1" "afdx-traffic --seed 1 $files/seven.csv $files/" seven.csv
        offers "$1" "afdx-traffic --seconds 9 --config $files/" one.toml
        offers "$1" "afdx-traffic $files/seven.csv $files/seven.csv $files/"
        offers "$1" "afdx-taps $files/" one.toml
        offers "$1" "afdx-taps --anyway $files/one.toml $files/" seven.csv
        offers "$1" "afdx-taps $files/one.toml $files/seven.csv $files/" four.pcap
        offers "$1" "afdx-taps $files/one.toml $files/seven.csv $files/four.pcap $files/" four.pcap
        offers "$1" "afdx-fill $files/" one.toml
        offers "$1" "afdx-fill --keep skew $files/one.toml $files/" one.toml
        offers "$1" "afdx-campaign $files/" one.toml
        offers "$1" "afdx-campaign --taps $files/" seven.csv
        offers "$1" "afdx-campaign --reorder 0 --stamps end $files/" one.toml
        offers "$1" "afdx-campaign $files/one.toml $files/two.list $files/" two.list four.pcap
    )"
    tell "$1 completes each option of --help" "$(each_help options_offered "$1")"
}

# ---- what is taken, by --help --------------------------------------------------------------

options_of() { # WORD.. : the long options that its --help has a line for
    "$@" --help 2>/dev/null | sed -nE 's/^ +(-[a-z]( [A-Z.]+)?, )?(--[a-z][a-z-]+).*/\3/p' | sort -u
}

each_help() { # FUNCTION WORD.. : calls it with the words, a command's name and its options
    local name
    for name in afdx-report afdx-campaign afdx-icd afdx-fill afdx-traffic afdx-taps \
        'afdx-capture list' 'afdx-capture pcap' 'afdx-capture annotate'; do
        # shellcheck disable=SC2086
        options_of tools/$name >"$work/options"
        "$@" "$name" "$work/options"
    done
    if ! options_of "$program" replay | grep -x -- --summary >/dev/null; then return; fi
    for name in check conform list police replay send solve; do
        options_of "$program" "$name" >"$work/options"
        "$@" "afdx $name" "$work/options"
    done
}

options_offered() { # SHELL NAME OPTIONS
    local others='--version'
    if [[ $2 == 'afdx '* && $reads != *reorder* ]]; then others+='|--reorder|--stamps'; fi
    "offered_by_$1" "$2 --" | sed -n 's/^\(--[^=]*\)=\?$/\1/p' | grep -vxE -- "$others" |
        sort -u >"$work/offered"
    if ! diff <(grep -vx -- --version "$3") "$work/offered" >"$work/diff"; then
        echo "$2 --help and what is offered:"
        cat "$work/diff"
    fi
}

# Names as they are typed: with a space, in quotes or behind a backslash, of a file in the home, and
# with the letters at which bash takes words apart. At these fish takes a name to begin anew.
typed_tests() { # SHELL
    local folder=$work/typed_names one='' three=''
    if [[ $1 == fish ]]; then one=two.toml three=four.toml; fi
    mkdir -p "$folder"
    touch "$folder"/{'my net.toml',one:two.toml,three=four.toml,five.list}
    echo 'name = "adc"' >"$folder/my net.toml"
    launch timeout 3600 tests/tools/typed_tabs.py "$1" "$folder" 'afdx check my\ n' \
        'afdx check "my n' "afdx check 'my n" 'afdx send my\ net.toml a' 'afdx check ~/own' \
        'afdx replay ~/own.toml f' "afdx check one:$one" "afdx check three=$three" \
        'afdx replay --interface 0=A:1 --fcs n' 'afdx check --explain=al' \
        'afdx solve --keep jitter,la'
    tell "$1 completes names as they are typed" "$(
        is_status 0
        printf '%s\n' "['check', 'my net.toml']" "['check', 'my net.toml']" \
            "['check', 'my net.toml']" "['send', 'my net.toml', 'adc']" "['check', '~/own.toml']" \
            "['replay', '~/own.toml', 'five.list']" "['check', 'one:two.toml']" \
            "['check', 'three=four.toml']" \
            "['replay', '--interface', '0=A:1', '--fcs', 'no']" \
            "['check', '--explain=always']" "['solve', '--keep', 'jitter,latency']" >"$work/wanted"
        same "$work/wanted" "$work/out"
    )"
}

for shell in bash zsh fish; do
    if has "$shell"; then
        offer_tests "$shell"
        typed_tests "$shell"
    else
        skip "completion in $shell" "there is no $shell (apt-get install $shell)"
    fi
done

# ---- versions and man pages ----------------------------------------------------------------

version_tests() {
    local words wanted tool
    words=crates/afdx_command_words/src/words.rt
    wanted=$(sed -n 's/^const VERSION: &str = "\([^ ]*\) .*/\1/p' "$words")
    for tool in afdx-capture afdx-report afdx-campaign afdx-icd afdx-fill afdx-traffic afdx-taps; do
        launch "tools/$tool" --version
        tell "$tool --version" "$(
            is_status 0
            printf '%s %s\n' "$tool" "$wanted" >"$work/wanted"
            same "$work/wanted" "$work/out"
        )"
    done
    tell 'the newest section of CHANGELOG.md is that of the version, or of what is next' "$(
        if ! grep -m 1 '^## ' CHANGELOG.md | grep -qE "^## (${wanted//./\\.}|Next)"; then
            grep -m 1 '^## ' CHANGELOG.md
        fi
        if ! grep -q "^## ${wanted//./\\.}" CHANGELOG.md; then echo "no section $wanted"; fi
    )"
}

options_named() { # NAME OPTIONS : in its man page
    local page option
    page=docs/${1%% *}.1
    while IFS= read -r option; do
        if ! grep -q -- "${option//-/\\\\-}" "$page"; then echo "$page doesn't name $option"; fi
    done <"$2"
}

page_tests() {
    local page
    for page in docs/*.1; do
        launch man --warnings=w -l "$page"
        tell "the man page $page has no warnings" "$(
            is_status 0
            if [[ -s $work/err ]]; then cat "$work/err"; fi
            says out 'SYNOPSIS'
        )"
    done
    tell 'the man pages name each option of --help' "$(each_help options_named)"
}

version_tests
if has man; then
    page_tests
else
    skip 'the man pages' 'there is no man'
fi
