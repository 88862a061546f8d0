# Completes the words of `afdx` and of its tools in bash. `bin/install` puts it where bash looks for
# it; elsewhere:  source tools/afdx.bash
# shellcheck shell=bash
# shellcheck disable=SC2026  # a pattern is a command in quotes, and a number

# bash takes words apart at = and : (COMP_WORDBREAKS), and so does what a completion replaces. Sets
# `words` to whole ones, as they were typed, and `behind` to what of the last one stays.
_afdx_join() {
    local rest=$COMP_LINE piece last='' gap k
    words=() behind=
    for ((k = 0; k <= COMP_CWORD; k++)); do
        piece=${COMP_WORDS[k]}
        gap=${rest%%[![:space:]]*}
        if ((k == 0)) || [[ -n $gap || -z $rest || $piece$last == *[\<\>\|\&\;\(\)]* ]]; then
            words+=("$piece") behind=
        else
            behind=${words[-1]} words[-1]+=$piece
        fi
        rest=${rest#"$gap$piece"} last=$piece
    done
    if [[ $last == [=:] ]]; then behind=${words[-1]}; fi
}

# What a word means that was typed. Nothing in it is expanded but a ~ for the home.
_afdx_plain() { # WORD : sets `plain`
    local rest=$1 quote='' letter
    plain=
    # shellcheck disable=SC2088  # it stands for itself
    if [[ $rest == '~' || $rest == '~/'* ]]; then plain=$HOME rest=${rest:1}; fi
    while [[ -n $rest ]]; do
        letter=${rest:0:1} rest=${rest:1}
        if [[ $letter == "$quote" ]]; then
            quote=
        elif [[ -z $quote && $letter == [\'\"] ]]; then
            quote=$letter
        elif [[ $letter == \\ && $quote != \' && ( -z $quote || $rest == [\\\"\$\`]* ) ]]; then
            plain+=${rest:0:1} rest=${rest:1}
        else
            plain+=$letter
        fi
    done
}

# Offers what begins with the word, behind what of it is left as it is: `lead` is `--name=`, or the
# words of a list. `behind`, which isn't replaced, is left out. `compgen -W` isn't called: it
# expands its words, and runs what stands in them.
_afdx_offer() { # WORD..
    local word
    for word in "$@"; do
        if [[ $word == "$cur"* ]]; then
            word=$lead$word
            COMPREPLY+=("${word#"$behind"}")
        fi
    done
}

_afdx_names() { # PATTERN : the files of such names behind the word, and folders for */
    local name names=() options
    options=$(shopt -p failglob nullglob)
    shopt -u failglob
    shopt -s nullglob
    for name in "$cur"$1; do
        name=${name%/}
        if [[ $typed == '~'* ]]; then name='~'${name#"$HOME"}; fi
        names+=("$name")
    done
    eval "$options"
    if [[ $typed == '~'* ]]; then local cur='~'; fi
    _afdx_offer "${names[@]}"
}

_afdx_files() { # EXTENSION.. : folders, and files with one of these extensions; else any
    local end
    compopt -o filenames 2>/dev/null
    _afdx_names '*/'
    for end in "$@"; do _afdx_names "*.$end"; done
    if [[ ${#COMPREPLY[@]} -eq 0 ]]; then _afdx_names '*'; fi
}

_afdx_folders() {
    compopt -o filenames 2>/dev/null
    _afdx_names '*/'
}

_afdx_list() { # WORD.. : those that the word behind the last comma begins, each once
    local word words=()
    for word in "$@"; do
        if [[ ,${cur%"${cur##*,}"} != *,"$word",* ]]; then words+=("$word"); fi
    done
    local lead=$lead${cur%"${cur##*,}"} cur=${cur##*,}
    _afdx_offer "${words[@]}"
}

# Byte by byte, so that no other can stand in a name; of a configuration's greatest size.
_afdx_systems() { # CONFIG : the names of its systems
    local names
    if [[ ! -f $1 || ! -r $1 ]]; then return; fi
    mapfile -t names < <(head -c 4194304 <"$1" | LC_ALL=C sed 's/#.*//' |
        LC_ALL=C grep -aoE '\bname[[:blank:]]*=[[:blank:]]*"[A-Za-z0-9]{1,16}"' | cut -d '"' -f 2)
    _afdx_offer "${names[@]}"
}

# Takes apart what stands before the word: `given` are the words that belong to no option, `before`
# is the option whose value the word is, if it is one.
_afdx_read() { # FIRST OPTION.. : the place of the first word; the options that take a value
    local place word plain
    given=() before=
    for ((place = $1; place < ${#words[@]} - 1; place++)); do
        _afdx_plain "${words[place]}"
        word=$plain
        if [[ -n $before ]]; then
            before=
        elif [[ $word != -?* ]]; then
            given+=("$word")
        elif [[ " ${*:2} " == *" $word "* ]]; then
            before=$word
        fi
    done
}

# What the word may be, by what stands below of the command.
_afdx_command() { # COMMAND PLACE : the place of the first word behind it
    local options=() valued=() given before
    _afdx_takes "$1"
    _afdx_read "$2" "${valued[@]}"
    if [[ -n $before ]]; then
        _afdx_value "$1 $before"
    elif [[ $cur == --*=* ]]; then
        before=${cur%%=*} lead=${cur%%=*}= typed=${typed#*=} cur=${cur#*=}
        _afdx_value "$1 $before"
    elif [[ $cur == -* ]]; then
        _afdx_offer "${options[@]}"
    else
        _afdx_place "$1 ${#given[@]}"
    fi
}

_afdx() { # TOOL
    local tool=${1##*/} commands=() words=() behind plain cur lead='' typed
    COMPREPLY=()
    _afdx_join
    typed=${words[-1]}
    _afdx_plain "$behind"
    behind=$plain
    _afdx_plain "$typed"
    cur=$plain
    _afdx_commands_of "$tool"
    if ((${#commands[@]} == 0)); then
        _afdx_command "$tool" 1
    elif ((${#words[@]} > 2)); then
        _afdx_command "$tool ${words[1]}" 2
    elif [[ $cur == -* ]]; then
        _afdx_offer --help --version
    else
        _afdx_offer "${commands[@]}"
    fi
}

# printed by bin/pages
_afdx_commands_of() { # TOOL : what its first word may be
    case $1 in
        afdx) commands=(check conform explain list police replay send solve) ;;
        afdx-capture) commands=(list pcap annotate) ;;
    esac
}

_afdx_takes() { # COMMAND : its options, and those that take a value
    case $1 in
        'afdx check')
            options=(--all --margins --explain --help)
            valued=()
            ;;
        'afdx conform')
            options=(--slack --between --drift --inner --asked --from --until --leave-out \
                --exercised --switch --senders --apart --interface --left --fcs --reorder \
                --stamps --lossy --explain --line-buffered --progress --summary --help)
            valued=(--slack --between --drift --inner --asked --from --until --leave-out --switch \
                --apart --interface --left --fcs --reorder --stamps)
            ;;
        'afdx explain')
            options=(--list --help)
            valued=()
            ;;
        'afdx list')
            options=(--interface --fcs --origin --reorder --stamps --explain --line-buffered \
                --progress --summary --help)
            valued=(--interface --fcs --origin --reorder --stamps)
            ;;
        'afdx police')
            options=(--vl --port --lmin --policing --interface --fcs --origin --reorder --explain \
                --line-buffered --progress --summary --help)
            valued=(--vl --port --lmin --policing --interface --fcs --origin --reorder)
            ;;
        'afdx replay')
            options=(--no-admission --explain-drops --interface --fcs --origin --reorder --stamps \
                --explain --line-buffered --progress --summary --help)
            valued=(--interface --fcs --origin --reorder --stamps)
            ;;
        'afdx send')
            options=(--explain --line-buffered --progress --summary --help)
            valued=()
            ;;
        'afdx solve')
            options=(--keep --raise-only --apart --explain --help)
            valued=(--keep --apart)
            ;;
        'afdx-campaign')
            options=(--help --version --out --no-admission --pages --jobs --resume --sshlogin \
                --transfer --interface --taps --fcs --origin --reorder --stamps --fail-on --junit \
                --conform --slack --between --drift --inner --asked --until --leave-out --switch \
                --left --lossy --exercised --from --slices)
            valued=(--out -j --jobs -S --sshlogin --interface --taps --fcs --origin --reorder \
                --stamps --fail-on --junit --slack --between --drift --inner --asked --until \
                --leave-out --switch --left --from --slices)
            ;;
        'afdx-capture list')
            options=(--help --config --interface --taps --fcs --origin --reorder --stamps --out \
                --split)
            valued=(--config --interface --taps --fcs --origin --reorder --stamps -o --out \
                --split)
            ;;
        'afdx-capture pcap')
            options=(--help --side --fcs --origin)
            valued=(--side --fcs --origin)
            ;;
        'afdx-capture annotate')
            options=(--help --no-admission --conform --interface --taps --fcs --origin --reorder \
                --stamps)
            valued=(--conform --interface --taps --fcs --origin --reorder --stamps)
            ;;
        'afdx-fill')
            options=(--help --version --keep --raise-only)
            valued=(--keep)
            ;;
        'afdx-icd')
            options=(--help --version --cables --profile --fill --raise --reserve --apart --since)
            valued=(--cables --profile --reserve --apart --since)
            ;;
        'afdx-report')
            options=(--help --version --out --no-admission --link --from --rows --worst --compare \
                --title --cover --json --interface --taps --fcs --origin --reorder --stamps \
                --fail-on --junit --conform --slack --between --drift --inner --asked --until \
                --leave-out --switch --left --lossy --exercised --senders --apart)
            valued=(--out --link --from --rows --worst --compare --title --cover --interface \
                --taps --fcs --origin --reorder --stamps --fail-on --junit --slack --between \
                --drift --inner --asked --until --leave-out --switch --left --apart)
            ;;
        'afdx-taps')
            options=(--help --version --anyway --conform --senders --switch)
            valued=(--switch)
            ;;
        'afdx-traffic')
            options=(--help --version --cables --profile --fill --seconds --seed --config)
            valued=(--cables --profile --seconds --seed --config)
            ;;
    esac
}

_afdx_value() { # COMMAND OPTION, in one word
    case $1 in
        'afdx check --explain') _afdx_offer auto always never ;;
        'afdx conform --fcs') _afdx_offer yes no ;;
        'afdx conform --stamps') _afdx_offer end start start-end end-start ;;
        'afdx conform --explain') _afdx_offer auto always never ;;
        'afdx list --fcs') _afdx_offer yes no ;;
        'afdx list --stamps') _afdx_offer end start ;;
        'afdx list --explain') _afdx_offer auto always never ;;
        'afdx police --policing') _afdx_offer byte frame ;;
        'afdx police --fcs') _afdx_offer yes no ;;
        'afdx police --explain') _afdx_offer auto always never ;;
        'afdx replay --fcs') _afdx_offer yes no ;;
        'afdx replay --stamps') _afdx_offer end start ;;
        'afdx replay --explain') _afdx_offer auto always never ;;
        'afdx send --explain') _afdx_offer auto always never ;;
        'afdx solve --keep') _afdx_list jitter buffer latency skew ;;
        'afdx solve --explain') _afdx_offer auto always never ;;
        'afdx-campaign --out') _afdx_folders ;;
        'afdx-campaign --taps') _afdx_files csv ;;
        'afdx-campaign --fcs') _afdx_offer yes no ;;
        'afdx-campaign --stamps') _afdx_offer end start start-end end-start ;;
        'afdx-campaign --fail-on')
            _afdx_list silent contradicted clock twice late full-buffer too-old dropped unequal \
                missing refused skew jitter first-number recorder-lost left-out unused claimed \
                open uncertain unseen idle lost
            ;;
        'afdx-campaign --junit') _afdx_files xml ;;
        'afdx-capture list --config') _afdx_files toml ;;
        'afdx-capture list --taps') _afdx_files csv ;;
        'afdx-capture list --fcs') _afdx_offer yes no ;;
        'afdx-capture list --stamps') _afdx_offer end start ;;
        'afdx-capture list -o') _afdx_files list ;;
        'afdx-capture list --out') _afdx_files list ;;
        'afdx-capture list --split') _afdx_files list ;;
        'afdx-capture pcap --side') _afdx_offer A B ;;
        'afdx-capture pcap --fcs') _afdx_offer yes no ;;
        'afdx-capture annotate --taps') _afdx_files csv ;;
        'afdx-capture annotate --fcs') _afdx_offer yes no ;;
        'afdx-capture annotate --stamps') _afdx_offer end start ;;
        'afdx-fill --keep') _afdx_list jitter buffer latency skew ;;
        'afdx-icd --cables') _afdx_files csv ;;
        'afdx-icd --profile') _afdx_offer 1 2 ;;
        'afdx-icd --since') _afdx_files toml ;;
        'afdx-report --out') _afdx_folders ;;
        'afdx-report --compare') _afdx_files json ;;
        'afdx-report --cover') _afdx_files toml ;;
        'afdx-report --taps') _afdx_files csv ;;
        'afdx-report --fcs') _afdx_offer yes no ;;
        'afdx-report --stamps') _afdx_offer end start start-end end-start ;;
        'afdx-report --fail-on')
            _afdx_list silent contradicted clock twice late full-buffer too-old dropped unequal \
                missing refused skew jitter first-number recorder-lost left-out unused claimed \
                lost
            ;;
        'afdx-report --junit') _afdx_files xml ;;
        'afdx-traffic --cables') _afdx_files csv ;;
        'afdx-traffic --profile') _afdx_offer 1 2 ;;
        'afdx-traffic --config') _afdx_files toml ;;
    esac
}

_afdx_place() { # COMMAND NUMBER, in one word : the word of that number, from 0
    case $1 in
        'afdx check '0) _afdx_files toml ;;
        'afdx conform '0) _afdx_files toml ;;
        'afdx conform '1) _afdx_files list pcap pcapng ;;
        'afdx conform '2) _afdx_files list pcap pcapng ;;
        'afdx list '0) _afdx_files toml ;;
        'afdx list '1) _afdx_files pcap pcapng ;;
        'afdx list '2) _afdx_files pcap pcapng ;;
        'afdx police '0) _afdx_offer 1 2 4 8 16 32 64 128 ;;
        'afdx police '3) _afdx_files list pcap pcapng ;;
        'afdx replay '0) _afdx_files toml ;;
        'afdx replay '1) _afdx_files list pcap pcapng ;;
        'afdx replay '2) _afdx_files pcap pcapng ;;
        'afdx send '0) _afdx_files toml ;;
        'afdx send '1) _afdx_systems "${given[0]}" ;;
        'afdx send '2) _afdx_files list messages ;;
        'afdx solve '0) _afdx_files toml ;;
        'afdx-campaign '0) _afdx_files toml ;;
        'afdx-campaign '*) _afdx_files list pcap pcapng ;;
        'afdx-capture list '0) _afdx_files pcap pcapng ;;
        'afdx-capture list '1) _afdx_files pcap pcapng ;;
        'afdx-capture pcap '0) _afdx_files list ;;
        'afdx-capture pcap '1) _afdx_files pcap pcapng ;;
        'afdx-capture annotate '0) _afdx_files toml ;;
        'afdx-capture annotate '1) _afdx_files list pcap pcapng ;;
        'afdx-capture annotate '2) _afdx_files pcap pcapng ;;
        'afdx-capture annotate '3) _afdx_files pcap pcapng ;;
        'afdx-fill '0) _afdx_files toml ;;
        'afdx-fill '1) _afdx_files toml ;;
        'afdx-icd '0) _afdx_files csv ;;
        'afdx-icd '1) _afdx_files csv ;;
        'afdx-icd '2) _afdx_files toml ;;
        'afdx-report '0) _afdx_files toml ;;
        'afdx-report '1) _afdx_files list pcap pcapng ;;
        'afdx-report '2) _afdx_files pcap pcapng ;;
        'afdx-taps '0) _afdx_files toml ;;
        'afdx-taps '1) _afdx_files csv ;;
        'afdx-taps '2) _afdx_files pcap pcapng ;;
        'afdx-taps '3) _afdx_files pcap pcapng ;;
        'afdx-traffic '0) _afdx_files csv ;;
        'afdx-traffic '1) _afdx_files csv ;;
        'afdx-traffic '2) _afdx_folders ;;
    esac
}

complete -F _afdx afdx afdx-campaign afdx-capture afdx-fill afdx-icd afdx-report afdx-taps \
    afdx-traffic
# printed by bin/pages down to here
