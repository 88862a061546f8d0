# Sourced by the zsh that tests/tools/zsh_offers.zsh starts: completion as it is set up for a user,
# but that the words are printed.
unsetopt zle_bracketed_paste 2>/dev/null
PROMPT=
fpath=($1 $fpath)
autoload -Uz compinit
compinit -D -u
zstyle ':completion:*' list-grouped false

compadd() { # prints what it adds, as it would stand on the line
    local -a hits
    if [[ ${@[1,(i)(-|--)]} == *-(O|A|D)\ * ]]; then
        builtin compadd "$@"
        return
    fi
    builtin compadd -A hits "$@"
    builtin compadd "$@"
    local status_of=$?
    (( $#hits )) && print -rl -- $hits
    return status_of
}

say_begin() { print BEGIN }
say_end() { print END; exit }
compprefuncs=(say_begin)
comppostfuncs=(say_end)
bindkey '^I' complete-word
print READY
