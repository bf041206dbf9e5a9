# Completion of the command hac for bash: commands and options as `hac --help` names them, else files. Sourced, or put where
# bash-completion looks, which host/install does.
_hac() {
    local word=${COMP_WORDS[COMP_CWORD]}
    COMPREPLY=()
    if [[ $word == -* ]]; then
        mapfile -t COMPREPLY < <(compgen -W "$(hac --help | grep -o -e '--[a-z][a-z]*' | sort -u)" -- "$word")
    elif [[ $COMP_CWORD == 1 ]]; then
        mapfile -t COMPREPLY < <(compgen -W "$(hac --help | sed -n 's/^  hac \([a-z][a-z]*\).*/\1/p')" -- "$word")
    fi
}
complete -o bashdefault -o default -F _hac hac
