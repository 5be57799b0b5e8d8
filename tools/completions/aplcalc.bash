# Completions of aplcalc for bash.
_aplcalc() {
    local word=${COMP_WORDS[COMP_CWORD]} before=${COMP_WORDS[COMP_CWORD - 1]} known='--workers --piece --schedule --help'
    # Readline takes '=' for a word of its own.
    if [[ $word == '=' ]]; then
        word=
    elif [[ $before == '=' && $COMP_CWORD -ge 2 ]]; then
        before=${COMP_WORDS[COMP_CWORD - 2]}
    fi
    case $before in
        --schedule) known='claims deques' ;;
        --workers | --piece) known= ;;
    esac
    mapfile -t COMPREPLY < <(compgen -W "$known" -- "$word")
}
complete -F _aplcalc aplcalc
