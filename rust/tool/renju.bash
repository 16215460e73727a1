# Completions of renju for bash, written by renju --completions bash.
_renju() {
    local word=${COMP_WORDS[COMP_CWORD]} words=
    COMPREPLY=()
    if [ "$COMP_CWORD" = 1 ]; then
        words='list verdict game sgf tag mend convert hint depth turn svg check help --help --version --man --completions'
    elif [[ $word == -* ]]; then
        case ${COMP_WORDS[1]} in
        list) words='--json --colour --help' ;;
        verdict) words='--plain --json --colour --help' ;;
        game) words='--sgf --moves --faults --stream --quiet --json --colour --help' ;;
        sgf) words='--back --json --colour --help' ;;
        tag) words='--back --view --bytes --json --colour --help' ;;
        mend) words='--json --colour --help' ;;
        convert) words='--back --numbered --json --colour --help' ;;
        hint) words='--white --limit --shortest --json --colour --help' ;;
        depth) words='--json --colour --help' ;;
        turn) words='--json --colour --help' ;;
        svg) words='--view --words --json --colour --help' ;;
        check) words='--quiet --json --colour --help' ;;
        esac
    else
        case ${COMP_WORDS[1]} in
        help) words='list verdict game sgf tag mend convert hint depth turn svg check' ;;
        --completions) words=bash ;;
        *) mapfile -t COMPREPLY < <(compgen -f -- "$word") ;;
        esac
    fi
    [ -z "$words" ] || mapfile -t COMPREPLY < <(compgen -W "$words" -- "$word")
}
complete -o filenames -F _renju renju
