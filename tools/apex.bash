# Completion of apex's words for bash: source this file.
_apex() {
    local word="${COMP_WORDS[COMP_CWORD]}" before="${COMP_WORDS[COMP_CWORD - 1]}"
    if [ "$COMP_CWORD" -eq 1 ]; then
        mapfile -t COMPREPLY < <(compgen -W "check plan mean sim gen trace audit" -- "$word")
    elif [ "$COMP_CWORD" -eq 2 ] || [ "$before" = --script ] || [ "${COMP_WORDS[1]} $COMP_CWORD" = "audit 3" ]; then
        mapfile -t COMPREPLY < <(compgen -f -- "$word")
        compopt -o filenames 2>/dev/null
    elif { [ "${COMP_WORDS[1]}" = sim ] || [ "${COMP_WORDS[1]}" = trace ]; } && [ $((COMP_CWORD % 2)) -eq 1 ]; then
        mapfile -t COMPREPLY < <(compgen -W "--base --script --checkpoint --block --keep --order" -- "$word")
    elif [ "${COMP_WORDS[1]}" = audit ] && [ $((COMP_CWORD % 2)) -eq 0 ]; then
        mapfile -t COMPREPLY < <(compgen -W "--script --checkpoint" -- "$word")
    elif [ "${COMP_WORDS[1]}" = mean ] && [ "$COMP_CWORD" -eq 3 ]; then
        mapfile -t COMPREPLY < <(compgen -W "--base" -- "$word")
    else
        COMPREPLY=()
    fi
}
complete -F _apex apex ./apex ../apex ../../apex
