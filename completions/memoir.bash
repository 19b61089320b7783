# Completes the words of memoir in bash. What there is comes from `memoir --help`.
_memoir() {
    local command=${COMP_WORDS[0]} word=${COMP_WORDS[COMP_CWORD]} help form names=''
    help=$("$command" --help 2>/dev/null) || return
    if [ "$COMP_CWORD" = 1 ]; then
        names="--help $(sed -n 's/^memoir \([a-z]*\).*/\1/p' <<<"$help")"
    else
        form=$(sed -n "s/^memoir ${COMP_WORDS[1]} //p" <<<"$help" | cut -d ' ' -f "$((COMP_CWORD - 1))")
        case $form in
            VARIANT | MODULE) names=$(sed -n "s/^$form is //; T; s/,//g; s/ or / /; p" <<<"$help") ;;
        esac
    fi
    COMPREPLY=($(compgen -W "$names" -- "$word"))
}
complete -F _memoir memoir
