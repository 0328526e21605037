# Words for ariadne-draw in bash: source this file.
_ariadne_draw() {
    local word=${COMP_WORDS[COMP_CWORD]} at
    COMPREPLY=()
    # (Options come first: behind the message there are none.)
    for ((at = 1; at < COMP_CWORD; at++)); do
        case ${COMP_WORDS[at]} in
            --file)
                at=$((at + 1))
                [ "$at" -lt "$COMP_CWORD" ] || { COMPREPLY=($(compgen -f -- "$word")); return; }
                ;;
            --ascii|--plain|--compact|--bytes) ;;
            *) return ;;
        esac
    done
    COMPREPLY=($(compgen -W '--ascii --plain --compact --bytes --file --help --version' -- "$word"))
}
complete -o filenames -F _ariadne_draw ariadne-draw
