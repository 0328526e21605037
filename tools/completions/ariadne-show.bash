# Words for ariadne-show in bash: source this file.
_ariadne_show() {
    local word=${COMP_WORDS[COMP_CWORD]} before=${COMP_WORDS[COMP_CWORD - 1]} words
    # (The `=` of --color=never is a word of its own.)
    [ "$before" != = ] || before=${COMP_WORDS[COMP_CWORD - 2]}
    [ "$word" != = ] || word=
    case $before in
        --format) words='auto rustc gcc lines report' ;;
        --columns) words='bytes chars utf16 display' ;;
        --first-column) words='0 1' ;;
        --output) words='picture short github sarif' ;;
        --severity) words='error warning note' ;;
        --color) words='auto always never' ;;
        --fail-on) words='error warning never' ;;
        --width) words='auto full' ;;
        --base) COMPREPLY=($(compgen -d -- "$word")); return ;;
        --matcher) COMPREPLY=($(compgen -f -- "$word")); return ;;
        --max|--context|--tool) return ;;
        *)
            words='--format --columns --first-column --tool --matcher --base --output --severity --max --context --width --raw
                --color --ascii --compact --short --fail-on --help --version'
            [[ $word = -* ]] || { COMPREPLY=($(compgen -f -- "$word")); return; }
            ;;
    esac
    COMPREPLY=($(compgen -W "$words" -- "$word"))
}
complete -o filenames -F _ariadne_show ariadne-show
