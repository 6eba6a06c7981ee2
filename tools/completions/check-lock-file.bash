# bash completion for check-lock-file, generated from its help text by tools/make-completions.py.
_check_lock_file() {
    local word=${COMP_WORDS[COMP_CWORD]} before=${COMP_WORDS[COMP_CWORD - 1]}
    [ "$word" != = ] || word=
    [ "$before" != = ] || before=${COMP_WORDS[COMP_CWORD - 2]}
    COMPREPLY=()
    case $before in
    --format) COMPREPLY=($(compgen -W 'text tsv json github sarif' -- "$word")); return ;;
    --color) COMPREPLY=($(compgen -W 'auto always never' -- "$word")); return ;;
    --allow | --package-json) COMPREPLY=($(compgen -f -- "$word")); return ;;
    esac
    case $word in
    -*) COMPREPLY=($(compgen -W '--format --json --allow --no-dev --no-peers --package-json --strict --why --duplicates --color --quiet --version -h --help' -- "$word")) ;;
    *) COMPREPLY=($(compgen -f -- "$word")) ;;
    esac
}
complete -o filenames -F _check_lock_file check-lock-file
