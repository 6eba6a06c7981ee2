# bash completion for release-filter, generated from its help text by tools/make-completions.py.
_release_filter() {
    local word=${COMP_WORDS[COMP_CWORD]} before=${COMP_WORDS[COMP_CWORD - 1]}
    [ "$word" != = ] || word=
    [ "$before" != = ] || before=${COMP_WORDS[COMP_CWORD - 2]}
    COMPREPLY=()
    case $before in
    --dialect | --as) COMPREPLY=($(compgen -W 'cargo npm crate-cargo crate-npm' -- "$word")); return ;;
    --only) COMPREPLY=($(compgen -W 'releases pre-releases' -- "$word")); return ;;
    esac
    case $word in
    -*) COMPREPLY=($(compgen -W '--dialect --as --npm --include-prerelease --pre --releases-only --releases --only --invert --highest --lowest --greatest --least --sort --reverse --prefix --strip-prefix --count --strict --json --null --line-buffered -h --help --version' -- "$word")) ;;
    *) COMPREPLY=($(compgen -f -- "$word")) ;;
    esac
}
complete -o filenames -F _release_filter release-filter
