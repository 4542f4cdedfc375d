# Completion of segywb's command line for bash.
_segywb() {
    local word=${COMP_WORDS[COMP_CWORD]} before=${COMP_WORDS[COMP_CWORD - 1]}
    case $before in
        --script | --out) compopt -o filenames 2> /dev/null; mapfile -t COMPREPLY < <(compgen -f -- "$word") ;;
        --max-bytes) COMPREPLY=() ;;
        --order) mapfile -t COMPREPLY < <(compgen -W 'big little' -- "$word") ;;
        *)
            if [[ $word == -* ]]; then
                mapfile -t COMPREPLY < <(compgen -W '--script --session --save-at-end --out --in-place --recover --on-disk --fixed --samples --format --texts --tail --look --floats --opaque-samples --order --max-bytes --stop --quiet --help --version' -- "$word")
            else
                compopt -o filenames 2> /dev/null
                mapfile -t COMPREPLY < <(compgen -f -- "$word")
            fi ;;
    esac
}
complete -F _segywb segywb
