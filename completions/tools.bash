# Completion of the command lines of segywb-plot, segywb-report, segywb-desk and segywb-library for bash.
_segywb_tool() {
    local tool=${COMP_WORDS[0]##*/} word=${COMP_WORDS[COMP_CWORD]} before=${COMP_WORDS[COMP_CWORD - 1]} words='' pictures=''
    case $tool in
        segywb-plot) words='--script --fixed --opaque-samples --on-disk --order --samples --format --texts --tail --max-bytes --clip --all --inlines --crosslines --size --help' pictures='fold slice coordinates histogram' ;;
        segywb-report) words='--fixed --opaque-samples --on-disk --order --samples --format --texts --tail --max-bytes --no-pictures --help' ;;
        segywb-desk) words='--out --port --no-browser --fixed --on-disk --order --samples --format --texts --tail --max-bytes --help' ;;
        segywb-library)
            pictures='scan merge report mend verify undo'
            case " ${COMP_WORDS[*]:1:COMP_CWORD - 1} " in
                *' scan '*) words='--db --list --part --again --follow --jobs --workers --dask --limit --quiet --help' pictures='' ;;
                *' merge '*) words='--db --quiet --help' pictures='' ;;
                *' report '*) words='--db --out --csv --help' pictures='' ;;
                *' mend '*) words='--db --script --where --out --over --in-place --keep --apply --dry-run --twice --go-on --fixed --order --samples --format --texts --tail --limit --jobs --quiet --help' pictures='' ;;
                *' verify '*) words='--db --jobs --help' pictures='' ;;
                *' undo '*) words='--db --run --apply --limit --jobs --help' pictures='' ;;
                *) words='--help' ;;
            esac ;;
    esac
    case $before in
        --max-bytes | --samples | --format | --texts | --clip | --inlines | --crosslines | --size | --port | --part | --jobs | --workers | --dask | --limit | --where | --run | slice) COMPREPLY=(); return ;;
        --order) mapfile -t COMPREPLY < <(compgen -W 'big little' -- "$word"); return ;;
        --script | --out | --db | --list | --csv | --keep) pictures='' ;;
        *) if [[ $word == -* ]]; then mapfile -t COMPREPLY < <(compgen -W "$words" -- "$word"); return; fi ;;
    esac
    compopt -o filenames 2> /dev/null
    mapfile -t COMPREPLY < <(compgen -W "$pictures" -- "$word"; compgen -f -- "$word")
}
complete -F _segywb_tool segywb-plot segywb-report segywb-desk segywb-library
