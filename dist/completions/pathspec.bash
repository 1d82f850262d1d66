# Completions of pathspec for bash.

_pathspec() {
    local word=${COMP_WORDS[COMP_CWORD]} before=${COMP_WORDS[COMP_CWORD - 1]} command= options= place
    local specs='--specs-from --prefix --root --icase --glob --noglob --literal --help'
    local attributes='--attr --attr-from --attributes --global'
    COMPREPLY=()
    for ((place = 1; place < COMP_CWORD; place++)); do
        case ${COMP_WORDS[place]} in
            filter | list | explain | show) command=${COMP_WORDS[place]}; break ;;
        esac
    done
    # Behind `--` stand specs alone.
    for ((place++; place < COMP_CWORD; place++)); do
        if [[ ${COMP_WORDS[place]} == -- ]]; then
            compopt -o filenames 2>/dev/null
            mapfile -t COMPREPLY < <(compgen -f -- "$word")
            return
        fi
    done
    case $before in
        --prefix | --root | --attributes | -C)
            compopt -o filenames 2>/dev/null
            mapfile -t COMPREPLY < <(compgen -d -- "$word")
            return ;;
        --specs-from | --attr-from | --attr | --path)
            compopt -o filenames 2>/dev/null
            mapfile -t COMPREPLY < <(compgen -f -- "$word")
            return ;;
    esac
    case $command in
        '') mapfile -t COMPREPLY < <(compgen -W 'filter list explain show --help --version' -- "$word"); return ;;
        filter) options="$specs $attributes --null --verbatim --invert --count --quiet --error-unmatch --stats" ;;
        list) options="$specs $attributes -C --null --count --quiet --error-unmatch --stats --dirs --nested --unsorted --" ;;
        explain) options="$specs $attributes --path --null --all --json" ;;
        show) options=$specs ;;
    esac
    if [[ $word == -* ]]; then
        mapfile -t COMPREPLY < <(compgen -W "$options" -- "$word")
    elif [[ $command == list ]]; then
        # Before `--` stands a directory.
        compopt -o filenames 2>/dev/null
        mapfile -t COMPREPLY < <(compgen -d -- "$word")
    else
        compopt -o filenames 2>/dev/null
        mapfile -t COMPREPLY < <(compgen -f -- "$word")
    fi
}

complete -F _pathspec pathspec
