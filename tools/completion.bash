# Completion of the words of backsim and backsim_check for bash, installed as share/bash-completion/completions/backsim and .../backsim_check.

_backsim() {
    local word=${COMP_WORDS[COMP_CWORD]} before=${COMP_WORDS[COMP_CWORD - 1]}
    COMPREPLY=()
    case $before in
        # a number, which nobody can guess
        --workers | --shards | --cells | --work) return ;;
    esac
    case $word in
        -*) mapfile -t COMPREPLY < <(compgen -W '--workers --shards --cells --work' -- "$word") ;;
        *)
            compopt -o filenames 2>/dev/null
            mapfile -t COMPREPLY < <(compgen -f -- "$word")
            ;;
    esac
}

_backsim_check() {
    compopt -o filenames 2>/dev/null
    mapfile -t COMPREPLY < <(compgen -f -- "${COMP_WORDS[COMP_CWORD]}")
}

complete -F _backsim backsim
complete -F _backsim_check backsim_check
