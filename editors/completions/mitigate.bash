# Completion of mitigate's words for bash: source this file, or put it into /etc/bash_completion.d.
# tools/gate/commands makes it of docs/data/commands.toml.

# The options of a command.
_mitigate_options() {
    case $1 in
        run) echo "--env --budget --observer" ;;
        meaning) echo "--steps" ;;
        audit | cut) echo "--observer --env --budget" ;;
        blackbox) echo "--first --budget" ;;
    esac
}

# The labels that a program declares; L and H where it declares none.
_mitigate_labels() {
    local told
    told=$(sed -n 's/^[[:space:]]*labels[[:space:]]*\([^;]*\);.*/\1/p' "$1" 2>/dev/null | head -n 1 | tr ',' ' ')
    echo "${told:-L H}"
}

_mitigate() {
    local word=${COMP_WORDS[COMP_CWORD]} before=${COMP_WORDS[COMP_CWORD - 1]} command=${COMP_WORDS[1]:-} file
    COMPREPLY=()
    if [ "$COMP_CWORD" -eq 1 ]; then
        mapfile -t COMPREPLY < <(compgen -W "check infer compile run meaning audit gen cut blackbox certify recheck" -- "$word")
        return
    fi
    case $before in
        --env)
            mapfile -t COMPREPLY < <(compgen -W "flat part part2" -- "$word")
            return
            ;;
        --observer)
            for file in "${COMP_WORDS[@]}"; do
                case $file in *.mit) mapfile -t COMPREPLY < <(compgen -W "$(_mitigate_labels "$file")" -- "$word") ;; esac
            done
            return
            ;;
        --budget | --steps | --first) return ;;
    esac
    case $word in
        -*) mapfile -t COMPREPLY < <(compgen -W "$(_mitigate_options "$command")" -- "$word") ;;
        *)
            case $command in
                gen) ;;
                *)
                    compopt -o filenames 2>/dev/null
                    mapfile -t COMPREPLY < <(compgen -f -- "$word")
                    ;;
            esac
            ;;
    esac
}

complete -F _mitigate mitigate ./mitigate
