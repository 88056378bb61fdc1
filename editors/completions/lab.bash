# Completion of lab's words for bash: source this file, or put it into /etc/bash_completion.d.
# tools/gate/commands makes it of docs/data/commands.toml.

# The options of a command.
_lab_options() {
    case $1 in
        why) echo "--of --observer --env --machine --budget" ;;
        seen | leak) echo "--observer --env --machine --budget --refused" ;;
        timeline) echo "--env --machine --budget --observer --refused" ;;
        bound) echo "--observer --env --machine --budget" ;;
        steady) echo "--observer --parts --constant --whole" ;;
        tune) echo "--observer --env --machine --budget --of --bits" ;;
        check) echo "--json" ;;
    esac
}

# The labels that a program declares; L and H where it declares none.
_lab_labels() {
    local told
    told=$(sed -n 's/^[[:space:]]*labels[[:space:]]*\([^;]*\);.*/\1/p' "$1" 2>/dev/null | head -n 1 | tr ',' ' ')
    echo "${told:-L H}"
}

# The variables and arrays that a program declares.
_lab_names() {
    sed 's/;/;\n/g' "$1" 2>/dev/null | sed -n 's/^[[:space:]]*var[[:space:]]*\([A-Za-z][A-Za-z0-9_]*\).*/\1/p'
}

_lab() {
    local word=${COMP_WORDS[COMP_CWORD]} before=${COMP_WORDS[COMP_CWORD - 1]} command=${COMP_WORDS[1]:-} file
    COMPREPLY=()
    if [ "$COMP_CWORD" -eq 1 ]; then
        mapfile -t COMPREPLY < <(compgen -W "why seen timeline bound steady leak tune check help version" -- "$word")
        return
    fi
    case $command$before in tune--of) return ;; esac
    case $before in
        --of)
            for file in "${COMP_WORDS[@]}"; do
                case $file in *.mit) mapfile -t COMPREPLY < <(compgen -W "$(_lab_names "$file")" -- "$word") ;; esac
            done
            return
            ;;
        --observer)
            for file in "${COMP_WORDS[@]}"; do
                case $file in *.mit) mapfile -t COMPREPLY < <(compgen -W "$(_lab_labels "$file")" -- "$word") ;; esac
            done
            return
            ;;
        --env)
            mapfile -t COMPREPLY < <(compgen -W "flat part part2" -- "$word")
            return
            ;;
        --machine)
            compopt -o filenames 2>/dev/null
            mapfile -t COMPREPLY < <(compgen -f -- "$word")
            return
            ;;
        --parts)
            for file in "${COMP_WORDS[@]}"; do
                case $file in *.mit) mapfile -t COMPREPLY < <(compgen -W "$(_lab_labels "$file")" -- "$word") ;; esac
            done
            return
            ;;
        --budget | --constant | --bits) return ;;
    esac
    case $word in
        -*) mapfile -t COMPREPLY < <(compgen -W "$(_lab_options "$command")" -- "$word") ;;
        *)
            case $command in
                help) mapfile -t COMPREPLY < <(compgen -W "why seen timeline bound steady leak tune check help version" -- "$word") ;;
                version) ;;
                *)
                    compopt -o filenames 2>/dev/null
                    mapfile -t COMPREPLY < <(compgen -f -- "$word")
                    ;;
            esac
            ;;
    esac
}

complete -F _lab lab ./lab
