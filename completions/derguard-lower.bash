# Completion of derguard-lower for bash. It goes to share/bash-completion/completions/derguard-lower.

_derguard_lower() {
    local current=${COMP_WORDS[COMP_CWORD]} before=${COMP_WORDS[COMP_CWORD - 1]}
    COMPREPLY=()
    case $before in
        --message)
            # names of types that the files on the command line define
            local word files=()
            for word in "${COMP_WORDS[@]:1}"; do
                [[ $word == *.asn* && -r $word ]] && files+=("$word")
            done
            [ ${#files[@]} -eq 0 ] || mapfile -t COMPREPLY < <(
                compgen -W "$(sed -n 's/^[ \t]*\([A-Z][A-Za-z0-9-]*\)[ \t]*::=.*/\1/p' "${files[@]}" | sort -u)" -- "$current")
            return
            ;;
        -o | --output) mapfile -t COMPREPLY < <(compgen -d -- "$current") ;;
        *)
            if [[ $current == -* ]]; then
                mapfile -t COMPREPLY < <(compgen -W '--message --bindings --draft --output -o --help' -- "$current")
                return
            fi
            mapfile -t COMPREPLY < <(compgen -f -- "$current")
            ;;
    esac
    compopt -o filenames 2> /dev/null
}

complete -F _derguard_lower derguard-lower
