# Completion of derguard for bash. It goes to share/bash-completion/completions/derguard.

# The names that a policy's text gives with a key in its tables: TABLE KEY POLICY. It knows tables that are written with
# [[message]] and [[rule]], each key on a line of its own.
_derguard_names() {
    [ -r "$3" ] && awk -v table="[[$1]]" -v key="$2" '
        { sub(/[ \t]*(#.*)?$/, ""); sub(/^[ \t]*/, "") }
        /^\[/ { here = $0 == table }
        here && match($0, "^" key "[ \t]*=") && match($0, /"[^"]*"$/) { print substr($0, RSTART + 1, RLENGTH - 2) }
    ' "$3" | grep -vxF '*' | sort -u
}

_derguard() {
    local current=${COMP_WORDS[COMP_CWORD]} before=${COMP_WORDS[COMP_CWORD - 1]} command= policy= word number
    COMPREPLY=()
    for ((number = 1; number < COMP_CWORD; number++)); do
        word=${COMP_WORDS[number]}
        case $word in
            --from | --to | --message | --frame | --link | --counts) ((number++)) ;;
            --der) [ "$command" = encode ] || ((number++)) ;;
            -*) ;;
            *) if [ -z "$command" ]; then command=$word; elif [ -z "$policy" ]; then policy=$word; fi ;;
        esac
    done
    if [[ $command == decide || $command == show || $command == encode ]] && [ -n "$policy" ]; then
        case $before in
            --message) mapfile -t COMPREPLY < <(compgen -W "$(_derguard_names message name "$policy")" -- "$current") ;;
            --from) mapfile -t COMPREPLY < <(compgen -W "$(_derguard_names rule from "$policy")" -- "$current") ;;
            --to) mapfile -t COMPREPLY < <(compgen -W "$(_derguard_names rule to "$policy")" -- "$current") ;;
        esac
    fi
    if [[ $before == --der && ($command == decide || $command == show) ]] ||
        [[ $before == --counts && ($command == run || $command == mux) ]]; then
        compopt -o filenames 2> /dev/null
        mapfile -t COMPREPLY < <(compgen -f -- "$current")
        return
    fi
    case $before in
        --from | --to | --message | --frame | --link) return ;;
    esac
    case $command in
        '') mapfile -t COMPREPLY < <(compgen -W 'check decide show encode test compare run ask mux help --help --version' -- "$current") ;;
        help) [ -n "$policy" ] || mapfile -t COMPREPLY < <(compgen -W 'check decide show encode test compare run ask mux' -- "$current") ;;
        check | run | ask | mux | decide | show | encode | test | compare)
            if [[ $current == -* ]]; then
                word=--help
                if [ "$command" = check ]; then word='--explain --strict --digest --json --help'; fi
                if [ "$command" = run ] || [ "$command" = mux ]; then word='--verbose --counts --json --help'; fi
                if [ "$command" = ask ]; then word='--json --help'; fi
                if [ "$command" = decide ]; then word='--from --to --message --der --frame --link --explain --json --help'; fi
                if [ "$command" = show ]; then word='--message --der --frame --link --capture --explain --json --help'; fi
                if [ "$command" = encode ]; then word='--message --from --to --der --help'; fi
                if [ "$command" = test ]; then word='--cover --explain --json --help'; fi
                if [ "$command" = compare ]; then word='--by-place --summary --link --json --help'; fi
                mapfile -t COMPREPLY < <(compgen -W "$word" -- "$current")
            elif [ -z "$policy" ] || [ "$command" = test ] || [ "$command" = compare ]; then
                compopt -o filenames 2> /dev/null
                mapfile -t COMPREPLY < <(
                    compgen -f -X '!*.toml' -- "$current"
                    compgen -d -- "$current"
                )
            elif [ "$command" = decide ]; then
                mapfile -t COMPREPLY < <(compgen -W '--from --to --message' -- "$current")
            elif [ "$command" = show ] || [ "$command" = encode ]; then
                mapfile -t COMPREPLY < <(compgen -W '--message' -- "$current")
            fi
            ;;
    esac
}

complete -F _derguard derguard
