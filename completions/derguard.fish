# Completion of derguard for fish. It goes to share/fish/vendor_completions.d.

# The policy on the command line: the first word after the command that is no option's value.
function __derguard_policy
    set -l words (commandline -opc)
    set -l passed
    set -e words[1]
    while set -q words[1]
        switch $words[1]
            case --from --to --message --frame --link --counts
                set -e words[1]
            case --der
                if test "$passed[1]" != encode
                    set -e words[1]
                end
            case '-*'
            case '*'
                set -a passed $words[1]
        end
        set -e words[1]
    end
    echo $passed[2]
end

# The names that the policy's text gives with a key in its tables: TABLE KEY. It knows tables that are written with
# [[message]] and [[rule]], each key on a line of its own.
function __derguard_names
    set -l policy (__derguard_policy)
    test -r "$policy"; or return
    awk -v table="[[$argv[1]]]" -v key="$argv[2]" '
        { sub(/[ \t]*(#.*)?$/, ""); sub(/^[ \t]*/, "") }
        /^\[/ { here = $0 == table }
        here && match($0, "^" key "[ \t]*=") && match($0, /"[^"]*"$/) { print substr($0, RSTART + 1, RLENGTH - 2) }
    ' $policy | grep -vxF '*' | sort -u
end

complete -c derguard -f
complete -c derguard -s h -l help -d 'show help'
complete -c derguard -n __fish_use_subcommand -s V -l version -d 'show the version'
complete -c derguard -n __fish_use_subcommand -a check -d 'say whether a policy and its modules are accepted'
complete -c derguard -n __fish_use_subcommand -a decide -d 'say what becomes of one message, and why'
complete -c derguard -n __fish_use_subcommand -a show -d 'show the value of one message'
complete -c derguard -n __fish_use_subcommand -a encode -d 'print the octets of a value'
complete -c derguard -n __fish_use_subcommand -a test -d 'try the cases that are kept beside a policy'
complete -c derguard -n __fish_use_subcommand -a compare -d 'say which frames a new policy decides otherwise'
complete -c derguard -n __fish_use_subcommand -a run -d 'guard a stream of frames'
complete -c derguard -n __fish_use_subcommand -a ask -d 'say what becomes of each frame'
complete -c derguard -n __fish_use_subcommand -a mux -d 'guard sixteen links in one stream of records'
complete -c derguard -n __fish_use_subcommand -a help -d 'show what a command does'
complete -c derguard -n '__fish_seen_subcommand_from help' -a 'check decide show encode test compare run ask mux'
complete -c derguard -n '__fish_seen_subcommand_from check decide show encode test run ask mux; and test -z (__derguard_policy)' \
    -a '(__fish_complete_suffix .toml)'
complete -c derguard -n '__fish_seen_subcommand_from compare' -a '(__fish_complete_suffix .toml)'
complete -c derguard -n '__fish_seen_subcommand_from check' -l explain -d 'list the rules, or show the place of a fault'
complete -c derguard -n '__fish_seen_subcommand_from decide' -l explain -d 'show the constraint or the place of a fault'
complete -c derguard -n '__fish_seen_subcommand_from decide encode' -l from -x -a '(__derguard_names rule from)' \
    -d 'the name of the sender'
complete -c derguard -n '__fish_seen_subcommand_from decide encode' -l to -x -a '(__derguard_names rule to)' \
    -d 'the name of the receiver'
complete -c derguard -n '__fish_seen_subcommand_from decide show encode' -l message -x -a '(__derguard_names message name)' \
    -d 'the name of the message in the policy'
complete -c derguard -n '__fish_seen_subcommand_from decide show' -l der -r -F -d 'a file that has the octets'
complete -c derguard -n '__fish_seen_subcommand_from decide show' -l frame -x -d 'the number of a frame on standard input'
complete -c derguard -n '__fish_seen_subcommand_from decide show' -l link -x -d 'the number of its link, where standard input is records'
complete -c derguard -n '__fish_seen_subcommand_from show' -l explain -d 'show the parts before what is wrong with the octets'
complete -c derguard -n '__fish_seen_subcommand_from show' -l capture -d 'write the frame itself, as a capture of one'
complete -c derguard -n '__fish_seen_subcommand_from compare' -l link -x -d 'the number of a link, where standard input is records'
complete -c derguard -n '__fish_seen_subcommand_from compare' -l by-place -d 'differ too where only the place of a constraint does'
complete -c derguard -n '__fish_seen_subcommand_from compare' -l summary -d 'count the frames of each rule in place of the lines'
complete -c derguard -n '__fish_seen_subcommand_from check' -l digest -d 'show SHA-256 over the policy and its modules'
complete -c derguard -n '__fish_seen_subcommand_from encode' -l der -d 'write the octets themselves'
complete -c derguard -n '__fish_seen_subcommand_from test' -l cover -d 'list the rules that no case reaches'
complete -c derguard -n '__fish_seen_subcommand_from test' -l explain -d 'show where a file of cases is no TOML document'
complete -c derguard -n '__fish_seen_subcommand_from check' -l strict -d 'say what is remarked, with status 1 if anything is'
complete -c derguard -n '__fish_seen_subcommand_from run mux' -l counts -r -F -d 'a file that is kept to what is counted'
complete -c derguard -n '__fish_seen_subcommand_from run mux' -l verbose -d 'count frames and reasons at the end'
complete -c derguard -n '__fish_seen_subcommand_from check decide test compare run ask mux' -l json -d 'write each line as JSON'
complete -c derguard -n '__fish_seen_subcommand_from show' -l json -d 'show the value as JSON'
