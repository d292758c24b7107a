# Completion of predicalc's words for fish: lay this file into ~/.config/fish/completions.

set -l modes replay edit check merge posts demo

complete -c predicalc -f
complete -c predicalc -n "not __fish_seen_subcommand_from $modes" -a replay -d 'a sheet and then commands from the input'
complete -c predicalc -n "not __fish_seen_subcommand_from $modes" -a edit -d 'commands from the input on the sheet of a file'
complete -c predicalc -n "not __fish_seen_subcommand_from $modes" -a check -d 'a certificate from the input against a sheet'
complete -c predicalc -n "not __fish_seen_subcommand_from $modes" -a merge -d 'the merge of two journals, a file and the input'
complete -c predicalc -n "not __fish_seen_subcommand_from $modes" -a posts -d 'the posts of a journal from the input on a sheet'
complete -c predicalc -n "not __fish_seen_subcommand_from $modes" -a demo -d 'a generated sheet of N blocks'
complete -c predicalc -n "__fish_seen_subcommand_from edit check posts" -k -a '(__fish_complete_suffix .sheet)'
complete -c predicalc -n "__fish_seen_subcommand_from merge" -F
complete -c predicalc -n "not __fish_seen_subcommand_from check merge; and not __fish_contains_opt budget" \
    -l budget -x -d 'propagations that the load and each edit may make'
