# Completion of span for fish: commands, options, numbers of workers, and files. tools/texts compares it with the program's help.

complete -c span -f
complete -c span -s h -l help -d 'Print help'
complete -c span -n __fish_use_subcommand -s V -l version -d 'Print version'

complete -c span -n __fish_use_subcommand -a margin -d 'Print the margin statement of every account'
complete -c span -n __fish_use_subcommand -a explain -d 'Print the statement with the reasons for every figure'
complete -c span -n __fish_use_subcommand -a whatif -d 'Print what each order would do to the margin of its account'
complete -c span -n __fish_use_subcommand -a session -d 'Answer requests on standard input'
complete -c span -n __fish_use_subcommand -a roll -d 'Print the statement under one parameter set, then under the next'
complete -c span -n __fish_use_subcommand -a faults -d 'Print every error in the files'
complete -c span -n __fish_use_subcommand -a check -d 'Check a parameter set, and print its counts'
complete -c span -n __fish_use_subcommand -a plan -d 'Print the calculation steps of a parameter set'
complete -c span -n __fish_use_subcommand -a help -d 'Print this message or the help of the given subcommand(s)'

complete -c span -n '__fish_seen_subcommand_from help' -a 'margin explain whatif session roll faults check plan'
complete -c span -n 'not __fish_seen_subcommand_from help; and __fish_seen_subcommand_from margin explain whatif session roll faults check plan' -F
complete -c span -n '__fish_seen_subcommand_from margin whatif session roll' -l workers -x -a '(seq 16)' \
    -d 'Worker threads, 1 to 16; use at most the number of processors'
complete -c span -n '__fish_seen_subcommand_from explain' -l account -x \
    -d 'Explain only this account; by default all accounts are explained'
