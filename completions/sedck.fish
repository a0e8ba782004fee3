# Completions of sedck for fish. tests/completions.py compares their words with what the program says.
complete -c sedck -n __fish_use_subcommand -f -a check -d 'Judge a certificate'
complete -c sedck -n __fish_use_subcommand -f -a files -d 'List the files'
complete -c sedck -n __fish_use_subcommand -f -a graph -d 'Print the flow graph'
complete -c sedck -n __fish_use_subcommand -f -a rank -d 'Search for a certificate'
complete -c sedck -n __fish_use_subcommand -f -a upgrade -d 'Write a certificate in version 2'
