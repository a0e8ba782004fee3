# Completions of sedck-fmt for fish. tests/completions.py compares their words with what the program says.
complete -c sedck-fmt -s l -l check -d 'Print the names of scripts that differ'
complete -c sedck-fmt -s d -l diff -d 'Print what differs'
complete -c sedck-fmt -s w -l write -d 'Put the plain spelling in their place'
complete -c sedck-fmt -x -l stdin-filename -d 'The name of standard input'
complete -c sedck-fmt -l help -d 'Print help'
