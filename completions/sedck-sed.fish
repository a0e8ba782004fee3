# Completions of sedck-sed for fish. tests/completions.py compares their words with what the program says.
complete -c sedck-sed -x -l mode -a 'log warn refuse' -d 'How calls of sed are treated'
complete -c sedck-sed -f -l dir -d 'Print the folder to put first into the path'
complete -c sedck-sed -f -l help -d 'Print help'
