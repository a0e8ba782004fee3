# Completions of sedck-run for fish. tests/completions.py compares their words with what the program says.
complete -c sedck-run -l help -d 'Print help'
