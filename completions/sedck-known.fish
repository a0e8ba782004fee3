# Completions of sedck-known for fish. tests/completions.py compares their words with what the program says.
complete -c sedck-known -l write -d 'Write the entries for the present errors'
complete -c sedck-known -l changed -d 'Leave the entries of other files alone'
complete -c sedck-known -l calls -d 'Judge the calls of sed in files'
set -l warnings options-in-first-line brace-behind-label looks-extended one-line-text silencing-comment locale backslash-in-list class-without-list range-in-y \
    stream-name device-name absolute-name upward-name unprintable-name blank-at-end command-in-name hidden-name makefile-name option-name shell-byte-in-name \
    read-and-written same-file names-itself writes-its-input unknown-code in-place
complete -c sedck-known -l deny -x -a "(__fish_append , reads writes warnings unbounded growing slow references $warnings)" -d 'What makes an accepted script an error'
complete -c sedck-known -l allow -x -a "(__fish_append , $warnings)" -d 'Warnings that --deny leaves alone'
complete -c sedck-known -l help -d 'Print help'
