# Completions of sedck-explain for fish. tests/completions.py compares their words with what the program says.
complete -c sedck-explain -l format -x -a 'text gcc json sarif html dot sed' -d 'How the report is printed'
complete -c sedck-explain -l level -x -a 'error warning note' -d 'The least level of findings'
complete -c sedck-explain -l no-comments -d 'Leave out the comments of a script'
complete -c sedck-explain -l cert -r -d 'Judge this certificate'
set -l warnings options-in-first-line brace-behind-label looks-extended one-line-text silencing-comment locale backslash-in-list class-without-list range-in-y \
    stream-name device-name absolute-name upward-name unprintable-name blank-at-end command-in-name hidden-name makefile-name option-name shell-byte-in-name \
    read-and-written same-file names-itself writes-its-input unknown-code in-place
complete -c sedck-explain -l deny -x -a "(__fish_append , reads writes warnings unbounded growing slow references $warnings)" -d 'What ends with status 1'
complete -c sedck-explain -l allow -x -a "(__fish_append , $warnings)" -d 'Warnings that --deny leaves alone'
complete -c sedck-explain -l locale -x -a 'C POSIX C.UTF-8' -d 'The locale in which sed runs'
complete -c sedck-explain -l stdin-filename -x -d 'The name of standard input'
complete -c sedck-explain -l sed -d 'Explain a call of sed'
complete -c sedck-explain -l calls -d 'Explain the calls of sed in files'
complete -c sedck-explain -l as -x -a 'sh make docker yaml spec m4 systemd' -d 'What the files are'
complete -c sedck-explain -l assume -x -d 'The value of a variable'
complete -c sedck-explain -l assume-set -x -a autoconf -d 'A set of values'
complete -c sedck-explain -l mend -d 'Read delimiters in lists as parts of them'
complete -c sedck-explain -l at -x -d 'Which call of the file is meant'
complete -c sedck-explain -s h -l help -d 'Print help'
complete -c sedck-explain -s V -l version -d 'Print version'
