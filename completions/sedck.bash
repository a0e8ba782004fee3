# Completions of sedck, sedck-explain, sedck-fmt, sedck-known, sedck-run and sedck-sed for bash. tests/completions.py compares their words with what the programs say.

# Completes with these words, or with files where there are none.
_sedck_reply() {
    local word=${COMP_WORDS[COMP_CWORD]}
    if [ $# -gt 0 ]; then
        mapfile -t COMPREPLY < <(compgen -W "$*" -- "$word")
    else
        mapfile -t COMPREPLY < <(compgen -f -- "$word")
        compopt -o filenames 2> /dev/null
    fi
}

_sedck() {
    case $COMP_CWORD in
        1) _sedck_reply check files graph rank upgrade ;;
        *) _sedck_reply ;;
    esac
}

# The codes of warnings.
_sedck_warnings='options-in-first-line brace-behind-label looks-extended one-line-text silencing-comment locale backslash-in-list class-without-list range-in-y
stream-name device-name absolute-name upward-name unprintable-name blank-at-end command-in-name hidden-name makefile-name option-name shell-byte-in-name
read-and-written same-file names-itself writes-its-input unknown-code in-place'

# The values of --deny and --allow are lists: what stands before the last comma stays.
_sedck_list() {
    local word=${COMP_WORDS[COMP_CWORD]} front=''
    case $word in *,*) front=${word%,*}, ;; esac
    mapfile -t COMPREPLY < <(compgen -P "$front" -W "$*" -- "${word##*,}")
    compopt -o nospace 2> /dev/null
}

_sedck_explain() {
    local at
    for ((at = 1; at < COMP_CWORD; at++)); do
        [ "${COMP_WORDS[at]}" != -- ] || { _sedck_reply; return; }
    done
    case ${COMP_WORDS[COMP_CWORD - 1]} in
        --format) _sedck_reply text gcc json sarif html dot sed ;;
        --level) _sedck_reply error warning note ;;
        --deny) _sedck_list reads writes warnings unbounded growing slow references $_sedck_warnings ;;
        --allow) _sedck_list $_sedck_warnings ;;
        --locale) _sedck_reply C POSIX C.UTF-8 ;;
        --as) _sedck_reply sh make docker yaml spec m4 systemd ;;
        --assume | --at | --stdin-filename) COMPREPLY=() ;;
        --assume-set) _sedck_reply autoconf ;;
        *)
            case ${COMP_WORDS[COMP_CWORD]} in
                -*) _sedck_reply --format --level --no-comments --cert --deny --allow --locale --stdin-filename --sed --calls --as --assume --assume-set --mend --at --help --version -- ;;
                *) _sedck_reply ;;
            esac ;;
    esac
}

_sedck_fmt() {
    case ${COMP_WORDS[COMP_CWORD - 1]}/${COMP_WORDS[COMP_CWORD]} in
        --stdin-filename/*) COMPREPLY=() ;;
        */-*) _sedck_reply --check --diff --write --stdin-filename --help -l -d -w ;;
        *) _sedck_reply ;;
    esac
}

_sedck_known() {
    case ${COMP_WORDS[COMP_CWORD - 1]}/${COMP_WORDS[COMP_CWORD]} in
        --deny/*) _sedck_list reads writes warnings unbounded growing slow references $_sedck_warnings ;;
        --allow/*) _sedck_list $_sedck_warnings ;;
        */-*) _sedck_reply --write --changed --calls --deny --allow --help ;;
        *) _sedck_reply ;;
    esac
}

_sedck_run() {
    case ${COMP_WORDS[COMP_CWORD]} in
        -*) _sedck_reply --help ;;
        *) _sedck_reply ;;
    esac
}

_sedck_sed() {
    case $COMP_CWORD${COMP_WORDS[1]}/${COMP_WORDS[COMP_CWORD]} in
        1*/-*) _sedck_reply --mode --dir --help ;;
        2--mode/*) _sedck_reply log warn refuse ;;
        2--dir/* | 2--help/*) COMPREPLY=() ;;
        1* | 3--mode/*) mapfile -t COMPREPLY < <(compgen -c -- "${COMP_WORDS[COMP_CWORD]}") ;;
        *) _sedck_reply ;;
    esac
}

complete -F _sedck sedck
complete -F _sedck_explain sedck-explain
complete -F _sedck_fmt sedck-fmt
complete -F _sedck_known sedck-known
complete -F _sedck_run sedck-run
complete -F _sedck_sed sedck-sed
