#!/bin/sh
# Checks the examples by what their README.md says: the answer in each row of its tables, each certificate as `rank`
# writes it, what each command prints that the documents show, the answers in docs/FAULTS.md and docs/MENDING.md,
# the table of edges, the pages of faults, the pictures, and docs/DEFINITIONS.md. Needs build/sedck, build/sedck-explain and Python 3; blocks that need
# more, as a sed, are left out where it is missing. Says what was left out and what failed, and ends with status 1 on any failure.

CDPATH= cd -- "$(dirname -- "$0")/.." || exit 1
for program in sedck sedck-explain; do
    [ -x build/$program ] || { echo "documents: build/$program is missing; make build makes it" >&2; exit 1; }
done
scratch=${TMPDIR:-/tmp}/sedck-documents.$$
mkdir "$scratch" || exit 1
trap 'rm -rf "$scratch"' EXIT
trap 'exit 1' HUP INT PIPE TERM
mkdir -p "$scratch/build" "$scratch/libexec/sedck" && cp build/sedck build/sedck-explain wrapper/sedck-fmt wrapper/sedck-known wrapper/sedck-run wrapper/sedck-sed "$scratch/build" &&
    cp wrapper/sed "$scratch/libexec/sedck" && cp -R examples "$scratch" || exit 1
documents=$PWD
cd "$scratch/examples" || exit 1
failures=0

fail() {
    echo "documents: $*" >&2
    failures=$((failures + 1))
}

# Says that something is left out, as tests/skips.py does.
skip() {
    echo "documents: skipped: $*" >&2
    [ -z "$SEDCK_SKIPPED" ] || echo "documents: skipped: $*" >> "$SEDCK_SKIPPED"
}

# The cells of a table's row without backquotes, and its answer one line each.
cell() { printf '%s\n' "$row" | awk -F ' *[|] *' -v at="$1" '{ gsub("`", ""); print $at }'; }
answer_of() { cell 4 | awk '{ gsub(", ", "\n"); print }'; }

# Asks sedck: the arguments are the status and the text that are due, and then those of sedck.
ask() {
    due_status=$1 due_text=$2
    shift 2
    text=$(../build/sedck "$@" 2>&1)
    status=$?
    [ $status -eq "$due_status" ] || fail "$*: the status is $status, not $due_status"
    [ "$text" = "$due_text" ] || fail "$*: sedck prints
$text
  and not
$due_text"
}

# The first table: accepted, with the certificate that rank writes.
grep '^| `.*| `accepted`' README.md | grep -v '^| `check ' > rows
while IFS= read -r row; do
    name=$(cell 2)
    ../build/sedck rank "$name.sed" > ranked || fail "rank $name.sed: no certificate is found"
    cmp -s ranked "$name.cert" || fail "$name.cert isn't what rank writes for $name.sed"
    lists=$(awk '/^read /{ on = 1 } $0 != "end" && on' "$name.cert")
    ask 0 "$(answer_of; printf '%s\n' "$lists")" check "$name.sed" "$name.cert"
done < rows

# The second table: arguments, status, text.
grep -E '^\| `(rank|check|files|graph) ' README.md > others
while IFS= read -r row; do
    # The arguments are names of files and contain no blanks.
    # shellcheck disable=SC2046
    ask "$(cell 3)" "$(answer_of)" $(cell 2)
done < others

for script in *.sed; do
    cat rows others | grep -q -e "\`${script%.sed}\`" -e " $script" || fail "$script is in no table of README.md"
done

# Whether this machine has what a block needs: a program, GNU sed, a sed with a match that never ends, or a locale in UTF-8.
has() {
    case $1 in
        gnu-sed) LC_ALL=C sed --version 2> /dev/null | grep -q '^sed (GNU sed)' ;;
        lacking-match) [ "$(ulimit -v 60000; { head -c 5000000 /dev/zero | tr '\0' a; echo; } | LC_ALL=C sed 's/^\(.*\)a$/X/' 2> /dev/null | wc -c)" = 5000001 ] ;;
        utf-8) locale -a 2> /dev/null | grep -qi '^C[.]utf-*8$' ;;
        *) command -v "$1" > /dev/null ;;
    esac
}

# Runs each command of the file `shown`, and compares what they print with it.
run_shown() {
    grep -q '^[$] ' shown || fail "$1 shows no command"
    awk 'sub(/^[$] /, "")' shown | while IFS= read -r command; do
        printf '$ %s\n' "$command"
        sh -c "$command" 2>&1 < /dev/null
    done > printed
    diff shown printed >&2 || fail "$1 shows (<) what isn't printed (>)"
}

# Prints what the blocks of a document show, each of which begins with a line of words that it needs; leaves blocks out for
# which this machine lacks one of these, and says so.
blocks_that_run() {
    lacks=' '
    for need in $(awk '/^needs /' blocks | tr ' ' '\n' | sort -u); do
        [ "$need" = needs ] || has "$need" || lacks="$lacks$need "
    done
    awk -v lacks="$lacks" '
        /^needs( |$)/ { on = 1; for (k = 2; k <= NF; k++) if (index(lacks, " " $k " ")) on = 0; left += !on; next }
        on
        END { print left + 0 > "left" }
    ' blocks
    read -r left < left
    [ "$left" = 0 ] || skip "$left blocks of $1: this machine lacks$lacks"
}

# Each command of the console blocks, with all that it prints. After ```console come the words for `has` that a block needs.
cd .. || exit 1
PATH=$scratch/build:$PATH
for document in README.md examples/README.md docs/RECIPES.md docs/TRUST.md docs/CALLS.md; do
    awk 'sub(/^```console/, "needs") { on = 1 } /^```/ { on = 0 } on' "$documents/$document" > blocks
    blocks_that_run "$document" > shown
    run_shown "$document"
done

has mandoc || skip "the manual pages as mandoc reads them: this machine lacks mandoc"
has groff || skip "the manual pages as groff reads them: this machine lacks groff"
# Those of the manual pages, in the folder of the examples as it was: a command that goes on in a line with `> ` is one line.
cd examples || exit 1
for document in man/sedck.1 man/sedck-explain.1 man/sedck-fmt.1 man/sedck-known.1 man/sedck-run.1 man/sedck-sed.1 man/sedck.5; do
    cp "$documents"/examples/* . || exit 1
    awk -v quote="'" '/^\.SH/ { page = ($2 == "EXAMPLES") }
        /^\.\\" needs / { needs = substr($0, 10) }
        /^\.R[SE]/ { on = (page && $1 == ".RS"); if (on) print "needs" needs; needs = ""; next }
        on { gsub(/\\-/, "-"); gsub(/\\\(ga/, "`"); gsub(/\\\(ha/, "^"); gsub(/\\\(aq/, quote); gsub(/\\e/, "\\"); print }' "$documents/$document" |
        awk '/^> / { text = text substr($0, 2); next } NR > 1 { print text } { text = $0 } END { print text }' > blocks
    blocks_that_run "$document" > shown
    run_shown "$document"
    if has mandoc && mandoc -T lint "$documents/$document" | grep -v 'line longer than 80 bytes' >&2; then fail "$document isn't clean"; fi
    if has groff && groff -ww -man -T utf8 "$documents/$document" 2>&1 > groffed | grep . >&2; then fail "$document has warnings"; fi
done

# The pictures of README.md have the boxes and edges of the graph; where they are drawn depends on the version of Graphviz.
words_drawn() { grep -E '<(title|text)' | sed 's/ x="[^>]*>/>/' | sort; }
if has dot; then
    (cd .. && build/sedck-explain --format dot examples/join-all-loop.sed | dot -Tsvg) | words_drawn > drawn
    for picture in explain explain-dark; do
        words_drawn < "$documents/docs/img/$picture.svg" > shown
        diff shown drawn >&2 || fail "docs/img/$picture.svg isn't the graph of join-all-loop.sed"
    done
else
    skip "the pictures of README.md: this machine lacks dot"
fi

# What sedck answers in the table of seds; links, and the version in the manual pages.
(cd "$documents" && python3 tests/seds/seds.py build/sedck --table) >&2 || fail "the table of docs/SEDS.md has other statuses of sedck"
(cd "$documents" && python3 tests/links.py) >&2 || fail "a link leads nowhere, or a page or a version is missing"
(cd "$documents" && python3 tests/workflows.py) >&2 || fail "a workflow runs what a stranger sends on a machine of ours, or an action has no commit"
(cd "$documents" && python3 tests/sentences.py) >&2 || fail "a page has a long sentence, or a paragraph with many semicolons"
version=$(awk '/^## [0-9]/ { print $2; exit }' "$documents/CHANGELOG.md")
[ "$(../build/sedck-explain --version | head -n 1)" = "sedck-explain $version" ] || fail "sedck-explain isn't of version $version, as CHANGELOG.md"
# The Makefile, the hooks and the steps of the recipes.
(cd "$documents" && python3 tests/recipes.py build/sedck build/sedck-explain) >&2 || fail "a recipe of docs/RECIPES.md doesn't do what it should"
# The table of edges, what the pages say of faults, and the scripts of the pages on faults and loops.
(cd "$documents" && python3 tests/faults.py build/sedck-explain) >&2 || fail "the pages of faults and findings don't say the same"
(cd "$documents" && python3 tests/edges.py build/sedck docs/DEFINITIONS.md) >&2 || fail "a row of the table in docs/DEFINITIONS.md isn't what sedck graph lists"
(cd "$documents" && python3 tests/pages.py build/sedck docs/FAULTS.md docs/MENDING.md) >&2 || fail "a script of docs/FAULTS.md or docs/MENDING.md isn't answered as the page says"

# The page of the definitions is made from the contracts, and no exported contract reaches a private definition.
python3 "$documents/tests/definitions.py" >&2 || fail "tools/definitions.py loses a line of a definition, or a word of its text"
python3 "$documents/tools/definitions.py" --check >&2 || fail "docs/DEFINITIONS.md or a folder specs/Private isn't as it should be"

[ $failures -eq 0 ] || exit 1
echo "documents: all are answered as they should be"
