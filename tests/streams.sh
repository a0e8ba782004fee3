#!/bin/sh
# Reports that can't be written: each command's output goes to a full device, and to a pipe that nobody reads, once with
# SIGPIPE as the shell has it and once with SIGPIPE ignored. The program ignores SIGPIPE itself, so it must end with status 4
# and its line on standard error each time, and must not be killed. The same of sedck-explain in each format, but without a line
# where nobody reads.
#
# usage: streams.sh SEDCK SEDCK_EXPLAIN
set -u

program=$1
explain=$2
folder=$(mktemp -d) || exit 1
trap 'rm -rf "$folder"' EXIT
printf ':a\nn\nb a\n' > "$folder/script"
printf ':a\nb a\n' > "$folder/loop"
printf 'b z' > "$folder/refused"
printf 'sed ":x;bx"\nsed p\n' > "$folder/calls"
"$program" rank "$folder/script" > "$folder/certificate" || exit 1
failures=0

# wanted STATUS LINE WHAT: compares the status of the last command and its lines on standard error
wanted() {
    if [ "$(cat "$folder/status")" != "$1" ] || [ "$(cat "$folder/errors")" != "$2" ]; then
        echo "FAILED: $3: status $(cat "$folder/status"), $(cat "$folder/errors")"
        failures=$((failures + 1))
    fi
}

# full ARGUMENTS: standard output is a device that accepts no byte
full() {
    "$program" "$@" > /dev/full 2> "$folder/errors"
    echo $? > "$folder/status"
    wanted 4 "$name: cannot write" "$* to a full device"
}

# unread ARGUMENTS: standard output is a pipe whose reader has gone before the program starts
unread() {
    rm -f "$folder/gone"
    mkfifo "$folder/gone"
    # The first descriptor reads and writes, so that the second can be opened with no other reader; then the first is closed.
    exec 3<> "$folder/gone"
    exec 4> "$folder/gone"
    exec 3>&-
    "$program" "$@" >&4 2> "$folder/errors"
    echo $? > "$folder/status"
    exec 4>&-
    wanted 4 "$unread_line" "$* to a pipe that nobody reads$note"
}

each() {
    "$1" check "$folder/script" "$folder/certificate"
    "$1" check "$folder/loop" "$folder/certificate"
    "$1" rank "$folder/script"
    "$1" rank "$folder/loop"
    "$1" files "$folder/script"
    "$1" graph "$folder/script"
    "$1" upgrade "$folder/certificate"
}

# Each report has at least a byte: that of an accepted script for editors is empty, and has nothing that can't be written.
each_format() {
    for format in text gcc json sarif html dot; do
        "$1" --format "$format" "$folder/loop"
        "$1" --format "$format" "$folder/refused"
        "$1" --format "$format" --cert "$folder/certificate" "$folder/loop"
        [ "$format" = gcc ] || "$1" --format "$format" "$folder/script"
    done
    # No script follows after a failed write, so that there is one line on standard error.
    "$1" "$folder/loop" "$folder/missing" "$folder/refused"
    for format in text gcc json; do
        "$1" --format "$format" --calls "$folder/calls" "$folder/missing"
    done
    "$1" --help
    "$1" --version
}

# both WAY: each command of both programs, with standard output of this kind
both() {
    name=sedck
    unread_line='sedck: cannot write'
    each "$1"
    sedck=$program
    program=$explain
    name=sedck-explain
    unread_line=
    each_format "$1"
    program=$sedck
}

both full
note=
both unread
trap '' PIPE
note=', SIGPIPE ignored'
both unread

# A reader that goes after the first line: a report of some 200 kB is longer than what a pipe takes.
awk 'BEGIN { for (i = 0; i < 2000; i++) print "w /x" i }' > "$folder/long"
{ "$explain" --format gcc "$folder/long"; echo $? > "$folder/status"; } 2> "$folder/errors" | head -n 1 > "$folder/first"
wanted 4 "" "a long report of which only a line is read"
[ "$(cut -d : -f 2-4 "$folder/first")" = '1:1: warning' ] || { echo "FAILED: the first line: $(cat "$folder/first")"; failures=$((failures + 1)); }

# Streams that can't fail: a file that accepts the report, and a full device to which a refusal writes nothing.
"$program" files "$folder/script" > "$folder/report" 2> "$folder/errors"
echo $? > "$folder/status"
wanted 0 "" "files to a file"
"$program" files "$folder/refused" > /dev/full 2> "$folder/errors"
echo $? > "$folder/status"
wanted 2 "sedck: script fault 15 unknown-label at 2" "a refused script to a full device"
"$explain" --format gcc "$folder/script" > /dev/full 2> "$folder/errors"
echo $? > "$folder/status"
wanted 0 "" "nothing for editors to a full device"
"$explain" --format html "$folder/missing" > /dev/full 2> "$folder/errors"
echo $? > "$folder/status"
wanted 4 "sedck-explain: cannot read $folder/missing: no such file" "a script that can't be read to a full device"
"$explain" --wrong > /dev/full 2> "$folder/errors"
echo $? > "$folder/status"
head -n 1 "$folder/errors" | cut -c 1-15 > "$folder/begin"
if [ "$(cat "$folder/status")" != 3 ] || [ "$(cat "$folder/begin")" != "sedck-explain: " ]; then
    echo "FAILED: wrong words to a full device: status $(cat "$folder/status")"
    failures=$((failures + 1))
fi

if [ "$failures" != 0 ]; then
    echo "$failures failures"
    exit 1
fi
echo "Reports that can't be written: all as they must be."
