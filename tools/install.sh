#!/bin/sh
# Installs what lies beside it, or removes what it installed: [PREFIX=/usr/local] [DESTDIR=] sh install.sh [--keep | --uninstall]
#
# Nothing is built or proved. Installed is what SHA256SUMS lists in bin, include, lib, libexec and share. Each file is compared with its sum
# first, and nothing is installed where a file differs, is missing, or isn't listed. A file that is there is replaced. The list of what was
# installed is kept in share/sedck/installed below PREFIX: files of an earlier installation that are no longer there are removed, but with
# --keep, and --uninstall removes all of them, with the folders that were made for them.
#
# The programs need a processor of x86-64-v2. Where this one lacks a feature of it, by /proc/cpuinfo or by what CPUINFO names, nothing is
# installed, unless a DESTDIR says that it may be for another machine.
set -eu
PREFIX=${PREFIX-/usr/local} DESTDIR=${DESTDIR-} CPUINFO=${CPUINFO:-/proc/cpuinfo}
LC_ALL=C
export LC_ALL
parts='(bin|include|lib|libexec|share)'
path='[A-Za-z0-9_][A-Za-z0-9_.+-]*(/[A-Za-z0-9_][A-Za-z0-9_.+-]*)*'

say() { printf 'install.sh: %s\n' "$1" >&2; }

# Ends before anything was installed or removed.
stop() {
    say "$2"
    exit "$1"
}

# Makes a folder below the prefix, with those above it, and notes those that weren't there.
make_folder() {
    [ ! -d "$to/$1" ] || return 0
    case $1 in */*) make_folder "${1%/*}" ;; esac
    mkdir "$to/$1"
    printf '%s/\n' "$1" >> "$scratch/folders"
}

# Writes what was installed, in any version that counts, to the list below the prefix.
keep_list() {
    sort -u "$@" "$scratch/folders" > "$to/$kept.new"
    mv -f "$to/$kept.new" "$to/$kept"
}

# Puts a file in its place. A program may be running: it is replaced, not written over.
put() {
    make_folder "${1%/*}"
    if [ -e "$to/$1" ] || [ -h "$to/$1" ]; then rm -f "$to/$1"; fi
    case $1 in
        *.pc) { printf 'prefix=%s\n' "$PREFIX"; tail -n +2 "$1"; } > "$to/$1" ;;
        *) cp "$1" "$to/$1" ;;
    esac
    case $1 in
        bin/* | libexec/*) chmod 755 "$to/$1" ;;
        *) chmod 644 "$to/$1" ;;
    esac
}

# Keeps the paths of what was installed before; the list may have nothing else.
read_kept() {
    : > "$scratch/before"
    [ ! -e "$to/$kept" ] || cp "$to/$kept" "$scratch/before"
    ! grep -Evxq -e "$parts/$path/?|$parts/" "$scratch/before" || stop 1 "$to/$kept has a line that is no path; nothing is changed"
}

# Removes these files below the prefix, and then the folders of the list that are empty.
remove() {
    grep -v '/$' "$1" | while IFS= read -r file; do rm -f "$to/$file"; done
    grep '/$' "$1" | sort -r | while IFS= read -r folder; do rmdir "$to/$folder" 2> /dev/null || true; done
}

uninstall() {
    [ -e "$to/$kept" ] || stop 1 "$to/$kept, the list of what was installed, is missing; nothing is removed"
    read_kept
    rm -f "$to/$kept"
    remove "$scratch/before"
    echo "Removed below $to: $(grep -c -v '/$' "$scratch/before") files."
}

# Keeps the paths of what is to be installed, of which each is listed, and compares each file with its sum.
read_sums() {
    [ -f SHA256SUMS ] || stop 1 'SHA256SUMS, the list of what is installed, is missing; nothing is installed'
    ! grep -Evxq -e "[0-9a-f]{64}  $path" SHA256SUMS || stop 1 'SHA256SUMS has a line that is no sum with a path; nothing is installed'
    cut -c 67- SHA256SUMS > "$scratch/listed"
    find . ! -type d ! -path ./SHA256SUMS | cut -c 3- > "$scratch/there"
    if grep -Fvx -f "$scratch/listed" "$scratch/there" > "$scratch/others"; then
        tr -cd '\n -~' < "$scratch/others" | while IFS= read -r file; do say "$file is not listed in SHA256SUMS"; done
        stop 1 'nothing is installed'
    fi
    ! find . -type l | grep -q . || stop 1 'a file is a link; nothing is installed'
    command -v sha256sum > /dev/null || stop 1 'sha256sum is missing, so no file can be compared with its sum; nothing is installed'
    if ! sha256sum -c SHA256SUMS > "$scratch/compared" 2>&1; then
        grep -v ': OK$' "$scratch/compared" >&2
        stop 1 'a file is not the one that was packed; nothing is installed'
    fi
    grep -Ex -e "$parts/.*" "$scratch/listed" | sort > "$scratch/list" || stop 1 'SHA256SUMS lists nothing to install'
    # What pkg-config prints of such a prefix would be other words for a compiler.
    case $PREFIX in
        *[!A-Za-z0-9_./+@%:=,~-]*)
            say "the PREFIX has a byte that pkg-config can't pass on, so sedck.pc is not installed"
            grep -v '[.]pc$' "$scratch/list" > "$scratch/less"
            mv "$scratch/less" "$scratch/list" ;;
    esac
}

# Looks whether the programs can start here. They end with 127 and say so where the processor lacks a feature.
check_processor() {
    [ -z "$DESTDIR" ] || return 0
    if [ ! -r "$CPUINFO" ]; then
        say "$CPUINFO can't be read, so it isn't known whether this processor is of x86-64-v2"
        return 0
    fi
    for feature in cx16 lahf_lm popcnt pni sse4_1 sse4_2 ssse3; do
        grep -Eq "^flags[[:blank:]]*:(.*[[:blank:]])?$feature([[:blank:]]|\$)" "$CPUINFO" ||
            stop 1 "the programs need a processor of x86-64-v2, and this one lacks $feature; nothing is installed"
    done
}

install() {
    read_sums
    check_processor
    read_kept
    mkdir -p "$to"
    make_folder "${kept%/*}"
    # The list is whole at each moment, so that what is begun can be removed.
    keep_list "$scratch/before" "$scratch/list"
    while IFS= read -r file; do put "$file"; done < "$scratch/list"
    if [ "$1" = keep ]; then
        cp "$scratch/before" "$scratch/stay"
    else
        grep '/$' "$scratch/before" > "$scratch/stay" || true
        grep -v '/$' "$scratch/before" | grep -Fvx -f "$scratch/list" > "$scratch/gone" || true
        remove "$scratch/gone"
    fi
    keep_list "$scratch/stay" "$scratch/list"
    echo "Installed below $to: $(grep -c . "$scratch/list") files."
    echo "The pages that reports name, as docs/TRUST.md, are below $to/share/doc/sedck."
    # What a report of a wrong yes names: the checker alone answers for it.
    [ ! -f bin/sedck ] || echo "The checker is bin/sedck, with the SHA-256 sum $(sha256sum bin/sedck | cut -d ' ' -f 1)."
}

case $#${1-} in
    0 | 1--keep | 1--uninstall) ;;
    *) stop 3 'usage: [PREFIX=/usr/local] [DESTDIR=] sh install.sh [--keep | --uninstall]' ;;
esac
case $PREFIX in
    /*) ;;
    '') stop 3 'PREFIX is empty, and should begin with a slash' ;;
    *) stop 3 "PREFIX is $PREFIX, and should begin with a slash" ;;
esac
case $DESTDIR in
    '' | /*) ;;
    *) DESTDIR=$PWD/$DESTDIR ;;
esac
to=$DESTDIR$PREFIX kept=share/sedck/installed
CDPATH='' cd -- "$(dirname -- "$0")"
umask 022
scratch=$(mktemp -d)
trap 'rm -rf "$scratch"' EXIT
trap 'exit 1' HUP INT TERM
: > "$scratch/folders"
case ${1-} in
    --uninstall) uninstall ;;
    --keep) install keep ;;
    *) install '' ;;
esac
