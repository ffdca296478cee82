#!/bin/sh
# Runs the program `rows`: three lines of numbers in (grammar words, tokens, cuts), the answer out.
#
#   ./rows.sh FILE        the lines of a file, as samples/eight-cut.txt
#   ./rows.sh             the lines of standard input
#   ./rows.sh -n [FILE]   the same, without looking first whether the program is proved and built as it stands
#
# What is missing is proved and built first, by `rt`; in a fresh clone that takes some minutes. Only the answer goes to standard output.
set -eu

root=$(cd "$(dirname "$0")" && pwd -P)
program=$root/crates/rows/out/rows

say() { printf 'rows.sh: %s\n' "$*" >&2; }

look=yes
if [ "${1-}" = -n ]; then
    look=no
    shift
fi
case $#:${1-} in
0: | 1:[!-]*) ;;
*)
    sed -n '4,6s/^# *//p' "$0" >&2
    exit 2
    ;;
esac

# rt builds the program where it runs it: here on an empty input, whose answer is not shown.
if [ $look = yes ]; then
    command -v rt >/dev/null || { say "the Rattle toolchain (rt) is not there"; exit 2; }
    [ -x "$program" ] || say "proving and building the program first; this takes some minutes"
    if ! said=$(cd "$root/crates/rows" && rt run </dev/null 2>&1 >/dev/null); then
        printf '%s\n' "$said" >&2
        exit 2
    fi
fi

[ $# -eq 0 ] || exec <"$1"
exec "$program"
