#!/bin/sh
# play.sh [table] < TEXT: builds play.c where it is missing or old, and runs it. What is built is said on standard error.
set -eu
cd "$(dirname "$0")/../.."
. examples/library.sh
. examples/machine.sh
program=target/examples/play
if [ ! -x "$program" ] || [ examples/c/play.c -nt "$program" ] || [ target/staticlib/libgrugalash.a -nt "$program" ]; then
    mkdir -p target/examples
    [ -f target/staticlib/libgrugalash.a ] || build_library >&2
    "$CC" -std=c99 -Wall -Wextra -pedantic -O2 $STATIC -Iinclude examples/c/play.c target/staticlib/libgrugalash.a -o "$program" >&2
fi
exec ${EMULATOR:+"$EMULATOR"} "$program" "$@"
