#!/bin/sh
# run.sh: builds the static library, compiles rows.c with it, and runs the program. Needs the Rattle kit and a C compiler (machine.sh).
set -eu
cd "$(dirname "$0")/../.."
. examples/library.sh
. examples/machine.sh

build_library
mkdir -p target/examples
say "$CC" -std=c99 -Wall -Wextra -pedantic -O2 $STATIC -Iinclude examples/c/rows.c target/staticlib/libgrugalash.a -o target/examples/rows_c
say ${EMULATOR:+"$EMULATOR"} target/examples/rows_c
