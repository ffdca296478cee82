#!/bin/sh
# run.sh: builds the static library, compiles rows.rs with it, and runs the program. Needs the Rattle kit and rustc on x86-64; nothing is
# fetched. On another processor rustc has no x86-64 library to link with, so the script says so and ends.
set -eu
cd "$(dirname "$0")/../.."
if [ "$(uname -m)" != x86_64 ]; then
    echo "the static library is for x86-64, and this machine's rustc links for $(uname -m): see examples/c, which runs under an emulator"
    exit 0
fi

. examples/library.sh

build_library
mkdir -p target/examples
say rustc --edition 2021 -O examples/rust/rows.rs -L target/staticlib -l static=grugalash -o target/examples/rows_rust
say target/examples/rows_rust
