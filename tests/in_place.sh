#!/bin/sh
# in_place.sh: matching compares a handle where it stands on the stack: the reader's code has no array of its own, neither as a type,
# [u16; 8], nor as a value, [0u16; 8] or [a, b].
set -eu
cd "$(dirname "$0")/.."
if grep -nE '\[[^]]*;[^]]*\]|= *\[|\(\[|, \[|&\[[a-z0-9_.]+,' crates/reader/src/*.rt | grep -vE '^[^:]*:[0-9]+: *//'; then
    echo "the reader has an array of its own"
    exit 1
fi
echo "no array in crates/reader/src"
