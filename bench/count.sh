#!/bin/sh
# count.sh: counts the instructions that parse, the hand-written parser and Bison's take a token, which what else the machine does does not
# change. On x86-64 valgrind counts them (Debian's package valgrind). On Arm Debian's emulator does (package qemu-user), by bench/count.c.
# The clearing of a run of words is counted as the C library does it: that is part of parse alone.
set -eu
cd "$(dirname "$0")/.."
. bench/build.sh

[ -z "$EMULATOR" ] || cc -std=c99 -O2 -shared -fPIC bench/count.c -o target/bench/count.so

# the instructions of a whole run of the program
instructions() {
    if [ -z "$EMULATOR" ]; then
        valgrind --tool=callgrind --callgrind-out-file=/dev/null target/bench/bench read "$@" 2>&1 | sed -n 's/.*Collected : //p'
    else
        qemu-x86_64 -plugin target/bench/count.so target/bench/bench read "$@" 2>&1 | sed -n 's/^instructions //p'
    fi
}

row=0
for name in "a comma list" "brackets nested" "a mixed row"; do
    reader=0
    for by in parse hand-written Bison; do
        once=$(instructions $row $reader 1)
        thrice=$(instructions $row $reader 3)
        tokens=$(${EMULATOR:+"$EMULATOR"} target/bench/bench read $row $reader 1)
        echo "$name, $by: $(((thrice - once) * 5 / tokens))" | sed 's/\(.\)$/.\1 instructions a token/'
        reader=$((reader + 1))
    done
    row=$((row + 1))
done
