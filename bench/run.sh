#!/bin/sh
# run.sh [REPEATS]: builds the static library, the hand-written parser and Bison's parser (bench/build.sh), and times them on the same rows in
# one run.
set -eu
cd "$(dirname "$0")/.."
. bench/build.sh

[ -z "$EMULATOR" ] || echo "under an emulator: compare ratios only; the cost of a check a word is not measured"
say ${EMULATOR:+"$EMULATOR"} target/bench/bench "$@"
