# build.sh: read by run.sh and count.sh. Builds the static library, and with it, the hand-written parser and Bison's parser the program
# target/bench/bench. Needs the Rattle kit, a C compiler (examples/machine.sh) and Bison (Debian's package bison). The library is compiled at
# -O2 by the kit, whose level that is where crates.txt names none; all the C is compiled at -O3 by one compiler.
. examples/library.sh
. examples/machine.sh
command -v bison >/dev/null || { echo "no bison: install Debian's package bison" >&2; exit 2; }

build_library
mkdir -p target/bench
say bison bench/k.y -o target/bench/k.c
say "$CC" -std=c99 -Wall -Wextra -O3 $STATIC -Iinclude -Ibench bench/bench.c bench/handwritten.c target/bench/k.c target/staticlib/libgrugalash.a -o target/bench/bench
