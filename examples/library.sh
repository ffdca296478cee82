# library.sh: read by the scripts that link the static library. Defines say, which runs a command and shows it, and build_library, which
# proves and builds the crate grugalash_c and copies its library to target/staticlib/libgrugalash.a; what rt writes goes to a file and is
# shown where it fails.
say() {
    printf '+ %s\n' "$*"
    "$@"
}

build_library() {
    echo '+ rt lib, in crates/grugalash_c'
    mkdir -p target/staticlib
    (cd crates/grugalash_c && exec rt lib) >target/grugalash.say 2>&1 || { cat target/grugalash.say; exit 1; }
    tail -n 1 target/grugalash.say
    cp -p crates/grugalash_c/out/libgrugalash_c.a target/staticlib/libgrugalash.a
}
