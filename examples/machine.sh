# machine.sh: read by the scripts that link the static library, which is for x86-64 Linux. Sets CC, the C compiler, and EMULATOR, what
# runs an x86-64 program here: nothing on x86-64. On Arm the programs are linked statically by Debian's cross compiler (package
# gcc-x86-64-linux-gnu) and run under Debian's emulator (package qemu-user).
case $(uname -m) in
x86_64)
    CC=${CC:-gcc} EMULATOR= STATIC=
    ;;
*)
    CC=${CC:-x86_64-linux-gnu-gcc} EMULATOR=qemu-x86_64 STATIC=-static
    ;;
esac
command -v "$CC" >/dev/null || { echo "no C compiler for x86-64: $CC" >&2; exit 2; }
