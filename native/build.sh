# Sourced by native/run and native/bench: the archive proved and built, C compiled and linked with it, all natively.
. native/kit.sh

echo "native: proving and building the archive"
prove abi_c lib
mkdir -p target/staticlib
cp crates/abi_c/out/libabi_c.a target/staticlib/libabi.a

need gcc gcc
echo "native: x86-64, linked and run natively ($(gcc --version | head -1))"
build() { # NAME LEVEL [MORE]: the plain C is at -O3 whatever the level of the harness
    gcc -std=c11 -D_POSIX_C_SOURCE=199309L -O3 -Wall -Wextra -c native/reference.c -o "$out/reference.o"
    gcc -std=c11 -D_POSIX_C_SOURCE=199309L "$2" -Wall -Wextra "native/$1.c" "$out/reference.o" target/staticlib/libabi.a -o "$out/$1" ${3:-}
}
assemble() { gcc -x assembler -c - -o "$1"; }
share() { gcc -shared -o "$2" "$3" -Wl,--whole-archive "$1" -Wl,--no-whole-archive; }
run_built() { name=$1; shift; "$out/$name" "$@"; }

share_at() { # ARCHIVE LIBRARY BYTES: to be loaded beside another, its code so many bytes further into a page
    printf '.text\n.fill %d, 1, 0x90\n.section .note.GNU-stack, "", @progbits\n' "$3" | assemble "$out/pad.o"
    share "$1" "$2" "$out/pad.o"
}
