# Read by the scripts that compile for the library and run it, which is x86-64 code. Needs `missing`, which says what is not there and ends.
# Sets `cc` and `cxx`, the compilers for x86-64 (CC, CXX: others), and `emulator`, the words before a program that is run: none on x86-64.
# shellcheck shell=sh disable=SC2034

has() { command -v "$1" >/dev/null 2>&1; }

# The emulator $1, told where the x86-64 libraries of the compiler are, where these are not the machine's own.
with_libraries() {
    libc=$(readlink -f "$("$cc" -print-file-name=libc.so.6)" || true)
    case $libc in
    /*/lib/libc.so.6) echo "$1 -L ${libc%/lib/libc.so.6}" ;;
    *) echo "$1" ;;
    esac
}

emulator=''
case $(uname -m) in
x86_64 | amd64)
    cc=${CC:-cc}
    cxx=${CXX:-g++}
    has "$cc" || missing "no C compiler: install gcc or clang, or name one in CC"
    ;;
*)
    cc=${CC:-x86_64-linux-gnu-gcc}
    cxx=${CXX:-x86_64-linux-gnu-g++}
    has "$cc" || missing "the library is x86-64 code and this is $(uname -m): install the cross compiler x86_64-linux-gnu-gcc (Debian: gcc-x86-64-linux-gnu), or name one in CC"
    for name in ${EMULATOR:-qemu-x86_64 qemu-x86_64-static}; do
        if [ -z "$emulator" ] && has "$name"; then emulator=$(with_libraries "$name"); fi
    done
    [ -n "$emulator" ] || missing "the library is x86-64 code and this is $(uname -m): install the emulator qemu-x86_64 (Debian: qemu-user), or name one in EMULATOR"
    echo "host: x86-64 programs run under ${emulator%% *} here; times measured so say nothing"
    ;;
esac

# A compiler may be there without the C library's headers.
echo '#include <stdio.h>' | "$cc" -E - >/dev/null 2>&1 || missing "$cc finds no headers of a C library for x86-64: install them (Debian: libc6-dev; for the cross compiler libc6-dev-amd64-cross)"
