#!/bin/sh
# Builds the library for C hosts (host/archive.sh) and the programs beside it, into target/host:
#   host/build.sh                  exit status 2 where something is missing
#   host/build.sh --if-possible    says what is missing and exits 0 then
#   host/build.sh --checked        the C code with gcc's address and undefined-behaviour checks; under an emulator with the latter alone
# The archive is for x86-64. On another processor the programs are cross-compiled and run under an emulator; target/host/emulator has the
# words that run one.
# CC, EMULATOR: another compiler or emulator. BOURASCUL_ARCHIVE: an archive to link in the place of ours.
# SECOND_CC: the compiler that the bench's yardstick is compiled by as well (clang beside gcc, gcc beside clang, where there is one).
# BOURASCUL_OTHER: an archive of the library at another commit, for the bench to time beside this one.
# BOURASCUL_OLDER: the same, of a commit before R-1, whose calls take no circles and no set (host/older.c gives them today's parameters).
# An archive of a commit before the port (docs/PORT.md) is made with the kit that the commit names in .ci/kit: `rt staticlib bourascul` there.
set -eu
cd "$(dirname "$0")/.."

if_possible=no
checks=''
for word in "$@"; do
    case $word in
    --if-possible) if_possible=yes ;;
    --checked) checks='-g -fsanitize=undefined -fno-sanitize-recover=all' ;;
    *) echo "usage: host/build.sh [--if-possible] [--checked]" >&2; exit 2 ;;
    esac
done

missing() {
    echo "host: not built: $1"
    [ "$if_possible" = yes ] && exit 0
    exit 2
}

# ---- What is at hand ----

. host/processor.sh
# Under an emulator the address checks' shadow memory takes all the memory there is.
if [ -n "$checks" ] && [ -z "$emulator" ]; then checks="$checks -fsanitize=address"; fi

archive=${BOURASCUL_ARCHIVE:-target/staticlib/libbourascul.a}
if [ -z "${BOURASCUL_ARCHIVE:-}" ]; then
    has rt || missing "no rt: the Rattle kit proves and compiles the library"
    [ -f crates/bourascul_c/src/lib.rt ] || missing "no crate bourascul_c in this repository"
    host/archive.sh
fi
[ -f "$archive" ] || missing "no archive $archive"

# ---- The programs ----

out=target/host
mkdir -p "$out"
printf '%s\n' "$emulator" >"$out/emulator"

# No program is static: gcc's checks can't be, and a cross compiler's static libm may name a file that is not there.
compile() {
    program=$1
    level=$2
    shift 2
    files=''
    for name in "$@"; do files="$files host/$name.c"; done
    # shellcheck disable=SC2086
    "$cc" -std=c99 $level $checks -Wall -Wextra -Wpedantic -Iinclude -Ihost $with -o "$out/$program" $files "$archive" $libraries || return 1
    echo "host: $out/$program"
}

# The yardstick by the compiler $1, under the name $2.
yardstick() {
    # shellcheck disable=SC2086
    $1 -std=c99 -O3 $checks -fPIE -Wall -Wextra -Wpedantic -Ihost -DPLAIN_BY="$2" -c -o "$out/$2.o" host/plain_by.c
}

# The other archive $1 as one object, in which every name but the calls is local, and these begin with other_; but for the calls $2, which
# begin with older_.
rename_other() {
    "$("$cc" -print-prog-name=ld)" -r --whole-archive "$1" -o "$out/other.o"
    objcopy=$("$cc" -print-prog-name=objcopy)
    for call in build check write read radius nearest; do
        case " $2 " in
        *" $call "*) "$objcopy" --redefine-sym "bourascul_$call=older_$call" "$out/other.o" ;;
        *) "$objcopy" --redefine-sym "bourascul_$call=other_$call" "$out/other.o" ;;
        esac
    done
    "$objcopy" --wildcard --keep-global-symbol='other_*' --keep-global-symbol='older_*' "$out/other.o"
}

with='' libraries=''
naive='naive naive_set naive_tree naive_append naive_append_rows naive_search'
# shellcheck disable=SC2086
compile trial -O2 trial kinds appends ceilings circles sets more samples spoil calls lend self $naive
compile season -O2 season minutes
compile stack -O2 stack
compile first -O2 ../examples/first
compile none -O2 none

yardstick "$cc" plain_first
with="$out/plain_first.o"
case $("$cc" --version) in
*clang*) second=${SECOND_CC:-gcc} ;;
*) second=${SECOND_CC:-clang} ;;
esac
# On another processor clang compiles for x86-64 when told to, if it finds a C library's headers for it.
if [ -n "$emulator" ]; then second="$second --target=x86_64-linux-gnu"; fi
# The two compilers' run-time checks can't be linked together.
if [ -z "$checks" ] && has "${second%% *}" && yardstick "$second" plain_second 2>"$out/second.log"; then
    with="$with $out/plain_second.o -DBENCH_SECOND"
else
    echo "host: the yardstick by one compiler alone"
fi
if [ -n "${BOURASCUL_OLDER:-}" ]; then
    rename_other "$BOURASCUL_OLDER" 'build radius nearest'
    with="$with $out/other.o host/older.c -DBENCH_OTHER"
elif [ -n "${BOURASCUL_OTHER:-}" ]; then
    rename_other "$BOURASCUL_OTHER" ''
    with="$with $out/other.o -DBENCH_OTHER"
fi
libraries=-lm
rm -f "$out/bench"
compile bench -O3 bench bench_tell bench_append plot minutes || missing "the bench, which does not link"
