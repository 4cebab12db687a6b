#!/bin/sh
# Makes the archive for C hosts, target/staticlib/libbourascul.a: the crate bourascul_c, proved and compiled.
#   host/archive.sh             makes it, unless it stands there and was made of the files as they are
#   host/archive.sh --passed    notes that rt ci has just passed here on the files as they are (the gate does)
# Where that note still holds and the libraries in crates/*/out are those that rt ci built, bourascul_c is proved and compiled over these, with the
# kit's rattle, in the way in which rt ci proves and compiles a program. Otherwise rt lib makes the archive; it builds each library below bourascul_c
# for itself, one after the other, from what rt check kept, or from nothing.
set -eu
cd "$(dirname "$0")/.."

crate=crates/bourascul_c
made=$crate/out/libbourascul_c.a
archive=target/staticlib/libbourascul.a
passed=target/passed

# One number for the kit and every file that a proof reads.
sum() {
    { rt version; find crates.txt crates -type d -name out -prune -o -type f -exec sha256sum {} +; } | LC_ALL=C sort | sha256sum
}

# Whether the libraries are those of the run of rt ci that was noted. Other commands leave a stamp beside a library that they build.
are_of_ci() {
    [ -f "$passed" ] && [ "$(cat "$passed")" = "$now" ] || return 1
    for stamp in crates/*/out/rlib/stamp; do [ ! -e "$stamp" ] || return 1; done
}

# Compiles the crate over these libraries.
over_ci() {
    root=$PWD
    kit=$(dirname "$(rt doc)")
    set -- --crate-name bourascul_c src/lib.rt --extern "std=$kit/rlibs/std.rlib"
    # shellcheck disable=SC2013
    for name in $(sed -n 's/^bourascul_c staticlib: *//p' crates.txt); do
        if [ -d "crates/$name" ]; then
            set -- "$@" --extern "$name=$root/crates/$name/out/rlib/$name.rlib"
        else
            set -- "$@" --extern "$name=$kit/rlibs/$name.rlib"
        fi
    done
    set -- "$@" -L "dependency=$kit/rlibs"
    for folder in crates/*/out/rlib; do set -- "$@" -L "dependency=$root/$folder"; done
    set -- "$@" --antt-project "$kit/rattle/logic/antt-project.json" --logic-built "$kit/logic_built" --jobs 2
    mkdir -p "$crate/out"
    (cd "$crate" && "$kit/bin/rattle" build "$@" --crate-type staticlib --toolchain "$kit/toolchain" --backend llvm -o "$root/$made")
}

now=$(sum)
mkdir -p target/staticlib
case ${1:-} in
--passed)
    printf '%s\n' "$now" >"$passed"
    exit 0
    ;;
'') ;;
*) echo "usage: host/archive.sh [--passed]" >&2; exit 2 ;;
esac

if [ -f "$archive" ] && [ "$(cat "$archive.of" 2>/dev/null)" = "$now" ]; then
    echo "host: $archive is of the files as they are"
    exit 0
fi
rm -f "$archive" "$archive.of" "$made"
if are_of_ci && over_ci >target/staticlib/log 2>&1; then
    tail -n 1 target/staticlib/log
else
    (cd "$crate" && rt lib)
fi
cp "$made" "$archive"
printf '%s\n' "$now" >"$archive.of"
echo "host: $archive"
