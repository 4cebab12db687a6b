#!/bin/sh
# The library beside other exact indexes on the season, six columns, one query a call; prints a Markdown table:
#   host/field.sh [ROWS...]        100,000 and 1,048,576 rows where none are named
# It installs nothing. It needs g++, nanoflann and scipy (Debian: g++, libnanoflann-dev, python3-scipy) and the archive that host/build.sh makes
# or one named in BOURASCUL_ARCHIVE, and is no part of the gate. CXX, PYTHON: another compiler or Python.
# Exit status 1 where an answer differs, 2 where something is missing.
set -eu
cd "$(dirname "$0")/.."

python=${PYTHON:-/usr/bin/python3}
archive=${BOURASCUL_ARCHIVE:-target/staticlib/libbourascul.a}
out=target/host/field

missing() {
    echo "field: $1" >&2
    exit 2
}

. host/processor.sh >&2
has "$cxx" || missing "no C++ compiler for x86-64: install g++ (where it is a cross compiler, g++-x86-64-linux-gnu), or name one in CXX"
echo '#include <nanoflann.hpp>' | "$cxx" -fsyntax-only -x c++ - 2>/dev/null || missing "no nanoflann: install libnanoflann-dev"
"$python" -c 'import scipy.spatial' 2>/dev/null || missing "no scipy: install python3-scipy, or name a Python that has it in PYTHON"
[ -f "$archive" ] || missing "no archive $archive: host/build.sh makes it"

mkdir -p "$out"
"$cc" -std=c99 -O3 -Wall -Wextra -Wpedantic -Ihost -c -o "$out/minutes.o" host/minutes.c
"$cxx" -std=c++17 -O3 -Wall -Wextra -Wpedantic -Iinclude -Ihost -o "$out/field" host/field.cpp "$out/minutes.o" "$archive"

[ $# -gt 0 ] || set -- 100000 1048576
echo "| rows | index | build, ms | radius, us | 10 nearest, us |"
echo "|---|---|---|---|---|"
for rows in "$@"; do
    # shellcheck disable=SC2086
    $emulator "$out/field" "$rows" "$out"
    "$python" host/field.py "$out"
done
