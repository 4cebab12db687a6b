#!/bin/sh
# Holds what the listing programs and the analyst's program are expected to write (crates/NAME/stdout) to the naive implementation.
# It needs a C compiler for any processor (CC), and no proved library. Exit status 1 where one differs.
set -eu
cd "$(dirname "$0")/.."

out=target/host
mkdir -p "$out"
naive="host/naive.c host/naive_set.c host/naive_tree.c host/naive_search.c"
# shellcheck disable=SC2086
"${CC:-cc}" -std=c99 -O2 -Wall -Wextra -Wpedantic -Ihost -o "$out/expected" host/expected.c $naive

wrong=0
same=0
hold() {
    if diff "$1" "$want" >/dev/null; then same=$((same + 1)); else wrong=$((wrong + 1)); echo "differs: $want"; fi
}
compare() {
    "$out/expected" "$@" <"$text" >"$out/expected.out"
    hold "$out/expected.out"
}

text=crates/list/stdin
want=crates/list/stdout
compare list
# Each text of data/ behind its name, in the order of the output; a directory can't be read.
cases=crates/list_cases
want=$cases/stdout
for name in $(grep -v '^[0-9]' "$want" | grep -v '^refused'); do
    echo "$name"
    if [ -d "$cases/data/$name" ]; then echo 'refused 18'; else "$out/expected" list <"$cases/data/$name"; fi
done >"$out/list_cases.want"
hold "$out/list_cases.want"
[ "$(grep -c -v -e '^[0-9]' -e '^refused' "$want")" = $(($(ls "$cases/data" | wc -l) + 1)) ] || { wrong=$((wrong + 1)); echo "a text of $cases/data is not run"; }
# Each question of the analyst's program that is answered (status 0 or 1), behind its line; what is said to the others is not reckoned here.
cases=crates/minutes_cases
want=$out/minutes_cases.want
cmp crates/minutes/data/season.csv "$cases/data/season.csv" || wrong=$((wrong + 1))
awk '/^\?/ { question = $0; block = ""; next } { block = block $0 "\n" } /^status [01]$/ { if (question !~ /--version/) { print question; printf "%s", block } }' \
    "$cases/stdout" >"$want"
grep '^?' "$want" | while read -r mark words; do
    echo "$mark $words"
    # shellcheck disable=SC2086
    (cd "$cases/data" && "../../../$out/expected" minutes $words)
done >"$out/minutes_cases.out"
hold "$out/minutes_cases.out"

echo "$same expected outputs are the naive implementation's, $wrong differ"
[ "$wrong" = 0 ]
