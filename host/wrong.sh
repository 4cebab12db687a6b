#!/bin/sh
# A trial of the trial: the mock (host/mock.c) must show no difference, and each wrong library of host/wrong.txt must show one.
#   host/wrong.sh [ROUNDS [SEED]]
#   host/wrong.sh --only PART [ROUNDS [SEED]]    those alone in whose names this stands
# One line a library. Exit status 1 where a wrong one is missed or a sound one differs, 2 where one can't be tried.
# CC: another compiler. Mock and trial are both plain C here, so no proved library is needed, nor an x86-64 processor.
set -eu
cd "$(dirname "$0")/.."

only=''
if [ "${1:-}" = --only ]; then
    only=${2:?usage: host/wrong.sh --only PART [ROUNDS [SEED]]}
    shift 2
fi
rounds=${1:-480}
seed=${2:-20}
cc=${CC:-cc}
out=target/host/wrong
naive='naive naive_set naive_tree naive_append naive_append_rows naive_search'
mocked="mock $naive plain plain_search"
wrong=0 found=0 sound=0 differing=0

stop() {
    echo "wrong: $1" >&2
    exit 2
}

compile() {
    "$cc" -std=c99 -O2 -DBOURASCUL_ANY_PROCESSOR -Wall -Wextra -Wpedantic -Iinclude -Ihost -c -o "$2" "$1" || stop "$1 does not compile"
}

# ---- One library ----

# The trial links the naive implementation too. So that it is never compared with an edited copy of itself, the mock's parts
# are joined into one object, and every name in it but the calls is made local.
join_mock() {
    parts=''
    for name in $mocked; do
        if [ -f "$out/edited/$name.o" ]; then parts="$parts $out/edited/$name.o"; else parts="$parts $out/mock/$name.o"; fi
    done
    # shellcheck disable=SC2086
    ld -r -o "$out/joined.o" $parts
    objcopy --wildcard --keep-global-symbol='bourascul_*' "$out/joined.o"
    rm -f "$out/libbourascul.a"
    ar rc "$out/libbourascul.a" "$out/joined.o"
}

# Sets `status` to the trial's and `tried` to the rounds. Most wrong libraries show in few rounds, and the rounds of a short
# run are the first of a long one, so it starts short.
try() {
    join_mock
    "$cc" -o "$out/trial" "$out"/tried/*.o "$out/libbourascul.a"
    tried=0 status=0
    while [ "$status" = 0 ] && [ "$tried" -lt "$rounds" ]; do
        tried=$((tried == 0 ? (rounds + 15) / 16 : tried * 4 < rounds ? tried * 4 : rounds))
        "$out/trial" --rounds "$tried" --seed "$seed" >"$out/told" 2>&1 || status=$?
    done
    [ "$status" -le 1 ] || stop "the trial ended with status $status: see $out/told"
}

# ---- The edits ----

# Puts the new text in the old one's place. The old one must stand in the file once.
replace() {
    copy=$out/edited/$file
    [ -f "$copy" ] || cp "host/$file" "$copy" || stop "$title: no file $file"
    times=0
    while IFS= read -r line; do
        case $line in
        *"$old"*"$old"*) times=2 ;;
        *"$old"*) times=$((times + 1)) line=${line%%"$old"*}$new${line#*"$old"} ;;
        esac
        printf '%s\n' "$line"
    done <"$copy" >"$copy.new"
    [ "$times" = 1 ] || stop "$title: not once in $file: $old"
    mv "$copy.new" "$copy"
}

# Tries the library whose edits have been read, if there is one, and makes room for the next.
finish() {
    if [ -n "$title" ]; then
        # A file includes what stands beside it first, so with an edited header every part is compiled there.
        if [ -n "$(find "$out/edited" -name '*.h')" ]; then
            for name in $mocked; do [ -f "$out/edited/$name.c" ] || cp "host/$name.c" "$out/edited"; done
        fi
        for copy in "$out"/edited/*.c; do
            [ ! -f "$copy" ] || compile "$copy" "${copy%.c}.o"
        done
        try
        case $kind$status in
        wrong1) verdict=found wrong=$((wrong + 1)) found=$((found + 1)) ;;
        wrong0) verdict=MISSED wrong=$((wrong + 1)) ;;
        sound0) verdict='no difference' sound=$((sound + 1)) ;;
        sound1) verdict=DIFFERS sound=$((sound + 1)) differing=$((differing + 1)) ;;
        esac
        printf '%-13s %5s rounds  %s\n' "$verdict" "$tried" "$title"
    fi
    rm -f "$out"/edited/*
}

# ---- All ----

rm -rf "$out"
mkdir -p "$out/tried" "$out/mock" "$out/edited"
for name in trial kinds appends ceilings circles sets more samples spoil calls lend self $naive; do compile "host/$name.c" "$out/tried/$name.o"; done
for name in $mocked; do compile "host/$name.c" "$out/mock/$name.o"; done

kind=sound title='the mock as it is'
finish
[ "$differing" = 0 ] || stop "the mock itself differs: see $out/told"
title=''
while IFS= read -r text <&3; do
    case $text in
    '' | '#'*) ;;
    'wrong: '* | 'sound: '*)
        finish
        kind=${text%%:*} title=${text#*: }
        case $title in *"$only"*) ;; *) title='' ;; esac
        ;;
    'file: '*) file=${text#file: } ;;
    'old: '*) old=${text#old: } ;;
    'new:'*) new=${text#new:} new=${new# }; [ -z "$title" ] || replace ;;
    *) stop "host/wrong.txt: can't read: $text" ;;
    esac
done 3<host/wrong.txt
finish

echo "$sound sound libraries: $differing with a difference"
echo "$wrong wrong libraries: $found found; $((wrong - found)) missed"
[ "$found" = "$wrong" ] && [ "$differing" = 0 ]
