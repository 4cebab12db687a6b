#!/bin/sh
# Times one question over a made-up season of 1,048,576 minutes: bin/minutes (reading, build and search), awk, and sqlite3 where they are installed.
# Prints the seconds of each and their ratios to bin/minutes, of one run, and whether the answers are the same. Not part of the gate.
set -eu
cd "$(dirname "$0")/.."

rows=${1:-1048576}
out=target/host
mkdir -p "$out"
"${CC:-cc}" -std=c99 -O2 -Ihost -o "$out/season" host/season.c host/minutes.c
season=$out/year.csv
"$out/season" "$rows" "$season" "$out/year.truth.csv"

# Seconds since 1970, with fractions where date has them.
now() { date +%s.%N; }
timed() { # NAME COMMAND..
    name=$1
    shift
    before=$(now)
    "$@" >"$out/$name.answer"
    after=$(now)
    echo "$name $(echo "$before $after" | awk '{ printf "%.2f", $2 - $1 }')"
}
by_minutes() { bin/minutes "$season" like 1046 12 --columns speed,shaft_turns,fan_pressure,tender_distance 2>/dev/null; }
by_awk() {
    awk -F, 'NR == FNR { if (FNR == 1048) { a = $1; b = $2; c = $4; d = $6 }; if (FNR > 1048) nextfile; next }
        function gap(x, y) { return x > y ? x - y : y - x }
        FNR > 1 { s = gap($1, a) + gap($2, b) + gap($4, c) + gap($6, d); if (s <= 12) print FNR - 2, s }' "$season" "$season"
}
by_sqlite() {
    sqlite3 -batch :memory: <<SQL
.mode csv
.import $season m
.mode list
.separator ' '
SELECT m.rowid - 1, abs(m.speed - q.speed) + abs(m.shaft_turns - q.shaft_turns) + abs(m.fan_pressure - q.fan_pressure) + abs(m.tender_distance - q.tender_distance) AS d
FROM m, (SELECT * FROM m WHERE rowid = 1047) AS q WHERE d <= 12 ORDER BY m.rowid;
SQL
}

by_minutes >/dev/null # proves and builds at the first use
timed minutes by_minutes >"$out/times"
for other in awk sqlite; do
    case $other in awk) tool=awk ;; *) tool=sqlite3 ;; esac
    if ! command -v "$tool" >/dev/null; then
        echo "$tool is not installed"
        continue
    fi
    timed "$other" "by_$other" >>"$out/times"
    cmp "$out/minutes.answer" "$out/$other.answer" && echo "$tool gives the same $(wc -l <"$out/minutes.answer") rows"
done
awk 'NR == 1 { first = $2 } { printf "%-8s %6.2f s  %5.2f\n", $1, $2, $2 / first }' "$out/times"
