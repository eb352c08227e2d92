#!/bin/sh
# Compares two programs that fight the same battles: compare.sh PLAIN PROVED
# For each battle and each program: that both print the same, the least time of 15 runs that take turns (milliseconds of
# one processor, by perf), the instructions (millions, by valgrind) and the most memory (MB).
set -eu
plain=$1
proved=$2

milliseconds() {
    perf stat -x, -e task-clock "$@" 2>&1 >/dev/null | cut -d, -f1
}

least() {
    awk -v a="$1" -v b="$2" 'BEGIN { print (a < b) ? a : b }'
}

instructions() {
    valgrind --tool=callgrind --callgrind-out-file=/dev/null "$@" 2>&1 >/dev/null | awk '/Collected/ { printf "%.0f", $4 / 1000000 }'
}

megabytes() {
    /usr/bin/time -f %M "$@" 2>&1 >/dev/null | awk '{ printf "%.1f", $1 / 1000 }'
}

for battle in "fighters 100000" "fighters 200000" "fighters 400000" "fighters 800000" mixed turrets cargos; do
    # shellcheck disable=SC2086
    {
        [ "$("$plain" $battle)" = "$("$proved" $battle)" ] || echo "$battle: they differ"
        one=999999
        two=999999
        for run in 1 2 3 4 5 6 7 8 9 10 11 12 13 14 15; do
            one=$(least "$one" "$(milliseconds "$plain" $battle)")
            two=$(least "$two" "$(milliseconds "$proved" $battle)")
        done
        printf '%-16s plain  %6.1f ms %5s million instructions %5s MB\n' "$battle" "$one" "$(instructions "$plain" $battle)" "$(megabytes "$plain" $battle)"
        printf '%-16s proved %6.1f ms %5s million instructions %5s MB\n' "$battle" "$two" "$(instructions "$proved" $battle)" "$(megabytes "$proved" $battle)"
    }
done
