#!/bin/sh
# Runs the test of two threads so many times on a busy machine: many.sh PROGRAM [TIMES]
# PROGRAM is the built tests of `fronts`. Two busy processes for each processor run beside it. It ends at the first run that fails
# or that has not ended after a minute.
set -eu
program=$1
times=${2:-10000}
name=tests::two_threads_share_one_history

busy=""
trap 'kill $busy 2>/dev/null || true' EXIT
trap 'exit 1' INT TERM
for _ in $(seq $(($(nproc) * 2))); do
    sh -c 'while :; do :; done' &
    busy="$busy $!"
done

for run in $(seq "$times"); do
    timeout 60 "$program" "$name" >/dev/null 2>&1 || {
        echo "run $run failed"
        exit 1
    }
done
echo "$times runs, none failed"
