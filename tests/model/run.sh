#!/usr/bin/env bash
# Runs random lists of calls through a replay program and compares what it prints, byte by byte, with what the model prints.
#   tests/model/run.sh REPLAY [CALLS [SEED]]
# REPLAY is the program's path, or a command to which a list's name is added. CALLS (50,000) are made in portions of 2,500, each from a
# seed of its own, from SEED (1) on. Then lists that end in a bad line are tried, 200 of them. It stops at the first difference.
# LQ_MODEL=PATH takes a model that is compiled already, and needs no rustc.
set -eu

here=$(cd "$(dirname "$0")" && pwd)
self=tests/model/run.sh
. "$here/../command.sh"
[ $# -ge 1 ] || cannot "which replay program? run.sh REPLAY [CALLS [SEED]]"
replay=$1
calls=${2:-50000}
first=${3:-1}
portion=2500

work=$(mktemp -d)
trap 'rm -rf "$work"' EXIT
model=${LQ_MODEL:-$work/model}
[ -n "${LQ_MODEL:-}" ] || "$here/build.sh" "$model" || cannot "there is no model"
"$model" test || fail "the model fails its own tests"

# Says where the outputs differ, and keeps the files.
differ() { # SEED
    trap - EXIT
    at=$(cmp "$work/expect" "$work/said" 2>/dev/null | sed -n 's/.* line \([0-9]*\)$/\1/p')
    if [ -z "$at" ]; then # one of them is the other's beginning
        at=$(cat "$work/expect" "$work/said" | wc -l)
        for file in expect said; do
            lines=$(($(wc -l <"$work/$file") + 1))
            [ "$lines" -ge "$at" ] || at=$lines
        done
    fi
    {
        echo "seed $1: the replay program differs from the model in line $at of the output"
        "$model" where "$work/list" "$at"
        echo "  model:  $(sed -n "${at}p" "$work/expect")"
        echo "  replay: $(sed -n "${at}p" "$work/said")"
        [ ! -s "$work/errors" ] || echo "  it said: $(head -n 1 "$work/errors")"
        echo "  kept: $work/list, expect, said"
    } >&2
    exit 1
}

seed=$first
made=0
while [ "$made" -lt "$calls" ]; do
    count=$((calls - made < portion ? calls - made : portion))
    "$model" check "$seed" "$count" "$work/list" "$work/expect"
    code=0
    $replay "$work/list" >"$work/said" 2>"$work/errors" || code=$?
    cmp -s "$work/expect" "$work/said" || differ "$seed"
    [ "$code" = 0 ] || fail "seed $seed: all lines are right, but the replay program ended with $code"
    [ ! -s "$work/errors" ] || fail "seed $seed: all lines are right, but the replay program said $(head -n 1 "$work/errors")"
    made=$((made + count))
    seed=$((seed + 1))
done

# A bad line's fault stands on the error stream, and nothing else does.
for seed in $(seq "$first" $((first + 199))); do
    "$model" bad "$seed" "$work/list" "$work/expect" "$work/fault"
    $replay "$work/list" >"$work/said" 2>"$work/errors" || true
    cmp -s "$work/expect" "$work/said" || differ "$seed (bad line)"
    cmp -s "$work/fault" "$work/errors" ||
        fail "seed $seed: the fault is \"$(cat "$work/fault")\", and the replay program said \"$(head -n 1 "$work/errors")\""
done

echo "$made calls and 200 bad lines as in the model"
