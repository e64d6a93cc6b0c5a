#!/usr/bin/env bash
# Runs two programs in turn on one input: bench/measure.sh TIMES INPUT PLAIN PROVED [ARGUMENT..]
#
# Prints what each wrote to standard error, its fastest and its median time in seconds, its peak memory, and the ratio of the medians. Standard
# output is dropped. Needs GNU time.
set -euo pipefail
[ $# -ge 4 ] || { sed -n 2p "$0" >&2; exit 2; }
times=$1 input=$2 plain=$3 proved=$4
shift 4
work=$(mktemp -d)
trap 'rm -rf "$work"' EXIT

for _ in $(seq "$times"); do
    for name in plain proved; do
        "$(command -v time)" -f '%e %M' -o "$work/took" "${!name}" "$@" < "$input" > /dev/null 2> "$work/$name.said"
        tail -n 1 "$work/took" >> "$work/$name.took"
    done
done
for name in plain proved; do
    echo "$name: $(tail -n 1 "$work/$name.said")"
    sort -n "$work/$name.took" | awk '{ t[NR] = $1; all = all " " $1; if ($2 > most) most = $2 }
        END { printf "   %s s; fastest %.2f, median %.2f; peak %.1f MiB\n", all, t[1], t[int((NR + 1) / 2)], most / 1024 }'
    sort -n "$work/$name.took" | awk '{ t[NR] = $1 } END { print t[int((NR + 1) / 2)] }' > "$work/$name.median"
done
paste "$work/proved.median" "$work/plain.median" | awk '{ printf "ratio of the medians: %.2f\n", $1 / $2 }'
