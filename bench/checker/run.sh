#!/usr/bin/env bash
# Compares the checker with an unverified one: bench/checker/run.sh YARDSTICK FOLDER [NAME..]
#
# YARDSTICK is a program that is called as `YARDSTICK NAME.cnf NAME.trace`, and checks a proof whose steps name clauses by their ids. Ours
# checks FOLDER/NAME.certificate, the same proof with hashes, by `check_proof` from standard input. Both run five times, in turn, on each
# certificate of the folder, or on those that are named.
#
# Prints what ours reports, the medians of seconds and of peak memory, with their ratios, and the geometric mean of the ratios of time. Fails if
# ours refuses the proof or does not record `unsat`. Not part of the gate. Needs GNU time.
set -euo pipefail
here=$(cd "$(dirname "$0")" && pwd)
top=$(cd "$here/../.." && pwd)
yardstick=$1 folder=$2
shift 2
work=$(mktemp -d)
trap 'rm -rf "$work"' EXIT

mkdir -p "$work/repo/crates/checks/src"
for crate in sat_base sat_checker; do
    cp -r "$top/crates/$crate" "$work/repo/crates/"
done
cp "$top/HANDLES" "$work/repo/"
printf 'sat_base: thiserror\nsat_checker: sat_base thiserror anyhow\nchecks: sat_checker sat_base\n' > "$work/repo/crates.txt"
git init -q "$work/repo"
cp "$here/checks.rt.txt" "$work/repo/crates/checks/src/main.rt"
(cd "$work/repo/crates/checks" && rt run < /dev/null > "$work/build.log" 2>&1) || { tail -n 20 "$work/build.log"; exit 1; }
proved=$work/repo/crates/checks/out/checks

. "$here/timing.sh"

[ $# -gt 0 ] || set -- $(cd "$folder" && for file in *.certificate; do echo "${file%.certificate}"; done)
for name; do
    rm -f "$work"/*.took
    for _ in 1 2 3 4 5; do
        took plain "$yardstick" "$folder/$name.cnf" "$folder/$name.trace"
        took proved "$proved" < "$folder/$name.certificate"
        grep -q '^accepted, .* unsat true$' "$work/proved.said" || { cat "$work/proved.said"; exit 1; }
    done
    echo "$name: $(cat "$work/proved.said")"
    for column in 1 2; do
        for kind in plain proved; do
            awk -v column="$column" '{ print $column }' "$work/$kind.took" | median > "$work/$kind.median"
        done
        paste "$work/proved.median" "$work/plain.median" | awk -v what="$([ "$column" = 1 ] && echo seconds || echo KiB)" \
            '{ printf "   %s: proved %s, plain %s, ratio %.2f\n", what, $1, $2, $1 / ($2 > 0 ? $2 : 0.005) }'
        paste "$work/proved.median" "$work/plain.median" | awk '{ print $1 / ($2 > 0 ? $2 : 0.005) }' >> "$work/$column.ratios"
    done
done
awk '{ all += log($1); if ($1 > most) most = $1 } END { printf "time: geometric mean %.2f, highest %.2f\n", exp(all / NR), most }' "$work/1.ratios"
awk '{ if ($1 > most) most = $1 } END { printf "peak memory: highest %.2f\n", most }' "$work/2.ratios"
