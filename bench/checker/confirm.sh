#!/usr/bin/env bash
# Compares confirm with check_proof on the same certificates: bench/checker/confirm.sh FOLDER [NAME..]
#
# FOLDER/NAME.cnf, FOLDER/answers and FOLDER/NAME.certificate match as script, answers and certificate. One program runs `confirm` on the
# three files, the other runs `check_proof` on the certificate from standard input. Both run five times, in turn, on each certificate of the
# folder, or on those that are named.
#
# Prints their results, the medians of seconds and of peak memory, with their ratios, and the geometric mean of the ratios of time. Fails if a
# certificate is not confirmed. The program of `confirm` also runs scripts: `confirms run S A C`. Not part of the gate. Needs GNU time.
set -euo pipefail
here=$(cd "$(dirname "$0")" && pwd)
top=$(cd "$here/../.." && pwd)
folder=$1
shift
work=$(mktemp -d)
trap 'rm -rf "$work"' EXIT

mkdir -p "$work/repo/crates/checks/src" "$work/repo/crates/confirms/src"
for crate in sat_base sat_store sat_parts sat_checker sat_solver sat_hints certify; do
    cp -r "$top/crates/$crate" "$work/repo/crates/"
done
cp "$top/HANDLES" "$work/repo/"
{
    grep -E '^(sat_base|sat_store|sat_parts|sat_checker|sat_solver|sat_hints|certify):' "$top/crates.txt"
    printf '%s\n' 'checks: sat_checker sat_base' 'confirms: certify sat_checker sat_base'
} > "$work/repo/crates.txt"
git init -q "$work/repo"
cp "$here/checks.rt.txt" "$work/repo/crates/checks/src/main.rt"
cp "$here/confirms.rt.txt" "$work/repo/crates/confirms/src/main.rt"
for crate in checks confirms; do
    (cd "$work/repo/crates/$crate" && rt run < /dev/null > "$work/build.log" 2>&1) || [ -x "$work/repo/crates/$crate/out/$crate" ] ||
        { tail -n 20 "$work/build.log"; exit 1; }
done
checks=$work/repo/crates/checks/out/checks confirms=$work/repo/crates/confirms/out/confirms

. "$here/timing.sh"

[ $# -gt 0 ] || set -- $(cd "$folder" && for file in *.certificate; do echo "${file%.certificate}"; done)
for name; do
    rm -f "$work"/*.took
    for _ in 1 2 3 4 5; do
        took checks "$checks" < "$folder/$name.certificate"
        took confirms "$confirms" confirm "$folder/$name.cnf" "$folder/answers" "$folder/$name.certificate"
        grep -q '^confirmed true, ' "$work/confirms.said" || { cat "$work/confirms.said"; exit 1; }
    done
    echo "$name: check_proof $(cat "$work/checks.said"); confirm $(cat "$work/confirms.said")"
    for column in 1 2; do
        for kind in checks confirms; do
            awk -v column="$column" '{ print $column }' "$work/$kind.took" | median > "$work/$kind.median"
        done
        paste "$work/confirms.median" "$work/checks.median" | awk -v what="$([ "$column" = 1 ] && echo seconds || echo KiB)" \
            '{ printf "   %s: confirm %s, check_proof %s, ratio %.2f\n", what, $1, $2, $1 / ($2 > 0 ? $2 : 0.005) }'
        paste "$work/confirms.median" "$work/checks.median" | awk '{ print $1 / ($2 > 0 ? $2 : 0.005) }' >> "$work/$column.ratios"
    done
done
awk '{ all += log($1); if ($1 > most) most = $1 } END { printf "time: geometric mean %.2f, highest %.2f\n", exp(all / NR), most }' "$work/1.ratios"
awk '{ if ($1 > most) most = $1 } END { printf "peak memory: highest %.2f\n", most }' "$work/2.ratios"
