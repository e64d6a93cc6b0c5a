#!/usr/bin/env bash
# Compares unit propagation with an unverified loop: bench/propagation/run.sh YARDSTICK FOLDER [ROUNDS]
#
# YARDSTICK is a program. Its arguments are a formula in DIMACS CNF and a number of rounds (100 by default). It prints a line
# `decisions D conflicts C full F assigned A seconds S`; the seconds are those after loading. Round r decides open variables, beginning with
# variable (r * 7919) mod n, until there is a conflict or a full assignment, and then undoes all decisions. Before each decision x becomes
# 6364136223846793005 x + 1442695040888963407 modulo 2^64, from 1 on; the decision is negative if bit 31 of x is set. Ours does the same by
# `propagate`, `enqueue_assignment` and `backtrack`.
#
# Both run five times, in turn, on each formula FOLDER/*.cnf. Prints the medians of seconds and of peak memory, with their ratios, and the
# geometric mean of the ratios of time. Fails if decisions, conflicts or full assignments differ. Not part of the gate. Needs rustc and GNU time.
set -euo pipefail
here=$(cd "$(dirname "$0")" && pwd)
top=$(cd "$here/../.." && pwd)
yardstick=$1 folder=$2 rounds=${3:-100}
work=$(mktemp -d)
trap 'rm -rf "$work"' EXIT

# Creates a repository of our crates, and a static library over them. The functions of the library have an unsatisfiable precondition, so that
# it can be built without a proof that callers of `propagate` meet its preconditions.
mkdir -p "$work/repo/crates/rounds/src"
for crate in sat_base sat_store sat_parts; do
    cp -r "$top/crates/$crate" "$work/repo/crates/"
done
cp "$top/HANDLES" "$work/repo/"
cat > "$work/repo/crates.txt" <<'TXT'
sat_base: thiserror
sat_store: sat_base
sat_parts: sat_store sat_base
rounds staticlib: sat_parts sat_store sat_base libc
TXT
git init -q "$work/repo"
cp "$here/rounds.rt.txt" "$work/repo/crates/rounds/src/lib.rt"
(cd "$work/repo/crates/rounds" && rt lib > "$work/build.log" 2>&1) || { tail -n 20 "$work/build.log"; exit 1; }
rustc -O -C target-cpu=x86-64-v2 -o "$work/proved" "$here/drive.rs" -L "$work/repo/crates/rounds/out" -l static=rounds
cp "$yardstick" "$work/plain"

median() {
    sort -n | awk '{ t[NR] = $1 } END { print t[int((NR + 1) / 2)] }'
}

for formula in "$folder"/*.cnf; do
    rm -f "$work"/*.seconds "$work"/*.peak
    for _ in 1 2 3 4 5; do
        for name in plain proved; do
            "$(command -v time)" -f %M -o "$work/took" "$work/$name" "$formula" "$rounds" > "$work/$name.said"
            tail -n 1 "$work/took" >> "$work/$name.peak"
            sed 's/.* seconds \([0-9.]*\).*/\1/' "$work/$name.said" >> "$work/$name.seconds"
            sed 's/ assigned .*//' "$work/$name.said" > "$work/$name.counts"
        done
        cmp "$work/plain.counts" "$work/proved.counts"
    done
    echo "$(basename "$formula"): $(cat "$work/proved.counts")"
    for name in plain proved; do
        echo "   $name: $(sort -n "$work/$name.seconds" | tr '\n' ' ')s"
    done
    for what in seconds peak; do
        for name in plain proved; do
            median < "$work/$name.$what" > "$work/$name.median"
        done
        paste "$work/proved.median" "$work/plain.median" | awk -v what="$what" '{ printf "   %s: proved %s, plain %s, ratio %.2f\n", what, $1, $2, $1 / $2 }'
        paste "$work/proved.median" "$work/plain.median" | awk '{ print $1 / $2 }' >> "$work/$what.ratios"
    done
done
awk '{ all += log($1); if ($1 > most) most = $1 } END { printf "time: geometric mean %.2f, highest %.2f\n", exp(all / NR), most }' "$work/seconds.ratios"
awk '{ if ($1 > most) most = $1 } END { printf "peak memory: highest %.2f\n", most }' "$work/peak.ratios"
