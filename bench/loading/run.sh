#!/usr/bin/env bash
# Compares loading clauses and building their watch lists with unverified Rust: bench/loading/run.sh [VARIABLES [LITERALS]]
#
# Both load the same clauses of 3 to 10 literals, and then build the watch lists, five times in turn. By default these are 10,000,000 literals
# over 1,000,000 variables. Prints the medians of both times and of peak memory, with their ratios. Fails if clauses, words or watches differ.
# Not part of the gate. Needs rustc and GNU time.
set -euo pipefail
here=$(cd "$(dirname "$0")" && pwd)
top=$(cd "$here/../.." && pwd)
variables=${1:-1000000} literals=${2:-10000000}
work=$(mktemp -d)
trap 'rm -rf "$work"' EXIT

# Creates a repository of our crates, and a static library over them. The functions of the library have an unsatisfiable precondition, so that
# it can be built without a proof that callers meet the preconditions of its calls.
mkdir -p "$work/repo/crates/loading/src" "$work/repo/crates/loading/proofs/measure"
for crate in sat_base sat_store sat_parts; do
    cp -r "$top/crates/$crate" "$work/repo/crates/"
done
cp "$top/HANDLES" "$work/repo/"
cat > "$work/repo/crates.txt" <<'TXT'
sat_base: thiserror
sat_store: sat_base
sat_parts: sat_store sat_base
loading staticlib: sat_parts sat_store sat_base libc
TXT
git init -q "$work/repo"
cp "$here/loading.rt.txt" "$work/repo/crates/loading/src/lib.rt"
cp "$here/loading.antt.txt" "$work/repo/crates/loading/proofs/measure/Invariants.antt"
(cd "$work/repo/crates/loading" && rt lib > "$work/build.log" 2>&1) || { tail -n 20 "$work/build.log"; exit 1; }
rustc -O -C target-cpu=x86-64-v2 -o "$work/proved" "$here/drive.rs" -L "$work/repo/crates/loading/out" -l static=loading
rustc -O -C target-cpu=x86-64-v2 -o "$work/plain" "$here/plain.rs"

for _ in 1 2 3 4 5; do
    for name in plain proved; do
        "$(command -v time)" -f %M -o "$work/took" "$work/$name" "$variables" "$literals" > "$work/$name.said"
        tail -n 1 "$work/took" >> "$work/$name.peak"
        sed 's/.* loading \([0-9.]*\).*/\1/' "$work/$name.said" >> "$work/$name.loading"
        sed 's/.* building \([0-9.]*\).*/\1/' "$work/$name.said" >> "$work/$name.building"
        sed 's/ loading .*//' "$work/$name.said" > "$work/$name.counts"
    done
    cmp "$work/plain.counts" "$work/proved.counts"
done
cat "$work/proved.counts"
for what in loading building peak; do
    for name in plain proved; do
        sort -n "$work/$name.$what" | sed -n 3p > "$work/$name.median"
    done
    paste "$work/proved.median" "$work/plain.median" | awk -v what="$what" '{ printf "%s: proved %s, plain %s, ratio %.2f\n", what, $1, $2, $1 / $2 }'
done
