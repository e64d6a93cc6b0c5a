#!/usr/bin/env bash
# Compares random sessions of calls with a search by cases: bench/solver/sessions.sh COUNT [SEED]
#
# Builds sessions.rt.txt over the crates of this checkout, in a folder of its own, and calls sessions.py with it. The checker checks the proof
# of each session. Not part of the gate. Needs python3.
set -euo pipefail
here=$(cd "$(dirname "$0")" && pwd)
top=$(cd "$here/../.." && pwd)
work=$(mktemp -d)
trap 'rm -rf "$work"' EXIT
mkdir -p "$work/repo/crates/sessions/src"
for crate in sat_base sat_checker sat_store sat_parts sat_solver; do
    mkdir "$work/repo/crates/$crate"
    cp -r "$top/crates/$crate"/{src,specs,proofs} "$work/repo/crates/$crate/"
done
cp "$top/HANDLES" "$work/repo/"
grep -E '^sat_(base|checker|store|parts|solver):' "$top/crates.txt" > "$work/repo/crates.txt"
echo 'sessions: sat_solver sat_checker sat_base' >> "$work/repo/crates.txt"
git init -q "$work/repo"
cp "$here/sessions.rt.txt" "$work/repo/crates/sessions/src/main.rt"
(cd "$work/repo/crates/sessions" && rt run < /dev/null > "$work/build.log" 2>&1) || { tail -n 20 "$work/build.log"; exit 1; }
python3 "$here/sessions.py" "$work/repo/crates/sessions/out/sessions" "$@"
