#!/usr/bin/env bash
# Compares the reader and the writer of proof steps with unverified ones in Rust: bench/steps/run.sh [CERTIFICATE]
#
# Both read the certificate from standard input, and then both copy it step by step to standard output, five times each, in turn. By default
# it generates one of 30,000,000 bytes. Prints what each read, its times and its peak memory. Not part of the gate. Needs rustc and GNU time.
set -eu
here=$(cd "$(dirname "$0")" && pwd)
top=$(cd "$here/../.." && pwd)
work=$(mktemp -d)
trap 'rm -rf "$work"' EXIT

rustc -O -C target-cpu=x86-64-v2 -o "$work/generate" "$here/generate.rs"
rustc -O -C target-cpu=x86-64-v2 -o "$work/plain" "$here/plain.rs"
certificate=${1:-$work/certificate}
[ -e "$certificate" ] || "$work/generate" > "$certificate"

# Creates a repository of three crates: ours, and two programs over it.
mkdir -p "$work/repo/crates/reads/src" "$work/repo/crates/copies/src"
cp -r "$top/crates/sat_base" "$work/repo/crates/"
cp "$top/HANDLES" "$work/repo/"
printf 'sat_base: thiserror\nreads: sat_base\ncopies: sat_base\n' > "$work/repo/crates.txt"
git init -q "$work/repo"
cp "$here/reads.rt.txt" "$work/repo/crates/reads/src/main.rt"
cp "$here/copies.rt.txt" "$work/repo/crates/copies/src/main.rt"
for program in reads copies; do
    (cd "$work/repo/crates/$program" && rt run < /dev/null > "$work/build.log" 2>&1) || { tail -n 20 "$work/build.log"; exit 1; }
done

"$work/repo/crates/copies/out/copies" < "$certificate" 2> /dev/null | cmp - "$certificate"
for words in "read reads" "copy copies"; do
    set -- $words
    echo "$1:"
    "$top/bench/measure.sh" 5 "$certificate" "$work/plain" "$work/repo/crates/$2/out/$2" "$1"
done
