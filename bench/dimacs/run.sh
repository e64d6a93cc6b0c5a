#!/usr/bin/env bash
# Compares the parser of DIMACS CNF with an unverified one in Rust: bench/dimacs/run.sh [BYTES]
#
# Generates a formula of BYTES bytes (100,000,000 by default), and has both read it from standard input, five times in turn. Prints what
# each read, its times and its peak memory. Not part of the gate. Needs rustc and GNU time.
set -eu
here=$(cd "$(dirname "$0")" && pwd)
top=$(cd "$here/../.." && pwd)
work=$(mktemp -d)
trap 'rm -rf "$work"' EXIT

rustc -O -C target-cpu=x86-64-v2 -o "$work/generate" "$here/generate.rs"
rustc -O -C target-cpu=x86-64-v2 -o "$work/plain" "$here/plain.rs"
"$work/generate" "${1:-100000000}" > "$work/formula.cnf"

# A repository of two crates: ours, and a program over it.
mkdir -p "$work/repo/crates/proved/src"
cp -r "$top/crates/sat_base" "$work/repo/crates/"
cp "$top/HANDLES" "$work/repo/"
printf 'sat_base: thiserror\nproved: sat_base\n' > "$work/repo/crates.txt"
git init -q "$work/repo"
cat > "$work/repo/crates/proved/src/main.rt" <<'RT'
//! Reads a formula from standard input and prints its size.
#![tactic(auto)]

use sat_base::{Counted, DimacsParser};

fn main(rt: HostRuntime) {
    let mut input = Counted::new(rt.stdin());
    match DimacsParser::parse(rt.alloc(), &mut input) {
        Ok(formula) => {
            let mut literals = 0usize;
            for clause in formula.iter() {
                literals = literals.wrapping_add(clause.len());
            }
            let _ = eprintln!(rt; "{} clauses, {} literals, {} variables", formula.len(), literals, formula.var_count());
        }
        Err(error) => {
            let _ = eprintln!(rt; "{error}");
        }
    }
}
RT
(cd "$work/repo/crates/proved" && rt run < /dev/null > "$work/build.log" 2>&1) || { tail -n 20 "$work/build.log"; exit 1; }

"$top/bench/measure.sh" 5 "$work/formula.cnf" "$work/plain" "$work/repo/crates/proved/out/proved"
