#!/usr/bin/env bash
# Checks the solver's DRAT proofs, and measures the cost of proofs and self-checking: bench/solver/proofs.sh CHECKER [FOLDER]
#
# CHECKER is a program that is called as `CHECKER NAME.cnf NAME.drat`, with a binary DRAT proof. It prints `s VERIFIED` if the proof shows that
# the formula is unsatisfiable. The script builds proofs.rt.txt over the crates of this checkout, in a folder of its own, and uses the formulas
# of formulas.py and FOLDER/*.cnf. For each unsatisfiable one, CHECKER has to verify the binary proof, and the proof in words has to have the
# same lines.
#
# Each formula is solved RUNS times (3 by default), in turn: without a proof, with a proof in each format, and with the solver's own checker but
# no proof. Prints the medians of processor seconds. The last lines are the geometric means of their ratios to the first, over formulas that take
# at least half a second. Not part of the gate. Needs python3 and GNU time.
set -euo pipefail
here=$(cd "$(dirname "$0")" && pwd)
top=$(cd "$here/../.." && pwd)
checker=$1
work=$(mktemp -d)
trap 'rm -rf "$work"' EXIT
mkdir -p "$work/repo/crates/proofs/src"
for crate in sat_base sat_checker sat_store sat_parts sat_solver; do
    mkdir "$work/repo/crates/$crate"
    cp -r "$top/crates/$crate"/{src,specs,proofs} "$work/repo/crates/$crate/"
done
cp "$top/HANDLES" "$work/repo/"
grep -E '^sat_(base|checker|store|parts|solver):' "$top/crates.txt" > "$work/repo/crates.txt"
echo 'proofs: sat_solver sat_base' >> "$work/repo/crates.txt"
git init -q "$work/repo"
cp "$here/proofs.rt.txt" "$work/repo/crates/proofs/src/main.rt"
program=$work/repo/crates/proofs/out/proofs
(cd "$work/repo/crates/proofs" && rt run < /dev/null > "$work/build.log" 2>&1) || [ -x "$program" ] || { tail -n 20 "$work/build.log"; exit 1; }

. "$here/../checker/timing.sh"

# Encodes the lines of a textual proof as bytes.
cat > "$work/bytes.py" <<'PYTHON'
import sys

out = bytearray()
for line in sys.stdin:
    words = line.split()
    out += b"d" if words[0] == "d" else b"a"
    for word in words[words[0] == "d":]:
        lit = int(word)
        code = 2 * abs(lit) + (lit < 0) if lit else 0
        while code >= 128:
            out.append(code % 128 + 128)
            code //= 128
        out.append(code)
sys.stdout.buffer.write(out)
PYTHON

solve() { # KIND ARGUMENT..: runs the solver once, which writes the proof to $work/KIND.proof
    local kind=$1 status=0
    shift
    "$(command -v time)" -f '%U %S' -o "$work/took" "$program" "$@" < "$formula" > "$work/$kind.proof" 2> "$work/said" || status=$?
    [ "$status" = 10 ] || [ "$status" = 20 ] || { cat "$work/said"; echo "$formula: status $status with $*"; exit 1; }
    tail -n 1 "$work/took" >> "$work/$kind.took"
    answer=$status
}

python3 "$here/formulas.py" "$work/formulas"
for formula in "$work"/formulas/*.cnf ${2:+"$2"/*.cnf}; do
    name=$(basename "$formula" .cnf)
    rm -f "$work"/*.took
    for _ in $(seq "${RUNS:-3}"); do
        solve none none
        solve varisat varisat
        solve binary binary
        solve drat drat
        solve check none check
    done
    line="$name $answer"
    if [ "$answer" = 20 ]; then
        "$checker" "$formula" "$work/binary.proof" > "$work/verified" 2>&1 || true
        grep -q '^s VERIFIED' "$work/verified" || { tail -n 3 "$work/verified"; echo "$name: the proof isn't verified"; exit 1; }
        python3 "$work/bytes.py" < "$work/drat.proof" | cmp -s - "$work/binary.proof" || { echo "$name: the lines in words are others"; exit 1; }
        line="$line verified $(wc -c < "$work/binary.proof") bytes"
    fi
    for kind in none varisat binary drat check; do
        awk '{ print $1 + $2 }' "$work/$kind.took" | median > "$work/$kind.median"
        line="$line $kind $(cat "$work/$kind.median")"
    done
    echo "$line"
    paste "$work"/{none,varisat,binary,drat,check}.median >> "$work/all"
done
awk '$1 >= 0.5 { n++; v += log($2 / $1); b += log($3 / $1); d += log($4 / $1); c += log($5 / $1) }
     END { if (n) printf "over %d formulas: varisat %.3f, binary %.3f, drat %.3f, self checking %.3f\n",
         n, exp(v / n), exp(b / n), exp(d / n), exp(c / n) }' "$work/all"
