#!/usr/bin/env bash
# Compares `certify run` and `confirm` with MiniSat without preprocessing: [LIMIT=SECONDS] bench/solver/run.sh [PROGRAM [FOLDER]] > ROWS
#
# PROGRAM is by default the proved program, crates/certify_cli/out/certify_cli. The formulas are those of formulas.py and FOLDER/*.cnf. Each
# program runs once on each formula, one after another: `run`, which writes answers and certificate to files, `confirm` of these files, and
# MiniSat.
#
# A row is a line of ten words: the formula; the answer; user and system seconds, peak memory in MiB and conflicts of `run`; seconds and
# memory of `confirm`; seconds, memory and conflicts of MiniSat. A program is stopped after LIMIT seconds of processor time (300). Then its
# words are `-`, and so is a word that a program does not report. pictures.py makes tables and pictures of the rows.
#
# Not part of the gate. Needs python3, GNU time and Debian's minisat.
set -euo pipefail
here=$(cd "$(dirname "$0")" && pwd)
program=${1:-$here/../../crates/certify_cli/out/certify_cli} limit=${LIMIT:-300}
[ -x "$program" ] || { echo "$0: no program $program; \`rt run\` in crates/certify_cli makes the proved one" >&2; exit 2; }
gnu_time=$(command -v time)
work=$(mktemp -d)
trap 'rm -rf "$work"' EXIT
python3 "$here/formulas.py" "$work/formulas"

took() { # NAME COMMAND..: prints seconds and peak memory in MiB; the files NAME.out and NAME.err get what the command prints
    local name=$1 TIMEFORMAT='%3U %3S'
    shift
    { time (ulimit -t "$limit"; "$gnu_time" -f '%M' -o "$work/memory" "$@" > "$work/$name.out" 2> "$work/$name.err") || true; } 2> "$work/seconds"
    tail -qn 1 "$work/seconds" "$work/memory" | paste -sd ' ' | awk '{ printf "%.3f %.1f", $1 + $2, $3 / 1024 }' > "$work/took"
    if ! grep -q 'terminated by signal' "$work/memory"; then
        cat "$work/took"
    elif awk -v limit="$limit" '{ exit $1 < 0.9 * limit }' "$work/took"; then # killed at the limit
        echo '- -'
    else
        echo "$0: $*: $(head -n 1 "$work/memory")" >&2
        return 1
    fi
}

for formula in "$work"/formulas/*.cnf ${2:+"$2"/*.cnf}; do
    rm -f "$work/answers" "$work/certificate"
    run=$(took run "$program" run "$formula" "$work/answers" "$work/certificate")
    answer=- conflicts=- confirm='- -'
    if [ "$run" != '- -' ]; then
        answer=$(head -n 1 "$work/answers" | cut -d' ' -f2)
        conflicts=$(grep -o 'conflicts=[0-9]*' "$work/run.err" | cut -d= -f2)
        confirm=$(took confirm "$program" confirm "$formula" "$work/answers" "$work/certificate")
        if [ "$confirm" != '- -' ] && ! grep -qx yes "$work/confirm.out"; then
            echo "$0: $formula isn't confirmed: $(cat "$work/confirm.out" "$work/confirm.err")" >&2
            exit 1
        fi
    fi
    minisat=$(took minisat minisat -no-pre -verb=1 "$formula")
    theirs=$(awk '/^conflicts/ { print $3 }' "$work/minisat.out")
    [ "$minisat" != '- -' ] || theirs=-
    echo "$(basename "$formula" .cnf) $answer $run $conflicts $confirm $minisat ${theirs:--}"
done
