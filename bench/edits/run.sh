#!/usr/bin/env bash
# Tries edits that the prover has to refuse and that the gate leaves out: bench/edits/run.sh [CRATE [WORD]]
#
# Each file of bench/edits/CRATE changes that crate as an edit of its must-fail/ does. For each edit, a line reports that the prover refuses it,
# and at which function; that the crate is still proved with it; or that it cannot be applied. With WORD, the script tries only the edits whose
# name or text contains WORD, such as the name of a file or a function. The last line counts the results, and the status is 1 if an edit is not
# refused. The first edit of a crate takes a complete check, each further one 15 to 40 seconds.
set -euo pipefail
here=$(cd "$(dirname "$0")" && pwd)
top=$(cd "$here/../.." && pwd)
work=$(mktemp -d)
trap 'rm -rf "$work"' EXIT
word=${2:-}

crates=${1:-$(cd "$here" && for folder in */; do echo "${folder%/}"; done)}

# Copies the repository's sources, with the edits to be tried in each crate's must-fail/.
mkdir "$work/repo" "$work/repo/crates"
git init -q "$work/repo"
cp "$top/crates.txt" "$top/HANDLES" "$work/repo/"
for folder in "$top"/crates/*/; do
    crate=$(basename "$folder")
    mkdir "$work/repo/crates/$crate"
    for part in src specs proofs data stdin stdout; do
        if [ -e "$folder$part" ]; then
            cp -r "$folder$part" "$work/repo/crates/$crate/"
        fi
    done
done

refused=0 others=0
for crate in $crates; do
    mkdir "$work/repo/crates/$crate/must-fail"
    for edit in "$here/$crate"/*.edit; do
        if [[ -z $word || $(basename "$edit") == *"$word"* ]] || grep -qF -- "$word" "$edit"; then
            cp "$edit" "$work/repo/crates/$crate/must-fail/"
        fi
    done
    (cd "$work/repo" && rt must-fail "$crate") > "$work/said" || true
    cat "$work/said"
    refused=$((refused + $(grep -c '^rt: must-fail .*: refused, as it must be' "$work/said" || true)))
    others=$((others + $(ls "$work/repo/crates/$crate/must-fail" | wc -l) - $(grep -c '^rt: must-fail .*: refused, as it must be' "$work/said" || true)))
    rm -r "$work/repo/crates/$crate/must-fail"
done
echo "$refused refused, $others not"
[ "$others" -eq 0 ]
