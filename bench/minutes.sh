#!/usr/bin/env bash
# Prints what each crate adds to the gate: bench/minutes.sh [CRATE..]
#
# In a copy of the repository, proves each crate from scratch, or each that is named, then its tests, and then tries the edits of its
# must-fail/. A line has the processor minutes of each of the three, and the minutes by the clock; the last line has the sums. The crates that
# a crate depends on are built first, and not counted. Nor is the extra proof of the crate that the gate makes before it tries edits. All crates
# together take as long as the gate.
set -euo pipefail
top=$(cd "$(dirname "$0")/.." && pwd)
work=$(mktemp -d)
trap 'rm -rf "$work"' EXIT

git -C "$top" ls-files -z | (cd "$top" && xargs -0 tar cf - --) | tar xf - -C "$work"
git init -q "$work"
cd "$work"

took() { # FOLDER COMMAND..: prints the processor minutes of the command
    local TIMEFORMAT='%U %S'
    { time (cd "$1" && "${@:2}" > "$work/said" 2>&1 < /dev/null); } 2> "$work/took" || { tail -n 20 "$work/said" >&2; exit 1; }
    awk '{ printf "%.1f", ($1 + $2) / 60 }' "$work/took"
}

printf '%-20s %8s %8s %8s %8s\n' crate product tests edits clock
while IFS=: read -r crate below; do
    if [ $# -gt 0 ] && [[ " $* " != *" $crate "* ]]; then
        continue
    fi
    for library in $below; do
        if [ -d "crates/$library" ]; then
            took "crates/$library" rt lib > /dev/null
        fi
    done
    begun=$SECONDS
    product=$(took "crates/$crate" rt check)
    tests=$(took "crates/$crate" rt check --test)
    edits=$(took . rt must-fail "$crate")
    echo "$crate $product $tests $edits $(((SECONDS - begun) / 6))" | awk '{ printf "%-20s %8s %8s %8s %8.1f\n", $1, $2, $3, $4, $5 / 10 }' | tee -a "$work/all"
done < <(grep ':' crates.txt | grep -v '^#')
awk '{ for (i = 2; i <= 5; i++) sum[i] += $i } END { printf "%-20s %8.1f %8.1f %8.1f %8.1f\n", "all", sum[2], sum[3], sum[4], sum[5] }' "$work/all"
