#!/usr/bin/env bash
# Checks that every source has the layout that `rt fmt` gives it: bench/layout.sh
#
# `rt ci` refuses a crate with another layout, but only when it proves the crate; `rt check` ignores the layout. The script formats a copy,
# prints the files that would change, and exits with 1 if there are any. Takes ten seconds.
set -euo pipefail
top=$(cd "$(dirname "$0")/.." && pwd)
work=$(mktemp -d)
trap 'rm -rf "$work"' EXIT

mkdir "$work/crates"
cp "$top/crates.txt" "$top/HANDLES" "$work/"
status=0
for folder in "$top"/crates/*/; do
    crate=$(basename "$folder")
    mkdir "$work/crates/$crate"
    cp -r "${folder}src" "$work/crates/$crate/"
    (cd "$work/crates/$crate" && rt fmt > /dev/null 2>&1) || true
    diff -rq "${folder}src" "$work/crates/$crate/src" > "$work/differences" || {
        sed "s|^Files $top/\(.*\) and .*|\1 is not in the layout: run rt fmt in crates/$crate|" "$work/differences"
        status=1
    }
done
exit $status
