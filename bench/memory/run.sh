#!/usr/bin/env bash
# Prints the peak memory of the inputs that need the most memory for each byte: bench/memory/run.sh PROGRAM
#
# PROGRAM is a built `certify_cli`. A line has a call and its texts, their bytes, the peak in kilobytes, and the bytes of memory for each byte
# read, after the first 20 MB. Needs GNU time and Python 3.
set -euo pipefail
here=$(cd "$(dirname "$0")" && pwd)
[ $# -eq 1 ] || { echo "usage: bench/memory/run.sh PROGRAM" >&2; exit 2; }
program=$(realpath "$1")
[ -x "$program" ] || { echo "$0: no program $program; \`rt run\` in crates/certify_cli makes the proved one" >&2; exit 2; }
work=$(mktemp -d)
trap 'rm -rf "$work"' EXIT

python3 "$here/worst.py" "$work/in"
for file in "$work"/in/*; do
    case $file in
        *.certificate) call=(hints "$file" "$work/out") read=("$file") ;;
        *.hints) call=(check "$file") read=("$file") ;;
        *) read=("$file"/{script,answers,certificate}) call=(confirm "${read[@]}") ;;
    esac
    "$(command -v time)" -f '%M' -o "$work/took" "$program" "${call[@]}" > /dev/null 2>&1 || true
    tail -n 1 "$work/took" | awk -v name="${call[0]} $(basename "$file")" -v bytes="$(cat "${read[@]}" | wc -c)" '{
        over = ($1 * 1024 - 20e6) / bytes
        printf "%-38s %9d bytes %8d KB %5.1f a byte\n", name, bytes, $1, (over > 0 ? over : 0) }'
done | tee "$work/rows"
awk '{ a = $(NF - 2) } a > most { most = a; row = $0 } END { print "most: " row }' "$work/rows"
