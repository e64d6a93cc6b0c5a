#!/usr/bin/env bash
# Starts the program in ways that a shell can and a test can't: bench/descriptors.sh PROGRAM
#
# PROGRAM is the path of the program, such as crates/certify_cli/out/certify_cli. First some of its standard streams are closed: what is
# meant for them must not be written into a file. Then memory runs out in a run, after an answer: nothing may be printed. A line says what
# went wrong; the last line counts the checks. Takes seconds.
set -euo pipefail
[ $# -eq 1 ] || { echo "usage: bench/descriptors.sh PROGRAM" >&2; exit 2; }
program=$(realpath "$1")
[ -x "$program" ] || { echo "$0: no program $program; \`rt run\` in crates/certify_cli makes the proved one" >&2; exit 2; }
work=$(mktemp -d)
trap 'rm -rf "$work"' EXIT
cd "$work"
checks=0 wrong=0

# Checks whether two values are equal, and prints them with the name of the check if they are not.
is() { # NAME FOUND WANTED
    checks=$((checks + 1))
    if [ "$2" != "$3" ]; then
        wrong=$((wrong + 1))
        printf '%s: %q instead of %q\n' "$1" "$2" "$3"
    fi
}

# Starts the program with the standard streams NUMBERS closed, and writes its status to a file.
closed() { # NUMBERS WORD..
    local numbers=$1 status=0
    shift
    (
        for number in $numbers; do
            eval "exec $number>&-"
        done
        "$program" "$@"
    ) || status=$?
    echo "$status" > "$work/status"
}

hex() { od -An -tx1 -v "$1" | tr -d ' \n'; }

answers=$'s SATISFIABLE\nv -1 2 0'
certificate=020001010001020102010102050200020b0009060a0201020b000d
printf '1 2 0\na 0\n' > script
printf '\x02\x00\x01\x07' > refused
for numbers in 0 1 2 '0 1' '0 2' '1 2' '0 1 2'; do
    rm -f a c h
    closed "$numbers" run script a c > out 2> err
    is "run without $numbers: status" "$(cat status)" 0
    is "run without $numbers: answers" "$(cat a)" "$answers"
    is "run without $numbers: certificate" "$(hex c)" "$certificate"
    closed "$numbers" hints c h > out 2> err
    is "hints without $numbers: status" "$(cat status)" 0
    is "hints without $numbers: hints" "$(cat h)" 'i 1 1 2 0'
    closed "$numbers" hints refused h > out 2> err
    is "refused hints without $numbers: status" "$(cat status)" 1
    is "refused hints without $numbers: hints" "$(cat h)" ''
    closed "$numbers" confirm script a c > out 2> err
    is "confirm without $numbers: status" "$(cat status)" 0
    is "confirm without $numbers: answers" "$(cat a)" "$answers"
done

# An answer is found, and then there is no memory for the names of a clause.
printf '1 0\na 0\n200000000 0\na 0\n' > large
status=0
(ulimit -v 400000 && "$program" < large > out 2> err) || status=$?
is 'out of memory: status' "$status" 3
is 'out of memory: output' "$(cat out)" ''
is 'out of memory: errors' "$(cat err)" 'certify: OutOfMemory'

echo "$((checks - wrong)) passed, $wrong failed"
[ "$wrong" -eq 0 ]
