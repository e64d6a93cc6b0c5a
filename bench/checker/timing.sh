# Functions for scripts that measure two programs in turn; `work` is their working folder. Needs GNU time.

# Prints the median of the numbers on standard input.
median() {
    sort -n | awk '{ t[NR] = $1 } END { print t[int((NR + 1) / 2)] }'
}

# Runs a command. Writes its output to $work/NAME.said, and appends its seconds and its peak memory in KiB to $work/NAME.took.
took() { # NAME COMMAND [ARGUMENT..]
    "$(command -v time)" -f '%e %M' -o "$work/took" "${@:2}" > "$work/$1.said" 2>&1
    tail -n 1 "$work/took" >> "$work/$1.took"
}
