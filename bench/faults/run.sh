#!/usr/bin/env bash
# Makes each allocation fail in turn, and compares the results with those of a run with all memory: bench/faults/run.sh
#
# Each program makes calls and prints the results. The run with all memory is the reference.
#
#   calls.rt.txt, over sat_base: the call whose allocation is refused reports it, and leaves what its documentation states. All other lines are
#   those of the reference.
#   feeds.rt.txt, over sat_checker: the call reports it, every later call reports that the checker has failed, and all listeners are returned,
#   without having been notified of more than in the reference.
#   hints.rt.txt, over sat_hints: the call reports it, and what it wrote is a prefix of the reference. All other lines are the same.
#   certify, on two scripts: it ends with `certify: OutOfMemory` and status 3, writes nothing else to standard error but a run's line of
#   progress, and its output is a prefix of the reference.
#   texts.rt.txt, over run, confirm, convert and check: at most one call reports it, and all others do as in the reference.
#   solves.rt.txt, over a solver with a checker of its own: every later call reports that the solver has failed.
#   refusals.rt.txt: refused steps are refused, whatever allocation fails while they are judged. So is a bad line, whatever allocation fails.
#
# For the first four, a line says for each N which call was out of memory. There is no line if only notes on a step's check were lost that
# no listener reads, or if a check of a hint text or a reader of steps then read a single byte instead of a chunk. The last three report by their
# status. Not part of the gate. Takes some minutes.
#
# `rt try --fail-alloc N` refuses the Nth allocation. Since a build takes longer than a run, one build serves for every N: it always refuses
# the `most`th allocation, and the program first makes most - N useless ones, as the first byte of its standard input says (in the last three,
# the sum of all bytes). The last allocation and the one after it are then refused directly, in the program as it is.
set -euo pipefail
here=$(cd "$(dirname "$0")" && pwd)
top=$(cd "$here/../.." && pwd)
work=$(mktemp -d)
trap 'rm -rf "$work"' EXIT
most=200

# Creates a repository of our crates, and the programs over them.
for program in calls feeds hints texts solves refusals; do
    mkdir -p "$work/repo/crates/$program/src"
    cp "$here/$program.rt.txt" "$work/repo/crates/$program/src/main.rt"
done
for crate in sat_base sat_store sat_parts sat_checker sat_solver sat_hints certify certify_cli; do
    cp -r "$top/crates/$crate" "$work/repo/crates/"
done
cp "$top/HANDLES" "$work/repo/"
{
    grep -E '^(sat_base|sat_store|sat_parts|sat_checker|sat_solver|sat_hints|certify|certify_cli):' "$top/crates.txt"
    printf 'calls: sat_base\nfeeds: sat_checker sat_base anyhow\nhints: sat_hints sat_base\n'
    printf 'texts: certify sat_hints sat_checker sat_base\nsolves: sat_solver sat_base\nrefusals: sat_hints sat_checker sat_base\n'
} > "$work/repo/crates.txt"
git init -q "$work/repo"

# Writes the texts for standard input: an empty one, and two scripts.
mkdir -p "$work/texts/calls" "$work/texts/feeds" "$work/texts/hints" "$work/texts/certify_cli"
printf '' > "$work/texts/calls/none"
printf '' > "$work/texts/feeds/none"
printf '' > "$work/texts/hints/none"
printf '1 2 0\na 0\n' > "$work/texts/certify_cli/sat"
printf '1 2 0\n1 -2 0\n-1 2 0\n-1 -2 0\na 0\n' > "$work/texts/certify_cli/unsat"

fail() {
    echo "$*" >&2
    exit 1
}

# Prints a text after the byte that requests COUNT allocations.
behind() { # TEXT COUNT
    printf "\\$(printf %03o "$2")"
    cat "$1"
}

# Builds a crate and runs it on each file of a folder. The output of a run is then in OUT/NAME.out, its errors in OUT/NAME.err, and its
# last line in OUT/NAME.end. No run may fault, hang, or differ between the interpreter and the compiled program.
run() { # CRATE FOLDER OUT [FLAG..]
    local crate=$1 folder=$2 out=$3 text
    shift 3
    mkdir -p "$out"
    (cd "$work/repo/crates/$crate" && rt try "$@" --cases "$folder" > "$out.out" 2> "$out.err") || {
        cat "$out.err" >&2
        fail "$crate: a run faults"
    }
    for text in "$folder"/*; do
        : > "$out/${text##*/}.out"
        : > "$out/${text##*/}.err"
    done
    awk -v out="$out/" '/^== / { close(file); file = out $2 ".out"; next } { print > file }' "$out.out"
    awk -v out="$out/" '/^allocations: / { next } !/^case=/ { lines = lines $0 "\n"; next }
        /^case=/ { name = substr($1, 6); printf "%s", lines > (out name ".err"); close(out name ".err"); lines = ""
            print $2, $3 > (out name ".end"); close(out name ".end") }' <(sed '$d' "$out.err")
}

# Runs a crate on each of its texts with each allocation refused: the Nth run on TEXT is TEXT-N.
sweep() { # CRATE
    local text n
    mkdir -p "$work/$1-cases"
    for text in "$work/texts/$1"/*; do
        for n in $(seq "$most"); do
            behind "$text" $((most - n)) > "$work/$1-cases/${text##*/}-$n"
        done
    done
    run "$1" "$work/$1-cases" "$work/$1-runs" --fail-alloc "$most"
}

# Runs a crate on its texts with the Nth allocation refused. The results have to be those of the sweep.
directly() { # CRATE FOLDER N
    local text part
    run "$1" "$2" "$work/$1-$3" --fail-alloc "$3"
    for text in "$work/texts/$1"/*; do
        for part in out err end; do
            cmp "$work/$1-$3/${text##*/}.$part" "$work/$1-runs/${text##*/}-$3.$part" || fail "$1: another run where $3 is refused"
        done
    done
    echo "$1, as it stands, with allocation $3 refused: the same"
}

# Compares a run of calls.rt.txt with the one with all memory. Prints which call was out of memory, if any.
beside='
    function bad(why) { print FILENAME ", line " FNR ", " why ": " $0 > "/dev/stderr"; failed = 1; exit 1 }
    { at = index($0, ":"); name = substr($0, 1, at - 1); value = substr($0, at + 1) }
    FNR == NR { all[FNR] = $0; known[name] = value; count = FNR; next }
    !/^refused / { if ($0 != all[++line]) bad("another line"); now[name] = value; if (call) done = 1; next }
    { sub(/^refused /, "", name) }
    done { bad("a second refusal") }
    !call { if (value != " out of memory") bad("another error"); call = name; next }
    name == "iter" { if (value != now[name]) bad("a formula that changed"); next }
    name ~ /, then (feed|finish|advance)$/ { if (value != " Err(HasFailed)") bad("no failure"); next }
    name ~ /, then (take_formula|kept|read)$/ {
        if (length(value) >= length(known[name]) || substr(known[name], 1, length(value)) != value) bad("no beginning")
        next
    }
    { bad("an unknown line") }
    END { if (!failed && line != count) { print FILENAME ", lines are missing" > "/dev/stderr"; failed = 1 }
        if (failed) exit 1
        print call }
'

mkdir "$work/calls-plain"
behind "$work/texts/calls/none" 0 > "$work/calls-plain/none"
run calls "$work/calls-plain" "$work/calls-all"
sweep calls
for n in $(seq "$most"); do
    it=$work/calls-runs/none-$n
    [ "$(cat "$it.end")" = "run=ended status=0" ] || fail "calls $n: $(cat "$it.end")"
    [ ! -s "$it.err" ] || fail "calls $n: $(cat "$it.err")"
    call=$(awk "$beside" "$work/calls-all/none.out" "$it.out")
    [ -z "$call" ] || echo "$n: $call"
done | tee "$work/calls.txt"
count=$(tail -n 1 "$work/calls.txt" | cut -d : -f 1)
[ "$count" -lt "$most" ] || fail "calls: more than $most allocations"
directly calls "$work/calls-plain" "$count"
directly calls "$work/calls-plain" $((count + 1))
echo "calls: $(wc -l < "$work/calls.txt") of $count allocations"
sed 's/^[0-9]*: //' "$work/calls.txt" | sort | uniq -c

# Compares a run of feeds.rt.txt with the one with all memory. Prints which call was out of memory, if any.
failing='
    function bad(why) { print FILENAME ", line " FNR ", " why ": " $0 > "/dev/stderr"; failed = 1; exit 1 }
    function told(value) { sub(/.*told /, "", value); return value + 0 }
    { at = index($0, ":"); name = substr($0, 1, at - 1); value = substr($0, at + 1) }
    FNR == NR { all[FNR] = value; count = FNR; next }
    { line = FNR }
    !call && value == " out of memory" { call = name; next }
    !call || name == "made" { if (value != all[FNR]) bad("another line"); next }
    name ~ /^(unsat|ended)$/ { if (value != " false" && value != all[FNR]) bad("another record"); next }
    name ~ /^(own|processors|transcripts)$/ { if (told(value) > told(all[FNR])) bad("more was told"); next }
    value != " the checker has failed before" { bad("no failure") }
    END { if (!failed && line != count) { print FILENAME ", lines are missing" > "/dev/stderr"; failed = 1 }
        if (failed) exit 1
        print call }
'

mkdir "$work/feeds-plain"
behind "$work/texts/feeds/none" 0 > "$work/feeds-plain/none"
run feeds "$work/feeds-plain" "$work/feeds-all"
sweep feeds
for n in $(seq "$most"); do
    it=$work/feeds-runs/none-$n
    [ "$(cat "$it.end")" = "run=ended status=0" ] || fail "feeds $n: $(cat "$it.end")"
    [ ! -s "$it.err" ] || fail "feeds $n: $(cat "$it.err")"
    call=$(awk "$failing" "$work/feeds-all/none.out" "$it.out")
    [ -z "$call" ] || echo "$n: $call"
done | tee "$work/feeds.txt"
count=$(tail -n 1 "$work/feeds.txt" | cut -d : -f 1)
[ "$count" -lt "$most" ] || fail "feeds: more than $most allocations"
directly feeds "$work/feeds-plain" "$count"
directly feeds "$work/feeds-plain" $((count + 1))
echo "feeds: $(wc -l < "$work/feeds.txt") of $count allocations"
sed 's/^[0-9]*: //' "$work/feeds.txt" | sort | uniq -c

# Compares a run of hints.rt.txt with the one with all memory. Prints which call was out of memory, if any.
short='
    function bad(why) { print FILENAME ", line " FNR ", " why ": " $0 > "/dev/stderr"; failed = 1; exit 1 }
    FNR == NR { all[FNR] = $0; count = FNR; next }
    { line = FNR }
    $0 == all[FNR] { written = 0; next }
    !call && / out of memory$/ { call = $0; sub(/: .*/, "", call); written = 1; next }
    written && substr(all[FNR], 1, length($0)) == $0 { written = 0; next }
    { bad("another line") }
    END { if (!failed && line != count) { print FILENAME ", lines are missing" > "/dev/stderr"; failed = 1 }
        if (failed) exit 1
        print call }
'

mkdir "$work/hints-plain"
behind "$work/texts/hints/none" 0 > "$work/hints-plain/none"
run hints "$work/hints-plain" "$work/hints-all"
sweep hints
for n in $(seq "$most"); do
    it=$work/hints-runs/none-$n
    [ "$(cat "$it.end")" = "run=ended status=0" ] || fail "hints $n: $(cat "$it.end")"
    [ ! -s "$it.err" ] || fail "hints $n: $(cat "$it.err")"
    call=$(awk "$short" "$work/hints-all/none.out" "$it.out")
    [ -z "$call" ] || echo "$n: $call"
done | tee "$work/hints.txt"
count=$(tail -n 1 "$work/hints.txt" | cut -d : -f 1)
[ "$count" -lt "$most" ] || fail "hints: more than $most allocations"
directly hints "$work/hints-plain" "$count"
directly hints "$work/hints-plain" $((count + 1))
echo "hints: $(wc -l < "$work/hints.txt") of $count allocations"
sed 's/^[0-9]*: //' "$work/hints.txt" | sort | uniq -c

run certify_cli "$work/texts/certify_cli" "$work/certify_cli-all"
main=$work/repo/crates/certify_cli/src/main.rt
cp "$main" "$work/main.rt"
sed 's/^fn main(.*{$/&\n    spend(\&rt);/' "$work/main.rt" > "$main"
sed -n '/^fn spend(/,/^}/p' "$here/calls.rt.txt" >> "$main"
sweep certify_cli
cp "$work/main.rt" "$main"
for text in sat unsat; do
    all=$work/certify_cli-all/$text
    [ "$(cat "$all.end")" = "run=ended status=0" ] || fail "certify $text: $(cat "$all.end")"
    for n in $(seq "$most"); do
        it=$work/certify_cli-runs/$text-$n
        if cmp -s "$it.out" "$all.out" && cmp -s "$it.err" "$all.err" && cmp -s "$it.end" "$all.end"; then
            continue
        fi
        [ "$(cat "$it.end")" = "run=ended status=3" ] || fail "certify $text $n: $(cat "$it.end")"
        [ "$(grep -v '^\[INFO  certify\] progress ' "$it.err")" = "certify: OutOfMemory" ] || fail "certify $text $n: $(cat "$it.err")"
        cmp -s "$it.out" <(head -c "$(wc -c < "$it.out")" "$all.out") || fail "certify $text $n: $(cat "$it.out")"
        ! grep -q '^c ' "$it.out" || fail "certify $text $n: $(cat "$it.out")"
        echo "$n: certify $text, behind $(wc -l < "$it.out") lines"
    done | tee "$work/$text.txt"
    count=$(tail -n 1 "$work/$text.txt" | cut -d : -f 1)
    [ "$count" -lt "$most" ] || fail "certify $text: more than $most allocations"
    directly certify_cli "$work/texts/certify_cli" "$count"
    directly certify_cli "$work/texts/certify_cli" $((count + 1))
    echo "certify $text: $(wc -l < "$work/$text.txt") of $count allocations"
done

# Prints bytes whose sum is COUNT.
summing() { # COUNT
    local left=$1
    while [ "$left" -gt 255 ]; do
        printf '\377'
        left=$((left - 255))
    done
    printf "\\$(printf %03o "$left")"
}

# Runs a program that reports by its status, with each of MOST allocations refused: 0 means that none was, any other status that one was.
reports() { # CRATE MOST STATUS..
    local crate=$1 many=$2 n count end
    shift 2
    mkdir -p "$work/$crate-cases"
    for n in $(seq "$many"); do
        summing $((many - n)) > "$work/$crate-cases/$n"
    done
    run "$crate" "$work/$crate-cases" "$work/$crate-runs" --fail-alloc "$many" --steps 1000
    for n in $(seq "$many"); do
        end=$(cat "$work/$crate-runs/$n.end")
        [ "$end" != "run=ended status=0" ] || continue
        [[ " $* " == *" ${end#run=ended status=} "* ]] || fail "$crate $n: $end"
        echo "$n: ${end#run=ended }"
    done > "$work/$crate.txt"
    count=$(tail -n 1 "$work/$crate.txt" | cut -d : -f 1)
    [ "$count" -lt "$many" ] || fail "$crate: more than $many allocations"
    echo "$crate: $(wc -l < "$work/$crate.txt") of $count allocations"
    sed 's/^[0-9]*: //' "$work/$crate.txt" | sort | uniq -c
}

reports texts 400 3
reports solves 250 3
reports refusals 400 3
