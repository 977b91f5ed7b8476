#!/bin/sh
# Holds a proved program to what others say of the same trace, on inputs of every kind, and to printing no end line where a read or a write fails.
# Usage: program.sh PROGRAM TRACES COMMAND..., TRACES a folder to work in. A command reads a trace and prints what the program must print.
set -u
program=$1 traces=$2
shift 2
tests=$(dirname "$0")
failed=0 runs=0
complain() { echo "program: $program: $*"; failed=$((failed + 1)); }
mkdir -p "$traces"
in=$traces/in
printf '%s\n' "$@" >"$traces/commands"
held() { # LABEL FILE: what the program printed for the file, to what each command prints for it
    while read -r command; do
        runs=$((runs + 1))
        sh -c "$command" <"$2" >"$traces/wanted"
        cmp -s "$traces/wanted" "$traces/printed" || complain "$1: prints something else than $command"
    done <"$traces/commands"
}
compare() { # LABEL FILE: the program, given the file
    "$program" <"$2" >"$traces/printed"
    held "$1" "$2"
}
record() { printf '\%03o\%03o\%03o\%03o' "$1" "$2" "$3" "$4"; }

: >"$in"; compare "empty" "$in"
printf '\002' >"$in"; compare "one byte" "$in"
printf "$(record 2 0 185 0)$(record 2 0 79 0)$(record 3 0 165 0)$(record 3 0 60 0)$(record 2 0 79 0)$(record 5 0 0 0)$(record 5 0 165 0)$(record 5 0 165 0)$(record 4 0 160 0)" >"$in"
compare "the listing" "$in"
cp "$in" "$traces/nine"
printf '\003' >>"$in"; compare "cut short" "$in"
for bad in "8 0 0 0" "2 0 0 1" "2 2 0 0" "6 0 0 0" "2 0 128 0" "2 0 80 0" "2 1 100 0" "2 0 127 0"; do
    # shellcheck disable=SC2086
    { cat "$traces/nine"; printf "$(record $bad)"; cat "$traces/nine"; } >"$in"
    compare "refused at record 9 ($bad)" "$in"
done
for set in 79 80 127; do
    { cat "$traces/nine"; printf "$(record 2 0 224 0)$(record 2 1 79 0)$(record 2 0 $set 0)"; cat "$traces/nine"; } >"$in"
    compare "refused at record 11, column $set in read-modify-write" "$in"
done
for size in 65532 65536 65537 65540 200000; do
    yes "$(printf 'x')" | tr 'x\n' '\005\001' | head -c "$size" >"$in"; compare "$size bytes, damaged" "$in"
    awk -v n="$size" 'BEGIN { for (i = 0; i < n / 4; i++) printf "%s", "abcd" }' | tr 'abcd' '\005\001\007\000' | head -c "$size" >"$in"
    compare "$size bytes of reads" "$in"
done
i=0
while [ "$i" -lt 40 ]; do
    # random records, mostly valid: lines 2 to 5, chips 0 and 1, any byte; a command is a column set, now and then up to 127
    awk -v seed="$i" 'BEGIN { srand(seed + 1520); n = int(rand() * 600); for (i = 0; i < n; i++) { l = 2 + int(rand() * 4); b = int(rand() * (l != 2 ? 256 : rand() < 0.02 ? 128 : 80)); printf "%d %d %d %d\n", l, int(rand() * 2), b, rand() < 0.002 ? 1 : 0 } }' |
        while read -r a b c d; do printf "$(record "$a" "$b" "$c" "$d")"; done >"$in"
    compare "random $i" "$in"
    i=$((i + 1))
done
for example in "$tests"/../../examples/*.trace; do compare "$(basename "$example")" "$example"; done
for seed in 1 2 3; do
    # every command, read-modify-write and columns up to 80
    "$tests/traces.py" good "$seed" 16384 >"$in"; compare "good $seed" "$in"
    for kind in damaged cut noise; do "$tests/traces.py" $kind "$seed" 300 >"$in"; compare "$kind $seed" "$in"; done
done

# a slow pipe: the same bytes in small pieces
{ head -c 3 "$traces/nine"; sleep 0.2; tail -c +4 "$traces/nine" | head -c 10; sleep 0.2; tail -c +14 "$traces/nine"; } | "$program" >"$traces/printed"
held "a slow pipe" "$traces/nine"

# a read that fails, and a write that fails
runs=$((runs + 2))
"$program" <"$traces" >"$traces/printed" 2>/dev/null
[ ! -s "$traces/printed" ] || complain "a failed read: prints $(head -n 1 "$traces/printed")"
(ulimit -f 1; trap '' XFSZ; awk 'BEGIN { for (i = 0; i < 4000; i++) printf "%s", "abcd" }' | tr 'abcd' '\005\000\007\000' | "$program" >"$traces/short") 2>/dev/null
grep -q '^end' "$traces/short" && complain "a short write: prints an end line"

echo "program: $(basename "$program"): $runs comparisons, $failed failed"
[ "$failed" -eq 0 ]
