#!/bin/sh
# The instructions that one turn takes, on the archive and on the plain implementation or what stands in its place, for each record, frame or
# repaint, of each job of the bench that has both. They are counted by valgrind's callgrind within the bench's function measured, and one run of `bench once` takes all
# turns. It ends with status 1 where valgrind is missing or the counts are not those of the turns. Usage: instructions.sh BENCH FOLDER, the
# last a folder to work in.
set -u
bench=$1 folder=$2
complain() { echo "instructions: $*" >&2; exit 1; }
command -v valgrind >/dev/null || complain "valgrind is missing, and without it no instructions are counted"
mkdir -p "$folder" || exit 1
rm -f "$folder/counts"

# A dump follows each call of measured. All names are bound at the start, since else the first turn would pay for the loader.
LD_BIND_NOW=1 valgrind -q --tool=callgrind --collect-atstart=no --toggle-collect=measured --dump-after=measured --combine-dumps=yes \
    --callgrind-out-file="$folder/counts" "$bench" once >"$folder/turns" || complain "valgrind or the bench failed: $(tail -n 1 "$folder/turns")"

# The last dump is made at the program's end and is none of a turn.
awk '
    BEGIN { dumps = jobs = 0 }
    /^totals:/ { total[dumps++] = $2; next }
    FILENAME == ARGV[1] { next }
    { units[jobs] = $1; unit[jobs] = $2; sub(/^[^ ]+ [^ ]+ /, ""); name[jobs++] = $0 }
    END {
        if (jobs == 0 || dumps != 2 * jobs + 1) { print "instructions: " dumps " counts for " jobs " jobs" > "/dev/stderr"; exit 1 }
        printf "instructions: one turn of each job, by callgrind\n  %-41s %10s %10s\n", "job", "ours", "other side"
        for (i = 0; i < jobs; i++)
            printf "  %-41s %10.1f %10.1f for each %s\n", name[i], total[2 * i] / units[i], total[2 * i + 1] / units[i], unit[i]
    }' "$folder/counts" "$folder/turns"
