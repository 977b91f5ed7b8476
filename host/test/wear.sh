#!/bin/sh
# Runs show --wear on inputs of every kind: counts, drawing, grey map, and what it does not go with. The counts wanted are those of wear.awk, which
# knows the papers' rules alone. Usage: wear.sh SHOW WORK, the last a folder to work in.
set -u
show=$1 work=$2
tests=$(dirname "$0")
example=$tests/../../examples/name.trace new_name=$tests/../../examples/name.pbm
. "$tests/runs.sh"
. "$tests/wears.sh"
pgm=$work/out.pgm lines=$work/lines

drawing() { # FORM TAKEN: prints what show must print for the lines after so many records, in shades or ascii
    awk -v form="$1" -v taken="$2" '
        function quarter(n) { return int(n * highest / 4) }
        BEGIN { split(form == "shades" ? "· ░ ▒ ▓ █" : ". - + * #", shade, " ") }
        $1 == "wear" {
            for (i = 0; i < 80; i++) { n = count[80 * (NR - 1) + i] = $(i + 4); sum += n; cells += n > 0; if (n > highest) highest = n }
        }
        END {
            for (line = 0; line < 8; line++) {
                if (line % 4 == 0) print (line ? "right     " : "left      ") "10        20        30        40        50        60        70"
                text = ""
                for (i = 80 * line; i < 80 * line + 80; i++) {
                    for (level = 0; level < 4 && 4 * count[i] > level * highest; level++) continue
                    text = text shade[level + 1]
                }
                print text
            }
            text = "stores: " shade[1] " 0"
            for (level = 1; level <= 4; level++)
                if (quarter(level) > quarter(level - 1)) text = text ", " shade[level + 1] " up to " quarter(level)
            print text
            if (cells) print "most written cells:"
            for (told = 0; told < 10 && told < cells; told++) {
                most = 0
                for (i = 0; i < 640; i++) if (count[i] > count[most]) most = i
                print (most < 320 ? "left" : "right") " chip, page " int(most / 80) % 4 ", column " most % 80 ": " count[most]
                count[most] = 0
            }
            print "sum " sum + 0 "; records taken: " taken ", cells stored to: " cells + 0 " of 640"
        }' "$lines"
}
drawn() { # LABEL FORM TAKEN: the last run has printed the drawing of the lines
    drawing "$2" "$3" >"$work/wanted"
    printed "$1" "$work/wanted"
}
mapped() { # LABEL: the grey map has the lines
    grey "$pgm" >"$work/grey" 2>/dev/null
    check "$1: the grey map has something else" cmp -s "$work/grey" "$lines"
}
worn() { # LABEL STATUS TAKEN MESSAGE ARGUMENTS...: show, given them, ends so and has the lines
    name=$1 want=$2 taken=$3 message=$4
    shift 4
    rm -f "$pgm"
    run "$@" --wear --pgm "$pgm"
    done_with "$name" "$want" "$message"; drawn "$name" shades "$taken"; mapped "$name"
    run --wear "$@"; done_with "$name, without --pgm" "$want" "$message"; printed "$name, without --pgm" "$work/wanted"
    run "$@" --wear --pgm -; done_with "$name, --pgm -" "$want" "$message"; printed "$name, --pgm -" "$pgm"
}
counted() { count "$t" >"$lines"; worn "$1" 0 $(($(wc -c <"$t") / 4)) "" "$t"; } # LABEL: all of $t is accepted
written() { sed -n '/^most/,$p' "$work/wanted"; }                      # the last lines of the drawing

# ---- counts and drawing, some of them written here by hand ----

: >"$t"; counted "empty"
check "empty: $(written)" same "$(tail -n 2 "$work/wanted")" "stores: · 0
sum 0; records taken: 0, cells stored to: 0 of 640"
records "3 0 01" >"$t"; counted "the first cell"
check "the first cell: drawn" same "$(sed -n 2p "$work/wanted" | tr -d ·)" █
records "2 1 BB" "2 1 4F" "3 1 00" >"$t"; counted "the last cell"
check "the last cell: $(written)" same "$(written)" "most written cells:
right chip, page 3, column 79: 1
sum 1; records taken: 3, cells stored to: 1 of 640"
check "the last cell: drawn" same "$(sed -n 10p "$work/wanted" | sed 's/^·*//')" █
records "2 0 4E" "3 0 01" "3 0 02" "3 0 03" "3 0 04" "2 1 4F" "3 1 01" "5 1 00" "3 1 02" >"$t"; counted "writes at column 80"
check "writes at column 80: $(written)" same "$(tail -n 1 "$work/wanted")" "sum 3; records taken: 9, cells stored to: 3 of 640"
records "2 0 05" "3 0 FF" "3 1 FF" "2 0 05" "3 0 FF" "2 1 00" "3 1 FF" "3 1 FF" >"$t"; counted "the same byte again"
records "2 0 0A" "2 0 E0" "5 0 00" "5 0 00" "3 0 55" "5 0 00" "3 0 AA" "2 0 E0" "2 0 EE" "3 0 11" "2 0 EE" "3 0 22" "2 0 E2" "3 0 33" >"$t"
counted "read-modify-write"
check "read-modify-write: $(written)" same "$(written)" "most written cells:
left chip, page 0, column 10: 2
left chip, page 0, column 11: 2
left chip, page 0, column 0: 1
sum 5; records taken: 14, cells stored to: 3 of 640"
for chip in 0 1; do
    for page in B8 B9 BA BB; do records "2 $chip $page" "2 $chip 0$chip" "3 $chip 00" "3 $chip 00" "4 $chip 60" "5 $chip 00" "3 $chip 00"; done
done >"$t"
counted "every page of both chips"
check "every page of both chips: ten cells" same "$(written | wc -l)" 12

stores() { # N COLUMN...: records that store N times to each of these columns of the left chip's page 0
    n=$1
    shift
    for column in "$@"; do repeated "$n" abcbdbbb | tr abcd "\\002\\000\\$(printf %03o "$column")\\003"; done
}
for highest in 2 3 4 5 7 8 100; do
    { stores $highest 79; for n in 0 1 2 3 4 5 6 7; do [ $n -ge $highest ] || stores $n $((10 * n)); done; } >"$t"
    counted "shades up to $highest"
done
check "shades up to 100" same "$(sed -n 11p "$work/wanted")" "stores: · 0, ░ up to 25, ▒ up to 50, ▓ up to 75, █ up to 100"
for highest in 255 256 65535; do { stores $highest 3; stores 1 4; stores 254 5; } >"$t"; counted "a cell of $highest"; done
check "a cell of 65535: two bytes, the higher first" same "$(tail -c 1280 "$pgm" | head -c 12 | od -An -v -tx1 | tr -d ' \n')" 000000000000ffff000100fe

# ---- more than a sample can be ----

{ stores 70000 0; stores 1 1; stores 35000 2; stores 2 3; } >"$t"
count "$t" >"$lines"
run "$t" --wear --pgm "$pgm"; done_with "over 65535" 0 ""; drawn "over 65535" shades $((2 * 105003))
check "over 65535: the header" same "$(head -n 4 "$pgm" | tail -n 3 | paste -sd '|')" "# sum 105003, highest 70000|80 8|65535"
check "over 65535: by the measure of the highest, rounded up" same "$(tail -c 1280 "$pgm" | od -An -v -tx1 | tr -d ' \n' | sed 's/0*$//')" \
    ffff000180000002
check "over 65535: $(sed -n 11p "$work/wanted")" same "$(sed -n 11p "$work/wanted")" "stores: · 0, ░ up to 17500, ▒ up to 35000, ▓ up to 52500, █ up to 70000"

# ---- random traces, cut anywhere, and what ends them ----

for seed in 1 2 3; do
    "$tests/traces.py" good $seed 20000 >"$t"; counted "random $seed"
    for kind in damaged cut noise; do
        "$tests/traces.py" $kind $seed 400 >"$t"
        count "$t" >"$lines"
        "$show" "$t" >/dev/null 2>"$work/why"
        taken=$(sed -nE 's/.*: record ([0-9]+) refused.*/\1/p; s/.*records taken: ([0-9]+).*/\1/p' "$work/why")
        worn "$kind $seed" 1 "${taken:-none}" "$(cat "$work/why")" "$t"
    done
done
records "2 0 4D" "3 0 01" "3 1 02" "2 1 BA" "3 1 03" "3 0 04" "3 0 05" "3 0 06" "2 0 BB" "2 0 00" "3 0 07" "5 0 00" "3 0 08" >"$t"
counted "a file"
for size in 1 2 3 5 6 7 9; do
    slowly "$t" $size | piped - --wear --pgm "$pgm"
    status=$(cat "$work/status"); done_with "by $size" 0 ""; drawn "by $size" shades 13; mapped "by $size"
done
cp "$t" "$work/whole"
for n in 0 1 2 6 8 12 13; do
    head -c $((4 * n)) "$work/whole" >"$t"; count "$t" >"$lines"
    worn "at $n" 0 $n "" "$work/whole" --at $n
done
rm -f "$pgm"
refused "past the end" 1 "$work/whole: has only 13 records, --at asks for 14" "$work/whole" --at 14 --wear --pgm "$pgm"
check "past the end: writes a PGM" [ ! -e "$pgm" ]
count "$work/whole" >"$lines"
for length in 1 2 3; do
    { cat "$work/whole"; head -c $length "$work/whole"; } >"$t"
    worn "cut short by $length" 1 13 "$t: refused: number 3, a trace that ends inside a record (records taken: 13)" "$t"
done
refused_at_13() { # NUMBER WORDS RECORD: the counts are those of the records before it, however it is cut; saved is what these have left
    { cat "$work/whole"; records "$3"; cat "$work/whole"; } >"$t"
    worn "number $1" 1 13 "$t: record 13 refused: number $1, $2" "$t"
    worn "number $1, at 14" 1 13 "$t: record 13 refused: number $1, $2" "$t" --at 14
    worn "number $1, at 13" 0 13 "" "$t" --at 13
    slowly "$t" 7 | piped - --wear
    status=$(cat "$work/status"); done_with "number $1, by 7" 1 "standard input: record 13 refused: number $1, $2"; drawn "number $1, by 7" shades 13
    rm -f "$work/got.state"
    run "$t" --wear --save "$work/got.state"; "$show" "$work/whole" --save "$work/wanted.state" >/dev/null
    check "number $1: saved" cmp -s "$work/got.state" "$work/wanted.state"
}
refused_at_13 4 "spare line bits or the fourth byte not 0" "11 0 AF"
refused_at_13 4 "spare line bits or the fourth byte not 0" "3 0 AF 1"
refused_at_13 5 "a chip over 1" "3 2 AF"
refused_at_13 6 "RD and WR equal" "7 0 AF"
refused_at_13 7 "a byte that is no command" "2 0 80"
refused_at_13 14 "a column set over 79 (4F hex), the last column of RAM" "2 0 50"
{ cat "$work/whole"; records "2 0 E0" "3 0 00" "2 0 05" "3 0 00"; } >"$t"; count "$t" >"$lines"
worn "number 8" 1 15 "$t: record 15 refused: number 8, a column set while read-modify-write is on" "$t"
: >"$t"; count "$t" >"$lines"; worn "endless" 1 0 "/dev/zero: record 0 refused: number 6, RD and WR equal" /dev/zero

# ---- begun from a state, within a repaint ----

"$show" "$example" --save "$work/state" >/dev/null
count "$example" >"$lines"; worn "the example" 0 886 "" "$example"
check "the example: $(tail -n 1 "$work/wanted")" same "$(tail -n 1 "$work/wanted")" "sum 828; records taken: 886, cells stored to: 640 of 640"
: >"$t"; count "$t" >"$lines"; worn "a state alone" 0 0 "" --start "$work/state"
for n in 0 4 5 12; do
    "$show" "$work/whole" --at $n --save "$work/cut.state" >/dev/null
    tail -c +$((4 * n + 1)) "$work/whole" >"$t"; count "$t" "$work/cut.state" >"$lines"
    worn "begun at $n" 0 $((13 - n)) "" "$t" --start "$work/cut.state"
done
for n in 0 1 3 62 63 65 200 253 254; do
    "$show" "$example" --repaint "$new_name" --at $n --records "$t" >/dev/null
    count "$t" "$work/state" >"$lines"; worn "a repaint at $n" 0 $n "" "$example" --repaint "$new_name" --at $n
    worn "a repaint of a state at $n" 0 $n "" --start "$work/state" --repaint "$new_name" --at $n
done
worn "a repaint" 0 254 "" "$example" --repaint "$new_name" --records "$work/r.trace"
check "a repaint: its records" cmp -s "$t" "$work/r.trace"
for n in 0 100 185 187; do
    name="a sparing repaint at $n"
    run "$example" --repaint "$new_name" --sparing --wear --at $n --records "$t" --pgm "$pgm"; done_with "$name" 0 ""
    count "$t" "$work/state" >"$lines"; takes "$name" 187 $n; drawn "$name" shades $n; mapped "$name"
done
rm -f "$pgm"
{ cat "$example"; records "2 0 80"; } >"$t"
refused "a repaint after a refused trace" 1 "$t: record 886 refused: number 7, a byte that is no command" "$t" --repaint "$new_name" --wear --pgm "$pgm"
refused "a refused repaint" 1 "$work/whole: repaint after it refused: number 9, left chip: display off or static drive on" \
    "$work/whole" --repaint "$new_name" --wear --pgm "$pgm"
refused "a repaint past its end" 1 "the repaint: has only 254 records, --at asks for 255" "$example" --repaint "$new_name" --wear --at 255
check "a refused repaint: writes a PGM" [ ! -e "$pgm" ]

# ---- forms ----

count "$work/whole" >"$lines"
for form in "blocks shades" "braille shades" "ascii ascii"; do
    run "$work/whole" --wear --form "${form% *}"; done_with "--form ${form% *}" 0 ""; drawn "--form ${form% *}" "${form#* }" 13
done
for columns in 200 80; do
    on_terminal $columns "" "$work/whole" --wear; done_with "on $columns columns" 0 ""; drawn "on $columns columns" shades 13
    LC_ALL=C on_terminal $columns "" "$work/whole" --wear; drawn "ascii on $columns columns" ascii 13
done
check "wider than 80 columns" same "$(awk 'length($0) > 80' "$work/wanted")" ""
LC_ALL=C "$show" "$work/whole" --wear >"$work/out"; drawn "locale C" ascii 13

# ---- arguments ----

for option in "--changes" "--list" "--every" "--delay 1" "--pbm x"; do
    # shellcheck disable=SC2086
    refused "wear, $option" 2 "show: --wear goes without \"${option% *}\"; see show --help" "$work/whole" --wear $option
    # shellcheck disable=SC2086
    refused "$option, wear" 2 "show: --wear goes without \"${option% *}\"; see show --help" $option --wear "$work/whole"
done
for option in "--wear" "--pgm x"; do
    # shellcheck disable=SC2086
    refused "live, $option" 2 "show: --live goes without \"${option% *}\"; see show --help" --live $option
done
for arguments in "" "--changes" "--pbm $pbm"; do
    rm -f "$pgm" "$pbm"
    # shellcheck disable=SC2086
    refused "--pgm $arguments" 2 'show: --pgm goes with "--wear"; see show --help' "$work/whole" --pgm "$pgm" $arguments
    check "--pgm $arguments: writes a PGM" [ ! -e "$pgm" ]
    check "--pgm $arguments: writes a PBM" [ ! -e "$pbm" ]
done
refused "wear, no trace" 2 'show: no file for "TRACE"; see show --help' --wear
refused "wear twice" 2 'show: more than one "--wear"; see show --help' "$work/whole" --wear --wear
refused "wear with a value" 2 'show: no value goes with "--wear"; see show --help' "$work/whole" --wear=1
refused "--pgm twice" 2 'show: more than one "--pgm"; see show --help' "$work/whole" --wear --pgm a --pgm b
refused "--pgm last" 2 'show: no value after "--pgm"; see show --help' "$work/whole" --wear --pgm
refused "--wear as the value of --pgm" 2 'show: no value after "--pgm"; see show --help' "$work/whole" --pgm --wear
refused "--pgm and --save to standard output" 2 'show: only one of --pbm, --pgm, --save and --records can be "-"; see show --help' \
    "$work/whole" --wear --pgm - --save -
on_terminal 130 "" "$work/whole" --wear --pgm -
check "bytes to a terminal" same "$status $(cat "$work/out")" \
    '2 show: bytes are no text: send them to a file or a pipe, not to "a terminal"; see show --help'

# ---- files ----

run "$work/whole" --wear --save -; done_with "wear, saved to standard output" 0 ""; printed "wear, saved to standard output" "$work/wanted.state"
run "$example" --repaint "$new_name" --wear --records -; done_with "wear, records to standard output" 0 ""
printed "wear, records to standard output" "$work/r.trace"
cp "$work/whole" "$t"
cp "$new_name" "$picture"
ln -sf t.trace "$work/link"
for file in "$t" "$work/link"; do kept "the trace, $file" "$file" "$t" --wear --pgm "$file"; done
kept "the start" "$work/state" "$t" --start "$work/state" --wear --pgm "$work/state"
kept "the picture" "$picture" "$example" --repaint "$picture" --wear --pgm "$picture"
refused "both outputs one file" 1 "$pgm: is read or written already, and not written over" "$t" --wear --pgm "$pgm" --save "$pgm"
refused "PGM in no folder" 1 "$work/none/x: cannot be written: No such file or directory" "$t" --wear --pgm "$work/none/x"
refused "PGM is a folder" 1 "$work: cannot be written: Is a directory" "$t" --wear --pgm "$work"
refused "PGM on a full disk" 1 "/dev/full: cannot be written: No space left on device" "$t" --wear --pgm /dev/full
{ stores 300 0; } >"$work/two"
refused "a PGM of two bytes on a full disk" 1 "/dev/full: cannot be written: No space left on device" "$work/two" --wear --pgm /dev/full
refused "wear, a missing file" 1 "$work/none: cannot be opened: No such file or directory" "$work/none" --wear
refused "wear, a folder" 1 "$work: cannot be read: Is a directory" "$work" --wear
for arguments in "--wear" "--wear --pgm -"; do
    # shellcheck disable=SC2086
    "$show" "$t" $arguments >/dev/full 2>"$work/err"; status=$?
    done_with "$arguments on a full disk" 1 "standard output: cannot be written: No space left on device"
    # shellcheck disable=SC2086
    "$show" "$t" $arguments >&- 2>"$work/err"; status=$?
    done_with "$arguments, output closed" 1 "standard output: cannot be written: Bad file descriptor"
done
cp "$t" "$work/both"
# shellcheck disable=SC2094
"$show" "$work/both" --wear >>"$work/both" 2>"$work/err"; status=$?
done_with "wear, appended to what is read" 1 "$work/both: is standard output too"
check "wear, appended to what is read" cmp -s "$t" "$work/both"

echo "wear: $checks checks, $failed failed"
[ "$failed" -eq 0 ]
