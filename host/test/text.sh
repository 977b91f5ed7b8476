#!/bin/sh
# Runs text each way on good and bad inputs. Usage: text.sh TEXT SHOW LISTING WORK, the last a folder to work in.
# LISTING is the plain implementation's listing program: what text says of the answers is held to it.
set -u
show=$1 viewer=$2 listing=$3 work=$4     # run runs $show
tests=$(dirname "$0")
examples=$tests/../../examples
. "$tests/runs.sh"
text=$work/t.text

# ---- a trace in words ----

run "$examples/listing.trace"; done_with "the listing" 0 ""
cat >"$work/wanted" <<'.'
     0: left  page 1                  # B9  accepted
     1: left  column 79               # 4F  accepted
     2: left  data write A5           # A5  accepted at page 1, column 79
     3: left  data write 3C           # 3C  accepted at page 1, column 80, nothing stored
     4: left  column 79               # 4F  accepted
     5: left  data read 00            # 00  empty read: the chip gives 00, not compared
     6: left  data read A5            # A5  the chip gives A5, as recorded
     7: left  data read A5            # A5  empty read: the chip gives A5, not compared
     8: left  status read A0          # A0  differs: recorded A0, the chip gives 60
# end: number 0, done, place 9; records taken: 9, reads compared: 2, differing: 1
.
printed "the listing" "$work/wanted"
run <"$examples/listing.trace"; done_with "standard input" 0 ""; printed "standard input" "$work/wanted"
run - <"$examples/listing.trace"; done_with "-" 0 ""; printed "-" "$work/wanted"

records "2 1 AF" "3 1 FF" "2 0 A1" "2 0 C7" "2 0 E0" "2 0 E2" "2 0 EE" "2 1 A4" "2 1 A8" "2 0 80" "10 0 AF" "2 3 00" "4 1 40" "7 1 00 5" >"$t"
printf '\003\001' >>"$t"
run "$t"; done_with "refused" 1 "$t: record 9 refused: number 7, a byte that is no command"
cat >"$work/wanted" <<'.'
     0: right display on              # AF  accepted
     1: right data write FF           # FF  accepted at page 0, column 0
     2: left  ADC reverse             # A1  accepted
     3: left  start line 7            # C7  accepted
     4: left  read-modify-write on    # E0  accepted
     5: left  reset                   # E2  accepted
     6: left  read-modify-write off   # EE  accepted
     7: right static drive off        # A4  accepted
     8: right duty 1/16               # A8  accepted
     9: left  command 80              # 80  refused: number 7, a byte that is no command
    10: raw 0A 00 AF 00               # AF  not replayed
    11: raw 02 03 00 00               # 00  not replayed
    12: right status read 40          # 40  not replayed
    13: raw 07 01 00 05               # 00  not replayed
    14: raw 03 01                     # the trace ends inside this record
# end: number 7, refused, place 9; records taken: 9, reads compared: 0, differing: 0
.
printed "refused" "$work/wanted"
records "2 0 AF" >"$t"; printf '\002' >>"$t"
run "$t"; done_with "cut short" 1 "$t: refused: number 3, a trace that ends inside a record (records taken: 1)"
check "cut short: '$(tail -n 1 "$work/out")'" same "$(tail -n 1 "$work/out")" \
    "# end: number 3, refused, place 1; records taken: 1, reads compared: 0, differing: 0"
: >"$t"; run "$t"; done_with "empty" 0 ""
check "empty" same "$(cat "$work/out")" "# end: number 0, done, place 0; records taken: 0, reads compared: 0, differing: 0"
refusal() { # NUMBER WORDS RECORD: what the third line says
    records "2 0 0A" "2 0 E0" "$3" "4 0 40" >"$t"
    run "$t"; done_with "number $1" 1 "$t: record 2 refused: number $1, $2"
    check "number $1: $(sed -n 3p "$work/out")" same "$(sed -n '3s/.*  refused/refused/p' "$work/out")" "refused: number $1, $2"
}
refusal 4 "spare line bits or the fourth byte not 0" "2 0 AF 1"
refusal 5 "a chip over 1" "3 2 AF"
refusal 6 "RD and WR equal" "6 0 AF"
refusal 7 "a byte that is no command" "2 1 E3"
refusal 8 "a column set while read-modify-write is on" "2 0 0A"
refusal 14 "a column set over 79 (4F hex), the last column of RAM" "2 1 50"

# past what is refused, which is left out
records "2 0 0A" "2 0 E0" "2 0 0A" "3 0 A5" "2 0 80" "2 3 00" "2 0 EE" "5 0 00" "5 0 A5" "5 0 01" >"$t"
run "$t" --skip; done_with "skip" 0 ""
cat >"$work/wanted" <<'.'
     0: left  column 10               # 0A  accepted
     1: left  read-modify-write on    # E0  accepted
     2: left  column 10               # 0A  refused: number 8, a column set while read-modify-write is on
     3: left  data write A5           # A5  accepted at page 0, column 10
     4: left  command 80              # 80  refused: number 7, a byte that is no command
     5: raw 02 03 00 00               # 00  refused: number 5, a chip over 1
     6: left  read-modify-write off   # EE  accepted
     7: left  data read 00            # 00  empty read: the chip gives 00, not compared
     8: left  data read A5            # A5  the chip gives A5, as recorded
     9: left  data read 01            # 01  differs: recorded 01, the chip gives 00
# refused and left out: 3
# end: number 0, done, place 7; records taken: 7, reads compared: 2, differing: 1
.
printed "skip" "$work/wanted"
left_out() { # LABEL: what text --skip prints of $t is what text prints of it without the refused records
    "$show" --skip "$t" 2>/dev/null >"$work/skipped"
    grep -v '  refused: ' "$work/skipped" | "$show" --back >"$work/clean"
    "$show" "$work/clean" 2>/dev/null | sed 's/^ *[0-9]*: //' >"$work/wanted"
    grep -v '  refused: \|^# refused' "$work/skipped" | sed 's/^ *[0-9]*: //' >"$work/out"
    printed "$1, skip" "$work/wanted"
}

# a read that differs, as a fault where that is asked for
run "$t" --skip --check; done_with "check" 1 "$t: compared reads that differ: 1 of 2"
printed "check" "$work/wanted"
run "$examples/name.trace" --check; done_with "check, nothing differs" 0 ""
run "$examples/listing.trace" --check; done_with "check, the listing" 1 "$examples/listing.trace: compared reads that differ: 1 of 2"
run "$t" --check; done_with "check, refused" 1 "$t: record 2 refused: number 8, a column set while read-modify-write is on"

# from another state, as show saves it; and over the limit of one call
"$viewer" "$examples/listing.trace" --save "$work/state" >/dev/null
records "4 0 60" "5 0 A5" "2 0 4F" "5 0 00" "5 0 A5" >"$t"
run "$t" --start "$work/state"; done_with "a start" 0 ""
check "a start: '$(tail -n 1 "$work/out")'" same "$(tail -n 1 "$work/out")" \
    "# end: number 0, done, place 5; records taken: 5, reads compared: 2, differing: 0"
run "$t" --start="$work/state"; done_with "a start, joined" 0 ""
run "$t" --start "$work/state" --version; done_with "the version" 0 ""
check "the version: '$(cat "$work/out")'" same "$(cut -d ' ' -f 1,2 "$work/out")" "text (Pedralume)"
status_reads 80000 >"$t"
run "$t"; done_with "long" 0 ""
check "long: '$(tail -n 1 "$work/out")'" same "$(tail -n 1 "$work/out")" \
    "# end: number 0, done, place 20000; records taken: 20000, reads compared: 20000, differing: 0"
check "long: lines" same "$(wc -l <"$work/out")" 20001

lines_and_wait() { # both lines must be there before the input ends; waits up to ten seconds
    records "2 0 AF" "3 0 01"
    printf '\003'
    for _ in $(seq 500); do
        [ "$(wc -l <"$work/out")" = 2 ] && break
        sleep 0.02
    done
    wc -l <"$work/out" >"$work/early"
}
: >"$work/out"
lines_and_wait | piped
check "lines while the input is open" same "$(cat "$work/early")" 2

# ---- every byte, and random traces, there and back ----

back() { # LABEL: what text prints for $t becomes $t again
    "$show" "$t" >"$text" 2>/dev/null
    run --back "$text"; done_with "$1, back" 0 ""; printed "$1, back" "$t"
}
for lines in 0 1 2 3 4 5 6 7 8 255; do
    for chip in 0 1 2; do
        "$tests/traces.py" good 1 1 >"$t"       # a good record first
        awk -v l=$lines -v c=$chip 'BEGIN { for (b = 0; b < 256; b++) printf "\\%03o\\%03o\\%03o\\000", l, c, b }' >"$work/bytes"
        # shellcheck disable=SC2059
        printf "$(cat "$work/bytes")" >>"$t"
        back "lines $lines, chip $chip"
        check "lines $lines, chip $chip: lines" same "$(wc -l <"$text")" 258
    done
done
told() { # LABEL: the answers that text prints for $t are those of the plain implementation
    "$show" "$t" 2>/dev/null | awk -f "$tests/as_listing.awk" >"$work/told"
    "$listing" <"$t" >"$work/wanted"
    check "$1: the answers" cmp -s "$work/told" "$work/wanted"
}
for kind in good damaged cut noise; do
    for seed in 1 2 3 4 5 6 7 8 9 10 11 12 13 14 15; do
        "$tests/traces.py" $kind $seed $((seed * seed * 10)) >"$t"
        back "$kind $seed"
        case $kind in good | damaged) told "$kind $seed" ;; esac
        left_out "$kind $seed"
    done
done
"$tests/traces.py" good 16 16384 >"$t"; back "the longest good one"; told "the longest good one"
check "the longest good one: accepted whole" same "$(tail -n 1 "$work/wanted" | cut -d ' ' -f 1-3)" "end 0 16384"
check "the longest good one: reads that differ" [ "$(tail -n 1 "$work/wanted" | cut -d ' ' -f 5)" -gt 100 ]

# ---- written by hand ----

becomes() { # LABEL RECORD...: the text on standard input is the trace of these records
    name=$1
    shift
    cat >"$text"
    records "$@" >"$work/wanted"
    run --back "$text"; done_with "$name" 0 ""; printed "$name" "$work/wanted"
    run --back <"$text"; done_with "$name, standard input" 0 ""; printed "$name, standard input" "$work/wanted"
}
becomes "a case by hand" "2 0 AF" "2 1 AF" "2 0 0A" "3 0 A5" "2 0 0A" "5 0 00" "5 0 A5" "4 1 40" "3 1 0F" "5 1 00" "4 0 00" <<'.'
# Writes a byte and reads it back.

left display on     # the left chip
RIGHT Display   ON
	left column 10
left write A5
 17: left column 10
left read           # the empty read
left data read a5
right status 40
99:right data write f
right data read
left status read
   # the end
.
becomes "every command" "2 0 00" "2 1 7F" "2 0 A0" "2 1 A1" "2 0 A4" "2 1 A5" "2 0 A8" "2 1 A9" "2 0 AE" "2 1 AF" "2 0 B8" "2 1 BB" "2 0 C0" "2 1 DF" \
    "2 0 E0" "2 1 E2" "2 0 EE" "2 1 80" "10 2 3 4" <<'.'
left column 0
right column 127
left ADC forward
right adc reverse
left static drive off
right static drive on
left duty 1/16
right duty 1/32
left display off
right display on
left page 0
right page 3
left start line 0
right start line 031
left read-modify-write on
right reset
left read-modify-write off
right command 80
raw 0A 02 03 4
.
printf 'left reset\r\n\r\nright reset\r' | becomes "line ends of another system, none at the end" "2 0 E2" "2 1 E2"
printf '' | becomes "an empty text"
printf '# only a comment' | becomes "only a comment"
printf '\n\n1:\n  \t\n' | becomes "empty lines"
printf 'left reset # \303\244, and a # again\n' | becomes "any comment" "2 0 E2"
{ printf 'left reset #'; repeated 988 x; echo; } | becomes "a line of 1,000" "2 0 E2"
printf 'left reset\nraw 03 0\n# the end\n' >"$text"
run --back "$text"; done_with "a cut trace" 0 ""
check "a cut trace" same "$(od -An -tx1 "$work/out" | tr -d ' \n')" 0200e2000300

at_fault() { # LINE WORDS TEXT: refused with these words, nothing written
    # shellcheck disable=SC2059
    printf -- "$3" >"$text"
    refused "at fault: $3" 1 "$text: line $1: $2" --back "$text"
}
wrong() { at_fault 1 "\"$2\": $1; see text --help" "$2"; } # WHAT TEXT
begin="a record begins with left, right or raw" none="no such record"
for words in "reset" "lefty reset" "both reset" "0 reset" "l" "12 left reset" "12 : left reset" "-1: left reset" ": left reset"; do
    wrong "$begin" "$words"
done
at_fault 1 "\"??left reset\": $begin; see text --help" "\377\376left reset"
at_fault 1 "\"12:right ne?it\": $none; see text --help" "12:RIGHT  \t  ne\033it  # a comment"
for words in "left" "left 5" "left column1" "left start" "left duty 1/8" "left display" "left display on on" "left adc" "left write" "left write 100" \
    "left write g0" "left write 0x10" "left write 1 2" "left command" "left command 100" "left read 1 2" "left read x" "left status 123" \
    "left data" "left resets" "left left reset" "left raw 02 00 e2 00"; do
    wrong "$none" "$words"
done
for words in "left column" "left column 128" "left column -1" "left column 0x10" "left column 1 2" "left column 99999999999999999999999" \
    "left column 10; a comment"; do
    wrong "it takes a number from 0 to 127" "$words"
done
for words in "right page 4" "right page four" "7:right page"; do wrong "it takes a number from 0 to 3" "$words"; done
wrong "it takes a number from 0 to 31" "left start line 32"
for words in "raw" "raw x" "raw 1 2 3 4 5" "raw 100" "raw 02,00" "raw 02 00 e2 00 left"; do
    wrong "raw takes one to four bytes, each of two hex digits" "$words"
done
at_fault 4 "\"left pgae 1\": $none; see text --help" "left reset\n# \n\nleft pgae 1\nleft nothing\n"
at_fault 3 "\"reset\": $begin; see text --help" "left reset\n\nreset"
at_fault 2 "a record after one that is cut short" "raw 02 00\nleft reset\n"
at_fault 1 "no text: it has a byte 0" "left reset\000\n"
{ printf 'left reset\n#'; repeated 1000 x; } >"$text"
refused "a line of 1,001" 1 "$text: line 2: longer than 1,000 bytes" --back "$text"
refused "an endless text" 1 "/dev/zero: line 1: no text: it has a byte 0" --back /dev/zero
refused "a trace for a text" 1 "$examples/name.trace: line 1: no text: it has a byte 0" --back "$examples/name.trace"

# ---- two traces merged ----

left=$work/left.trace right=$work/right.trace
hex() { od -An -v -w4 -tx1 "$1"; } # FILE
merged() { # LABEL: the last run gave a record of $left and one of $right in turn, then the rest of the longer one
    done_with "$1" 0 ""
    hex "$left" >"$work/left.hex"
    hex "$right" >"$work/right.hex"
    paste -d '\n' "$work/left.hex" "$work/right.hex" | sed '/^$/d' >"$work/wanted"
    hex "$work/out" >"$work/merged.hex"
    check "$1: other bytes" cmp -s "$work/merged.hex" "$work/wanted"
}
records "2 0 AF" "3 0 01" "3 0 02" >"$left"
records "2 1 AE" >"$right"
records "2 0 AF" "2 1 AE" "3 0 01" "3 0 02" >"$work/wanted"
run --merge "$left" "$right"; done_with "merge" 0 ""; printed "merge" "$work/wanted"
run --merge "$left" "$right"; merged "merge, the left one longer"
records "2 1 AE" "5 1 07" "4 1 20" "3 1 09" "3 1 0A" >"$right"
run --merge "$left" "$right"; merged "merge, the right one longer"
run --merge - "$right" <"$left"; merged "merge, LEFT -"
run --merge "$left" - <"$right"; merged "merge, RIGHT -"
slowly "$left" 3 | piped --merge - "$right"; status=$(cat "$work/status"); merged "merge, LEFT in pieces"
slowly "$right" 5 | piped --merge "$left" -; status=$(cat "$work/status"); merged "merge, RIGHT in pieces"
run "$left" "$right" --merge; merged "merge, the option last"
run --merge -- "$left" "$right"; merged "merge, files after --"
records "255 0 80 1" "0 0 FF 255" >"$left"      # no byte but the chip's is looked at
records "10 1 E3 9" "6 1 00 8" "2 1 7F 1" >"$right"
run --merge "$left" "$right"; merged "merge, records that no chip takes"
: >"$left"; run --merge "$left" "$right"; merged "merge, an empty left one"; printed "merge, an empty left one" "$right"
: >"$right"; run --merge "$left" "$right"; merged "merge, both empty"; printed "merge, both empty" /dev/null
records "2 0 AF" "3 0 01" >"$left"; run --merge "$left" "$right"; merged "merge, an empty right one"; printed "merge, an empty right one" "$left"
long() { repeated "$1" abcdebfd | tr abcdef "\004\00$2\140\000\005\101"; } # N CHIP: 2N records
long 40000 0 >"$left"
long 30000 1 >"$right"
run --merge "$left" "$right"; merged "merge, long ones"
check "merge, long ones: length" same "$(wc -c <"$work/out")" 560000

# each chip's answers, bytes and RAM are those that it has by itself, and the counts are the sums
answers() { sed '/^#/d; s/^ *[0-9]*: //' "$1"; } # FILE: the lines of a text without their numbers
sums() { # FILE...: number, place and counts, added up
    cat "$@" | awk '/^# end: / { gsub(/[^0-9]+/, " "); for (i = 1; i <= 5; i++) sum[i] += $i }
        END { print sum[1], sum[2], sum[3], sum[4], sum[5] }'
}
for seed in 21 22 23 24 25 26; do
    name="merge, random $seed"
    "$tests/traces.py" good $seed $((seed * 50)) >"$t"
    "$show" "$t" >"$text"
    for chip in left right; do grep ": $chip " "$text" | "$show" --back >"$work/$chip.trace"; done
    run --merge "$left" "$right"; merged "$name"
    cp "$work/out" "$work/merged.trace"
    for trace in left right merged; do
        "$show" "$work/$trace.trace" >"$work/$trace.told"
        "$viewer" "$work/$trace.trace" --save "$work/$trace.state" >/dev/null
    done
    for chip in left right; do
        answers "$work/$chip.told" >"$work/wanted"
        answers "$work/merged.told" | grep "^$chip " >"$work/out"
        printed "$name, the $chip chip's answers" "$work/wanted"
    done
    check "$name: number $(sums "$work/merged.told")" same "$(sums "$work/merged.told" | cut -d ' ' -f 1,2)" "0 $((seed * 50))"
    check "$name: the counts" same "$(sums "$work/merged.told")" "$(sums "$work/left.told" "$work/right.told")"
    { head -c 12 "$work/left.state"; tail -c +13 "$work/right.state" | head -c 12
        tail -c +25 "$work/left.state" | head -c 320; tail -c 320 "$work/right.state"; } >"$work/wanted"
    check "$name: chips and RAM are not those of both" cmp -s "$work/merged.state" "$work/wanted"
    cat "$left" "$right" | "$viewer" - --save - | cmp -s - "$work/wanted"; check "$name: another end, left before right" same $? 0
    cat "$right" "$left" | "$viewer" - --save - | cmp -s - "$work/wanted"; check "$name: another end, right before left" same $? 0
done

# a record of another chip
of_left() { refused "merge, left: $1" 2 "text: $left: record $2; every record of LEFT must be chip 0's" --merge "$left" "$right"; } # LABEL FAULT
of_right() { refused "merge, right: $1" 2 "text: $right: record $2; every record of RIGHT must be chip 1's" --merge "$left" "$right"; } # LABEL FAULT
cut_short() { refused "merge, cut: $1" 1 "$2: a trace that ends inside a record (whole records: $3)" --merge "$left" "$right"; } # LABEL FILE RECORDS
records "2 1 AF" "3 1 01" >"$right"
records "2 1 AF" "3 0 01" >"$left"; of_left "the first" "0 is chip 1's"
records "2 0 AF" "3 0 01" "3 1 01" >"$left"; of_left "the last" "2 is chip 1's"
records "2 0 AF" "3 7 01" "3 1 01" >"$left"; of_left "7" "1 names chip 7"
records "2 2 AF" >"$left"; of_left "2" "0 names chip 2"
records "2 0 AF" "3 0 01" >"$left"
records "2 0 AF" "3 1 01" >"$right"; of_right "the first" "0 is chip 0's"
records "2 1 AF" "3 1 01" "3 1 01" "3 0 01" >"$right"; of_right "the last" "3 is chip 0's"
records "2 1 AF" "3 7 01" "3 0 01" >"$right"; of_right "7" "1 names chip 7"
records "2 255 AF" >"$right"; of_right "255" "0 names chip 255"
: >"$left"; of_right "an empty left one" "0 names chip 255"
records "2 1 AF" >"$left"; of_left "both at fault" "0 is chip 1's"
records "2 0 AF" >"$right"; of_left "each in the other's place" "0 is chip 1's"
records "2 0 AF" "3 0 01" >"$left"; printf '\002\000' >>"$left"; of_right "the left one cut" "0 is chip 0's"
records "2 0 AF" "3 1 01" >"$left"; printf '\002\000' >>"$left"; of_left "cut too" "1 is chip 1's"
records "2 0 AF" >"$left"
records "2 1 AF" "2 1 AF" "2 1 AF" "2 0 AF" "2 1 AF" >"$t"
slowly "$t" 3 | piped --merge "$left" -; status=$(cat "$work/status")
done_with "merge, a fault in pieces" 2 "text: standard input: record 3 is chip 0's; every record of RIGHT must be chip 1's"
printed "merge, a fault in pieces" /dev/null
fault_and_wait() { # the program must have ended before the input does; waits up to ten seconds
    records "2 0 AF"
    for _ in $(seq 500); do
        [ -s "$work/status" ] && break
        sleep 0.02
    done
    cp "$work/status" "$work/early"
}
: >"$work/status"
fault_and_wait | piped --merge "$left" -
check "merge, a fault while the input is open" same "$(cat "$work/early")" 2

# a trace that is cut; and nothing is written of long ones, whatever comes last
records "2 1 AF" "3 1 01" >"$right"
printf '\003\007' >>"$left"; cut_short "left" "$left" 1
printf '\003\001\001' >>"$right"; cut_short "both" "$left" 1
: >"$left"; cut_short "right" "$right" 2
long 40000 0 >"$left"
{ long 30000 1; records "3 0 01"; } >"$right"; of_right "the last of long ones" "60000 is chip 0's"
{ long 30000 1; printf '\003'; } >"$right"; cut_short "long ones" "$right" 60000
long 30000 1 >"$right"
records "3 7 01" >>"$left"; of_left "the last of a long one" "80000 names chip 7"
long 40000 0 >"$left"

# ---- files and arguments ----

for way in "" --back; do
    # shellcheck disable=SC2086
    {
        refused "missing file $way" 1 "$work/none: cannot be opened: No such file or directory" $way "$work/none"
        refused "empty name $way" 1 ": cannot be opened: No such file or directory" $way ""
        refused "a folder $way" 1 "$work: cannot be read: Is a directory" $way "$work"
        refused "input a folder $way" 1 "standard input: cannot be read: Is a directory" $way <"$work"
        refused "input closed $way" 1 "standard input: cannot be read: Bad file descriptor" $way <&-
    }
done
either() { # LABEL MESSAGE FILE: the file as LEFT, and as RIGHT
    refused "merge, left $1" 1 "$2" --merge "$3" "$right"
    refused "merge, right $1" 1 "$2" --merge "$left" "$3"
}
either "missing" "$work/none: cannot be opened: No such file or directory" "$work/none"
either "an empty name" ": cannot be opened: No such file or directory" ""
either "a folder" "$work: cannot be read: Is a directory" "$work"
either "an input that is a folder" "standard input: cannot be read: Is a directory" - <"$work"
either "a closed input" "standard input: cannot be read: Bad file descriptor" - <&-
{ run --merge - "$work/none"; cat >"$work/rest"; } <"$left"
check "merge, a missing file: some of the other is read" cmp -s "$work/rest" "$left"
printf 'left reset\n' >"$text"
status_reads 8000 >"$t"
records "2 0 AF" >"$work/one"
for arguments in "$t" "--back $text" "--merge $left $right" "--merge $work/one /dev/null" "--help" "--version"; do
    # shellcheck disable=SC2086
    "$show" $arguments >/dev/full 2>"$work/err"; status=$?
    done_with "$arguments on a full disk" 1 "standard output: cannot be written: No space left on device"
    # shellcheck disable=SC2086
    "$show" $arguments >&- 2>"$work/err"; status=$?
    done_with "$arguments, output closed" 1 "standard output: cannot be written: Bad file descriptor"
done
refused "a missing state" 1 "$work/none: cannot be opened: No such file or directory" "$t" --start "$work/none"
refused "a state, input closed" 1 "standard input: cannot be read: Bad file descriptor" --start "$work/state" <&-
refused "a short state" 1 "$text: no chips and RAM: it has under 664 bytes" "$t" --start "$text"
refused "two files" 2 'text: more than one file: "b"; see text --help' a b
refused "two texts" 2 'text: more than one file: "b"; see text --help' --back a b
for option in -x --foo --text ---; do refused "$option" 2 "text: unknown option \"$option\"; see text --help" "$t" "$option"; done
refused "--back twice" 2 'text: more than one "--back"; see text --help' --back --back
refused "--back with a value" 2 'text: no value goes with "--back"; see text --help' --back=1
refused "--start last" 2 'text: no value after "--start"; see text --help' "$t" --start
for option in "--start x" --skip --check; do
    # shellcheck disable=SC2086
    refused "--back $option" 2 "text: --back goes without \"${option% x}\"; see text --help" --back $option
done
refused "merge, no file" 2 'text: no file for "LEFT"; see text --help' --merge
refused "merge, one file" 2 'text: no file for "RIGHT"; see text --help' --merge "$left"
refused "merge, three files" 2 'text: more than two files: "c"; see text --help' --merge a b c
refused "merge, two standard inputs" 2 'text: only one of the files that are read can be "-"; see text --help' --merge - -
refused "--merge twice" 2 'text: more than one "--merge"; see text --help' --merge "$left" "$right" --merge
refused "--merge with a value" 2 'text: no value goes with "--merge"; see text --help' --merge="$left" "$right"
refused "--merge as a file" 2 'text: more than one file: "--merge"; see text --help' "$t" -- --merge
for option in "--start x" --skip --check --back; do
    # shellcheck disable=SC2086
    refused "--merge $option" 2 "text: --merge goes without \"${option% x}\"; see text --help" --merge $option "$left" "$right"
done
refused "two standard inputs" 2 'text: only one of the files that are read can be "-"; see text --help' - --start -
refused "two standard inputs, one not named" 2 'text: only one of the files that are read can be "-"; see text --help' --start -
cp "$t" "$work/both"
# shellcheck disable=SC2094
(ulimit -f 1000; trap '' XFSZ; "$show" "$work/both" >>"$work/both" 2>"$work/err"); status=$?
done_with "appended to what is read" 1 "$work/both: is standard output too"
for files in "$work/both $right" "$left $work/both"; do
    # shellcheck disable=SC2086,SC2094
    "$show" --merge $files >>"$work/both" 2>"$work/err"; status=$?
    done_with "merged onto what is read" 1 "$work/both: is standard output too"
    check "merged onto what is read: written" cmp -s "$work/both" "$t"
done
for arguments in "--back $text" "--merge $left $right"; do
    # shellcheck disable=SC2086
    "$tests/terminal.py" 80 "" "$show" $arguments >"$work/out"; status=$?
    check "$arguments to a terminal: status $status" same "$status" 2
    check "$arguments to a terminal" same "$(tr -d '\r' <"$work/out")" \
        'text: bytes are no text: send them to a file or a pipe, not to "a terminal"; see text --help'
done
for option in --help -h; do
    run $option; done_with "$option" 0 ""
    check "$option: usage" same "$(head -n 1 "$work/out")" "Usage: text [TRACE] [--start FILE] [--skip] [--check]"
    check "$option: usage, merge" same "$(sed -n 3p "$work/out")" "       text --merge LEFT RIGHT"
    check "$option: why the order does not matter" same "$(paste -sd ' ' "$work/out" | grep -c 'since a chip answers by its own records alone')" 1
    check "$option: wider than a terminal" same "$(awk 'length($0) > 79' "$work/out")" ""
    for listed in --start --skip --check --back --merge "-h, --help" --version; do
        check "$option: $listed" same "$(grep -c -e "^  $listed " "$work/out")" 1
    done
done

echo "text: $checks checks, $failed failed"
[ "$failed" -eq 0 ]
