#!/bin/sh
# Runs show on good and bad inputs; checks status, messages, text and PBM bytes. Usage: show.sh SHOW LISTING WORK, the last a folder to work in.
# LISTING is the plain implementation's listing program; it shows whether the example's recorded reads are right.
set -u
show=$1 listing=$2 work=$3
example=$(dirname "$0")/../../examples/name.trace new_name=$(dirname "$0")/../../examples/name.pbm
. "$(dirname "$0")/runs.sh"

# ---- single pixels and whole halves ----

: >"$t"
shown "empty" "$t"; pixels "empty" "32 $dark"
shown "empty at 0" "$t" --at 0; pixels "empty at 0" "32 $dark"

records "3 0 01" >"$t"
shown "display off" "$t"; pixels "display off" "32 $dark"

records "2 0 AF" "3 0 01" >"$t"
shown "first pixel" "$t"; pixels "first pixel" "1 $first" "31 $dark"
shown "options first" --at 2 "$t"; pixels "options first" "1 $first" "31 $dark"
check "first pixel: text" same "$(sed -n 2p "$work/out" | tr -d ' ')" "│▀│"
shown "at 1" "$t" --at 1; pixels "at 1" "32 $dark"
shown "at 0" "$t" --at 0; pixels "at 0" "32 $dark"
shown "at 002" "$t" --at 002; pixels "at 002" "1 $first" "31 $dark"

records "2 1 AF" "2 1 BB" "2 1 3C" "3 1 80" >"$t"
shown "last pixel" "$t"; pixels "last pixel" "31 $dark" "1 $last"
check "last pixel: text" same "$(sed -n 17p "$work/out" | tr -d ' ')" "│▄│"

records "2 0 AF" "2 1 AF" "2 0 3C" "3 0 03" "3 1 03" >"$t"
shown "columns 60 and 61" "$t"; pixels "columns 60 and 61" "2 $middle" "30 $dark"
check "columns 60 and 61: text" same "$(sed -n 2p "$work/out" | tr -d ' ')" "│██│"

records "2 0 AF" "2 0 A5" "2 1 AF" "2 1 A5" >"$t"
shown "all lit" "$t"; pixels "all lit" "32 $lit"
shown "left lit" "$t" --at 2; pixels "left lit" "32 $left_lit"
records "2 1 AF" "2 1 A5" >"$t"
shown "right lit" "$t"; pixels "right lit" "32 $right_lit"

records "2 0 AF" "2 0 A8" "2 0 B9" "3 0 FF" "2 0 BA" "2 0 00" "3 0 FF" "2 0 A9" >"$t"
shown "duty 1/32" "$t"; pixels "duty 1/32" "8 $dark" "16 $first" "8 $dark"
shown "duty 1/16" "$t" --at 7; pixels "duty 1/16" "8 $dark" "8 $first" "16 $dark"

records "2 0 AF" "2 0 A1" "2 0 4F" "3 0 01" "2 0 DF" >"$t"
shown "reverse, start line 31" "$t"; pixels "reverse, start line 31" "1 $dark" "1 $first" "30 $dark"
shown "reverse" "$t" --at 4; pixels "reverse" "1 $first" "31 $dark"

# ---- the example ----

# The names as show/make_name.py draws them, before any chip has seen them.
rule="1 007ffffffffffffffffffffffe000000"
oliveira() { # LABEL
    pixels "$1" \
        "2 001f86001f86067fe1f87f81f8000000" "4 00606600060606600060606606000000" "2 006066000606067f80607f87fe000000" \
        "2 00606600060606600060660606000000" "2 00606600060198600060618606000000" "2 001f87fe1f80607fe1f8606606000000" \
        "1 $dark" "$rule" "16 $dark"
}
monteir() { # LABEL ROWS ROWS: MONTEIR and a last letter, by the two groups of rows where an A and an O differ
    pixels "$1" \
        "2 006061f86067fe7fe1f87f81f8000000" "2 0079e606786060600060606606000000" "2 00666606666060600060606606000000" "$2" \
        "2 00606606606060600060660606000000" "2 00606606606060600060618606000000" "$3" "1 $dark" "$rule" "16 $dark"
}
monteira() { monteir "$1" "2 0066660661e0607f80607f87fe000000" "2 006061f86060607fe1f8606606000000"; }
monteiro() { monteir "$1" "2 0066660661e0607f80607f8606000000" "2 006061f86060607fe1f86061f8000000"; }
shown "example" "$example"; oliveira "example"
check "example: recorded reads" same "$("$listing" <"$example" | tail -n 1)" "end 0 886 12 0"
shown "example, whole" "$example" --at 886; oliveira "example, whole"
shown "example, set up and cleared" "$example" --at 674; pixels "example, set up and cleared" "32 $dark"
refused "example, past its end" 1 "$example: has only 886 records, --at asks for 887" "$example" --at 887
for n in 0 1 63 126 127 189 251 252; do
    shown "example, repaint at $n" "$example" --repaint "$new_name" --at $n; oliveira "example, repaint at $n"
done
shown "example, torn" "$example" --repaint "$new_name" --at 253; monteira "example, torn"
shown "example, repaint at 254" "$example" --repaint "$new_name" --at 254; monteiro "example, repaint at 254"
shown "example, whole repaint" --repaint "$new_name" "$example"; monteiro "example, whole repaint"

# ---- repaints: the picture from P1 and P4, each start line and direction of each chip ----

middle_left=00000000000000080000000000000000
corners=80000000000000000000000000000040
new_rows() { # COMMAND...: gives it the 16 rows of a picture
    "$@" "1 $last" "2 $lit" "1 $dark" "3 $middle" "1 $right_lit" "4 $left_lit" "3 $dark" "1 $first"
}
old() { pixels "$1" "1 $first" "14 $dark" "1 $last" "16 $dark"; }
torn() { pixels "$1" "1 $dark" "2 $left_lit" "1 $dark" "3 $middle_left" "1 $dark" "4 $left_lit" "3 $dark" "1 $corners" "16 $dark"; }
new() { new_rows pixels_above_dark "$1"; }
pixels_above_dark() { pixels "$@" "16 $dark"; }

ready() { # CHIP START-LINE ADC: records that make the chip ready, ADC 0 or 1
    records "2 $1 AF" "2 $1 A8" "2 $1 A$3" "2 $1 $2"
}
old_pixels() { # LEFT-START LEFT-ADC RIGHT-START RIGHT-ADC: ready chips that show the first pixel and the last one of 16 rows
    ready 0 "$1" "$2"
    ready 1 "$3" "$4"
    [ "$1" = C0 ] && page=B8 || page=BA
    [ "$2" = 0 ] && column=00 || column=4F
    records "2 0 $page" "2 0 $column" "3 0 01"
    [ "$3" = C0 ] && page=B9 || page=BB
    [ "$4" = 0 ] && column=3C || column=13
    records "2 1 $page" "2 1 $column" "3 1 80"
}
repainted() { # LABEL: the trace and the picture at each point where something changes
    for at in 0 252; do
        shown "$1 at $at" "$t" --repaint "$picture" --at $at; old "$1 at $at"
    done
    shown "$1 at 253" "$t" --repaint "$picture" --at 253; torn "$1 at 253"
    shown "$1 at 254" "$t" --repaint "$picture" --at 254; new "$1 at 254"
    shown "$1 whole" "$t" --repaint "$picture"; new "$1 whole"
}

{ printf 'P1\n122 16\n'; new_rows digits; } >"$picture"
for chips in "C0 0 D0 1" "C0 1 C0 0" "D0 0 D0 0" "D0 1 C0 1" "D0 1 D0 0" "C0 0 C0 1"; do
    # shellcheck disable=SC2086
    old_pixels $chips >"$t"
    repainted "repaint, chips $chips"
done
old_pixels C0 0 C0 0 >"$t"

like_p1() { # LABEL: the picture is read as the same pixels
    shown "$1" "$t" --repaint "$picture"; new "$1"
}
{ printf 'P4\n122 16\n'; new_rows packed; } >"$picture"; like_p1 "P4"
{ printf 'P4 # a comment\n#another\n 122\t# a third 9\n\n16\n'; new_rows packed; } >"$picture"; like_p1 "P4 with comments"
{ printf 'P4\n122 16#before the last white space\n\n'; new_rows packed; } >"$picture"; like_p1 "P4 with a comment last"
{ printf 'P4\n122 16\n'; new_rows packed | LC_ALL=C tr '\000\300\100' '\000\377\177'; } >"$picture"; like_p1 "P4 with bits past the last pixel"
{ printf 'P1 #\r# a comment\n00122#\n# 5\n016 # 1\n'; new_rows digits; } >"$picture"; like_p1 "P1 with comments"
{ printf 'P1\r\n122 16\r\n'; new_rows digits | sed 's/./& /g'; printf '\n# 1\n \n'; } >"$picture"; like_p1 "P1 in single digits"
{ printf 'P1 122 16 '; new_rows digits | tr -d '\n'; } >"$picture"; like_p1 "P1 in one line"

# ---- pictures that are none ----

bad_picture() { # WHAT: the picture is refused with these words
    rm -f "$pbm"
    refused "picture: $1" 1 "$picture: $1" "$t" --repaint "$picture" --at 0 --pbm "$pbm"
    check "picture: $1: writes a PBM" [ ! -e "$pbm" ]
}
damage="no PBM picture, or a damaged one:"
begins="$damage it begins with neither P1 nor P4"
: >"$picture"; bad_picture "$begins"
for header in P P2 P5 4 Q1 ' P1' 'p1'; do
    { printf '%s\n122 16\n' "$header"; new_rows digits; } >"$picture"; bad_picture "$begins"
done
cp "$t" "$picture"; bad_picture "$begins"
for header in 'P1' 'P4\n' 'P4\n122' 'P4\n122 \n# 16' 'P4\n122 16' 'P4\n122 16x' 'P4\n122,16\n' 'P4\n-122 16\n' 'P4122 16\n' 'P4\n122 1234567890\n' 'P4\n4294967418 16\n' 'P1\nx'; do
    # shellcheck disable=SC2059
    printf "$header" >"$picture"; bad_picture "$damage its header gives no width and height"
done
for size in "122 33" "122 31" "32 122" "16 122" "121 16" "122 17" "0 0" "999999999 16"; do
    { printf 'P4\n%s\n' "$size"; new_rows packed; } >"$picture"
    bad_picture "is ${size% *} by ${size#* }, a repaint takes 122 by 16, or by 32 with a blank lower half"
done
for length in 0 1 255; do
    { printf 'P4\n122 16\n'; new_rows packed | head -c $length; } >"$picture"; bad_picture "$damage it ends before its last pixel"
done
for length in 0 1 1966; do                      # a row is 122 digits and a line end; the last digit is byte 1966
    { printf 'P1\n122 16\n'; new_rows digits | head -c $length; } >"$picture"; bad_picture "$damage it ends before its last pixel"
done
{ printf 'P4\n122 16\n'; new_rows packed; printf '\n'; } >"$picture"; bad_picture "$damage it goes on after its last pixel"
{ printf 'P1\n122 16\n'; new_rows digits; printf '0'; } >"$picture"; bad_picture "$damage it goes on after its last pixel"
for pixel in 2 x P -; do
    { printf 'P1\n122 16\n'; new_rows digits | head -c 1966; printf '%s' "$pixel"; } >"$picture"; bad_picture "$damage a pixel is neither 0 nor 1"
done
refused "picture missing" 1 "$work/none: cannot be opened: No such file or directory" "$t" --repaint "$work/none"
refused "picture a folder" 1 "$work: cannot be read: Is a directory" "$t" --repaint "$work"
refused "picture endless" 1 "/dev/zero: $begins" "$t" --repaint /dev/zero

# ---- refused repaints; --at counts the repaint's records ----

{ printf 'P1\n122 16\n'; new_rows digits; } >"$picture"
refused_repaint() { # NUMBER CHIP WORDS RECORD...: refused where these records come after those that make both chips ready
    number=$1 message="$t: repaint after it refused: number $1, $2 chip: $3"
    shift 3
    { ready 0 C0 0; ready 1 D0 1; records "$@"; } >"$t"
    rm -f "$pbm"
    refused "repaint, number $number ($*)" 1 "$message" "$t" --repaint "$picture" --pbm "$pbm"
    check "repaint, number $number: writes a PBM" [ ! -e "$pbm" ]
    refused "repaint, number $number at 0 ($*)" 1 "$message" "$t" --repaint "$picture" --at 0
    refused "repaint, number $number, changes ($*)" 1 "$message" "$t" --repaint "$picture" --changes --pbm "$pbm"
    check "repaint, number $number, changes: writes a PBM" [ ! -e "$pbm" ]
    shown "repaint, number $number, without it" "$t"
}
refused_repaint 9 left "display off or static drive on" "2 0 AE"
refused_repaint 9 right "display off or static drive on" "2 1 AE"
refused_repaint 9 left "display off or static drive on" "2 0 A5"
refused_repaint 9 right "display off or static drive on" "2 1 A5" "2 0 A9"
refused_repaint 10 left "duty 1/32" "2 0 A9" "2 1 A9"
refused_repaint 10 right "duty 1/32" "2 1 A9" "2 0 C1"
refused_repaint 11 left "a start line neither 0 nor 16" "2 0 C1"
refused_repaint 11 left "a start line neither 0 nor 16" "2 0 DF" "2 1 CF"
refused_repaint 11 right "a start line neither 0 nor 16" "2 1 D1" "2 0 E0"
refused_repaint 12 left "read-modify-write on" "2 0 05" "2 0 E0"
refused_repaint 12 right "read-modify-write on" "2 1 E0"
: >"$t"
refused "repaint of fresh chips" 1 "$t: repaint after it refused: number 9, left chip: display off or static drive on" "$t" --repaint "$picture"
old_pixels C0 0 C0 0 >"$t"
for n in 255 16385 99999999999999999999999; do
    refused "repaint at $n" 1 "the repaint: has only 254 records, --at asks for $n" "$t" --repaint "$picture" --at $n
done
refused "repaint at x" 2 'show: --at takes a number of records, 0 or more, not "x"; see show --help' "$t" --repaint "$picture" --at x
records "2 0 80" >>"$t"
refused "repaint after a refused trace" 1 "$t: record 14 refused: number 7, a byte that is no command" "$t" --repaint "$picture" --at 0

# ---- refused traces; what follows record N does not count with --at N ----

refused_at_2() { # NUMBER WORDS RECORD [RECORD BEFORE]
    records "2 0 AF" "${4:-3 0 01}" "$3" "3 0 01" >"$t"
    rm -f "$pbm"
    refused "number $1" 1 "$t: record 2 refused: number $1, $2" "$t" --pbm "$pbm"
    check "number $1: writes a PBM" [ ! -e "$pbm" ]
    refused "number $1 at 3" 1 "$t: record 2 refused: number $1, $2" "$t" --at 3
    refused "number $1, changes" 1 "$t: record 2 refused: number $1, $2" "$t" --changes --pbm "$pbm"
    check "number $1, changes: writes a PBM" [ ! -e "$pbm" ]
    shown "number $1 at 2" "$t" --at 2
}
refused_at_2 4 "spare line bits or the fourth byte not 0" "10 0 AF"
refused_at_2 4 "spare line bits or the fourth byte not 0" "2 0 AF 1"
refused_at_2 5 "a chip over 1" "2 2 AF"
refused_at_2 6 "RD and WR equal" "7 0 AF"
refused_at_2 7 "a byte that is no command" "2 0 80"
refused_at_2 8 "a column set while read-modify-write is on" "2 0 05" "2 0 E0"
refused_at_2 8 "a column set while read-modify-write is on" "2 1 50" "2 1 E0"
no_column="a column set over 79 (4F hex), the last column of RAM"
refused_at_2 14 "$no_column" "2 0 50"
refused_at_2 14 "$no_column" "2 1 64" "2 0 E0"
refused_at_2 14 "$no_column" "2 0 7F" "2 0 4F"

records "2 0 AF" "3 0 01" >"$t"
printf '\003\000' >>"$t"
cut="refused: number 3, a trace that ends inside a record"
refused "cut short" 1 "$t: $cut (records taken: 2)" "$t"
refused "cut short, changes" 1 "$t: $cut (records taken: 2)" "$t" --changes
refused "cut short at 3" 1 "$t: has only 2 records, --at asks for 3" "$t" --at 3
shown "cut short at 2" "$t" --at 2; pixels "cut short at 2" "1 $first" "31 $dark"

status_reads 65536 >"$t"
shown "as long as one call takes" "$t"
refused "as long as one call takes, past its end" 1 "$t: has only 16384 records, --at asks for 16385" "$t" --at 16385
refused "endless" 1 "/dev/zero: record 0 refused: number 6, RD and WR equal" /dev/zero
refused "endless, changes" 1 "/dev/zero: record 0 refused: number 6, RD and WR equal" /dev/zero --changes

# ---- live: the same however the input is cut ----

live_wanted() { # NUMBER RECORDS: prints what show --live must print for $t: each picture that differs from the one before, then the end
    head -c $((4 * $2)) "$t" >"$work/taken"
    : >"$work/last"
    n=0
    while [ "$n" -le "$2" ]; do
        "$show" "$work/taken" --at "$n" >"$work/now"
        cmp -s "$work/now" "$work/last" || cat "$work/now"
        mv "$work/now" "$work/last"
        n=$((n + 1))
    done
    counts=$("$listing" <"$work/taken" | tail -n 1 | awk '{ print "records taken: " $3 ", reads compared: " $4 ", differing: " $5 }')
    if [ "$1" = 0 ]; then echo "end: number 0, done, place $2; $counts"; else echo "end: number $1, refused, place $2; $counts"; fi
}
pictures() { grep -c └ "$work/out"; } # how many whole ones the last run has drawn
ended() { # LABEL STATUS MESSAGE: how the last run ended, and that it printed what is wanted
    check "$1: status $status" same "$status" "$2"
    check "$1: says '$(cat "$work/err")'" same "$(cat "$work/err")" "$3"
    check "$1: prints something else" cmp -s "$work/out" "$work/wanted"
}
live() { # LABEL NUMBER RECORDS MESSAGE [SIZE...]: $t from a file, and through a pipe in pieces of these sizes; so many records are taken
    name="live, $1" message=$4 want=$(($2 != 0))
    live_wanted "$2" "$3" >"$work/wanted"
    shift 4
    run --live <"$t"; ended "$name" $want "$message"
    for size in "$@"; do
        slowly "$t" "$size" | piped --live
        status=$(cat "$work/status"); ended "$name, by $size" $want "$message"
    done
}
: >"$t"; live "empty" 0 0 ""
check "live, empty: a picture and the end" same "$(wc -l <"$work/out")" 19

changes() { # 13 records, six of which change the panel
    records "2 0 AF" "3 0 01" "3 0 00" "2 0 3C" "3 0 FF" "5 0 00" "2 1 AF" "4 1 40" "4 1 41" "2 1 A5" "2 0 C1" "2 0 A1" "2 1 A4"
}
changes >"$t"; live "changes" 0 13 "" 1 3 5 7
check "live, changes: pictures" same "$(pictures)" 7
check "live, changes: end" same "$(tail -n 1 "$work/out")" "end: number 0, done, place 13; records taken: 13, reads compared: 2, differing: 1"
for extra in 1 2 3; do
    { changes; printf '\003\000\377' | head -c $extra; } >"$t"
    live "cut short by $extra" 3 13 "standard input: $cut (records taken: 13)"
done
live "cut short" 3 13 "standard input: $cut (records taken: 13)" 5

live_refused() { # NUMBER WORDS RECORD [SIZE...]: what comes after the refused record is not looked at
    { changes; records "$3"; changes; printf '\001'; } >"$t"
    number=$1 words=$2
    shift 3
    live "number $number" "$number" 13 "standard input: record 13 refused: number $number, $words" "$@"
}
live_refused 4 "spare line bits or the fourth byte not 0" "10 0 AF"
live_refused 5 "a chip over 1" "2 2 AF"
live_refused 6 "RD and WR equal" "7 0 AF"
live_refused 7 "a byte that is no command" "2 0 80" 7
{ changes; records "2 0 E0" "2 0 05" "3 0 FF"; } >"$t"
live "number 8" 8 14 "standard input: record 14 refused: number 8, a column set while read-modify-write is on" 3
live_refused 14 "$no_column" "2 0 64" 7

changes_and_wait() { # all pictures must be there before the input ends; waits up to ten seconds
    changes
    for _ in $(seq 500); do
        [ "$(pictures)" = 7 ] && break
        sleep 0.02
    done
    pictures >"$work/early"
}
: >"$work/out"
changes_and_wait | run --live
check "live: pictures while the input is open" same "$(cat "$work/early")" 7

run --live <"$example"
check "live, example: status $status" same "$status" 0
"$show" "$example" >"$work/wanted"
check "live, example: last picture" same "$(tail -n 19 "$work/out" | head -n 18)" "$(cat "$work/wanted")"
check "live, example: end" same "$(tail -n 1 "$work/out")" "end: number 0, done, place 886; records taken: 886, reads compared: 12, differing: 0"
status_reads 80000 >"$t"
run --live <"$t"
check "live, 80,000 bytes: status $status" same "$status" 0
check "live, 80,000 bytes" same "$(tail -n 1 "$work/out")" "end: number 0, done, place 20000; records taken: 20000, reads compared: 20000, differing: 0"

# ---- live: input, output and arguments ----

changes >"$t"
live_failed() { # LABEL MESSAGE: the last run failed with this, and there is no end line
    check "live, $1: status $status" same "$status" 1
    check "live, $1: says '$(cat "$work/err")'" same "$(cat "$work/err")" "$2"
    check "live, $1: an end" [ -z "$(grep end "$work/out")" ]
}
run --live <"$work"; live_failed "input a folder" "standard input: cannot be read: Is a directory"
run --live <&-; live_failed "input closed" "standard input: cannot be read: Bad file descriptor"
: >"$work/out"
"$show" --live <"$t" >/dev/full 2>"$work/err"; status=$?
live_failed "full disk" "standard output: cannot be written: No space left on device"
"$show" --live <"$t" >&- 2>"$work/err"; status=$?
live_failed "output closed" "standard output: cannot be written: Bad file descriptor"
rm -f "$work/closed"
{ until [ -e "$work/closed" ]; do sleep 0.02; done; "$show" --live <"$t" 2>"$work/err"; echo $? >"$work/status"; } | { exec <&-; : >"$work/closed"; }
status=$(cat "$work/status"); live_failed "closed pipe" "standard output: cannot be written: Broken pipe"

refused "live with a file" 2 "show: --live takes standard input and no file: \"$t\"; see show --help" --live "$t"
refused "live after a file" 2 "show: --live takes standard input and no file: \"$t\"; see show --help" "$t" --live
for option in --repaint --at --pbm; do
    refused "live, $option" 2 "show: --live goes without \"$option\"; see show --help" --live $option 1
    refused "$option, live" 2 "show: --live goes without \"$option\"; see show --help" $option 1 --live
    refused "live as the value of $option" 2 "show: no value after \"$option\"; see show --help" $option --live
done
refused "live twice" 2 'show: more than one "--live"; see show --help' --live --live
refused "live with a value" 2 'show: no value goes with "--live"; see show --help' --live=1

# On a terminal, where there is a program that makes one: over the last picture, from the upper left corner.
if script -qec true /dev/null >/dev/null 2>&1 </dev/null; then
    script -qec "'$show' --live --form blocks <'$t'" /dev/null >"$work/screen" </dev/null
    home=$(printf '\033[H')
    check "live on a terminal: the first clears it" same "$(head -c 6 "$work/screen")" "$(printf '\033[H\033[J')"
    check "live on a terminal: pictures" same "$(grep -cF "$home" "$work/screen")" 7
    run --live <"$t"
    sed "s/$(printf '\033')\\[[HJ]//g" "$work/screen" | tr -d '\r' >"$work/plain"
    check "live on a terminal: else as elsewhere" cmp -s "$work/plain" "$work/out"
fi

# ---- changes: lists written here by hand; counts and pictures as --at shows the panel before and after each record ----

pixels_between() { # PBM PBM: prints how many pixels of each half differ
    { tail -c 512 "$1"; tail -c 512 "$2"; } | od -An -v -tu1 | awk '
        function lit(at, x, y) { return int(byte[at + 16 * y + int(x / 8)] / 2 ^ (7 - x % 8)) % 2 }
        { for (i = 1; i <= NF; i++) byte[n++] = $i }
        END {
            for (y = 0; y < 32; y++) for (x = 0; x < 122; x++) half[x > 60] += lit(0, x, y) != lit(512, x, y)
            print "left " half[0] ", right " half[1]
        }'
}
with_comment() { # COMMENT PBM: prints the picture with it
    printf 'P4\n# %s\n122 32\n' "$1"
    tail -c 512 "$2"
}
seen() { # FROM TO ARGUMENTS...: prints the records from FROM to before TO that change the panel, with counts; leaves $work/pictures
    at=$1 to=$2
    shift 2
    : >"$work/pictures"
    "$show" "$@" --at "$at" --pbm "$work/before" >/dev/null
    while [ "$at" -lt "$to" ]; do
        "$show" "$@" --at $((at + 1)) --pbm "$work/after" >/dev/null
        if ! cmp -s "$work/before" "$work/after"; then
            echo "record $at: $(pixels_between "$work/before" "$work/after")"
            with_comment "record $at" "$work/after" >>"$work/pictures"
        fi
        mv "$work/after" "$work/before"
        at=$((at + 1))
    done
    [ -s "$work/pictures" ] || with_comment "no record changed it" "$work/before" >"$work/pictures"
}
listed() { # LABEL FROM TO ARGUMENTS...: the first TO records give the list in $work/wanted, with no record before FROM
    name="changes, $1" from=$2 first_records=$3
    shift 3
    seen "$from" "$first_records" "$@" >"$work/seen"
    rm -f "$pbm"
    run "$@" --at "$first_records" --changes --pbm "$pbm"; ended "$name" 0 ""
    check "$name: counts" same "$(sed '$d; s/: .*pixels:/:/' "$work/out")" "$(cat "$work/seen")"
    check "$name: pictures" cmp -s "$pbm" "$work/pictures"
}
listed_whole() { # LABEL FROM TO ARGUMENTS...: the same, and without --at and --pbm
    listed "$@"
    shift 3
    run --changes "$@"; ended "$name, whole" 0 ""
}
wanted() { # CHANGED RECORDS: standard input and the last line are the list that is wanted
    { cat; echo "$1 of $2 records changed what the panel shows"; } >"$work/wanted"
}

: >"$t"
wanted 0 0 </dev/null; listed_whole "empty" 0 0 "$t"
check "changes, empty: the panel" same "$(tail -c 512 "$pbm" | tr -d '\000' | wc -c)" 0

every_change() { # CHIP: each kind of record that can change the panel, then records that do not change it, but for record 24
    records "2 $1 AF" "2 $1 BA" "3 $1 0F" "2 $1 A8" "2 $1 A9" "2 $1 A1" "2 $1 A0" "2 $1 AE" "2 $1 AF" "2 $1 A5" "2 $1 A4" \
        "2 $1 D0" "2 $1 C0" "2 $1 DF" "2 $1 E2" \
        "2 $1 C0" "2 $1 BA" "2 $1 00" "3 $1 0F" "2 $1 E0" "5 $1 00" "4 $1 40" "2 $1 EE" "2 $1 3C" "3 $1 81" "3 $1 FF" \
        "2 $1 4F" "3 $1 FF" "3 $1 FF" "2 $1 E2"
}
every_line() { # CHIP BEFORE AFTER: the list; the count comes between the last two
    while read -r record count words; do
        echo "record $record: $1 chip, $words; changed pixels: $2$count$3"
    done <<'.'
2 4 data write 0F
3 4 duty 1/16
4 4 duty 1/32
5 4 ADC reverse
6 4 ADC forward
7 4 display off
8 4 display on
9 1948 static drive on
10 1948 static drive off
11 8 start line 16
12 8 start line 0
13 2 start line 31
14 2 reset
24 2 data write 81
.
}
every_change 0 >"$t"
every_line left "left " ", right 0" | wanted 14 30; listed_whole "left chip" 0 30 "$t"
every_change 1 >"$t"
every_line right "left 0, right " "" | wanted 14 30; listed_whole "right chip" 0 30 "$t"

changes >"$t"
first_lines() { # N: of the list of these 13 records
    head -n "$1" <<'.'
record 1: left chip, data write 01; changed pixels: left 1, right 0
record 4: left chip, data write FF; changed pixels: left 8, right 0
record 9: right chip, static drive on; changed pixels: left 0, right 1952
record 10: left chip, start line 1; changed pixels: left 4, right 0
record 11: left chip, ADC reverse; changed pixels: left 17, right 0
record 12: right chip, static drive off; changed pixels: left 0, right 1952
.
}
first_lines 6 | wanted 6 13; listed_whole "both chips" 0 13 "$t"
first_lines 0 | wanted 0 0; listed "at 0" 0 0 "$t"
first_lines 0 | wanted 0 1; listed "at 1" 0 1 "$t"
first_lines 1 | wanted 1 2; listed "at 2" 0 2 "$t"
first_lines 3 | wanted 3 10; listed "at 10" 0 10 "$t"
refused "changes, past the end" 1 "$t: has only 13 records, --at asks for 14" "$t" --changes --at 14
records "2 0 80" >>"$t"
first_lines 6 | wanted 6 13; listed "before a refused record" 0 13 "$t"
refused "changes, at a refused record" 1 "$t: record 13 refused: number 7, a byte that is no command" "$t" --changes --at 14

# The example, held to what --live draws. Its pictures have 535 bytes each, since all listed records have three digits.
rm -f "$pbm"
run "$example" --changes --pbm "$pbm"
check "changes, example: status $status" same "$status" 0
check "changes, example: first" same "$(head -n 1 "$work/out")" "record 678: left chip, data write FC; changed pixels: left 6, right 0"
check "changes, example: last two" same "$(tail -n 2 "$work/out")" "record 871: right chip, data write B0; changed pixels: left 0, right 3
152 of 886 records changed what the panel shows"
check "changes, example: lines" same "$(wc -l <"$work/out")" 153
check "changes, example: pictures" same "$(wc -c <"$pbm")" $((152 * 535))
sed -n 's/^record \([0-9]*\):.*/# record \1/p' "$work/out" >"$work/numbers"
"$show" "$example" --at 0 >"$work/wanted"
: >"$work/comments"
for n in $(seq 0 151); do
    dd if="$pbm" bs=535 skip="$n" count=1 of="$work/one.pbm" 2>/dev/null
    sed -n 2p "$work/one.pbm" >>"$work/comments"
    text_of "$work/one.pbm" >>"$work/wanted"
done
check "changes, example: comments" cmp -s "$work/comments" "$work/numbers"
run --live <"$example"
sed '$d' "$work/out" >"$work/drawn"
check "changes, example: as --live draws it" cmp -s "$work/drawn" "$work/wanted"

# From the longest trace that one call takes, as many as there can be: from fresh chips the first record changes nothing.
{ records "2 1 AF"; repeated 8192 abcdabed | tr abcde '\002\001\245\000\244' | head -c 65532; } >"$t"
rm -f "$pbm"
run "$t" --changes --pbm "$pbm"
check "changes, longest: status $status" same "$status" 0
check "changes, longest: lines" same "$(wc -l <"$work/out")" 16384
check "changes, longest: last two" same "$(tail -n 2 "$work/out")" "record 16383: right chip, static drive on; changed pixels: left 0, right 1952
16383 of 16384 records changed what the panel shows"
check "changes, longest: pictures" same "$(wc -c <"$pbm")" "$(seq 16383 | awk '{ size += 532 + length($1) } END { printf "%d", size }')"
check "changes, longest: last picture" same "$(tail -c 537 "$pbm" | head -c 25 | tr '\n' /)" "P4/# record 16383/122 32/"

# ---- changes of a repaint: its records count from 0, the trace's are not listed ----

turned() { # LEFT-LINE LEFT-COUNT RIGHT-LINE RIGHT-COUNT: the list of a whole repaint
    echo "record 252: left chip, start line $1; changed pixels: left $2, right 0"
    echo "record 253: right chip, start line $3; changed pixels: left 0, right $4"
}
line_after() { [ "$1" = C0 ] && echo 16 || echo 0; } # COMMAND: the start line to which a repaint turns
turned 16 276 16 32 | wanted 2 254; listed_whole "repaint, example" 250 254 "$example" --repaint "$new_name"

{ printf 'P1\n122 16\n'; new_rows digits; } >"$picture"
for chips in "C0 0 D0 1" "D0 1 C0 0"; do
    # shellcheck disable=SC2086
    set -- $chips
    old_pixels "$@" >"$t"
    turned "$(line_after "$1")" 371 "$(line_after "$3")" 188 | wanted 2 254
    listed_whole "repaint, chips $chips" 250 254 "$t" --repaint "$picture"
done
wanted 0 0 </dev/null; listed "repaint at 0" 0 0 "$t" --repaint "$picture"
wanted 0 252 </dev/null; listed "repaint at 252" 250 252 "$t" --repaint "$picture"
turned 0 371 16 188 | head -n 1 | wanted 1 253; listed "repaint at 253" 250 253 "$t" --repaint "$picture"
refused "changes, repaint at 255" 1 "the repaint: has only 254 records, --at asks for 255" "$t" --repaint "$picture" --changes --at 255
{ printf 'P1\n122 16\n'; digits "1 $first" "14 $dark" "1 $last"; } >"$picture"
wanted 0 254 </dev/null; listed_whole "repaint of what is shown" 250 254 "$t" --repaint "$picture"

# ---- sparing repaints: what RAM holds already is left out, and a last line says how many cycles are left ----

spared() { # LABEL COUNT AT ARGUMENTS...: as shown, with the sparing repaint; AT may be empty
    name=$1 cycles=$2 sent=$3
    shift 3
    rm -f "$pbm"
    run "$@" --sparing ${sent:+--at "$sent"} --pbm "$pbm"
    done_with "$name" 0 ""
    takes "$name" "$cycles" "$sent"
    text_of "$pbm" >"$work/text"
    printed "$name" "$work/text"
}
sparing_repainted() { # LABEL COUNT: the trace and the picture at each point where something changes
    for at in 0 1 $(($2 - 2)); do
        spared "$1 at $at" "$2" $at "$t" --repaint "$picture"; old "$1 at $at"
    done
    spared "$1 at $(($2 - 1))" "$2" $(($2 - 1)) "$t" --repaint "$picture"; torn "$1 at $(($2 - 1))"
    spared "$1 at $2" "$2" "$2" "$t" --repaint "$picture"; new "$1 at $2"
    spared "$1 whole" "$2" "" "$t" --repaint "$picture"; new "$1 whole"
    for at in $(($2 + 1)) 254 255; do
        refused "$1 at $at" 1 "the repaint: has only $2 records, --at asks for $at" "$t" --repaint "$picture" --sparing --at $at
    done
}
# The hidden pages are all 0. Of this picture three of their four are written whole, and the last is dark: 3 x 63 + 2.
{ printf 'P1\n122 16\n'; new_rows digits; } >"$picture"
for chips in "C0 0 D0 1" "C0 1 C0 0" "D0 0 D0 0" "D0 1 C0 1"; do
    # shellcheck disable=SC2086
    old_pixels $chips >"$t"
    sparing_repainted "sparing, chips $chips" 191
done
# Two bytes of two pages, each with its page and its column, and the start lines. Given up before these, it has only them left.
old_pixels C0 0 C0 0 >"$t"
{ printf 'P1\n122 16\n'; digits "1 $first" "14 $dark" "1 $last"; } >"$picture"
spared "sparing, two bytes" 8 "" "$t" --repaint "$picture"; old "sparing, two bytes"
spared "sparing, given up" 8 6 "$t" --repaint "$picture" --save "$work/quiet.state"; old "sparing, given up"
spared "sparing, taken up again" 2 "" --start "$work/quiet.state" --repaint "$picture"; old "sparing, taken up again"

# The example: as the repaint at the end, by RAM and by panel, and before.
count=187
for n in 0 1 $((count - 2)); do
    spared "sparing, example at $n" $count $n "$example" --repaint "$new_name"; oliveira "sparing, example at $n"
done
spared "sparing, example, torn" $count $((count - 1)) "$example" --repaint "$new_name"; monteira "sparing, example, torn"
spared "sparing, example, whole" $count "" "$example" --repaint "$new_name" --save "$work/spared.state"; monteiro "sparing, example, whole"
"$show" "$example" --repaint "$new_name" --save "$work/whole.state" >"$work/text"
tail -c 640 "$work/whole.state" >"$work/whole.ram"
tail -c 640 "$work/spared.state" | cmp -s - "$work/whole.ram"; check "sparing, example: another RAM than the repaint's" same $? 0

# --changes lists the last two; --records writes what is sent, with no line where it goes to standard output.
spared_changes() { # LABEL COUNT AT: the list is that in $work/wanted
    run "$example" --repaint "$new_name" --sparing --changes ${3:+--at "$3"}; takes "$1" "$2" "$3"; ended "$1" 0 ""
}
sparing_turned() { turned 16 276 16 32 | sed "s/^record 252/record $((count - 2))/; s/^record 253/record $((count - 1))/"; }
sparing_turned | wanted 2 $count; spared_changes "sparing, changes" $count ""
sparing_turned | wanted 2 $count; spared_changes "sparing, changes, all at" $count $count
sparing_turned | head -n 1 | wanted 1 $((count - 1)); spared_changes "sparing, changes, torn" $count $((count - 1))
wanted 0 $((count - 2)) </dev/null; spared_changes "sparing, changes before them" $count $((count - 2))
for n in 0 1 $((count - 1)) $count; do
    "$show" "$example" --save "$work/name.state" >"$work/text"
    spared "sparing, records at $n" $count $n "$example" --repaint "$new_name" --records "$work/r.trace" --save "$work/got.state"
    check "sparing, records at $n: length" same "$(wc -c <"$work/r.trace")" $((4 * n))
    run "$work/r.trace" --start "$work/name.state" --save "$work/sent.state"; done_with "sparing, records at $n, sent" 0 ""
    check "sparing, records at $n, sent: other chips or RAM" cmp -s "$work/got.state" "$work/sent.state"
    run "$example" --repaint "$new_name" --sparing --at $n --records -; done_with "sparing, records at $n, to standard output" 0 ""
    printed "sparing, records at $n, to standard output" "$work/r.trace"
done
run "$example" --repaint "$new_name" --sparing --pbm -; done_with "sparing, a picture to standard output" 0 ""
"$show" "$example" --repaint "$new_name" --pbm - >"$work/wanted"; printed "sparing, a picture to standard output" "$work/wanted"
"$show" "$example" --repaint "$new_name" --sparing --at 1 >/dev/full 2>"$work/err"; status=$?
done_with "sparing on a full disk" 1 "standard output: cannot be written: No space left on device"

refused "sparing, of fresh chips" 1 "/dev/null: repaint after it refused: number 9, left chip: display off or static drive on" \
    /dev/null --repaint "$picture" --sparing
refused "sparing alone" 2 'show: --sparing goes with "--repaint"; see show --help' "$t" --sparing
refused "sparing alone, at" 2 'show: --sparing goes with "--repaint"; see show --help' "$t" --at 1 --sparing
refused "live, sparing" 2 'show: --live goes without "--sparing"; see show --help' --live --sparing
refused "sparing twice" 2 'show: more than one "--sparing"; see show --help' "$t" --repaint "$picture" --sparing --sparing
refused "sparing with a value" 2 'show: no value goes with "--sparing"; see show --help' "$t" --repaint "$picture" --sparing=1

# ---- changes: files and arguments ----

changes >"$t"
refused "changes, PBM in no folder" 1 "$work/none/x: cannot be written: No such file or directory" "$t" --changes --pbm "$work/none/x"
refused "changes, PBM is a folder" 1 "$work: cannot be written: Is a directory" "$t" --changes --pbm "$work"
for trace in "$t" "$example"; do # a few pictures fail at the end, many before it
    refused "changes, PBM on a full disk" 1 "/dev/full: cannot be written: No space left on device" "$trace" --changes --pbm /dev/full
done
refused "changes, missing file" 1 "$work/none: cannot be opened: No such file or directory" "$work/none" --changes
"$show" "$t" --changes >/dev/full 2>"$work/err"
check "changes on a full disk: status" same $? 1
check "changes on a full disk: message" same "$(cat "$work/err")" "standard output: cannot be written: No space left on device"

refused "live, changes" 2 'show: --live goes without "--changes"; see show --help' --live --changes
refused "changes, live" 2 'show: --live goes without "--changes"; see show --help' --changes --live
refused "changes, no trace" 2 'show: no file for "TRACE"; see show --help' --changes
refused "changes twice" 2 'show: more than one "--changes"; see show --help' "$t" --changes --changes
refused "changes with a value" 2 'show: no value goes with "--changes"; see show --help' "$t" --changes=1
refused "changes before another trace" 2 "show: more than one file: \"$example\"; see show --help" "$t" --changes "$example"
for option in --repaint --at --pbm; do
    refused "changes as the value of $option" 2 "show: no value after \"$option\"; see show --help" "$t" $option --changes
done

# ---- N ----

records "2 0 AF" >"$t"
for n in 2 16384 16385 18446744073709551617 99999999999999999999999; do
    refused "at $n of 1" 1 "$t: has only 1 record, --at asks for $n" "$t" --at $n
done
for n in "" -1 +1 1x x 1.5 " 1" 0x1; do
    refused "at '$n'" 2 "show: --at takes a number of records, 0 or more, not \"$n\"; see show --help" "$t" --at "$n"
done

# ---- files ----

refused "missing file" 1 "$work/none: cannot be opened: No such file or directory" "$work/none"
refused "empty name" 1 ": cannot be opened: No such file or directory" ""
refused "a folder" 1 "$work: cannot be read: Is a directory" "$work"
refused "PBM in no folder" 1 "$work/none/x: cannot be written: No such file or directory" "$t" --pbm "$work/none/x"
refused "PBM is a folder" 1 "$work: cannot be written: Is a directory" "$t" --pbm "$work"
refused "PBM on a full disk" 1 "/dev/full: cannot be written: No space left on device" "$t" --pbm /dev/full
for argument in "$t" --help; do
    "$show" "$argument" >/dev/full 2>"$work/err"
    check "$argument on a full disk: status" same $? 1
    check "$argument on a full disk: message" same "$(cat "$work/err")" "standard output: cannot be written: No space left on device"
done

# ---- arguments ----

refused "no arguments" 2 'show: no file for "TRACE"; see show --help'
refused "no trace" 2 'show: no file for "TRACE"; see show --help' --at 1
for option in --foo -x --a --foo=1 ---; do
    refused "$option" 2 "show: unknown option \"$option\"; see show --help" "$t" "$option"
done
for option in --repaint --at --pbm; do
    refused "$option last" 2 "show: no value after \"$option\"; see show --help" "$t" $option
    refused "$option before another" 2 "show: no value after \"$option\"; see show --help" $option --at "$t"
    refused "$option twice" 2 "show: more than one \"$option\"; see show --help" "$t" $option 1 $option 1
done
refused "two traces" 2 "show: more than one file: \"$example\"; see show --help" "$t" "$example"

for arguments in "--help" "-h" "$t --foo --help"; do
    # shellcheck disable=SC2086
    run $arguments
    check "$arguments: status $status" same "$status" 0
    check "$arguments: a message" [ ! -s "$work/err" ]
    check "$arguments: usage" same "$(head -n 1 "$work/out")" "Usage: show [TRACE] [OPTION]..."
    check "$arguments: usage, live" same "$(sed -n 2p "$work/out")" "       show --live [--start FILE] [--save FILE] [--form FORM]"
    check "$arguments: wider than a terminal" same "$(awk 'length($0) > 79' "$work/out")" ""
    for option in --start --save --repaint --sparing --records --at --changes --list --every --delay --wear --pbm --pgm --form --live \
        "-h, --help" --version; do
        check "$arguments: $option" same "$(grep -c -e "^  $option " "$work/out")" 1
    done
done

echo "show: $checks checks, $failed failed"
[ "$failed" -eq 0 ]
