#!/bin/sh
# Runs show in the ways that show.sh does not: forms, states that are saved and begun with, long traces, every record, pages, standard input and
# output, and files that must not be written over. Usage: look.sh SHOW WORK, the last a folder to work in.
set -u
show=$1 work=$2
tests=$(dirname "$0")
example=$tests/../../examples/name.trace new_name=$tests/../../examples/name.pbm
. "$tests/runs.sh"

# ---- forms ----

"$show" "$example" --pbm "$pbm" >/dev/null
for form in blocks braille ascii halves; do "$tests/forms.py" $form "$pbm" >"$work/$form"; done
drawn() { done_with "$1" 0 ""; printed "$1" "$work/$2"; } # LABEL FORM
for form in blocks braille ascii; do
    run "$example" --form $form; drawn "--form $form" $form
    run "$example" --form=$form; drawn "--form=$form" $form
    run --live --form $form <"$example"
    tail -n $(($(wc -l <"$work/$form") + 1)) "$work/out" | sed '$d' >"$work/last"
    check "--live --form $form" cmp -s "$work/last" "$work/$form"
done
in_locale() { # FORM VARIABLE=VALUE...
    wanted=$1
    shift
    env -u LC_ALL -u LC_CTYPE -u LANG "$@" "$show" "$example" >"$work/out" 2>"$work/err"
    status=$?
    drawn "locale $*" "$wanted"
}
in_locale ascii LC_ALL=C
in_locale ascii LC_ALL=POSIX LANG=C.UTF-8
in_locale ascii LC_CTYPE=C LANG=en_US.UTF-8
in_locale ascii LANG=
in_locale ascii X=1
in_locale blocks LANG=C.UTF-8
in_locale blocks LC_ALL= LC_CTYPE= LANG=pt_PT.utf8
in_locale blocks LC_CTYPE=ru_RU.UTF-8 LANG=C
for columns in "124 blocks" "200 blocks" "123 braille" "80 braille" "40 braille" "0 braille"; do
    on_terminal "${columns% *}" "" "$example"; drawn "a terminal of ${columns% *} columns" "${columns#* }"
done
LC_ALL=C
on_terminal 124 "" "$example"; drawn "ascii on 124 columns" ascii
on_terminal 80 "" "$example"; drawn "ascii on 80 columns" halves
LC_ALL=C.UTF-8
on_terminal 80 "" "$example" --form blocks; drawn "blocks on 80 columns" blocks
for rows in "20 blocks" "19 braille" "5 braille"; do
    on_terminal "130x${rows% *}" "" "$example"; drawn "a terminal of ${rows% *} rows" "${rows#* }"
done
on_terminal 200 "" "$example" --form braille; drawn "braille on 200 columns" braille
for form in "" x Blocks halves; do
    refused "--form '$form'" 2 "show: --form takes blocks, braille or ascii, not \"$form\"; see show --help" "$example" --form "$form"
done
changes() { # 13 records, six of which change the panel
    records "2 0 AF" "3 0 01" "3 0 00" "2 0 3C" "3 0 FF" "5 0 00" "2 1 AF" "4 1 40" "4 1 41" "2 1 A5" "2 0 C1" "2 0 A1" "2 1 A4"
}
changes >"$t"
for n in 1 2 5 6 10 11 12 13; do                # pixels alone, halves that are lit, both edges
    "$show" "$t" --at $n --pbm "$pbm" >/dev/null
    for form in braille ascii; do
        "$tests/forms.py" $form "$pbm" >"$work/wanted"
        run "$t" --at $n --form $form; done_with "$form at $n" 0 ""; printed "$form at $n" "$work/wanted"
    done
done

for seed in 1 2 3; do                           # pixels without any order
    { records "2 0 AF" "2 1 AF"; "$tests/traces.py" good $seed 4000; records "2 0 AF" "2 1 AF" "2 0 A4" "2 1 A4" "2 0 A9" "2 1 A9"; } >"$t"
    "$show" "$t" --pbm "$pbm" >/dev/null
    for form in blocks braille ascii; do
        "$tests/forms.py" $form "$pbm" >"$work/wanted"
        run "$t" --form $form; done_with "$form, random $seed" 0 ""; printed "$form, random $seed" "$work/wanted"
    done
done
changes >"$t"

# ---- arguments ----

same_as() { # LABEL ARGUMENTS...: they print what stands in $work/wanted
    name=$1
    shift
    run "$@"; done_with "$name" 0 ""; printed "$name" "$work/wanted"
}
"$show" "$t" --at 3 >"$work/wanted"
same_as "--at=3" "$t" --at=3
same_as "-- before the file" --at 3 -- "$t"
cp "$t" "$work/--name"
(cd "$work" && "$(readlink -f "$OLDPWD/$show")" --at 3 -- --name) >"$work/out" 2>"$work/err"; status=$?
done_with "a file of the name --name" 0 ""; printed "a file of the name --name" "$work/wanted"
"$show" "$t" >"$work/wanted"
run - <"$t"; done_with "standard input" 0 ""; printed "standard input" "$work/wanted"
tail -c +1 "$t" | piped -; status=$(cat "$work/status"); done_with "a pipe" 0 ""; printed "a pipe" "$work/wanted"
run - --changes <"$t"; done_with "changes of standard input" 0 ""
check "changes of standard input" same "$(tail -n 1 "$work/out")" "6 of 13 records changed what the panel shows"
refused "standard input, past its end" 1 "standard input: has only 13 records, --at asks for 14" - --at 14 <"$t"
refused "standard input a folder" 1 "standard input: cannot be read: Is a directory" - <"$work"
refused "standard input closed" 1 "standard input: cannot be read: Bad file descriptor" - <&-
refused "an empty value" 2 'show: --at takes a number of records, 0 or more, not ""; see show --help' "$t" --at=
refused "two files after --" 2 'show: more than one file: "--at"; see show --help' -- "$t" --at
version=$(sed -n 's/^#define PEDRALUME_VERSION_[MP][A-Z]* //p' "$tests/../include/pedralume.h" | paste -sd .)
run --version; done_with "--version" 0 ""
check "--version: '$(cat "$work/out")'" same "$(cat "$work/out")" "show (Pedralume) $version"
"$show" --version >/dev/full 2>"$work/err"; status=$?
done_with "--version on a full disk" 1 "standard output: cannot be written: No space left on device"
refused "--list alone" 2 'show: --list goes with "--changes"; see show --help' "$t" --list
refused "--delay alone" 2 'show: --delay goes with "--every"; see show --help' "$t" --delay 1
for delay in "" x -1 1.5 1000000; do
    refused "--delay '$delay'" 2 "show: --delay takes milliseconds, 0 to 999999, not \"$delay\"; see show --help" "$t" --every --delay "$delay"
done
for option in "--every" "--list" "--delay 1"; do
    # shellcheck disable=SC2086
    refused "live, $option" 2 "show: --live goes without \"${option% *}\"; see show --help" --live $option
done
refused "live, from a state on standard input" 2 'show: --live reads standard input, and so cannot --start from "-"; see show --help' --live --start -
for arguments in "--save -" "--repaint $new_name --records -" "--pbm x.pbm --save -"; do
    # shellcheck disable=SC2086
    refused "every, $arguments" 2 'show: --every goes without --save or --records to "-"; see show --help' "$t" --every $arguments
done
for arguments in "--pbm -" "--save -" "--repaint $new_name --records -" "--changes --pbm -"; do
    # shellcheck disable=SC2086
    on_terminal 130 "" "$t" $arguments
    check "bytes to a terminal, $arguments: status $status" same "$status" 2
    check "bytes to a terminal, $arguments" same "$(cat "$work/out")" \
        'show: bytes are no text: send them to a file or a pipe, not to "a terminal"; see show --help'
done
refused "live, saved to standard output" 2 'show: --live goes without --save to "-"; see show --help' --live --save -
for arguments in "- --start -" "- --repaint -" "$t --start - --repaint -"; do
    # shellcheck disable=SC2086
    refused "two standard inputs, $arguments" 2 'show: only one of the files that are read can be "-"; see show --help' $arguments
done
for arguments in "--pbm - --save -" "--repaint $new_name --pbm - --records -" "--repaint $new_name --records - --save -"; do
    # shellcheck disable=SC2086
    refused "two standard outputs, $arguments" 2 'show: only one of --pbm, --pgm, --save and --records can be "-"; see show --help' "$t" $arguments
done
refused "--records alone" 2 'show: --records goes with "--repaint"; see show --help' "$t" --records "$work/r"
refused "live, --records" 2 'show: --live goes without "--records"; see show --help' --live --records "$work/r"

# ---- pictures to standard output, and none over a file that is read ----

rm -f "$pbm"
for arguments in "" "--at 3" "--changes" "--changes --at 1"; do
    # shellcheck disable=SC2086
    "$show" "$t" $arguments --pbm "$pbm" >/dev/null
    # shellcheck disable=SC2086
    run "$t" $arguments --pbm -; done_with "--pbm - $arguments" 0 ""; printed "--pbm - $arguments" "$pbm"
done
for arguments in "--pbm -" "--changes --pbm -" "--every --pbm -" "--save -" "--every" "--changes"; do
    # shellcheck disable=SC2086
    "$show" "$t" $arguments >/dev/full 2>"$work/err"; status=$?
    done_with "$arguments on a full disk" 1 "standard output: cannot be written: No space left on device"
done

"$show" "$example" --save "$work/state" --pbm "$work/state.pbm" >/dev/null
cp "$new_name" "$picture"
ln -sf t.trace "$work/link"
ln -f "$t" "$work/hard"
for output in --pbm --save; do
    for file in "$t" "$work/link" "$work/hard" "$work/../$(basename "$work")/t.trace"; do
        kept "the trace, $output $file" "$file" "$t" $output "$file"
    done
    kept "the trace, changes, $output" "$t" "$t" --changes $output "$t"
    kept "the picture, $output" "$picture" "$example" --repaint "$picture" $output "$picture"
    kept "the start, $output" "$work/state" "$t" --start "$work/state" $output "$work/state"
done
cp "$t" "$work/was"
refused "over standard input" 1 "$t: is read or written already, and not written over" - --pbm "$t" <"$t"
check "over standard input: written over" cmp -s "$t" "$work/was"
refused "both outputs one file" 1 "$pbm: is read or written already, and not written over" "$t" --pbm "$pbm" --save "$pbm"
cp "$new_name" "$work/p-000003.pbm"
kept "the picture, every" "$work/p-000003.pbm" "$example" --repaint "$work/p-000003.pbm" --every --pbm "$work/p.pbm"
rm -f "$work"/p-*.pbm
run /dev/null --pbm /dev/null; done_with "/dev/null twice" 0 ""
cp "$t" "$work/both"
for arguments in "$work/both" "- --changes" "$work/both --every"; do
    # shellcheck disable=SC2086,SC2094
    (ulimit -f 1000; trap '' XFSZ; "$show" $arguments <"$work/both" >>"$work/both" 2>"$work/err"); status=$?
    case $arguments in -*) name="standard input" ;; *) name=$work/both ;; esac
    done_with "appended to what is read, $arguments" 1 "$name: is standard output too"
    check "appended to what is read, $arguments" cmp -s "$t" "$work/both"
done

# ---- pictures of 32 rows ----

"$show" "$example" --repaint "$new_name" >"$work/wanted"
"$show" "$example" --repaint "$new_name" --pbm "$picture" >/dev/null
same_as "what --pbm writes" "$example" --repaint "$picture"
upper="5 $first" lower="11 $last"
{ printf 'P1\n122 16\n'; digits "$upper" "$lower"; } >"$picture"
"$show" "$example" --repaint "$picture" >"$work/wanted"
{ printf 'P1\n122 32\n'; digits "$upper" "$lower" "16 $dark"; } >"$picture"; same_as "P1 of 32 rows" "$example" --repaint "$picture"
{ printf 'P4\n122 32\n'; packed "$upper" "$lower" "16 $dark"; } >"$picture"; same_as "P4 of 32 rows" "$example" --repaint "$picture"
for rows in "1 $first|15 $dark" "15 $dark|1 $last"; do
    { printf 'P4\n122 32\n'; packed "$upper" "$lower" "${rows%|*}" "${rows#*|}"; } >"$picture"
    refused "a lower half with $rows" 1 "$picture: its lower half is not blank, and a repaint shows 16 rows" "$example" --repaint "$picture"
done
{ printf 'P4\n122 32\n'; packed "$upper" "$lower" "15 $dark"; } >"$picture"
refused "31 rows of 32" 1 "$picture: no PBM picture, or a damaged one: it ends before its last pixel" "$example" --repaint "$picture"
"$show" "$t" --changes --pbm "$picture" >/dev/null
refused "several pictures" 1 "$picture: no PBM picture, or a damaged one: it goes on after its last pixel" "$example" --repaint "$picture"

# ---- states: saved anywhere, gone on from there ----

check "a state's size" same "$(wc -c <"$work/state")" 664
"$show" "$example" >"$work/wanted"; same_as "a state alone" --start "$work/state"
: >"$work/empty"; same_as "a state and an empty trace" "$work/empty" --start "$work/state"
same_as "a state at 0" --start "$work/state" --at 0
same_as "a state on standard input" --start - <"$work/state"
run --live --start "$work/state" <"$work/empty"; done_with "live from a state" 0 ""
check "live from a state" same "$(sed '$d' "$work/out")" "$(cat "$work/wanted")"
refused "a state at 1" 1 "$work/state: has only 0 records, --at asks for 1" --start "$work/state" --at 1
"$show" "$example" --repaint "$new_name" --save "$work/whole" >"$work/wanted"
same_as "a repaint after a state" --start "$work/state" --repaint "$new_name"
for n in 0 1 252 253 254; do
    "$show" "$example" --repaint "$new_name" --at $n --save "$work/wanted.state" >"$work/wanted"
    same_as "a repaint of a state at $n" --start "$work/state" --repaint "$new_name" --at $n --save "$work/got.state"
    check "a repaint of a state at $n: saved" cmp -s "$work/wanted.state" "$work/got.state"
done
run --start "$work/state" --save -; done_with "a state to standard output" 0 ""; printed "a state to standard output" "$work/state"
{ every="2 0 E0|3 0 55|5 0 00|5 0 55|3 0 AA|2 1 A1|2 1 DF|3 1 81|5 1 00|2 0 EE|5 0 00|5 0 11|2 1 BB|2 1 4F|3 1 FF|3 1 FF|4 1 20|2 0 A5"; changes
    echo "$every" | tr '|' '\n' | while read -r record; do records "$record"; done; } >"$t"
count=$(($(wc -c <"$t") / 4))
"$show" "$t" --save "$work/wanted.state" >"$work/wanted"
head -c 48 "$t" | "$show" --live --save "$work/live.state" >/dev/null
"$show" "$t" --at 12 --save "$work/cut.state" >/dev/null
check "live, saved" cmp -s "$work/live.state" "$work/cut.state"
n=0
while [ $n -le $count ]; do
    "$show" "$t" --at $n --save "$work/cut.state" >/dev/null
    tail -c +$((4 * n + 1)) "$t" | piped - --start "$work/cut.state" --save "$work/got.state"
    status=$(cat "$work/status")
    done_with "cut at $n" 0 ""; printed "cut at $n" "$work/wanted"
    check "cut at $n: saved" cmp -s "$work/wanted.state" "$work/got.state"
    n=$((n + 1))
done
# looked at before the first record; what fails after it still has an end line
refused "live, saved in no folder" 1 "$work/none/x: cannot be written: No such file or directory" --live --save "$work/none/x" <"$t"
kept "the start, live" "$work/state" --live --start "$work/state" --save "$work/state" </dev/null
run --live --save /dev/full <"$t"
check "live, saved on a full disk: status $status" same "$status" 1
check "live, saved on a full disk: $(cat "$work/err")" same "$(cat "$work/err")" "/dev/full: cannot be written: No space left on device"
check "live, saved on a full disk: an end" same "$(tail -n 1 "$work/out" | cut -c 1-20)" "end: number 0, done,"
# an interrupt ends the input; the shell has a background program ignore it, so python3 starts it
rm -f "$work/got.state"
python3 - "$show" "$t" "$work/got.state" >"$work/out" <<'END'
import signal, subprocess, sys, time
live = subprocess.Popen([sys.argv[1], "--live", "--save", sys.argv[3]], stdin=subprocess.PIPE, stdout=subprocess.PIPE)
live.stdin.write(open(sys.argv[2], "rb").read())
live.stdin.flush()
live.stdout.readline()  # it is there
time.sleep(1)
live.send_signal(signal.SIGINT)
print(live.stdout.read().decode().splitlines()[-1].split(",")[0], live.wait())
END
check "live, interrupted: $(cat "$work/out")" same "$(cat "$work/out")" "end: number 0 0"
check "live, interrupted: saved" cmp -s "$work/wanted.state" "$work/got.state"
{ cat "$t"; records "2 0 80" "2 0 00"; } | "$show" --live --save "$work/got.state" >/dev/null 2>&1
check "live, saved where a record is refused" cmp -s "$work/wanted.state" "$work/got.state"
rm -f "$work/got.state"
{ cat "$t"; records "2 0 80"; } >"$work/bad"
refused "nothing saved of a refused trace" 1 "$work/bad: record $count refused: number 7, a byte that is no command" "$work/bad" --save "$work/got.state"
check "nothing saved of a refused trace: saved" [ ! -e "$work/got.state" ]

for size in 0 1 24 663; do
    head -c $size "$work/state" >"$work/bad"
    refused "a state of $size" 1 "$work/bad: no chips and RAM: it has under 664 bytes" "$t" --start "$work/bad"
done
{ cat "$work/state"; printf x; } >"$work/bad"
refused "a state of 665" 1 "$work/bad: no chips and RAM: it has over 664 bytes" "$t" --start "$work/bad"
refused "an endless state" 1 "/dev/zero: no chips and RAM: it has over 664 bytes" "$t" --start /dev/zero
wrong_field="a chip record, or the rest of a feed record, with a field out of its range"
{ printf '\002'; tail -c +2 "$work/state"; } >"$work/bad"
refused "a bad left chip" 1 "$work/bad: refused: number 2, left chip: $wrong_field" "$t" --start "$work/bad"
refused "a bad left chip, live" 1 "$work/bad: refused: number 2, left chip: $wrong_field" --live --start "$work/bad" </dev/null
{ head -c 19 "$work/state"; printf '\121'; tail -c +21 "$work/state"; } >"$work/bad"
refused "a bad right chip" 1 "$work/bad: refused: number 2, right chip: $wrong_field" --start "$work/bad"
refused "a missing state" 1 "$work/none: cannot be opened: No such file or directory" "$t" --start "$work/none"
refused "a state that is a folder" 1 "$work: cannot be read: Is a directory" "$t" --start "$work"
refused "saved in no folder" 1 "$work/none/x: cannot be written: No such file or directory" "$t" --save "$work/none/x"
refused "saved over a folder" 1 "$work: cannot be written: Is a directory" "$t" --save "$work"
refused "saved on a full disk" 1 "/dev/full: cannot be written: No space left on device" "$t" --save /dev/full

# ---- the records of a repaint, as a trace ----

for n in 0 1 253 254; do
    "$show" "$example" --repaint "$new_name" --at $n >"$work/wanted"
    same_as "records, at $n" "$example" --repaint "$new_name" --at $n --records "$work/r.trace"
    check "records, at $n: length" same "$(wc -c <"$work/r.trace")" $((4 * n))
    same_as "records, at $n, sent" "$work/r.trace" --start "$work/state"
done
run "$example" --repaint "$new_name" --records -; done_with "records to standard output" 0 ""; printed "records to standard output" "$work/r.trace"
"$show" "$example" --repaint - <"$new_name" >"$work/out"; printed "a picture on standard input" "$work/wanted"
kept "the start, --records" "$work/state" --start "$work/state" --repaint "$new_name" --records "$work/state"
refused "records on a full disk" 1 "/dev/full: cannot be written: No space left on device" "$example" --repaint "$new_name" --records /dev/full
refused "records in no folder" 1 "$work/none/x: cannot be written: No such file or directory" "$example" --repaint "$new_name" --records "$work/none/x"

# ---- traces over 16,384 records ----

for size in 65540 80000 400000; do
    repeated 100000 abcb | tr abc '\004\000\140' | head -c $size >"$t"
    shown "$size bytes" "$t"; pixels "$size bytes" "32 $dark"
    refused "$size bytes, past the end" 1 "$t: has only $((size / 4)) records, --at asks for $((size / 4 + 1))" "$t" --at $((size / 4 + 1))
    printf '\004' >>"$t"
    refused "$size bytes, cut short" 1 "$t: refused: number 3, a trace that ends inside a record (records taken: $((size / 4)))" "$t"
done
# lights and clears the left half, then with a data write a byte in every second line: records that change the panel on either side of each cut
{ records "2 0 AF" "2 1 AF"; repeated 25000 abcdefcdabgdhiid | tr abcdefghi '\002\000\245\000\003\001\244\005\001'; } >"$t"
count=$(($(wc -c <"$t") / 4))
run "$t" --changes --pbm "$pbm"; done_with "long, changes" 0 ""
cp "$work/out" "$work/whole"
check "long, changes: pictures" same "$(grep -ac '^# record' "$pbm")" $(($(wc -l <"$work/whole") - 1))
: >"$work/joined"
at=0
while [ $at -lt $count ]; do # each block from the state that the blocks before have left
    "$show" "$t" --at $at --save "$work/cut.state" >/dev/null
    tail -c +$((4 * at + 1)) "$t" | head -c 40000 | "$show" - --start "$work/cut.state" --changes | sed '$d' |
        awk -v at="$at" '{ sub(/^record [0-9]+/, "record " $2 + at); print }' >>"$work/joined"
    at=$((at + 10000))
done
sed '$d' "$work/whole" >"$work/lines"
check "long, changes: as in blocks" cmp -s "$work/lines" "$work/joined"
check "long, changes: last" same "$(tail -n 1 "$work/whole")" "$(wc -l <"$work/lines") of $count records changed what the panel shows"
check "long, changes: many" [ "$(wc -l <"$work/lines")" -gt 50000 ]
"$show" --live <"$t" | grep -c └ >"$work/pictures"
check "long, changes: as --live draws" same "$(cat "$work/pictures")" $(($(wc -l <"$work/lines") + 1))
run "$t" --at 40000 --changes; done_with "long, changes at 40000" 0 ""
check "long, changes at 40000" same "$(sed '$d' "$work/out")" "$(awk '$2 + 0 < 40000' "$work/lines")"
{ cat "$t"; records "2 0 05" "2 0 E0" "2 0 05"; cat "$t"; } >"$work/bad"
for arguments in "" --changes --every; do
    # shellcheck disable=SC2086
    refused "long, refused late $arguments" 1 "$work/bad: record $((count + 2)) refused: number 8, a column set while read-modify-write is on" \
        "$work/bad" $arguments
done

# ---- every record ----

changes >"$t"
every() { # LABEL RECORDS OPTION ARGUMENTS...: numbered files, each as --at shows the panel; and the same on standard output and as text
    name="every, $1" records=$2 option=$3
    shift 3
    rm -rf "$work/e"
    mkdir "$work/e"
    run "$@" $option --pbm "$work/e/a.b.pbm"; done_with "$name" 0 ""
    : >"$work/joined"
    : >"$work/wanted"
    looks=0
    for file in "$work/e/"*; do
        n=$(basename "$file" .pbm)
        n=$(echo "${n#a.b-}" | sed 's/^0*\(.\)/\1/')
        "$show" "$@" --at "$n" --pbm "$pbm" >>"$work/wanted"
        echo "after $n of $records records" >>"$work/wanted"
        check "$name: $file" cmp -s "$file" "$pbm"
        { printf 'P4\n# after %s records\n122 32\n' "$n"; tail -c 512 "$pbm"; } >>"$work/joined"
        looks=$((looks + 1))
    done
    check "$name: prints '$(cat "$work/out")'" same "$(cat "$work/out")" "$looks pictures, numbered by the records before them"
    run "$@" $option --pbm -; done_with "$name, to standard output" 0 ""; printed "$name, to standard output" "$work/joined"
    run "$@" $option; done_with "$name, as text" 0 ""; printed "$name, as text" "$work/wanted"
    on_terminal 130 "" "$@" $option --delay 0; done_with "$name, on a terminal" 0 ""; printed "$name, on a terminal" "$work/wanted"
}
numbers() { # NUMBER...: the last run's files
    check "$name: files" same "$(ls "$work/e")" "$(printf 'a.b-%06d.pbm\n' "$@")"
}
# shellcheck disable=SC2046
every "a trace" 13 --every "$t"; numbers $(seq 0 13)
every "changes" 13 "--every --changes" "$t"; numbers 0 2 5 10 11 12 13
every "changes of a repaint" 254 "--changes --every" "$example" --repaint "$new_name"; numbers 0 253 254
# shellcheck disable=SC2046
every "a repaint" 254 --every "$example" --repaint "$new_name"; numbers $(seq 0 254)
name="every, a sparing repaint"
rm -f "$work/e/"*
run "$example" --repaint "$new_name" --sparing --every --pbm "$work/e/a.b.pbm"; done_with "$name" 0 ""; takes "$name" 187
check "$name: prints '$(cat "$work/out")'" same "$(cat "$work/out")" "188 pictures, numbered by the records before them"
# shellcheck disable=SC2046
numbers $(seq 0 187)
for n in 0 1 185 186 187; do
    "$show" "$example" --repaint "$new_name" --at $((n < 185 ? n : n + 67)) --pbm "$pbm" >/dev/null
    check "$name, after $n" cmp -s "$work/e/a.b-000$(printf %03d $n).pbm" "$pbm"
done
: >"$t"; every "nothing" 0 --every "$t"; numbers 0
changes >"$t"
for file in plain .hidden f.older/plain; do
    mkdir -p "$work/e/f.older"
    run "$t" --at 0 --every --pbm "$work/e/$file"; done_with "every, to $file" 0 ""
    check "every, to $file" [ -s "$work/e/$file-000000" ]
done
refused "every, past the end" 1 "$t: has only 13 records, --at asks for 14" "$t" --every --at 14
refused "every, in no folder" 1 "$work/none/x-000000.pbm: cannot be written: No such file or directory" "$t" --every --pbm "$work/none/x.pbm"
ln -sf /dev/full "$work/e/full-000004.pbm"
refused "every, on a full disk" 1 "$work/e/full-000004.pbm: cannot be written: No space left on device" "$t" --every --pbm "$work/e/full.pbm"
start=$(date +%s%N)
on_terminal 130 "" "$t" --every --delay 50
check "every, with a delay: too fast" [ $((($(date +%s%N) - start) / 1000000)) -ge 700 ]

# ---- pages ----

paged() { # LABEL KEYS PAGE...: which pages are drawn, 0 the first; then the last line
    name="pages, $1" keys=$2
    shift 2
    : >"$work/wanted"
    for page in "$@"; do
        n=$(echo "0 2 5 10 11 12 13" | cut -d ' ' -f $((page + 1)))
        "$show" "$t" --at "$n" >>"$work/wanted"
        if [ "$page" = 0 ]; then echo "before the first record"; else "$show" "$t" --changes </dev/null | sed -n "${page}p"; fi >>"$work/wanted"
        echo "change $page of 6; space: next, b: back, g: first, G: last, q: quit" >>"$work/wanted"
    done
    echo "6 of 13 records changed what the panel shows" >>"$work/wanted"
    on_terminal 130 "$keys" "$t" --changes
    done_with "$name" 0 ""; printed "$name" "$work/wanted"
}
paged "to the end and on" "    n j q" 0 1 2 3 4 5 6
paged "back and forth" "  bbbn	xpq" 0 1 2 1 0 1 0
paged "first and last" "GgGkq" 0 6 0 6 5
paged "arrows" "<ESC>[B<ESC>[C<ESC>[D<ESC>[A<ESC>[F<ESC>[H<ESC>[Zq" 0 1 2 1 0 6 0
paged "page keys" "<ESC>[6~<ESC>[6~<ESC>[5~<ESC>[4~<ESC>[1~<ESC>[8~<ESC>[7~<ESC>[2~q" 0 1 2 1 6 0 6 0
paged "escape alone" "$(printf ' \033 \033q')" 0 1 2
paged "escape and Ctrl-C" "$(printf ' \033\003')" 0 1
paged "left with Ctrl-C" "$(printf ' \003')" 0 1
paged "left with Ctrl-D" "$(printf ' \004')" 0 1
on_terminal 130 "Gq" "$example" --repaint "$new_name" --sparing --changes; done_with "pages, a sparing repaint" 0 ""
takes "pages, a sparing repaint" 187
check "pages, a sparing repaint: $(tail -n 1 "$work/out")" same "$(tail -n 1 "$work/out")" "2 of 187 records changed what the panel shows"
on_terminal 130 "" "$t" --changes --list; done_with "pages, --list" 0 ""
"$show" "$t" --changes >"$work/wanted"; printed "pages, --list" "$work/wanted"
head -c 4 "$t" >"$work/one"
on_terminal 130 "" "$work/one" --changes; done_with "pages, none" 0 ""
check "pages, none" same "$(cat "$work/out")" "0 of 1 records changed what the panel shows"
# the terminal is left as it was
for keys in q "$(printf '\003')"; do
    rm -f "$work/before" "$work/after"
    "$tests/terminal.py" 130 "$keys" sh -c "stty -g >'$work/before'; '$show' '$t' --changes; stty -g >'$work/after'" >/dev/null; status=$?
    check "pages: status $status" same "$status" 0
    check "pages: the terminal is not as before" cmp -s "$work/before" "$work/after"
done

echo "look: $checks checks, $failed failed"
[ "$failed" -eq 0 ]
