#!/bin/sh
# Runs ./replay, ./wear, ./show and ./text in a copy of the project, with what is built in it: status, words, and that they run what the sources say
# now.
# Usage: wrappers.sh, from any folder. rt is the real one where nothing else is said; each call of it is noted, with the crate in whose folder it is.
set -u
. "$(dirname "$0")/checks.sh"
project=$(readlink -f "$(dirname "$0")/../..")
work=$(mktemp -d) || exit 1
trap 'rm -rf "$work"' EXIT
mkdir "$work/a copy" "$work/bin" "$work/folder"
(cd "$project" && cp -Rp crates crates.txt tools host target replay wear show text examples "$work/a copy") || exit 1
cd "$work/a copy" || exit 1
unset MAKEFLAGS MAKEOVERRIDES
calls=$work/calls archive=target/staticlib/libpedralume.a real_rt=$(command -v rt)
export calls real_rt
PATH=$work/bin:$PATH

run() { # COMMAND...: leaves $status, $work/out and $work/err
    : >"$calls"
    "$@" >"$work/out" 2>"$work/err"
    status=$?
}
ended() { # LABEL STATUS WORDS: how what was run ended, and the last line that it said
    check "$1: status $status" same "$status" "$2"
    check "$1: says '$(tail -n 1 "$work/err")'" same "$(tail -n 1 "$work/err")" "$3"
}
printed() { check "$1: prints something else" cmp -s "$work/out" "$2"; } # LABEL FILE
called() { check "$1: calls rt with '$(cat "$calls")'" same "$(cat "$calls")" "$2"; } # LABEL CALLS
rt_is() { # COMMANDS: what rt does, after it has noted the call, in the crate's folder
    printf '#!/bin/sh\necho "${PWD##*/} $*" >>"$calls"\n%s\n' "$1" >"$work/bin/rt"
    chmod +x "$work/bin/rt"
}
# shellcheck disable=SC2016
real='exec "$real_rt" "$@"'
rt_is "$real"
cp "$archive" "$work/archive"
touch target/bin/replay target/bin/wear "$archive"
for name in replay wear; do
    cp target/bin/$name "$work/$name"
    "$work/$name" <examples/listing.trace >"$work/$name.listed"
done
host/build/show examples/name.trace >"$work/shown" || exit 1
host/build/text examples/name.trace >"$work/told" || exit 1
host/build/show --live <examples/name.trace >"$work/live" || exit 1
host/build/show examples/name.trace --repaint examples/name.pbm --changes >"$work/changes" || exit 1

# ---- replay and wear: good uses ----

replayed() { ended "$name, $1" 0 ""; printed "$name, $1" "$work/$name.listed"; called "$name, $1" "$name run"; } # LABEL
for name in replay wear; do
    run ./$name examples/listing.trace; replayed "a file"
    run ./$name <examples/listing.trace; replayed "standard input"
    run ./$name - <examples/listing.trace; replayed "-"
    run ./$name -- examples/listing.trace; replayed "--"
    run ./$name examples/listing.trace --; replayed "-- last"
    ln -s "$PWD/$name" "$work/folder/$name"
    cp examples/listing.trace "$work/folder/t"
    run sh -c "cd ../folder && ./$name t"; replayed "a link, from another folder"
    run env told=yes unknown=x options= teller=x prints=x longer=x ./$name examples/listing.trace; replayed "with names of its own around"
    for option in --help -h; do
        run ./$name $option; ended "$name $option" 0 ""; called "$name $option" ""
        check "$name $option: usage" same "$(head -n 1 "$work/out")" "Usage: $name [FILE]"
        check "$name $option: wider than a terminal" same "$(awk 'length($0) > 79' "$work/out")" ""
    done
    run ./$name --version; ended "$name --version" 0 ""; called "$name --version" ""
    check "$name --version: '$(cat "$work/out")'" same "$(cat "$work/out")" "$(host/build/show --version | sed "s/show/$name/")"
    for option in --help --version; do
        ./$name $option >/dev/full 2>"$work/err"
        status=$?; ended "$name $option on a full disk" 1 "$name: standard output cannot be written"
    done
done
check "replay: not the crate's own text" cmp -s "$work/replay.listed" crates/replay/stdout
run ./wear examples/name.trace; ended "wear, the example" 0 ""
check "wear, the example: eight lines, the sum and the end" same "$(wc -l <"$work/out") $(tail -n 2 "$work/out" | paste -sd ' ')" "10 sum 828 end 0 886 12 0"

run ./replay --text examples/name.trace; ended "--text" 0 ""; printed "--text" "$work/told"; called "--text" ""
cp examples/name.trace ./--text
run ./replay --text -- --text; ended "--text of a file of that name" 0 ""; printed "--text of a file of that name" "$work/told"
rm ./--text
run ./replay --text --foo examples/name.trace; ended "--text --foo" 2 'text: unknown option "--foo"; see text --help'
run ./replay --text nowhere; ended "--text, a missing file" 1 "nowhere: cannot be opened: No such file or directory"
run ./replay examples/name.trace --text; ended "--text last" 0 ""; printed "--text last" "$work/told"; called "--text last" ""
run ./replay --text <examples/name.trace; ended "--text, standard input" 0 ""; printed "--text, standard input" "$work/told"
run ./replay --text a b; ended "--text, two files" 2 'text: more than one file: "b"; see text --help'

# ---- replay and wear: wrong uses ----

wrong() { # LABEL WORDS ARGUMENTS...
    use="$name, $1" words=$2
    shift 2
    run "./$name" "$@"; ended "$use" 2 "$name: $words"; printed "$use" /dev/null; called "$use" ""
}
: >"$work/secret"; chmod 000 "$work/secret"
for name in replay wear; do
    wrong "two files" "more than one file: \"b\"; see $name --help" examples/listing.trace b
    for option in -x --foo ---; do
        wrong "$option" "unknown option \"$option\"; see $name --help" $option
        wrong "$option after a file" "unknown option \"$option\"; see $name --help" examples/listing.trace $option
    done
    wrong "two files, the first -" "more than one file: \"b\"; see $name --help" - b
    wrong "two files after --" "more than one file: \"-x\"; see $name --help" -- examples/listing.trace -x
    wrong "a missing file after --" "--text: no such file" -- --text
    wrong "missing file" "nowhere: no such file" nowhere
    wrong "empty name" ": no such file" ""
    wrong "a directory" "examples: is a directory" examples
    wrong "standard input a directory" "standard input: is a directory" <examples
    [ -r "$work/secret" ] || wrong "a file that cannot be read" "$work/secret: cannot be read" "$work/secret"
    run ./$name <&-; ended "$name, closed input" 2 "$name: standard input: is closed"; printed "$name, closed input" /dev/null
done
wrong "--text" 'unknown option "--text"; see wear --help' --text examples/listing.trace

# ---- replay and wear: refused traces, what came before printed ----

refused() { # WORDS [REPLAY'S-MORE WEAR'S-MORE]: of $work/t
    longer=${2-}
    for name in replay wear; do
        "$work/$name" <"$work/t" >"$work/listed"
        run ./$name "$work/t"; ended "$name: $1" 1 "$name: refused with number $1$longer"; printed "$name: $1" "$work/listed"
        longer=${3-}
    done
}
begun() { { cat examples/listing.trace; printf "$1"; cat examples/listing.trace; } >"$work/t"; } # RECORD: nine good records before it and after it
begun '\012\000\000\000'; refused "4 at record 9: spare line bits or the fourth byte not 0"
begun '\002\002\000\000'; refused "5 at record 9: a chip over 1"
begun '\006\000\000\000'; refused "6 at record 9: RD and WR equal"
begun '\002\000\200\000'; refused "7 at record 9: a byte that is no command"
begun '\002\000\340\000'; refused "8 at record 11: a column set while read-modify-write is on"
begun '\002\000\144\000'; refused "14 at record 9: a column set over 79 (4F hex), the last column of RAM"
begun '\002\000\340\000\002\000\144\000'; refused "8 at record 10: a column set while read-modify-write is on"
check "wear, refused at a record: $(head -n 2 "$work/out" | cut -c 1-12)" same "$(wc -l <"$work/out")" 10
begun '\002'; refused "3: a trace that ends inside a record (whole records: 18)"
check "wear, refused as a whole: prints '$(cat "$work/out")'" same "$(cat "$work/out")" "end 3 18 0 0"
status_reads() { awk 'BEGIN { for (i = 0; i < 16385; i++) printf "abcb" }' | tr abc '\004\000\140' | head -c "$1"; } # BYTES
status_reads 65537 >"$work/t"; refused "1: a trace over 65,536 bytes; " "replay --text takes it" "show --wear takes it"
status_reads 65536 >"$work/t"
for name in replay wear; do
    "$work/$name" <"$work/t" >"$work/listed"
    run ./$name "$work/t"; ended "$name, the longest trace" 0 ""; printed "$name, the longest trace" "$work/listed"
done

# ---- replay and wear: no whole end line ----

for name in replay wear; do
    ./$name examples/listing.trace >&- 2>"$work/err"
    status=$?; ended "$name, closed output" 1 "$name: standard output cannot be written"
    ./$name examples/listing.trace >/dev/full 2>"$work/err"
    status=$?; ended "$name, a full disk" 1 "$name: standard output cannot be written"
    { sleep 0.3; ./$name "$work/t" 2>"$work/err"; echo $? >"$work/status"; } | true
    status=$(cat "$work/status"); ended "$name, a closed pipe" 1 "$name: standard output cannot be written"
    rt_is : # it leaves what is built as it is
    for text in '' 'end 0 9 2 1' '0 0 00\nend 0 9 2\n' 'sum 0\n'; do
        printf '#!/bin/sh\nprintf "%s"\n' "$text" >crates/$name/out/$name
        run ./$name examples/listing.trace; ended "$name, a program that prints '$text'" 1 "$name: no whole end line: the trace could not be read"
    done
    cp "$work/$name" crates/$name/out/$name
    rt_is "$real"
done

# ---- replay and wear: what is run is built from the sources as they are ----

for name in replay wear; do
    cp -p crates/$name/src/main.rt "$work/main.rt"
    echo "no Rattle" >>crates/$name/src/main.rt
    run ./$name examples/listing.trace; ended "$name, a broken source" 1 "$name: the program cannot be built"; printed "$name, a broken source" /dev/null
    cp -p "$work/main.rt" crates/$name/src/main.rt
    run ./$name examples/listing.trace; replayed "the source as it was"
    rm target/bin/$name crates/$name/out/$name
    run ./$name examples/listing.trace; ended "$name, nothing built" 0 "$name: proving and building, two to four minutes"
    printed "$name, nothing built" "$work/$name.listed"
    rt_is "sleep 0.1; touch src/main.rt"
    run ./$name examples/listing.trace; replayed "a source changed meanwhile"
    rt_is "$real"
    run ./$name examples/listing.trace; ended "$name after it" 0 "$name: proving and building, two to four minutes"
    run ./$name examples/listing.trace; replayed "built since"
    cp -p "$work/main.rt" crates/$name/src/main.rt
done

# ---- show: as it is, and built anew where a source is newer ----

shown() { printed "$1" "$work/shown"; called "$1" "$2"; ended "$1" 0 "${2:+show: proving and building, two to four minutes}"; } # LABEL CALLS
run ./show examples/name.trace; shown "show" ""
ln -s "$PWD/show" "$work/folder/show"
cp examples/name.trace "$work/folder/n"
run sh -c 'cd ../folder && ./show n'; shown "show, a link from another folder" ""
run ./show --live <examples/name.trace; ended "show --live" 0 ""; printed "show --live" "$work/live"; called "show --live" ""
run ./show examples/name.trace --repaint examples/name.pbm --changes; ended "show --changes" 0 ""; printed "show --changes" "$work/changes"
called "show --changes" ""
run ./show --live examples/name.trace; ended "show --live with a file" 2 \
    'show: --live takes standard input and no file: "examples/name.trace"; see show --help'
run ./text examples/name.trace; ended "text" 0 ""; printed "text" "$work/told"; called "text" ""
run ./text <examples/name.trace; ended "text, standard input" 0 ""; printed "text, standard input" "$work/told"
run ./text --back "$work/told"; ended "text --back" 0 ""; printed "text --back" examples/name.trace
printf 'left reset\n' | ./text --back >"$work/left"
printf 'right reset\n' | ./text --back >"$work/right"
cat "$work/left" "$work/right" >"$work/both"
run ./text --merge "$work/left" "$work/right"; ended "text --merge" 0 ""; printed "text --merge" "$work/both"
run ./text --foo; ended "text --foo" 2 'text: unknown option "--foo"; see text --help'
run ./show; ended "show with no file" 2 'show: no file for "TRACE"; see show --help'
./show examples/name.trace >&- 2>"$work/err"
status=$?; ended "show, closed output" 1 "standard output: cannot be written: Bad file descriptor"

touch crates/frame/out/made crates/frame/out crates/frame
run ./show examples/name.trace; shown "show, newer crates/frame/out" ""
rt_is "touch out/libpedralume.a"
for source in crates.txt crates/frame/src/lib.rt crates/sed1520/specs/Chip.antt; do
    touch "$source"
    run ./show examples/name.trace; shown "show, newer $source" "pedralume lib"
    run ./show examples/name.trace; shown "show after that" ""
done
touch crates.txt
rt_is "cat >/dev/null; touch out/libpedralume.a"
run ./show --live <examples/name.trace; ended "show --live, built first" 0 "show: proving and building, two to four minutes"
printed "show --live, built first" "$work/live"
rt_is "touch out/libpedralume.a; sleep 0.1; touch ../frame/src/lib.rt; sleep 0.1; touch out/libpedralume.a"
touch crates.txt
run ./show examples/name.trace; shown "show, a source changed meanwhile" "pedralume lib"
run ./show examples/name.trace; shown "show after it" "pedralume lib"
rt_is "$real"
echo "no Rattle" >>crates/pedralume/src/lib.rt
run ./show examples/name.trace; ended "show, a broken source" 1 "show: the program cannot be built"; printed "show, a broken source" /dev/null
run ./text examples/name.trace; ended "text, a broken source" 1 "text: the program cannot be built"; printed "text, a broken source" /dev/null
for program in show text; do # nothing is built for the usage
    ./$program --help >/dev/full 2>"$work/err"
    check "$program --help on a full disk" same $? 1
done
mv host/build "$work/build"
for program in show text; do
    for option in -h --help; do
        run ./$program $option; ended "$program $option, nothing built" 0 ""; called "$program $option, nothing built" ""
        "$work/build/$program" --help >"$work/usage"
        printed "$program $option, nothing built" "$work/usage"
    done
done
mv "$work/build" host/build

# ---- two at once with nothing built: one builds, the other waits ----

both() { # LABEL COMMAND...: runs it twice at once
    use=$1
    shift
    : >"$calls"
    ("$@" >"$work/out2" 2>"$work/err2"; echo $? >"$work/status2") &
    "$@" >"$work/out" 2>"$work/err"
    status=$?
    wait
    check "$use: status $status and $(cat "$work/status2")" same "$status $(cat "$work/status2")" "0 0"
    check "$use: print not the same" cmp -s "$work/out" "$work/out2"
}
two_shows() { # LABEL
    rm -rf host/build "$archive"
    rt_is "head -c 1000 ../../../archive >out/libpedralume.a; sleep 0.5; cp ../../../archive out/libpedralume.a"
    both "$1" ./show examples/name.trace; printed "$1" "$work/shown"; called "$1" "pedralume lib"
}
two_replays() { # LABEL: of wear too
    for name in replay wear; do
        rm target/bin/$name crates/$name/out/$name
        rt_is "program=out/$name built=../../../$name
            [ -e \$program ] || { head -c 1000 \$built >\$program; sleep 0.5; cp \$built \$program; chmod +x \$program; }"
        both "$1, $name" ./$name examples/listing.trace; printed "$1, $name" "$work/$name.listed"
    done
}
two_shows "two shows"
two_replays "two replays"
mkdir "$work/tools"
for folder in $(echo "$PATH" | tr : ' '); do ln -s "$folder"/* "$work/tools" 2>/dev/null; done
rm "$work/tools/flock"
PATH=$work/bin:$work/tools
two_shows "two shows without flock"
two_replays "two replays without flock"
check "without flock: the lock stays" [ ! -e target/building ]

echo "wrappers: $checks checks, $failed failed"
[ "$failed" -eq 0 ]
