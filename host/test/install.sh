#!/bin/sh
# Runs make install and make uninstall in a copy of the project, and uses what is installed as a stranger would: clients built in a folder outside the
# tree by what pkg-config says alone, the example of the installed header and the installed examples among them, the programs, the man pages.
# Usage: install.sh PROGRAM..., from any folder: what is installed as pedralume-PROGRAM. All must be built.
set -u
. "$(dirname "$0")/checks.sh"
project=$(readlink -f "$(dirname "$0")/../..")
work=$(mktemp -d) || exit 1
trap 'umount "$work/disk" 2>/dev/null; rm -rf "$work"' EXIT
trap 'exit 1' HUP INT TERM
programs=$*
mkdir "$work/a copy" "$work/a copy/target" "$work/client" || exit 1
(cd "$project" && cp -Rp host examples docs "$work/a copy" && cp -Rp target/bin target/staticlib "$work/a copy/target") || exit 1
cd "$work/a copy" || exit 1
chmod -R u+w host
unset MAKEFLAGS MAKEOVERRIDES MAKELEVEL PREFIX BINDIR LIBDIR INCLUDEDIR MANDIR DOCDIR DESTDIR
unset PKG_CONFIG_LIBDIR PKG_CONFIG_SYSROOT_DIR LD_LIBRARY_PATH
umask 077
prefix=$work/prefix

run() { # COMMAND...: leaves $status, $work/out and $work/err
    "$@" >"$work/out" 2>"$work/err"
    status=$?
}
make_() { run make -s -C host "$@"; }
good() { check "$1: status $status, says '$(cat "$work/err")'" same "$status $(cat "$work/err")" "0 "; } # LABEL
bad() { # LABEL WORDS: it failed and said them, in a line of their own
    check "$1: status 0" [ "$status" -ne 0 ]
    check "$1: says '$(cat "$work/err")'" grep -qxF "$2" "$work/err"
}
missing() { command -v "$1" >/dev/null && return 1; echo "install: $1 is missing, so this was not run: $2"; } # TOOL WHAT
# each file and link with mode, and sum or text; folders left out
listing() { (cd "$1" && find . ! -type d | sort | while read -r file; do
    if [ -L "$file" ]; then echo "$file -> $(readlink "$file")"; else echo "$file $(stat -c %a "$file") $(cksum <"$file")"; fi
done); }
names() { (cd "$1" && find . ! -type d | sort); } # FOLDER

# ---- installed, twice, and under DESTDIR ----

calls="changes feed_close feed_open feed_part frame repaint replay sparing_repaint version"
helpers="compared differing entry_left entry_record entry_right feed_compared feed_differing feed_field feed_place feed_records"
helpers="$helpers number pixel place words"
examples="changes frame list_long recorder repaint replay_long sparing"
version=$(sed -nE 's/^#define PEDRALUME_VERSION_(MAJOR|MINOR|PATCH) //p' host/include/pedralume.h | paste -sd .)
major=${version%%.*}
{
    printf '%s\n' "./include/pedralume.h 644" "./lib/libpedralume.a 644" "./lib/libpedralume.so -> libpedralume.so.$major" \
        "./lib/libpedralume.so.$major -> libpedralume.so.$version" "./lib/libpedralume.so.$version 755" \
        "./lib/pkgconfig/pedralume.pc 644" "./share/man/man3/pedralume.3 644" "./share/doc/pedralume/FORMATS.md 644"
    for proved in replay wear; do echo "./lib/pedralume/$proved 755"; done
    for function in $calls $helpers; do echo "./share/man/man3/pedralume_$function.3 -> pedralume.3"; done
    for example in $examples; do echo "./share/doc/pedralume/examples/$example.c 644"; done
    for program in $programs replay wear; do printf '%s\n' "./bin/pedralume-$program 755" "./share/man/man1/pedralume-$program.1 644"; done
} | sort >"$work/expected"
make_ install PREFIX="$prefix"; good "install"
listing "$prefix" >"$work/first"
check "install: other files or modes" same "$(sed -E 's/^([^>]* [0-9]{3}) [0-9]+ [0-9]+$/\1/' "$work/first" | sort)" "$(cat "$work/expected")"
check "install: a folder that not all may enter" same "$(find "$prefix" -type d ! -perm 755)" ""
make_ install PREFIX="$prefix"; good "install again"
listing "$prefix" >"$work/second"
check "install again: not the same" cmp -s "$work/first" "$work/second"
for program in $programs; do check "$program: another than is built" cmp -s "host/build/$program" "$prefix/bin/pedralume-$program"; done
for proved in replay wear; do check "$proved: another than is built" cmp -s "target/bin/$proved" "$prefix/lib/pedralume/$proved"; done
cmp -s target/staticlib/libpedralume.a "$prefix/lib/libpedralume.a"; check "another archive" same $? 0
cmp -s host/include/pedralume.h "$prefix/include/pedralume.h"; check "another header" same $? 0

make_ install PREFIX=/opt/pedra DESTDIR="$work/a stage"; good "DESTDIR"
names "$work/a stage/opt/pedra" >"$work/staged"
check "DESTDIR: other files" same "$(cat "$work/staged")" "$(names "$prefix")"
check "DESTDIR: its path is in a file" same "$(grep -rlF "$work" "$work/a stage/opt/pedra")" ""
for proved in replay wear; do
    check "DESTDIR: pedralume-$proved" grep -q "program=/opt/pedra/lib/pedralume/$proved " "$work/a stage/opt/pedra/bin/pedralume-$proved"
done
make_ install PREFIX="$work/own" LIBDIR="$work/own/lib64" INCLUDEDIR="$work/headers" BINDIR="$work/own/programs" MANDIR="$work/own/man" DOCDIR="$work/own/doc"
good "own places"
check "own places: what is where" same "$(cd "$work" && find own headers -name '*replay' -o -name '*wear' -o -name '*.[ah]' -o -name 'pedralume.3' -o -name '*.md' | sort | paste -sd ' ')" \
    "headers/pedralume.h own/doc/FORMATS.md own/lib64/libpedralume.a own/lib64/pedralume/replay own/lib64/pedralume/wear own/man/man3/pedralume.3 \
own/programs/pedralume-replay own/programs/pedralume-wear"
check "own places: pedralume.pc" same "$(head -n 3 "$work/own/lib64/pkgconfig/pedralume.pc" | paste -sd ' ')" \
    "prefix=$work/own libdir=\${prefix}/lib64 includedir=$work/headers"
for proved in replay wear; do
    "$work/own/programs/pedralume-$proved" examples/listing.trace >/dev/null; check "own places: pedralume-$proved: status $?" same $? 0
done

# ---- the shared library ----

library=$prefix/lib/libpedralume.so.$version
check "the calls it shows" same "$(nm -D --defined-only "$library" | sed 's/.* //; s/^pedralume_//' | sort | paste -sd ' ')" "$calls"
check "soname" same "$(readelf -d "$library" | sed -n 's/.*SONAME.*\[\(.*\)\]/\1/p')" "libpedralume.so.$major"
check "it needs more than libc" same "$(readelf -d "$library" | sed -n 's/.*NEEDED.*\[\(.*\)\]/\1/p')" "libc.so.6"
check "an executable stack" same "$(readelf -lW "$library" | grep GNU_STACK | grep -c E)" 0
if ! missing python3 "a call from Python"; then
    cat >"$work/call.py" <<'END'
import ctypes, sys
library = ctypes.CDLL(sys.argv[1])
call = library.pedralume_frame
call.restype = ctypes.c_uint64
call.argtypes = [ctypes.c_char_p, ctypes.c_size_t] * 3
chips = (b"\1\1\1" + bytes(9)) * 2
frame = ctypes.create_string_buffer(488)
answer = call(chips, 24, bytes(640), 640, frame, 488)
print(answer & 255, answer >> 8, frame.raw == b"\xff" * 488)
END
    check "a call from Python: '$(python3 "$work/call.py" "$library" 2>&1)'" same "$(python3 "$work/call.py" "$library" 2>&1)" "0 488 True"
fi

# ---- the header's example: it begins where chips are declared and ends before the next empty line ----

header=$prefix/include/pedralume.h
sed -n 's/^ \*$/ *   /; s/^ \*   //p' "$header" |
    awk 'index($0, "uint8_t chips[") == 1 { on = 1 } on && $0 == "" { exit } on' >"$work/client/first.inc"
check "the header has no example" [ -s "$work/client/first.inc" ]
sed -n '/^static const uint8_t trace/,/^};/p' "$work/client/first.inc" >"$work/client/trace.inc"
sed 's/PEDRALUME_DATA_READ, \(.*0xA5\)/0x06, \1/' "$work/client/first.inc" >"$work/client/refused.inc"
cp host/test/client.c "$work/client"
cp host/test/client.c "$work/client/client.cpp"
# the comment in one line, to find what it says that the example prints
sed -n 's/^ \* *//p' "$header" | paste -sd ' ' | tr -s ' ' >"$work/comment"
says() { check "the header does not say: $1" grep -qF "$1" "$work/comment"; } # WORDS
says "It prints 0 of 1 compared reads differ."
says "it prints number 6 at 4: RD and WR equal."

# ---- the installed examples, each of which says in its first comment what it prints ----

for example in $examples; do
    cp "$prefix/share/doc/pedralume/examples/$example.c" "$work/client/$example.c"
    cp "$work/client/$example.c" "$work/client/$example.cpp"
    sed -n '1,/^ \*\/$/p' "$work/client/$example.c" | sed '1,/^ \* It prints:$/d' | sed -n 's/^ \*   //p' >"$work/client/$example.says"
    check "$example.c: does not say what it prints" [ -s "$work/client/$example.says" ]
done
every_client() { # KIND: the client and the examples, built so
    every_run "$1-client"
    for example in $examples; do prints "$1-$example" "" "$(cat "$work/client/$example.says")"; done
}
prints() { # CLIENT NAME TEXT
    run "$work/client/$1" ${2:+"$2"}
    good "$1: $2"
    check "$1: $2 prints '$(head -n 20 "$work/out")'" same "$(cat "$work/out")" "$3"
}
lines() { printf '%s\n' "$@"; }
blinked() { awk -v end="$1" 'BEGIN { for (i = 0; i < end; i++) if (i % 3) print i, 1952, 0 }'; } # RECORDS
listed() { blinked 30000; lines "number 0"; blinked 16384; lines "spoilt: number 5 at 16390"; }
number=$(echo "$version" | awk -F . '{ print 10000 * $1 + 100 * $2 + $3 }')
every_run() { # CLIENT
    prints "$1" first "0 of 1 compared reads differ"
    prints "$1" refused "number 6 at 4: RD and WR equal"
    prints "$1" replay_long "$(lines "0 100000 20000 0" "cut: 3 99999" "spoilt: 5 70000")"
    prints "$1" list_long "$(listed)"
    prints "$1" frame "0 488 3904"
    prints "$1" version "$version $version $number $number"
    run "$work/client/$1" words; good "$1: words"
    check "$1: words: not one line for each of 0 to 20" same "$(cut -d ' ' -f 1 "$work/out" | paste -sd ' ')" "$(seq 0 20 | paste -sd ' ')"
    check "$1: words: an empty one" same "$(grep -cE '^[0-9]+ .+' "$work/out")" 21
}

# ---- clients, by what pkg-config says alone ----

flags="-Wall -Wextra -Wpedantic -Wconversion -Werror"
asked() { PKG_CONFIG_PATH=$prefix/lib/pkgconfig pkg-config "$@"; }
build() { # KIND ENDING LIBRARIES COMPILER...: the client and the examples, in the clients' folder
    kind=$1 ending=$2 libraries=$3
    shift 3
    for client in client $examples; do
        # shellcheck disable=SC2086
        run sh -c 'cd "$1" && shift && exec "$@"' - "$work/client" "$@" "$client.$ending" $libraries -o "$kind-$client"
        good "$kind-$client: built"
    done
}
if ! missing pkg-config "clients built by it"; then
    check "pkg-config: does not find it" asked --exists pedralume
    check "pkg-config: version $(asked --modversion pedralume)" same "$(asked --modversion pedralume)" "$version"
    check "pkg-config: flags" same "$(asked --cflags --libs pedralume | sed 's/ *$//')" "-I$prefix/include -L$prefix/lib -lpedralume"
    cflags=$(asked --cflags pedralume) libs=$(asked --libs pedralume) static=$(asked --static --libs pedralume)
    # shellcheck disable=SC2086
    {
        build shared-c c "$libs" gcc -std=c99 $flags $cflags
        build static-c c "-static $static" gcc -std=c99 $flags $cflags
        build checked-c c "$libs" gcc -std=c99 $flags -g -fsanitize=address,undefined -fno-sanitize-recover=all $cflags
        kinds="shared-c static-c checked-c"
        missing g++ "clients in C++" || {
            build shared-c++ cpp "$libs" g++ -std=c++11 $flags $cflags
            build static-c++ cpp "-static $static" g++ -std=c++11 $flags $cflags
            kinds="$kinds shared-c++ static-c++"
        }
    }
    run env LC_ALL=C "$work/client/shared-c-client" version
    check "shared-c: runs without the library's folder" [ "$status" -ne 0 ]
    check "static-c: needs a library" same "$(readelf -d "$work/client/static-c-client" | grep -c NEEDED)" 0
    LD_LIBRARY_PATH=$prefix/lib
    export LD_LIBRARY_PATH
    for kind in $kinds; do every_client "$kind"; done
    unset LD_LIBRARY_PATH
fi

# ---- the programs ----

replayed() { good "$called, $1"; check "$called, $1: prints something else" cmp -s "$work/out" "$work/answers"; } # LABEL
ended() { # LABEL STATUS WORDS
    check "$called, $1: status $status" same "$status" "$2"
    check "$called, $1: says '$(cat "$work/err")'" same "$(cat "$work/err")" "$called: $3"
}
printf '\006\000\000\000' >"$work/equal"
head -c 65537 /dev/zero >"$work/long"
for proved in replay wear; do
    called=pedralume-$proved
    installed=$prefix/bin/$called
    target/bin/$proved <examples/listing.trace >"$work/answers"
    run "$installed" examples/listing.trace; replayed "a file"
    run "$installed" <examples/listing.trace; replayed "standard input"
    ln -sf "$installed" "$work/link"
    run env name=x program=/bin/true teller=x "$work/link" examples/listing.trace; replayed "a link, with names of its own around"
    run "$installed" --help; good "$called --help"
    check "$called --help: usage" same "$(head -n 1 "$work/out")" "Usage: $called [FILE]"
    run "$installed" --version; good "$called --version"
    check "$called --version: '$(cat "$work/out")'" same "$(cat "$work/out")" "$called (Pedralume) $version"
    run "$installed" -x; ended "-x" 2 "unknown option \"-x\"; see $called --help"
    run "$installed" a b; ended "two files" 2 "more than one file: \"b\"; see $called --help"
    run "$installed" nowhere; ended "no file" 2 'nowhere: no such file'
    run "$installed" examples; ended "a directory" 2 'examples: is a directory'
    run "$installed" "$work/equal"; ended "refused" 1 'refused with number 6 at record 0: RD and WR equal'
    case $proved in replay) longer="pedralume-replay --text" ;; wear) longer="pedralume-show --wear" ;; esac
    run "$installed" "$work/long"; ended "too long" 1 "refused with number 1: a trace over 65,536 bytes; $longer takes it"
    "$installed" examples/listing.trace >/dev/full 2>"$work/err"
    status=$?; ended "a full disk" 1 'standard output cannot be written'
    "$installed" --help >/dev/full 2>"$work/err"
    status=$?; ended "--help, a full disk" 1 'standard output cannot be written'
    mv "$prefix/lib/pedralume/$proved" "$work/away"
    run "$installed" examples/listing.trace; ended "no program" 1 "$prefix/lib/pedralume/$proved: no such program"
    mv "$work/away" "$prefix/lib/pedralume/$proved"
done
run "$installed" --text examples/listing.trace; ended "--text" 2 'unknown option "--text"; see pedralume-wear --help'
run "$prefix/bin/pedralume-replay" --text examples/listing.trace; good "pedralume-replay --text"
check "pedralume-replay --text: ends otherwise" same "$(tail -n 1 "$work/out" | cut -c 1-25)" "# end: number 0, done, pl"
for program in $programs; do
    run "$prefix/bin/pedralume-$program" examples/name.trace; good "pedralume-$program"
    check "pedralume-$program: prints nothing" [ -s "$work/out" ]
    run "$prefix/bin/pedralume-$program" --foo
    check "pedralume-$program --foo: status $status" same "$status" 2
    check "pedralume-$program --foo: says '$(cat "$work/err")'" same "$(cat "$work/err")" \
        "pedralume-$program: unknown option \"--foo\"; see pedralume-$program --help"
    run "$prefix/bin/pedralume-$program" --help; good "pedralume-$program --help"
    check "pedralume-$program --help: names" same "$(sed -n '1s/ \[.*//p; 2s/ --.*//p' "$work/out" | paste -sd '|')" \
        "Usage: pedralume-$program|       pedralume-$program"
    check "pedralume-$program --help: all names" same "$(sed -n '/^$/q; s/^Usage: //; s/^ *\([^ ]*\) .*/\1/p' "$work/out" | sort -u)" \
        "pedralume-$program"
done

# ---- the man pages ----

# what show takes is not wear's own, which names it
options() { sed 's/show --wear//' | grep -oE '(^|[^A-Za-z0-9-])--?[a-z][a-z-]*' | sed 's/^[^-]//' | sort -u; }
section() { sed 's/\\-/-/g; s/\\f.//g' "$2" | sed -n "/^\\.SH $1\$/,/^\\.SH /p" | sed 1d; } # NAME PAGE
apart() { # LABEL COLUMNS: what comm gives of the options of --help and of the page without these columns, which must be nothing
    check "$1: $(comm "$2" "$work/helped" "$work/told" | paste -sd ' ')" same "$(comm "$2" "$work/helped" "$work/told")" ""
}
for program in $programs replay wear; do
    page=host/man/pedralume-$program.1
    run "$prefix/bin/pedralume-$program" --help; good "pedralume-$program --help"
    section OPTIONS "$page" | options >"$work/told"
    options <"$work/out" >"$work/helped"
    apart "$page: has not these options of --help" -23
    apart "$page: has options that --help has not" -13
    check "$page: an option in its synopsis alone" same "$(section SYNOPSIS "$page" | options | comm -23 - "$work/told")" ""
done
pages=$(find "$prefix/share/man" -type f | sort)
page3=$prefix/share/man/man3/pedralume.3
for page in $pages; do
    for part in NAME SYNOPSIS DESCRIPTION "SEE ALSO"; do check "$page: has no $part" grep -qx ".SH $part" "$page"; done
    case $page in *.1) for part in OPTIONS "EXIT STATUS" EXAMPLES; do check "$page: has no $part" grep -qx ".SH $part" "$page"; done ;; esac
done
# the nine prototypes, without white space; then the sections, each of which says something under its prototype
prototypes() { tr -d '" \n' | grep -oE 'uint64_tpedralume_[a-z_]*\([^()]*\);'; }
sed '1,/^#ifdef __cplusplus/d' "$header" | prototypes >"$work/declared"
check "the header declares $(grep -c . "$work/declared") calls" same "$(grep -c . "$work/declared")" 9
check "pedralume.3: other prototypes than the header has" same "$(section SYNOPSIS "$page3" | prototypes)" "$(cat "$work/declared")"
sections() { section "$1" "$page3" | sed -n 's/^\.SS pedralume_//p' | sort | paste -sd ' '; } # NAME
check "pedralume.3: sections of other calls" same "$(sections CALLS)" "$calls"
check "pedralume.3: sections of other helpers" same "$(sections HELPERS)" "$helpers"
said() { # FUNCTION: the sentences under its prototype
    awk -v name=".SS pedralume_$1" '$0 == name { on = 1; next } /^\.S[SH]/ { on = said = 0 } on && /^\.fi$/ { said = 1; next }
        said && !/^\./' "$page3"
}
for function in $calls $helpers; do check "pedralume.3: says nothing of $function" [ -n "$(said "$function")" ]; done
numbers=$(section "RETURN VALUE" "$page3" | sed -n '/^\.TP$/{n;p;}' | paste -sd ' ')
check "pedralume.3: not one number for each of 0 to 15" same "$numbers" "$(seq 0 15 | paste -sd ' ')"
check "pedralume.3: does not say who owns what" grep -q "No alignment is asked" "$page3"
check "pedralume.3: does not say in which order numbers are tested" grep -q "13 comes right after 1" "$page3"
check "pedralume.3: not one section of files" same "$(grep -cx '.SH FILES' "$page3")" 1
check "a page with another version" same "$(cd "$prefix/share/man" && grep -LF "\"Pedralume $version\"" man?/*)" ""
check "a placeholder that stays" same "$(grep -rIlE '@[A-Z]+@' "$prefix")" ""
if ! missing man "man pages found by it and rendered"; then
    for page in 1/pedralume-replay 1/pedralume-wear 3/pedralume $(for program in $programs; do echo "1/pedralume-$program"; done); do
        run man -M "$prefix/share/man" -w "${page%/*}" "${page#*/}"; good "man -w $page"
        check "man -w $page: finds '$(cat "$work/out")'" same "$(cat "$work/out")" "$prefix/share/man/man${page%/*}/${page#*/}.${page%/*}"
    done
    for call in $calls $helpers; do
        run man -M "$prefix/share/man" -w 3 "pedralume_$call"; good "man -w 3 pedralume_$call"
        check "man -w 3 pedralume_$call: finds '$(cat "$work/out")'" same "$(cat "$work/out")" "$prefix/share/man/man3/pedralume.3"
    done
    for page in $pages; do
        run env MANROFFSEQ= MANWIDTH=80 LC_ALL=C.UTF-8 man --warnings -E UTF-8 -l -Tutf8 -Z "$page"; good "$page rendered"
        check "$page: rendered to nothing" [ -s "$work/out" ]
    done
fi
if ! missing groff "man pages rendered by it"; then
    for page in $pages; do run groff -ww -man -Tutf8 -K utf8 "$page"; good "$page, by groff"; done
fi

# ---- wrong use: nothing is installed and the build is not begun ----

touched() { listing "$prefix" >"$work/third"; check "$1: changed what is installed" cmp -s "$work/first" "$work/third"; } # LABEL
for word in install uninstall; do
    make_ $word PREFIX=; bad "$word, PREFIX empty" "install: PREFIX is empty: it must be an absolute path"
    make_ $word PREFIX=usr; bad "$word, PREFIX relative" "install: PREFIX=usr: it must be an absolute path"
    make_ $word PREFIX="$work/a b"
    bad "$word, a space" "install: PREFIX=$work/a b: only letters, digits and the signs / . _ + , : @ ~ - are taken"
    make_ $word PREFIX="$prefix" LIBDIR=lib; bad "$word, LIBDIR relative" "install: LIBDIR=lib: it must be an absolute path"
    make_ $word PREFIX="$prefix" BINDIR=; bad "$word, BINDIR empty" "install: BINDIR is empty: it must be an absolute path"
    make_ $word PREFIX=/usr DESTDIR=stage; bad "$word, DESTDIR relative" "install: DESTDIR=stage: it must be empty or an absolute path"
done
touched "wrong use"
check "wrong use: makes a folder" same "$(ls -d "$work/a b" host/usr host/stage 2>/dev/null)" ""

# ---- what is needed is missing or no good ----

none() { check "$1: something is installed" [ ! -e "$work/none" ]; } # LABEL
archive=../target/staticlib/libpedralume.a program=../target/bin/replay
mv "host/$archive" "$work/archive"
needed="$archive is missing: run \"tools/build pedralume\" in the project's folder"
make_ install PREFIX="$work/none"; bad "no archive" "$needed"; none "no archive"
make_ show; bad "no archive, show" "$needed"
echo "no archive" >"host/$archive"
make_ install PREFIX="$work/none"; check "a damaged archive: status $status" [ "$status" -ne 0 ]; none "a damaged archive"
rm "host/$archive"; mkdir "host/$archive"
make_ install PREFIX="$work/none"; check "an archive that is a folder: status $status" [ "$status" -ne 0 ]; none "an archive that is a folder"
rmdir "host/$archive"; mv "$work/archive" "host/$archive"
mv "host/$program" "$work/program"
make_ install PREFIX="$work/none"; bad "no program" "$program is missing: run \"tools/build replay\" in the project's folder"; none "no program"
mv "$work/program" "host/$program"
mv target/bin/wear "$work/program"
make_ install PREFIX="$work/none"; bad "no wear" "../target/bin/wear is missing: run \"tools/build wear\" in the project's folder"; none "no wear"
mv "$work/program" target/bin/wear
mv host/man/pedralume.3 "$work/page"
make_ install PREFIX="$work/none"; bad "no page" "install: man/pedralume.3: cannot be read"; none "no page"
mv "$work/page" host/man/pedralume.3
if [ "$(id -u)" -ne 0 ]; then
    chmod 000 host/replay.sh
    make_ install PREFIX="$work/none"; bad "a script that cannot be read" "install: replay.sh: cannot be read"; none "a script that cannot be read"
    chmod 644 host/replay.sh
fi
touch -r host/build/show "host/$archive"
make_ install PREFIX="$prefix"; good "all there again"

# ---- the pages' own example of a text ----

example=$(sed -n "s/^printf '\(.*\)' > two.txt$/\1/p" host/man/pedralume-text.1 | sed 's/\\en/\\n/g')
# shellcheck disable=SC2059
printf "$example" | "$prefix/bin/pedralume-text" --back >"$work/two.trace"
check "the example of pedralume-text.1" same "$(od -An -tx1 "$work/two.trace" | tr -d ' \n')" 0200af000300a500

# ---- what is built is what the sources say, and an earlier version does not stay ----

mkdir -p crates/one/out
touch -d tomorrow crates/one/out/libone.a crates/one/out crates/one
make_ install PREFIX="$prefix"; good "what rt makes newer"
touch -d tomorrow crates/source
make_ install PREFIX="$work/late"; bad "an archive older than the sources" \
    "install: ../target/staticlib/libpedralume.a: is older than the sources; run ./show --version, which builds it, in the project's folder"
touch -d '2 days' target/staticlib/libpedralume.a
make_ install PREFIX="$work/late"; bad "a program older than the sources" \
    "install: ../target/bin/replay: is older than the sources; run ./replay examples/listing.trace, which builds it, in the project's folder"
touch -d '2 days' target/bin/replay
make_ install PREFIX="$work/late"; bad "wear older than the sources" \
    "install: ../target/bin/wear: is older than the sources; run ./wear examples/listing.trace, which builds it, in the project's folder"
check "older than the sources: files are written" [ ! -e "$work/late" ]
rm -r crates
touch target/staticlib/libpedralume.a target/bin/replay
mkdir -p "$work/late/lib"
: >"$work/late/lib/libpedralume.so.$major.0.99"
: >"$work/late/lib/libpedralume.so.0.1.2"
make_ install PREFIX="$work/late"; good "over an earlier version"
check "over an earlier version: it stays" same "$(cd "$work/late/lib" && echo libpedralume.so.*)" \
    "libpedralume.so.0.1.2 libpedralume.so.$major libpedralume.so.$version"
: >"$work/late/lib/libpedralume.so.$major.0.99"
make_ uninstall PREFIX="$work/late"; good "uninstall with an earlier version"
check "uninstall with an earlier version" same "$(names "$work/late")" "./lib/libpedralume.so.0.1.2"
# one that another archive's programs were built from is built anew, whatever the times
touch host/build/libpedralume.so host/build/show
printf 'void pedralume_extra(void) {}\nvoid extra(void) {}\n' >"$work/extra.c"
cp target/staticlib/libpedralume.a "$work/archive"
if gcc -c -o "$work/extra.o" "$work/extra.c" && ar r target/staticlib/libpedralume.a "$work/extra.o" 2>/dev/null; then
    touch -d yesterday target/staticlib/libpedralume.a
    make_ install PREFIX="$work/late"; good "another archive"
    check "another archive: the shared library is not of it" grep -q pedralume_extra "$work/late/lib/libpedralume.so"
    check "another archive: what is no call is shown" same "$(nm -D --defined-only "$work/late/lib/libpedralume.so" | grep -c ' extra$')" 0
fi
cp "$work/archive" target/staticlib/libpedralume.a
make_ install PREFIX="$prefix"; good "the first archive again"

# ---- places that cannot be written ----

: >"$work/file"
make_ install PREFIX="$work/file/x"; bad "under a file" "install: $work/file/x/include: cannot be made"
make_ install PREFIX=/dev/full/x; bad "under a device" "install: /dev/full/x/include: cannot be made"
mkdir -p "$work/taken/lib/libpedralume.a"
make_ install PREFIX="$work/taken"; bad "a folder in a file's place" "install: $work/taken/lib/libpedralume.a: is a directory"
mkdir -p "$work/linked/lib/libpedralume.so.$major"
make_ install PREFIX="$work/linked"; bad "a folder in a link's place" "install: $work/linked/lib/libpedralume.so.$major: is a directory"
check "a folder in a link's place: files are written" same "$(names "$work/linked")" ""
if [ "$(id -u)" -ne 0 ]; then
    mkdir "$work/shut"; chmod 500 "$work/shut"
    make_ install PREFIX="$work/shut"; bad "a folder that is shut" "install: $work/shut/include: cannot be made"
fi

# ---- a full disk: it fails, and each file that is there is whole ----

whole() { # LABEL FOLDER: what is there is as in the good install; pedralume.pc and the scripts name the folder
    check "$1: something is not whole" same "$(listing "$2" | grep -v 'pedralume.pc\|bin/pedralume-replay \|bin/pedralume-wear ' | grep -vxF -f "$work/first")" ""
    check "$1: an empty or half file" same "$(find "$2" -type f \( -size 0 -o -name '*.new*' \))" ""
}
# files of at most so many blocks of 512 bytes: the first that is larger fails; at last only the largest does
largest=$(find "$prefix" -type f -exec stat -c %s {} + | sort -n | tail -n 1)
for blocks in 1 20 60 $(((largest - 1) / 512)); do
    run sh -c 'ulimit -f "$1" && trap "" XFSZ && exec make -s -C host install PREFIX="$2"' - $blocks "$work/small$blocks"
    check "at most $blocks blocks: status 0" [ "$status" -ne 0 ]
    check "at most $blocks blocks: says '$(cat "$work/err")'" grep -q "^install: $work/small$blocks/.*: cannot be written$" "$work/err"
    whole "at most $blocks blocks" "$work/small$blocks"
done
run sh -c 'ulimit -f 20 && exec make -s -C host install PREFIX="$1"' - "$prefix"
check "over a good install: status 0" [ "$status" -ne 0 ]
touched "over a good install, a full disk"
mkdir "$work/disk"
if mount -t tmpfs -o size=80k tmpfs "$work/disk" 2>/dev/null; then
    make_ install PREFIX="$work/disk/p"
    check "a full disk: status 0" [ "$status" -ne 0 ]
    check "a full disk: says '$(cat "$work/err")'" grep -q "^install: $work/disk/p/.*: cannot be " "$work/err"
    whole "a full disk" "$work/disk/p"
    umount "$work/disk"
else
    echo "install: no small disk can be mounted, so a full one was tried by a limit on the size of files only"
fi

# ---- uninstall: what was installed goes, and nothing else ----

for file in bin/other lib/pkgconfig/other.pc lib/libpedralume.so.0 share/man/man1/other.1; do : >"$prefix/$file"; done
make_ uninstall PREFIX="$prefix"; good "uninstall"
check "uninstall: leaves or takes" same "$(names "$prefix" | paste -sd ' ')" \
    "./bin/other ./lib/libpedralume.so.0 ./lib/pkgconfig/other.pc ./share/man/man1/other.1"
check "uninstall: its folder stays" [ ! -e "$prefix/lib/pedralume" ]
make_ uninstall PREFIX="$prefix"; good "uninstall again"
make_ install PREFIX="$prefix"; good "install after it"
: >"$prefix/lib/pedralume/other"
make_ uninstall PREFIX="$prefix"; good "uninstall beside a stranger's file"
check "uninstall: takes a stranger's file" [ -e "$prefix/lib/pedralume/other" ]
make_ uninstall PREFIX=/opt/pedra DESTDIR="$work/a stage"; good "uninstall, DESTDIR"
check "uninstall, DESTDIR: leaves something" same "$(names "$work/a stage")" ""
mv host/build "$work/build"
make_ uninstall PREFIX="$work/own" LIBDIR="$work/own/lib64" INCLUDEDIR="$work/headers" BINDIR="$work/own/programs" MANDIR="$work/own/man" DOCDIR="$work/own/doc"
good "uninstall, own places, nothing built"
check "uninstall, own places: leaves something" same "$(names "$work/own"; names "$work/headers")" ""

echo "install: $checks checks, $failed failed"
[ "$failed" -eq 0 ]
