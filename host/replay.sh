# What ../replay and ../wear share, and pedralume-replay and pedralume-wear, which are installed: they read it with `.`, or begin with what it
# needs, and have set
#   $name      what the user calls it by; what it is called without pedralume- says which of the two it is
#   $program   the proved program, which prints and gives no status
#   $teller    what --text runs, or nothing where there is no --text
#   $version   what --version prints
#   ready      a function that has the program there, or fails; called once the arguments are right
# shellcheck shell=sh disable=SC2154

# what they print, and what takes a trace that number 1 refuses
case ${name#pedralume-} in
replay)
    longer="$name --text"
    prints="Prints record, kind and byte of each answer, then the end line:
number, place, reads compared, reads that differ from the trace. FILE may be -
for standard input."
    ;;
wear)
    longer="${name%wear}show --wear"
    prints="Prints how often each RAM cell was stored to, up to a refused
record: for each chip and page a line, wear, chip, page and a count for each of
the 80 columns; a line with their sum; the end line: number, place, reads
compared, reads that differ from the trace. A trace refused as a whole (numbers
1 and 3) has the end line alone. FILE may be - for standard input.

$longer draws the counts, also of a trace over 65,536 bytes."
    ;;
esac

usage() {
    cat <<END
Usage: $name [FILE]${teller:+
       $name --text [FILE]}

Replays the bus records of FILE, or of standard input, on two fresh chips with
RAM all 0. $prints
${teller:+
  --text      each record in words and, where a read differs, what was recorded
              and what the chip gives; also of a trace over 65,536 bytes}
  -h, --help  print this
  --version   print the version

Status: 0 the whole trace is replayed; 1 it is refused, or there is no whole
end line (it could not be read to its end, or standard output not be written,
or the program not be built or found); 2 the argument is at fault: an unknown
option, more than one file, or a file or a standard input that is missing, a
directory or not readable.${teller:+ With --text, 1 where the file cannot be read.}
END
}
fail() { # STATUS WORDS...
    status=$1
    shift
    echo "$name: $*" >&2
    exit "$status"
}

# what is no option is kept; what comes after -- is none
told='' unknown='' options=yes
for argument; do
    shift
    if [ -z "$options" ]; then set -- "$@" "$argument"; continue; fi
    case $argument in
    -h | --help)
        usage 2>/dev/null || fail 1 "standard output cannot be written"
        exit
        ;;
    --version)
        echo "$name (Pedralume) $version" 2>/dev/null || fail 1 "standard output cannot be written"
        exit
        ;;
    --)
        options=''
        [ -z "$told" ] || set -- "$@" --
        ;;
    -?*)
        if [ -n "$teller" ] && [ "$argument" = --text ]; then told=yes; continue; fi
        unknown=${unknown:-$argument}
        set -- "$@" "$argument"
        ;;
    *) set -- "$@" "$argument" ;;
    esac
done
[ -z "$told" ] || exec "$teller" "$@"
[ -z "$unknown" ] || fail 2 "unknown option \"$unknown\"; see $name --help"
[ $# -le 1 ] || fail 2 "more than one file: \"$2\"; see $name --help"
[ "${1-}" != - ] || shift
if [ $# -eq 1 ]; then
    [ -e "$1" ] || fail 2 "$1: no such file"
    [ -r "$1" ] || fail 2 "$1: cannot be read"
    exec <"$1"
fi
[ -e /dev/stdin ] || fail 2 "standard input: is closed"
[ ! -d /dev/stdin ] || fail 2 "${1-standard input}: is a directory"
ready

# the text with a dot after it, which keeps its last line end
text=$("$program"; echo .)
trap '' PIPE
printf %s "${text%.}" 2>/dev/null || fail 1 "standard output cannot be written"
# shellcheck disable=SC2046
set -- $(printf %s "$text" | tail -n 2)
[ "$# ${1-} ${6-}" = "6 end ." ] || fail 1 "no whole end line: the trace could not be read"
# the words for a record are those of pedralume_words; test/words.sh holds them to that
case $2 in
0) exit 0 ;;
1) fail 1 "refused with number 1: a trace over 65,536 bytes; $longer takes it" ;;
3) why="a trace that ends inside a record"; fail 1 "refused with number 3: $why (whole records: $3)" ;;
4) why="spare line bits or the fourth byte not 0" ;;
5) why="a chip over 1" ;;
6) why="RD and WR equal" ;;
7) why="a byte that is no command" ;;
8) why="a column set while read-modify-write is on" ;;
14) why="a column set over 79 (4F hex), the last column of RAM" ;;
*) why="which this program does not know" ;;
esac
fail 1 "refused with number $2 at record $3: $why"
