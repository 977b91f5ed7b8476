# What the tests of wear share; they read it with `.`, with tests set: the folder that they are in.
# The lines of a count are the program wear's: "wear CHIP PAGE" with 80 counts, eight times, and "sum S".
# shellcheck shell=sh disable=SC2154

count() { # TRACE [STATE]: prints the lines, up to a refused record, from fresh chips or those of the file STATE
    od -An -v -w4 -tu1 "$1" | awk -v state="$(if [ -n "${2-}" ]; then od -An -v -w24 -N24 -tu1 "$2"; fi)" -f "$tests/wear.awk"
}
grey() { # PGM: prints the lines of a file that show --wear --pgm wrote, but where it is scaled or has not the form that FORMATS.md says
    header=$(head -n 4 "$1" | paste -sd '|')
    maxval=${header##*|}
    if [ "$maxval" -lt 256 ]; then size=1; else size=2; fi
    samples=$(tail -c $((640 * size)) "$1" | od -An -v -w$((80 * size)) -tu$size --endian=big |
        awk -v maxval="$maxval" '
            { $1 = $1; print "wear " int((NR - 1) / 4) " " (NR - 1) % 4 " " $0; for (i = 1; i <= NF; i++) { sum += $i; if ($i > highest) highest = $i } }
            END { print "sum " sum + 0; print "P5|# sum " sum + 0 ", highest " highest + 0 "|80 8|" (highest ? highest : 1) }')
    length=$((${#header} + 1 + 640 * size))
    [ "$header $(wc -c <"$1")" = "$(echo "$samples" | tail -n 1) $length" ] || echo "a header '$header', and $(wc -c <"$1") bytes"
    echo "$samples" | sed '$d'
}
