# What the tests of the programs share; they read it with `.`, with show and work set: the program and a folder to work in.
# Text is in blocks where nothing else is said.
export LC_ALL=C.UTF-8
mkdir -p "$work" || exit 1
t=$work/t.trace picture=$work/in.pbm pbm=$work/out.pbm
. "$(dirname "$0")/checks.sh"

# ---- inputs ----

records() { # "LINES CHIP HEX" ...: prints the records; a fourth word is the last byte, else 0
    for r in "$@"; do
        # shellcheck disable=SC2086
        set -- $r
        # shellcheck disable=SC2059
        printf "$(printf '\\%03o\\%03o\\%03o\\%03o' "$1" "$2" "0x$3" "${4:-0}")"
    done
}
repeated() { # N TEXT
    awk -v n="$1" -v text="$2" 'BEGIN { while (n-- > 0) printf "%s", text }'
}
status_reads() { # BYTES: that many bytes of valid records, the last one perhaps cut short
    repeated 20000 abcb | tr abc '\004\000\140' | head -c "$1"
}
slowly() { # FILE SIZE: prints it in pieces of that size, with a pause after each
    piece=0 pieces=$((($(wc -c <"$1") + $2 - 1) / $2))
    while [ "$piece" -lt "$pieces" ]; do
        dd if="$1" bs="$2" skip="$piece" count=1 2>/dev/null
        sleep 0.005
        piece=$((piece + 1))
    done
}

hex_rows() { # "N ROW"...: prints the row N times, then the next one, a line each
    for rows in "$@"; do
        n=${rows%% *}
        while [ "$n" -gt 0 ]; do echo "${rows#* }"; n=$((n - 1)); done
    done
}
digits() { # "N ROW"...: the pixels of a P1 picture, a row of 122 digits a line
    hex_rows "$@" | awk '{
        line = ""
        for (i = 1; i <= 32; i++) {
            nibble = index("0123456789abcdef", substr($0, i, 1)) - 1
            for (bit = 8; bit >= 1; bit /= 2) line = line int(nibble / bit) % 2
        }
        print substr(line, 1, 122)
    }'
}
packed() { # "N ROW"...: the pixels of a P4 picture
    for row in $(hex_rows "$@"); do
        # shellcheck disable=SC2046,SC2059
        printf "$(printf '\\%03o' $(echo "$row" | sed 's/../ 0x&/g'))"
    done
}

# ---- what is run and wanted ----

run() { # ARGUMENTS...: leaves $status, $work/out and $work/err
    "$show" "$@" >"$work/out" 2>"$work/err"
    status=$?
}
piped() { # ARGUMENTS...: as run, at the end of a pipe, where a variable does not come out: $work/status has the status
    run "$@"
    echo "$status" >"$work/status"
}
on_terminal() { # COLUMNS KEYS ARGUMENTS...: as run, on a terminal; the line ends are a file's
    wide=$1 typed=$2
    shift 2
    "$(dirname "$0")/terminal.py" "$wide" "$typed" "$show" "$@" >"$work/screen" 2>"$work/err"
    status=$?
    sed "s/$(printf '\033')\\[[HJ]//g" "$work/screen" | tr -d '\r' >"$work/out"
}
done_with() { # LABEL STATUS MESSAGE: how the last run ended
    check "$1: status $status" same "$status" "$2"
    check "$1: says '$(cat "$work/err")'" same "$(cat "$work/err")" "$3"
}
printed() { check "$1: prints something else" cmp -s "$work/out" "$2"; } # LABEL FILE
takes() { # LABEL COUNT [AT]: a sparing repaint: the last line of what the last run printed says so; the rest becomes all that it printed
    check "$1: says '$(tail -n 1 "$work/out")'" same "$(tail -n 1 "$work/out")" "the sparing repaint takes $2 of 254 cycles${3:+, $3 of them sent}"
    sed '$d' "$work/out" >"$work/rest"
    mv "$work/rest" "$work/out"
}
refused() { # LABEL STATUS MESSAGE ARGUMENTS...: this message, this status, nothing shown
    name=$1 want=$2 message=$3
    shift 3
    run "$@"
    check "$name: status $status" same "$status" "$want"
    check "$name: says '$(cat "$work/err")'" same "$(cat "$work/err")" "$message"
    check "$name: shows something" [ ! -s "$work/out" ]
}
kept() { # LABEL FILE ARGUMENTS...: the file is named as an output and not written over
    name="over $1" file=$2
    shift 2
    cp "$file" "$work/was"
    refused "$name" 1 "$file: is read or written already, and not written over" "$@"
    check "$name: written over" cmp -s "$file" "$work/was"
}
text_of() { # PBM: the text that show must print for it
    tail -c 512 "$1" | od -An -v -tu1 | awk '
        function lit(x, y) { return int(byte[16 * y + int(x / 8)] / 2 ^ (7 - x % 8)) % 2 }
        function edge(left, right) { for (x = 0; x < 122; x++) left = left "─"; print left right }
        { for (i = 1; i <= NF; i++) byte[n++] = $i }
        END {
            glyph["00"] = " "; glyph["10"] = "▀"; glyph["01"] = "▄"; glyph["11"] = "█"
            edge("┌", "┐")
            for (y = 0; y < 32; y += 2) {
                line = "│"
                for (x = 0; x < 122; x++) line = line glyph[lit(x, y) lit(x, y + 1)]
                print line "│"
            }
            edge("└", "┘")
        }'
}
shown() { # LABEL ARGUMENTS...: accepted without a word, a whole PBM, and a text that agrees with it
    name=$1
    shift
    rm -f "$pbm"
    run "$@" --pbm "$pbm"
    check "$name: status $status, $(cat "$work/err")" same "$status" 0
    check "$name: a message" [ ! -s "$work/err" ]
    check "$name: PBM header" same "$(head -c 10 "$pbm" | od -An -tx1 | tr -d ' \n')" 50340a3132322033320a
    check "$name: PBM length" same "$(wc -c <"$pbm")" $((10 + 16 * 32))
    text_of "$pbm" >"$work/text"
    check "$name: text and PBM differ" cmp -s "$work/text" "$work/out"
}
pixels() { # LABEL "N ROW"...: the last PBM is N rows of these hex bytes, then the next N rows
    name=$1
    shift
    want=$(for rows in "$@"; do repeated "${rows%% *}" "${rows#* }"; done)
    check "$name: PBM bytes" same "$(tail -c +11 "$pbm" | od -An -v -tx1 | tr -d ' \n')" "$want"
}

dark=00000000000000000000000000000000
lit=ffffffffffffffffffffffffffffffc0
left_lit=fffffffffffffff80000000000000000
right_lit=0000000000000007ffffffffffffffc0
first=80000000000000000000000000000000
last=00000000000000000000000000000040
middle=000000000000000c0000000000000000
