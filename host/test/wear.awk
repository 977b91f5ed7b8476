# Counts how often each RAM cell is stored to, by the papers' rules alone. It reads a record a line, as four decimal bytes, and goes no further than
# one that is refused or cut; state is empty for fresh chips, or the 24 bytes of both. It prints the program wear's lines: "wear CHIP PAGE" with 80
# counts, and "sum S".

# Gives whether a command is accepted.
function command(chip, byte) {
    if (byte < 80) {
        if (modify[chip]) return 0
        column[chip] = byte
    } else if (byte >= 184 && byte <= 187) {
        page[chip] = byte - 184
    } else if (byte == 224) {
        if (!modify[chip]) saved[chip] = column[chip]
        modify[chip] = 1
    } else if (byte == 238) {
        if (modify[chip]) column[chip] = saved[chip]
        modify[chip] = 0
    } else if (byte == 226) {
        page[chip] = column[chip] = 0
    } else {
        return byte >= 192 && byte <= 223 || byte ~ /^(160|161|164|165|168|169|174|175)$/
    }
    return 1
}

BEGIN {
    split(state, bytes)
    for (chip = 0; chip < 2; chip++) {
        modify[chip] = bytes[12 * chip + 5] + 0
        page[chip] = bytes[12 * chip + 6] + 0
        column[chip] = bytes[12 * chip + 8] + 0
        saved[chip] = bytes[12 * chip + 9] + 0
    }
}

NF < 4 || $1 < 2 || $1 > 5 || $2 > 1 || $4 != 0 { exit }
$1 == 2 && !command($2, $3) { exit }
$1 == 3 && column[$2] < 80 { count[$2, page[$2], column[$2]++]++; sum++ }
$1 == 5 && column[$2] < 80 && !modify[$2] { column[$2]++ }

END {
    for (chip = 0; chip < 2; chip++)
        for (p = 0; p < 4; p++) {
            line = "wear " chip " " p
            for (c = 0; c < 80; c++) line = line " " count[chip, p, c] + 0
            print line
        }
    print "sum " sum + 0
}
