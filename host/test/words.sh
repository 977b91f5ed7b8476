#!/bin/sh
# The words for a number: what pedralume_words gives, and that those who say them on their own say the same: the script that gives replay's and wear's
# status, and the decoder for sigrok where there is one. Usage: words.sh, from any folder.
set -u
. "$(dirname "$0")/checks.sh"
cd "$(dirname "$0")/.." || exit 1
work=$(mktemp -d) || exit 1
trap 'rm -rf "$work"' EXIT
script=replay.sh decoder=../sigrok/sed1520/pd.py

cat >"$work/words.c" <<'END'
#include "pedralume.h"
#include <stdio.h>
int main(void)
{
    for (unsigned number = 0; number <= 256; number++)
        printf("%u %s\n", number, pedralume_words(number));
    printf("%u %s\n", 0xFFFFFFFFu, pedralume_words(0xFFFFFFFFu));
    return 0;
}
END
"${CC:-gcc}" -std=c99 -Wall -Wextra -Wpedantic -Werror -Iinclude -o "$work/words" "$work/words.c" || exit 1
"$work/words" >"$work/said" || exit 1
words() { sed -n "s/^$1 //p" "$work/said"; } # NUMBER

# ---- pedralume_words ----

while read -r number text; do check "$number is '$(words "$number")'" same "$(words "$number")" "$text"; done <<'END'
0 done
1 a buffer of a wrong length
2 a chip record, or the rest of a feed record, with a field out of its range
3 a trace that ends inside a record
4 spare line bits or the fourth byte not 0
5 a chip over 1
6 RD and WR equal
7 a byte that is no command
8 a column set while read-modify-write is on
9 display off or static drive on
10 duty 1/32
11 a start line neither 0 nor 16
12 read-modify-write on
13 over 4,294,967,295 records
14 a column set over 79 (4F hex), the last column of RAM
15 an entries buffer too short for the list
END
check "the numbers over 15 have other words" same "$(sed '1,16d; s/^[0-9]* //' "$work/said" | sort -u)" "a number that this version does not know"
check "not 258 lines" same "$(wc -l <"$work/said")" 258

# ---- those who say them too ----

sed -n 's/^\([0-9]*\)) why="\([^"]*\)".* ;;$/\1 \2/p' "$script" >"$work/scripts"
check "$script: says other numbers than 3 to 8 and 14" same "$(cut -d ' ' -f 1 "$work/scripts" | paste -sd ' ')" "3 4 5 6 7 8 14"
while read -r number text; do check "$script: $number is '$text'" same "$text" "$(words "$number")"; done <"$work/scripts"
if [ -f "$decoder" ]; then
    for number in 6 7 8 14; do check "$decoder: has not the words for $number" grep -qF "$(words "$number")" "$decoder"; done
else
    echo "words: $decoder: there is none, so it was not looked at"
fi

echo "words: $checks checks, $failed failed"
[ "$failed" -eq 0 ]
