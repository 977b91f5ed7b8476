#!/bin/sh
# Request C-18 on the proved programs, from fresh chips: of a trace and of its reorderings that keep each chip's own order, wear prints the same
# text, and replay the same answers by chip and the same end line. Of some that break a chip's order they print others, so that this can fail.
# Usage: orders.sh REPLAY WEAR ORDERS WORK, ORDERS the program that writes the traces, WORK a folder to work in.
set -u
. "$(dirname "$0")/checks.sh"
replay=$1 wear=$2 orders=$3 work=$4
mkdir -p "$work" && rm -f "$work"/*.trace || exit 1
"$orders" --write "$work" || exit 1

# TRACE NAME: writes NAME.wear, wear's text; NAME.counts, that without the end line; NAME.end, replay's end line; NAME.answers, the left chip's
# answers and then the right chip's
take() {
    "$wear" <"$1" >"$work/$2.wear"
    sed '$d' "$work/$2.wear" >"$work/$2.counts"
    "$replay" <"$1" >"$work/$2.replay"
    grep '^end' "$work/$2.replay" >"$work/$2.end"
    od -An -v -w4 -tu1 "$1" |
        awk '!answers { chip[FNR - 1] = $2 } answers && $1 != "end" { print chip[$1], $2, $3 }' - answers=1 "$work/$2.replay" |
        sort -s -n -k 1,1 >"$work/$2.answers"
}
other() { ! cmp -s "$work/trace.$1" "$work/other.$1"; } # KIND: whether the two differ in it

traces=0 reordered=0 compared=0 differing=0 stored=0
broken=0 broken_wear=0 broken_end=0 broken_answers=0
for trace in "$work"/*[0-9].trace; do
    traces=$((traces + 1)) orders_of=0
    take "$trace" trace
    # shellcheck disable=SC2046
    set -- $(cat "$work/trace.end")
    [ "$#" -eq 5 ] || { echo "orders: FAILED: $trace: the end line is '$*'"; exit 1; }
    check "$trace: the end line is '$*'" same "$1 $2 $3" "end 0 $(($(wc -c <"$trace") / 4))"
    check "$trace: not one answer for each record" same "$(wc -l <"$work/trace.answers")" "$3"
    check "$trace: wear has another end line" same "$(tail -n 1 "$work/trace.wear")" "$*"
    compared=$((compared + $4)) differing=$((differing + $5)) stored=$((stored + $(sed -n 's/^sum //p' "$work/trace.wear")))
    for order in "${trace%.trace}"-*.trace; do
        take "$order" other
        case $order in
        *-broken.trace)
            broken=$((broken + 1))
            ! other counts || broken_wear=$((broken_wear + 1))
            ! other end || broken_end=$((broken_end + 1))
            ! other answers || broken_answers=$((broken_answers + 1))
            ;;
        *)
            orders_of=$((orders_of + 1))
            for kind in wear end answers; do check "$order: other $kind" cmp -s "$work/trace.$kind" "$work/other.$kind"; done
            ;;
        esac
    done
    check "$trace: $orders_of reorderings, not 6" same "$orders_of" 6
    reordered=$((reordered + orders_of))
done
for times in "$traces traces" "$((compared - differing)) reads that agree" "$differing reads that differ" "$stored stores" \
    "$broken_wear broken orders with other wear" "$broken_end with another end" "$broken_answers with other answers"; do
    check "$times" test "${times%% *}" -gt 0
done
echo "orders: the programs on $traces traces, $reordered reorderings; $stored stores, $compared reads compared, $differing differing;" \
    "of $broken broken orders $broken_wear have other wear, $broken_answers other answers, $broken_end another end;" \
    "$checks checks, $failed failed"
[ "$failed" -eq 0 ]
