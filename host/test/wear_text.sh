#!/bin/sh
# Prints what the program wear must print for the trace on standard input: the counts, by the papers' rules (wear.awk) or where SHOW is given by
# SHOW --wear, and the end line, by the plain implementation's listing program. Usage: wear_text.sh LISTING WORK [SHOW].
set -u
listing=$1 work=$2 show=${3-}
tests=$(dirname "$0")
. "$tests/wears.sh"
cat >"$work/wear.trace"
end=$("$listing" <"$work/wear.trace" | tail -n 1)
case $end in
"end "[123]" "*) ;; # such a trace has the end line alone
*)
    if [ -z "$show" ]; then
        count "$work/wear.trace"
    else
        "$show" "$work/wear.trace" --wear --pgm "$work/wear.pgm" >"$work/drawn" 2>"$work/said"
        grey "$work/wear.pgm" | sed '$d'
        sed -n '$s/;.*//p' "$work/drawn"
    fi
    ;;
esac
echo "$end"
