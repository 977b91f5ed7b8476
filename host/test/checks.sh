# What the tests in shell count with; they read it with `.`.
# shellcheck shell=sh
checks=0 failed=0

check() { # LABEL COMMAND...: the command must succeed
    label=$1
    shift
    checks=$((checks + 1))
    "$@" || { failed=$((failed + 1)); echo "$(basename "$0" .sh): FAILED: $label"; }
}
same() { [ "$1" = "$2" ]; }
