#!/bin/sh
# Runs a `why` binary on every case and compares what it prints, byte for byte, and its exit status.
# usage: run_cases.sh PATH-OF-WHY
# The last line is "N passed, M failed"; the exit status is 1 if any failed, or if there are no cases.

if [ $# -ne 1 ]; then
    echo "usage: $0 PATH-OF-WHY" >&2
    exit 2
fi
case $1 in
    */*) why=$1 ;;
    *) why=./$1 ;;
esac
if [ ! -x "$why" ]; then
    echo "$0: $why is no program" >&2
    exit 2
fi
cases=$(dirname "$0")/../cases
printed=$(mktemp) || exit 2
trap 'rm -f "$printed"' EXIT
trap 'exit 2' HUP INT TERM

passed=0
failed=0
for file in "$cases"/*.case "$cases"/refusals/*.case; do
    [ -f "$file" ] || continue
    expected=${file%.case}.verdict
    if ! read -r line <"$expected"; then
        echo "$file: no $expected"
        failed=$((failed + 1))
        continue
    fi
    case $line in
        verdict=*) wanted=0 ;;
        *) wanted=1 ;;
    esac
    "$why" <"$file" >"$printed" 2>/dev/null
    status=$?
    if [ "$status" -eq "$wanted" ] && cmp -s "$expected" "$printed"; then
        passed=$((passed + 1))
    else
        failed=$((failed + 1))
        echo "$file: expected '$line' and status $wanted, got '$(tr -d '\000' <"$printed" | head -c 200)' and status $status"
    fi
done
echo "$passed passed, $failed failed"
[ "$failed" -eq 0 ] && [ "$passed" -gt 0 ]
