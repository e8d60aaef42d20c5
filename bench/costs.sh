#!/bin/sh
# costs.sh: the table of docs/COSTS.md, from one run of `bench` and one of count.sh; about five minutes.
# TIMES and COUNTS name outputs of earlier runs, to be used instead.
here=$(cd "$(dirname "$0")" && pwd)
work=$(mktemp -d) || exit 1
trap 'rm -rf "$work"' EXIT
[ -n "$COUNTS" ] || { "$here/count.sh" >"$work/counts" && COUNTS=$work/counts; } || exit 1
[ -n "$TIMES" ] || { (cd "$here" && cargo run --release --quiet) >"$work/times" && TIMES=$work/times; } || exit 1
echo "| call | message bytes | ns | to plain | to checked | instructions | plain | checked |"
echo "|---|---|---|---|---|---|---|---|"
awk -F' *[|] *' '
    $2 == "call" || $2 ~ /^-/ { next }
    FNR == NR { if (NF == 8) counts[$2] = $3 " | " $4 " | " $5; next }
    NF == 9 { print "| " $2 " | " $3 " | " $4 " | " $7 " | " $8 " | " counts[$2] " |" }
' "$COUNTS" "$TIMES"
