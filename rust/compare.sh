#!/bin/sh
# compare.sh FIRST LAST COUNT: runs the programs `take`, `put` and `office` and the reference on the same records, `office` on those of reports.
# SWEEP=1 adds every one-byte change of small messages, CUTS=BASE adds cut inputs.
FIRST=${1:-1} LAST=${2:-200} COUNT=${3:-200}
here=$(cd "$(dirname "$0")" && pwd)
bin=$here/target/release
(cd "$here" && cargo build --release --quiet --package otap-reference) || exit 1
for program in take put office; do
    "$here/../run" $program </dev/null >/dev/null || exit 1
done
export BUILT=1
work=$(mktemp -d) || exit 1
trap 'rm -rf "$work"' EXIT
bad=0

# differs NAME WANTED GIVEN: keeps the input, and shows where two outputs part.
differs() {
    bad=$((bad + 1))
    cp "$work/in" "$here/differs-$1.rec"
    echo "differs: $1"
    diff -a "$2" "$3" | head -5
}

# check NAME: compares `take` and `put` on $work/in.
check() {
    "$bin/expect" <"$work/in" >"$work/expected" || exit 1
    "$bin/expect_put" <"$work/in" >"$work/expected_put" || exit 1
    "$here/../run" take <"$work/in" >"$work/taken"
    "$here/../run" put <"$work/in" >"$work/put"
    cat "$work/expected" >>"$work/all"
    if ! cmp -s "$work/expected" "$work/taken" || ! cmp -s "$work/expected_put" "$work/put"; then
        differs "$1" "$work/expected" "$work/taken"
    fi
}

# check_office NAME: compares `office` on $work/in.
check_office() {
    "$bin/office" <"$work/in" >"$work/expected" || exit 1
    "$here/../run" office <"$work/in" >"$work/shown"
    cat "$work/expected" >>"$work/reports"
    cmp -s "$work/expected" "$work/shown" || differs "$1" "$work/expected" "$work/shown"
}

seed=$FIRST
while [ "$seed" -le "$LAST" ]; do
    "$bin/records" "$seed" "$COUNT" >"$work/in" || exit 1
    check "seed-$seed"
    "$bin/records" reports "$seed" "$COUNT" >"$work/in" || exit 1
    check_office "reports-$seed"
    seed=$((seed + 1))
done
if [ -n "$SWEEP" ]; then
    base=0
    while "$bin/sweep" $base >"$work/in" 2>/dev/null; do
        check "sweep-$base"
        base=$((base + 1))
    done
fi
if [ -n "$CUTS" ]; then
    # Small records, cut after each of the first 400 bytes; those of reports are longer, and cut at 400 places.
    "$bin/records" reports "$CUTS" 9 >"$work/whole" || exit 1
    size=$(wc -c <"$work/whole")
    length=0
    while [ $length -le 400 ]; do
        "$bin/sweep" "$CUTS" | head -c $length >"$work/in"
        check "cut-$CUTS-$length"
        head -c $((size * length / 400)) "$work/whole" >"$work/in"
        check_office "cut-reports-$CUTS-$length"
        length=$((length + 1))
    done
fi
echo "numbers and how often they came:"
awk '{ count[$2]++ } END { for (n in count) print n, count[n] }' "$work/all" | sort -n
echo "of reports:"
awk '$1 == "refused" { count[$2]++ } $1 == "message" { count[0]++ } END { for (n in count) print n, count[n] }' "$work/reports" | sort -n
echo "$(cat "$work/all" "$work/reports" | wc -l) lines compared, $bad inputs differ"
[ $bad -eq 0 ]
