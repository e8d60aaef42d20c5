#!/bin/sh
# count.sh [NAME ...]: instructions of one call on each side of `bench`, by callgrind; every call of `bench list` without names.
# Behind the table, where the calls that they need were counted: a small request beside the check of its store and two copies, and the check by the byte.
here=$(cd "$(dirname "$0")" && pwd)
command -v valgrind >/dev/null || { echo "valgrind is not here: instructions are not counted"; exit 0; }
cargo build --release --quiet --manifest-path "$here/Cargo.toml" || exit 1
bench=$here/target/release/bench
work=$(mktemp -d) || exit 1
trap 'rm -rf "$work"' EXIT
CALLS=20

# per_call NAME SIDE: instructions of the repeated call alone, so that making ready is not counted.
per_call() {
    all=$(valgrind --tool=callgrind --callgrind-out-file=/dev/null --toggle-collect='bench::program::repeat*' "$bench" one "$1" "$2" $CALLS 2>&1 |
        sed -n 's/.*Collected : *//p')
    echo $((all / CALLS))
}

echo "| call | Rattle | plain | checked | to plain | to checked |"
echo "|---|---|---|---|---|---|"
names=${*:-$("$bench" list)}
for name in $names; do
    rattle=$(per_call "$name" rattle) plain=$(per_call "$name" plain) checked=$(per_call "$name" checked)
    awk -v n="$name" -v r="$rattle" -v p="$plain" -v c="$checked" \
        'BEGIN { printf "| %s | %d | %d | %d | %.2f | %.2f |\n", n, r, p, c, p ? r / p : 0, c ? r / c : 0 }'
done | tee "$work/counts"

awk -F' *[|] *' '
    { rattle[$2] = $3; checked[$2] = $5; order[++n] = $2 }
    END {
        for (place = 1; place <= 2; place++) {
            set = place == 1 ? "" : "vehicle-"
            least = rattle[set "check-and-copies"]
            if (least) for (row = 1; row <= n; row++) {
                name = order[row]
                if (name ~ "^" set "(judge|commit)-small") lines = lines sprintf("| %s | %d | %d | %.2f |\n", name, rattle[name], least, rattle[name] / least)
            }
        }
        if (lines) printf "\nOne small setting, to the check of the store and two copies of it; the goal is at most 1.5.\n\n| call | instructions | check and copies | ratio |\n|---|---|---|---|\n%s", lines
        lines = ""
        size["counts"] = 24576; size["vehicle-counts"] = 49152
        for (place = 1; place <= 2; place++) {
            name = place == 1 ? "counts" : "vehicle-counts"
            if (name in rattle) lines = lines sprintf("| %s | %.2f | %.2f |\n", name, rattle[name] / size[name], checked[name] / size[name])
        }
        if (lines) printf "\nInstructions a byte of the store; the goal is at most 1.6.\n\n| call | Rattle | plain |\n|---|---|---|\n%s", lines
    }
' "$work/counts"
