#!/bin/sh
# shellcheck disable=SC2086,SC2317,SC2329 # flags are several words, and steps are called by their names
# tests/run.sh: the archives of this machine as C sees them, one named step after the other; ends with 1 if one fails. tests/steps.sh says what it heeds.
set -u
cd "$(dirname "$0")/.." || exit 1
. tests/steps.sh

# build_and_run TEST FLAGS: of the set at hand. Where that is the vehicle, `for_vehicle` says so, and `before` puts its names before the snippet's.
for_vehicle=
before=
build_and_run() {
    build "$1" c c99 "$CC" "$2 $for_vehicle" "tests/$1.c" && run_built "$1"
}

# sees_outside TEST [WORDS]: a test of the bounds sees a byte too many, of the buffer that the words name: it ends with 1, and says so.
sees_outside() {
    run_built "$1" outside ${2-} > "$built/outside" 2>&1
    [ $? -eq 1 ] && grep -q "a byte too many, as asked" "$built/outside"
}

# No table of constants comes back: what is left are the code's own numbers and jump tables, in any one section fewer than a byte for each channel.
few_constants() {
    total=0
    most=0
    for size in $(readelf -SW "$1" | sed -n 's/^ *\[ *[0-9]*\] \.rodata[^ ]* *PROGBITS *[0-9a-f]* [0-9a-f]* \([0-9a-f]*\) .*/\1/p'); do
        total=$((total + 0x$size))
        [ "$((0x$size))" -le "$most" ] || most=$((0x$size))
    done
    echo "${1##*/}: $total bytes, at most 2,048; $most in one section, under 640"
    [ "$total" -gt 0 ] && [ "$total" -le 2048 ] && [ "$most" -lt 640 ]
}

# names ARCHIVE: those that a program can link, of functions and of anything else.
names() {
    readelf -sW "$1" | awk '($5 == "GLOBAL" || $5 == "WEAK") && $7 != "UND" { print $8 }' | sort -u
}

# declared HEADER: the functions that it declares, but not those that it defines.
declared() {
    sed -n 's/^uint[0-9]*_t \(otap_[a-z_]*\)(.*/\1/p' "$1" | sort -u
}

# Each archive has the functions of its header, and no other: firmware does not carry the office's or the desk's. So no name is in two, and any of them link together.
own_functions() {
    : > "$built/all"
    for pair in "$handheld include/otap.h" "$vehicle include/otap_vehicle.h" "$office include/otap_office.h" "$desk include/otap_desk.h"; do
        names "${pair% *}" > "$built/has"
        declared "${pair#* }" > "$built/declares"
        [ -s "$built/declares" ] || return 1
        diff "$built/declares" "$built/has" || return 1
        cat "$built/has" >> "$built/all"
    done
    sort "$built/all" | uniq -d > "$built/twice"
    [ ! -s "$built/twice" ] || { cat "$built/twice"; return 1; }
}

# What firmware has to bring is what README.md says, and no more.
needs_no_more() {
    for file in "$handheld" "$vehicle" "$office" "$desk"; do
        readelf -sW "$file" | awk '$5 == "GLOBAL" && $7 == "UND" && $8 != "" { print $8 }' | sort -u > "$built/needs"
        if grep -vx 'memcpy\|memset' "$built/needs"; then
            echo "${file##*/} needs another name than memcpy and memset"
            return 1
        fi
    done
}

build_and_run_banks() {
    build banks c c99 "$CC" "-O2 $sanitizers" tests/banks_test.c examples/banks.c && run_built banks
}

# sees_wrong_banks PART EDIT: banks.c with the edit is wrong; this part of the test ends with 1, and says what it found.
sees_wrong_banks() {
    sed "$2" examples/banks.c > "$built/wrong.c"
    if cmp -s examples/banks.c "$built/wrong.c"; then
        echo "the edit changes nothing: $2"
        return 1
    fi
    $CC -std=c99 $warnings -Wno-unused -O2 "$built/wrong.c" "$built/banks_test.o" "$archive" -o "$built/wrong" || return 1
    run_built wrong "$1" > "$built/seen" 2>&1
    if [ $? -ne 1 ] || ! grep '^banks: ' "$built/seen"; then
        echo "not seen: $2"
        return 1
    fi
}

# Each line has the part of the test that has to see it, and an edit that makes banks.c wrong. The first has nothing but the order to save it.
banks_can_fail() {
    store='put_bytes(next, BANK_HEAD_BYTES, store, OTAP_STORE_BYTES)' head='put_bytes(next, 0, head, sizeof head)'
    head_first="s/$store/@/;s/$head/$store/;s/@/$head/"
    no_check='s/return ~check/return 0/'
    no_store='s/ && is_store(store)//'
    $CC -std=c99 $warnings -O2 -c tests/banks_test.c -o "$built/banks_test.o" || return 1
    while read -r part edit; do
        sees_wrong_banks "$part" "$edit" || return 1
    done << EDITS
cuts $head_first;$no_check;$no_store
cuts s/next = banks->newest == 0/next = banks->newest == 1/
rest $head_first
rest $no_check
rest $no_store
rest s/(uint8_t)~head/head/
rest s/(uint8_t)(heads.*) < 128/heads[1][1] > heads[0][1]/
rest s/memcmp(head, right, sizeof right)/memcmp(head + 1, right + 1, 7)/
rest s/!is_store(store)/0/
rest s/otap_start(store, OTAP_STORE_BYTES)/(void)store/
rest s/heads\\[first\\]\\[1\\]; /0; /
rest s/banks->newest != NO_BANK/0/
rest /flash_erase(next)/d
rest s/return holds(/return 1 || holds(/
rest /banks->sequence = head/d
EDITS
}

# Every test of C, of the set at hand; but not the banks, an example that keeps a hand-held's store, and whose cuts take a minute.
suites() {
    step "$1: snippet at work" build_and_run snippet_test "$sanitizers $before"
    step "$1: numbers and constants" with "$handheld" build_and_run numbers "$sanitizers" # the conversions are there alone
    step "$1: room and sizes at their edges" build_and_run edges "$sanitizers"
    step "$1: judging and committing" build_and_run judging "$sanitizers"
    step "$1: contacts and slots" build_and_run contacts "$sanitizers"
    step "$1: where texts stand" build_and_run texts "$sanitizers"
    step "$1: who is calling" build_and_run callers "$sanitizers"
    step "$1: behind a row" build_and_run entries "$sanitizers"
    step "$1: reports" build_and_run reports "$sanitizers"
    step "$1: the office's reader" with "$office" build_and_run office "$sanitizers"
    step "$1: reports read back" with "$office" build_and_run read_back "$sanitizers" && show
    step "$1: joining requests" with "$office" build_and_run joining "$sanitizers"
    step "$1: joined requests in a set" with "$office" build_and_run joined "$sanitizers" && show
    step "$1: checking short updates" with "$office" build_and_run updating "$sanitizers"
    step "$1: proposing short updates" with "$office" build_and_run proposing "$sanitizers" && show
    step "$1: bounds of the lent bytes" build_and_run bounds -O1 && show
    step "$1: bounds can fail" sees_outside bounds
    step "$1: bounds of the office's calls" with "$office" build_and_run office_bounds -O1 && show
    step "$1: its bounds can fail" sees_outside office_bounds
    for lent in first second buffer; do
        step "$1: its bounds can fail, of joining the $lent" sees_outside office_bounds $lent
    done
    for lent in "check from" "check to" "check request" "propose from" "propose to" "propose buffer"; do
        step "$1: its bounds can fail, of updating: $lent" sees_outside office_bounds "$lent"
    done
    step "$1: stack" with "$handheld" build_and_run stack -O1 && show
    step "$1: stack of the office's calls" with "$office" build_and_run office_stack -O1 && show
}

# The desk emulator, of which there is one: by itself, and beside a hand-held.
of_the_desk() {
    step "desk: by hand" with "$desk" build_and_run desk "$sanitizers"
    step "desk: beside a hand-held" with "$desk" build_and_run desk_rows "-O2 $sanitizers" && show
    step "desk: bounds of the lent bytes" with "$desk" build_and_run desk_bounds -O1 && show
    for lent in message area reply scratch; do
        step "desk: bounds can fail, of the $lent" sees_outside desk_bounds $lent
    done
    step "desk: stack" with "$desk" build_and_run desk_stack -O1 && show
}

need_archive
step "two banks, cut at every byte" build_and_run_banks && show
step "banks can fail" banks_can_fail && show
suites hand-held
archive=$vehicle for_vehicle=-DVEHICLE before="-include tests/set.h"
suites vehicle
archive=$handheld for_vehicle='' before=''
of_the_desk
step "two sets in one program" with "$vehicle" build_and_run two_sets "$sanitizers"
for file in "$handheld" "$vehicle" "$office" "$desk"; do
    step "constants of ${file##*/}" few_constants "$file" && show
done
step "what each archive has" own_functions
[ -z "$emulator" ] || exit $failed
step "what each archive needs" needs_no_more
for module in handheld vehicle office desk; do
    [ ! -f target/archive/wasm32/otap_$module.wasm ] || continue
    echo "left out  wasm32: ./archive wasm32 was not run"
    exit $failed
done
if ! command -v node > /dev/null; then
    echo "left out  wasm32: node is not here"
else
    step "wasm32 in node" node tests/wasm.mjs && show
fi
exit $failed
