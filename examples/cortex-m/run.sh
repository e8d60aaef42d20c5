#!/bin/sh
# shellcheck disable=SC2086,SC2317,SC2329 # flags are several words, and steps are called by their names
# examples/cortex-m/run.sh [count]: the Cortex-M archives on QEMU's boards under semihosting: what firmware.c prints, the tests of C, and how deep
# each call goes into a painted stack. With `count`: the instructions of each call on a Cortex-M4 instead. Debian: gcc-arm-none-eabi
# libnewlib-arm-none-eabi qemu-system-arm; where one is missing it says so and leaves this out.
set -u
cd "$(dirname "$0")/../.." || exit 1
. tests/steps.sh
CC=arm-none-eabi-gcc
warnings="-Wall -Wextra -Wpedantic -Wshadow -Werror -Iinclude -Iexamples -Itests"

for tool in $CC qemu-system-arm; do
    command -v $tool > /dev/null && continue
    echo "left out  Cortex-M: $tool is not here"
    exit 0
done
if ! echo 'int main(void) { return 0; }' | $CC -mcpu=cortex-m4 -mthumb --specs=rdimon.specs -x c - -o "$built/probe" 2> /dev/null; then
    echo "left out  Cortex-M: newlib (libnewlib-arm-none-eabi) is not here"
    exit 0
fi

# on TARGET: its cpu flags, QEMU's board, and where that has code and memory to write.
on() {
    target=$1 board=mps2-an386 memory="-Wl,--defsym=code=0 -Wl,--defsym=ram=0x20000000"
    case $target in
        cortex-m4) cpu=-mcpu=cortex-m4 ;;
        cortex-m4f) cpu="-mcpu=cortex-m4 -mfloat-abi=hard -mfpu=fpv4-sp-d16" ;;
        cortex-m33) cpu=-mcpu=cortex-m33+nofp ;;
        cortex-m33f) cpu="-mcpu=cortex-m33 -mfloat-abi=hard" ;;
    esac
    case $target in cortex-m33*) board=mps2-an505 memory="-Wl,--defsym=code=0x10000000 -Wl,--defsym=ram=0x38000000" ;; esac
    archive=${OTAP_ARCHIVE_DIR:-target/archive/$target}/libotap_handheld.a
    vehicle=${OTAP_ARCHIVE_DIR:-target/archive/$target}/libotap_vehicle.a
    for file in "$archive" "$vehicle"; do
        [ -f "$file" ] && continue
        echo "FAILED  no $file: ./archive $target writes it"
        exit 1
    done
}

# bare FLAGS SOURCE: the program for the target at hand, and its run.
bare() {
    $CC $cpu -mthumb -O2 -std=c99 $warnings $1 --specs=rdimon.specs -nostartfiles -Wl,-z,noexecstack $memory -T examples/cortex-m/link.ld \
        examples/cortex-m/start.c "$2" "$archive" $beside -o "$built/bare" && board
}

board() {
    timeout 600 qemu-system-arm -M $board $icount -nographic -monitor none -serial none \
        -semihosting-config enable=on,target=native -kernel "$built/bare" < /dev/null
}

prints() {
    bare "" examples/firmware.c > "$built/printed" && diff examples/firmware.out "$built/printed"
}

# The test of the bounds sees a byte too many: it ends with 1, and says so.
sees_outside() {
    bare '-DWORD="outside"' tests/bounds.c > "$built/outside" 2>&1
    [ $? -eq 1 ] && grep -q "a byte too many, as asked" "$built/outside"
}

icount=
if [ "${1:-}" = count ]; then
    icount="-icount shift=0"
    on cortex-m4
    bare "" examples/cortex-m/count.c
    exit
fi
for each in cortex-m4 cortex-m4f cortex-m33 cortex-m33f; do
    on $each
    step "$each: firmware" prints
    step "$each: numbers and constants" bare "" tests/numbers.c
    step "$each: judging and committing" bare "" tests/judging.c
    step "$each: contacts and slots" bare "" tests/contacts.c
    step "$each: where texts stand" bare "" tests/texts.c
    step "$each: who is calling" bare "" tests/callers.c
    step "$each: behind a row" bare "" tests/entries.c
    step "$each: reports" bare "" tests/reports.c
    step "$each: room and sizes at their edges" bare "" tests/edges.c
    step "$each: the same of a vehicle" with "$vehicle" bare -DVEHICLE tests/edges.c
    step "$each: two sets in one program" with "$vehicle" bare "" tests/two_sets.c
done
for each in cortex-m4 cortex-m33; do
    on $each
    step "$each: bounds, by guard bytes" bare "" tests/bounds.c && show
    step "$each: bounds can fail" sees_outside
    step "$each: stack" bare "" tests/stack.c && show
    step "$each: stack of a vehicle's calls" with "$vehicle" bare -DVEHICLE tests/stack.c && show
done
exit $failed
