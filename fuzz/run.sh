#!/bin/sh
# shellcheck disable=SC2086,SC2317,SC2329 # flags are several words, and engines are called by their names
# fuzz/run.sh [SECONDS]: fuzzes the C functions of each set and of the desk for as long (60), with libFuzzer, else AFL++, else a driver of our own, and says which.
# Ends with 1 on a finding, or if a check cannot fail.
# FUZZ_WITH=libfuzzer, afl or driver asks for one; FUZZ_SEED (1) is the driver's and libFuzzer's seed; FUZZ_RUNS=N makes so many executions of each, however
# long that takes; FUZZ_SETS="hand-held vehicle desk" says of which. Findings are kept in target/fuzz/.
# It links the archives of $OTAP_ARCHIVE_DIR, or of this machine's target/archive/TARGET, which ./archive writes.
set -u
cd "$(dirname "$0")/.." || exit 1
seconds=${1:-60}
seed=${FUZZ_SEED:-1}
runs=${FUZZ_RUNS:-}
for_long="$seconds seconds" libfuzzer_most="-max_total_time=$seconds" afl_most="-V $seconds" driver_most=$seconds
[ -z "$runs" ] || { for_long="$runs executions" libfuzzer_most="-runs=$runs" afl_most="-E $runs" driver_most=${runs}x; }
folder=${OTAP_ARCHIVE_DIR:-target/archive/$(uname -m)-linux}
sanitizers="-fsanitize=address,undefined -fno-sanitize-recover=all"
calls="judge commit export row_number row_part counts line_of entry entry_digits channel emergency_key home_numbers system_code report read_report join check_update propose"
plain_calls="start take row_number row_part"
CC=${CC:-gcc}
# There are many short-lived buffers: a large quarantine only slows it down.
export ASAN_OPTIONS=quarantine_size_mb=1

archives="$folder/libotap_handheld.a $folder/libotap_vehicle.a $folder/libotap_office.a $folder/libotap_desk.a"
for archive in $archives; do
    [ -f "$archive" ] && continue
    echo "FAILED  no $archive: ./archive writes it"
    exit 1
done

# of SET: its sources, the flags of their build, its wrong libraries by their numbers, and how they come before its calls and before the other set's.
of() {
    [ "$1" != desk ] || { of_desk && return; }
    sources="fuzz/target.c fuzz/fitting.c" wrong_sources="fuzz/wrong.c fuzz/wrong_other.c" found_on="$seeds/*"
    flags="-std=c11 -Wall -Wextra -Iinclude -Itests -g -O1" prefix=otap_ other=otap_vehicle_ wrongs="$(seq 101) $(seq 105 114) $(seq 116 128)"
    [ "$1" = hand-held ] || { flags="$flags -DVEHICLE" prefix=otap_vehicle_ other=otap_ wrongs="$(seq 107) $(seq 115 128)"; }
    wrapped="-Wl,--wrap=otap_report_entry -Wl,--wrap=otap_report_places -Wl,--wrap=${other}commit" named=
    for call in $calls; do
        wrapped="$wrapped -Wl,--wrap=$prefix$call"
        named="$named -D__wrap_otap_$call=__wrap_$prefix$call -D__real_otap_$call=__real_$prefix$call"
    done
}

# The desk is a hand-held's, which is beside it. It is slow, so that its own seeds have to do for its wrong libraries.
of_desk() {
    found_on="$seeds/desk*" sources=fuzz/desk.c wrong_sources=fuzz/wrong_desk.c flags="-std=c11 -Wall -Wextra -Iinclude -Itests -g -O1" wrongs=$(seq 32) wrapped='' named=''
    for call in $plain_calls; do
        wrapped="$wrapped -Wl,--wrap=otap_plain_$call"
    done
}

work=$(mktemp -d) || exit 1
trap 'rm -rf "$work"' EXIT
mkdir -p target/fuzz "$work/new"
found=$(pwd)/target/fuzz
seeds=$(pwd)/fuzz/corpus

# object SOURCE FLAGS: compiled, where all that is linked stands.
object() {
    name=${1##*/}
    $CC $2 -c "$1" -o "$work/${name%.c}.o"
}

# Every wrong library of the wrong sources has to be found on the seeds alone; number 0 is the right one and has to pass.
checks_can_fail() {
    rm -f "$work"/*.o
    for source in $sources fuzz/driver.c; do
        object "$source" "$flags $sanitizers" || return 1
    done
    for wrong in 0 $wrongs; do
        for source in $wrong_sources; do
            # The other set's calls have their own names.
            case $source in *wrong_other.c) renamed='' ;; *) renamed=$named ;; esac
            object "$source" "$flags $renamed -DWRONG=$wrong" || return 1
        done
        $CC $sanitizers "$work"/*.o $archives $wrapped -o "$work/wrong" || return 1
        (cd "$work" && ./wrong 0 1 $found_on) > "$work/log" 2>&1
        ended=$?
        if [ $((ended == 0)) -ne $((wrong == 0)) ]; then
            [ $wrong -eq 0 ] && echo "FAILED  on the seeds" || echo "FAILED  the checks do not find wrong library $wrong"
            cat "$work/log"
            return 1
        fi
    done
    echo "ok      $1: the checks find each of $(echo $wrongs | wc -w) wrong libraries"
}

with_libfuzzer() {
    clang $flags -fsanitize=fuzzer $sanitizers $sources $archives -o "$work/target" 2> "$work/log" || return 2
    echo "with libFuzzer, $for_long"
    "$work/target" $libfuzzer_most -seed="$seed" -max_len=4096 -len_control=10 -print_final_stats=1 \
        -artifact_prefix="$found/" "$work/new" "$seeds" > "$work/log" 2>&1
    ended=$?
    grep -E 'INITED|DONE|NOT KEPT|ERROR|SUMMARY|^stat::(number|average|new|peak)' "$work/log"
    return $((ended != 0))
}

with_afl() {
    command -v afl-fuzz > /dev/null && command -v afl-clang-fast > /dev/null || return 2
    AFL_USE_ASAN=1 afl-clang-fast $flags -fsanitize=fuzzer $sources $archives -o "$work/target" > "$work/log" 2>&1 || return 2
    echo "with AFL++, $for_long"
    AFL_SKIP_CPUFREQ=1 AFL_I_DONT_CARE_ABOUT_MISSING_CRASHES=1 AFL_NO_UI=1 \
        afl-fuzz $afl_most -m none -i "$seeds" -o "$work/afl" -- "$work/target" > "$work/log" 2>&1 || { tail -5 "$work/log"; return 1; }
    grep -E 'execs_done|saved_crashes|saved_hangs' "$work/afl/default/fuzzer_stats"
    crashes=$(find "$work/afl/default/crashes" -name 'id*')
    [ -z "$crashes" ] || { cp "$work"/afl/default/crashes/id* "$found/"; return 1; }
}

with_driver() {
    $CC $flags $sanitizers $sources fuzz/driver.c $archives -o "$work/driver" || return 1
    echo "with the driver of our own, $for_long; for libFuzzer install clang and its runtime (Debian: clang libclang-rt-14-dev)"
    (cd "$work" && ./driver "$driver_most" "$seed" "$seeds"/*) || { cp "$work/last-input" "$found/"; return 1; }
}

for each in ${FUZZ_SETS:-hand-held vehicle desk}; do
    of "$each"
    checks_can_fail "$each" || exit 1
    ended=2
    for engine in ${FUZZ_WITH:-libfuzzer afl driver}; do
        "with_$engine"
        ended=$?
        [ $ended -eq 2 ] || break
    done
    case $ended in
        0) echo "ok      $each: no finding" ;;
        2) echo "FAILED  $FUZZ_WITH is not here" ;;
        *) echo "FAILED  $each: a finding; inputs are in target/fuzz/" ;;
    esac
    [ $ended -eq 0 ] || exit 1
done
