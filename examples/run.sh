#!/bin/sh
# shellcheck disable=SC2086,SC2317,SC2329 # flags are several words, and steps are called by their names
# examples/run.sh: the C headers in each language, and the examples with this machine's archives; ends with 1 if a step fails.
# tests/steps.sh says what it heeds.
set -u
cd "$(dirname "$0")/.." || exit 1
. tests/steps.sh

# What a header itself says, seen alone: no warning in any of these languages. The others take no harm from otap.h, before it or behind it.
header_as() {
    language=$1 standard=$2 compiler=$3
    shift 3
    printf '#include "%s.h"\n' "$@" | $compiler -std="$standard" $warnings -fsyntax-only -x "$language" -
}

# build_and_print EXAMPLE LANGUAGE STANDARD COMPILER FLAGS: what it prints is what is stored.
build_and_print() {
    example=$1
    shift
    build "$example" "$@" "examples/$example.c" && run_built "$example" > "$built/printed" && diff "examples/$example.out" "$built/printed"
}

# README.md quotes examples/snippet.c: the ```c block after the marker line is the file, byte for byte.
snippet_quoted() {
    awk '/^<!-- examples\/snippet.c -->$/ { here = 1; next }
         here == 1 && /^```c$/ { here = 2; next }
         here == 2 && /^```$/ { exit }
         here == 2 { print }' README.md > "$built/quoted"
    diff examples/snippet.c "$built/quoted"
}

for standard in c99 c11; do
    step "header as $standard" header_as c $standard "$CC" otap
    step "vehicle's header as $standard" header_as c $standard "$CC" otap_vehicle
    step "office's header as $standard" header_as c $standard "$CC" otap_office
    step "desk's header as $standard" header_as c $standard "$CC" otap_desk
    step "all headers as $standard" header_as c $standard "$CC" otap otap_office otap_vehicle otap_desk otap
done
for standard in c++98 c++11 c++17; do
    step "header as $standard" header_as c++ $standard "$CXX" otap
    step "vehicle's header as $standard" header_as c++ $standard "$CXX" otap_vehicle otap
    step "office's header as $standard" header_as c++ $standard "$CXX" otap_office otap
    step "desk's header as $standard" header_as c++ $standard "$CXX" otap_desk otap
done
step "snippet as C" $CC -std=c99 $warnings -c examples/snippet.c -o "$built/snippet.o"
step "snippet as C++" $CXX -x c++ -std=c++98 $warnings -c examples/snippet.c -o "$built/snippet.o"
step "banks as C++" $CXX -x c++ -std=c++98 $warnings -c examples/banks.c -o "$built/banks.o"
step "snippet in README.md" snippet_quoted
need_archive
step "firmware as C" build_and_print firmware c c99 "$CC" "$sanitizers"
step "firmware as C++" build_and_print firmware c++ c++11 "$CXX" "$sanitizers"
step "two sets as C" with "$vehicle" build_and_print two_sets c c99 "$CC" "$sanitizers"
step "two sets as C++" with "$vehicle" build_and_print two_sets c++ c++11 "$CXX" "$sanitizers"
step "office as C" with "$office" build_and_print office c c99 "$CC" "$sanitizers"
step "office as C++" with "$office" build_and_print office c++ c++11 "$CXX" "$sanitizers"
step "desk as C" with "$desk" build_and_print desk c c99 "$CC" "$sanitizers"
step "desk as C++" with "$desk" build_and_print desk c++ c++11 "$CXX" "$sanitizers"
step "PTT with two tasks" build_and_print ptt c c99 "$CC" "-pthread $sanitizers"
exit $failed
