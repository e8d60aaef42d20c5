# shellcheck shell=sh disable=SC2086,SC2034,SC2329 # flags are several words; the scripts that read this use what it sets
# What examples/run.sh and tests/run.sh share, from the repository's root: the archives and compilers of the target, and named steps.
# OTAP_TARGET names another Linux of ./archive than this machine's; OTAP_ARCHIVE_DIR another folder of the archives; CC and CXX the compilers.
machine=$(uname -m)-linux
target=${OTAP_TARGET:-$machine}
archives=${OTAP_ARCHIVE_DIR:-target/archive/$target}
handheld=$archives/libotap_handheld.a
vehicle=$archives/libotap_vehicle.a
office=$archives/libotap_office.a
desk=$archives/libotap_desk.a
CC=${CC:-gcc}
CXX=${CXX:-g++}
warnings="-Wall -Wextra -Wpedantic -Wconversion -Wshadow -Werror -Iinclude -Iexamples -Itests"
sanitizers="-g -fsanitize=address,undefined -fno-sanitize-recover=all"
emulator=
built=$(mktemp -d) || exit 1
trap 'rm -rf "$built"' EXIT
failed=0

# step NAME COMMAND..: runs it and prints its name; what it printed is shown only if it failed.
step() {
    name=$1
    shift
    if "$@" > "$built/log" 2>&1; then
        echo "ok      $name"
    else
        echo "FAILED  $name"
        show
        failed=1
        return 1
    fi
}

# What the last step printed.
show() {
    sed 's/^/        /' "$built/log"
}

# build OUTPUT LANGUAGE STANDARD COMPILER FLAGS SOURCE..: with the archive of the set at hand, and with what else $beside names.
archive=$handheld
beside=
build() {
    output=$1 language=$2 standard=$3 compiler=$4 flags=$5
    shift 5
    $compiler -x "$language" -std="$standard" $warnings $flags "$@" -x none "$archive" $beside -o "$built/$output"
}

# with ARCHIVE COMMAND..: it builds with this archive too.
with() {
    beside=$1
    shift
    "$@"
    ended=$?
    beside=
    return $ended
}

run_built() {
    program=$1
    shift
    $emulator "$built/$program" "$@"
}

# Before what links the archive. For another processor: its compilers, an emulator with their libraries, and no sanitizer, for none runs under it.
need_archive() {
    if [ "$target" != "$machine" ]; then
        cpu=${target%-linux}
        CC=$cpu-linux-gnu-gcc CXX=$cpu-linux-gnu-g++ emulator="qemu-$cpu -L /usr/$cpu-linux-gnu" sanitizers=
        for tool in $CC $CXX qemu-$cpu; do
            command -v $tool > /dev/null && continue
            echo "left out  what links the archive for $target: $tool is not here"
            exit $failed
        done
    fi
    for file in "$handheld" "$vehicle" "$office" "$desk"; do
        [ -f "$file" ] && continue
        echo "FAILED  no $file: ./archive $target writes it"
        exit 1
    done
}
