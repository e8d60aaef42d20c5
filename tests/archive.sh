#!/bin/sh
# tests/archive.sh: wrong use of ./archive, with a kit made of scripts: each ends with its status and one line, and writes no archive. Ends with 1 if
# one does not.
set -u
cd "$(dirname "$0")/.." || exit 1
work=$(mktemp -d) || exit 1
trap 'rm -rf "$work"' EXIT
tools=$work/kit/toolchain/bin
mkdir -p "$tools" "$work/kit/bin" "$work/bare"
for tool in awk dirname sh uname; do
    ln -s "$(command -v $tool)" "$work/bare/"
done
for name in handheld office vehicle; do
    mkdir -p "$work/repo/crates/otap_$name/out"
done
cp archive "$work/repo/"
echo 'otap_handheld staticlib:' > "$work/repo/crates.txt"
failed=0

# The kit: `rt lib` does as $RT says, and clang prints $work/module.ll where it is asked for text.
cat > "$work/kit/bin/rt" << 'END'
#!/bin/sh
[ "$1" != version ] || { echo "${VERSION:-rattle-kit-13f logic dac8208d650f15bf}"; exit; }
name=${PWD##*/}
touch "out/lib$name.a" out/module.bc
case $RT in
    "not $name") echo "fn read: no proof: of what it ensures"; exit 1 ;;
    unproved) echo "fn commit: no proof: of what it ensures"; exit 1 ;;
    nothing) rm "out/lib$name.a" ;;
    silent) ;;
    *) "${0%/*}/../toolchain/bin/clang" out/module.bc ;;
esac
END
touch "$work/kit/bin/rtlib.py"
cat > "$tools/clang" << END
#!/bin/sh
for word in "\$@"; do out=\$word; done
case "\$*" in *-S*) cp "$work/module.ll" "\$out" ;; *-o*) touch "\$out" ;; esac
END
cat > "$tools/llvm-ar" << 'END'
#!/bin/sh
touch "$2"
END
chmod +x "$work/kit/bin/rt" "$tools"/*

# module LINE: a module that looks as expected, but for this line in its function.
module() {
    cat > "$work/module.ll" << END
target datalayout = "e-m:e-i64:64-i128:128"
target triple = "x86_64-unknown-linux-gnu"
define noundef i64 @otap_commit(ptr noundef %a0, i64 noundef %a1) #0 {
  %r0 = getelementptr i8, ptr %a0, i64 4
  $1
  ret i64 %a1
}
!0 = !{!"rattle logic=0"}
END
}

# ends STATUS WORDS TARGET: how ./archive ends, and what its one line says; a line for each crate where it ends with 0.
ends() {
    status=$1 words=$2
    shift 2
    rm -rf "$work/repo/target/archive"
    PATH=$path "$work/repo/archive" "$@" > "$work/out" 2>&1
    ended=$?
    lines=1
    [ "$status" -ne 0 ] || lines=$(wc -l < "$work/repo/crates.txt")
    if [ $ended -ne "$status" ] || [ "$(wc -l < "$work/out")" -ne "$lines" ] || ! tr '\n' ' ' < "$work/out" | grep -q -- "$words"; then
        echo "FAILED  $words: ended with $ended, and said:"
        cat "$work/out"
        failed=1
    elif [ "$status" -ne 0 ] && [ -n "$(find "$work/repo/target/archive" -name '*.a' 2> /dev/null)" ]; then
        echo "FAILED  $words: an archive was written"
        failed=1
    fi
}

module ""
path=$work/bare
ends 2 "rt is not here" cortex-m4
path=$work/kit/bin:$PATH
export RT=whole
ends 0 "^target/archive/cortex-m4/libotap_handheld.a $" cortex-m4
ends 0 "^target/archive/aarch64-linux/libotap_handheld.a $" aarch64-linux
ends 2 "no such target: cortex-m9; there are: x86_64-linux" cortex-m9
RT=unproved ends 1 "otap_handheld is not proved, so nothing is written: fn commit: no proof" cortex-m4
RT=silent ends 1 "compiled 0 modules" cortex-m4
RT=nothing ends 1 "rt lib wrote no crates/otap_handheld/out/libotap_handheld.a" aarch64-linux
while read -r line; do
    module "$line"
    ends 1 "does not look as expected, so nothing is written:" cortex-m4
done << 'END'
%r1 = ptrtoint ptr %a0 to i64
%r1 = ptrtoaddr ptr %a0 to i64
%r1 = getelementptr i64, ptr %a0, i64 1
%r1 = add i128 1, 1
%r1 = load i24, ptr %a0, align 1
%r1 = load atomic i64, ptr %a0 seq_cst, align 8
%r1 = fadd double 1.0, 1.0
%r1 = add <4 x i32> zeroinitializer, zeroinitializer
%r1 = call i64 asm "rdtsc", "=r"()
%r1 = load { i8, ptr }, ptr %r0, align 8
store { i8, ptr } zeroinitializer, ptr %r0, align 8
END

mv "$tools/clang" "$tools/other"
ends 2 "no clang at" cortex-m4
mv "$tools/other" "$tools/clang"

# Of three crates each has an archive; where the last is not proved, the others have none either.
module ""
printf 'otap_office staticlib: lists\notap_vehicle staticlib: lists\n' >> "$work/repo/crates.txt"
three="target/archive/cortex-m4/libotap_handheld.a target/archive/cortex-m4/libotap_office.a target/archive/cortex-m4/libotap_vehicle.a"
ends 0 "^$three $" cortex-m4
RT="not otap_office" ends 1 "otap_office is not proved, so nothing is written: fn read: no proof" cortex-m4
RT="not otap_vehicle" ends 1 "otap_vehicle is not proved, so nothing is written: fn read: no proof" cortex-m4
[ $failed -ne 0 ] || echo "ok      wrong use of ./archive"
exit $failed
