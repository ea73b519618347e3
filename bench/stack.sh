#!/bin/sh
# Paints the stack of calls: bench/stack.sh [PROGRAM..], where none is named all of bench/stack/. Run it from the repository's root. The kit's clang makes the
# programs, with no C library: for x86-64, and those of guide.h for Arm, where the machine has the emulator qemu-aarch64 (Debian: qemu-user). The lines stand
# in target/bench/stack/ARCH.txt as well.
set -e
kit=$(sh tools/kit.sh)
made=target/bench/stack
mkdir -p $made
failed=0

paint() { # ARCH PROGRAM LIBRARY [EMULATOR]
    "$kit/toolchain/bin/clang" --target=$1-unknown-linux-gnu -std=gnu11 -O2 -Wall -Wextra -ffreestanding -nostdinc -nostdlib -static -fuse-ld=lld \
        -Ibench -Iinclude -Itests/lent -Itests/bare -o $made/$2 bench/stack/$2.c "$3"
    $4 $made/$2 >$made/$2.txt || failed=1
    sed "s/^/$1 /" $made/$2.txt
    cat $made/$2.txt >>$made/$1.txt
}

rm -f $made/*.txt
arm_emulator=$(command -v qemu-aarch64) || true
for program in ${*:-$(basename -s .c bench/stack/*.c)}; do
    case $program in
    open | close | status | fetch | deliver) # the shelf by value, as it is called from Rattle
        sh tools/staticlib.sh bench_calls x86_64
        paint x86_64 "$program" target/lib/x86_64/libbench_calls.a
        ;;
    *)
        sh tools/lib.sh x86_64
        paint x86_64 "$program" target/guide/x86_64/libguide.a
        if [ -n "$arm_emulator" ]; then
            sh tools/lib.sh aarch64
            paint aarch64 "$program" target/guide/aarch64/libguide.a "$arm_emulator"
        fi
        ;;
    esac
done
exit $failed
