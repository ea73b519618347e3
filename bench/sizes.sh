#!/bin/sh
# How the cost of a call grows with the size of what it is given: nanoseconds, and instructions as valgrind counts them (the same on every run). Run it from the
# repository's root.
set -e
made=target/bench/sizes
mkdir -p $made
sh tools/lib.sh
python3 bench/sizes.py $made
gcc -std=gnu11 -O2 -Wall -Wextra -Iinclude -Ibench -o $made/sizes bench/sizes.c "target/guide/$(uname -m)/libguide.a"

instructions() { # CALL INPUT TIMES
    valgrind --tool=callgrind --callgrind-out-file=/dev/null $made/sizes "$1" "$2" "$3" 2>&1 | sed -n 's/.*Collected : //p'
}

line() { # CALL INPUT SIZE NAME
    ns=$($made/sizes "$1" "$2")
    count=-
    if command -v valgrind >/dev/null; then
        few=$(instructions "$1" "$2" 0)
        many=$(instructions "$1" "$2" 20)
        count=$(((many - few) / 20))
    fi
    printf '%-34s %6s %10s %14s\n' "$4" "$3" "$ns" "$count"
}

printf '%-34s %6s %10s %14s\n' call size ns instructions
for n in 14 37 90 255 1024 1700 4096; do line judge $made/judge-$n.bin $n "judging an EIT, bytes"; done
for n in 14 37 90 255 1024 1700 4096; do line events $made/judge-$n.bin $n "all its events, bytes"; done
for n in 10 30 100 300 1000 4000; do line text $made/plain-$n.bin $n "a plain text, letters"; done
for n in 10 30 100 300 1000 4000; do line text $made/titles-$n.bin $n "compressed as titles, letters"; done
for n in 10 30 100 300 1000 4000; do line text $made/descriptions-$n.bin $n "compressed as descriptions, letters"; done
for n in 1 4 16 32 64; do line status $n $n "status, places"; done
for n in 1 4 16 32 64; do line deliver $n $n "delivering 14 bytes again, places"; done
