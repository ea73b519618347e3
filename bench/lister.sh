#!/bin/sh
# Measures the lister on 100 MB of sections of several sorts against a plain C program, and where valgrind is there counts the
# instructions of both on 10 MB of the large sections (of small ones that takes minutes: a write each). Run it from the repository's root.
set -e
mkdir -p target/bench
sh tools/lister.sh
python3 bench/lister.py target/bench
gcc -std=gnu11 -O3 -Wall -Wextra -o target/bench/plain_lister bench/plain_lister.c
gcc -std=gnu11 -O3 -Wall -Wextra -o target/bench/lister bench/lister.c
sorts="titled compressed lists small mixed"
streams=
for sort in $sorts; do
    # what is measured must also be right: both print the same, no record is refused, and all of them are counted
    target/guide/lister <"target/bench/$sort-10.bin" >target/bench/listed.txt
    target/bench/plain_lister data <"target/bench/$sort-10.bin" >target/bench/plain.txt
    if ! cmp -s target/bench/listed.txt target/bench/plain.txt || grep -q -e refused -e bad target/bench/listed.txt ||
        ! tail -n 1 target/bench/listed.txt | cmp -s - "target/bench/$sort-10.end"; then
        echo "FAILED lister: $sort"
        exit 1
    fi
    streams="$streams target/bench/$sort"
done
target/bench/lister target/guide/lister target/bench/plain_lister data $streams

# The millions of instructions of a program on a stream.
counted() {
    stream=$1
    shift
    valgrind --tool=callgrind --callgrind-out-file=/dev/null "$@" <"$stream" 2>&1 >/dev/null | awk '/Collected/ {printf "%.0f", $4 / 1e6}'
}
if command -v valgrind >/dev/null; then
    printf '%-12s %12s %12s\n' "10 MB" "lister, M" "plain C, M"
    for sort in titled compressed lists; do
        stream=target/bench/$sort-10.bin
        printf '%-12s %12s %12s\n' "$sort" "$(counted "$stream" target/guide/lister)" "$(counted "$stream" target/bench/plain_lister data)"
    done
fi
for sort in $sorts; do rm -f "target/bench/$sort-10.bin" "target/bench/$sort-100.bin"; done
rm -f target/bench/listed.txt target/bench/plain.txt
