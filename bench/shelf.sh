#!/bin/sh
# Measures the shelf's calls. Run it from the repository's root.
set -e
mkdir -p target/bench
sh tools/staticlib.sh bench_calls
gcc -std=gnu11 -O3 -Wall -Wextra -o target/bench/shelf bench/shelf.c target/lib/$(uname -m)/libbench_calls.a
target/bench/shelf
