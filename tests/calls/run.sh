#!/bin/sh
# The vectors of the test programs through the calls of guide.h, natively, compared with the lines that the scripts in tests/ expect. Run it from the
# repository's root. So many vectors of each program are asked from C; the others ask what no call of C does.
set -e
sh tools/lib.sh
mkdir -p target/calls
gcc -std=c99 -O2 -Wall -Wextra -Werror -Iinclude -o target/calls/calls tests/calls/calls.c "target/guide/$(uname -m)/libguide.a"
while read -r name asked; do
    lines=target/calls/$name.txt
    target/calls/calls "$name" <"crates/test_$name/stdin" >"$lines"
    found=$(wc -l <"$lines")
    if [ "$found" -ne "$asked" ]; then
        echo "calls from C: $found vectors of test_$name were asked, not $asked"
        tail -n 1 "$lines"
        exit 1
    fi
    # the lines of the vectors that were asked; a field that is read as a part of other bytes too is so by the sources alone
    awk 'NR == FNR { asked[$1]; next } $1 in asked { sub(/ inside .*/, ""); print }' "$lines" "crates/test_$name/stdout" | diff - "$lines"
done <<END
judging 1445
reading 2510
text 4410
writing 693
END
