#!/bin/sh
# Measures the library beside what people would pick instead, natively, on the same sections in one run, and shows where they and we differ: one table of
# speed, one of sections with one thing wrong, and what other writers make. Run it from the repository's root.
set -e
missing=
[ -e /usr/include/libucsi/atsc/eit_section.h ] || missing="$missing dvb-apps"
command -v pkg-config >/dev/null || missing="$missing pkg-config"
for pair in libdvbpsi:libdvbpsi-dev libdvbv5:libdvbv5-dev gstreamer-mpegts-1.0:libgstreamer-plugins-bad1.0-dev; do
    pkg-config --exists "${pair%:*}" 2>/dev/null || missing="$missing ${pair#*:}"
done
if [ -n "$missing" ]; then
    echo "bench/peers.sh needs Debian's packages$missing: apt-get install$missing"
    exit 1
fi
made=target/bench/peers
lib=target/lib/$(uname -m)
mkdir -p $made
python3 bench/peers/streams.py $made
sh tools/staticlib.sh guide_c
sh tools/staticlib.sh bench_calls
others="gstreamer-mpegts-1.0 libdvbpsi libdvbv5"
gcc -std=gnu11 -O3 -Wall -Wextra -Iinclude -Ibench $(pkg-config --cflags $others) -o $made/peers bench/peers/peers.c bench/peers/ours.c bench/peers/libucsi.c \
    bench/peers/libdvbpsi.c bench/peers/libdvbv5.c bench/peers/gstreamer.c "$lib/libguide_c.a" "$lib/libbench_calls.a" -lucsi $(pkg-config --libs $others)
gcc -std=gnu11 -O3 -Wall -Wextra -Iinclude -Ibench -o $made/texts bench/peers/texts.c "$lib/libguide_c.a" -lucsi
$made/peers $made
echo
$made/texts $made
