#!/bin/sh
# Proves the lister and makes target/guide/lister of it, code for x86-64. Run it from the repository's root. The build says much; it is shown only where it
# fails.
set -e
command -v rt >/dev/null || { echo "the lister needs the Rattle kit: its command rt is not found"; exit 1; }
made=target/guide/lister
if [ -e $made ] && [ -z "$(find crates crates.txt -name out -prune -o -type f -newer $made -print -quit)" ]; then
    exit 0
fi
mkdir -p target/guide
# it is run once as it is built, over no input
(cd crates/lister && rt run </dev/null) >target/guide/lister.log 2>&1 || { cat target/guide/lister.log; exit 1; }
cp crates/lister/out/lister $made
