#!/bin/sh
# Builds the crate and runs its tests, the examples in its comments among them; its first program and its day sheet print of the examples what they
# should. Run it from the repository's root.
set -e
sh tools/lib.sh
GUIDE_LIB_DIR=$(pwd)/target/guide/$(uname -m)
CARGO_TARGET_DIR=$(pwd)/target/cargo
export GUIDE_LIB_DIR CARGO_TARGET_DIR
cargo test --offline --quiet --manifest-path bindings/rust/Cargo.toml
programs=$CARGO_TARGET_DIR/debug/examples
[ "$(tail -c +5 examples/two_eits.bin | head -c 37 | "$programs/first")" = "1000 Tea" ]
for name in all_kinds half_heard; do
    "$programs/day_sheet" examples/$name.bin | diff examples/c/$name.txt -
done
