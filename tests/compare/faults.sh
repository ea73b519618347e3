#!/bin/sh
# Shows that the comparison can fail: puts each fault of faults.txt into a copy of the reference, compares the calls of its family alone, and says at
# which call it was found. It fails where one is not found in 20 seconds. Each fault is a build of its own, so this takes minutes and is no part of the gate. Run it from the
# repository's root, with the library built.
set -e
copy=target/faults
rm -rf $copy
mkdir -p $copy/tests
cp -r data $copy/
cp -r tests/compare $copy/tests/
GUIDE_LIB_DIR=$(pwd)/target/guide/$(uname -m)
export GUIDE_LIB_DIR
export CARGO_TARGET_DIR=$copy/cargo
grep -v '^#' tests/compare/faults.txt | {
    while read -r family file edit; do
        rm -rf $copy/tests/reference
        cp -r tests/reference $copy/tests/
        sed -i "$edit" "$copy/tests/reference/src/$file"
        changed=$(diff "tests/reference/src/$file" "$copy/tests/reference/src/$file" | grep -c '^>') || true
        [ "$changed" = 1 ] || { echo "$family: the edit changes $changed lines of $file"; exit 1; }
        cargo build --offline --quiet --release --manifest-path $copy/tests/compare/Cargo.toml 2>$copy/said || { cat $copy/said; exit 1; }
        if found=$($copy/cargo/release/compare --seconds 20 --only "$family"); then
            echo "$family: NOT FOUND: $edit"
            exit 1
        fi
        echo "$family: found $(echo "$found" | sed -n '1s/.*a difference //p')"
    done
}
