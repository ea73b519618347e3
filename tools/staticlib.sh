#!/bin/sh
# Makes target/lib/ARCH/libNAME.a of a static library of crates.txt, with its code as assembly, NAME.s, and the frames of its functions, NAME.su:
# tools/staticlib.sh NAME [ARCH], ARCH is x86_64 or aarch64, this machine's where none is named. It is proved, and so are the libraries below it where they
# changed; where tests/gate.sh says so by PROVED_BY_CI=yes, those stand as `rt ci` has just proved them. What is newer than every source is left as it is. Run
# it from the repository's root. The build says much; it is shown only where it fails.
set -e
name=$1
arch=${2:-$(uname -m)}
made=target/lib/$arch
if [ -e "$made/lib$name.a" ] && [ -e "$made/$name.su" ] &&
    [ -z "$(find crates crates.txt tools/staticlib.sh tools/toolchain.sh -name out -prune -o -type f -newer "$made/lib$name.a" -print -quit)" ]; then
    exit 0
fi
root=$(pwd)
kit=$(sh tools/kit.sh)
mkdir -p "$made"
rm -f "$made/lib$name.a" "$made/$name".*
toolchain=$(mktemp -d)
trap 'rm -rf "$toolchain"' EXIT
sh tools/toolchain.sh "$toolchain" "$made/$name"
said=$root/target/lib/$name.log
cd "crates/$name"

# the kit's own build of it, which proves and builds what is below, has no assembly and no frames, and is not the one that is taken
[ "${PROVED_BY_CI:-}" = yes ] || rt lib >"$said" 2>&1 || { cat "$said"; exit 1; }

# a library below is the repository's, where it has a folder here, or else the kit's
set -- --extern std="$kit/rlibs/std.rlib" -L dependency="$kit/rlibs"
for below in $(sed -n "s/^$name staticlib *://p" "$root/crates.txt"); do
    rlib=$root/crates/$below/out/rlib/$below.rlib
    [ -e "../$below" ] || rlib=$kit/rlibs/$below.rlib
    set -- "$@" --extern "$below=$rlib"
done
for folder in "$root"/crates/*/out/rlib; do
    set -- "$@" -L dependency="$folder"
done
"$kit/bin/rattle" build --crate-name "$name" src/lib.rt --crate-type staticlib --target "$arch-unknown-linux-gnu" "$@" --links "$name=" \
    --antt-project "$kit/rattle/logic/antt-project.json" --logic-built "$kit/logic_built" --incremental "$root/target/lib/$name.kept" --jobs 2 \
    --toolchain "$toolchain" --backend llvm -o "$root/$made/lib$name.a" >"$said" 2>&1 || { cat "$said"; exit 1; }
