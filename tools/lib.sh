#!/bin/sh
# Proves the library and makes target/guide/ARCH/libguide.a of it: tools/lib.sh [x86_64|aarch64], this machine's architecture where none is named. It is the
# static libraries `guide_c` and `lent_c` in one archive. Run it from the repository's root.
set -e
arch=${1:-$(uname -m)}
case $arch in
x86_64 | aarch64) ;;
*)
    echo "ARCH is x86_64 or aarch64, not '$arch'"
    exit 1
    ;;
esac
command -v rt >/dev/null || { echo "the library needs the Rattle kit: its command rt is not found"; exit 1; }
[ -e "target/lib/$arch/liblent_c.a" ] || [ "${PROVED_BY_CI:-}" = yes ] || echo "proving the library first, which takes many minutes from nothing" >&2
sh tools/staticlib.sh guide_c "$arch"
sh tools/staticlib.sh lent_c "$arch"
mkdir -p "target/guide/$arch"
rm -f "target/guide/$arch/libguide.a"
"$(sh tools/kit.sh)/toolchain/bin/llvm-ar" qcsL "target/guide/$arch/libguide.a" "target/lib/$arch/libguide_c.a" "target/lib/$arch/liblent_c.a"
