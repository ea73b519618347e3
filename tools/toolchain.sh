#!/bin/sh
# Makes in FOLDER a toolchain that is the kit's but for its clang, which compiles what it makes an object of once more: as assembly, into CODE.s, with the
# frames of its functions in CODE.su. tools/toolchain.sh FOLDER CODE, run from the repository's root. (The folder lies outside it: `rt ci` takes no links.)
set -e
kit=$(sh tools/kit.sh)/toolchain
mkdir "$1/bin"
ln -s "$kit/lib" "$1/lib"
for f in "$kit/bin"/*; do ln -s "$(readlink -f "$f")" "$1/bin/${f##*/}"; done
rm "$1/bin/clang"
cat >"$1/bin/clang" <<END
#!/bin/sh
clang=$kit/bin/clang
"\$clang" "\$@" || exit
makes=text
for word; do
    shift
    case \$word in
    -c)
        makes=object
        word=-S
        ;;
    *.o) word=$(pwd)/$2.s ;;
    esac
    set -- "\$@" "\$word"
done
[ \$makes = text ] || "\$clang" "\$@" -fstack-usage
END
chmod +x "$1/bin/clang"
