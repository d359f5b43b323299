#!/bin/bash
# Installs the library under a prefix: header, archive, shared library, pkg-config file, manual pages and NOTICE, by a C compiler alone (CC, or cc), from the text of
# dist/ for its machine; and the program, bin/pasetone, with its pages and what bash and zsh complete behind it, where cargo is here. It takes a second, or with a
# program that is not built yet some 20.
#
#   host/install.sh PREFIX
#   DESTDIR=FOLDER host/install.sh /PREFIX     for a package: the files go below FOLDER, and pasetone.pc names /PREFIX alone
#
# A space or another character that a shell looks at stands in pasetone.pc behind a backslash, as pkg-config wants it. It prints it so as well: where
# the prefix has one, the line that takes the flags has to be read by the shell once more (eval "gcc $(pkg-config --cflags --libs pasetone) ..").
set -eu
use="use: host/install.sh PREFIX    with DESTDIR set, PREFIX begins with a slash"
case "$# ${1:-}" in
    "1 -h" | "1 --help") echo "$use"; exit 0 ;;
    "1 " | "1 -"*) echo "$use" >&2; exit 2 ;;
    "1 "*) ;;
    *) echo "$use" >&2; exit 2 ;;
esac
here=$(cd "$(dirname "$0")" && pwd)
if [ -n "${DESTDIR:-}" ]; then
    case $1 in
        /*) prefix=$1 ;;
        *) echo "$use" >&2; exit 2 ;;
    esac
else
    mkdir -p "$1"
    prefix=$(cd "$1" && pwd)
fi
case $prefix in
    *[\$\(\)]* | *'
'*) echo "install: pkg-config cannot name a prefix with a dollar sign, a parenthesis or a line break" >&2; exit 2 ;;
esac
named=$(printf '%s' "$prefix" | sed 's/[][:space:][!"#&'\''*;<>?\\^`{|}~]/\\&/g')
to=${DESTDIR:-}$prefix
root=$here/..
folder=$("$here/archive")
version=$(sed -n '1s,^/\* Pasetone \([0-9.]*\) for .*,\1,p' "$root/dist/pasetone-x86_64.s")
[ -n "$version" ] || { echo "install: dist/pasetone-x86_64.s tells no version" >&2; exit 1; }
major=${version%%.*}
work=$(mktemp -d)
trap 'rm -rf "$work"' EXIT
# CC may be more than one word.
${CC:-cc} -shared -Wl,-soname,libpasetone.so."$major" -Wl,-z,defs,-z,relro,-z,now -Wl,--whole-archive "$folder/libpasetone.a" -Wl,--no-whole-archive -o "$work/shared"
install -d "$to/include" "$to/lib/pkgconfig" "$to/share/doc/pasetone"
install -m 644 "$root/include/"*.h "$to/include/"
install -m 644 "$root/NOTICE" "$to/share/doc/pasetone/"
install -m 644 "$folder/libpasetone.a" "$to/lib/"
install -m 755 "$work/shared" "$to/lib/libpasetone.so.$version"
ln -sf "libpasetone.so.$version" "$to/lib/libpasetone.so.$major"
ln -sf "libpasetone.so.$major" "$to/lib/libpasetone.so"
cat > "$to/lib/pkgconfig/pasetone.pc" << END
prefix=$named
includedir=\${prefix}/include
libdir=\${prefix}/lib

Name: pasetone
Description: Tuner and demodulator control of an RTL2832U receiver
Version: $version
Cflags: -I\${includedir}
Libs: -L\${libdir} -lpasetone
END
"$here/man" "$work/man"
install -d "$to/share/man/man3"
install -m 644 "$work/man/man3/"* "$to/share/man/man3/"
# The command line, its pages and completions, where cargo can build it: the library needs no Rust.
machine=$(${CC:-cc} -dumpmachine)
if ! command -v cargo > /dev/null; then
    echo "install: cargo is not on the path: all but the program, bin/pasetone, and its pages" >&2
elif [ "${machine%%-*}" != "$(uname -m)" ]; then
    echo "install: the library is for another machine, $machine: all but the program, bin/pasetone, and its pages" >&2
else
    PASETONE_BUILD="" "$root/pasetone" --version > /dev/null
    install -d "$to/bin" "$to/share/man/man1"
    install -m 755 "$root/target/line/pasetone" "$to/bin/"
    install -m 644 "$work/man/man1/"* "$to/share/man/man1/"
    # Where both shells look for what they complete.
    install -d "$to/share/bash-completion/completions" "$to/share/zsh/site-functions"
    for shell in bash/pasetone zsh/_pasetone; do "$root/target/line/pasetone" completion "${shell%/*}" > "$work/${shell#*/}"; done
    install -m 644 "$work/pasetone" "$to/share/bash-completion/completions/"
    install -m 644 "$work/_pasetone" "$to/share/zsh/site-functions/"
fi
echo "installed: $to"
