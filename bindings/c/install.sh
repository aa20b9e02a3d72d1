#!/bin/sh
# Installs header, library and pkg-config file for C. `tools/staticlib assembler`
# makes the library first.
# usage: install.sh [PREFIX]    /usr/local if not given; DESTDIR goes before it
set -eu
cd "$(dirname "$0")/../.."
prefix=${1:-/usr/local}
library=${BARRIZUPPA_STATICLIB:-target/staticlib}/libassembler.a
case $prefix in
    /*) ;;
    *) echo "install.sh: a prefix begins with /" >&2; exit 2 ;;
esac
if [ ! -f "$library" ]; then
    echo "install.sh: $library is not there: run \`tools/staticlib assembler\` first" >&2
    exit 2
fi
version=$(sed -n 's/^#define BARRIZUPPA_VERSION "\(.*\)"/\1/p' include/barrizuppa.h)
to=${DESTDIR:-}$prefix
mkdir -p "$to/include" "$to/lib/pkgconfig"
cp include/barrizuppa.h "$to/include/"
cp "$library" "$to/lib/libbarrizuppa.a"
sed -e "s|@prefix@|$prefix|" -e "s|@version@|$version|" bindings/c/barrizuppa.pc.in \
    > "$to/lib/pkgconfig/barrizuppa.pc"
