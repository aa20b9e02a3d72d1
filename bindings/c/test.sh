#!/bin/sh
# Installs the library for C into a folder of target, builds the example from
# there by pkg-config, and runs it. tools/test_users.sh calls this.
set -eu
cd "$(dirname "$0")/../.."
prefix=$(pwd)/target/c
rm -rf "$prefix"
sh bindings/c/install.sh "$prefix"
export PKG_CONFIG_PATH="$prefix/lib/pkgconfig"
flags='-Wall -Wextra -Werror -pedantic'

cc -std=c99 $flags bindings/c/assemble.c $(pkg-config --cflags --libs barrizuppa) -o "$prefix/assemble_c"
"$prefix/assemble_c" < examples/notice.stream | cmp - examples/notice.wasm

# A start by a name that nothing has, two types of one name, and a stream of one byte too many.
refused() {
    status=0
    "$prefix/assemble_c" > "$prefix/out" 2> "$prefix/error" || status=$?
    test $status = 1
    test ! -s "$prefix/out"
    tail -n 1 "$prefix/error" | grep -qx "refused $1"
}
printf '\010\002\001a' | refused '14 at 0'
printf '\001\001a\000\000\001\001a\000\000' | refused '13 at 1, first at 0'
head -c 65537 /dev/zero | refused '1 at 0'

# One version everywhere.
version=$(pkg-config --modversion barrizuppa)
test "$("$prefix/assemble_c" --version)" = "assemble_c $version"
grep -qx "version = \"$version\"" bindings/rust/Cargo.toml
printf '%s\n' '#include <barrizuppa.h>' \
    'BARRIZUPPA_VERSION_MAJOR.BARRIZUPPA_VERSION_MINOR.BARRIZUPPA_VERSION_PATCH' |
    cc -E -P $(pkg-config --cflags barrizuppa) - | tail -n 1 | tr -d ' ' | grep -qx "$version"

# C++ takes the header, too.
if command -v c++ > /dev/null; then
    echo '#include <barrizuppa.h>' | c++ -x c++ -fsyntax-only $flags $(pkg-config --cflags barrizuppa) -
fi
