#!/bin/sh
# Lays the crate's published files (links, so not one line is changed) and the
# stand-ins side by side into build/wast, and builds the oracle. FOLDER is the
# one that holds core.rs; the default is beside the repository.
# usage: build.sh [FOLDER]
set -eu
folder=${1:-$(dirname "$0")/../../shared/docs/src/src}
if [ ! -f "$folder/core.rs" ]; then
    echo "build.sh: $folder has no core.rs; give the folder of the crate's published files" >&2
    exit 2
fi
crate=$(cd "$folder" && pwd)
cd "$(dirname "$0")"
here=$(pwd)

rm -rf build/wast
mkdir -p build/wast/src/core
for file in Cargo.toml src/lib.rs src/error.rs src/lexer.rs src/parser.rs src/core/expr.rs; do
    ln -s "$here/stand-ins/wast/$file" "build/wast/$file"
done
for file in core.rs encode.rs gensym.rs names.rs token.rs core/binary core/binary.rs core/custom.rs core/export.rs \
        core/func.rs core/global.rs core/import.rs core/memory.rs core/module.rs core/resolve core/table.rs \
        core/tag.rs core/types.rs core/wast.rs; do
    ln -s "$crate/$file" "build/wast/src/$file"
done
exec cargo build --release --offline --quiet
