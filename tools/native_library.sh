#!/bin/sh
# Writes target/staticlib/libNAME.a for the processor at hand, for comparisons and benchmarks. The toolchain runs on
# x86-64 alone, and builds for it alone: there this is tools/staticlib, and elsewhere it says so.
# usage: native_library.sh [NAME]
set -eu
machine=$(uname -m)
if [ "$machine" != x86_64 ]; then
    echo "native_library.sh: the toolchain is for x86-64, and this is $machine" >&2
    exit 2
fi
exec "$(dirname "$0")/staticlib" "${1:-assembler}"
