#!/bin/sh
# Installs the outside tools that tools/compare/run_modules.py uses and that are
# missing: wabt (wasm-validate, wasm-interp) and node, both from Debian. The
# gate needs none of them.
set -eu
missing=
command -v wasm-validate > /dev/null && command -v wasm-interp > /dev/null || missing=wabt
command -v node > /dev/null || missing="$missing nodejs"
if [ -z "$missing" ]; then
    echo "nothing is missing"
    exit
fi
apt-get update
apt-get install -y $missing
