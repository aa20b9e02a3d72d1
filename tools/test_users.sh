#!/bin/sh
# Tests what users meet: the example of docs/STREAM.md, the sources written as
# Rust (bench/transcribe.py), the Rust crate with its program, and the example in
# C. The parts that call the assembler need its library (`tools/staticlib
# assembler`) and are left out, with a word, where it is not there.
# usage: tools/test_users.sh [STREAMS]    how many are made by chance; 5,000
set -eu
cd "$(dirname "$0")/.."
streams=${1:-5000}
crate=bindings/rust
library=${BARRIZUPPA_STATICLIB:-target/staticlib}/libassembler.a

python3 tools/compare/check_stream.py

# what bench/transcribe.py writes is Rust
written=$(mktemp -d)
trap 'rm -rf "$written"' EXIT
python3 bench/transcribe.py "$written"
(cd "$written" && cargo build --quiet --offline)

(
    cd $crate
    cargo fmt --check
    cargo clippy --quiet --all-targets --no-default-features -- -D warnings
    cargo test --quiet --no-default-features
    cargo build --quiet --release --no-default-features --example accounts
)
python3 tools/compare/check_users.py --streams "$streams" --program $crate/target/release/examples/accounts

if [ ! -f "$library" ]; then
    echo "test_users.sh: $library is not there, so what calls the assembler was not tested" >&2
    exit
fi
(
    cd $crate
    cargo clippy --quiet --all-targets -- -D warnings
    cargo test --quiet
    cargo build --quiet --release
)
sh bindings/c/test.sh
echo "test_users.sh: all is well"
