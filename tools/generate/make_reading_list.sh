#!/bin/sh
# Makes the fixed list of the program `reading`, from nothing and always the
# same: stdin, the streams in the batch form, and stdout, the lines that
# reading_model.py foresees. The folder may be given.
set -eu
here=$(cd "$(dirname "$0")" && pwd)
to=${1:-$here/../../crates/reading}
mkdir -p "$to"
python3 "$here/streams.py" --samples --valid --ceilings --faults > "$to/stdin"
python3 "$here/../models/reading_model.py" < "$to/stdin" > "$to/stdout"
echo "$(wc -l < "$to/stdout") streams, $(wc -c < "$to/stdin") bytes"
