#!/bin/sh
# Measures `couchview load`: the whole command, and its request lines through `couchview serve` in parts, whose replies to views
# must be the lines that `load` prints.
# Run by hand: bench/load.sh [DOCS [NUMBER]]. It needs python3, and writes some 30 GB below bench/data for 20,000 documents, 15 of
# them at once, since the file of the documents grows with each of them; that is removed at the end.
set -e
here=$(CDPATH='' cd -- "$(dirname -- "$0")" && pwd)
data=$here/data/load
rm -rf "$data"
mkdir -p "$data/whole" "$data/parts"
trap 'rm -rf "$data"' EXIT
trap 'exit 130' INT
trap 'exit 143' TERM
# Builds the program where it isn't built.
(cd "$data" && "$here/../couchview" serve < /dev/null)
echo "cores: $(nproc)"
python3 "$here/load.py" "$here/../crates/couchview_cli/out/couchview_cli" "$data" "${1:-20000}" "${2:-7}"
