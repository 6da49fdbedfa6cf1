#!/bin/sh
# Measures building and editing a tree of rows, in memory and in a file, beside sorting and spelling the same rows, and what counts,
# values of ranges and walks take of a small tree and of one of MANY rows, which are a million at most.
# Run by hand: bench/trees.sh [ROWS [MANY]]. It needs python3, and writes some 2 GB below bench/data for 100,000 rows, which are
# removed at the end.
set -e
here=$(CDPATH='' cd -- "$(dirname -- "$0")" && pwd)
data=$here/data/trees
rm -rf "$data"
mkdir -p "$data"
trap 'rm -rf "$data"' EXIT
trap 'exit 130' INT
trap 'exit 143' TERM
# Builds the program where it isn't built.
(cd "$here/../crates/tree_bench" && rt run > "$data/log" 2>&1) || { cat "$data/log"; exit 1; }
echo "cores: $(nproc)"
python3 "$here/trees.py" "$here/../crates/tree_bench/out/tree_bench" "$data" "${1:-100000}" "${2:-1000000}"
