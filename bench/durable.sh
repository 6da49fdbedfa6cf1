#!/bin/sh
# Measures durable puts a second in a database of 100 and of 1,000 documents, beside SQLite (WAL, synchronous=FULL, one
# transaction a document) and beside bare appends that are each followed by fdatasync, in one run on one disk.
# Run by hand: bench/durable.sh. It needs python3 and writes some megabytes below bench/data.
set -e
here=$(CDPATH='' cd -- "$(dirname -- "$0")" && pwd)
data=$here/data/durable
rm -rf "$data"
mkdir -p "$data"
(cd "$data" && "$here/../couchview" serve < /dev/null)
python3 "$here/durable.py" "$here/../crates/couchview_cli/out/couchview_cli" "$data"
