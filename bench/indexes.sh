#!/bin/sh
# Measures the indexes of views beside yardsticks in the same run: the first build, beside mapping the same documents without an index;
# an update behind one change, beside the calls of the system that it makes, alone; and how long the file is, beside a packed one.
# Run by hand: bench/indexes.sh [DOCUMENTS]... It needs python3 and strace, and writes some 100 MB below bench/data, which are removed at
# the end.
set -e
here=$(CDPATH='' cd -- "$(dirname -- "$0")" && pwd)
data=$here/data/indexes
rm -rf "$data"
mkdir -p "$data"
trap 'rm -rf "$data"' EXIT
(cd "$data" && "$here/../couchview" serve < /dev/null)
[ $# -gt 0 ] || set -- 1000 20000
echo "cores: $(nproc)"
python3 "$here/indexes.py" "$here/../crates/couchview_cli/out/couchview_cli" "$data" "$@"
