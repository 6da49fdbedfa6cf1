#!/bin/sh
# Measures views: the first one over databases of several sizes, one behind a single change, one where nothing was written, and
# what a commit adds to the index's files, with the servers in the process and with one child.
# Run by hand: bench/views.sh [DOCUMENTS]... It needs python3, and writes 2.5 GB below bench/data for 10,000 documents, since
# the file of the documents grows with each of them; that is removed at the end.
set -e
here=$(CDPATH='' cd -- "$(dirname -- "$0")" && pwd)
data=$here/data/views
rm -rf "$data"
mkdir -p "$data"
trap 'rm -rf "$data"' EXIT
(cd "$data" && "$here/../couchview" serve < /dev/null)
[ $# -gt 0 ] || set -- 1000 4000
echo "cores: $(nproc)"
python3 "$here/views.py" "$here/../crates/couchview_cli/out/couchview_cli" "$here/../examples/query_servers" "$data" "$@"
