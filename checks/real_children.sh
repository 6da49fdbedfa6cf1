#!/bin/sh
# Runs couchview over real child processes, good ones and bad ones, and compares each reply line. It ends with status 1
# and a named complaint where a reply differs, a child is left behind, or the program takes too much memory.
# It needs node and python3, and is skipped where one of them is missing.
here=$(CDPATH='' cd -- "$(dirname -- "$0")/.." && pwd) || exit 1
for tool in node python3; do
    if ! command -v "$tool" > /dev/null 2>&1; then
        echo "real_children: skipped, since there is no $tool"
        exit 0
    fi
done
work=$(mktemp -d) || exit 1
trap 'rm -rf "$work"' EXIT
(cd "$work" && "$here/couchview" serve < /dev/null) || exit 1
python3 "$here/checks/real_children.py" "$here/crates/couchview_cli/out/couchview_cli" "$here/examples/query_servers"
