#!/bin/sh
# Runs couchview over map_server as a child, and over its own server of the language pick, and compares each reply line.
# It ends with status 1 and a named complaint where a reply differs or is missing, or where no view has rows.
# It needs python3, and is skipped where that is missing.
name=pick_child
. "$(dirname -- "$0")/prepare.sh"
"$here/map_server" < /dev/null || exit 1
python3 "$here/checks/pick_child.py" "$couchview" "$here/crates/map_server_cli/out/map_server_cli"
