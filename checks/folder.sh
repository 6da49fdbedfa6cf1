#!/bin/sh
# Runs two programs in one folder, puts foreign files, directories, links and files without rights in the way, stops the program
# at each of its calls on a new folder's disk, and lets query servers fail; and compares what is said on standard error. It ends
# with status 1 and a named complaint where something is taken or lost, or another line is said. It needs python3, and is skipped
# where that is missing.
name=folder
. "$(dirname -- "$0")/prepare.sh"
"$here/map_server" < /dev/null || exit 1
python3 "$here/checks/folder.py" "$couchview" "$here/crates/map_server_cli/out/map_server_cli" "$work" || exit 1
python3 "$here/checks/children_said.py" "$couchview" "$work"
