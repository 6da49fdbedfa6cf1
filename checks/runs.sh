#!/bin/sh
# Runs couchview as checks/runs.txt says, and compares each line that it writes and its exit status. It ends with status 1 and a
# named complaint where one differs, or where a child is not started or left behind. It needs python3, and is skipped where that
# is missing.
name=runs
. "$(dirname -- "$0")/prepare.sh"
python3 "$here/checks/runs.py" "$couchview" "$here/checks/runs.txt" "$work"
