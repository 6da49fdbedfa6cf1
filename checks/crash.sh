#!/bin/sh
# Kills couchview while it writes documents, opens the folder again each time, and looks for every document that it said it had
# written; and lets the disk run full. It ends with status 1 and a named complaint where a document is missing or another is
# there, or where the end is another. It needs python3, and is skipped where that is missing.
name=crash
. "$(dirname -- "$0")/prepare.sh"
mkdir small
mount -t tmpfs -o size=256k tmpfs small 2> /dev/null && small=mounted || small=limited
python3 "$here/checks/crash.py" "$couchview" "$work" "$small"
