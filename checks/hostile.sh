#!/bin/sh
# Sends couchview 200,000 lines, valid and hostile, in one piece and byte by byte, and compares the replies with each other and
# with what is expected of the valid requests. It ends with status 1 and a named complaint where a reply is missing or wrong,
# where the run ends early, or where much memory was taken. It needs python3, and is skipped where that is missing.
name=hostile
. "$(dirname -- "$0")/prepare.sh"
python3 "$here/checks/hostile.py" "$couchview" "$work"
