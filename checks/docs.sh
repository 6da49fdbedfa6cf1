#!/bin/sh
# Runs each example of README.md and docs/ that shows lines and replies through the built programs, and compares. It ends with
# status 1 and the place of the page where a reply is another one, or where an example isn't run. It needs python3, and is
# skipped where that is missing.
name=docs
. "$(dirname -- "$0")/prepare.sh"
"$here/map_server" < /dev/null || exit 1
python3 "$here/checks/docs.py" "$here" "$work"
