#!/bin/sh
# Views from indexes, as the built program keeps them: which documents the query server is asked for by a first view, by one
# behind a change and by one in a later run, and what is there after kills in the midst of updates. A word is how many
# documents there are (2,000 without one).
name=updates
. "$(dirname "$0")/prepare.sh"
python3 "$here/checks/updates.py" "$couchview" "$here/examples/query_servers" "${1:-2000}"
