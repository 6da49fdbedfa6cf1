#!/bin/sh
# Random writes, design changes, views, cleanups and kills, each reply beside that of a model that maps all documents for each view. A
# word is how many such databases there are (5 without one).
name=afresh
. "$(dirname "$0")/prepare.sh"
python3 "$here/checks/afresh.py" "$couchview" "$here/examples/query_servers" "${1:-5}"
