#!/bin/sh
# Random queries of random views, each reply beside that of a model that filters and cuts the whole list of rows. Words are how many
# such databases there are, each with 200 queries (10 without one), and the seed.
name=queries
. "$(dirname "$0")/prepare.sh"
python3 "$here/checks/queries.py" "$couchview" "${1:-10}" ${2:+"$2"}
