#!/bin/sh
# Seeded scripts of requests, each reply beside that of a short model of all of them. Words are the first seed and how many scripts there
# are (0 and 150 without them).
name=scripts
. "$(dirname "$0")/prepare.sh"
"$here/map_server" < /dev/null || exit 1
python3 "$here/checks/scripts.py" "$couchview" "$here/crates/map_server_cli/out/map_server_cli" "${1:-0}" "${2:-150}"
