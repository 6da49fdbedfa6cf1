# Read by the checks that need python3 and the built program. The check gives its name in `name`. It is skipped where python3
# is missing; otherwise the program is built, and the check goes on in a new folder, `work`, which is removed at its end.
here=$(CDPATH='' cd -- "$(dirname -- "$0")/.." && pwd) || exit 1
if ! command -v python3 > /dev/null 2>&1; then
    echo "$name: skipped, since there is no python3"
    exit 0
fi
work=$(mktemp -d) || exit 1
trap 'umount "$work/small" 2> /dev/null; rm -rf "$work"' EXIT
cd "$work" || exit 1
"$here/couchview" serve < /dev/null || exit 1
couchview=$here/crates/couchview_cli/out/couchview_cli
