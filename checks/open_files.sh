#!/bin/sh
# Uses folders of 300 files where a process may open few: by the test of many files, of which 64 are open at a time, and by
# couchview, which opens the documents' files alone. It says how many files couchview must be let open. It ends with status 1 and
# a named complaint where the test fails, or couchview does with 16. It is skipped where python3 is missing.
name=open_files
. "$(dirname -- "$0")/prepare.sh"
tests=$here/crates/port_tests/out/port_tests_tests
runner=$(dirname -- "$(readlink -f -- "$(command -v rt)")")/rattle-test

fail() {
    echo "open_files: $1" >&2
    exit 1
}

# It needs 69: 64 files, the folder, three streams, and a folder that is listed. More is let open, since the shell may have files open.
[ -x "$tests" ] || (cd "$here/crates/port_tests" && rt test > "$work/built" 2>&1) || fail "the tests can't be built"
(ulimit -n 100 && "$runner" --filter many_files "$tests" > "$work/said" 2>&1) || fail "the test of many files: $(cat "$work/said")"
grep -q '1 passed; 0 failed' "$work/said" || fail "the test of many files isn't there: $(cat "$work/said")"

mkdir "$work/folder" && cd "$work/folder" || exit 1
number=0
while [ "$number" -lt 300 ]; do
    head -c 8192 /dev/zero > "$(printf '%032d.0' "$number")" || exit 1
    number=$((number + 1))
done
echo '{"put":{"_id":"a"}}' > "$work/request"
reply='{"ok":true,"id":"a","rev":"1-00000000000000000000000000000001"}'
for limit in 4 5 6 7 8 10 12 16 none; do
    [ "$limit" != none ] || fail "couchview with 16 open files: $(cat "$work/said")"
    rm -f docs.0 docs.1
    (ulimit -n "$limit" && exec "$couchview" serve) < "$work/request" > "$work/got" 2> "$work/said" \
        && [ "$(cat "$work/got")" = "$reply" ] && break
done
echo "open_files: 300 files are used with 64 open, and couchview needs $limit"
