# Read by the launchers: builds the program where it isn't built or where a source is newer, and runs it. `name` is the
# program's, `crate` the crate that it is, `crates` those that it is made of, and `words` what the build runs it with.
here=$(CDPATH='' cd -- "$(dirname -- "$(readlink -f -- "$0")")" && pwd) || exit 1
program=$here/crates/$crate/out/$crate
log=${TMPDIR:-/tmp}/$name-build.$$

newer() {
    for part in $crates; do
        find "$here/crates/$part" -name out -prune -o \( -name '*.rt' -o -name '*.antt' \) -newer "$program" -print
    done | head -n 1
}

stop() {
    echo "$name: $1" >&2
    exit 1
}

[ -d "$here/crates/$crate" ] || stop "there is no folder crates/$crate beside this launcher, which belongs to its repository"
why=
if [ ! -x "$program" ]; then
    why="it isn't built"
elif [ -n "$(newer)" ]; then
    why='a source is newer than the program'
fi
if [ -n "$why" ]; then
    command -v rt > /dev/null || stop "$why, and it can't be built: there is no command rt, which comes with the Rattle kit"
    true 2> /dev/null > "$log" || stop "$why, and it can't be built: $log can't be written"
    echo "$name: building, which proves the crates that it is made of: some 5 to 15 minutes the first time" >&2
    if ! (cd "$here/crates/$crate" && rt run -- $words < /dev/null) > "$log" 2>&1; then
        tail -n 20 "$log" >&2
        stop "the build failed; $log has all that it said"
    fi
    [ -x "$program" ] || stop "the build made no program; $log has all that it said"
    rm -f "$log"
    touch "$program"
fi
