#!/bin/sh
# Measures `couchview serve`, beside `wc -l` and beside a bare loop of serde_json over the same lines.
# Run by hand: bench/run.sh [LINES]. It writes about 130 MB below bench/data and needs no network.
set -e
here=$(CDPATH='' cd -- "$(dirname -- "$0")" && pwd)
lines=${1:-200000}
documents=100
data=$here/data
rm -rf "$data/people"
mkdir -p "$data/people"

now() { date +%s.%N; }

# seconds NAME COMMAND..: runs the command three times and keeps the least time, in $data/NAME.seconds
seconds() {
    name=$1
    shift
    best=
    for _ in 1 2 3; do
        start=$(now)
        "$@"
        stop=$(now)
        best=$(awk -v a="$start" -v b="$stop" -v c="$best" 'BEGIN { t = b - a; if (c == "" || t < c) c = t; printf "%.4f", c }')
    done
    echo "$best" > "$data/$name.seconds"
}

# rate NAME UNITS WORD: prints units per second
rate() {
    awk -v n="$2" -v t="$(cat "$data/$1.seconds")" -v word="$3" -v name="$1" 'BEGIN { printf "%-28s %10.4f s  %14.0f %s/s\n", name, t, n / t, word }'
}

ratio() {
    awk -v a="$(cat "$data/$1.seconds")" -v b="$(cat "$data/$2.seconds")" -v text="$3" 'BEGIN { printf "%s: %.2f\n", text, b / a }'
}

echo "cores: $(nproc)"
(cd "$data/people" && "$here/../couchview" serve < /dev/null)
serve=$here/../crates/couchview_cli/out/couchview_cli

# 50 lines of 2,000,000 bytes that are refused at their first byte.
awk 'BEGIN { s = "x"; while (length(s) < 2000000) s = s s; s = substr(s, 1, 1999999); for (i = 0; i < 50; i++) print s }' > "$data/refused"
# Documents of 100 bytes, which the database has, and requests for one after another.
awk -v n="$documents" 'BEGIN { for (i = 1; i <= n; i++) printf "{\"put\":{\"_id\":\"d%07d\",\"age\":%d,\"name\":\"Ida Dal\",\"tags\":[\"a\",\"b\",\"c\"],\"town\":\"Oslo\",\"year\":20%02d,\"z\":\"pa\"}}\n", i, 10 + i % 90, i % 100 }' > "$data/puts"
echo "documents: $documents of $(head -n 1 "$data/puts" | awk '{ print length($0) - 8 }') bytes"
(cd "$data/people" && "$serve" serve < "$data/puts" > "$data/out")
grep -c '^{"ok":true' "$data/out" | grep -qx "$documents" || { echo "bench/run.sh: a put failed" >&2; exit 1; }
awk -v n="$lines" -v d="$documents" 'BEGIN { for (i = 0; i < n; i++) printf "{\"get\":\"d%07d\"}\n", 1 + i % d }' > "$data/gets"
# What the bare loop reads and writes: the documents that the requests are answered with.
awk -v n="$lines" -v d="$documents" '{ text[NR - 1] = substr($0, 8, length($0) - 8) } END { for (i = 0; i < n; i++) print text[i % d] }' "$data/puts" > "$data/documents"

piped_wc() { cat "$data/refused" | wc -l > /dev/null; }
piped_serve() { cat "$data/refused" | (cd "$data/people" && "$serve" serve) > /dev/null; }
gets_serve() { (cd "$data/people" && "$serve" serve) < "$data/gets" > /dev/null; }
gets_loop() { "$loop" < "$data/documents" > /dev/null; }

# The bare loop, built in a folder of its own.
work=$(mktemp -d)
trap 'rm -rf "$work"' EXIT
mkdir -p "$work/crates/serde_loop/src"
echo 'serde_loop: serde_json' > "$work/crates.txt"
cat > "$work/crates/serde_loop/src/main.rt" <<'END'
// Reads JSON lines and writes each again.
#![tactic(auto)]

use serde_json::Value;
use std::io::{self, BufRead, BufReader, BufWriter, Write};

fn main(rt: HostRuntime) -> io::Result<()> {
    let alloc = rt.alloc();
    let mut out = BufWriter::new(alloc, io::writer(&rt))?;
    for line in BufReader::new(alloc, rt.reader())?.lines(alloc) {
        let line = line?;
        if let Ok(value) = Value::from_str(alloc, line.as_str()) {
            if let Ok(text) = value.to_string(alloc) {
                out.write_all(text.as_bytes())?;
                out.write_all(b"\n")?;
            }
        }
    }
    out.flush()
}
END
(cd "$work/crates/serde_loop" && rt run < /dev/null > "$data/loop.log" 2>&1) || { cat "$data/loop.log"; exit 1; }
loop=$work/crates/serde_loop/out/serde_loop

seconds wc piped_wc
seconds refused piped_serve
seconds loop gets_loop
seconds gets gets_serve
bytes=$(wc -c < "$data/refused")
rate wc "$bytes" bytes
rate refused "$bytes" bytes
rate loop "$lines" documents
rate gets "$lines" documents
ratio refused wc "refused lines, beside wc -l"
ratio gets loop "documents asked for, beside the bare loop"
