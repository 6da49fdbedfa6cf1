#!/bin/sh
# Measures `run_map`: documents of 200 bytes with two emits each, beside a loop that only reads the documents.
# Run by hand: bench/map.sh [DOCUMENTS]. It writes about 20 MB below bench/data, builds two programs beside copies of the
# crates, which proves those crates if they aren't yet, and needs no network.
set -e
here=$(CDPATH='' cd -- "$(dirname -- "$0")" && pwd)
documents=${1:-100000}
data=$here/data
mkdir -p "$data"

awk -v n="$documents" 'BEGIN { for (i = 1; i <= n; i++) printf "{\"_id\":\"d%07d\",\"age\":%d,\"name\":\"Ida Dal\",\"tags\":[\"a\",\"b\",\"c\"],\"text\":\"%080d\",\"town\":\"Oslo\",\"year\":20%02d,\"z\":\"padding text\"}\n", i, 10 + i % 90, i, i % 100 }' > "$data/documents"
echo "document: $(head -n 1 "$data/documents" | awk '{ print length($0) }') bytes"

work=$(mktemp -d)
trap 'rm -rf "$work"' EXIT
git init -q "$work"
mkdir -p "$work/crates/read_loop/src" "$work/crates/map_loop/src"
for name in json_terms raw_collation map_lang; do
    cp -r "$here/../crates/$name" "$work/crates/$name"
    grep "^$name:" "$here/../crates.txt"
done > "$work/crates.txt"
printf 'read_loop: json_terms\nmap_loop: json_terms map_lang\n' >> "$work/crates.txt"
cat > "$work/crates/map_loop/src/main.rt" <<'END'
// Reads documents, one a line, maps each, and prints how many rows came.
#![tactic(auto)]

use json_terms::read_term;
use map_lang::{parse, run_map};
use std::io::{self, BufRead, BufReader};

fn main(rt: HostRuntime) -> io::Result<()> {
    let alloc = rt.alloc();
    let mut rows = 0u64;
    if let Ok(program) = parse(alloc, "emit doc.town, doc.age emit [doc.name, doc.year], 1") {
        for line in BufReader::new(alloc, rt.reader())?.lines(alloc) {
            let line = line?;
            if let Ok(document) = read_term(alloc, line.as_str().as_bytes()) {
                if let Ok(lists) = run_map(alloc, &program, &document) {
                    for list in lists.as_slice() {
                        rows = rows.saturating_add(list.len() as u64);
                    }
                }
            }
        }
    }
    println!(&rt; "{rows}")?;
    Ok(())
}
END
cat > "$work/crates/read_loop/src/main.rt" <<'END'
// Reads documents, one a line, and prints how many there were.
#![tactic(auto)]

use json_terms::read_term;
use std::io::{self, BufRead, BufReader};

fn main(rt: HostRuntime) -> io::Result<()> {
    let alloc = rt.alloc();
    let mut count = 0u64;
    for line in BufReader::new(alloc, rt.reader())?.lines(alloc) {
        let line = line?;
        if let Ok(_document) = read_term(alloc, line.as_str().as_bytes()) {
            count = count.saturating_add(1);
        }
    }
    println!(&rt; "{count}")?;
    Ok(())
}
END
for name in read_loop map_loop; do
    (cd "$work/crates/$name" && rt run < /dev/null > "$data/$name.log" 2>&1) || { cat "$data/$name.log"; exit 1; }
done

# least NAME: the least time of five runs, in seconds
least() {
    best=
    for _ in 1 2 3 4 5; do
        start=$(date +%s.%N)
        "$work/crates/$1/out/$1" < "$data/documents" > "$data/$1.count"
        stop=$(date +%s.%N)
        best=$(awk -v a="$start" -v b="$stop" -v c="$best" 'BEGIN { t = b - a; if (c == "" || t < c) c = t; printf "%.4f", c }')
    done
    echo "$best"
}
read=$(least read_loop)
map=$(least map_loop)
echo "read: $(cat "$data/read_loop.count") documents in $read s; read and mapped: $(cat "$data/map_loop.count") rows in $map s"
awk -v n="$documents" -v a="$read" -v b="$map" 'BEGIN { printf "reading and mapping: %.0f documents/s; run_map alone: %.0f documents/s\n", n / b, n / (b - a) }'
