#!/bin/sh
# Measures how many documents a second couchview maps through one child process, beside the bare rate of line round
# trips through the same child, driven by a loop in C. Run by hand: bench/children.sh [DOCUMENTS]. It needs gcc, writes
# below bench/data, and needs no network.
set -e
here=$(CDPATH='' cd -- "$(dirname -- "$0")" && pwd)
documents=${1:-2000}
views=10
data=$here/data
rm -rf "$data/mapped"
mkdir -p "$data/mapped"
command -v gcc > /dev/null || { echo "bench/children.sh: needs gcc" >&2; exit 1; }

# The child: it answers `[[]]` to each line that begins `["map_doc"`, and `true` to every other, with one write a line.
cat > "$data/child.c" <<'END'
#include <string.h>
#include <unistd.h>
static char in[1 << 16];
int main(void) {
    static const char map[] = "[\"map_doc\"";
    size_t at = 0;  /* how many bytes of the line were read, 10 at most */
    int same = 1;   /* whether they are those of `map` */
    for (;;) {
        ssize_t n = read(0, in, sizeof in);
        if (n <= 0) return 0;
        for (char *p = in, *end = in + n; p < end;) {
            while (p < end && at < 10 && *p != '\n') { same &= *p++ == map[at]; at++; }
            char *stop = memchr(p, '\n', end - p);
            if (!stop) break;
            const char *text = same && at == 10 ? "[[]]\n" : "true\n";
            if (write(1, text, 5) != 5) return 1;
            p = stop + 1;
            at = 0;
            same = 1;
        }
    }
}
END
# The bare loop: loop PROGRAM FILE sends each line of the file and waits for one line.
cat > "$data/loop.c" <<'END'
#define _GNU_SOURCE
#include <stdio.h>
#include <stdlib.h>
#include <string.h>
#include <unistd.h>
static char in[1 << 16];
int main(int argc, char **argv) {
    int to[2], from[2];
    char *line = 0;
    size_t room = 0;
    ssize_t length;
    FILE *file = argc == 3 ? fopen(argv[2], "r") : 0;
    if (!file || pipe(to) || pipe(from)) return 1;
    if (fork() == 0) {
        dup2(to[0], 0);
        dup2(from[1], 1);
        close(to[0]); close(to[1]); close(from[0]); close(from[1]);
        execl(argv[1], argv[1], (char *)0);
        _exit(127);
    }
    close(to[0]);
    close(from[1]);
    while ((length = getline(&line, &room, file)) > 0) {
        if (write(to[1], line, length) != length) return 1;
        for (;;) {
            ssize_t n = read(from[0], in, sizeof in);
            if (n <= 0) return 1;
            if (in[n - 1] == '\n') break;
        }
    }
    return 0;
}
END
gcc -O2 -o "$data/child" "$data/child.c"
gcc -O2 -o "$data/loop" "$data/loop.c"

(cd "$data/mapped" && "$here/../couchview" serve < /dev/null)
serve=$here/../crates/couchview_cli/out/couchview_cli

# Documents of some 200 bytes, as puts and as the lines that the child is sent.
awk -v n="$documents" -v views="$views" 'BEGIN { for (v = 0; v < views; v++) for (i = 1; i <= n; i++) { d = sprintf("{\"_id\":\"d%07d\",\"_rev\":\"1-%032x\",\"n\":%d,\"text\":\"%0110d\"}", i, i, i, i); print "[\"map_doc\"," d "]" } }' > "$data/maps"
awk -v n="$documents" 'BEGIN { print "{\"put\":{\"_id\":\"_design/d\",\"language\":\"fast\",\"views\":{\"v\":{\"map\":\"x\"}}}}"; for (i = 1; i <= n; i++) printf "{\"put\":{\"_id\":\"d%07d\",\"n\":%d,\"text\":\"%0110d\"}}\n", i, i, i }' > "$data/puts"
for _ in $(seq "$views"); do echo '{"view":["d","v"]}'; done > "$data/view"
(cd "$data/mapped" && "$serve" serve "fast=$data/child" < "$data/puts" > "$data/out")
grep -c '^{"ok":true' "$data/out" | grep -qx $((documents + 1)) || { echo "bench/children.sh: a put failed" >&2; exit 1; }
echo "documents: $documents, mapped $views times, lines to the child of $(head -n 1 "$data/maps" | awk '{ print length($0) }') bytes"

now() { date +%s.%N; }

# seconds COMMAND..: prints the least time of three runs
seconds() {
    best=
    for _ in 1 2 3; do
        start=$(now)
        "$@"
        stop=$(now)
        best=$(awk -v a="$start" -v b="$stop" -v c="$best" 'BEGIN { t = b - a; if (c == "" || t < c) c = t; printf "%.4f", c }')
    done
    echo "$best"
}
run_loop() { "$data/loop" "$data/child" "$data/maps"; }
run_open() { (cd "$data/mapped" && "$serve" serve "fast=$data/child") < /dev/null > "$data/out"; }
run_view() { (cd "$data/mapped" && "$serve" serve "fast=$data/child") < "$data/view" > "$data/out"; }

loop=$(seconds run_loop)
open=$(seconds run_open)
view=$(seconds run_view)
tail -n 1 "$data/out" | grep -q '^{"total_rows":0,' || { echo "bench/children.sh: the view failed: $(tail -n 1 "$data/out" | cut -c 1-200)" >&2; exit 1; }
# The time to open the folder is taken off.
awk -v n=$((documents * views)) -v loop="$loop" -v open="$open" -v view="$view" 'BEGIN {
    printf "bare loop:        %10.4f s  %10.0f round trips/s\n", loop, n / loop
    printf "opening alone:    %10.4f s\n", open
    printf "views:            %10.4f s  %10.0f documents/s\n", view - open, n / (view - open)
    printf "view / bare loop: %.2f\n", loop / (view - open)
}'
