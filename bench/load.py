"""Times of a load, whole and in parts. Called by load.sh."""

import json
import os
import shutil
import subprocess
import sys
import time

PROGRAM, DATA = sys.argv[1:3]
DOCS, NUMBER = int(sys.argv[3]), int(sys.argv[4])
DESIGN = {
    "_id": "_design/load",
    "language": "pick",
    "views": {"by_group": {"map": "emit [doc.group, doc.amount], doc.amount", "reduce": "_stats"}},
}
VIEW = {"view": ["load", "by_group"], "query": {"group_level": 1}}


def values():
    """The value of each document, in order."""
    x = NUMBER
    for _ in range(DOCS):
        x = (1103515245 * x + 12345) % 2**31
        yield x // 65536


def documents():
    return [{"_id": "doc%06d" % k, "group": v % 10, "amount": v // 10} for k, v in enumerate(values(), 1)]


def raised(documents):
    """Every third document, its amount one greater; the design is write 1, so document k is write k + 1."""
    for k, document in enumerate(documents, 1):
        if k % 3 == 0:
            yield dict(document, _rev="1-%032x" % (k + 1), amount=document["amount"] + 1)


class Run:
    """A run of `serve`, asked for parts of requests."""

    def __init__(self, folder):
        self.child = subprocess.Popen([PROGRAM, "serve"], cwd=folder, stdin=subprocess.PIPE, stdout=subprocess.PIPE)

    def ask(self, name, requests):
        """Prints the seconds that the replies took, and gives the last one. One that is a refusal ends the measurement."""
        began = time.perf_counter()
        count = 0
        for request in requests:
            self.child.stdin.write(json.dumps(request, separators=(",", ":")).encode() + b"\n")
            self.child.stdin.flush()
            reply = self.child.stdout.readline()
            if not reply or reply.startswith(b'{"error"'):
                sys.exit("bench/load: %r is answered %r" % (request, reply))
            count += 1
        print("%-12s %6d requests %9.2f s" % (name, count, time.perf_counter() - began), flush=True)
        return reply

    def end(self):
        self.child.stdin.close()
        if self.child.wait() != 0:
            sys.exit("bench/load: serve ends with status %d" % self.child.returncode)


def main():
    began = time.perf_counter()
    whole = subprocess.run([PROGRAM, "load", str(DOCS), str(NUMBER)], cwd=os.path.join(DATA, "whole"), stdout=subprocess.PIPE)
    print("%-12s %6d documents %8.2f s" % ("load", DOCS, time.perf_counter() - began), flush=True)
    shutil.rmtree(os.path.join(DATA, "whole"))
    lines = whole.stdout.splitlines(keepends=True)
    if whole.returncode != 0 or len(lines) != 4:
        sys.exit("bench/load: load ends with status %d after %d lines" % (whole.returncode, len(lines)))
    if lines[1] != lines[2]:
        sys.exit("bench/load: the second line of load is not the third")
    run = Run(os.path.join(DATA, "parts"))
    written = documents()
    run.ask("puts", [{"put": DESIGN}] + [{"put": document} for document in written])
    first = run.ask("first view", [VIEW])
    updates = [{"put": document} for document in raised(written)]
    if updates:
        run.ask("updates", updates)
    second = run.ask("second view", [VIEW])
    info = run.ask("info", [{"info": True}])
    run.end()
    if [first, second, info] != [lines[0], lines[1], lines[3]]:
        sys.exit("bench/load: load prints other replies than serve")


main()
