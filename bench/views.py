"""Times of first views and of views behind one change. Called by views.sh."""

import json
import os
import subprocess
import sys
import time

PROGRAM, SERVERS, DATA = sys.argv[1:4]
SIZES = [int(size) for size in sys.argv[4:]]
ROUNDS = 5
DESIGNS = {
    "field": {"language": "field", "views": {"v": {"map": "town"}}},
    "pick": {"language": "pick", "views": {"v": {"map": "for t in doc.tags { emit [t, doc.n], doc.name }"}}},
    "python": {"language": "python", "views": {"v": {"map": "def fun(doc):\n    yield doc['town'], None"}}},
}


def document(number):
    return {"_id": "d%07d" % number, "n": number, "name": "Ida Dal", "tags": ["a", "b"], "town": "Oslo %d" % (number % 97), "z": "x" * 60}


class Run:
    """A run of the program, asked line by line."""

    def __init__(self, folder):
        words = [PROGRAM, "serve", "python=" + os.path.join(SERVERS, "python.py")]
        self.child = subprocess.Popen(words, cwd=folder, stdin=subprocess.PIPE, stdout=subprocess.PIPE)

    def ask(self, request):
        """The seconds that the reply took, and the reply. One that isn't there or is a refusal ends the measurement."""
        began = time.perf_counter()
        self.child.stdin.write(json.dumps(request, separators=(",", ":")).encode() + b"\n")
        self.child.stdin.flush()
        reply = self.child.stdout.readline()
        if not reply or reply.startswith(b'{"error"'):
            sys.exit("bench/views: %r is answered %r" % (request, reply))
        return time.perf_counter() - began, reply

    def end(self):
        self.child.stdin.close()
        self.child.wait()


def fresh(name, size):
    """A folder with the documents and the design, and the run that put them."""
    folder = os.path.join(DATA, "%s-%d" % (name, size))
    os.makedirs(folder)
    run = Run(folder)
    for number in range(size):
        run.ask({"put": document(number)})
    run.ask({"put": dict(DESIGNS[name], _id="_design/d")})
    return folder, run


def index_bytes(folder):
    """The bytes of the files that aren't the documents'."""
    return sum(os.path.getsize(os.path.join(folder, name)) for name in os.listdir(folder) if not name.startswith("docs."))


def measure(name, size):
    folder, run = fresh(name, size)
    view = {"view": ["d", "v"]}
    first, reply = run.ask(view)
    rows = json.loads(reply)["total_rows"]
    idle = min(run.ask(view)[0] for _ in range(ROUNDS))
    before, changed = index_bytes(folder), []
    for number in range(ROUNDS):
        run.ask({"put": document(size + number)})
        changed.append(run.ask(view)[0])
    grown = (index_bytes(folder) - before) / ROUNDS
    run.end()
    row = (name, size, rows, first, size / first, min(changed) * 1e3, idle * 1e3, grown / 1e6)
    print("%-7s %7d %8d %9.3f %10.0f %10.1f %8.1f %10.2f" % row)


print("%-7s %7s %8s %9s %10s %10s %8s %10s" % ("server", "docs", "rows", "first, s", "docs/s", "change, ms", "idle, ms", "commit, MB"))
for server in DESIGNS:
    for documents in SIZES:
        measure(server, documents)
