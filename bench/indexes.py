"""Times of first builds and of updates of indexes, and their length. Called by indexes.sh."""

import json
import os
import re
import shutil
import struct
import subprocess
import sys
import time

PROGRAM, DATA = sys.argv[1:3]
SIZES = [int(size) for size in sys.argv[3:]]
ROUNDS = 15

# The view `v` has a row for each document, `few` none. A reply of `few` reads no rows, so it takes as long as the index. The design `map`
# maps the same documents by sources that emit nothing.
NONE = "if doc.town == 'none' { emit doc.n, doc.name }"
DESIGNS = {
    "index": {"v": {"map": "emit [doc.town, doc.n], doc.name", "reduce": "_count"}, "few": {"map": NONE}},
    "map": {"v": {"map": NONE, "reduce": "_count"}, "few": {"map": NONE}},
}


def document(number):
    return {"_id": "d%07d" % number, "n": number, "name": "Ida Dal", "tags": ["a", "b"], "town": "Oslo %d" % (number % 97), "z": "x" * 60}


def spelled(term):
    """A term as files have it (docs/FILE_FORMAT.md, "Terms")."""
    if isinstance(term, dict):
        members = [struct.pack("<I", len(name)) + name.encode() + spelled(term[name]) for name in sorted(term)]
        return struct.pack("<BI", 5, len(term)) + b"".join(members)
    if isinstance(term, list):
        return struct.pack("<BI", 6, len(term)) + b"".join(map(spelled, term))
    if isinstance(term, int):
        return struct.pack("<Bq", 1, term)
    return struct.pack("<BI", 7, len(term)) + term.encode()


def documents_file(documents):
    """A file of these documents, each written once, in their order."""
    data, entries = b"", []
    for number, one in enumerate(documents, 1):
        id, body = one["_id"].encode(), spelled(one)
        place = (number, 1, 0, 8192 + len(data), len(body))
        entries.append((id, struct.pack("<II", len(id) + 33, len(id)) + id + struct.pack("<QQBQI", *place)))
        data += body
    root = struct.pack("<QQ", len(documents), len(entries)) + b"".join(entry for _, entry in sorted(entries))
    commit = 2 * len(documents)
    slot = (b"CVIEW001" + struct.pack("<QQQ", commit, 8192 + len(data), len(root))).ljust(64, b"\0") + b"\1"
    return slot.ljust(8192, b"\0") + data + root


class Run:
    """A run of the program, asked line by line."""

    def __init__(self, folder, before=()):
        self.child = subprocess.Popen([*before, PROGRAM, "serve"], cwd=folder, stdin=subprocess.PIPE, stdout=subprocess.PIPE)

    def ask(self, request):
        """The seconds that the reply took. A refusal ends the measurement."""
        began = time.perf_counter()
        self.child.stdin.write(json.dumps(request, separators=(",", ":")).encode() + b"\n")
        self.child.stdin.flush()
        reply = self.child.stdout.readline()
        if not reply or reply.startswith(b'{"error"'):
            sys.exit("bench/indexes: %r is answered %r" % (request, reply))
        return time.perf_counter() - began

    def end(self):
        self.child.stdin.close()
        self.child.wait()


def folder_of(name, size):
    folder = os.path.join(DATA, "%s-%d" % (name, size))
    os.makedirs(folder)
    designs = [{"_id": "_design/" + id, "language": "pick", "views": views} for id, views in DESIGNS.items()]
    with open(os.path.join(folder, "docs.0"), "wb") as file:
        file.write(documents_file([document(number) for number in range(size)] + designs))
    return folder


def index_of(folder):
    """The one file of an index that has bytes."""
    names = [os.path.join(folder, name) for name in os.listdir(folder) if not name.startswith("docs.")]
    return max(names, key=os.path.getsize)


def node_lengths(items, keep):
    """How long a packed tree of items is, whose inner entries keep so many bytes of a summary: nodes of 32."""
    total = sum(8 + 2 + sum(8 + item for item in items[at:at + 32]) for at in range(0, len(items), 32))
    level = [items[min(at + 31, len(items) - 1)] for at in range(0, len(items), 32)]
    while len(level) > 1:
        total += sum(8 + 2 + sum(32 + last + keep for last in level[at:at + 32]) for at in range(0, len(level), 32))
        level = [level[min(at + 31, len(level) - 1)] for at in range(0, len(level), 32)]
    return total


def packed_length(size):
    """How long the file of the index is where each node is full."""
    rows, back = [], []
    for number in range(size):
        one = document(number)
        key, id = spelled([one["town"], one["n"]]), 4 + len(one["_id"])
        rows.append(len(key) + id + 4 + len(spelled(one["name"])))
        back.append(id + 4 + 2 + len(key) + 4)
    return 8192 + node_lengths(rows, 24) + node_lengths(back, 0) + 78


def calls_of(folder, size):
    """The calls of the system that an update behind one change makes: what `strace` sees of a second one, as (name, bytes)."""
    trace = os.path.join(DATA, "trace")
    run = Run(folder, ["strace", "-o", trace, "-e", "trace=pread64,pwrite64,ftruncate,fdatasync"])
    for number in (0, 1):
        run.ask({"put": document(size + number)})
        with open(trace) as file:
            begin = len(file.readlines())
        run.ask({"view": ["index", "few"]})
    with open(trace) as file:
        lines = file.readlines()[begin:]
    run.end()
    found = [re.match(r"(\w+)\(.*?(\d+), \d+\) += (\d+)|(\w+)\(", line) for line in lines]
    return [(one[1] or one[4], int(one[3] or 0)) for one in found]


def replay(calls, path):
    """The seconds that these calls take on a copy of the file, and nothing else."""
    file = os.open(path, os.O_RDWR)
    length = os.fstat(file).st_size
    began = time.perf_counter()
    for name, count in calls:
        if name == "pread64":
            os.pread(file, count, 8192)
        elif name == "pwrite64":
            os.pwrite(file, b"x" * count, length if count > 64 else 4096)
            length += count if count > 64 else 0
        elif name == "ftruncate":
            os.ftruncate(file, length + 4096)
        else:
            os.fdatasync(file)
    taken = time.perf_counter() - began
    os.close(file)
    return taken


def measure(size):
    folder = folder_of("db", size)
    run = Run(folder)
    mapped = run.ask({"view": ["map", "few"]})
    built = run.ask({"view": ["index", "few"]})
    index = index_of(folder)
    length = os.path.getsize(index)
    run.end()
    copy = folder + "-copy"
    shutil.copytree(folder, copy)
    calls = calls_of(copy, size)
    run = Run(folder)
    run.ask({"view": ["index", "few"]})
    updates, bare = [], []
    for number in range(ROUNDS):
        run.ask({"put": document(size + number)})
        updates.append(run.ask({"view": ["index", "few"]}))
        bare.append(replay(calls, index_of(copy)))
    run.end()
    print("%d documents" % size)
    print("    mapped alone   %8.0f documents/s" % (size / mapped))
    print("    first build    %8.0f documents/s, %.2f of that" % (size / built, mapped / built))
    update, alone = sorted(updates)[ROUNDS // 2], sorted(bare)[ROUNDS // 2]
    print("    an update      %8.3f ms behind one change; its %d calls alone %.3f ms, so it takes %.2f times as long" % (update * 1e3, len(calls), alone * 1e3, update / alone))
    print("    the file       %8.2f MB after the first build, %.2f times as long as packed" % (length / 1e6, length / packed_length(size)))


for documents in SIZES:
    measure(documents)
