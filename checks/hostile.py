"""Sends the program valid and hostile lines. Called by hostile.sh."""

import json
import os
import random
import subprocess
import sys
import threading

LINES = 200_000
SEED = 7
IDS = 30
LINE_LIMIT = 2_097_152
MEMORY_LIMIT = 32_000  # in KB
PROGRAM, WORK = sys.argv[1:3]


def fail(text):
    print("hostile: " + text)
    sys.exit(1)


def text_of(value):
    return json.dumps(value, separators=(",", ":"), ensure_ascii=False)


def refusal(error, reason):
    return text_of({"error": error, "reason": reason})


def revision(generation, number):
    return "%d-%032x" % (generation, number)


class Documents:
    """The rules of writes once more: of each id its generation, the number of its last write, and the document or none."""

    def __init__(self):
        self.writes = 0
        self.last = {}

    def present(self, name):
        generation, number, _ = self.last[name]
        return revision(generation, number)

    def wrote(self, name, document):
        self.writes += 1
        generation = self.last[name][0] + 1 if name in self.last else 1
        if document is not None:
            document = {**document, "_rev": revision(generation, self.writes)}
        self.last[name] = generation, self.writes, document
        return text_of({"ok": True, "id": name, "rev": self.present(name)})

    def put(self, document):
        name, given = document["_id"], document.get("_rev")
        if name not in self.last:
            takes = given is None
        elif self.last[name][2] is None:
            takes = given in (None, self.present(name))
        else:
            takes = given == self.present(name)
        if not takes:
            return refusal("conflict", "Document update conflict.")
        return self.wrote(name, document)

    def delete(self, name, given):
        if name not in self.last:
            return refusal("not_found", "missing")
        if self.last[name][2] is None:
            return refusal("not_found", "deleted")
        if given != self.present(name):
            return refusal("conflict", "Document update conflict.")
        return self.wrote(name, None)

    def get(self, name):
        if name not in self.last:
            return refusal("not_found", "missing")
        document = self.last[name][2]
        if document is None:
            return refusal("not_found", "deleted")
        return text_of(dict(sorted(document.items(), key=lambda member: member[0].encode())))

    def info(self):
        live = sum(1 for last in self.last.values() if last[2] is not None)
        return text_of({"doc_count": live, "doc_del_count": len(self.last) - live, "update_seq": self.writes})

    def view(self):
        """The rows of the map function `n`: keys are numbers, and rows with one key stand in byte order of id."""
        live = [(document["n"], name) for name, (_, _, document) in self.last.items() if document is not None and "n" in document]
        rows = [{"id": name, "key": key, "value": None} for key, name in sorted(live)]
        return text_of({"total_rows": len(rows), "offset": 0, "rows": rows})


class Lines:
    """Seeded lines, and what is expected of each: a reply, or any one reply line."""

    def __init__(self):
        self.numbers = random.Random(SEED)
        self.documents = Documents()

    def name(self):
        return "d%d" % self.numbers.randrange(IDS)

    def value(self, depth=0):
        kind = self.numbers.randrange(7 if depth < 4 else 5)
        if kind < 5:
            return (None, True, self.numbers.randrange(-(2**63), 2**63), "\u00e9\u20ac\"\\\n\x01"[: self.numbers.randrange(7)], 0)[kind]
        inner = [self.value(depth + 1) for _ in range(self.numbers.randrange(4))]
        return inner if kind == 5 else {"k%d" % place: value for place, value in enumerate(inner)}

    def write(self):
        """A put or a deletion, by its present revision, by none or by another one."""
        name = self.name()
        given = None
        if name in self.documents.last and self.numbers.random() < 0.7:
            given = self.documents.present(name)
        if self.numbers.random() < 0.1:
            given = revision(self.numbers.randrange(1, 4), self.numbers.randrange(1, 4))
        if self.numbers.random() < 0.3:
            request = {"delete": name} if given is None else {"delete": name, "rev": given}
            return text_of(request), self.documents.delete(name, given)
        document = {"_id": name, "n": self.numbers.randrange(10), "x": self.value()}
        if given is not None:
            document["_rev"] = given
        line = text_of({"put": document})
        document.pop("_rev", None)
        return line, self.documents.put({**document, **({} if given is None else {"_rev": given})})

    def valid(self):
        kind = self.numbers.random()
        if kind < 0.03:
            return self.write()
        if kind < 0.04:
            return '{"view":["by","n"]}', self.documents.view()
        if kind < 0.2:
            return '{"info":true}', self.documents.info()
        name = self.name()
        return text_of({"get": name}), self.documents.get(name)

    def hostile(self):
        """A line that changes nothing, of which one reply is due, whatever it is."""
        kind = self.numbers.randrange(6)
        if kind == 0:
            line = bytes(self.numbers.randrange(256) for _ in range(self.numbers.randrange(1, 60)))
        elif kind == 1:
            line = b"[" * self.numbers.randrange(1, 300)
        elif kind == 2:
            line = b'{"get":' + b"[" * 150 + b"]" * 150 + b"}"
        elif kind == 3:
            line = text_of(self.value()).encode()
        elif kind == 4:
            names = ("view", "cursor", "next", "close", "compact", "cleanup", "all_docs", "get", "info", "query", "count")
            line = text_of({name: self.value() for name in self.numbers.sample(names, self.numbers.randrange(1, 4))}).encode()
        else:
            # A request with one byte changed, in the part that isn't its end, so that it is no other write.
            line = bytearray(text_of({"get": self.name()}).encode())
            line[self.numbers.randrange(len(line))] = self.numbers.randrange(256)
        return bytes(line).replace(b"\n", b" ")

    def all(self):
        """The design, and then a mixture: the lines, each with the reply that is due, `any`, or none for an empty line."""
        design = {"_id": "_design/by", "language": "field", "views": {"n": {"map": "n"}}}
        yield text_of({"put": design}).encode(), self.documents.put(design)
        for number in range(LINES):
            kind = self.numbers.random()
            if number in (LINES // 3, LINES // 2):
                yield b'{"get":"' + b"x" * LINE_LIMIT + b'"}', refusal("line_too_long", "line passes 2097152 bytes")
            elif kind < 0.02:
                yield b"", None
            elif kind < 0.6:
                line, reply = self.valid()
                yield line.encode(), reply
            else:
                yield self.hostile(), "any"


def memory_of(process):
    """The most memory that a running process has had, in KB."""
    with open("/proc/%d/status" % process.pid) as status:
        return next(int(line.split()[1]) for line in status if line.startswith("VmHWM:"))


def run(folder, feed, data):
    """The replies, and the most memory that the program had taken when it was given the last bytes, in KB."""
    os.mkdir(folder)
    process = subprocess.Popen([PROGRAM, "serve"], cwd=folder, stdin=subprocess.PIPE, stdout=subprocess.PIPE)
    memory = []

    def give():
        feed(process.stdin.fileno(), data)
        memory.append(memory_of(process))
        process.stdin.close()

    feeder = threading.Thread(target=give)
    feeder.start()
    chunks = []
    while chunk := os.read(process.stdout.fileno(), 1 << 16):
        chunks.append(chunk)
    feeder.join()
    if process.wait() != 0:
        fail("the status is %d" % process.returncode)
    return b"".join(chunks), memory[0]


def in_pieces(pipe, data):
    rest = memoryview(data)
    while rest:
        rest = rest[os.write(pipe, rest) :]


def byte_by_byte(pipe, data):
    for place in range(len(data)):
        os.write(pipe, data[place : place + 1])


lines = list(Lines().all())
data = b"\n".join(line for line, _ in lines) + b"\n"
whole, memory = run(os.path.join(WORK, "whole"), in_pieces, data)
replies = whole.split(b"\n")
if replies.pop() != b"":
    fail("the last reply has no newline")
due = [(line, reply) for line, reply in lines if reply is not None]
if len(replies) != len(due):
    fail("%d lines aren't empty, and there are %d replies" % (len(due), len(replies)))
for (line, reply), got in zip(due, replies):
    if reply == "any":
        json.loads(got)
    elif got.decode() != reply:
        fail("%r was answered %r and not %r" % (line[:200], got[:200], reply[:200]))
if memory > MEMORY_LIMIT:
    fail("%d KB of memory were taken" % memory)
slow, _ = run(os.path.join(WORK, "bytes"), byte_by_byte, data)
if slow != whole:
    fail("the replies differ where the input comes byte by byte")
known = sum(1 for _, reply in due if reply != "any")
print("hostile: %d lines, %d replies, %d of them known before; %d KB of memory at most" % (len(lines), len(replies), known, memory))
