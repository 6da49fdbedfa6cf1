"""Compares two runs of couchview over the same request lines: python3 pick_child.py COUCHVIEW MAP_SERVER

COUCHVIEW and MAP_SERVER are the built programs. In one run the language pick is mapped by MAP_SERVER as a child, in the
other by the server in the process. It ends with status 1 and a complaint where a reply differs or is missing, where no
view has rows, where no child was started, or where a run takes a minute.
"""
import itertools
import json
import os
import re
import subprocess
import sys
import tempfile

SECONDS = 60

# Map functions that compile, by the names of their views.
MAPS = {
    "empty": "",
    "number": "emit doc.n, doc._id",
    "whole": "emit doc, doc",
    "revision": "emit doc._rev, -7",
    "missing": "emit doc.none, 1 emit 1, doc.n.none emit doc.tags['x'], 1 emit [doc.n, doc.none], 2",
    "tags": "for x in doc.tags { emit x, 1 }",
    "lists": "emit [doc.kind, [doc.n, []], doc.tags], [true, false, null, -9223372036854775808, 'a\tb \"c\" \\']",
    "kinds": "if doc.kind == 'odd' { emit doc.n, 'odd' } if doc.kind == 'even' { emit [doc.n], 'even' }",
    "equal": "for x in doc.tags { if x == doc.tags[0] { emit [x, doc.n], x } } if doc.rows == doc.more.rows { emit 'same', null }",
    "rows": "for row in doc.rows { emit row, 0 for x in row { emit [x, doc._id], row } }",
    "places": "emit doc.rows[0][1], doc.rows[1] emit doc.rows[99], 0 emit doc.more.rows[0][0], doc['more']['a b']",
    "unicode": "emit doc['größe'], 'naïve ☃ 😀' emit doc.name.first, doc['name']['日本']",
    "words": "emit doc.for.in, doc.emit.if",
    "parts": "for p in doc.parts { emit [p.a, p.b.c], p if p.b == null { emit 'no b', p.a } }",
    # 160,000 turns, of which 100,000 are made.
    "turns": "for x in doc.many { for y in doc.many { if x == y { emit y, x } } }",
    # Some 2,000,000 bytes, of which 1,048,576 are emitted.
    "large": "for x in doc.many { emit x, doc.long }",
}

# Map functions that don't compile.
BAD_MAPS = [
    "emit doc.n",
    "emit x, 1",
    "emit doc.n, 1.5",
    "emit doc.n, 'a",
    "emit doc.n, 9223372036854775808",
    "if doc.n = 1 { emit 1, 1 }",
    "for x in doc.a { for x in doc.b { emit x, x } }",
    "for x in doc.a { emit x, 1 } emit x, 1",
    "emit " + "[" * 17 + "]" * 17 + ", 1",
    "function (doc) { emit(doc.n, 1) }",
]

TEXTS = ["", "t", "rye", "Ole", "größe", "naïve", "日本", "😀", "\u0000\u001f\u007f", "\"\\/", "\u2028", "\ufffd", "e\u0301", "é"]
NUMBERS = [0, 1, -1, 7, 10, 2**31, -(2**53) - 1, 2**63 - 1, -(2**63)]


def complain(text):
    print("pick_child: %s" % text, file=sys.stderr)
    sys.exit(1)


class Draw:
    """Numbers that look random, and are the same in each run."""

    def __init__(self):
        self.state = 1

    def below(self, count):
        self.state = (self.state * 6364136223846793005 + 1442695040888963407) % 2**64
        return (self.state >> 33) % count

    def one_of(self, values):
        return values[self.below(len(values))]

    def value(self, depth):
        """A value that nests at most so deep."""
        kind = self.below(8 if depth > 0 else 5)
        if kind == 0:
            return self.one_of([None, True, False])
        if kind < 3:
            return self.one_of(NUMBERS)
        if kind < 5:
            return self.one_of(TEXTS)
        if kind < 7:
            return [self.value(depth - 1) for _ in range(self.below(4))]
        return {self.one_of(TEXTS): self.value(depth - 1) for _ in range(self.below(4))}


def document(draw, number):
    """A document of which each member may be missing."""
    of_name = {"first": draw.one_of(TEXTS), "日本": draw.value(2)}
    members = {
        "n": number // 3 - 20,
        "kind": "odd" if number % 2 else "even",
        "tags": [draw.one_of(TEXTS) for _ in range(draw.below(6))],
        "rows": [[draw.value(1) for _ in range(draw.below(4))] for _ in range(draw.below(4))],
        "more": {"rows": draw.value(3), "a b": draw.value(2)},
        "größe": draw.one_of(NUMBERS),
        "name": of_name,
        "for": {"in": draw.value(1)},
        "emit": {"if": draw.value(1)},
        "parts": [{"a": draw.value(1), "b": draw.one_of([None, {"c": number}, {}])} for _ in range(draw.below(3))],
    }
    left = {name: value for name, value in members.items() if draw.below(4) > 0}
    # A member that the maps look into is of some other kind now and then.
    if draw.below(5) == 0:
        left[draw.one_of(sorted(members))] = draw.value(3)
    return {"_id": "%s%03d" % (draw.one_of(["", "d", "ü", "😀"]), number), **left}


def nested(depth):
    return [] if depth == 0 else [nested(depth - 1)]


LARGE_DOCUMENTS = [
    {"_id": "many", "many": list(range(400)), "long": "x☃" * 1250},
    {"_id": "deep", "tags": nested(60), "rows": [nested(60)]},
    {"_id": "long", "n": "y" * 300_000, "tags": ["y" * 100_000]},
]


def designs():
    """Each map function alone, all together, and those that don't compile, one of them beside one that does."""
    for name, source in MAPS.items():
        yield {"_id": "_design/" + name, "language": "pick", "views": {name: {"map": source}}}
    yield {"_id": "_design/all", "language": "pick", "views": {name: {"map": source} for name, source in MAPS.items() if name != "large"}}
    for number, source in enumerate(BAD_MAPS):
        yield {"_id": "_design/bad%d" % number, "language": "pick", "views": {"bad": {"map": source}, "number": {"map": MAPS["number"]}}}


def views():
    for name in MAPS:
        yield [name, name]
        if name != "large":
            yield ["all", name]
    for number in range(len(BAD_MAPS)):
        yield ["bad%d" % number, "bad" if number % 2 else "number"]


def requests():
    """The request lines: designs, and then documents with views between them."""
    draw = Draw()
    # The large documents come late, since each view maps all documents.
    documents = [document(draw, number) for number in range(180)] + LARGE_DOCUMENTS
    asked = itertools.cycle(views())
    for design in designs():
        yield {"put": design}
    yield {"view": next(asked)}
    for number, one in enumerate(documents):
        yield {"put": one}
        if number % 2:
            yield {"view": next(asked)}
    for view in views():
        yield {"view": view}
    yield {"view": ["all", "tags"]}


def line_of(number, request):
    """The request as a line, with escapes in every second one."""
    return json.dumps(request, separators=(",", ":"), ensure_ascii=bool(number % 2))


def replies(step, words, text):
    """The lines that a run answers."""
    try:
        with tempfile.TemporaryDirectory() as folder:
            run = subprocess.run(words, cwd=folder, input=text, stdout=subprocess.PIPE, stderr=subprocess.DEVNULL, timeout=SECONDS)
    except subprocess.TimeoutExpired:
        complain("%s: the run takes more than %d seconds" % (step, SECONDS))
    if run.returncode != 0:
        complain("%s: the exit status is %d" % (step, run.returncode))
    if not run.stdout.endswith(b"\n"):
        complain("%s: the last reply has no newline" % step)
    return run.stdout[:-1].split(b"\n")


def around(reply, place):
    """The part of a reply around a place."""
    return reply[max(place - 200, 0):place + 200].decode(errors="replace")


def main():
    couchview, map_server = map(os.path.abspath, sys.argv[1:])
    for program in couchview, map_server:
        if not os.access(program, os.X_OK):
            complain("%s isn't there, or can't be run" % program)
    lines = [line_of(number, request) for number, request in enumerate(requests())]
    text = "".join(line + "\n" for line in lines).encode()
    with tempfile.TemporaryDirectory(prefix="couchview-pick-") as folder:
        # The child notes each of its starts.
        starts, child = os.path.join(folder, "starts"), os.path.join(folder, "child")
        with open(child, "w") as file:
            file.write('#!/bin/sh\necho start >> "%s"\nexec "%s"\n' % (starts, map_server))
        os.chmod(child, 0o755)
        by_child = replies("over a child", [couchview, "serve", "pick=" + child], text)
        if not os.path.exists(starts):
            complain("no child was started")
        in_process = replies("in the process", [couchview, "serve"], text)
    for step, got in ("over a child", by_child), ("in the process", in_process):
        if len(got) != len(lines):
            complain("%s: %d replies to %d lines" % (step, len(got), len(lines)))
    for line, one, other in zip(lines, by_child, in_process):
        if one != other:
            at = len(os.path.commonprefix([one, other]))
            complain("the replies to\n  %s\ndiffer at byte %d: over a child\n  %s\nand in the process\n  %s" % (line[:1500], at, around(one, at), around(other, at)))
    with_rows = sum(bool(re.match(rb'{"total_rows":[1-9]', reply)) for reply in in_process)
    not_compiled = sum(reply.startswith(b'{"error":"compilation_error"') for reply in in_process)
    if with_rows == 0:
        complain("no view has rows")
    print("pick_child: %d replies are the same, %d with rows and %d of designs that don't compile" % (len(lines), with_rows, not_compiled))


main()
