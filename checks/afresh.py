"""Random writes, design changes, views, cleanups and kills beside a short model: python3 afresh.py PROGRAM SERVERS SCRIPTS

PROGRAM is the built couchview, SERVERS the folder of the example query servers. Each script is a database of its own: some
300 writes over plain documents and three design documents in three languages, in runs that end or are killed. The model
says each reply, and has no indexes: a view maps all live documents and sorts their rows. Behind a cleanup at the end of a run
there are no more indexes with bytes than live designs that differ. It ends with status 1 and a complaint that has the script's
number and the line.
"""
import json
import os
import random
import subprocess
import sys
import time

from locks import wait_for_lock

PROGRAM, SERVERS, SCRIPTS = sys.argv[1], sys.argv[2], int(sys.argv[3])
WORDS = [PROGRAM, "serve", "python=" + os.path.join(SERVERS, "python.py")]
RUNS, LINES = 24, 26


def member(name):
    return lambda doc: [(doc[name], None)] if name in doc else []


def both(key, value):
    return lambda doc: [(doc[key], doc[value])] if key in doc and value in doc else []


def tags(doc):
    return [(tag, doc["_id"]) for tag in doc.get("tags", [])]


def twice(doc):
    """Two rows of one key, of which the first stays first."""
    return [(1, doc[name]) for name in ("name", "n") if name in doc]


def picked(doc):
    chosen = [([doc["n"], "Ida"], 1)] if doc.get("name") == "Ida" and "n" in doc else []
    return chosen + [(doc["_id"], None)]


# Sources that a view may have, and what they map a document to. None is a source that its query server complains of.
FIELD = {"name": member("name"), "n": member("n"), "tags": member("tags")}
PICK = {
    "emit doc.name, doc.n": both("name", "n"),
    "for t in doc.tags { emit t, doc._id }": tags,
    "emit 1, doc.name emit 1, doc.n": twice,
    "if doc.name == 'Ida' { emit [doc.n, doc.name], 1 } emit doc._id, null": picked,
    "emit doc.name": None,
}
PYTHON = {
    "def fun(doc):\n    if 'n' in doc:\n        yield doc['n'], None": member("n"),
    "def fun(doc):\n    for tag in doc.get('tags', []):\n        yield tag, doc['_id']": tags,
}
LANGUAGES = {"field": FIELD, "pick": PICK, "python": PYTHON}
VALUES = [0, 7, -3, 2**62, "Ida", "B", "a", "\u00e9", "", None, True, False, [], [1], [1, "a"], ["a", 2], [[7], 0]]


def raw(value):
    """A key by which values stand in raw order."""
    if isinstance(value, bool) or value is None:
        return (1, [False, None, True].index(value))
    if isinstance(value, int):
        return (0, value)
    if isinstance(value, list):
        return (3, [raw(item) for item in value])
    return (4, value.encode())


def show(value):
    return json.dumps(value, separators=(",", ":"), ensure_ascii=False)


def refusal(error, reason):
    return show({"error": error, "reason": reason})


class Model:
    """The documents, by id: generation, number of the write, and the body, or None of a tombstone."""

    def __init__(self):
        self.documents, self.writes = {}, 0

    def rev(self, name):
        generation, number, body = self.documents.get(name, (0, 0, None))
        return None if body is None else "%d-%032x" % (generation, number)

    def write(self, name, rev, body):
        """The reply to a put, or where there is no body, to a deletion."""
        if body is None and self.rev(name) is None:
            return refusal("not_found", "deleted" if name in self.documents else "missing")
        if self.rev(name) != rev:
            return refusal("conflict", "Document update conflict.")
        self.writes += 1
        self.documents[name] = (self.documents.get(name, (0,))[0] + 1, self.writes, body)
        return show({"ok": True, "id": name, "rev": "%d-%032x" % self.documents[name][:2]})

    def view(self, design, view):
        """The reply to a view: all live documents are mapped, and their rows sorted."""
        name = "_design/" + design
        if self.rev(name) is None:
            return refusal("not_found", "deleted" if name in self.documents else "missing")
        body = self.documents[name][2]
        if view not in body["views"]:
            return refusal("not_found", "missing_named_view")
        maps = {one: LANGUAGES[body["language"]][text["map"]] for one, text in body["views"].items()}
        live = [dict(doc[2], _id=one) for one, doc in self.documents.items() if doc[2] is not None and one[0] != "_"]
        if None in maps.values():
            return refusal("compilation_error", name)
        rows = [(key, doc["_id"], value) for doc in live for key, value in maps[view](doc)]
        rows.sort(key=lambda row: (raw(row[0]), row[1]))
        rows = [{"id": one, "key": key, "value": value} for key, one, value in rows]
        return show({"total_rows": len(rows), "offset": 0, "rows": rows})


    def designs(self):
        """The live designs that differ in their language or views, in some order."""
        live = [body for name, (_, _, body) in self.documents.items() if name[0] == "_" and body is not None]
        return {show([body["language"], body["views"]]) for body in live}


CLEANUP = '{"cleanup":true}', lambda model: show({"ok": True})


class Script:
    """Random lines, and the model's replies to them."""

    def __init__(self, chance):
        self.chance, self.model = chance, Model()

    def design(self):
        language = self.chance.choice(list(LANGUAGES))
        sources = self.chance.sample(list(LANGUAGES[language]), self.chance.choice([1, 1, 2]))
        return {"language": language, "views": {view: {"map": text} for view, text in zip("vw", sources)}}

    def body(self):
        body = {name: self.chance.choice(VALUES) for name in ("name", "n") if self.chance.random() < 0.7}
        if self.chance.random() < 0.5:
            body["tags"] = [self.chance.choice(VALUES) for _ in range(self.chance.randrange(4))]
        return body

    def line(self):
        """A line, and what the model replies and does."""
        kind = self.chance.random()
        if kind < 0.35:
            words = self.chance.choice("abc"), self.chance.choice("vvw")
            return show({"view": list(words)}), lambda model: model.view(*words)
        if kind < 0.38:
            return CLEANUP
        design = kind < 0.48
        name = "_design/" + self.chance.choice("abc") if design else "d%d" % self.chance.randrange(25)
        rev = None if self.chance.random() < 0.05 else self.model.rev(name)
        if self.chance.random() < 0.2:
            line = {"delete": name} if rev is None else {"delete": name, "rev": rev}
            return show(line), lambda model: model.write(name, rev, None)
        body = self.design() if design else self.body()
        named = {"_id": name} if rev is None else {"_id": name, "_rev": rev}
        return show({"put": dict(named, **body)}), lambda model: model.write(name, rev, body)

    def lines(self, count):
        """As many lines with their replies."""
        pairs = []
        for _ in range(count):
            line, reply = self.line()
            pairs.append((line, reply(self.model)))
        return pairs


def want(step, got, wanted):
    if got != wanted:
        print("afresh: %s: %.600r in the place of %.600r" % (step, got, wanted))
        sys.exit(1)


def run(step, pairs):
    """A run that ends, and its replies."""
    text = "".join(line + "\n" for line, _ in pairs)
    done = subprocess.run(WORDS, input=text.encode(), stdout=subprocess.PIPE, stderr=subprocess.DEVNULL, timeout=600)
    want(step + ", status", done.returncode, 0)
    replies = done.stdout.decode().splitlines()
    for (line, wanted), got in zip(pairs, replies):
        want("%s, %s" % (step, line), got, wanted)
    want(step + ", replies", len(replies), len(pairs))


def indexes():
    """How many indexes have bytes in the folder."""
    return len({name[:32] for name in os.listdir(".") if len(name) == 34 and os.path.getsize(name) > 0})


def killed(step, script, seconds):
    """A run that is killed. What it answered is right and is there, and of the writes a first part; the rest is forgotten."""
    writes, documents = script.model.writes, dict(script.model.documents)
    states, pairs = {writes: documents}, []
    for pair in (script.lines(1)[0] for _ in range(LINES)):
        pairs.append(pair)
        states[script.model.writes] = dict(script.model.documents)
    child = subprocess.Popen(WORDS, stdin=subprocess.PIPE, stdout=subprocess.PIPE, stderr=subprocess.DEVNULL)
    child.stdin.write("".join(line + "\n" for line, _ in pairs).encode())
    child.stdin.flush()
    time.sleep(seconds * script.chance.random())
    child.kill()
    replies = child.communicate()[0].decode().split("\n")[:-1]
    wait_for_lock()
    for (line, wanted), got in zip(pairs, replies):
        want("%s, %s" % (step, line), got, wanted)
    answered = writes + sum(reply.startswith('{"ok":true,"id"') for reply in replies)
    info = subprocess.run(WORDS, input=b'{"info":true}\n', stdout=subprocess.PIPE, timeout=600).stdout
    script.model.writes = json.loads(info)["update_seq"]
    want(step + ", acknowledged writes are there", answered <= script.model.writes, True)
    script.model.documents = states[script.model.writes]
    return len(replies) < len(pairs)


def main():
    midst = writes = 0
    for number in range(SCRIPTS):
        os.makedirs("script%d" % number)
        os.chdir("script%d" % number)
        script, seconds = Script(random.Random(number)), 0.1
        for turn in range(RUNS):
            step = "script %d, run %d" % (number, turn)
            if turn % 3 == 2:
                midst += killed(step, script, seconds)
                continue
            began = time.monotonic()
            run(step, script.lines(LINES) + [(CLEANUP[0], CLEANUP[1](script.model))])
            want(step + ", indexes", indexes() <= len(script.model.designs()), True)
            seconds = time.monotonic() - began
        writes += script.model.writes
        os.chdir("..")
    want("whether any kill was in the midst of a run", midst > 0, True)
    print("afresh: %d scripts, %d writes, %d kills in the midst of a run" % (SCRIPTS, writes, midst))


main()
