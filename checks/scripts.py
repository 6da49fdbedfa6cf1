"""Seeded scripts of requests, each reply beside the model's: python3 scripts.py PROGRAM MAP_SERVER FIRST SCRIPTS

PROGRAM is the built couchview and MAP_SERVER the query server that is shipped. Each script is a database of its own: 60 lines in
one to four runs, with documents and designs that come, change, go and come back, queries with every parameter, reduces, cleanups,
lines that are no request, and query servers that are unknown, fail or lie. It ends with status 1 and the line whose reply is
another than that of model.py.
"""
import json
import os
import random
import subprocess
import sys

from model import FIELD, PICK, REDUCES, Model, show

PROGRAM, MAP_SERVER, FIRST, SCRIPTS = os.path.abspath(sys.argv[1]), os.path.abspath(sys.argv[2]), int(sys.argv[3]), int(sys.argv[4])
CHILDREN = {
    "dead": "exit 0",
    "flaky": 'if [ -e "$0.on" ]; then rm "$0.on"; exec "%s"; else : > "$0.on"; exit 1; fi' % MAP_SERVER,
    "liar": "while read -r line; do echo 'what?'; done",
    "sour": """while read -r line; do case $line in *reset*) echo true;; *) echo '["error","compilation_error","no"]';; esac; done""",
}
LINES = 60
VALUES = [0, 1, 1, 2, 7, -3, 2**63 - 1, -2**63, None, True, False, {}, {"a": 1}, {"a": 1, "b": []}, {"b": 0}, [], [1], [1, 0], [1, 0, 7], [1, 2], [[1], 2], [1, "a"], "", "a", "ab", "b", "\u00e9", "\U0001f600", "\u007f\u0001\"\\"]
NUMBERS = [0, 1, 1, 2, 3, -5, 2**63 - 1, -2**63, -2**63, [], [1], [1, 2], [0, 2**62]]
IDS = ["a", "a0", "ab", "b", "b\u00e9", "c", "d", "e\u007f", "\U0001f600"]
NOT_IDS = ["", "_", "_design", "_design/", "_local/a", 7, None]
DESIGNS = ["x", "y", "x y"]
NO_REQUESTS = ["{", "", "", "[]", "7", "1.5", '{"get":1}', '{"get":"a","rev":"b"}', '{"info":false}', '{"view":["x"]}', '{"view":["x","v"],"query":[]}', '{"put":{"_id":"a","n":1.0}}', '{"put":{"n":9223372036854775808}}', "[" * 101 + "]" * 101, "[" * 128 + "]" * 128, "null", '{"get":"a"} {}', '{"cleanup":1}', '{"delete":"a","rev":7}', " ", '{"put":{"_id":"a"},"put":{"_id":"zz"}}']
NOT_DESIGNS = [{"language": ""}, {"language": 7}, {"views": []}, {"views": {"v": {}}}, {"views": {"v": 1}}, {"views": {"lib": {"map": "a"}}}, {"views": {"v": {"map": "a", "reduce": 1}}}, {"views": {"v": {"map": "a", "reduce": "_max"}}}, {"options": []}, {"options": {"collation": "icu"}}, {"options": {"local_seq": True}}, {"views": {"v": {"map": "a", "options": {"x": 1}}}}, {"views": {"v%d" % i: {"map": "a"} for i in range(33)}}, {"language": 7, "views": 7, "options": 7}]


class Script:
    """Random lines; the model tells which revisions there are."""

    def __init__(self, seed):
        self.chance, self.model = random.Random(seed), Model()

    def often(self, share):
        return self.chance.random() < share

    def view(self, language):
        sources, reduces = (FIELD, {}) if language == "field" else (PICK, REDUCES)
        view = {"map": self.chance.choice(list(sources)) if not self.often(0.06) else "" if language == "field" else "emit"}
        if self.often(0.6):
            view["reduce"] = self.chance.choice(["_sum", "_count", "_stats"] * 2 + (list(reduces) * 2 or ["_count"]) + (["most"] if self.often(0.2) else []))
        return dict(view, options={"collation": "raw"}) if self.often(0.1) else view

    def design(self):
        if self.often(0.08):
            return self.chance.choice(NOT_DESIGNS)
        language = self.chance.choice(["pick"] * 5 + ["field"] * 2 + ["flaky", "dead", "liar", "sour", "none"])
        design = {"views": {name: self.view(language) for name in self.chance.sample("vw\u00e9", self.chance.choice([1, 1, 2, 3]))}, "language": language}
        return {} if self.often(0.03) else dict(design, filters={"f": 1}) if self.often(0.1) else design

    def body(self):
        body = {name: self.chance.choice(NUMBERS if self.often(share) else VALUES) for name, share in (("a", 0.2), ("b", 0.5), ("c", 0.9)) if self.often(0.8)}
        if self.often(0.4):
            body["t"] = [self.chance.choice(VALUES) for _ in range(self.chance.randrange(5))]
        if self.often(0.03):
            body[self.chance.choice(["_x", "_", "_revs", "__"])] = 1
        if self.often(0.02):
            deep = self.chance.choice([63, 64])
            body["deep"] = json.loads("[" * deep + "]" * deep)
        return body

    def query(self, reduces):
        names = self.chance.sample(["key", "keys", "startkey", "endkey", "startkey", "endkey", "startkey_docid", "endkey_docid", "inclusive_end", "descending", "skip", "limit", "reduce", "group", "group_level", "update", "update_seq"], self.chance.choice([0, 1, 1, 2, 3, 4]))
        query = self.chance.choice([{}, {}, {}, {"group": True}, {"group_level": 1}, {"group_level": 2}, {"reduce": False}]) if reduces else {}
        for name in names:
            if name in ("group", "group_level", "reduce") and not reduces:
                continue
            query[name] = self.chance.choice(
                VALUES if name in ("key", "startkey", "endkey") else IDS if name.endswith("docid") else [0, 1, 1, 2, 3] if name in ("skip", "limit", "group_level")
                else [self.chance.sample(VALUES, self.chance.randrange(4))] if name == "keys" else [True, False])
        if self.often(0.05):
            query[self.chance.choice(["limit", "skip", "keys", "group", "startkey_docid", "group_level", "stale", "start_key", "update"])] = self.chance.choice([-1, 1001, None, "a", [7], {}, True])
        return query

    def revision(self, name):
        """What is given as the revision: the present one mostly, or another, or none."""
        if self.often(0.08):
            return self.chance.choice(["1-%032x" % self.chance.randrange(4), "0-" + "0" * 32, "1-" + "0" * 31, "01-" + "0" * 32, "9223372036854775808-" + "0" * 32, "9223372036854775807-" + "a" * 32, 7, None, ""])
        rev = self.model.rev(name)
        return None if rev is not None and self.often(0.3) and name not in self.model.live() else rev

    def put(self, name, body):
        rev = self.revision(name)
        line = dict(body, _id=name) if rev is None and not self.often(0.01) else dict(body, _id=name, _rev=rev)
        if self.often(0.08):
            line["_deleted"] = self.chance.choice([True, True, False, None, 1])
        if self.often(0.03):
            line["_id"] = self.chance.choice(NOT_IDS)
        return {"put": line}

    def words(self):
        """The names of a design and of a view; both are there mostly."""
        live = [[name[8:], view] for name, doc in self.model.live().items() if name[0] == "_" for view in doc.get("views", {})]
        return self.chance.choice(live) if live and self.often(0.93) else [self.chance.choice(DESIGNS), self.chance.choice("vw\u00e9")]

    def line(self):
        kind = self.chance.random() if self.model.writes > 3 else 0.9
        if kind < 0.42:
            words = self.words()
            design = self.model.live().get("_design/" + words[0], {})
            query = self.query("reduce" in design.get("views", {}).get(words[1], {}) or self.often(0.1))
            return show({"view": words, "query": query} if self.often(0.75) else {"view": words})
        if kind < 0.45:
            return '{"cleanup":true}'
        if kind < 0.49:
            return '{"info":true}'
        if kind < 0.53:
            return self.chance.choice(NO_REQUESTS)
        name = "_design/" + self.chance.choice(DESIGNS) if self.often(0.25) or self.model.writes < 2 else self.chance.choice(IDS)
        if kind < 0.58:
            return show({"get": name})
        if kind < 0.65:
            rev = self.revision(name)
            return show({"delete": name} if rev is None else {"delete": name, "rev": rev})
        return show(self.put(name, self.design() if name[0] == "_" else self.body()))

    def lines(self, count):
        """As many lines with their replies."""
        pairs = []
        for _ in range(count):
            line = self.line()
            pairs.append((line, self.model.reply(line)))
        return pairs


def want(step, got, wanted):
    if got != wanted:
        print("scripts: %s: %.900r in the place of %.900r" % (step, got, wanted))
        sys.exit(1)


def run(step, words, pairs):
    text = "".join(line + "\n" for line, _ in pairs)
    done = subprocess.run(words, input=text.encode(), stdout=subprocess.PIPE, stderr=subprocess.DEVNULL, timeout=600)
    pairs = [pair for pair in pairs if pair[1] is not None]
    replies = done.stdout.decode().split("\n")[:-1]
    for (line, wanted), got in zip(pairs, replies):
        want("%s, %s" % (step, line), got, wanted)
    want(step + ", replies", len(replies), len(pairs))
    want(step + ", status", done.returncode, 0)


def main():
    words, kinds = [PROGRAM, "serve"], {}
    for name, text in CHILDREN.items():
        with open(name + ".sh", "w") as file:
            file.write("#!/bin/sh\n" + text + "\n")
        os.chmod(name + ".sh", 0o755)
        words.append(name + "=" + os.path.abspath(name + ".sh"))
    for seed in range(FIRST, FIRST + SCRIPTS):
        os.makedirs("script%d" % seed)
        os.chdir("script%d" % seed)
        script = Script(seed)
        cuts = sorted(script.chance.sample(range(1, LINES), script.chance.randrange(4)))
        for start, end in zip([0] + cuts, cuts + [LINES]):
            pairs = script.lines(end - start)
            run("script %d, lines from %d" % (seed, start), words, pairs)
            for _, reply in pairs:
                kind = "none" if reply is None else json.loads(reply).get("error", "done")
                kinds[kind] = kinds.get(kind, 0) + 1
        os.chdir("..")
    print("scripts: %d scripts of %d lines are as the model says: %s" % (SCRIPTS, LINES, ", ".join("%s %d" % one for one in sorted(kinds.items()))))


main()
