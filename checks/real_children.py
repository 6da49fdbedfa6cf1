"""Runs couchview over real child processes and compares each reply: python3 real_children.py PROGRAM SERVERS

PROGRAM is the built couchview, SERVERS the folder of the example query servers. It ends with status 1 and a complaint
that names the step where a reply differs, a step takes a minute, a child is left behind, or the program takes more than
600 MB.
"""
import json
import os
import signal
import subprocess
import sys
import tempfile

SECONDS = 60
MEMORY_KB = 600_000

# What each bad server does once it was sent a reset and one function, and has answered `true` to both.
BAD_SERVERS = {
    "dies": "os.kill(os.getpid(), signal.SIGKILL)",
    "ends": "sys.exit(0)",
    "recovers": """
mark = os.path.join(folder, "recovers.mark")
if not os.path.exists(mark):
    open(mark, "w").close()
    os.kill(os.getpid(), signal.SIGKILL)
answer_all(b'[[["again",1]]]')
""",
    "garbage": r"read(); write(b'no \xc3\xa9\tJSON\n'); read()",
    "thousand_logs": r"""
for line in lines:
    write(b'["log","x"]\n' * 1000 + b'[[["quiet",1]]]\n')
""",
    "flood": r"""read(); write(b'["log","x"]\n' * 1001 + b'[[]]\n'); read()""",
    "endless": r"""
read()
for _ in range(200):
    write(b'x' * 1_000_000)
read()
""",
    # It prints more than the pipe holds before it reads its first document.
    "early": r"""
write(b'["log","' + b'x' * 1000 + b'"]\n' + b'["log",""]\n' * 99)
for _ in range(5):
    write((b'["log","' + b'x' * 1000 + b'"]\n') * 100)
answer_all(b'[[["early",1]]]')
""",
    "echo": "os.execv('/bin/cat', [sys.argv[0]])",
}

BAD_SERVER = r"""#!{python} -u
import os, signal, sys
folder = {folder!r}
lines = iter(sys.stdin.buffer.readline, b'')
def read():
    return next(lines, b'')
def write(text):
    sys.stdout.buffer.write(text)
    sys.stdout.buffer.flush()
def answer_all(text):
    for line in lines:
        write(text + b'\n')
# `cat` goes on with what was not read yet, so no more than the two lines are read here.
for _ in range(2):
    while os.read(0, 1) not in (b'\n', b''):
        pass
    write(b'true\n')
{does}
"""

# What a server does that maps each document to one row, with a line of this name.
REDUCERS = {
    "reduce_dies": ("reduce", "os.kill(os.getpid(), signal.SIGKILL)"),
    "rereduce_dies": ("rereduce", "os.kill(os.getpid(), signal.SIGKILL)"),
    "reduce_two": ("reduce", "answer = [True, [1, 2]]"),
    "rereduce_complains": ("rereduce", "answer = ['error', 'compilation_error', 'no']"),
    "rereduce_lies": ("rereduce", "answer = [True, [{'b': 1, 'a': None}]]"),
}

REDUCER = r"""#!{python} -u
import json, os, signal, sys
for line in sys.stdin:
    name = json.loads(line)[0]
    answer = True if name in ("reset", "add_fun") else [[[0, 1]]] if name == "map_doc" else [True, [7]]
    if name == {name!r}:
        {does}
    print(json.dumps(answer), flush=True)
"""


# The programs that run.
programs = []


def complain(step, text):
    print("real_children: %s: %s" % (step, text), file=sys.stderr)
    for program in programs:
        program.kill()
    sys.exit(1)


def compact(value):
    return json.dumps(value, separators=(",", ":"), ensure_ascii=False)


def processes(word, program=None):
    """The command lines that have the word, but for the program's own."""
    found = []
    for name in os.listdir("/proc"):
        if not name.isdigit() or int(name) == program:
            continue
        try:
            with open("/proc/%s/cmdline" % name, "rb") as file:
                line = file.read().replace(b"\0", b" ").decode(errors="replace")
        except OSError:
            continue
        if word in line:
            found.append(line)
    return found


def zombies(parent):
    """The children of the process that have ended and that nobody has waited for."""
    found = []
    for name in os.listdir("/proc"):
        if not name.isdigit():
            continue
        try:
            with open("/proc/%s/stat" % name) as file:
                state, number = file.read().rsplit(")", 1)[1].split()[:2]
        except OSError:
            continue
        if state == "Z" and int(number) == parent:
            found.append(int(name))
    return found


class Program:
    """A run of `couchview serve` with these languages."""

    def __init__(self, path, languages):
        words = [path, "serve"] + ["%s=%s" % pair for pair in languages.items()]
        # The servers of a run may say on standard error what they think of their functions.
        self.folder = tempfile.TemporaryDirectory()
        self.process = subprocess.Popen(
            words, cwd=self.folder.name, stdin=subprocess.PIPE, stdout=subprocess.PIPE, stderr=subprocess.DEVNULL
        )
        programs.append(self.process)

    def ask(self, step, line):
        """The reply to the line."""
        signal.signal(signal.SIGALRM, lambda *_: complain(step, "no reply within %d seconds to %s" % (SECONDS, line[:200])))
        signal.alarm(SECONDS)
        try:
            self.process.stdin.write(line.encode() + b"\n")
            self.process.stdin.flush()
            reply = self.process.stdout.readline()
        except BrokenPipeError:
            reply = b""
        signal.alarm(0)
        if not reply.endswith(b"\n"):
            complain(step, "the program ended, and didn't reply to %s" % line[:200])
        return reply[:-1].decode(errors="replace")

    def expect(self, step, request, reply):
        """Sends the request, and wants this reply."""
        got = self.ask(step, compact(request))
        if got != compact(reply):
            complain(step, "the reply is\n  %s\nin place of\n  %s" % (got[:1500], compact(reply)[:1500]))
        left = zombies(self.process.pid)
        if left:
            complain(step, "ended children are left behind: %s" % left)

    def put(self, step, document):
        reply = self.ask(step, compact({"put": document}))
        if not reply.startswith('{"ok":true'):
            complain(step, "the put is answered %s" % reply[:1500])

    def design(self, name, language, **maps):
        views = {view: {"map": source} for view, source in maps.items()}
        self.put("design %s" % name, {"_id": "_design/" + name, "language": language, "views": views})

    def reducing(self, name, language, source, reduce):
        """A design with one view, `v`, that has a reduce."""
        self.put("design %s" % name, {"_id": "_design/" + name, "language": language, "views": {"v": {"map": source, "reduce": reduce}}})

    def seq(self):
        return json.loads(self.ask("info", '{"info":true}'))["update_seq"]

    def check_memory(self, step):
        with open("/proc/%d/status" % self.process.pid) as file:
            most = next(int(line.split()[1]) for line in file if line.startswith("VmHWM"))
        if most > MEMORY_KB:
            complain(step, "the program took %d kB" % most)

    def end(self, step, status=0):
        self.process.stdin.close()
        try:
            got = self.process.wait(SECONDS)
        except subprocess.TimeoutExpired:
            complain(step, "the program didn't end within %d seconds" % SECONDS)
        if got != status:
            complain(step, "the exit status is %d" % got)
        self.folder.cleanup()


def rows(*all_rows):
    """The reply of a view with these rows, each an id, a key and a value."""
    return {"total_rows": len(all_rows), "offset": 0, "rows": [{"id": row[0], "key": row[1], "value": row[2]} for row in all_rows]}


FAULT = {"error": "server_fault", "reason": "query server failed twice"}


def shown(text):
    return {"error": "server_reply", "reason": text}


def two_documents(program):
    program.put("document a", {"_id": "a", "n": 1, "tags": ["x", "y"]})
    program.put("document b", {"_id": "b", "n": 7, "tags": ["x"]})


def good_servers(program):
    two_documents(program)
    program.design(
        "js", "javascript",
        one="function (doc) { emit(doc.n, 1) }",
        tags="function (doc) { doc.tags.forEach(function (tag) { emit(tag, doc.n) }); emit('z') }",
        throws="function (doc) { if (doc.n > 5) throw new Error('too big'); emit(doc.n, {\"a\": [doc._id]}) }",
    )
    program.expect("javascript: one emit", {"view": ["js", "one"]}, rows(("a", 1, 1), ("b", 7, 1)))
    tags = rows(("a", "x", 1), ("b", "x", 7), ("a", "y", 1), ("a", "z", None), ("b", "z", None))
    program.expect("javascript: several emits", {"view": ["js", "tags"]}, tags)
    program.expect("javascript: a map that throws", {"view": ["js", "throws"]}, rows(("a", 1, {"a": ["a"]})))
    program.design("bad", "javascript", v="function (doc { }")
    program.expect("javascript: no compilation", {"view": ["bad", "v"]}, {"error": "compilation_error", "reason": "_design/bad"})
    program.expect("javascript: after it", {"view": ["js", "one"]}, rows(("a", 1, 1), ("b", 7, 1)))
    program.design(
        "py", "python",
        one="def fun(doc):\n    yield doc['n'], 1\n",
        tags="def fun(doc):\n    for tag in doc['tags']:\n        yield tag, doc['n']\n    yield 'z', None\n",
        throws="def fun(doc):\n    if doc['n'] > 5: raise ValueError('too big')\n    yield doc['n'], {'a': [doc['_id']]}\n",
    )
    program.expect("python: one emit", {"view": ["py", "one"]}, rows(("a", 1, 1), ("b", 7, 1)))
    program.expect("python: several emits", {"view": ["py", "tags"]}, tags)
    program.expect("python: a map that throws", {"view": ["py", "throws"]}, rows(("a", 1, {"a": ["a"]})))
    program.design("bad_py", "python", v="def fun(doc:")
    program.expect("python: no compilation", {"view": ["bad_py", "v"]}, {"error": "compilation_error", "reason": "_design/bad_py"})


def groups(*all_groups):
    """The reply of a reduced view with these groups, each a key and a value."""
    return {"rows": [{"key": key, "value": value} for key, value in all_groups]}


# In each language a map that emits the tag of a document and its text, a reduce that adds up the lengths of texts and tells the values of
# parts from those of rows, and one that counts rows by their keys.
LENGTHS = {
    "javascript": (
        "function (doc) { if (doc.tag) emit(doc.tag, doc.text) }",
        "function (keys, values, rereduce) { return sum(rereduce ? values : values.map((text) => text.length)) }",
        "function (keys, values, rereduce) { return rereduce ? sum(values) : keys.filter((key) => key[1] !== '').length }",
        "function (keys, values { }",
    ),
    "python": (
        "def fun(doc):\n    if 'tag' in doc: yield doc['tag'], doc['text']\n",
        "def fun(keys, values, rereduce):\n    return sum(values) if rereduce else sum(map(len, values))\n",
        "def fun(keys, values, rereduce):\n    return sum(values) if rereduce else len([key for key in keys if key[1] != ''])\n",
        "def fun(keys, values:",
    ),
}


def reduces(program):
    """Reduces of two languages over more rows than a line has, beside what the built-in `_stats` gives of the lengths themselves."""
    lengths = {tag: [(7 * number + start) % 23 for number in range(count)] for tag, start, count in (("few", 3, 5), ("many", 0, 100), ("more", 1, 1100))}
    for tag, numbers in lengths.items():
        for number, length in enumerate(numbers):
            program.put("a text", {"_id": "%s%04d" % (tag, number), "tag": tag, "text": "x" * length, "length": length})
    totals = groups(*[(tag, sum(numbers)) for tag, numbers in lengths.items()])
    counts = groups(*[(tag, len(numbers)) for tag, numbers in lengths.items()])
    program.reducing("stats", "pick", "emit doc.tag, doc.length", "_stats")
    stats = json.loads(program.ask("stats", compact({"view": ["stats", "v"], "query": {"group": True}})))
    if [(row["key"], row["value"]["sum"]) for row in stats["rows"]] != [(row["key"], row["value"]) for row in totals["rows"]]:
        complain("stats", "the sums are %s" % stats)
    for language, (source, lengths_of, count, wrong) in LENGTHS.items():
        program.reducing(language, language, source, lengths_of)
        program.expect(language + ": lengths", {"view": [language, "v"], "query": {"group": True}}, totals)
        program.expect(language + ": descending", {"view": [language, "v"], "query": {"group": True, "descending": True}}, groups(*[(row["key"], row["value"]) for row in totals["rows"][::-1]]))
        program.expect(language + ": all", {"view": [language, "v"]}, groups((None, sum(map(sum, lengths.values())))))
        program.expect(language + ": no rows", {"view": [language, "v"], "query": {"key": "none"}}, groups())
        program.reducing("counts_" + language, language, source, count)
        program.expect(language + ": counts", {"view": ["counts_" + language, "v"], "query": {"group": True}}, counts)
        program.expect(language + ": as it stands", {"view": ["counts_" + language, "v"], "query": {"update": False, "group": True, "limit": 1}}, {"update_seq": program.seq(), **groups(("few", 5))})
        program.reducing("wrong_" + language, language, source, wrong)
        program.expect(language + ": no compilation", {"view": ["wrong_" + language, "v"]}, {"error": "compilation_error", "reason": "_design/wrong_" + language})
        program.expect(language + ": not updated", {"view": ["wrong_" + language, "v"], "query": {"update": False}}, {"update_seq": 0, **groups()})
        program.expect(language + ": after it", {"view": ["counts_" + language, "v"], "query": {"group": True}}, counts)


def bad_reducers(program, folder, replies):
    """Asks for the value of 40 rows from each server, and for one of a good server after it."""
    for number in range(40):
        program.put("document", {"_id": "d%02d" % number, "tag": "t", "text": "x"})
    source, lengths_of, _, _ = LENGTHS["javascript"]
    program.reducing("js", "javascript", source, lengths_of)
    for server, reply in replies.items():
        program.reducing(server, server, "m", "r")
        program.expect(server, {"view": [server, "v"]}, reply)
        # No child is left of a view that was refused.
        if "error" in reply and processes(os.path.join(folder, server), program.process.pid):
            complain(server, "its child is left behind")
        program.expect("after " + server, {"view": ["js", "v"]}, groups((None, 40)))


def bad_servers(program, folder, replies):
    """Asks for a view of each server, and for one of a good server after it."""
    two_documents(program)
    program.design("js", "javascript", one="function (doc) { emit(doc.n, 1) }")
    for server, reply in replies.items():
        program.design(server, server, v="v")
        program.expect(server, {"view": [server, "v"]}, reply)
        # A child whose view was refused is ended.
        if "error" in reply and processes(os.path.join(folder, server), program.process.pid):
            complain(server, "its child is left behind")
        program.expect("after " + server, {"view": ["js", "one"]}, rows(("a", 1, 1), ("b", 7, 1)))


FAILING = {
    "odd": shown('["reset",{"reduce_limit":false}]'),
    "absent": FAULT,
    "dies": FAULT,
    "ends": FAULT,
    "recovers": rows(("a", "again", 1), ("b", "again", 1)),
}
PRINTING = {
    "garbage": shown("no ???JSON"),
    "thousand_logs": rows(("a", "quiet", 1), ("b", "quiet", 1)),
    "flood": shown('["log","x"]'),
    "endless": FAULT,
}

REDUCING = {
    "reduce_dies": FAULT,
    "rereduce_dies": FAULT,
    "reduce_two": shown("[true, [1, 2]]"),
    "rereduce_complains": {"error": "compilation_error", "reason": "_design/rereduce_complains"},
    # The members of an object are printed in the order of their names.
    "rereduce_lies": groups((None, {"a": None, "b": 1})),
}


def long_documents(program):
    text = "x" * 500_000
    program.put("long document", {"_id": "long", "text": text})
    program.design("early", "early", v="v")
    program.expect("early", {"view": ["early", "v"]}, rows(("long", "early", 1)))
    program.design("echo", "echo", v="v")
    got = program.ask("echo", compact({"view": ["echo", "v"]}))
    begin = compact(shown('["map_doc",{"_id":"long","_rev":"'))[:-2]
    if not got.startswith(begin) or not got.endswith('xxx"}') or len(got) > 1100:
        complain("echo", "the reply is %s" % got[:1500])


def main():
    couchview, servers = sys.argv[1:]
    servers = os.path.abspath(servers)
    signal.signal(signal.SIGPIPE, signal.SIG_IGN)
    with tempfile.TemporaryDirectory(prefix="couchview-children-") as folder:
        languages = {"odd": "cat", "absent": os.path.join(folder, "absent")}
        # Each path is below the folder, so that no process of another run is taken for one of ours.
        for name, file in (("javascript", "javascript.js"), ("python", "python.py")):
            languages[name] = os.path.join(folder, file)
            os.symlink(os.path.join(servers, file), languages[name])
        for name, does in BAD_SERVERS.items():
            languages[name] = os.path.join(folder, name)
            with open(languages[name], "w") as file:
                file.write(BAD_SERVER.format(python=sys.executable, folder=folder, does=does))
            os.chmod(languages[name], 0o755)

        for name, (line, does) in REDUCERS.items():
            languages[name] = os.path.join(folder, name)
            with open(languages[name], "w") as file:
                file.write(REDUCER.format(python=sys.executable, name=line, does=does))
            os.chmod(languages[name], 0o755)

        def run(step, names, does):
            """A run with these languages, of which there may be eight."""
            program = Program(couchview, {name: languages[name] for name in names})
            does(program)
            program.check_memory(step)
            program.end("end of " + step)

        run("good servers", ["javascript", "python"], good_servers)
        run("failing servers", ["javascript", *FAILING], lambda program: bad_servers(program, folder, FAILING))
        run("printing servers", ["javascript", *PRINTING], lambda program: bad_servers(program, folder, PRINTING))
        run("long documents", ["early", "echo"], long_documents)
        run("reduces", ["javascript", "python"], reduces)
        run("bad reduces", ["javascript", *REDUCING], lambda program: bad_reducers(program, folder, REDUCING))
        left = processes(folder)
        if left:
            complain("end", "children are left behind: %s" % left)
    print("real_children: all replies are as they should be")


main()
