"""Counts what views ask of their query server, and kills updates: python3 updates.py PROGRAM SERVERS DOCUMENTS

PROGRAM is the built couchview, SERVERS the folder of the example query servers. The server writes down each line that it
is sent. It ends with status 1 and a complaint that names the step where a count or a reply is wrong.
"""
import json
import os
import random
import shutil
import subprocess
import sys
import time

from locks import wait_for_lock

PROGRAM, SERVERS, DOCUMENTS = sys.argv[1], sys.argv[2], int(sys.argv[3])
LOG = os.path.abspath("lines.log")
KILLS = 50
BATCH = 40


def want(step, got, wanted):
    if got != wanted:
        print("updates: %s: %.300r in the place of %.300r" % (step, got, wanted))
        sys.exit(1)


def server():
    """The language of the server, its map function, and its path: a server that writes its input down."""
    if shutil.which("node"):
        language, program = "javascript", "javascript.js"
        source = "function (doc) { emit(doc.n % 10, doc.n); }"
    else:
        language, program = "python", "python.py"
        source = "def fun(doc):\n    yield doc['n'] % 10, doc['n']"
    path = os.path.abspath("server.sh")
    with open(path, "w") as script:
        script.write("#!/bin/sh\ntee -a '%s' | exec '%s'\n" % (LOG, os.path.join(SERVERS, program)))
    os.chmod(path, 0o755)
    return language, source, path


# A server that takes its time over each document, whose map function is the one above.
SLOW = """#!%s
import json, sys, time
for line in sys.stdin:
    command = json.loads(line)
    if command[0] == "map_doc":
        with open(%r, "a") as log:
            log.write(line)
        time.sleep(0.003)
        print(json.dumps([[[command[1]["n"] %% 10, command[1]["n"]]]]), flush=True)
    else:
        print("true", flush=True)
"""


def slow_server():
    path = os.path.abspath("slow.py")
    with open(path, "w") as script:
        script.write(SLOW % (sys.executable, LOG))
    os.chmod(path, 0o755)
    return path


LANGUAGE, SOURCE, PATH = server()
WORDS = [PROGRAM, "serve", "%s=%s" % (LANGUAGE, PATH)]
VIEW = '{"view":["d","v"]}'


def run(lines):
    """The replies to these lines in a run of their own."""
    text = "".join(line + "\n" for line in lines)
    done = subprocess.run(WORDS, input=text.encode(), stdout=subprocess.PIPE, timeout=600)
    want("the status of a run", done.returncode, 0)
    return done.stdout.decode().splitlines()


def mapped():
    """How many documents the server was asked for since the last time."""
    if not os.path.exists(LOG):
        return 0
    with open(LOG) as log:
        count = sum(line.startswith('["map_doc"') for line in log)
    os.remove(LOG)
    return count


def put(name, n):
    return json.dumps({"put": {"_id": name, "n": n}})


def rows_of(documents):
    """What the view prints of these documents, by id."""
    rows = sorted((n % 10, name, n) for name, n in documents.items())
    rows = [{"id": name, "key": key, "value": n} for key, name, n in rows]
    return json.dumps({"total_rows": len(rows), "offset": 0, "rows": rows}, separators=(",", ":"))


def counts():
    documents = {"d%06d" % n: n for n in range(DOCUMENTS)}
    design = {"_id": "_design/d", "language": LANGUAGE, "views": {"v": {"map": SOURCE}}}
    run([json.dumps({"put": design})] + [put(name, n) for name, n in documents.items()])
    want("documents asked for by puts", mapped(), 0)
    want("the first view", run([VIEW]), [rows_of(documents)])
    want("documents asked for by the first view", mapped(), DOCUMENTS)
    want("a view in a later run", run([VIEW]), [rows_of(documents)])
    want("documents asked for where nothing was written", mapped(), 0)
    documents["new"] = 5
    want("a view behind a change", run([put("new", 5), VIEW, VIEW])[1:], [rows_of(documents)] * 2)
    want("documents asked for behind a change", mapped(), 1)
    rev = json.loads(run(['{"get":"new"}'])[0])["_rev"]
    del documents["new"]
    want("a view behind a deletion", run([json.dumps({"delete": "new", "rev": rev}), VIEW])[1:], [rows_of(documents)])
    want("documents asked for behind a deletion", mapped(), 0)
    print("updates: %d documents asked for by the first view, one behind a change, none else" % DOCUMENTS)


def comes_back():
    """A design that changes and comes back finds its index: of the last view's lines one is a document, written meanwhile."""
    sources = [SOURCE.replace("n % 10", "n").replace("['n'] % 10", "['n']")]
    sources.append(sources[0].replace("doc.n,", "doc.m,").replace("doc['n'],", "doc.get('m'),"))
    numbers = dict(zip("abcde", (1, 2, 2, 2, 3)))

    def design(source, rev=None):
        named = {"_id": "_design/d"} if rev is None else {"_id": "_design/d", "_rev": rev}
        return json.dumps({"put": dict(named, language=LANGUAGE, views={"v": {"map": source}})})

    def rev(reply):
        return json.loads(reply)["rev"]

    first = rev(run([design(sources[0])])[0])
    run([put(name, n) for name, n in numbers.items()] + [VIEW])
    second = rev(run([design(sources[1], first), VIEW])[0])
    run([put("f", 9), design(sources[0], second)])
    mapped()
    rows = json.loads(run([VIEW])[0])["rows"]
    want("rows of a design that comes back", [(row["id"], row["key"]) for row in rows], [*numbers.items(), ("f", 9)])
    with open(LOG) as log:
        lines = [json.loads(line) for line in log]
    want("its lines", [line[0] for line in lines], ["reset", "add_fun", "map_doc"])
    want("its document", lines[2][1]["_id"], "f")
    mapped()
    print("updates: a design that comes back asks for the one document that was written meanwhile")


def kills():
    """Kills the program in the midst of updates. Each time there are new documents, and the next run finds all rows."""
    WORDS[2] = "%s=%s" % (LANGUAGE, slow_server())
    chance = random.Random(20261128)
    documents = {}
    design = {"_id": "_design/d", "language": LANGUAGE, "views": {"v": {"map": SOURCE}}}
    run([json.dumps({"put": design})])
    seconds, midst = 0.5, 0
    for kill in range(KILLS):
        fresh = {"k%03d-%02d" % (kill, n): n for n in range(BATCH)}
        run([put(name, n) for name, n in fresh.items()])
        documents.update(fresh)
        mapped()
        began = time.monotonic()
        child = subprocess.Popen(WORDS, stdin=subprocess.PIPE, stdout=subprocess.PIPE, stderr=subprocess.DEVNULL)
        child.stdin.write((VIEW + "\n").encode())
        child.stdin.flush()
        if kill == 0:
            child.stdout.readline()
            seconds = time.monotonic() - began
        else:
            time.sleep(seconds * chance.random())
        child.kill()
        child.wait()
        child.stdin.close()
        wait_for_lock()
        midst += 0 < mapped() < BATCH
        want("the view behind kill %d" % kill, run([VIEW]), [rows_of(documents)])
        info = json.loads(run(['{"info":true}'])[0])
        want("the documents behind kill %d" % kill, info["doc_count"], len(documents) + 1)
    want("whether any kill was in the midst of an update", midst > 0, True)
    print("updates: %d kills, %d of them in the midst of an update" % (KILLS, midst))


for step in counts, comes_back, kills:
    os.makedirs(step.__name__)
    os.chdir(step.__name__)
    step()
    os.chdir("..")
