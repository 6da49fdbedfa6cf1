"""Kills the program while it writes documents, and lets the disk run full. Called by crash.sh."""

import json
import os
import random
import resource
import signal
import subprocess
import sys
import time

KILLS = 120
SEED = 20
PROGRAM, WORK, SMALL = sys.argv[1:4]
DISK_FAULT = '{"error":"disk_fault","reason":"the run ends"}'


def fail(text):
    print("crash: " + text)
    sys.exit(1)


def start(folder, **more):
    return subprocess.Popen([PROGRAM, "serve"], cwd=folder, stdin=subprocess.PIPE, stdout=subprocess.PIPE, stderr=subprocess.DEVNULL, **more)


def ask(process, request):
    """The reply to one request, or none where the program ended."""
    try:
        process.stdin.write(json.dumps(request).encode() + b"\n")
        process.stdin.flush()
    except BrokenPipeError:
        return None
    line = process.stdout.readline()
    return line.decode().rstrip("\n") if line.endswith(b"\n") else None


class Database:
    """What the program said of its documents: the number of writes, and what it acknowledged last of each id."""

    def __init__(self):
        self.writes = 0
        self.last = {}

    def next_request(self, random_number):
        """A put of a new document, a put over another, or a deletion."""
        kind = random_number.random()
        live = [name for name, document in self.last.items() if document is not None and "n" in document]
        if kind < 0.5 or not live:
            name = "d%d" % len(self.last)
            return name, {"put": {"_id": name, "n": self.writes, "pad": "x" * random_number.randrange(3000)}}
        name = random_number.choice(live)
        rev = self.last[name]["_rev"]
        if kind < 0.85:
            return name, {"put": {"_id": name, "_rev": rev, "n": self.writes, "pad": "y" * random_number.randrange(3000)}}
        return name, {"delete": name, "rev": rev}

    def document_of(self, request, rev):
        if "delete" in request:
            return None
        document = dict(request["put"])
        document["_rev"] = rev
        return document

    def took(self, name, request, reply):
        """A write was acknowledged."""
        answer = json.loads(reply)
        if answer.get("ok") is not True or answer["id"] != name:
            fail("a write was answered with " + reply)
        self.writes += 1
        if not answer["rev"].endswith("-%032x" % self.writes):
            fail("write %d has the revision %s" % (self.writes, answer["rev"]))
        self.last[name] = self.document_of(request, answer["rev"])


def check(folder, database, name, request):
    """Opens the folder: all acknowledged writes are there, and the one in hand wholly or not at all."""
    process = start(folder)
    info = json.loads(ask(process, {"info": True}))
    if info["update_seq"] == database.writes + 1 and request is not None:
        generation = 1
        known = database.last.get(name)
        if known is not None:
            generation = int(known["_rev"].split("-")[0]) + 1
        rev = "%d-%032x" % (generation, database.writes + 1)
        database.writes += 1
        database.last[name] = database.document_of(request, rev)
    elif info["update_seq"] != database.writes:
        fail("%d writes were acknowledged, and the sequence is %d" % (database.writes, info["update_seq"]))
    live = sum(1 for document in database.last.values() if document is not None)
    if info["doc_count"] != live or info["doc_del_count"] != len(database.last) - live:
        fail("the counts are %s" % info)
    for known, document in database.last.items():
        reply = json.loads(ask(process, {"get": known}))
        want = document if document is not None else {"error": "not_found", "reason": "deleted"}
        if reply != want:
            fail("%s is %s and not %s" % (known, json.dumps(reply)[:200], json.dumps(want)[:200]))
    process.stdin.close()
    if process.wait() != 0:
        fail("the folder was opened, and the status is %d" % process.returncode)


def kills():
    """Many runs on one folder, each killed at a random moment."""
    folder = os.path.join(WORK, "killed")
    os.mkdir(folder)
    numbers = random.Random(SEED)
    database = Database()
    caught = 0
    for _ in range(KILLS):
        process = start(folder)
        stop = time.monotonic() + numbers.random() * 0.05
        pending = None, None
        while True:
            name, request = database.next_request(numbers)
            process.stdin.write(json.dumps(request).encode() + b"\n")
            process.stdin.flush()
            pending = name, request
            last = time.monotonic() >= stop
            if last:
                time.sleep(numbers.random() * 0.002)
                process.send_signal(signal.SIGKILL)
            line = process.stdout.readline()
            if not line.endswith(b"\n"):
                break
            database.took(name, request, line.decode().rstrip("\n"))
            pending = None, None
            if last:
                break
        process.wait()
        before = database.writes
        check(folder, database, *pending)
        caught += database.writes - before
    if len(database.last) < 5:
        fail("only %d documents were written" % len(database.last))
    print("crash: %d kills, %d writes, %d of them found after a kill before their reply" % (KILLS, database.writes, caught))


def limit_files():
    """No file grows past 200 KB, which is an error of the system and not a signal."""
    signal.signal(signal.SIGXFSZ, signal.SIG_IGN)
    resource.setrlimit(resource.RLIMIT_FSIZE, (200_000, resource.RLIM_INFINITY))


def full_disk():
    """The disk runs full: the run ends with a named fault, and with room again all acknowledged documents are there."""
    folder = os.path.join(WORK, "small")
    process = start(folder, preexec_fn=None if SMALL == "mounted" else limit_files)
    database = Database()
    for number in range(10_000):
        name = "d%d" % number
        request = {"put": {"_id": name, "n": number, "pad": "x" * 2000}}
        reply = ask(process, request)
        if reply is None or reply == DISK_FAULT:
            break
        database.took(name, request, reply)
    else:
        fail("the disk never ran full")
    if reply != DISK_FAULT:
        fail("the last line on a full disk is %r" % reply)
    process.stdin.close()
    if process.wait() != 3:
        fail("the status on a full disk is %d" % process.returncode)
    if SMALL == "mounted":
        subprocess.run(["mount", "-o", "remount,size=4m", folder], check=True)
    check(folder, database, name, request)
    print("crash: the disk ran full behind %d documents (%s)" % (database.writes, SMALL))


kills()
full_disk()
