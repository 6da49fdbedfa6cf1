"""What couchview does where the folder isn't its own alone: python3 folder.py COUCHVIEW MAP_SERVER WORK

It ends with status 1 and a complaint that names the step where something is taken or lost, or another line is said.
"""

import json
import os
import shutil
import stat
import struct
import subprocess
import sys
import threading

import stepping

PROGRAM, MAP_SERVER, WORK = sys.argv[1:4]
ROUNDS = 20
DOCUMENTS = 100
SECONDS = 60
NOBODY = 65534
DISK_FAULT = b'{"error":"disk_fault","reason":"the run ends"}\n'
LATER = "a call on the folder failed, and the run ended; all that was answered is kept: mend what is named above, and start again in the same folder"


def fail(step, text):
    print("folder: %s: %s" % (step, text), file=sys.stderr)
    sys.exit(1)


def new_folder(name):
    path = os.path.join(WORK, name)
    os.mkdir(path)
    return path


def run(folder, text, words=("serve",), program=PROGRAM, **more):
    done = subprocess.run([program, *words], cwd=folder, input=text, capture_output=True, timeout=SECONDS, **more)
    return done.returncode, done.stdout, done.stderr.decode()


def want(step, got, wanted):
    if got != wanted:
        fail(step, "%r and not %r" % (got, wanted))


def faulty(step, folder, said, **more):
    """A run that ends at its first call on the folder, with this said."""
    status, output, error = run(folder, b'{"info":true}\n', **more)
    want(step, output, DISK_FAULT)
    want(step, status, 3)
    want(step, error, "couchview: %s\ncouchview: %s\n" % (said, LATER))


def put(name):
    return json.dumps({"put": {"_id": name}}).encode() + b"\n"


def count(folder):
    status, output, _ = run(folder, b'{"info":true}\n')
    want("counting in " + folder, status, 0)
    return json.loads(output)["doc_count"]


def bytes_of(folder):
    found = {}
    for name in os.listdir(folder):
        path = os.path.join(folder, name)
        if os.path.isfile(path):
            with open(path, "rb") as file:
                found[name] = file.read()
    return found


def second_program(step, folder, request):
    """A program that has the folder, and a second one beside it, of which nothing is taken and which takes nothing."""
    first = subprocess.Popen([PROGRAM, "serve"], cwd=folder, stdin=subprocess.PIPE, stdout=subprocess.PIPE)
    first.stdin.write(put("first"))
    first.stdin.flush()
    want(step, json.loads(first.stdout.readline()).get("ok"), True)
    before = bytes_of(folder)
    status, output, error = run(folder, request)
    want(step, (status, output), (3, DISK_FAULT))
    want(step, bytes_of(folder), before)
    if "the folder can't be opened: another program has it" not in error:
        fail(step, "the second program says %r" % error)
    first.stdin.write(put("last"))
    first.stdin.close()
    want(step, json.loads(first.stdout.read()).get("ok"), True)
    want(step, first.wait(), 0)
    want(step, count(folder), 2)


def both_at_once(step, folder, requests):
    """Two programs that are started at once. One has the folder, and each document that either says it wrote is there."""
    results = [None, None]

    def one(place):
        results[place] = run(folder, requests[place])

    threads = [threading.Thread(target=one, args=(place,)) for place in (0, 1)]
    for thread in threads:
        thread.start()
    for thread in threads:
        thread.join()
    written = 0
    for status, output, error in results:
        if status == 3:
            want(step, output, DISK_FAULT)
            if "the folder can't be opened: another program has it" not in error:
                fail(step, "it is said %r" % error)
        else:
            want(step, status, 0)
            written += output.count(b'"ok":true')
    want(step, count(folder), written)


def two_programs():
    puts = [b"".join(put("%d-%d" % (place, number)) for number in range(DOCUMENTS)) for place in (0, 1)]
    for number in range(ROUNDS):
        second_program("a second writer", new_folder("writers%d" % number), puts[1])
        second_program("a reader", new_folder("readers%d" % number), b'{"info":true}\n')
        both_at_once("two writers at once", new_folder("atonce%d" % number), puts)
        both_at_once("a writer and a reader at once", new_folder("beside%d" % number), [puts[0], b'{"info":true}\n'])
    print("folder: %d rounds of two programs in one folder" % ROUNDS)


def killed_programs():
    """A killed program leaves no lock, and neither does its child that goes on."""
    folder = new_folder("locked")
    server = os.path.join(WORK, "stays.sh")
    with open(server, "w") as file:
        file.write("#!/bin/sh\necho true\necho true\nexec sleep 600\n")
    os.chmod(server, 0o755)
    first = subprocess.Popen([PROGRAM, "serve", "sh=" + server], cwd=folder, stdin=subprocess.PIPE, stdout=subprocess.PIPE)
    design = {"_id": "_design/d", "language": "sh", "views": {"v": {"map": "x"}}}
    for request in ({"put": design}, {"put": {"_id": "a"}}):
        first.stdin.write(json.dumps(request).encode() + b"\n")
        first.stdin.flush()
        first.stdout.readline()
    first.stdin.write(b'{"view":["d","v"]}\n')
    first.stdin.flush()
    child = child_of(first.pid, "sleep")
    first.kill()
    first.wait()
    want("a killed program", count(folder), 2)
    os.kill(child, 9)


def child_of(parent, word):
    """The number of a child that runs a command with this word."""
    for _ in range(SECONDS * 100):
        for name in filter(str.isdigit, os.listdir("/proc")):
            try:
                with open("/proc/%s/stat" % name) as file:
                    is_child = int(file.read().rsplit(")", 1)[1].split()[1]) == parent
                with open("/proc/%s/cmdline" % name, "rb") as file:
                    if is_child and word.encode() in file.read():
                        return int(name)
            except OSError:
                continue
        threading.Event().wait(0.01)
    fail("a killed program", "its child doesn't run")


# Files that no run of couchview can have left, by what they are.
FOREIGN = {
    "a text": b"These are my notes on documents.\n",
    "an empty line": b"\n",
    "an archive": b"\x1f\x8b\x08" + b"\x00" * 9000 + b"x",
    "zeros with a byte in the second slot": b"\0" * 5000 + b"\x01" + b"\0" * 5000,
    "a header at another place": b" CVIEW001" + b"\0" * 9000,
    "a long binary": bytes(range(256)) * 64,
    "a text behind the first bytes of a header": b"CVIEW001 is how they begin.\n",
}


def damaged_gates():
    """A database whose gates were closed or that was written over with zeros is left alone, and so is a file with a second name."""
    closed = new_folder("closed")
    run(closed, put("a") + put("b"))
    path = os.path.join(closed, "docs.0")
    with open(path, "r+b") as file:
        for gate in (64, 4096 + 64):
            file.seek(gate)
            file.write(b"\0")
    before = bytes_of(closed)
    faulty("closed gates", closed, "docs.0 can't be opened: it is not as couchview leaves a file, and stays as it is")
    want("closed gates", bytes_of(closed), before)
    linked = new_folder("linked")
    run(linked, put("a"))
    os.link(os.path.join(linked, "docs.0"), os.path.join(linked, "docs.1"))
    before = bytes_of(linked)
    faulty("a hard link", linked, "docs.0 can't be opened: it has another name too (a hard link), and stays as it is")
    want("a hard link", bytes_of(linked), before)


def foreign_files():
    for number, (kind, content) in enumerate(FOREIGN.items()):
        for name in ("docs.0", "docs.1"):
            folder = new_folder("foreign%d%s" % (number, name))
            with open(os.path.join(folder, name), "wb") as file:
                file.write(content)
            status, output, error = run(folder, put("a"))
            want(kind, (status, output), (3, DISK_FAULT))
            want(kind, bytes_of(folder), {name: content})
            if "couchview: %s can't be opened: " % name not in error or "not as couchview leaves a file" not in error:
                fail(kind, "it is said %r" % error)


# The name of the index of the design below, as docs/FILE_FORMAT.md has it, and the record of an index of an earlier version: it holds
# the rows themselves. The design's view has two rows, of the documents a and b, each of the key 1 and without a value.
TAGS = {"_id": "_design/s", "language": "pick", "views": {"tag": {"map": "emit doc.tag, null"}}}
TAG_INDEX = "e5b78415a03837e6413803f747b1f174"
KEY = struct.pack("<Bq", 1, 1)
NAMES = [struct.pack("<I", 1) + name for name in (b"a", b"b")]
EARLIER_ROWS = [KEY + name + struct.pack("<I", 0) + b"\x03" for name in NAMES]
EARLIER_BACK = [name + struct.pack("<IH", 1, 0) + KEY + struct.pack("<I", 0) for name in NAMES]


def earlier_list(items):
    return struct.pack("<Q", len(items)) + b"".join(struct.pack("<Q", len(item)) + item for item in items)


EARLIER_RECORD = struct.pack("<QH", 3, 1) + earlier_list(EARLIER_ROWS) + earlier_list(EARLIER_BACK)


def earlier_index():
    """The file of an index of an earlier version, of one commit."""
    slot = (b"CVIEW001" + struct.pack("<QQQ", 1, 8192, len(EARLIER_RECORD))).ljust(64, b"\0") + b"\1"
    return bytes(4096) + slot.ljust(4096, b"\0") + EARLIER_RECORD


def earlier_version():
    """An index of an earlier version is named and left as it is, and no document is touched; without its files it is built anew."""
    folder = new_folder("earlier")
    texts = [TAGS, {"_id": "a", "tag": 1}, {"_id": "b", "tag": 1}]
    run(folder, b"".join(json.dumps({"put": text}).encode() + b"\n" for text in texts))
    path = os.path.join(folder, TAG_INDEX + ".0")
    with open(path, "wb") as file:
        file.write(earlier_index())
    before = bytes_of(folder)
    refusal = b'{"error":"damaged","reason":"%s.0 8192"}\n' % TAG_INDEX.encode()
    for query in ({}, {"update": False}):
        view = json.dumps({"view": ["s", "tag"], "query": query}).encode() + b"\n"
        status, output, _ = run(folder, b'{"get":"a"}\n' + view)
        want("an index of an earlier version", (status, output.split(b"\n", 1)[1]), (7, refusal))
        want("a document beside it", json.loads(output.split(b"\n", 1)[0])["tag"], 1)
        want("an index of an earlier version", bytes_of(folder), before)
    os.remove(path)
    status, output, _ = run(folder, view.replace(b'{"update": false}', b"{}"))
    rows = [row["id"] for row in json.loads(output)["rows"]]
    want("an index that is built anew", (status, rows), (0, ["a", "b"]))
    with open(path, "wb") as file:
        file.write(earlier_index())
    design = json.loads(run(folder, b'{"get":"_design/s"}\n')[1])["_rev"]
    status, output, _ = run(folder, json.dumps({"delete": "_design/s", "rev": design}).encode() + b'\n{"cleanup":true}\n')
    want("a cleanup of an index of an earlier version", (status, output.endswith(b'{"ok":true}\n')), (0, True))
    left = [name for name, content in bytes_of(folder).items() if content and name.startswith(TAG_INDEX)]
    want("a cleanup of an index of an earlier version", left, [])


def in_the_way():
    """Directories, links and files without rights."""
    folder = new_folder("directory")
    os.mkdir(os.path.join(folder, "docs.0"))
    faulty("a directory", folder, "docs.0 can't be opened: it is a directory")
    folder = new_folder("link")
    os.symlink("elsewhere", os.path.join(folder, "docs.0"))
    faulty("a link", folder, "docs.0 can't be opened: it is no plain file")
    # Another user may not have the way to the program.
    program = shutil.copy(PROGRAM, os.path.join(WORK, "couchview"))
    os.chmod(program, 0o755)
    as_nobody = {"user": NOBODY, "group": NOBODY, "extra_groups": [], "program": program} if os.getuid() == 0 else {}
    os.chmod(WORK, 0o755)
    folder = new_folder("shut")
    os.chmod(folder, 0o555)
    status, output, error = run(folder, put("a"), **as_nobody)
    want("a folder without rights", (status, output), (3, DISK_FAULT))
    if "docs.0 can't be opened: " not in error or "Permission denied" not in error:
        fail("a folder without rights", "it is said %r" % error)
    want("a folder without rights", os.listdir(folder), [])
    folder = new_folder("readonly")
    run(folder, put("a"))
    before = bytes_of(folder)
    for name in before:
        os.chmod(os.path.join(folder, name), stat.S_IRUSR | stat.S_IROTH)
    if as_nobody or os.getuid() != 0:
        status, output, error = run(folder, put("b"), **as_nobody)
        want("a file without rights", (status, output), (3, DISK_FAULT))
        want("a file without rights", bytes_of(folder), before)
        if "Permission denied" not in error:
            fail("a file without rights", "it is said %r" % error)


# Words that are no command, and what is said of them.
WORDS = {
    (): "a command is wanted: serve or load",
    ("server",): "the word 'server' is no command: the commands are serve and load",
    ("load", "a", "1"): "load takes first how many documents, a number from 1 to 20000 without sign or leading zeros",
    ("load", "3"): "load takes two numbers: how many documents, from 1 to 20000, and one from 0 to 2147483647",
    ("load", "3", "2147483648"): "load takes second a number from 0 to 2147483647 without sign or leading zeros",
    ("load", "--width", "1", "3", "1"): "load takes no option, only two numbers: how many documents, from 1 to 20000, and one from 0 to 2147483647",
    ("serve", "-w"): "serve takes no option but --width; a word behind -- may begin with a dash",
    ("serve", "--width", "3"): "a width of 3 isn't built yet",
    ("serve", "--width", "9"): "--width is given once at most, with one digit from 1 to 8",
    ("serve", "--wide"): "serve takes no option but --width; a word behind -- may begin with a dash",
    ("serve", "a=b", "javascript"): "the word 'javascript' has not the form LANG=PATH",
    ("serve", "=b"): "the word '=b' has not the form LANG=PATH",
    ("serve", "a=builtin:x"): "the word 'a=builtin:x' names no server of this program",
    ("serve", "a=b", "c=d", "a=e"): "the word 'a=e' names a language that was named before",
    ("serve",) + tuple("l%d=x" % n for n in range(9)): "the word 'l8=x' is one too many: 8 words LANG=PATH may be given",
    ("serve", "a\nb"): "the word 'a\\nb' has not the form LANG=PATH",
    ("serve", b"\xff"): "a word is not UTF-8",
}


def wrong_words():
    for words, said in WORDS.items():
        status, _, error = run(WORK, b"", words)
        want(repr(words), (status, error), (2, "couchview: %s\n" % said))


def used_folder():
    """A load in a folder that has had a write does nothing, and says why."""
    folder = new_folder("used")
    run(folder, put("a"))
    before = bytes_of(folder)
    said = "couchview: the folder has had writes, so nothing was loaded: load in a new folder\n"
    want("a load in a used folder", run(folder, b"", ("load", "3", "1")), (10, b"", said))
    want("a load in a used folder", bytes_of(folder), before)


def streams():
    """Standard streams that fail, of both programs."""
    folder = new_folder("streams")
    for program, words, text in ((PROGRAM, ["serve"], b'{"info":true}\n'), (MAP_SERVER, [], b'["reset"]\n')):
        name = "couchview" if words else "map_server"
        with open("/dev/full", "wb") as full:
            done = subprocess.run([program, *words], cwd=folder, input=text, stdout=full, stderr=subprocess.PIPE)
        said = "%s: standard output can't be written: No space left on device (os error 28)\n" % name
        want(name, (done.returncode, done.stderr.decode()), (4, said))
        source = os.open(folder, os.O_RDONLY)
        done = subprocess.run([program, *words], cwd=folder, stdin=source, stdout=subprocess.DEVNULL, stderr=subprocess.PIPE)
        os.close(source)
        said = "%s: standard input can't be read: Is a directory (os error 21)\n" % name
        want(name, (done.returncode, done.stderr.decode()), (5, said))


def stops():
    """A new folder, and a stop before and behind each call on the disk until the first document is there. It is opened each
    time, and the document is there wholly or not at all, and once it was answered it is there."""
    folder = new_folder("whole")
    calls, wrote, _ = stepping.run([PROGRAM, "serve"], folder, put("a") + put("b"))
    want("the whole run", wrote.count(b'"ok":true'), 2)
    last = [place for place, call in enumerate(calls) if call == "fdatasync"][-1]
    tail = [call for call in calls if call in ("pwrite64", "fdatasync", "ftruncate", "fsync", "flock", "openat", "open")]
    # The second put: it grows the file, writes the body and the root, writes the slot's front and syncs, and opens its gate and syncs.
    want("the calls of a put", tail[-6:], ["ftruncate", "pwrite64", "pwrite64", "fdatasync", "pwrite64", "fdatasync"])
    for moment in range(2 * (last + 1)):
        folder = new_folder("stop%d" % moment)
        _, wrote, _ = stepping.run([PROGRAM, "serve"], folder, put("a") + put("b"), moment)
        answered = wrote.count(b'"ok":true')
        status, output, error = run(folder, b'{"info":true}\n')
        if status != 0 or error:
            fail("a stop at moment %d" % moment, "status %d, %r, %r" % (status, output, error))
        found = json.loads(output)["doc_count"]
        if not answered <= found <= answered + 1:
            fail("a stop at moment %d" % moment, "%d were answered, and %d are there" % (answered, found))
    print("folder: %d stops in the making of a folder, at %d calls" % (2 * (last + 1), last + 1))


# What the system answers to `flock`, and what is said: it isn't supported, it isn't there, there are no more locks.
NO_LOCK = "couchview: the file system has no lock for this folder: see to it that no other program uses it\n"
LOCK_FAILED = "couchview: docs.0 can't be opened: No locks available (os error 37)\ncouchview: %s\n" % LATER
LOCKS = {-95: (True, NO_LOCK), -38: (True, NO_LOCK), -37: (False, LOCK_FAILED)}


def without_locks():
    """A file system that knows no lock is used without one, which is said once; and one that fails isn't used."""
    for answer, (goes_on, wanted) in LOCKS.items():
        folder = new_folder("lock%d" % answer)
        text = put("a") + put("b")
        _, wrote, said = stepping.run([PROGRAM, "serve"], folder, text, answers={"flock": answer})
        want("flock answers %d" % answer, said, wanted)
        want("flock answers %d" % answer, wrote.count(b'"ok":true'), 2 if goes_on else 0)
        want("flock answers %d" % answer, bytes_of(folder) != {}, goes_on)


wrong_words()
used_folder()
streams()
without_locks()
foreign_files()
damaged_gates()
earlier_version()
in_the_way()
killed_programs()
stops()
two_programs()
print("folder: foreign files, rights, words and streams are told of")
