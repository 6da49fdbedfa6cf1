"""Runs the examples of the pages: python3 docs.py REPOSITORY WORK

A block of lines and replies stands behind a comment that says how it is run:
    <!-- run: couchview serve WORDS -->         in a new folder
    <!-- run: again couchview serve WORDS -->   in the folder of the block before
    <!-- run: map_server -->
In WORDS `@` is the repository. Each line of the block is followed by its reply. A block of `couchview load` is what it prints.

The examples of examples/ are run as its README.md says, each in a new folder, and print what stands beside them.
"""

import glob
import os
import re
import shutil
import subprocess
import sys

REPOSITORY, WORK = sys.argv[1:3]
SECONDS = 60
PROGRAM = "%s/crates/couchview_cli/out/couchview_cli" % REPOSITORY
RUN = re.compile(r"<!-- run: (again )?(couchview|map_server) ?(.*?) ?-->$")
# What the examples need beside the programs.
NEEDS = {".js": "node", ".py": "python3"}


def fail(place, text):
    print("docs: %s: %s" % (place, text), file=sys.stderr)
    sys.exit(1)


def blocks(path):
    """The blocks of a page: the number of the first line, the line before the block, and the lines."""
    with open(path, encoding="utf-8") as file:
        lines = file.read().splitlines()
    start = None
    for number, line in enumerate(lines):
        if not line.startswith("```"):
            if start is None and line.startswith('{"'):
                fail("%s:%d" % (path, number + 1), "a request or reply outside a block")
            continue
        if start is None:
            start = number
            continue
        yield start + 2, lines[start - 1] if start else "", lines[start + 1 : number]
        start = None


def missing(words):
    """A program that the words want and that isn't there."""
    for word in words:
        tool = NEEDS.get(os.path.splitext(word)[1])
        if tool and shutil.which(tool) is None:
            return tool
    return None


def run(place, program, words, folder, lines):
    if words[:1] == ["load"]:
        return prints(place, words, folder, subprocess.DEVNULL, "".join(line + "\n" for line in lines).encode())
    if len(lines) % 2:
        fail(place, "a line has no reply")
    path = "%s/crates/%s_cli/out/%s_cli" % (REPOSITORY, program, program)
    text = "".join(line + "\n" for line in lines[::2])
    done = subprocess.run([path, *words], cwd=folder, input=text.encode(), stdout=subprocess.PIPE, stderr=subprocess.DEVNULL, timeout=SECONDS)
    got = done.stdout.decode().splitlines()
    for request, wanted, given in zip(lines[::2], lines[1::2], got):
        if wanted != given:
            fail(place, "%s is answered %s and not %s" % (request, given, wanted))
    if len(got) != len(lines) // 2 or done.returncode != 0:
        fail(place, "%d lines come, with status %d" % (len(got), done.returncode))


def prints(place, words, folder, source, wanted):
    """Fails unless the program, which reads the source, prints these bytes and ends with status 0."""
    done = subprocess.run([PROGRAM, *words], cwd=folder, stdin=source, stdout=subprocess.PIPE, stderr=subprocess.DEVNULL, timeout=SECONDS)
    if (done.stdout, done.returncode) != (wanted, 0):
        fail(place, "it prints something else, or ends with status %d" % done.returncode)


def page(path):
    ran, folder = 0, None
    for number, before, lines in blocks(path):
        place = "%s, line %d" % (os.path.relpath(path, REPOSITORY), number)
        found = RUN.match(before)
        if not found:
            if any(line.startswith(('{"', '["')) for line in lines):
                fail(place, "the example isn't run")
            continue
        again, program, words = found.groups()
        words = words.replace("@", REPOSITORY).split()
        if not again:
            folder = os.path.join(WORK, "page%d" % len(os.listdir(WORK)))
            os.mkdir(folder)
        tool = missing(words)
        if tool:
            print("docs: %s: skipped, since there is no %s" % (place, tool))
            continue
        run(place, program, words, folder, lines)
        ran += 1
    return ran


SHIPPED = re.compile(r"\.\./couchview (serve.*?) < \.\./examples/(\w+)\.jsonl$")


def shipped():
    """The examples of examples/README.md: how many there are."""
    path, ran = os.path.join(REPOSITORY, "examples", "README.md"), set()
    with open(path, encoding="utf-8") as file:
        lines = [SHIPPED.match(line) for line in file.read().splitlines()]
    for words, name in (line.groups() for line in lines if line):
        place = "examples/%s.jsonl" % name
        words = words.replace("../", REPOSITORY + "/").split()
        tool = missing(words)
        ran.add(name)
        if tool:
            print("docs: %s: skipped, since there is no %s" % (place, tool))
            continue
        folder = os.path.join(WORK, name)
        os.mkdir(folder)
        with open(os.path.join(REPOSITORY, place), "rb") as requests, open(os.path.join(REPOSITORY, "examples", name + ".out"), "rb") as wanted:
            prints(place, words, folder, requests, wanted.read())
    there = {os.path.basename(path)[: -len(".jsonl")] for path in glob.glob(REPOSITORY + "/examples/*.jsonl")}
    if ran != there:
        fail("examples/README.md", "it doesn't run %s" % ", ".join(sorted(there ^ ran)))
    return len(ran)


pages = [os.path.join(REPOSITORY, "README.md"), *sorted(glob.glob(REPOSITORY + "/docs/*.md"))]
print("docs: %d examples of %d pages are true" % (sum(page(path) for path in pages), len(pages)))
print("docs: %d examples of examples/ are true" % shipped())
