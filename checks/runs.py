"""Runs couchview and compares what it writes: python3 runs.py COUCHVIEW RUNS FOLDER

COUCHVIEW is the built program, and RUNS the file of the runs, whose head tells its form. The runs take place below FOLDER. It
ends with status 1 and a complaint that names the run where a line or the exit status is another, where a run takes a minute, or
where a child is not started or left behind.
"""
import os
import subprocess
import sys

SECONDS = 60

# A query server that notes that it was started, and emits one row of each document.
OWN = """#!/bin/sh
echo started >> "$0.starts"
while read -r line; do
    case $line in
        '["map_doc"'*) echo '[[["own",4]]]' ;;
        *) echo true ;;
    esac
done
"""


def complain(text):
    print("runs: %s" % text, file=sys.stderr)
    sys.exit(1)


class Run:
    """A run: the line that begins it, how it stands to the run before, its words, and what it reads and is to write."""

    def __init__(self, number, line):
        self.name = "the run of line %d, %s" % (number, line)
        self.kind, _, words = line.partition(" ")
        self.words = words.split()
        self.input = b""
        self.output = b""
        self.status = None

    def add(self, line):
        mark, _, text = line.partition(" ")
        if line.startswith((">*", "<*")):
            texts = [text % ((n,) * text.count("%")) for n in range(1, int(mark[2:]) + 1)]
        else:
            texts = [text]
        if line.startswith(">*"):
            self.input += "".join(text + "\n" for text in texts).encode()
        elif line.startswith(">"):
            self.input += text.encode().rjust(int(mark[1:] or 0)) + b"\n"
        elif line.startswith(("<*", "< ")):
            self.output += "".join(text + "\n" for text in texts).encode()
        elif line.startswith("= "):
            self.status = int(text)
        else:
            complain("%s has a line that is none: %s" % (self.name, line))


def read_runs(path):
    runs = []
    with open(path, encoding="utf-8") as file:
        for number, line in enumerate(file.read().splitlines(), 1):
            if not line or line.startswith("#"):
                continue
            if line.split(" ")[0] in ("new", "again", "full"):
                runs.append(Run(number, line))
            elif runs:
                runs[-1].add(line)
            else:
                complain("line %d stands before the first run" % number)
    return runs


def command_lines():
    """The command lines of all processes."""
    for name in filter(str.isdigit, os.listdir("/proc")):
        try:
            with open("/proc/%s/cmdline" % name, "rb") as file:
                yield file.read().replace(b"\0", b" ").decode(errors="replace")
        except OSError:
            continue


def compare(run, output, status):
    got, want = output.splitlines(), run.output.splitlines()
    for place in range(max(len(got), len(want))):
        if got[place : place + 1] != want[place : place + 1]:
            pair = [b" ".join(lines[place : place + 1])[:1500].decode(errors="replace") for lines in (got, want)]
            complain("%s: line %d is\n  %s\nin place of\n  %s" % (run.name, place + 1, *pair))
    if output != run.output:
        complain("%s: the last line has no end" % run.name)
    if status != run.status:
        complain("%s: the exit status is %d in place of %s" % (run.name, status, run.status))


def check_child(run, own):
    """Looks whether the run started the child once, where its words name it, and stopped it."""
    try:
        with open(own + ".starts") as file:
            starts = len(file.readlines())
        os.remove(own + ".starts")
    except FileNotFoundError:
        starts = 0
    if starts != sum(own in word for word in run.words):
        complain("%s: %d children were started" % (run.name, starts))
    if any(own in line for line in command_lines() if "runs.py" not in line):
        complain("%s: a child is left behind" % run.name)


def main():
    program, path, folder = sys.argv[1:]
    own = os.path.join(folder, "own")
    with open(own, "w") as file:
        file.write(OWN)
    os.chmod(own, 0o755)
    runs = read_runs(path)
    place = None
    for number, run in enumerate(runs):
        if run.kind == "new":
            place = os.path.join(folder, "run%d" % number)
            os.mkdir(place)
        run.words = [word.replace("@", folder + os.sep) for word in run.words]
        sink = open("/dev/full", "wb") if run.kind == "full" else subprocess.PIPE
        try:
            done = subprocess.run([program, *run.words], cwd=place, input=run.input, stdout=sink, stderr=subprocess.DEVNULL, timeout=SECONDS)
        except subprocess.TimeoutExpired:
            complain("%s didn't end within %d seconds" % (run.name, SECONDS))
        compare(run, done.stdout or b"", done.returncode)
        check_child(run, own)
    print("runs: all %d runs are as they should be" % len(runs))


main()
