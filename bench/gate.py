#!/usr/bin/env python3
"""Runs `rt ci` and prints, as a Markdown table, how much processor time each crate takes.

    bench/gate.py [WORD]...

Run by hand at the top of a clone. The words go to `rt ci`: names of crates, or `--anew`, without which what earlier runs
passed on this machine is kept and takes no time. Twice a second it looks at the processes that rt has started, so it
misses half a second of each at most. Of each crate it tells apart the proof, the tests (their proof, and their run), and the
must-fail edits with the one check that they all begin with. `.ci/run` doesn't run this.
"""
import collections
import os
import re
import subprocess
import sys
import time

TICK = os.sysconf("SC_CLK_TCK")
PARTS = ("proof", "tests", "edits", "rest")


def read(path):
    """The text of a file of /proc, or none once its process is gone."""
    try:
        with open(path, errors="replace") as file:
            return file.read()
    except OSError:
        return None


def status(pid):
    """The parent of a process, its start, and the processor seconds of it and of its children that have ended."""
    line = read(f"/proc/{pid}/stat")
    if line is None:
        return None
    words = line[line.rindex(")") + 2 :].split()
    return int(words[1]), words[19], sum(map(int, words[11:15])) / TICK


def place(pid):
    """The crate and the part of the gate that a process is about."""
    words = (read(f"/proc/{pid}/cmdline") or "").split("\0")
    try:
        folder = os.readlink(f"/proc/{pid}/cwd")
    except OSError:
        return None
    if "--crate-name" in words:
        crate = words[words.index("--crate-name") + 1]
        if "/rt-edit-" in folder + "/":
            return crate, "edits"
        return crate, "tests" if "--test" in words else "proof"
    found = re.search(r"/crates/(\w+)", folder)
    return (found.group(1), "rest") if found else None


def watch(run):
    """Waits for the run, and gives the processor seconds of each process that it started itself, with its place."""
    seen = {}
    while run.poll() is None:
        for name in filter(str.isdigit, os.listdir("/proc")):
            told = status(name)
            if told and told[0] == run.pid:
                key = name, told[1]
                where = seen.get(key, (None, 0))[0] or place(name)
                seen[key] = where, told[2]
        time.sleep(0.5)
    return seen.values()


def main():
    start = time.time()
    data = os.path.join(os.path.dirname(os.path.abspath(__file__)), "data")
    os.makedirs(data, exist_ok=True)
    with open(os.path.join(data, "gate.log"), "w") as log:
        run = subprocess.Popen(["rt", "ci", *sys.argv[1:]], stdout=log, stderr=subprocess.STDOUT)
        processes = watch(run)
    seconds = collections.defaultdict(lambda: dict.fromkeys(PARTS, 0))
    for where, spent in processes:
        if where:
            seconds[where[0]][where[1]] += spent
    print("| Crate | Proof | Tests | Edits | Links and runs | Together |\n|---|---|---|---|---|---|")
    whole = dict.fromkeys(PARTS, 0)
    rows = sorted(seconds.items(), key=lambda row: -sum(row[1].values()))
    for crate, parts in rows:
        print(f"| `{crate}` | " + " | ".join(f"{parts[part] / 60:.1f}" for part in PARTS) + f" | {sum(parts.values()) / 60:.1f} |")
        for part in PARTS:
            whole[part] += parts[part]
    print("| together | " + " | ".join(f"{whole[part] / 60:.1f}" for part in PARTS) + f" | {sum(whole.values()) / 60:.1f} |")
    print(f"\nMinutes of a processor; {(time.time() - start) / 60:.0f} minutes by the clock on {os.cpu_count()} cores. rt's words are in bench/data/gate.log.")
    return run.returncode


if __name__ == "__main__":
    sys.exit(main())
