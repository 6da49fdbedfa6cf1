"""Times of trees built in batches, and what that takes of their store. Called by trees.sh."""

import os
import re
import subprocess
import sys
import time

PROGRAM, DATA = sys.argv[1:3]
ROWS = int(sys.argv[3])
MANY = int(sys.argv[4])
EDITS = 10_000


def run(order, rows, batch, edits, store, question="count", times=0, rounds=3):
    """The least time of some runs in seconds, and what the program prints."""
    best, text = None, ""
    for _ in range(rounds):
        for name in ("docs.0", "docs.1", "lock"):
            path = os.path.join(DATA, name)
            if os.path.exists(path):
                os.remove(path)
        began = time.perf_counter()
        words = [PROGRAM, order, str(rows), str(batch), str(edits), store, question, str(times)]
        done = subprocess.run(words, cwd=DATA, stdout=subprocess.PIPE, text=True)
        took = time.perf_counter() - began
        if done.returncode != 0:
            sys.exit("bench/trees: %r ends with status %d" % (words, done.returncode))
        best, text = took if best is None else min(best, took), done.stdout
    return best, text


def numbers(text):
    return [int(number) for number in re.findall(r"\d+", text)]


def build():
    """What building in batches takes, and edits one by one behind it."""
    yard, _ = run("sort", ROWS, ROWS, 0, "memory")
    print("%d rows sorted and spelled: %.3f s" % (ROWS, yard))
    print("| Rows | Batches of | Puts a row | Gets a row | Height | Rows a leaf | Seconds | Beside sorting and spelling | In a file, seconds |")
    print("|---|---|---|---|---|---|---|---|---|")
    for order in ("random", "rising"):
        for batch in (1_000, 10_000, ROWS):
            took, text = run(order, ROWS, batch, 0, "memory")
            rows, _, puts, gets, height, leaves = numbers(text)[:6]
            in_file, _ = run(order, ROWS, batch, 0, "file")
            print(
                "| %s | %d | %.3f | %.3f | %d | %.1f | %.2f | %.1f | %.2f |"
                % (order, batch, puts / rows, gets / rows, height, rows / leaves, took, took / yard, in_file),
                flush=True,
            )
    for order in ("random", "rising"):
        built, _ = run(order, ROWS, 1_000, 0, "memory")
        took, text = run(order, ROWS, 1_000, EDITS, "memory")
        puts, gets = numbers(text)[9:11]
        before, _ = run(order, ROWS, 1_000, 0, "file")
        in_file, _ = run(order, ROWS, 1_000, EDITS, "file")
        print(
            "%s: %d rows replaced one by one: %.2f puts and %.2f gets each, %.1f us each in memory, %.1f us in a file"
            % (order, EDITS, puts / EDITS, gets / EDITS, 1e6 * (took - built) / EDITS, 1e6 * (in_file - before) / EDITS),
            flush=True,
        )


def ask():
    """What questions take, in microseconds each: a count, the value of a range, and a row of a walk beside one of bare decoding."""
    print("| Rows | Store | Count | Value of a range | Row of a walk | Row of nodes that are only decoded | Walk's part of that rate |")
    print("|---|---|---|---|---|---|---|")
    for rows in (1_000, MANY):
        once = max(1, 3_000_000 // rows)
        for store in ("memory", "file"):
            rounds = 3 if rows < 100_000 else 1
            least, _ = run("random", rows, rows, 0, store, rounds=3)
            told = []
            for question, times, each in (
                ("count", 200_000, 1),
                ("reduce", 100_000, 1),
                ("walk", once, rows),
                ("decode", once, rows),
            ):
                took, _ = run("random", rows, rows, 0, store, question, times, rounds)
                told.append(1e6 * (took - least) / (times * each))
            count, value, walk, decode = told
            print("| %d | %s | %.2f | %.2f | %.3f | %.3f | %.2f |" % (rows, store, count, value, walk, decode, decode / walk), flush=True)


def main():
    build()
    ask()


main()
