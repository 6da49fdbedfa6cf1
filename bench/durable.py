"""Durable writes a second: couchview, SQLite and bare appends. Called by durable.sh."""

import json
import os
import sqlite3
import subprocess
import sys
import time

PROGRAM, DATA = sys.argv[1:3]
MEASURED = 200
ROUNDS = 3


def document(number):
    return {"_id": "d%07d" % number, "age": 10 + number % 90, "name": "Ida Dal", "tags": ["a", "b", "c"], "town": "Oslo"}


def folder_of(name, size, turn):
    folder = os.path.join(DATA, "%s-%d-%d" % (name, size, turn))
    os.mkdir(folder)
    return folder


def seconds(work):
    start = time.perf_counter()
    work()
    return time.perf_counter() - start


def couchview(size, turn):
    """Each put is one commit of the documents' file. The time to open the folder is taken off."""
    folder = folder_of("couchview", size, turn)

    def serve(first, last):
        lines = "".join(json.dumps({"put": document(number)}, separators=(",", ":")) + "\n" for number in range(first, last))
        out = subprocess.run([PROGRAM, "serve"], cwd=folder, input=lines.encode(), stdout=subprocess.PIPE, check=True).stdout
        if out.count(b'{"ok":true') != last - first:
            sys.exit("bench/durable: a put failed: %r" % out[-200:])

    serve(0, size)
    length = os.path.getsize(os.path.join(folder, "docs.0"))
    opening = seconds(lambda: serve(size, size))
    taken = seconds(lambda: serve(size, size + MEASURED)) - opening
    return taken, (os.path.getsize(os.path.join(folder, "docs.0")) - length) / MEASURED


def steps(size, turn, grown):
    """The calls of the system that a put makes, and nothing else: grow, write, and three writes with fdatasync."""
    file = os.open(os.path.join(folder_of("steps", size, turn), "docs"), os.O_CREAT | os.O_RDWR)
    piece = b"x" * int(grown)
    length = 8192
    os.ftruncate(file, length)
    os.fdatasync(file)

    def commit(first, last):
        nonlocal length
        for number in range(first, last):
            slot = 4096 * (number % 2)
            os.ftruncate(file, length + len(piece))
            os.pwrite(file, piece, length)
            length += len(piece)
            for place, text in ((slot + 64, b"\0"), (slot, b"h" * 32), (slot + 64, b"\1")):
                os.pwrite(file, text, place)
                os.fdatasync(file)

    taken = seconds(lambda: commit(0, MEASURED))
    os.close(file)
    return taken, 0


def sqlite(size, turn):
    """Each insert is one transaction."""
    folder = folder_of("sqlite", size, turn)
    database = sqlite3.connect(os.path.join(folder, "db"), isolation_level=None)
    database.execute("pragma journal_mode=wal")
    database.execute("pragma synchronous=full")
    database.execute("create table documents (id text primary key, body text)")

    def insert(first, last):
        for number in range(first, last):
            body = document(number)
            database.execute("insert into documents values (?, ?)", (body["_id"], json.dumps(body, separators=(",", ":"))))

    insert(0, size)
    taken = seconds(lambda: insert(size, size + MEASURED))
    database.close()
    return taken, 0


def appends(size, turn):
    """Each document is one line at the end of a file."""
    file = os.open(os.path.join(folder_of("appends", size, turn), "lines"), os.O_CREAT | os.O_WRONLY | os.O_APPEND)

    def append(first, last):
        for number in range(first, last):
            os.write(file, json.dumps(document(number), separators=(",", ":")).encode() + b"\n")
            os.fdatasync(file)

    append(0, size)
    taken = seconds(lambda: append(size, size + MEASURED))
    os.close(file)
    return taken, 0


print("cores: %d, SQLite %s, %d writes measured, the best of %d" % (os.cpu_count(), sqlite3.sqlite_version, MEASURED, ROUNDS))
for size in (100, 1000):
    best = {"couchview": min(couchview(size, turn) for turn in range(ROUNDS))}
    grown = best["couchview"][1]
    best["its calls"] = min(steps(size, turn, grown) for turn in range(ROUNDS))
    best["SQLite"] = min(sqlite(size, turn) for turn in range(ROUNDS))
    best["appends"] = min(appends(size, turn) for turn in range(ROUNDS))
    print("%d documents, where a put adds %.0f bytes to the file" % (size, grown))
    for name, (taken, _) in best.items():
        print("    %-10s %8.0f writes/s, %6.3f ms each, couchview is at %.2f of it" % (name, MEASURED / taken, 1000 * taken / MEASURED, taken / best["couchview"][0]))
