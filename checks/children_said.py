"""What is said of query servers that fail, are slow or write to the log: python3 children_said.py COUCHVIEW WORK

It ends with status 1 and a complaint that names the server where another line is said or another reply is given.
"""

import json
import os
import subprocess
import sys

PROGRAM, WORK = sys.argv[1:3]
SECONDS = 120

# It answers the lines that make it ready for one function, and then does something else.
SERVER = """#!{python}
import os, signal, sys, time
lines = iter(sys.stdin.buffer.readline, b"")
def write(text):
    sys.stdout.buffer.write(text)
    sys.stdout.buffer.flush()
def ready():
    for _ in range(2):
        next(lines)
        write(b"true\\n")
{does}
"""

FAULT = '{"error":"server_fault","reason":"query server failed twice"}'
ROW = '{"total_rows":1,"offset":0,"rows":[{"id":"a","key":1,"value":null}]}'

# Of each server, what it does, how often it is said (a fault comes at both attempts), and what.
FAILING = {
    "ends": ("ready()\nnext(lines)\nsys.exit(3)", "it ended with status 3"),
    "killed": ("ready()\nnext(lines)\nos.kill(os.getpid(), signal.SIGKILL)", "signal 9 ended it"),
    "ends_at_once": ("sys.exit(0)", "it ended with status 0"),
    "shuts_output": ("ready()\nnext(lines)\nos.close(1)\ntime.sleep(60)", "it closed its standard output and goes on"),
    "shuts_input": (
        "next(lines)\nos.close(0)\nwrite(b'true\\n')\ntime.sleep(60)",
        "it closed its standard input and goes on",
    ),
    "endless": (
        "ready()\nnext(lines)\nfor _ in range(140): write(b'x' * 1_000_000)\ntime.sleep(60)",
        "it printed more than 134217728 bytes without a newline",
    ),
    "takes_nothing": (
        "ready()\nfor _ in range(140): write(b'[\"log\",\"' + b'x' * 1_000_000)\ntime.sleep(60)",
        "it printed more than 134217728 bytes and didn't take what it was sent",
    ),
}


def fail(name, text):
    print("children_said: %s: %s" % (name, text), file=sys.stderr)
    sys.exit(1)


def ask(name, path, pad=0):
    """The reply to a view of one document by the server of this path, and what was said."""
    folder = os.path.join(WORK, "said_" + name)
    os.mkdir(folder)
    design = {"_id": "_design/d", "language": "x", "views": {"v": {"map": "f"}}}
    requests = [{"put": design}, {"put": {"_id": "a", "pad": "p" * pad}}, {"view": ["d", "v"]}]
    text = "".join(json.dumps(request) + "\n" for request in requests)
    words = [PROGRAM, "serve", "x=" + path]
    done = subprocess.run(words, cwd=folder, input=text.encode(), capture_output=True, timeout=SECONDS)
    if done.returncode != 0:
        fail(name, "the status is %d" % done.returncode)
    return done.stdout.decode().splitlines()[2], done.stderr.decode().splitlines()


def server(name, does):
    path = os.path.join(WORK, name + ".py")
    with open(path, "w") as file:
        file.write(SERVER.format(python=sys.executable, does=does))
    os.chmod(path, 0o755)
    return path


def check(name, path, reply, said, pad=0):
    got, lines = ask(name, path, pad)
    if got != reply:
        fail(name, "the reply is %s" % got[:200])
    wanted = ["couchview: %s: %s" % (path, text) for text in said]
    if lines != wanted:
        fail(name, "it is said %r and not %r" % (lines, wanted))


def failing():
    for name, (does, said) in FAILING.items():
        # A line of half a megabyte fills the pipe, so that it is only taken where the server reads.
        pad = 500_000 if name == "takes_nothing" else 0
        check(name, server(name, does), FAULT, [said, said], pad)
    absent = os.path.join(WORK, "absent")
    check("absent", absent, FAULT, ["it can't be started: No such file or directory (os error 2)"] * 2)
    shut = server("shut", "")
    os.chmod(shut, 0o644)
    check("shut", shut, FAULT, ["it can't be started: Permission denied (os error 13)"] * 2)


def slow():
    answer = "for line in lines: write(b'[[[1,null]]]\\n')"
    path = server("slow", "ready()\nnext(lines)\ntime.sleep(6)\nwrite(b'[[[1,null]]]\\n')\n" + answer)
    check("slow", path, ROW, ["it hasn't answered for 5 seconds, and is waited for"])


def logs():
    does = r"""ready()
next(lines)
write(b'["log","first"]\n [ "log" , "a\\nb\\u001b" ]\n')
write(b'[[[1,null]]]\n')
for line in lines: pass
"""
    check("logs", server("logs", does), ROW, ["log: first", "log: a\\nb?"])
    does = "ready()\nnext(lines)\nwrite(b'[\"log\",\"' + b'm' * 20000 + b'\"]\\n[[[1,null]]]\\n')\nfor line in lines: pass"
    check("long_log", server("long_log", does), ROW, ["log: " + "m" * 16_000 + "..."])


def complaints():
    does = "next(lines)\nwrite(b'true\\n')\nnext(lines)\nwrite(b'[\"error\",\"compilation_error\",\"line 1: no end\"]\\n')\ntime.sleep(60)"
    reply = '{"error":"compilation_error","reason":"_design/d"}'
    check("complains", server("complains", does), reply, ["compilation_error: line 1: no end"])


failing()
slow()
logs()
complaints()
print("folder: %d failures of a child are told of, a slow one, and log lines" % (len(FAILING) + 2))
