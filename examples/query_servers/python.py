#!/usr/bin/env python3
"""A query server whose functions are Python.

A map source defines `fun(doc)`, which yields pairs of a key and a value. A reduce source defines
`fun(keys, values, rereduce)`, which returns a value. The server reads one JSON value a line and answers each with one
line, after any log lines (CouchDB documentation, "Query Server Protocol").
"""
import json
import sys

# Functions may print: that goes to standard error, since standard output is the protocol's.
output = sys.stdout.buffer
sys.stdout = sys.stderr

# The map functions that were added since the last reset.
functions = []

# Reduce functions by their sources, since each reduce line brings its sources.
reduces = {}


class CompilationError(Exception):
    pass


def show(line):
    """Writes the line at once."""
    output.write(line.encode("ascii") + b"\n")
    output.flush()


def text(value):
    """The value as JSON in ASCII."""
    return json.dumps(value, separators=(",", ":"), allow_nan=False)


def log(message):
    show(text(["log", message]))


def compiled(source):
    names = {"log": log}
    try:
        exec(source, names)
    except Exception as error:
        raise CompilationError(repr(error))
    if not callable(names.get("fun")):
        raise CompilationError("the source defines no function `fun`")
    return names["fun"]


def reduce_function(source):
    if source not in reduces:
        reduces[source] = compiled(source)
    return reduces[source]


def rows_of(function, line):
    """The rows of one function as text. One that raises an exception gives none."""
    try:
        # Each function gets a document of its own, so that none sees what another one did to it.
        return text([[key, value] for key, value in function(json.loads(line)[1]) or ()])
    except Exception as error:
        doc = json.loads(line)[1]
        name = doc.get("_id") if isinstance(doc, dict) else doc
        log("a map function raised an exception for document %s: %r" % (name, error))
        return "[]"


def result_of(function, keys, values, rereduce):
    """The result of one reduce function as text: null where it raises an exception."""
    try:
        return text(function(keys, values, rereduce))
    except Exception as error:
        log("a reduce function raised an exception: " + repr(error))
        return "null"


def reset(line, *options):
    functions.clear()
    reduces.clear()
    return "true"


def add_fun(line, source):
    functions.append(compiled(source))
    return "true"


def map_doc(line, doc):
    return "[" + ",".join(rows_of(function, line) for function in functions) + "]"


def reduce(line, sources, pairs):
    keys = [pair[0] for pair in pairs]
    values = [pair[1] for pair in pairs]
    results = [result_of(function, keys, values, False) for function in map(reduce_function, sources)]
    return "[true,[" + ",".join(results) + "]]"


def rereduce(line, sources, values):
    results = [result_of(function, None, values, True) for function in map(reduce_function, sources)]
    return "[true,[" + ",".join(results) + "]]"


commands = {"reset": reset, "add_fun": add_fun, "map_doc": map_doc, "reduce": reduce, "rereduce": rereduce}


def answer(line):
    try:
        name, *rest = json.loads(line)
        if name not in commands:
            return text(["error", "unknown_command", str(name)])
        return commands[name](line, *rest)
    except CompilationError as error:
        return text(["error", "compilation_error", str(error)])
    except Exception as error:
        return text(["error", "unknown_command", repr(error)])


for line in sys.stdin.buffer:
    show(answer(line))
