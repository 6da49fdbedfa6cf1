"""Asks random queries of random views, each reply beside that of a short model: python3 queries.py PROGRAM DATABASES [SEED]

PROGRAM is the built couchview. Of each database 200 queries are asked, some of them no queries at all, while documents are
written. The model sorts, filters, groups, reverses and cuts the whole list of rows for each query, by the table in
docs/COMMANDS.md. It ends with status 1 and a complaint that names the query where a reply is another.
"""
import json
import random
import subprocess
import sys

PROGRAM, DATABASES = sys.argv[1], int(sys.argv[2])
SEED = int(sys.argv[3]) if len(sys.argv) > 3 else 1
QUERIES = 200

KEYS = [0, 1, 2, 3, -5, 2**63 - 1, False, None, True, {}, {"a": 1}, {"a": 1, "b": 0}, {"b": 0}, [], [1], [1, 0], [1, 0, 7], [1, 0, 8, 9], [1, 2], [2], [[1], 2], [[1], 3], "", "a", "ab", "b", "\u00e9", "\U0001f600"]
IDS = ["a", "a0", "b", "b\u00e9", "c", "d", "\U0001f600"]
SWITCHES = ["inclusive_end", "descending", "reduce", "group", "update", "update_seq"]
COUNTS = ["skip", "limit"]
TABLE = {"key": "term", "keys": "list", "startkey": "term", "endkey": "term", "startkey_docid": "text", "endkey_docid": "text", "group_level": "level"}
TABLE.update({name: "switch" for name in SWITCHES}, **{name: "count" for name in COUNTS})


# What a document has as `m`, which is reduced.
NUMBERS = [0, 1, -1, 7, 2**63 - 1, -2**63]
VALUES = NUMBERS + [[], [1], [2, -3], [2**63 - 1, 1, 1]]

# The views of the two versions of the design: these have a reduce, three a built-in one and five one that the query server runs.
REDUCES = {"c": "_count", "s": "_sum", "t": "_stats", "r": "rows", "i": "min", "x": "max", "f": "first", "l": "last"}
SERVED = {"rows": len, "min": lambda values: min(values, key=order), "max": lambda values: max(values, key=order), "first": lambda values: values[0], "last": lambda values: values[-1]}
MAPS = [
    {"a": {"map": "emit doc.n, null"}, "v": {"map": "for x in doc.k { emit x, doc.n }"}},
    {"a": {"map": "emit doc.n, null"}, "v": {"map": "emit doc.k, doc.n"}},
]
for design in MAPS:
    design.update({view: {"map": "for x in doc.k { emit x, doc.m }", "reduce": reduce} for view, reduce in REDUCES.items()})


def text(term):
    return json.dumps(term, separators=(",", ":"), ensure_ascii=False, sort_keys=True)


def order(term):
    """What stands in the place of a term where terms are compared."""
    if isinstance(term, bool):
        return (3,) if term else (1,)
    if term is None:
        return (2,)
    if isinstance(term, int):
        return (0, term)
    if isinstance(term, dict):
        return (4, [(name.encode(), order(term[name])) for name in sorted(term, key=str.encode)])
    if isinstance(term, list):
        return (5, [order(part) for part in term])
    return (6, term.encode())


def fits(kind, value):
    """Whether a value is of the kind that a parameter has."""
    whole = isinstance(value, int) and not isinstance(value, bool)
    return {
        "term": True,
        "list": isinstance(value, list),
        "text": isinstance(value, str),
        "switch": isinstance(value, bool),
        "count": whole and value >= 0,
        "level": whole and 0 <= value <= 1000,
    }[kind]


def is_reduced(query, reduce):
    return reduce is not None and query.get("reduce") is not False


def refusal(query, reduce):
    """Why a query of a view with this reduce, or none, is refused, if it is."""
    names = sorted(query, key=str.encode)
    for name in names:
        if name not in TABLE:
            return "unknown parameter " + name
    for name in names:
        if not fits(TABLE[name], query[name]):
            return "bad value of " + name
    if sum(["key" in query, "keys" in query, "startkey" in query or "endkey" in query]) > 1:
        return "keys, key and range together"
    if query.get("reduce") is True and reduce is None:
        return "reduce of a map-only view"
    if (query.get("group") is True or query.get("group_level", 0) > 0) and not is_reduced(query, reduce):
        return "grouping without reduce"
    if is_reduced(query, reduce) and "keys" in query and query.get("group") is not True:
        return "keys need group=true"
    return None


def passes_start(query, row):
    if "key" not in query and "startkey" not in query:
        return True
    bound = order(query["key"] if "key" in query else query["startkey"])
    key, least = order(row[0]), query.get("startkey_docid")
    if query.get("descending", False):
        return key < bound or key == bound and (least is None or row[1].encode() <= least.encode())
    return key > bound or key == bound and (least is None or row[1].encode() >= least.encode())


def passes_end(query, row):
    if "key" not in query and "endkey" not in query:
        return True
    bound = order(query["key"] if "key" in query else query["endkey"])
    key, last = order(row[0]), query.get("endkey_docid")
    if key != bound:
        return key > bound if query.get("descending", False) else key < bound
    if last is None:
        return query.get("inclusive_end", True)
    one, other = row[1].encode(), last.encode()
    if query.get("descending", False):
        one, other = other, one
    return one <= other if query.get("inclusive_end", True) else one < other


def is_number(value):
    return isinstance(value, int) and not isinstance(value, bool)


def value_of(reduce, values):
    """The value of a group of rows with these values."""
    if reduce in SERVED:
        return SERVED[reduce](values)
    if reduce == "_count":
        return len(values)
    refused, overflow = {"error": "builtin_reduce_error"}, {"error": "builtin_reduce_overflow"}
    if reduce == "_stats":
        if not all(map(is_number, values)):
            return refused
        squares = sum(value * value for value in values)
        if squares >= 2**128 - 1:
            return overflow
        return {"sum": sum(values), "count": len(values), "min": min(values), "max": max(values), "sumsqr": squares}
    if all(map(is_number, values)):
        return sum(values)
    if not all(is_number(value) or isinstance(value, list) and all(map(is_number, value)) for value in values):
        return refused
    lists = [value if isinstance(value, list) else [value] for value in values]
    return [sum(part[place] for part in lists if place < len(part)) for place in range(max([1] + [len(part) for part in lists]))]


def key_of(query, key):
    """The key of the group of a row with this key."""
    if query.get("group") is True:
        return key
    level = query.get("group_level", 0)
    if level == 0:
        return None
    return key[:level] if isinstance(key, list) else key


def groups_of(query, rows):
    """The groups of rows that a query reduces: the key of each, and its rows in ascending order."""
    if "keys" in query:
        listed = [(key, [row for row in rows if order(row[0]) == order(key)]) for key in query["keys"]]
        return [(key, group) for key, group in listed if group]
    groups = []
    for row in rows:
        if passes_start(query, row) and passes_end(query, row):
            key = key_of(query, row[0])
            if groups and order(groups[-1][0]) == order(key):
                groups[-1][1].append(row)
            else:
                groups.append((key, [row]))
    return groups[::-1] if query.get("descending", False) else groups


def reduced_answer(query, rows, seq, reduce):
    """The reply to a query that is reduced."""
    picked = groups_of(query, rows)[query.get("skip", 0):]
    if "limit" in query:
        picked = picked[:query["limit"]]
    # The members of a value stand in this order, and not in that of their names.
    value_text = lambda value: json.dumps(value, separators=(",", ":"))
    shown = ",".join('{"key":%s,"value":%s}' % (text(key), value_text(value_of(reduce, [row[3] for row in group]))) for key, group in picked)
    shows = '"update_seq":%d,' % seq if query.get("update") is False or query.get("update_seq", False) else ""
    return '{%s"rows":[%s]}' % (shows, shown)


def answer(query, rows, seq):
    """The reply to a query of a view with these rows, which are in order, that isn't reduced."""
    turn = (lambda part: part[::-1]) if query.get("descending", False) else (lambda part: part)
    if "keys" in query:
        picked = [row for key in query["keys"] for row in turn([row for row in rows if order(row[0]) == order(key)])]
        offset = None
    else:
        picked = turn([row for row in rows if passes_start(query, row) and passes_end(query, row)])
        offset = sum(not passes_start(query, row) for row in rows) + min(query.get("skip", 0), len(picked))
    picked = picked[query.get("skip", 0):]
    if "limit" in query:
        picked = picked[:query["limit"]]
    shown = ",".join('{"id":%s,"key":%s,"value":%s}' % (text(row[1]), text(row[0]), text(row[3])) for row in picked)
    shows = '"update_seq":%d,' % seq if query.get("update") is False or query.get("update_seq", False) else ""
    return '{"total_rows":%d,%s"offset":%s,"rows":[%s]}' % (len(rows), shows, text(offset), shown)


def reply(name, query, index, design, documents, seq):
    """The reply to a query of a view of `d`, or of one that isn't there, or whose language is unknown. `index` has the rows of each
    view of this version of `d` as they were at its last update, and their sequence."""
    if name == ["w", "v"]:
        return '{"error":"not_found","reason":"missing"}'
    if name == ["d", "w"]:
        return '{"error":"not_found","reason":"missing_named_view"}'
    reduce = REDUCES.get(name[1])
    why = refusal(query, reduce)
    if why is not None:
        return '{"error":"query_parse_error","reason":%s}' % text(why)
    if name == ["u", "v"]:
        return '{"error":"unknown_language","reason":"none"}'
    if query.get("update") is not False:
        index.update({view: rows_of(view, design, documents) for view in MAPS[design]}, seq=seq)
    if is_reduced(query, reduce):
        return reduced_answer(query, index[name[1]], index["seq"], reduce)
    return answer(query, index[name[1]], index["seq"])


def rows_of(view, design, documents):
    """The rows of one of the views of a version of the design, in order."""
    if view == "a":
        rows = [(document["n"], ident, 0, None) for ident, document in documents.items()]
    elif view in REDUCES:
        rows = [(key, ident, place, document["m"]) for ident, document in documents.items() for place, key in enumerate(document["k"])]
    elif design == 1:
        rows = [(document["k"], ident, 0, document["n"]) for ident, document in documents.items()]
    else:
        rows = [(key, ident, place, document["n"]) for ident, document in documents.items() for place, key in enumerate(document["k"])]
    return sorted(rows, key=lambda row: (order(row[0]), row[1].encode(), row[2]))


def value_for(rng, name):
    """A value of a parameter, mostly one that it may have."""
    if rng.random() < 0.02:
        return rng.choice([-1, 1001, "x", None, [], {}, True, 2**63 - 1])
    kind = TABLE.get(name, "term")
    if kind == "list":
        return [rng.choice(KEYS) for _ in range(rng.randrange(5))]
    if kind == "text":
        return rng.choice(IDS)
    if kind == "switch":
        return rng.random() < 0.5
    if kind == "count":
        return rng.choice([0, 1, 2, 3, 7, 20, 1000, 2**63 - 1])
    return rng.choice([0, 0, 1, 1, 2, 1000]) if kind == "level" else rng.choice(KEYS)


def value_of_document(rng):
    """What a document has as `m`: mostly a number or an array of numbers, and seldom what no built-in reduce but `_count` takes."""
    if rng.random() < 0.03:
        return rng.choice(["x", None, {"a": 1}, [1, "x"]])
    return rng.choice(NUMBERS if rng.random() < 0.7 else VALUES)


def query_for(rng, reduced):
    """A random query. Parameters that often refuse one another are rare, those of groups but for a view with a reduce."""
    query = {}
    ends = rng.choice([["key"], ["keys"], ["startkey"], ["endkey"], ["startkey", "endkey"], ["startkey", "endkey"], []])
    for name in ends + [name for name in ["startkey_docid", "endkey_docid"] if rng.random() < 0.4] + [name for name in ["inclusive_end", "descending", "skip", "limit", "update_seq", "update"] if rng.random() < 0.4]:
        query[name] = value_for(rng, name)
    for name in ["key", "keys", "startkey", "reduce", "group", "group_level", "update", "stale"]:
        if rng.random() < 0.04:
            query[name] = value_for(rng, name)
    for name in ["reduce", "group", "group_level"] if reduced else []:
        if rng.random() < 0.4:
            query[name] = value_for(rng, name)
    if reduced and "keys" in query and rng.random() < 0.8:
        query.update(group=True)
    return query


def database(number):
    """The lines of a database, and the replies that are wanted of some of them."""
    rng = random.Random(SEED * 1000 + number)
    lines, wanted, documents, revisions, seq = [], [], {}, {}, 0
    generations = {}
    indexes = [dict({view: [] for view in views}, seq=0) for views in MAPS]
    design = 0

    def write(document):
        nonlocal seq
        ident = document["_id"]
        seq += 1
        generations[ident] = generations.get(ident, 0) + 1
        sent = dict(document, _rev=revisions[ident]) if ident in revisions else document
        revisions[ident] = "%d-%032x" % (generations[ident], seq)
        lines.append(text({"put": sent}))
        wanted.append('{"ok":true,"id":%s,"rev":"%s"}' % (text(ident), revisions[ident]))

    def remove(ident):
        nonlocal seq
        seq += 1
        generations[ident] += 1
        lines.append(text({"delete": ident, "rev": revisions.pop(ident)}))
        wanted.append('{"ok":true,"id":%s,"rev":"%d-%032x"}' % (text(ident), generations[ident], seq))
        del documents[ident]

    write({"_id": "_design/d", "language": "pick", "views": MAPS[design]})
    write({"_id": "_design/u", "language": "none", "views": {"v": {"map": "k"}}})
    for turn in range(QUERIES):
        if turn % 20 == 0 or rng.random() < 0.05:
            for _ in range(rng.randrange(4) + (turn == 0) * 6):
                ident = rng.choice(IDS)
                if ident in documents and rng.random() < 0.2:
                    remove(ident)
                    continue
                documents[ident] = {"_id": ident, "k": [rng.choice(KEYS) for _ in range(rng.choice([0, 1, 2, 3, 5, 7, 40]))], "n": rng.randrange(9), "m": value_of_document(rng)}
                write(documents[ident])
        if rng.random() < 0.03:
            design = 1 - design
            write({"_id": "_design/d", "language": "pick", "views": MAPS[design]})
        view = rng.choice(["v", "v", "v", "v", "a", "c", "s", "s", "t", "r", "i", "x", "f", "l"])
        name, query = ["d", view], query_for(rng, view in REDUCES)
        if rng.random() < 0.05:
            name = rng.choice([["u", "v"], ["d", "w"], ["w", "v"]])
        if rng.random() < 0.05:
            query = {}
            lines.append(text({"view": name}))
        else:
            lines.append(text({"view": name, "query": query}))
        wanted.append(reply(name, query, indexes[design], design, documents, seq))
    return lines, wanted


def answers(lines, rng):
    """The replies to these lines, in some runs one after another, and the greatest status of them."""
    got, status = [], 0
    while lines:
        count = rng.choice([1, 20, 100, len(lines)])
        done = subprocess.run([PROGRAM, "serve"], input="".join(line + "\n" for line in lines[:count]).encode(), stdout=subprocess.PIPE, cwd="queries", timeout=600)
        got += done.stdout.decode().splitlines()
        status, lines = max(status, abs(done.returncode)), lines[count:]
    return got, status


def main():
    refused = printed = groups = overflows = 0
    for number in range(DATABASES):
        lines, wanted = database(number)
        subprocess.run(["rm", "-rf", "queries"], check=True)
        subprocess.run(["mkdir", "queries"], check=True)
        got, status = answers(lines, random.Random(number))
        for line, one, other in zip(lines, got, wanted):
            if one != other:
                print("queries: seed %d, database %d: %s is answered %s and not %s" % (SEED, number, line, one, other))
                sys.exit(1)
            refused += one.startswith('{"error"')
            printed += one.count('"key":') if '"total_rows"' in one else 0
            groups += one.count('"key":') if '"total_rows"' not in one else 0
            overflows += one.count("builtin_reduce_overflow")
        if status != 0 or len(got) != len(wanted):
            print("queries: seed %d, database %d ended with status %d after %d replies" % (SEED, number, status, len(got)))
            sys.exit(1)
    print("queries: %d queries, of which %d were refused, printed %d rows and %d groups, %d of them overflows" % (DATABASES * QUERIES, refused, printed, groups, overflows))


if __name__ == "__main__":
    main()
