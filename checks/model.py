"""What couchview replies to each request, worked out afresh from whole lists, by docs/COMMANDS.md.

The model keeps the last write of each id, and of each index how far it reads and its rows. Beside `field` and `pick` it knows four
query servers: `flaky` computes what `pick` does, `dead` ends at once, `liar` answers nonsense, and `sour` refuses every source.
"""
import json
import re
from itertools import groupby

REFUSALS = {"dead": ("server_fault", "query server failed twice"), "liar": ("server_reply", "what?"), "sour": ("compilation_error", None)}


def show(value):
    return json.dumps(value, separators=(",", ":"), ensure_ascii=False, sort_keys=True)


def depth(value):
    parts = value.values() if isinstance(value, dict) else value if isinstance(value, list) else None
    return 0 if parts is None else 1 + max([depth(part) for part in parts], default=0)


def is_number(value):
    return isinstance(value, int) and not isinstance(value, bool)


def raw(value):
    """A key by which terms stand in raw order."""
    if is_number(value):
        return (0, value)
    if value is None or isinstance(value, bool):
        return (1 + [False, None, True].index(value),)
    if isinstance(value, dict):
        return (4, [(name.encode(), raw(value[name])) for name in sorted(value, key=str.encode)])
    return (5, [raw(part) for part in value]) if isinstance(value, list) else (6, value.encode())


def is_whole(value):
    """Whether each number in it is whole, of 64 bits."""
    parts = list(value.values()) if isinstance(value, dict) else value if isinstance(value, list) else []
    return all(map(is_whole, parts)) and not isinstance(value, float) and not (is_number(value) and not -2**63 <= value < 2**63)


class Refused(Exception):
    """A request that isn't done, with the name and the reason that are answered."""


# ---- what query servers compute: of each language its map sources, and its reduce sources

FIELD = {name: lambda doc, name=name: [(doc[name], None)] if name in doc else [] for name in ("a", "b", "t")}
PICK = {
    "emit doc.a, doc.b": lambda doc: [(doc["a"], doc["b"])] if doc.keys() >= set("ab") else [],
    "emit doc.b, doc.c": lambda doc: [(doc["b"], doc["c"])] if doc.keys() >= set("bc") else [],
    "emit [doc.a, doc.b], doc.c": lambda doc: [([doc["a"], doc["b"]], doc["c"])] if doc.keys() >= set("abc") else [],
    "for one in doc.t { emit one, doc.a }": lambda doc: [(one, doc["a"]) for one in doc["t"]] if doc.keys() >= set("at") else [],
    "if doc.a == 1 { emit doc.b, null } emit doc._id, doc.c": lambda doc: ([(doc["b"], None)] if doc.keys() >= set("ab") and raw(doc["a"]) == (0, 1) else []) + ([(doc["_id"], doc["c"])] if "c" in doc else []),
    "emit 1, doc.c emit 1, doc.b": lambda doc: [(1, doc[name]) for name in "cb" if name in doc],
}
REDUCES = {"rows": len, "min": lambda values: min(values, key=raw), "max": lambda values: max(values, key=raw), "first": lambda values: values[0], "last": lambda values: values[-1]}
LANGUAGES = {"field": (FIELD, {}), "pick": (PICK, REDUCES), "flaky": (PICK, REDUCES)}


def builtin(name, values):
    """The text of a built-in reduce's value."""
    if name == "_count":
        return str(len(values))
    lists = [value for value in values if name == "_sum" and isinstance(value, list) and all(map(is_number, value))]
    if len(lists) + sum(map(is_number, values)) < len(values):
        return '{"error":"builtin_reduce_error"}'
    if name == "_stats":
        squares = sum(value * value for value in values)
        found = (sum(values), len(values), min(values), max(values), squares)
        return '{"error":"builtin_reduce_overflow"}' if squares >= 2**128 - 1 else '{"sum":%d,"count":%d,"min":%d,"max":%d,"sumsqr":%d}' % found
    sums = [0] * max([1] + [len(one) for one in lists])
    for value in values:
        for place, number in enumerate(value if isinstance(value, list) else [value]):
            sums[place] += number
    return show(sums) if lists else show(sums[0])


# ---- queries

SWITCHES, COUNTS, TEXTS, TERMS = ["inclusive_end", "descending", "reduce", "group", "update", "update_seq"], ["skip", "limit"], ["startkey_docid", "endkey_docid"], ["key", "startkey", "endkey"]


def is_good(name, value):
    if name in SWITCHES:
        return isinstance(value, bool)
    if name in COUNTS or name == "group_level":
        return is_number(value) and 0 <= value <= (1000 if name == "group_level" else 2**63)
    return isinstance(value, list) if name == "keys" else name in TERMS or isinstance(value, str)


def check_query(query, has_reduce):
    names = sorted(query, key=str.encode)
    for name in names:
        if name not in SWITCHES + COUNTS + TEXTS + TERMS + ["keys", "group_level"]:
            raise Refused("query_parse_error", "unknown parameter " + name)
    for name in names:
        if not is_good(name, query[name]):
            raise Refused("query_parse_error", "bad value of " + name)
    reduced = query.get("reduce", has_reduce)
    if ("key" in query) + ("keys" in query) + ("startkey" in query or "endkey" in query) > 1:
        raise Refused("query_parse_error", "keys, key and range together")
    if reduced and not has_reduce:
        raise Refused("query_parse_error", "reduce of a map-only view")
    if (query.get("group", False) or query.get("group_level", 0) > 0) and not reduced:
        raise Refused("query_parse_error", "grouping without reduce")
    if reduced and "keys" in query and not query.get("group", False):
        raise Refused("query_parse_error", "keys need group=true")
    return reduced


def passes(query, name, row):
    """Whether the row passes the bound of this name, `startkey` or `endkey`."""
    up = (name == "startkey") != query.get("descending", False)
    bound = [raw(query[which]) for which in (name, "key") if which in query]
    if not bound or raw(row[0]) != bound[0]:
        return not bound or (raw(row[0]) > bound[0]) == up
    inclusive, one = name == "startkey" or query.get("inclusive_end", True), query.get(name + "_docid")
    if one is None or row[1] == one:
        return inclusive
    return (row[1].encode() > one.encode()) == up


def picked(query, parts):
    """The parts joined, each in its turn, without those that are skipped, up to the limit."""
    whole = [one for part in parts for one in (part[::-1] if query.get("descending", False) else part)][query.get("skip", 0):]
    return whole[:query["limit"]] if "limit" in query else whole


def group_key(query, key):
    level = query.get("group_level", 0)
    return key if query.get("group", False) else None if level == 0 else key[:level] if isinstance(key, list) else key


def answer(query, reduced, text_of, seq, rows):
    shown = '"update_seq":%d,' % seq if query.get("update_seq", False) or not query.get("update", True) else ""
    ranges = [[row for row in rows if raw(row[0]) == raw(key)] for key in query.get("keys", [])]
    chosen = [row for row in rows if passes(query, "startkey", row) and passes(query, "endkey", row)]
    if reduced:
        runs = [list(run) for _, run in groupby(chosen, key=lambda row: raw(group_key(query, row[0])))]
        groups = picked(query, [[one] for one in ranges if one] if "keys" in query else [runs])
        lines = ['{"key":%s,"value":%s}' % (show(group_key(query, group[0][0])), text_of([row[2] for row in group])) for group in groups]
        return '{%s"rows":[%s]}' % (shown, ",".join(lines))
    offset = sum(not passes(query, "startkey", row) for row in rows) + min(query.get("skip", 0), len(chosen))
    lines = [show({"id": row[1], "key": row[0], "value": row[2]}) for row in picked(query, ranges if "keys" in query else [chosen])]
    return '{"total_rows":%d,%s"offset":%s,"rows":[%s]}' % (len(rows), shown, "null" if "keys" in query else offset, ",".join(lines))


# ---- documents, designs and indexes

def check_options(options):
    if not isinstance(options, dict):
        return "options"
    good = lambda name: options[name] == "raw" if name == "collation" else name in ("include_design", "local_seq", "partitioned") and options[name] is False
    return next((name for name in sorted(options, key=str.encode) if not good(name)), None)


def check_design(doc):
    """Why it is no design."""
    if not (isinstance(doc.get("language", "javascript"), str) and doc.get("language", "javascript")):
        return "language"
    if not isinstance(doc.get("views", {}), dict):
        return "views"
    if check_options(doc.get("options", {})) is not None:
        return "option " + check_options(doc["options"])
    for place, (name, view) in enumerate(sorted(doc.get("views", {}).items(), key=lambda item: item[0].encode())):
        if not isinstance(view, dict) or not isinstance(view.get("map"), str) or not isinstance(view.get("reduce", ""), str) or name == "lib" or place >= 32:
            return "view " + name
        if check_options(view.get("options", {})) is not None:
            return "option " + check_options(view["options"])
        if view.get("reduce", "x")[:1] == "_" and view["reduce"] not in ("_sum", "_count", "_stats"):
            return "builtin " + name
    return None


def is_revision(text):
    found = re.fullmatch("([1-9][0-9]*)-[0-9a-f]{32}", text) if isinstance(text, str) else None
    return found is not None and int(found[1]) < 2**63


class Model:
    def __init__(self):
        self.writes, self.last, self.indexes = 0, {}, {}

    def live(self):
        return {name: doc for name, (_, _, doc) in self.last.items() if doc is not None}

    def rev(self, name):
        return "%d-%032x" % self.last[name][:2] if name in self.last else None

    def find(self, name):
        if name not in self.live():
            raise Refused("not_found", "deleted" if name in self.last else "missing")
        return self.live()[name]

    def write(self, name, given, body):
        if body is None:
            self.find(name)
        if given != self.rev(name) and not (given is None and body is not None and self.live().get(name) is None):
            raise Refused("conflict", "Document update conflict.")
        self.writes += 1
        self.last[name] = (self.last[name][0] + 1 if name in self.last else 1, self.writes, None)
        self.last[name] = self.last[name][:2] + (None if body is None else dict(body, _rev=self.rev(name)),)
        return '{"ok":true,"id":%s,"rev":"%s"}' % (show(name), self.rev(name))

    def put(self, doc):
        name, body, deleted = doc.get("_id"), {key: value for key, value in doc.items() if key not in ("_rev", "_deleted")}, doc.get("_deleted", False)
        if not isinstance(name, str) or not name or (name[0] == "_" and not (name.startswith("_design/") and len(name) > 8)):
            raise Refused("bad_id", "document id is not allowed")
        bad = [key for key in sorted(doc, key=str.encode) if key[:1] == "_" and key not in ("_id", "_rev") and not (key == "_deleted" and isinstance(doc[key], bool))]
        if bad:
            raise Refused("bad_member", bad[0])
        if "_rev" in doc and not is_revision(doc["_rev"]):
            raise Refused("bad_rev", "revision is not well formed")
        if len(show(body).encode()) > 524288:
            raise Refused("too_large", "document passes 524288 bytes")
        if depth(doc) > 64:
            raise Refused("too_deep", "document passes depth 64")
        if name[0] == "_" and not deleted and check_design(doc) is not None:
            raise Refused("invalid_design_doc", check_design(doc))
        return self.write(name, doc.get("_rev"), None if deleted else body)

    def delete(self, name, rev=None):
        if rev is not None and not is_revision(rev):
            raise Refused("bad_rev", "revision is not well formed")
        return self.write(name, rev, None)

    def update(self, name, language, views, index):
        """The index of these views, up to date."""
        seq, rows = index
        mapped = {one: doc for one, doc in self.live().items() if one[0] != "_"}
        if language in LANGUAGES:
            maps, reduces = LANGUAGES[language]
            if mapped and any(view["map"] not in maps for view in views.values()):
                raise Refused("compilation_error", name)
            rows = {view: sorted(((key, one, place, value) for one, doc in mapped.items() for place, (key, value) in enumerate(maps[views[view]["map"]](doc))),
                                 key=lambda row: (raw(row[0]), row[1].encode(), row[2])) for view in views} if mapped else {}
            if any(rows.get(view) and views[view].get("reduce", "_")[:1] != "_" and views[view]["reduce"] not in reduces for view in views):
                raise Refused("compilation_error", name)
        elif any(self.last[one][1] > seq for one in mapped):
            raise Refused(REFUSALS[language][0], REFUSALS[language][1] or name)
        return self.writes, rows

    def view(self, words, query):
        name = "_design/" + words[0]
        design = self.find(name)
        language, views = design.get("language", "javascript"), design.get("views", {})
        if words[1] not in views:
            raise Refused("not_found", "missing_named_view")
        reduce = views[words[1]].get("reduce")
        reduced = check_query(query, reduce is not None)
        if language not in LANGUAGES and language not in REFUSALS:
            raise Refused("unknown_language", language)
        signature = show([language, views])
        index = self.indexes.get(signature, (0, {}))
        if query.get("update", True) and index[0] < self.writes:
            index = self.indexes[signature] = self.update(name, language, views, index)
        rows = [(key, one, value) for key, one, _, value in index[1].get(words[1], [])]
        text_of = lambda values: builtin(reduce, values) if reduce[:1] == "_" else show(LANGUAGES[language][1][reduce](values))
        return answer(query, reduced, text_of, index[0], rows)

    def cleanup(self):
        kept = {show([doc.get("language", "javascript"), doc.get("views", {})]) for name, doc in self.live().items() if name[0] == "_"}
        self.indexes = {signature: index for signature, index in self.indexes.items() if signature in kept}
        return '{"ok":true}'

    def request(self, line):
        try:
            request = json.loads(line)
        except ValueError:
            raise Refused("bad_request", "line is not JSON")
        if depth(request) > 127:
            raise Refused("bad_request", "line is not JSON")
        if not is_whole(request):
            raise Refused("bad_request", "number is not whole")
        if depth(request) > 100:
            raise Refused("bad_request", "line is too deep")
        form = {name: type(value) for name, value in request.items()} if isinstance(request, dict) else {}
        if form == {"put": dict}:
            return self.put(request["put"])
        if form in ({"delete": str}, {"delete": str, "rev": str}):
            return self.delete(request["delete"], request.get("rev"))
        if form == {"get": str}:
            return show(self.find(request["get"]))
        if form in ({"view": list}, {"view": list, "query": dict}) and [type(word) for word in request["view"]] == [str, str]:
            return self.view(request["view"], request.get("query", {}))
        if form == {"info": bool} and request["info"]:
            return '{"doc_count":%d,"doc_del_count":%d,"update_seq":%d}' % (len(self.live()), len(self.last) - len(self.live()), self.writes)
        if form == {"cleanup": bool} and request["cleanup"]:
            return self.cleanup()
        raise Refused("bad_request", "unknown request")

    def reply(self, line):
        """The reply line, without its newline; an empty line has none."""
        try:
            return self.request(line) if line else None
        except Refused as why:
            return '{"error":%s,"reason":%s}' % tuple(map(show, why.args))
