"""Caddy 2.6.2 under the suite: how a row is put to it, and the rules by which its answers may differ.

A rule has a name, a sentence that says what differs and when, and a test. The test looks at a row, at what is wanted and at what came.
Where they differ in what the sentence says, it gives both without that difference. A row is explained where nothing is left, so no rule
can hide what it does not describe. What the routes of a server answer is compared with a walk by Caddy's rules (conformance_walk.py).
"""
import collections
import functools
import json
import os
import re

import conformance_rows as rows
import conformance_servers as servers
import conformance_walk as walk
from conformance_rows import compact, digest, member, tree_of

PATIENCE = 30


# ---- Answers

class Answer:
    """One answer: its version, status, phrase, fields by names in lower case, body and trailer fields."""

    def __init__(self, version, status, phrase, fields, body, trailer=()):
        self.version, self.status, self.phrase, self.fields = version, status, phrase, list(fields)
        self.body, self.trailer = body, list(trailer)

    def key(self):
        return self.version, self.status, self.phrase, self.fields, self.body, self.trailer

    def __eq__(self, other):
        return self.key() == other.key()

    def values(self, name):
        return [value for field, value in self.fields if field == name]

    def has(self, name):
        return bool(self.values(name))

    def without(self, *names):
        return Answer(self.version, self.status, self.phrase, [it for it in self.fields if it[0] not in names], self.body, self.trailer)

    def with_body(self, body):
        return Answer(self.version, self.status, self.phrase, self.fields, body, self.trailer)

    def error(self):
        """The words of a refusal, None where it has another form."""
        tree = tree_of(self.body)
        return tree["error"] if isinstance(tree, dict) and set(tree) == {"error"} and isinstance(tree["error"], str) else None


def fields_of(lines):
    return [(name.strip().lower().decode("latin-1"), value.strip().decode("latin-1")) for name, _, value in (it.partition(b":") for it in lines)]


def answers_of(data):
    """The answers of a connection; bytes that are none are one whose status is None."""
    found = []
    while data:
        head, end, rest = data.partition(b"\r\n\r\n")
        lines = head.split(b"\r\n")
        first = re.fullmatch(rb"HTTP/(1\.[01]) (\d{3}) ?(.*)", lines[0])
        if not first or not end:
            return found + [Answer("", None, "", [], data)]
        answer = Answer(first[1].decode(), int(first[2]), first[3].decode("latin-1"), fields_of(lines[1:]), b"")
        data = take_body(answer, rest)
        found.append(answer)
    return found


def take_body(answer, rest):
    """Gives the answer its body, and the bytes after it. Where the next answer follows at once it has none, as after HEAD."""
    if answer.status in (204, 304) or answer.status < 200:
        return rest
    if answer.values("transfer-encoding") == ["chunked"] and rest:
        answer.body, rest = servers.unchunked(rest)
        trailer, _, rest = (b"\r\n" + rest).partition(b"\r\n\r\n")
        answer.trailer = fields_of(it for it in trailer.split(b"\r\n") if it)
        return rest
    length = answer.values("content-length") or ["none"]
    if length != ["0"] and re.match(rb"HTTP/1\.[01] \d{3} ", rest):
        return rest
    size = int(length[0]) if length[0].isdecimal() else len(rest)
    answer.body = rest[:size]
    if length == ["none"] or len(answer.body) == size:
        answer.fields = [it for it in answer.fields if it[0] != "content-length"] + [("content-length", "none")] * (length == ["none"])
    return rest[size:]


class Pair:
    """What is wanted of a row, and what came, as answers. `only` says that status and body alone are wanted."""

    def __init__(self, task, what, ours, theirs, only=False, number=0):
        self.row, self.case, self.what, self.ours, self.theirs, self.only = task.row, task.case, what, ours, theirs, only
        self.task, self.number = task, number
        self.is_after_close = False

    def same(self):
        return self.ours == self.theirs

    def with_answers(self, ours, theirs):
        found = Pair(self.task, self.what, ours, theirs, self.only, self.number)
        found.is_after_close = self.is_after_close
        return found

    def each(self, change):
        """The pair where `change` is made to both answers, wherever there are two."""
        if len(self.ours) != len(self.theirs):
            return self
        pairs = [change(*it) or it for it in zip(self.ours, self.theirs)]
        return self.with_answers([it for it, _ in pairs], [it for _, it in pairs])

    def plain(self, walked):
        """Answers of a walk in the form in which they are compared."""
        def of(version, status, fields, body):
            named = sorted((walk.lower(name), value) for name, value in fields)
            return (status, body) if self.only else (version, status, named, body)

        return [of(*it) for it in walked]

    def plain_answers(self, answers):
        """Answers that came in the same form."""
        def of(it):
            return it.version, it.status, it.fields, it.body.decode("latin-1")

        return self.plain(map(of, answers))

    @functools.cached_property
    def asked(self):
        """The request to the admin API."""
        return AdminRequest(self.case)


# The fields that answers have which a rule explains as a whole.
ORDINARY = {"content-length", "connection", "transfer-encoding", "trailer", "location", "server"}
TYPES = {
    ("content-type", "application/json"), ("content-type", "text/plain; charset=utf-8"), ("content-type", "text/html; charset=utf-8"),
    ("content-type", "text/plain; version=0.0.4; charset=utf-8"), ("x-content-type-options", "nosniff"),
}


def settled(pair):
    """The pair with nothing left, unless an answer that came has a field that no rule speaks of."""
    fields = [field for it in pair.theirs for field in it.fields]
    return pair.with_answers([], []) if all(it[0] in ORDINARY or it in TYPES for it in fields) else None


class Rule:
    """`ends` says that what comes afterwards is not looked at, as another configuration is in force; `is_form` that only the form of an
    answer differs, so that a row is the same."""

    def __init__(self, name, says, test, ends=False, is_form=False):
        self.name, self.says, self.test, self.ends, self.is_form = name, says, test, ends, is_form


RULES = collections.OrderedDict()


def rule(name, says, ends=False, is_form=False):
    """The function that follows is the test of a rule."""
    def kept(test):
        RULES[name] = Rule(name, says, test, ends, is_form)
        return test

    return kept


# ---- How an answer is written

@rule("date", "Caddy sends a field `Date` in each answer, which the profile never has.", is_form=True)
def date(pair):
    dated = re.compile(r"\w{3}, \d\d \w{3} \d{4} \d\d:\d\d:\d\d GMT")
    return pair.with_answers(pair.ours, [it.without("date") if all(map(dated.fullmatch, it.values("date"))) else it for it in pair.theirs])


@rule("phrase", "The phrase of a status that has none in the profile is `status code` and the number.", is_form=True)
def phrase(pair):
    def of(ours, theirs):
        if ours.status == theirs.status and ours.phrase == "" and theirs.phrase == f"status code {theirs.status}":
            return ours, Answer(theirs.version, theirs.status, "", theirs.fields, theirs.body, theirs.trailer)
        return None

    return pair.each(of)


@rule("order", "Fields of different names come in another order, and names are written in other letters; both have no meaning (RFC 9110, section 5).", is_form=True)
def order(pair):
    def sorted_by_name(it):
        return Answer(it.version, it.status, it.phrase, sorted(it.fields, key=lambda field: field[0]), it.body, it.trailer)

    return pair.each(lambda ours, theirs: (sorted_by_name(ours), sorted_by_name(theirs)))


@rule("chunks", "A GET of the configuration is answered in chunks, with the tag as a trailer field, and its digits are eight of FNV-1a.", is_form=True)
def chunks(pair):
    def of(ours, theirs):
        if not theirs.values("transfer-encoding") == ["chunked"] or not theirs.values("trailer") == ["ETag"]:
            return None
        tags, theirs_tags = [it for _, it in ours.fields if _ == "etag"], [value for name, value in theirs.trailer if name == "etag"]
        if [path_of_tag(it) for it in tags] != [path_of_tag(it) for it in theirs_tags]:
            return None
        plain = theirs.without("transfer-encoding", "trailer")
        plain.trailer = []
        return ours.without("etag"), plain

    return pair.each(of)


@rule("long bodies", "A body of more than 2,048 bytes may be sent in chunks.", is_form=True)
def long_bodies(pair):
    def of(ours, theirs):
        is_long = theirs.values("transfer-encoding") == ["chunked"] and not theirs.trailer and len(theirs.body) > 2048
        return (ours, theirs.without("transfer-encoding")) if is_long else None

    return pair.each(of)


def path_of_tag(tag):
    """The path of a tag, with its escapes read and without slashes at its end, or the tag where it is none."""
    found = re.fullmatch(r'"([^ ]*) ([0-9a-f]{64}|[0-9a-f]{8})"', tag)
    return walk.unescaped(found[1]).rstrip("/") if found else tag


@rule("reload", "Once a configuration was changed, Caddy closes the connections of the admin API that it had before.", is_form=True)
def reload(pair):
    def of(ours, theirs):
        return (ours, theirs.without("connection")) if not ours.has("connection") and theirs.values("connection") == ["close"] else None

    return pair.each(of) if isinstance(pair.case, (rows.Load, rows.Asked)) else pair


# ---- Words

# The words of a refusal, and those of Caddy for the same. {} stands for what ours name.
SAME_WORDS = [
    (r"wrong kind at .*", r"cannot unmarshal .*|module value cannot be null"),
    (r"unknown member at .*/([^/]*)", r'unknown field "{}"'),
    (r"missing at .*/(?:handler|output)", r"module name not specified with key '(?:handler|output)' in .*"),
    (r"unknown module .*", r"unknown module: \S+|module not registered: .*"),
    (r"bad address at .*", r"(?s:.*)(?:invalid listener address '|start: listening on )(?s:.*)"),
    (r"wrong kind at .*/output", r"module name not specified with key 'output' in .*"),
    (r"bad value at .*", r"invalid .*|.*parsing .*"),
    (r"unknown id (.*)", r"unknown object ID '{}'"),
    (r"host not allowed", r"host not allowed: .*"),
    (r"origin not allowed", r"client is not allowed to access from origin '.*'"),
    (r"method not allowed", r"method (?:\S+ )?not allowed"),
    (r"path cannot be traversed", r"invalid traversal path at: .*"),
    (r"index out of bounds", r"\[.*\] (?:array index out of bounds: |invalid array index ').*"),
    (r"bad index", r"\[.*\] (?:array index out of bounds: |invalid array index ').*"),
    (r"If-Match does not hold", r"If-Match header did not match current config hash"),
    (r"malformed If-Match", r"malformed If-Match header; .*"),
    (r"key already exists", r"\[.*\] key already exists: .*"),
    (r"no such key", r"\[.*\] key does not exist: .*"),
    (r"not JSON", r"(?:decoding request body|request body is not|loading|.*json).*"),
    (r"unacceptable content-type", r"unacceptable content-type: .*|unrecognized config adapter '.*'"),
]


def last_words(text):
    """The end of Caddy's words, which says what is wrong; what comes before says where."""
    return re.split(r"(?:^|: )(?=(?:http: )?(?:json: |unknown module|module (?:name|value|not)|invalid |listen|cannot ))", text)[-1].removeprefix("http: ").removeprefix("json: ")


def says_the_same(ours, theirs):
    for mine, other in SAME_WORDS:
        found = re.fullmatch(mine, ours)
        if found and not (mine == "wrong kind at .*" and ours.endswith("/output")):
            wanted = other.replace("{}", re.escape(found[1]) if found.groups() else "")
            return is_of_member(ours, theirs) and any(re.fullmatch(wanted, it, re.DOTALL) for it in (theirs, last_words(theirs)))
    return False


def is_of_member(ours, theirs):
    """Whether the member of which Go speaks, if it speaks of one, is on the way that the profile names."""
    named = re.search(r"Go struct field (?:\w+\.)*(\w+) of type", theirs)
    return not named or named[1] in ours.split("/")


@rule("words", "A refusal has the same status and says the same in other words, which are Go's or Caddy's own.")
def words(pair):
    def of(ours, theirs):
        mine, other = ours.error(), theirs.error()
        if ours.status != theirs.status or mine is None or other is None or mine == other or not says_the_same(mine, other):
            return None
        return ours.with_body(b""), theirs.with_body(b"")

    return pair.each(of)


# ---- The admin API

class AdminRequest:
    """The parts of a request to the admin API, and of the configuration that it comes under."""

    def __init__(self, case):
        self.data = case.asked if isinstance(case, rows.Asked) else b"POST /load HTTP/1.1\r\nHost: localhost:2019\r\n\r\n" + case.body
        self.tree = case.tree if isinstance(case, rows.Asked) else None
        self.request = walk.Request(self.data)
        self.method, self.target = self.request.method, self.request.target
        self.path = walk.unescaped(self.request.raw)
        self.admin = member(self.tree, "admin") or {}

    def values(self, name):
        return [value for field, value in self.request.fields if field == name]


def parts_of(pair):
    """The pair, or where it is of a conversation in which each request has an answer on both sides, a pair for each."""
    if not isinstance(pair.case, rows.Conversation):
        return [pair]
    at, data = pair.case.connections[pair.number][:2]
    requests = requests_of(data)
    is_closed = len(pair.theirs) < len(pair.ours) and bool(pair.theirs) and pair.theirs[-1].values("connection") == ["close"]
    if len(requests) != len(pair.ours) or len(pair.theirs) != len(pair.ours) and not is_closed:
        return [pair]
    found = []
    for asked, ours, theirs in zip(requests, pair.ours, pair.theirs):
        kind = rows.Asked if at == rows.admin_of(pair.case.tree) else rows.Site
        case = kind.__new__(kind)
        case.tree, case.text, case.asked, case.address = pair.case.tree, pair.case.text, asked, at
        found.append(Pair(pair.task._replace(case=case), "the answer", [ours], [theirs]))
    if is_closed:
        found.append(pair.with_answers(pair.ours[len(found):], []))
        found[-1].is_after_close = True
    return found


def requests_of(data):
    """The requests of a connection, each with its body. None are found where one has a body in chunks."""
    found = []
    while data:
        head, end, rest = data.partition(b"\r\n\r\n")
        length = re.search(rb"(?i)\ncontent-length: *(\d+)", head)
        size = int(length[1]) if length else 0
        if not end or re.search(rb"(?i)\ntransfer-encoding:", head):
            return []
        found.append(head + end + rest[:size])
        data = rest[size:]
    return found


def server_at(tree, address):
    """The server of a configuration that listens at an address."""
    for it in (member(tree, "apps", "http", "servers") or {}).values():
        if address in [one for text in it.get("listen") or [] for one in rows.addresses_in(text)]:
            return it
    return {}


ECHO = [{"handler": "headers", "response": {"deferred": True, "delete": ["Server"]}}, {"handler": "static_response", "body": "{http.request.body}"}]
BARE_CHANGE = re.compile(rb"((?:POST|PUT|PATCH) [^ \r\n]+ HTTP/1\.[01]\r\n)(?!(?:[^\r\n]+\r\n)*?(?i:content-type) *:)")
IF_MATCH = re.compile(rb'(\r\n(?i:if-match): *)"([^" ]*) ([0-9a-f]{64})"(?=[ \t]*\r\n)')


def value_at(tree, parts):
    """What stands at a path of a configuration, None where nothing does."""
    for it in parts:
        if isinstance(tree, dict):
            tree = tree.get(it)
        else:
            tree = tree[int(it)] if isinstance(tree, list) and it.isdecimal() and int(it) < len(tree) else None
    return tree


def go_text(value):
    """The text of a value as Go writes it."""
    text = compact(value)
    for it in (b"<", b">", b"&"):
        text = text.replace(it, b"\\u00%02x" % it[0])
    return text.replace("\u2028".encode(), b"\\u2028").replace("\u2029".encode(), b"\\u2029")


def fnv(data):
    """The digits of FNV-1a in 32 bits."""
    found = 0x811C9DC5
    for it in data:
        found = (found ^ it) * 0x01000193 & 0xFFFFFFFF
    return b"%08x" % found


WARNING = "Caddyfile input is not formatted; run the 'caddy fmt' command to fix inconsistencies"


@rule("warnings", "A Caddyfile that is taken is answered with a warning of its form, as JSON.")
def warnings(pair):
    def of(ours, theirs):
        listed = tree_of(theirs.body)
        is_list = isinstance(listed, list) and all(isinstance(it, dict) and set(it) == {"file", "line", "message"} and it["message"] == WARNING for it in listed)
        if is_list and (ours.status, ours.body, theirs.status) == (200, b"", 200):
            return ours, theirs.without("content-type").with_body(b"")
        return None

    return pair.each(of) if isinstance(pair.case, rows.Load) and pair.case.kind == "text/caddyfile" else None


# ---- Settings

def refusal_of(pair):
    """What a load or a start is refused for: the status and the words wanted, and those that came. None where no refusal is looked at."""
    is_looked_at = isinstance(pair.case, (rows.Load, rows.Asked)) or pair.what == "the start"
    if len(pair.ours) != 1 or len(pair.theirs) != 1 or not is_looked_at:
        return None
    ours, theirs = pair.ours[0], pair.theirs[0]
    return ours.status, ours.error() or "", theirs.status, theirs.error() or ""


def taken(pair, words):
    """The place of a fault with these words that Caddy takes, as its parts. None where it does not."""
    found = refusal_of(pair)
    place = re.fullmatch(f"(?:{words}) at (.*)", found[1]) if found and found[0] == 400 and found[2] == 200 else None
    return place and place[1].split("/")[1:]


def body_of(pair):
    return tree_of(text_of(pair.case))


def text_of(case):
    """The configuration that a case is about."""
    if isinstance(case, rows.Load):
        return case.body
    return case.asked.partition(b"\r\n\r\n")[2] if isinstance(case, rows.Asked) and b"\r\n\r\n{" in case.asked else case.text


@rule("named routes", "Caddy 2.6.2 has no `named_routes` and no handler `invoke`: it refuses a configuration with them.", ends=True)
def named_routes(pair):
    found = refusal_of(pair)
    words = r'(?s:.*)(?:unknown field \\?"named_routes\\?"|unknown module: http\.handlers\.invoke)(?:"\})?'
    return settled(pair) if found and found[2] == 400 and re.fullmatch(words, found[3]) and NAMED.search(text_of(pair.case)) else None


NAMED = re.compile(rb'"named_routes"|"invoke"')


@rule("null", "A module or an `@id` that is null is refused, and a log that is null ends Caddy with a panic.", ends=True)
def null(pair):
    found = refusal_of(pair)
    if not found or found[2] != 400 or found[0] != 200 or b":null" not in text_of(pair.case):
        return None
    is_panic = found[3].startswith("it ends with status 2: ") and re.search(rb'"logs":\{[^{}]*:null', text_of(pair.case))
    words = ("module value cannot be null", "module name not specified with key 'output' in map[]", "@id field must be a string or number", "unknown module: http.matchers.nope")
    return settled(pair) if is_panic or found[3].rstrip('"}').endswith(words) else None


@rule("include and exclude", "A log with both `include` and `exclude` has to name parts of the same.", ends=True)
def include_and_exclude(pair):
    found = refusal_of(pair)
    return settled(pair) if found and found[0] == 200 and "when both include and exclude are populated, " in found[3] else None


@rule("limits", "A `limit` of a `uri_substring` is below 2^63.", ends=True)
def limits(pair):
    found = refusal_of(pair)
    number = re.search(r"cannot unmarshal number (\d+) into Go struct field (?:\w+\.)*limit of type int", found[3]) if found else None
    return settled(pair) if number and int(number[1]) >= 2 ** 63 else None


@rule("no address", "A server without `listen` is taken, and has the address of HTTPS.", ends=True)
def no_address(pair):
    place = taken(pair, "missing")
    return settled(pair) if place and place[-1] == "listen" and not value_at(body_of(pair), place) else None


OTHER_MEMBERS = {"abort", "sampling", "sink", "roll", "storage"}


@rule("members", "Caddy has members that the profile has not, here `abort`, `sampling`, `sink`, `roll` and `storage`.", ends=True)
def members(pair):
    place = taken(pair, "unknown member")
    if place and place[-1] in OTHER_MEMBERS:
        return settled(pair)
    found = refusal_of(pair)
    is_storage = found and found[2] == 400 and found[1] == "unknown member at /storage" and found[3].startswith("loading config: loading new config: loading storage module: ")
    return settled(pair) if is_storage else None


@rule("apps", "Caddy has apps that the profile has not, here `tls`.", ends=True)
def apps(pair):
    found = refusal_of(pair)
    return settled(pair) if found and found[1] == "unknown module tls at /apps/tls" and found[2] == 200 else None


@rule("any status", "A `status_code` is looked at when it is needed, so any number, text or truth value is taken.", ends=True)
def any_status(pair):
    place = taken(pair, "bad value|wrong kind")
    return settled(pair) if place and place[-1] == "status_code" and not isinstance(value_at(body_of(pair), place), (list, dict)) else None


@rule("any name", "A name of a field is not looked at when a configuration is read.", ends=True)
def any_name(pair):
    place = taken(pair, "bad value")
    return settled(pair) if place and place[-2:] == ["headers", ""] else None


@rule("null elements", "A null element of a list of texts is an empty text.", ends=True)
def null_elements(pair):
    place = taken(pair, "wrong kind")
    if place and place[-1].isdecimal() and value_at(body_of(pair), place) is None:
        return settled(pair)
    found = refusal_of(pair)
    place = re.fullmatch(r"wrong kind at (.*/listen/\d+)", found[1]) if found and found[2] == 400 else None
    is_empty = place and value_at(body_of(pair), place[1].split("/")[1:]) is None and found[3].endswith("invalid listener address '': missing port in address")
    return settled(pair) if is_empty else None


@rule("no file name", "A writer `file` without `filename` is taken.", ends=True)
def no_file_name(pair):
    place = taken(pair, "missing")
    return settled(pair) if place and place[-1] == "filename" else None


@rule("stars", "A `*` in the middle of a pattern of a path stands for any bytes but `/`, where the profile refuses it.", ends=True)
def stars(pair):
    place = taken(pair, "bad value")
    return settled(pair) if place and place[-2:-1] == ["path"] and "*" in value_at(body_of(pair), place)[1:-1] else None


@rule("looked into", "Caddy looks into `logs` of a server, and wants a whole number as `max_header_bytes`.", ends=True)
def looked_into(pair):
    found = refusal_of(pair)
    words = r'.*json: (?:unknown field "nope"|cannot unmarshal string into Go struct field Server\.servers\.max_header_bytes of type int)'
    server = value_at(body_of(pair), ["apps", "http", "servers", "s"]) if found else None
    has = isinstance(server, dict) and (isinstance(server.get("logs"), dict) and "nope" in server["logs"] or isinstance(server.get("max_header_bytes"), str))
    return settled(pair) if has and found[0] == 200 and found[2] == 400 and re.fullmatch(words, found[3]) else None


@rule("networks", "Caddy 2.6.2 ends the connection of the admin API without an answer where a server listens at an address of UDP.", ends=True)
def networks(pair):
    is_wanted = len(pair.ours) == 1 and (pair.ours[0].error() or "").startswith("bad address at ") and not pair.theirs
    return settled(pair) if is_wanted and b'"udp/' in pair.case.body else None


@rule("ranges", "A range may have any number of ports.", ends=True)
def ranges(pair):
    found = refusal_of(pair)
    place = re.fullmatch(r"bad address at (.*/listen/\d+)", found[1]) if found and found[2] == 400 else None
    listed = re.fullmatch(r":(\d+)-(\d+)", value_at(body_of(pair), place[1].split("/")[1:]) or "") if place else None
    return settled(pair) if listed and int(listed[2]) - int(listed[1]) >= 64 and "listener address repeated" in found[3] else None


@rule("first fault", "Of several faults Caddy reports another one first: one that it finds when it reads the whole configuration or module.")
def first_fault(pair):
    found = refusal_of(pair)
    named = re.search(r'Go struct field (?:\w+\.)*(\w+) of type|unknown field \\?"(\w+)', found[3]) if found and found[0] == found[2] == 400 else None
    place = re.fullmatch(r"[a-z ]+? at (.*)|unknown module \S+ at (.*)", found[1]) if named else None
    if not place:
        return None
    parts, name = (place[1] or place[2]).split("/")[1:], named[1] or named[2]
    others = [it for it in places_of(body_of(pair), name) if it != parts]
    return settled(pair) if others and (parts[-1] != name or says_the_same(found[1], found[3])) else None


def places_of(tree, name, at=()):
    """The places of all members of that name, and of the elements in them."""
    found = []
    pairs = tree.items() if isinstance(tree, dict) else ((str(at), it) for at, it in enumerate(tree)) if isinstance(tree, list) else []
    for key, value in pairs:
        place = [*at, key]
        if key == name:
            found += [place] + ([[*place, str(it)] for it in range(len(value))] if isinstance(value, list) else [])
        found += places_of(value, name, place)
    return found


# ---- Bytes of a connection

class Tail:
    """What is left of two connections after the answers that are the same, and all bytes that were sent."""

    def __init__(self, pair, data):
        same = 0
        while same < min(len(pair.ours), len(pair.theirs)) and pair.ours[same] == pair.theirs[same]:
            same += 1
        self.same, self.ours, self.theirs, self.data, self.what = same, pair.ours[same:], pair.theirs[same:], data, pair.what
        self.case = pair.case
        address = None if isinstance(pair.case, rows.Wire) else pair.case.address if isinstance(pair.case, rows.Site) else pair.case.connections[pair.number][0]
        self.server = server_at(pair.case.tree, address) if address else None
        # Whether Caddy has closed the connection with the answer before.
        self.is_after_close = pair.is_after_close

    def is_refused(self, *statuses):
        """Whether the profile refuses what follows, with an answer of its own."""
        it = self.ours[0] if len(self.ours) == 1 else None
        return it is not None and it.status in statuses and it.body == b"" and it.fields == [("connection", "close")]

    def is_taken(self):
        """Whether Caddy answers a request where the profile refuses, and what it reads after it."""
        *first, last = self.theirs or [None]
        is_last = last is not None and (self.is_ordinary(last) or bool(first) and is_refusal_of_go(last))
        return self.is_refused(400, 413, 501) and is_last and all(map(self.is_ordinary, first))

    def is_ordinary(self, it):
        """Whether an answer is what the server of the row says to any request of the connection."""
        if it.status != 200 or self.what == "the bodies":
            return it.status == 200
        if not isinstance(self.case, rows.Wire):
            answer = walk.walked(self.server, b"GET / HTTP/1.1\r\nHost: a\r\n\r\n")
            return answer is not None and answer[0][3].encode("latin-1") == it.body
        line, sent = it.body.split(b"|"), walk.unescaped(self.data.decode("latin-1")).encode("latin-1")
        return len(line) == 5 and all(part in sent for part in line) and re.search(rb"(?m)^%s " % re.escape(line[0]), self.data) is not None

    def ends(self):
        """Whether Caddy has one more answer, after which it closes the connection."""
        return len(self.theirs) == 1 and self.is_ordinary(self.theirs[0]) and self.theirs[0].values("connection") == ["close"]


def tail_of(pair):
    """The tail, where a row is about the bytes of a connection to a server."""
    if isinstance(pair.case, (rows.Wire, rows.Site)):
        return Tail(pair, pair.case.asked)
    if isinstance(pair.case, rows.Conversation):
        return Tail(pair, pair.case.connections[pair.number][1])
    return None


def of_bytes(name, says):
    """The function that follows is a rule about a tail. Where it holds, nothing of the tail is looked at."""
    def kept(test):
        def whole(pair):
            tail = tail_of(pair)
            return settled(pair) if tail and not pair.same() and test(tail) else None

        RULES[name] = Rule(name, says, whole)
        return test

    return kept


def is_refusal_of_go(it):
    words = it.body.decode("latin-1")
    is_text = it.values("content-type") == ["text/plain; charset=utf-8"] and it.values("connection") == ["close"]
    return is_text and (words == f"{it.status} {it.phrase}" or words == "Unsupported transfer encoding")


@of_bytes("closed by a change", "The connection that a change of the configuration came by is closed after its answer, so that what follows on it is not answered.")
def closed_by_a_change(tail):
    is_change = re.match(rb"(?:POST|PUT|PATCH|DELETE) /(?:config|id|load)", tail.data)
    is_closed = len(tail.theirs) == 1 and tail.theirs[0].status == 200 and tail.theirs[0].values("connection") == ["close"]
    is_first = is_closed and bool(tail.ours) and tail.ours[0].status == 200 and tail.theirs[0].body == tail.ours[0].body == b""
    return is_change and (is_first or tail.is_after_close)


@of_bytes("text of a refusal", "Bytes that are refused are answered by Go, with the status and its reason as text.")
def text_of_a_refusal(tail):
    return len(tail.theirs) == 1 and tail.is_refused(tail.theirs[0].status) and is_refusal_of_go(tail.theirs[0])


@of_bytes("505", "A version other than 1.0 and 1.1 has the status 505, where the profile says 400.")
def status_505(tail):
    is_505 = len(tail.theirs) == 1 and tail.theirs[0].status == 505 and is_refusal_of_go(tail.theirs[0])
    return tail.is_refused(400) and is_505 and re.search(rb"(?m)^[^ \r\n]+ [^ \r\n]+ HTTP/(?!1\.[01]\r?\n)", tail.data)


@of_bytes("control bytes of a coding", "A Transfer-Encoding with a control byte is an unknown coding, with 501, where the profile says 400.")
def control_bytes_of_a_coding(tail):
    is_501 = len(tail.theirs) == 1 and tail.theirs[0].status == 501 and is_refusal_of_go(tail.theirs[0])
    return tail.is_refused(400) and is_501 and re.search(rb"(?i)\ntransfer-encoding:[^\r\n]*[\x00-\x08\x0b\x0c\x0e-\x1f]", tail.data)


@of_bytes("a body that nobody reads", "A body is read where a handler wants it, else after the answer: where it is broken or cut, the request is answered, and then the "
          "connection is closed.")
def unread_body(tail):
    has_body = re.search(rb"(?i)\n(?:transfer-encoding|content-length):", tail.data)
    return has_body and tail.ends() and tail.what != "the bodies" and (tail.ours == [] or tail.is_refused(400, 413))


@of_bytes("a broken body", "To a handler a body that is broken or cut is what could be read of it.")
def broken_body(tail):
    has_body = re.search(rb"(?i)\n(?:transfer-encoding|content-length):", tail.data)
    is_one = len(tail.theirs) == 1 and tail.theirs[0].status == 200 and tail.what == "the bodies"
    return has_body and is_one and comes_from(tail.theirs[0].body, tail.data) and (tail.ours == [] or tail.is_refused(400, 413))


def comes_from(body, data):
    """Whether the bytes of a body are in the data in this order."""
    rest = iter(data.partition(b"\r\n\r\n")[2])
    return all(it in rest for it in body)


@of_bytes("trailers", "Trailer fields after a body in chunks are taken.")
def trailers(tail):
    return tail.is_taken() and re.search(rb"\r\n0+\r\n[A-Za-z-]+:[^\r\n]*\r\n\r\n", tail.data)


@of_bytes("line feeds of chunks", "The line of a chunk may end in LF alone, and its extension may have a CR.")
def line_feeds_of_chunks(tail):
    return tail.is_taken() and re.search(rb"\r\n\r\n(?s:.*)(?:[0-9a-f]\n|[0-9a-f]\r\r\n|;[^\n]*\r[^\n])", tail.data)


@of_bytes("spaces of a chunk", "A space before the `;` of a chunk extension makes the line malformed.")
def spaces_of_a_chunk(tail):
    return bool(tail.ours) and tail.ours[0].status == 200 and tail.ends() and re.search(rb"\r\n[0-9a-f]+[ \t]+;", tail.data)


@of_bytes("the last CR LF", "Empty lines at the end of a connection are no request, where the profile refuses them.")
def last_line(tail):
    return tail.is_refused(400) and tail.theirs == [] and tail.data.endswith(b"\r\n\r\n\r\n")


@of_bytes("empty lines", "Of empty lines before a request one is skipped at most, and only one of CR LF.")
def empty_lines(tail):
    is_first = bool(tail.ours) and tail.ours[0].status == 200 and len(tail.theirs) == 1 and tail.theirs[0].status == 400
    return is_first and is_refusal_of_go(tail.theirs[0]) and re.search(rb"(?:^|\n)\r?\n\r?\n", tail.data)


@of_bytes("bytes of a target", "A target may have `#` and bytes beyond ASCII, and an absolute one an empty host.")
def bytes_of_a_target(tail):
    return tail.is_taken() and re.search(rb"(?mi)^[A-Z]+ (?:[^ \r\n]*[#\x80-\xff]|http:///)", tail.data)


@of_bytes("other targets", "A target may begin with `https://`, `*` may have any method, and CONNECT is taken with its own form.")
def other_targets(tail):
    return tail.is_taken() and re.search(rb"(?m)^(?:[A-Z]+ https://|(?!OPTIONS)[A-Z]+ \* |CONNECT [^ /]+:\d+ )", tail.data)


@of_bytes("lengths", "A Content-Length that is there twice with one value is taken, and so is an empty one, as 0.")
def lengths(tail):
    values = re.findall(rb"(?i)\ncontent-length:[ \t]*([^\r\n]*)", tail.data)
    return tail.is_taken() and (len(values) > 1 and len(set(values)) == 1 or values == [b""])


@of_bytes("length and coding", "A Content-Length beside a Transfer-Encoding is not looked at, so that an unknown coding has 501.")
def length_and_coding(tail):
    has_both = all(re.search(rb"(?i)\n%s:" % it, tail.data) for it in (b"content-length", b"transfer-encoding"))
    is_501 = len(tail.theirs) == 1 and tail.theirs[0].status == 501 and is_refusal_of_go(tail.theirs[0])
    return has_both and (tail.is_taken() or tail.is_refused(400) and is_501)


@of_bytes("folded lines", "A value that goes on in the next line is taken.")
def folded_lines(tail):
    return tail.is_taken() and re.search(rb"\r\n[ \t]+[^\r\n]", tail.data)


@of_bytes("codings of HTTP/1.0", "A Transfer-Encoding in HTTP/1.0 is taken.")
def codings_of_old(tail):
    return tail.is_taken() and re.search(rb"(?is) HTTP/1\.0\r\n.*\ntransfer-encoding:", tail.data)


@of_bytes("paths of absolute targets", "An absolute target without a path has an empty path, where the profile has `/`.")
def paths_of_absolute_targets(tail):
    same = [it.with_body(it.body.replace(b"|/|", b"||", 1)) for it in tail.ours] == tail.theirs
    return same and re.search(rb"(?mi)^[A-Z]+ http://[^/ ]+(?:\?[^ ]*)? ", tail.data)


@of_bytes("OPTIONS of a server", "`OPTIONS *` is answered with 200 by Go itself, and no route sees it.")
def all_of_a_server(tail):
    is_go = len(tail.ours) == len(tail.theirs) == 1 and tail.theirs[0].status == 200 and tail.theirs[0].body == b"" and not tail.theirs[0].has("server")
    return is_go and re.search(rb"(?m)^OPTIONS \* ", tail.data)


@of_bytes("HTTP/1.0", "HTTP/1.0 is answered with HTTP/1.0, and a `Connection: keep-alive` in it is done.")
def old_version(tail):
    def older(it):
        return Answer("1.0", it.status, it.phrase, [field for field in it.fields if field[0] != "connection"], it.body)

    same = [older(it) for it in tail.ours] == [it.without("connection") if it.values("connection") == ["keep-alive"] else it for it in tail.theirs]
    return same and b" HTTP/1.0\r\n" in tail.data


@of_bytes("the word close", "The word `close` anywhere in a Connection closes it, as in `not close`.")
def the_word_close(tail):
    is_wider = re.search(rb"(?i)\nconnection:[^\r\n]*[^,: \r\n][^,\r\n]* close\b", tail.data)
    return bool(tail.ours) and tail.ours[0].status == 200 and tail.ends() and is_wider


# ---- The admin API: who may ask

def one(pair):
    """The two answers of the admin API to one request, None where there are not two, or none is looked at."""
    is_one = isinstance(pair.case, rows.Asked) and pair.what == "the answer" and len(pair.ours) == len(pair.theirs) == 1
    return (pair.ours[0], pair.theirs[0]) if is_one else None


def expected(asked):
    """The origins that Caddy expects, each as its scheme, which may be empty, and its host."""
    host, port = rows.admin_of(asked.tree)
    own = {f"{it}:{port}" for it in (["localhost", "[::1]", "127.0.0.1"] if host in ("localhost", "127.0.0.1", "::1") else [])} | {f"{host}:{port}"}
    listed = asked.admin.get("origins")
    return [split_origin(it) for it in (own if listed is None else listed)]


def split_origin(text):
    found = re.fullmatch(r"(\w+)://([^/?#]*).*", text)
    return (found[1], found[2]) if found else ("", text)


def is_expected(origin, asked):
    scheme, host = split_origin(origin) if "://" in origin else ("", "")
    return any(host == other and (not scheme or not wanted or scheme == wanted) for wanted, other in expected(asked)) and bool(host)


def origin_of(asked):
    return (asked.values("origin") or asked.values("referer") or [""])[0]


@rule("cross origin", "An answer under `enforce_origin` has the field `Access-Control-Allow-Origin` with the Origin.")
def cross_origin(pair):
    found = one(pair)
    is_there = found and found[1].values("access-control-allow-origin") == [origin_of(pair.asked)] and pair.asked.admin.get("enforce_origin") is True
    return pair.with_answers(pair.ours, [found[1].without("access-control-allow-origin")]) if is_there else None


@rule("host", "Host is looked at without `enforce_origin` too, and its letters count.", ends=True)
def host(pair):
    found = one(pair)
    if not found or found[1].status != 403 or found[0].status == 403 or found[1].error() != f"host not allowed: {pair.asked.request.host}":
        return None
    return settled(pair) if all(it != pair.asked.request.host for _, it in expected(pair.asked)) else None


@rule("origin", "With `enforce_origin` a request needs an Origin, or a Referer in its place, which is expected.", ends=True)
def origin(pair):
    found = one(pair)
    words = f"client is not allowed to access from origin '{origin_of(pair.asked)}'" if found else ""
    if not found or found[1].status != 403 or found[1].error() != words or found[0].error() == "origin not allowed" or pair.asked.admin.get("enforce_origin") is not True:
        return None
    return settled(pair) if not is_expected(origin_of(pair.asked), pair.asked) else None


@rule("first origin", "Of several Origins the first one counts.", ends=True)
def first_origin(pair):
    found = one(pair)
    is_several = found and len(pair.asked.values("origin")) > 1 and found[0].error() == "origin not allowed" and found[1].status != 403
    return settled(pair) if is_several and is_expected(origin_of(pair.asked), pair.asked) else None


# ---- The admin API: what is asked

@rule("stop", "The answer to `POST /stop` has no `Connection: close`.")
def stop(pair):
    found = one(pair)
    is_stop = found and pair.asked.path == "/stop" and found[0].values("connection") == ["close"] and not found[1].has("connection")
    return pair.with_answers([found[0].without("connection")], pair.theirs) if is_stop else None


@rule("allow", "An answer of 405 has no field `Allow`.")
def allow(pair):
    found = one(pair)
    is_there = found and found[0].status == found[1].status == 405 and found[0].has("allow") and not found[1].has("allow")
    return pair.with_answers([found[0].without("allow")], pair.theirs) if is_there else None


@rule("HEAD", "HEAD of a refusal has the length of Caddy's own words.")
def head(pair):
    found = one(pair)
    is_head = found and pair.asked.method == "HEAD" and found[0].status == found[1].status >= 400
    return pair.each(lambda ours, theirs: (ours.without("content-length"), theirs.without("content-length"))) if is_head else None


@rule("page", "A path that Caddy does not know is answered by a page of Go, as text and with `X-Content-Type-Options`.")
def page(pair):
    found = one(pair)
    if not found or found[0].error() != "unknown path" or found[1].status != 404 or found[1].body != b"404 page not found\n":
        return None
    return settled(pair) if set(found[1].fields) == {("content-type", "text/plain; charset=utf-8"), ("x-content-type-options", "nosniff")} else None


def clean(path):
    """A path as Go's router cleans it."""
    return walk.cleaned(path, True)


@rule("moved", "A path that is not clean, `/config` and `/id` are answered by 301 with another path; so is an `@id` at the top.", ends=True)
def moved(pair):
    found = one(pair)
    if not found or found[1].status != 301:
        return None
    to = clean(pair.asked.path)
    to = to + "/" if to in ("/config", "/id") else to
    is_top = pair.asked.path == "/id/" + str((pair.asked.tree or {}).get("@id"))
    to = "/config/" if is_top else to
    is_page = found[1].body.decode("latin-1") == f'<a href="{to}">Moved Permanently</a>.\n\n'
    return settled(pair) if found[1].values("location") == [to] and is_page and to != pair.asked.path else None


@rule("endpoints", "Caddy answers `/adapt`, `/pki/ca/local` and `/metrics`; the second may end without an answer.")
def endpoints(pair):
    if isinstance(pair.case, rows.Asked) and pair.what == "the answer" and pair.theirs == [] and pair.asked.path == "/pki/ca/local":
        return settled(pair)
    found = one(pair)
    is_its_own = found and found[0].error() == "unknown path" and pair.asked.path in ("/adapt", "/pki/ca/local", "/metrics") and found[1].status in (200, 405)
    return settled(pair) if is_its_own else None


@rule("OPTIONS of the admin API", "`OPTIONS *` to the admin API is answered with 200 by Go itself, and no origin is looked at.")
def all_of_the_server(pair):
    found = one(pair)
    return settled(pair) if found and (pair.asked.method, pair.asked.target) == ("OPTIONS", "*") and (found[1].status, found[1].body) == (200, b"") else None


@rule("no id", "`/id/` and HEAD of it are answered with 400.")
def no_id(pair):
    found = one(pair)
    is_empty = found and pair.asked.path == "/id/" and (found[0].status, found[1].status) == (404, 400)
    return settled(pair) if is_empty and (pair.asked.method == "HEAD" or found[1].error() == "request path is missing object ID") else None


@rule("id first", "An id is looked for before the method and the body are looked at.")
def id_first(pair):
    found = one(pair)
    is_id = found and pair.asked.path.startswith("/id/") and found[1].status == 404 and (found[0].status == 405 or found[0].error() == "body missing")
    return settled(pair) if is_id and object_of(pair.asked.tree, pair.asked.path.split("/")[2]) is None else None


@rule("bytes of a path", "A path may be any bytes, where the profile wants UTF-8.")
def bytes_of_a_path(pair):
    found = one(pair)
    try:
        pair.asked.path.encode("latin-1").decode() if found else None
        return None
    except UnicodeDecodeError:
        return settled(pair) if found[0].error() == "unknown path" and found[1].status == 405 else None


@rule("numbers of ids", "An `@id` that is a number is a 64-bit float, so that one of 2^53 and more is another text.", ends=True)
def numbers_of_ids(pair):
    found = one(pair)
    name = pair.asked.path.removeprefix("/id/") if found else ""
    is_large = re.fullmatch("-?[0-9]+", name) and abs(int(name)) >= 2 ** 53
    return settled(pair) if is_large and (found[0].status, found[1].status) == (200, 404) and found[1].error() == f"unknown object ID '{name}'" else None


# ---- The admin API: changes

@rule("no body", "A change without a body is done as one with null.", ends=True)
def no_body(pair):
    found = one(pair)
    if not found or found[0].error() != "body missing" or pair.asked.request.body:
        return None
    words = {400: r"malformed If-Match header; expect quoted string", 500: r"\[/config/[^\]]*\] key already exists: .*"}.get(found[1].status, "(?!)")
    is_tried = (found[1].status, found[1].body) == (200, b"") or re.fullmatch(words, found[1].error() or "")
    return settled(pair) if is_tried else None


@rule("500", "A change that its path refuses is answered with 500, where the profile says 400, 404 or 409.")
def status_500(pair):
    found = one(pair)
    is_change = found and pair.asked.method != "GET" and found[1].status == 500 and found[0].status in (400, 404, 409)
    if not is_change or not (says_the_same(found[0].error() or "", found[1].error() or "") or other_words(found)):
        return None
    return settled(pair)


def other_words(found):
    return (found[0].error(), found[1].error()) == ("body is not a list", "final element is not an array")


@rule("absent", "DELETE of a key that is absent is answered with 200, and nothing changes.")
def absent(pair):
    found = one(pair)
    return settled(pair) if found and pair.asked.method == "DELETE" and found[0].error() == "no such key" and found[1].status == 200 else None


@rule("digits of a place", "A place of a list may have a sign and leading zeros.", ends=True)
def digits_of_a_place(pair):
    found = one(pair)
    last = pair.asked.path.rstrip("/").split("/")[-1] if found else ""
    is_number = re.fullmatch("[+-]?[0-9]+", last) and str(int(last)) != last
    is_shown = is_number and found[1].status == 200 and found[1].body == go_text(shown_at(pair.asked, pair.asked.path)) + b"\n"
    return settled(pair) if is_shown and found[0].error() == "bad index" else None


@rule("dots", "A last part `...` of a path has no meaning but under POST: what is before it is shown, replaced or removed.", ends=True)
def dots(pair):
    found = one(pair)
    if not found or found[0].error() != "path ends in ... without POST" or pair.asked.method == "POST":
        return None
    if pair.asked.method != "GET":
        return settled(pair) if found[1].status in (200, 500) else None
    is_shown = found[1].status == 200 and found[1].body == go_text(shown_at(pair.asked, pair.asked.path.removesuffix("/..."))) + b"\n"
    is_nowhere = found[1].status == 400 and (found[1].error() or "").startswith("invalid traversal path at: ")
    return settled(pair) if is_shown or is_nowhere else None


def shown_at(asked, path):
    """What stands at a path of the admin API."""
    _, kind, *parts = path.rstrip("/").split("/")
    parts = [str(int(it)) if re.fullmatch("[+-]?[0-9]+", it) else it for it in parts]
    return value_at(asked.tree, parts) if kind == "config" else value_at(object_of(asked.tree, parts[0]), parts[1:])


def object_of(tree, name):
    """The object of a tree that has an id, None where none has it."""
    if isinstance(tree, dict) and str(tree.get("@id")) == name:
        return tree
    parts = tree.values() if isinstance(tree, dict) else tree if isinstance(tree, list) else []
    return next((it for it in (object_of(part, name) for part in parts) if it is not None), None)


@rule("POST at a place", "A POST at an element of a list adds to the end of the list, whatever the last part is.", ends=True)
def post_at_a_place(pair):
    found = one(pair)
    words = ("bad index", "index out of bounds", "POST at a position of a list")
    return settled(pair) if found and pair.asked.method == "POST" and found[0].error() in words and found[1].status == 200 else None


@rule("the end of a list", "PUT at the end of a list is out of its bounds.", ends=True)
def end_of_a_list(pair):
    found = one(pair)
    if not found:
        return None
    parts = pair.asked.path.split("/")[2:]
    listed = value_at(pair.asked.tree, parts[:-1])
    is_end = pair.asked.method == "PUT" and isinstance(listed, list) and parts[-1] == str(len(listed))
    return settled(pair) if is_end and (found[0].status, found[1].status) == (200, 500) and (found[1].error() or "").endswith("array index out of bounds: " + parts[-1]) else None


@rule("no list", "POST with a last part `...` at what is no list puts the body in its place, which then is refused with 500.")
def no_list(pair):
    found = one(pair)
    is_wanted = found and found[0].error() == "destination is not a list" and pair.asked.path.endswith("/...")
    return settled(pair) if is_wanted and found[1].status == 500 and "cannot unmarshal array into Go" in found[1].error() else None


@rule("a tag of nowhere", "A tag whose path leads nowhere is answered with 500, where the profile says 412.")
def tag_of_nowhere(pair):
    found = one(pair)
    is_tag = found and found[0].error() == "If-Match does not hold" and found[1].status == 500 and pair.asked.values("if-match")
    return settled(pair) if is_tag and re.match(r"invalid traversal path at: |\[/config/.*\] (array index|invalid array)", found[1].error() or "") else None


# ---- How a row is put to it

class Caddy(servers.Itself):
    """Puts rows to a Caddy, and explains by the rules what differs."""

    def __init__(self):
        self.begin(None)

    def begin(self, task):
        self.task, self.used, self.ended, self.count = task, {}, False, 0

    def configured(self, text):
        """A configuration for Caddy: a server that answers with the body takes the place of the app `echo`, and hosts have plain HTTP."""
        tree = tree_of(text)
        if member(tree, "apps") is None:
            return text
        found = member(tree, "apps", "http", "servers")
        for it in found.values() if isinstance(found, dict) else []:
            if isinstance(it, dict) and '"host"' in json.dumps(it):
                it["automatic_https"] = {"disable": True}
        echo = tree["apps"].pop("echo", None)
        if isinstance(echo, dict) and echo.get("listen"):
            tree["apps"].setdefault("http", {}).setdefault("servers", {})["echo"] = {"listen": echo["listen"], "routes": [{"handle": ECHO}]}
        return compact(tree)

    def asked(self, data, address=None):
        """A request for Caddy: with a Content-Type where a change has none, and with its own digits in a tag that holds. In a run that
        asks the admin API, with the Host that Caddy expects."""
        if address == rows.ADMIN and isinstance(self.task.case, rows.Conversation):
            data = re.sub(rb"\nHost: [^\r\n]*", b"\nHost: localhost:2019", data)
        data = BARE_CHANGE.sub(rb"\1Content-Type: application/json\r\n", data)
        return IF_MATCH.sub(self.tag_for_caddy, data) if isinstance(self.task.case, rows.Asked) else data

    def tag_for_caddy(self, found):
        path = walk.unescaped(found[2].decode("latin-1")).encode("latin-1").decode(errors="replace")
        parts = [it for it in path.removeprefix("/config").split("/") if it]
        holds = found[3].decode() == digest(compact(value_at(self.task.case.tree, parts)))
        digits = fnv(go_text(value_at(self.task.case.tree, parts)) + b"\n") if holds else found[3][:8]
        return found[1] + b'"' + found[2] + b" " + digits + b'"'

    def compare(self, what, wanted, came):
        if came is None:
            return servers.Came(what, servers.shown(wanted), b"nobody listens there")
        self.count += 1
        if self.ended:
            return None
        pair = self.pair(what, wanted, came)
        if all([self.is_explained(it, (what, servers.shown(wanted), came)) for it in parts_of(pair)]):
            return None
        return servers.Came(what, servers.shown(wanted), came)

    def is_explained(self, pair, example):
        """Whether a pair is the same, or is once the rules have taken out what they describe."""
        if self.ended:
            return True
        for name, it in RULES.items():
            found = None if pair.same() else it.test(pair)
            if found and (found.ours, found.theirs) != (pair.ours, pair.theirs):
                pair = found
                self.used.setdefault(name, example)
                self.ended = self.ended or it.ends
        for name in [] if pair.same() else self.walked(pair):
            self.used.setdefault(name, example)
            pair = pair.with_answers([], [])
        return pair.same()

    def pair(self, what, wanted, came):
        theirs = answers_of(came)
        if what == "the bodies":
            theirs = [it.without("content-type") if it.status == 200 else it for it in theirs]
        if wanted.data is not None:
            return Pair(self.task, what, answers_of(wanted.data), theirs, number=self.count - 1)
        body = theirs[0].body if wanted.length is not None and len(theirs) == 1 and len(theirs[0].body) == wanted.length else wanted.body
        ours = Answer("", wanted.status, "", [], body if body is not None else b"(%d bytes)" % wanted.length)
        return Pair(self.task, what, [ours], [Answer("", it.status, "", [], it.body) for it in theirs], only=True)

    def walked(self, pair):
        """The fewest rules of the walk by which the routes answer what came; none where they do not."""
        if not isinstance(pair.case, rows.Site):
            return []
        server = server_at(pair.case.tree, pair.case.address)

        def comes_to(like, wanted):
            found = walk.walked(server, pair.case.asked, like)
            return found is not None and pair.plain(found) == pair.plain_answers(wanted)

        like = set(walk.RULES)
        if not comes_to(set(), pair.ours) or not comes_to(like, pair.theirs):
            return []
        for name in list(walk.RULES):
            if comes_to(like - {name}, pair.theirs):
                like.remove(name)
        return sorted(like)

    def compare_start(self, why):
        theirs = Answer("", 400, "", [], compact({"error": why}))
        pair = Pair(self.task, "the start", [Answer("", 200, "", [], b"")], [theirs])
        said = why.rpartition("Error: ")[2] if "Error: " in why else re.sub(r"^it ends with status (\d+): (?s:.*)", r"it ends with status \1, and a trace of Go", why)
        example = ("the start", b"(it serves)", said.encode())
        return None if self.is_explained(pair, example) else servers.Came("the start", b"", why.encode())

    def compare_refused(self, words, status, said):
        return None if status == 1 else servers.Came("the refusal", b"exit status 1", b"exit status %d" % status)

    def compare_end(self, last, status, said):
        return None if status == 0 else servers.Came("the end", b"exit status 0", b"exit status %d" % (-1 if status is None else status))

    def differs(self):
        """Whether more differs than the form of an answer."""
        return any(not is_form(it) for it in self.used)

    def example(self, how):
        """What the first difference is about, how it was asked, what was wanted and what came."""
        what, wanted, came = next(example for name, example in self.used.items() if not is_form(name))
        return what, how, wanted, came


def is_form(name):
    return name in RULES and RULES[name].is_form


def says_of(name):
    return RULES[name].says if name in RULES else walk.RULES[name]


def names():
    return list(RULES) + list(walk.RULES)


# ---- The page

PAGE = os.path.join(rows.TOP, "docs", "profile", "caddy.md")
HEAD = """# What differs from Caddy

`tests/conformance PROGRAM --like caddy --page` writes this page, where PROGRAM is Caddy 2.6.2 as Debian has it. [CONFORMANCE.md](../CONFORMANCE.md) says how.

Of the rows that a socket can show, {asked} come from RFC 9110, RFC 9112 or Caddy's documentation. Caddy answers {same} of them as the profile does, but for the form of its answers, and {differ} in another way, each by the rules below. A row may need several of them. {form}

Each rule has the number of its rows, and one of them as an example: its file and the first digits of its SHA-256, what it says of the server and of the request, what the profile wants and what Caddy sends. What is long is cut.
"""
WANTED = ("answered", "found", "refused", "gives", "gives_text", "ends", "filled", "length", "tree")


def write_page(results, tasks):
    """Writes what differs, a section for each rule."""
    by_place = {it.row.place: it for it in tasks}
    looked_at = [it for it in results if it.says in ("same", "differs")]
    counts = {says: sum(it.says == says for it in looked_at) for says in ("same", "differs")}
    forms = " ".join(["What is the form of an answer:"] + [RULES[it].says for it in RULES if RULES[it].is_form])
    lines = [HEAD.format(asked=len(looked_at), same=counts["same"], differ=counts["differs"], form=forms)]
    for name in names():
        found = [it for it in looked_at if name in it.rules]
        if is_form(name):
            continue
        if found:
            lines += section(name, found, by_place)
    unused = [name for name in names() if not any(name in it.rules for it in looked_at)]
    if unused:
        raise ValueError(f"no row shows the rules {', '.join(unused)}")
    lines.append(f"The rules of this page are `{digest_of_rules()}`.\n")
    os.makedirs(os.path.dirname(PAGE), exist_ok=True)
    with open(PAGE, "w", encoding="utf-8") as file:
        file.write("\n".join(lines))


def section(name, found, by_place):
    best = min(found, key=lambda it: (sum(not is_form(one) for one in it.rules), len(by_place[it.place].row.text) + len(it.examples[name][2])))
    row, (what, wanted, came) = by_place[best.place].row, best.examples[name]
    shown = {key: value for key, value in row.members.items() if key not in WANTED}
    others = [f"`{it}`" for it in best.rules if it != name and not is_form(it)]
    more = f" It needs {' and '.join(others)} too." if others else ""
    number = f"{len(found)} rows." if len(found) > 1 else "One row."
    block = [*indented("row", cut(json.dumps(shown, ensure_ascii=True), 600)), *indented("profile", printed(wanted)), *indented("Caddy", printed(came))]
    return [f"## {title(name)}", "", says_of(name), "", f"{number} `{row.file}` `{row_digest(row.text)}`, {what}.{more}", "", "```", *block, "```", ""]


def title(name):
    return name[0].upper() + name[1:]


def indented(name, text):
    return [f"{name if at == 0 else '':9}{line}".rstrip() for at, line in enumerate(text.split("\n"))]


def cut(text, length):
    return text if len(text) <= length else f"{text[:length * 2 // 3]} .. {text[-length // 3:]}"


def printed(data):
    """An answer in lines, with what can't be printed as escapes."""
    text = re.sub(r"(?m)^Date: .*\n", "", data.decode("latin-1").replace("\r\n", "\n"))
    text = re.sub(r"[^\n -~]", lambda it: f"\\x{ord(it[0]):02x}", cut(text, 700)).rstrip("\n")
    return text or "(no answer)"


def row_digest(text):
    return digest(text.encode())[:12]


def digest_of_rules():
    """The digits that change with the names and the sentences of the rules."""
    return digest("\n".join(f"{name}: {says_of(name)}" for name in names()).encode())[:12]


def page_faults():
    """How many rules and rows the page names, and what of it is not up to date."""
    with open(PAGE, encoding="utf-8") as file:
        text = file.read()
    wrong = [] if f"`{digest_of_rules()}`" in text else ["the page is of other rules"]
    wrong += [f"it has no section of the rule {name}" for name in names() if not is_form(name) and f"\n## {title(name)}\n" not in text]
    named = re.findall(r"`(cd_\w+/\w+\.jsonl)` `([0-9a-f]{12})`", text)
    for file in sorted({it for it, _ in named}):
        path = os.path.join(rows.TOP, "crates", *file.replace("/", "/data/").split("/"))
        with open(path, encoding="utf-8") as lines:
            there = {row_digest(line.rstrip("\n")) for line in lines}
        wrong += [f"{file} has no row {it} any longer" for name, it in named if name == file and it not in there]
    return len(names()) + len(named), wrong
