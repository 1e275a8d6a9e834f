"""The rows of the data files as cases: what is asked of a server over sockets, and what it has to answer.

A row becomes a case by the members that it has, in one of the functions `*_case`. What no socket can show raises `NotShown`, with its
reason. The README.md beside the data files says what the members mean.
"""
import glob
import hashlib
import json
import os
import re

TOP = os.path.dirname(os.path.dirname(os.path.realpath(__file__)))
# The most bytes of a configuration, and of a body.
MAX_TEXT_BYTES = 8_388_608
MAX_ERROR_SUBROUTES = 8
MAX_DEPTH = 100
# A variable of more bytes is made by a chain of handlers that double it.
LONG = 50_000
HELLO = {"apps": {"http": {"servers": {"s": {"listen": [":8080"], "routes": [{"handle": [{"handler": "static_response", "body": "hi"}]}]}}}}}
ADMIN = ("localhost", 2019)
LOOPBACK = {"": "127.0.0.1", "localhost": "127.0.0.1", "127.0.0.1": "127.0.0.1", "0.0.0.0": "127.0.0.1", "::1": "::1", "::": "::1"}
PHRASES = {400: "Bad Request", 413: "Payload Too Large", 501: "Not Implemented", 503: "Service Unavailable"}
PLACEHOLDER = re.compile(r"\{[^{}]*\}")
NEXT = {"handler": "static_response", "body": "{http.request.method} | {http.request.uri.path} | {http.request.uri.query} | {http.request.uri}"}
LINE = "{http.request.orig_method}|{http.request.orig_uri.path}|{http.request.orig_uri.query}|{http.request.hostport}|{http.request.proto}"


class NotShown(Exception):
    """Why a socket can't show a row."""


class Row:
    """A row, with the heading that it stands under."""

    def __init__(self, file, line, heading, text):
        self.file, self.line, self.heading, self.text = file, line, heading, text
        self.members = json.loads(text)
        self.place = f"{file}:{line}"

    def __contains__(self, name):
        return name in self.members

    def __getitem__(self, name):
        return self.members[name]

    def get(self, name, otherwise=None):
        return self.members.get(name, otherwise)


def read_rows(only=""):
    """All rows of all data files, file by file."""
    for path in sorted(glob.glob(os.path.join(TOP, "crates", "*", "data", "*.jsonl"))):
        file, heading = os.path.relpath(path, os.path.join(TOP, "crates")).replace("/data/", "/"), ""
        was_heading = False
        with open(path, encoding="utf-8") as lines:
            for number, text in enumerate(lines, 1):
                text = text.rstrip("\n")
                if text.startswith("#"):
                    heading = heading + " " + text[1:].strip() if was_heading else text[1:].strip()
                elif text and only in file + ":" + str(number):
                    yield Row(file, number, heading, text)
                was_heading = text.startswith("#")


# ---- Values

def octets(value):
    """The bytes that BYTES stand for."""
    if isinstance(value, str):
        return value.encode()
    if isinstance(value, int):
        return bytes([value])
    if isinstance(value, list):
        return b"".join(octets(it) for it in value)
    if "repeat" in value:
        return octets(value["repeat"]) * value["times"]
    numbers = (str(it).encode() for it in range(value.get("from", 0), value.get("from", 0) + value["times"]))
    return b"".join(b"".join(number if part is None else octets(part) for part in value["each"]) for number in numbers)


def compact(tree):
    """The text of a tree: members by rising key, no white space."""
    return json.dumps(tree, ensure_ascii=False, separators=(",", ":"), sort_keys=True).encode()


def digest(text):
    return hashlib.sha256(text).hexdigest()


def text_of(value, what):
    """BYTES as a text that a configuration can hold."""
    try:
        return octets(value).decode()
    except UnicodeDecodeError:
        raise NotShown(f"{what} that is no text") from None


def tree_of(data):
    try:
        return json.loads(data)
    except (ValueError, RecursionError):
        return None


# ---- Configurations and addresses

def member(tree, *names):
    """What stands at a way of names, where each is an object."""
    for it in names:
        tree = tree.get(it) if isinstance(tree, dict) else None
    return tree


def is_plain(tree):
    """Whether the admin API of a configuration is where it is without a word of it."""
    admin = member(tree, "admin")
    return admin is None or not isinstance(admin, dict) or not set(admin) - {"config", "@id"}


def admin_of(tree):
    """The address of the admin API of a configuration, None where it has none."""
    admin = member(tree, "admin")
    if member(admin, "disabled") is True:
        return None
    listen = member(admin, "listen")
    return addresses_in(listen)[0] if isinstance(listen, str) else ADMIN


def addresses_in(text):
    """The addresses that a text under `listen` names."""
    found = re.fullmatch(r"(?:tcp/)?(\[[0-9A-Fa-f:.]+\]|[\w.-]*):(\d+)(?:-(\d+))?", text)
    if not found:
        raise NotShown("an address that is none")
    host = found[1].lower().strip("[]")
    return [(host, port) for port in range(int(found[2]), int(found[3] or found[2]) + 1)]


def listened(tree):
    """All addresses that a configuration opens, but that of the admin API."""
    found = []
    servers = member(tree, "apps", "http", "servers")
    for name in sorted(servers) if isinstance(servers, dict) else []:
        for text in member(servers[name], "listen") or []:
            found += addresses_in(text)
    echo = member(tree, "apps", "echo", "listen")
    texts = [echo] if isinstance(echo, str) else echo if isinstance(echo, list) else []
    return found + [address for text in texts for address in addresses_in(text)]


def first_address(tree):
    servers = member(tree, "apps", "http", "servers") or {}
    for name in sorted(servers):
        if servers[name] is not None:
            return addresses_in(servers[name]["listen"][0])[0]
    raise NotShown("nobody answers at standard input and output, which is no address")


def refuse_far(addresses):
    """A host that is not this machine can't be opened."""
    for host, port in addresses:
        if host not in LOOPBACK:
            raise NotShown("an address of another host")


# ---- Cases

class Wanted:
    """What is to come on a connection: all bytes, or the status and the body of one answer, or the length of its body."""

    def __init__(self, data=None, status=None, body=None, length=None):
        self.data, self.status, self.body, self.length = data, status, body, length


class Site:
    """A request to a server of a configuration."""

    def __init__(self, tree, asked, wanted, text=None, address=None):
        self.tree, self.text = tree, compact(tree) if text is None else text
        self.address, self.asked, self.wanted = address or first_address(tree), asked, wanted
        if len(self.text) > MAX_TEXT_BYTES:
            raise NotShown("more than a configuration may have")
        refuse_far(listened(tree))


class Load:
    """A configuration that is refused in these words by `POST /load`, or is taken. `kind` is its Content-Type."""

    def __init__(self, body, refused=None, kind=None, gives=None, taken=False):
        self.body, self.refused, self.kind, self.gives, self.taken = body, refused, kind, gives, taken
        if not body:
            raise NotShown("a body of no bytes, which is none")
        if len(body) > MAX_TEXT_BYTES:
            raise NotShown("more than a body may have")


class Opened:
    """A configuration that is taken from a file: it opens these addresses."""

    def __init__(self, text, addresses):
        self.text, self.addresses = text, addresses
        if not addresses:
            raise NotShown("a configuration that opens no address")
        refuse_far(addresses)


class Asked:
    """A request to the admin API under a configuration. `gives` is the text of the configuration after it; `ends` says whether it halts."""

    def __init__(self, text, tree, asked, wanted, gives, halts):
        self.text, self.tree, self.asked, self.wanted, self.gives, self.halts = text, tree, asked, wanted, gives, halts
        self.address = admin_of(tree)
        if self.address is None:
            raise NotShown("its configuration has no admin API")
        self.address_after = admin_of(tree_of(gives)) if gives is not None else None
        if gives is not None and self.address_after is None:
            raise NotShown("its new configuration has no admin API that would show it")
        refuse_far([self.address, *([self.address_after] if gives is not None else []), *listened(tree)])
        if gives is not None:
            refuse_far(listened(tree_of(gives)))


class Refused:
    """A start that is refused in these words, with status 1."""

    def __init__(self, text, words):
        self.text, self.words = text, words


class Conversation:
    """A run: what each connection asks for and is sent, and the counts of its last line."""

    def __init__(self, text, tree, connections, served, published, halts):
        self.text, self.tree, self.connections = text, tree, connections
        self.served, self.published, self.halts = served, published, halts
        refuse_far(listened(tree))


class Wire:
    """Bytes of a connection. One to a server that answers each request with its line, and one to a server that answers with the body."""

    def __init__(self, asked, lines, bodies):
        self.asked, self.lines, self.bodies = asked, lines, bodies


def case_of(row):
    """The case of a row."""
    crate = row.file.partition("/")[0]
    if crate == "cd_site_cases":
        return admin_case(row) if row.file.rpartition("/")[2] in ADMIN_FILES else site_case(row)
    if crate == "cd_run_cases":
        return run_case(row)
    if crate == "cd_caddyfile_cases":
        return caddyfile_case(row)
    if row.file in ("cd_cases/wire.jsonl", "cd_cases/chunks.jsonl"):
        return wire_case(row)
    raise NotShown(next(why for start, why in NOT_SHOWN if row.file.startswith(start)))


# Files whose rows call what no socket reaches.
NOT_SHOWN = [
    ("cd_cases/addresses", "an address without a server"),
    ("cd_cases/devices", "a device in memory"),
    ("cd_cases/histories", "a history of the core"),
    ("cd_cases/pools", "memory"),
    ("cd_cases/storms", "the command `storm`"),
    ("cd_cases/", "a tree, a text or a tag that is of no configuration"),
    ("cd_link_cases/", "a network in memory, which fails at a chosen call"),
    ("cd_proxy_cases/", "a gateway, which no configuration has"),
]


ADMIN_FILES = {"asking.jsonl", "changing.jsonl", "looking.jsonl", "matching.jsonl", "origins.jsonl"}


# ---- Sites

def request(value):
    asked = octets(value)
    return asked if b"\n" in asked else asked + b" HTTP/1.1\r\nHost: a\r\n\r\n"


def short(row):
    """A row says the bytes that are sent, or the status and the body."""
    if "answered" in row:
        return Wanted(data=octets(row["answered"]))
    status, _, body = octets(row["found"]).partition(b" ")
    return Wanted(status=int(status), body=body)


def server_of(row):
    """The server of a row."""
    if "server" in row:
        return row["server"]
    if "server_text" in row:
        return tree_of(octets(row["server_text"]))
    server = {"listen": [":80"]}
    if "routes" in row:
        server["routes"] = row["routes"]
    elif "handle" in row:
        server["routes"] = [{"handle": row["handle"]}]
        if "errors" in row:
            server["errors"] = {"routes": [{"handle": row["errors"]}]}
    elif "match" in row:
        says = [{"handle": [{"handler": "static_response", "body": it}]} for it in ("yes", "no")]
        server["routes"] = [{"match": row["match"], **says[0], "terminal": True}, says[1]]
        if "after" in row:
            server["routes"].insert(0, {"handle": row["after"]})
    else:
        caught = {"routes": [{"handle": row["line_after"]}, {"handle": [NEXT]}], "errors": {"routes": [{"handle": [NEXT]}]}}
        server["routes"] = [{"handle": [{"handler": "subroute", **caught}]}]
    return server


def variables(row):
    """The routes that set the variables of a row. A long one is doubled until it has its length."""
    routes = []
    for name, value in row.get("vars", []):
        if name in ("handler", "@id"):
            raise NotShown("a variable that no handler sets")
        text = text_of(value, "a variable")
        if PLACEHOLDER.search(text):
            raise NotShown("a variable whose value would be filled")
        steps = [text]
        if len(text) > LONG:
            if set(text) != {text[0]}:
                raise NotShown("more than a configuration may have")
            steps = [text[0]] + ["{http.vars.%s}" % name * 2 + text[0] * int(bit) for bit in bin(len(text))[3:]]
        routes.append({"handle": [{"handler": "vars", name: it} for it in steps]})
    return routes


def whole(server):
    return {"apps": {"http": {"servers": {"s": server}}}}


def placed(words):
    """The words of a refusal of a server, where that stands in a configuration."""
    found = re.sub(rb" at /", b" at /apps/http/servers/s/", words)
    return found[:-1] if words.endswith(b" at /") else found


def site_case(row):
    if "configuration" in row:
        return configuration_case(row)
    if "fill" in row:
        return fill_case(row)
    if "pattern" in row:
        return pattern_case(row)
    if "listen" in row or "names_in" in row:
        return part_case(row)
    if not any(it in row for it in ("server", "server_text", "routes", "handle", "match", "line_after")):
        raise NotShown("a scene that no handler makes" if "scene" in row else "a count, a name or the words of a refusal alone")
    server = server_of(row)
    if "refused" not in row:
        refuse_beyond(server)
    if "asked" in row:
        if row.get("vars"):
            server = {**server, "routes": variables(row) + (server.get("routes") or [])}
        return Site(whole(server), request(row["asked"]), short(row))
    if "refused" in row:
        return Load(compact(whole(server)), refused=placed(octets(row["refused"])))
    refuse_far(listened(whole(server)))
    if ADMIN in listened(whole(server)):
        refuse_twice(listened(whole(server)))
        return Opened(compact({**whole(server), "admin": {"disabled": True}}), listened(whole(server)))
    return Load(compact(whole(server)), taken=True)


def refuse_twice(addresses):
    """Two hosts of one port can't always be opened side by side."""
    if len({port for _, port in addresses}) < len(addresses):
        raise NotShown("two addresses that are one on a loopback")


def refuse_beyond(server):
    """What a server may have alone, and not in a whole configuration, which is all that a socket takes."""
    if depth(whole(server)) > MAX_DEPTH:
        raise NotShown("a server that is refused in a whole configuration")
    if objects(server, lambda it: it.get("handler") == "subroute" and it.get("errors") is not None) > MAX_ERROR_SUBROUTES:
        raise NotShown("a server that is refused in a whole configuration")
    for name, route in (server.get("named_routes") or {}).items() if isinstance(server, dict) else []:
        if objects(route, lambda it: it.get("handler") == "invoke" and it.get("name") == name):
            raise NotShown("a server that is refused in a whole configuration")


def depth(tree):
    parts = tree.values() if isinstance(tree, dict) else tree if isinstance(tree, list) else []
    return 1 + max(map(depth, parts), default=0) if isinstance(tree, (dict, list)) else 0


def objects(tree, holds):
    """How many objects of a tree there are of which that holds."""
    parts = tree.values() if isinstance(tree, dict) else tree if isinstance(tree, list) else []
    return sum(objects(it, holds) for it in parts) + (isinstance(tree, dict) and holds(tree))


def part_case(row):
    if "refused" not in row:
        raise NotShown("what a function of the core keeps of a setting")
    if "listen" in row:
        words = octets(row["refused"])
        words = words + b"listen" if words.endswith(b" at /") else words.replace(b" at /", b" at /listen/")
        return Load(compact(whole({"listen": row["listen"]})), refused=placed(words))
    words = octets(row["refused"])
    words = words + b"routes/0" if words.endswith(b" at /") else words.replace(b" at /", b" at /routes/0/")
    return Load(compact(whole({"listen": [":80"], "routes": [row["names_in"]]})), refused=placed(words))


def fill_case(row):
    if "line" in row:
        raise NotShown("a scene that no handler makes")
    text, kind = text_of(row["fill"], "a text"), row.get("as", "plain")
    says = {"handler": "static_response", "body": text}
    handle = [says]
    if kind != "plain":
        if kind == "path" and "filled" not in row:
            raise NotShown("a length at which the path has a byte more")
        part = {"path": "/" + text, "query": "?" + text}[kind]
        if "?" in text:
            raise NotShown("a `?` in a text that a rewrite would cut")
        handle = [{"handler": "rewrite", "uri": part}, {"handler": "static_response", "body": "{http.request.uri.%s}" % kind}]
    if "refused" in row:
        wanted = Wanted(status=500, body=b"")
    elif "length" in row:
        wanted = Wanted(status=200, length=int(row["length"]))
    else:
        wanted = Wanted(status=200, body=b"/" * (kind == "path") + octets(row["filled"]))
    asked = request(row["asked"])
    return Site(whole({"listen": [":80"], "routes": variables(row) + [{"handle": handle}]}), asked, wanted)


def pattern_case(row):
    """A text fits a pattern: it stands in a field, and in a list of patterns of its name."""
    if "text" not in row:
        raise NotShown("what a function of the core keeps of a setting")
    pattern, text = text_of(row["pattern"], "a pattern"), octets(row["text"])
    if text != text.strip(b" \t") or re.search(rb"[\x00-\x08\x0a-\x1f\x7f]", text) or len(text) > 8000:
        raise NotShown("a text that no field can have")
    fits = {"fits": b"yes"}.get(row["found"], b"no")
    says = [{"handle": [{"handler": "static_response", "body": it}]} for it in ("yes", "no")]
    routes = [{"match": [{"header": {"X-T": [pattern]}}], **says[0], "terminal": True}, says[1]]
    return Site(whole({"listen": [":80"], "routes": routes}), b"GET / HTTP/1.1\r\nHost: a\r\nX-T: " + text + b"\r\n\r\n", Wanted(status=200, body=fits))


def configuration_case(row):
    text = octets(row["configuration"])
    if "refused" in row:
        return Load(text, refused=octets(row["refused"]))
    lines = [it.split(" ")[1:] for it in octets(row["found"]).decode().split("\n") if it and not it.partition(" ")[2].startswith("/")]
    if any(it == "file:" for line in lines for it in line) or b" file:\n" in octets(row["found"]):
        raise NotShown("a file that has no name")
    names = [it for line in lines for it in line if re.fullmatch(r".*:\d+", it)]
    return Opened(text, [address for it in names for address in addresses_in(it)])


# ---- The admin API

def admin_case(row):
    text, tree = configuration_of(row)
    if not isinstance(row.get("asked"), (str, list)):
        raise NotShown("what is asked is no request")
    body = compact(row["body"]) if "body" in row else octets(row["body_bytes"]) if "body_bytes" in row else None
    head = octets(row["asked"]) + b" HTTP/1.1\r\nHost: " + octets(row.get("host", "localhost:2019")) + b"\r\n"
    head += b"".join(octets(it) + b"\r\n" for it in row.get("fields", []))
    asked = head + (b"" if body is None else b"Content-Length: %d\r\n" % len(body)) + b"\r\n" + (body or b"")
    wanted, gives, halts = admin_wanted(row, tree, octets(row["asked"]).startswith(b"HEAD "))
    return Asked(text, tree, asked, wanted, gives, halts)


def configuration_of(row):
    if "configuration_bytes" in row:
        text = octets(row["configuration_bytes"])
        tree = tree_of(text)
        return text, tree
    tree = row.get("configuration", HELLO)
    return compact(tree), tree


def admin_wanted(row, tree, head):
    """What is wanted of the answer, and of the configuration afterwards."""
    before = compact(tree)
    done = b"HTTP/1.1 200 OK\r\nContent-Length: 0\r\n\r\n"
    if "gives" in row or "gives_text" in row:
        return Wanted(data=done), compact(row["gives"]) if "gives" in row else octets(row["gives_text"]), False
    if "ends" in row:
        halts = row["ends"] == "halt"
        return Wanted(data=done.replace(b"0\r\n\r\n", b"0\r\nConnection: close\r\n\r\n") if halts else done), None if halts else before, halts
    if "answered" in row:
        return Wanted(data=octets(row["answered"])), None, False
    if "found" in row:
        tag, _, body = octets(row["found"]).partition(b"\n")
        fields = b"Content-Type: application/json\r\nEtag: %s\r\nContent-Length: %d\r\n\r\n" % (tag, len(body))
        return Wanted(data=b"HTTP/1.1 200 OK\r\n" + fields + body), None, False
    words, _, allowed = octets(row["refused"]).partition(b"; allowed are ")
    status, _, words = words.partition(b" ")
    return Wanted(data=refusal(int(status), words, allowed, head)), before if admin_of(tree) else None, False


REASONS = {400: b"Bad Request", 403: b"Forbidden", 404: b"Not Found", 405: b"Method Not Allowed", 409: b"Conflict", 412: b"Precondition Failed"}


def refusal(status, words, allowed=b"", head=False):
    """The answer of a refusal of the admin API."""
    body = b'{"error":' + json.dumps(words.decode(), ensure_ascii=False).encode() + b"}\n"
    allow = b"Allow: " + allowed + b"\r\n" if allowed else b""
    fields = b"Content-Type: application/json\r\nContent-Length: %d\r\n\r\n" % len(body)
    return b"HTTP/1.1 %d %s\r\n" % (status, REASONS[status]) + allow + fields + (b"" if head else body)


# ---- Runs

def run_case(row):
    for name, why in (("steps", "the file of saved configurations"), ("crashes", "the file of saved configurations"), ("lanes", "lanes that wait for one another"),
                      ("fails", "calls that fail"), ("opening", "lanes that wait for one another"), ("rests", "counts of calls")):
        if name in row:
            raise NotShown(why)
    words = row.get("words", ["stdio", "--config", "f"])
    if words not in (["run"], ["run", "--config", "f"], ["stdio", "--config", "f"]):
        raise NotShown("words that open no address")
    text, tree = (b"null", None) if words == ["run"] else configuration_of(row)
    first, _, rest = octets(row["ends"]).partition(b"\n")
    status, served, _, published = (int(it) for it in re.match(rb"status (\d+) answered (\d+) cut (\d+) published (\d+)", first).groups())
    if status == 1:
        return Refused(text, rest.partition(b"\n")[0])
    sections = rest.split(b"--\n")[1:]
    asked = connections_of(row, words, tree)
    if len(asked) != len(sections):
        raise NotShown("connections that are not accepted" if len(asked) > len(sections) else "an answer with a line that looks like the end of one")
    if not asked and words[0] == "stdio":
        raise NotShown("no connection")
    parts = [(address, data, *logged(section)) for (address, data), section in zip(asked, sections)]
    stops = [at for at, it in enumerate(parts) if b"POST /stop" in it[1] and b"Connection: close\r\n" in it[2]]
    if stops and any(it[2] for it in parts[stops[0] + 1:]):
        raise NotShown("a connection that is accepted while a run ends")
    if not listened(tree) and admin_of(tree) is None:
        raise NotShown("a configuration that opens no address")
    return Conversation(text, tree, parts, served, published, any(b"POST /stop" in it[1] for it in parts))


# The end of a line before those that say what was logged and what was kept.
LINES = re.compile(rb"\n(?=logged \S+ \"|kept \d+ after \d+ )")


def logged(section):
    """What a connection is sent, and the lines that are logged meanwhile, with their writers. What is saved meanwhile is left out."""
    found = LINES.search(section)
    if not found:
        return section, []
    lines = section[found.end():].split(b"\n")
    return section[:found.start()], [tuple(it[7:].partition(b" ")[::2]) for it in lines if it.startswith(b"logged ")]


def connections_of(row, words, tree):
    """The address and the bytes of each connection."""
    listed = row["connections"] if "connections" in row else [row.members] if "asked" in row or "pieces" in row else []
    found, opened = [], listened(tree) + [admin_of(tree)] * (admin_of(tree) is not None)
    for it in listed:
        data = octets(it["asked"]) if "asked" in it else octets(it.get("pieces", ""))
        host, port = it.get("host", "stdio"), it.get("port", 0)
        if host == "stdio" and port:
            raise NotShown("an address that is none")
        if "connections" not in row or host == "stdio":
            if words[0] == "run":
                raise NotShown("an address that is none")
            host, port = first_address(tree)
        if host not in LOOPBACK:
            raise NotShown("an address of another host")
        if (host, port) not in opened and port in [it for _, it in opened]:
            raise NotShown("two addresses that are one on a loopback")
        found.append(((host, port), data))
    return found


# ---- Caddyfiles

def caddyfile_case(row):
    text = octets(row["caddyfile" if "caddyfile" in row else "adapt"])
    if "refused" in row:
        return Load(text, refused=octets(row["refused"]), kind="text/caddyfile")
    if "tree" in row:
        refuse_far(listened(row["tree"]))
        return Load(text, kind="text/caddyfile", gives=compact(row["tree"]))
    if "length" in row:
        raise NotShown("what a function of the core makes")
    return Load(text, kind="text/caddyfile", taken=True)


# ---- Bytes of a connection

WIRE_TREE = {
    "apps": {
        "echo": {"listen": [":7"]},
        "http": {"servers": {"s": {"listen": [":8080"], "routes": [{"handle": [{"handler": "static_response", "body": LINE}]}]}}},
    },
}
READ = re.compile(rb"([^|\n]*)\|([^|]*)\|([^|]*)\|([^|]*)\|([^|]*)\|([01])\|(keep|close)\|(.*?)\|([^|\n]*)\n", re.DOTALL)
END = re.compile(rb"(clean|cut|refused (\d+) (\w+))")


def wire_case(row):
    if "input" not in row or "found" not in row:
        raise NotShown("an answer that no handler makes")
    if row.get("open"):
        raise NotShown("a connection that has no end yet")
    asked, found = octets(row["input"]), octets(row["found"])
    lines, bodies, place = [], [], 0
    for it in READ.finditer(found):
        if it.start() != place:
            raise NotShown("a line that can be read in two ways")
        place = it.end()
        method, _, path, query, host, minor, ends, body, _ = it.groups()
        close = ends == b"close"
        line = b"|".join([method, path, b"" if query == b"-" else query, host, b"HTTP/1." + minor])
        lines.append(answer(line, method, close, b"Content-Type: text/plain; charset=utf-8\r\nServer: Caddy\r\n"))
        bodies.append(answer(body, method, close))
        if close:
            return Wire(asked, b"".join(lines), b"".join(bodies))
    end = END.fullmatch(found, place)
    if not end and found[place:] not in (b"closed", b""):
        raise NotShown("a line that can be read in two ways")
    last = fixed(int(end[2])) if end and end[2] else b""
    return Wire(asked, b"".join(lines) + last, b"".join(bodies) + last)


def fixed(status):
    return b"HTTP/1.1 %d %s\r\nContent-Length: 0\r\nConnection: close\r\n\r\n" % (status, PHRASES[status].encode())


def answer(body, method, close, fields=b""):
    end = b"Connection: close\r\n" if close else b""
    return b"HTTP/1.1 200 OK\r\n" + fields + b"Content-Length: %d\r\n" % len(body) + end + b"\r\n" + (b"" if method == b"HEAD" else body)
