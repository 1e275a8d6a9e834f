"""What the sites of a Caddyfile answer, by a walk over their directives that knows no routes, groups or JSON. A text has a character for
each byte. A site is made from its words, as they are after quotes and comments; their faults are not looked for."""
import json
import re

MAX_FILLED_BYTES = 8_388_608
# The directives of a block are done in this order.
ORDER = ["vars", "header", "redir", "rewrite", "handle", "respond"]
SHORT_FORMS = {"method": "method", "host": "host", "path": "uri.path", "query": "uri.query", "uri": "uri"}


def lower(text):
    return "".join(it.lower() if it.isascii() else it for it in text)


def fits(text, pattern):
    """A `*` at the start or at the end stands for anything."""
    if pattern == "*":
        return True
    if pattern.startswith("*") and pattern.endswith("*"):
        return pattern[1:-1] in text
    if pattern.startswith("*"):
        return text.endswith(pattern[1:])
    if pattern.endswith("*"):
        return text.startswith(pattern[:-1])
    return text == pattern


def unescaped(text):
    return re.sub("%([0-9A-Fa-f]{2})", lambda it: chr(int(it[1], 16)), text)


def escaped(text, kept):
    return "".join(it if it.isascii() and it.isalnum() or it in kept else f"%{ord(it):02X}" for it in text)


def form_encoded(text):
    return escaped(text, "*-._ ").replace(" ", "+")


def form_decoded(text):
    return unescaped(text.replace("+", " ")).encode("latin-1").decode("utf-8", "replace").encode().decode("latin-1")


def without_port(host):
    return host[1:].split("]")[0] if host.startswith("[") else host.split(":")[0]


def host_fits(host, pattern):
    labels, wanted = lower(without_port(host)).split("."), lower(pattern).split(".")
    return len(labels) == len(wanted) and all(one in (label, "*") for label, one in zip(labels, wanted))


def is_json(text):
    """A list or an object, with whole numbers from -2^63 to 2^64 - 1."""
    def whole(digits):
        if digits == "-0" or not -(2 ** 63) <= int(digits) < 2 ** 64:
            raise ValueError
        return int(digits)

    def refused(_):
        raise ValueError

    try:
        return isinstance(json.loads(text.encode("latin-1"), parse_float=refused, parse_constant=refused, parse_int=whole), (list, dict))
    except ValueError:
        return False


class Failed(Exception):
    pass


class Scene:
    """A request, what the directives have made of it, and the fields of its answer so far."""

    def __init__(self, request):
        self.method, self.uri, self.host, self.fields = request.method, request.target, request.host, request.fields
        path, mark, query = request.target.partition("?")
        self.path, self.query = unescaped(path), query if mark else None
        self.first = self.uri, self.path, self.query
        self.variables, self.answer, self.deletions = {}, [("server", "Caddy")], []

    def pairs(self):
        parts = [it.partition("=") for it in (self.query or "").split("&") if it]
        return [(form_decoded(key), form_decoded(value)) for key, _, value in parts]

    def value(self, name):
        """What a placeholder stands for, None for an unknown one."""
        uri, path, query = self.first
        known = {
            "method": self.method, "host": without_port(self.host), "hostport": self.host, "proto": "HTTP/1.1", "scheme": "http",
            "uri": self.uri, "uri.path": self.path, "uri.query": self.query or "",
            "orig_method": self.method, "orig_uri": uri, "orig_uri.path": path, "orig_uri.query": query or "",
        }
        if name.startswith("http.vars."):
            return self.variables.get(name[10:], "")
        if name.startswith("http.request.uri.query."):
            return ",".join(value for key, value in self.pairs() if key == name[23:])
        if name.startswith("http.request.header."):
            return ",".join(value for field, value in self.fields if lower(field) == lower(name[20:]))
        return known.get(name[13:]) if name.startswith("http.request.") else None

    def fill(self, text, written=lambda it: it, encoded=lambda name, value: value):
        """The text with its placeholders filled. What is written goes through `written`, what is filled in through `encoded`."""
        found, at = [], 0
        for it in re.finditer(r"\{([^{}]*)\}", text):
            value = self.value(it[1])
            if value is not None:
                found += [written(text[at:it.start()]), encoded(it[1], value)]
                at = it.end()
        return self.limited("".join(found) + written(text[at:]))

    def limited(self, text):
        if len(text) > MAX_FILLED_BYTES:
            raise Failed
        return text

    def replace(self, field, value):
        self.answer = [it for it in self.answer if it[0] != field] + [(field, value)]

    def rewrite(self, to):
        before, mark, after = to.partition("?")
        path, query = self.path, self.query
        if before:
            path = self.fill(before, written=unescaped)
            path = path if path.startswith("/") else "/" + path
        if mark:
            query = self.fill(after, encoded=lambda name, value: value if name == "http.request.uri.query" else form_encoded(value)) or None
        self.move(path, query)

    def move(self, path, query):
        if (path, query) != (self.path, self.query):
            self.path, self.query = path, query
            self.uri = escaped(path, "-._~!$&'()*+,;=:@/") + ("" if query is None else "?" + query)

    def respond(self, status, body):
        if body and not any(field == "content-type" for field, _ in self.answer):
            self.replace("content-type", "application/json" if is_json(body) else "text/plain; charset=utf-8")
        return status, body

    def end(self, answer):
        """Status and body of the answer, None where no directive has answered."""
        for pattern in reversed(self.deletions):
            self.answer = [it for it in self.answer if not fits(it[0], pattern)]
        return answer or (200, "")


def expanded(lines):
    """The lines with their short forms written out, a character for each byte."""
    def word(text):
        return re.sub(r"\{(method|host|path|query|uri)\}", lambda it: "{http.request." + SHORT_FORMS[it[1]] + "}", text).encode().decode("latin-1")

    return [([word(it) for it in words], None if block is None else expanded(block)) for words, block in lines]


class Site:
    """An address and the lines of its block. A line is its words and the lines of its block, or None."""

    def __init__(self, host, port, source):
        self.host, self.port, self.source, self.lines, self.matchers = host, port, source, expanded(source), {}
        self.define(self.lines)

    def define(self, lines):
        for words, block in lines:
            if words[0].startswith("@"):
                self.matchers[words[0]] = [words[1:]] if block is None else [inner for inner, _ in block]
            elif block:
                self.define(block)

    def tests(self, matcher):
        """The values of each kind and key, None where there is no matcher."""
        if matcher in (None, "*"):
            return None
        found = {}
        for kind, *rest in [["path", matcher]] if matcher.startswith("/") else self.matchers[matcher]:
            if kind == "header":
                found.setdefault((kind, rest[0]), []).append(rest[1])
            elif kind == "query":
                key, _, value = rest[0].partition("=")
                found.setdefault((kind, key), []).append(value)
            else:
                found.setdefault((kind, ""), []).extend(rest)
        return found

    def holds(self, matcher, scene):
        return all(self.test(kind, key, values, scene) for (kind, key), values in (self.tests(matcher) or {}).items())

    def test(self, kind, key, values, scene):
        if kind == "path":
            return any(fits(lower(scene.path), lower(it)) for it in values)
        if kind == "method":
            return scene.method in values
        if kind == "host":
            return any(host_fits(scene.host, it) for it in values)
        if kind == "header":
            return any(fits(value, it) for name, value in scene.fields if lower(name) == lower(key) for it in values)
        return any(value in values or "*" in values for name, value in scene.pairs() if name == key)

    def directives(self, lines):
        """Each directive's name, matcher, arguments and block, in the order in which they are done."""
        found = []
        for (name, *rest), block in lines:
            if not name.startswith("@"):
                matcher = None
                if rest and (rest[0] == "*" or rest[0][:1] in ("/", "@")) and not (name in ("rewrite", "redir") and len(rest) == 1):
                    matcher, *rest = rest
                found.append((name, matcher, rest, block))
        return sorted(found, key=lambda it: ORDER.index(it[0]))

    def is_done(self, directives, done, scene):
        """Whether the next one is done. `done` says it of those before."""
        name, matcher = directives[len(done)][:2]
        again = name in ("rewrite", "handle") and any(it[0] == name and was for it, was in zip(directives, done))
        return not again and self.holds(matcher, scene)

    def walk(self, lines, scene):
        """Status and body, or None where the block ends without an answer."""
        directives, done = self.directives(lines), []
        for name, _, rest, block in directives:
            done.append(self.is_done(directives, done, scene))
            answer = self.do(name, rest, block, scene) if done[-1] else None
            if answer:
                return answer
        return None

    def do(self, name, rest, block, scene):
        if name == "vars":
            scene.variables[rest[0]] = scene.fill(rest[1])
        elif name == "header":
            field = lower(rest[0])
            if field.startswith("-"):
                scene.deletions.append(field[1:])
            elif field.startswith("+"):
                scene.answer.append((field[1:], scene.fill(rest[1])))
            else:
                scene.replace(field, scene.fill(rest[1]))
        elif name == "redir":
            code = {"permanent": 301, "temporary": 302}.get(rest[1]) or int(rest[1]) if len(rest) > 1 else 302
            scene.replace("location", scene.fill(rest[0]))
            return scene.respond(code, "")
        elif name == "rewrite":
            scene.rewrite(rest[0])
        elif name == "handle":
            return self.walk(block, scene)
        elif len(rest) == 1 and re.fullmatch("[0-9]{3}", rest[0]):
            return scene.respond(int(rest[0]), "")
        else:
            return scene.respond(int(rest[1]) if len(rest) > 1 else 200, scene.fill(rest[0]) if rest else "")
        return None


class Sites:
    def __init__(self, sites):
        self.sites = sites

    def there(self, port):
        """The sites of a port in the order in which they are tried, those with a host first."""
        return sorted((it for it in self.sites if it.port == port), key=lambda it: not it.host)

    def scene(self, request):
        return Scene(request)

    def answer(self, port, request):
        """Status, fields by rising name, body, and the body's length before HEAD, 204 and 304 take it away."""
        scene = self.scene(request)
        site = next((it for it in self.there(port) if it.host is None or host_fits(request.host, it.host)), None)
        try:
            status, body = scene.end(site.walk(site.lines, scene) if site else None)
        except Failed:
            status, body = 500, ""
        fields = sorted(((name, self.sent(value)) for name, value in scene.answer), key=lambda it: it[0])
        return status, fields, "" if request.method == "HEAD" or status in (204, 304) else body, len(body)

    def sent(self, value):
        return re.sub("[\x00-\x08\x0a-\x1f\x7f]", " ", value).strip(" \t")
