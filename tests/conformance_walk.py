"""What the routes of a server answer, by a walk over its configuration that knows no code of this repository. It follows the rules of
docs/PROFILE.md, and of those in which Caddy 2.6.2 differs any that are named. A text has a character for each byte.

A rule is a word in `like`. Without one the walk has to come to what a row wants; with all of them to what Caddy answers, and the fewest
that still come to it are the reasons of a difference.
"""
import http.client
import json
import os
import re
import sys

sys.path.append(os.path.join(os.path.dirname(os.path.dirname(os.path.realpath(__file__))), "bench"))
from site_walk import MAX_FILLED_BYTES, escaped, fits, form_decoded, host_fits, is_json, lower, unescaped, without_port

RULES = {
    "host field": "`Host` is no field of a request: `{http.request.header.Host}` is empty, and a matcher of fields does not see it.",
    "messages": "The message of `error` is not filled.",
    "statuses": "A filled status may be any number, and one that is none fails with a message of Go's `strconv`. One from 100 to 199 is sent as an "
                "interim answer before a 200, and one of more than three digits ends the connection without an answer.",
    "deferred": "Deferred changes are filled when the answer is written.",
    "request first": "The changes of a `headers` to the answer are filled after those that it makes to the request.",
    "joined": "The values of a field under `set` are joined by commas to one field.",
    "deletions": "The patterns of `delete` are filled.",
    "all fields": "A `delete` of `*` ends the connection without an answer.",
    "letters": "A `static_response` writes the names of its fields in their own case, and names that differ in case alone are several fields.",
    "JSON": "The type of a body is told by all of JSON, so that `[1.5]` is `application/json`; `{}` and `[]` are text.",
    "304": "An answer of 304 has no `Content-Type`.",
    "guess": "Where the answer to a body has no `Content-Type`, because it was deleted, one is guessed from the body.",
    "numbers": "A number of a variable is a 64-bit float, and has its first 17 digits alone.",
    "fields of errors": "Fields that the errors of a server have changed stay where these errors fail too.",
    "unanswered errors": "Where the routes of a subroute's errors answer nothing, the answer is an empty 200.",
    "no answer": "Deferred changes are not made where no handler answers.",
    "bytes": "What is no UTF-8 in a query stays as it is, where the profile reads the replacement character.",
    "broken query": "A query with an escape that is none matches nothing, and has none of the pairs that such an escape is in.",
    "one key": "A matcher `query` holds where the first value of one of its keys fits, where the profile wants all of its keys and takes any of their values.",
    "null key": "A key of a matcher `query` that is null is one without values.",
    "escaped patterns": "A pattern of a path with an escape is compared with the path as it is escaped.",
    "brace": "`\\{` is a brace that begins no placeholder.",
    "absolute": "`{http.request.orig_uri}` of an absolute target is all of it.",
    "any method": "A `rewrite` takes any text as a method.",
    "unread escapes": "Escapes in the `uri` of a `rewrite` are not read.",
    "no slash": "A path that a `rewrite` makes may begin without `/`.",
    "question mark": "A `?` that a placeholder of `uri` puts into the path begins the query.",
    "ampersand": "In the query of a `rewrite` an `&` is left out where nothing comes before or after it.",
    "nil": "In the query of a `rewrite` a placeholder that is unknown or not set is `<nil>`.",
    "unknown": "An unknown placeholder in the path of a `rewrite`, in a method and in a field is empty.",
    "last mark": "A `?` at the end of the target stays where a `rewrite` leaves the query empty, and goes where it removes all of a query.",
    "encoded": "`!`, `'`, `(`, `)` and `*` of a path that a `rewrite` has made are escaped; in what goes into a query `*` is escaped, and `~` is not.",
    "uri": "`{http.request.uri}` is made anew from path and query by each `rewrite`, in the form in which Go writes it.",
    "escaped steps": "`strip_path_prefix`, `strip_path_suffix` and `uri_substring` change the path as it is escaped.",
    "clean": "`strip_path_prefix`, `strip_path_suffix` and `uri_substring` clean the path of `//`, `.` and `..` before.",
    "bare prefix": "A `strip_path_prefix` or `strip_path_suffix` without `/` gets none, and one that is empty does nothing.",
    "later steps": "A later step of a `rewrite` sees what an earlier one has changed.",
    "empty find": "A `find` that is filled to nothing is found before each character and at the end.",
}


class Failed(Exception):
    """A handler has failed."""

    def __init__(self, status, message=""):
        self.status, self.message = status, message


class Ended(Exception):
    """The connection ends, after these answers."""

    def __init__(self, answers=()):
        self.answers = list(answers)


class Unmodelled(Exception):
    """What the walk does not know."""


def text(value):
    """A text of a configuration with a character for each byte."""
    return value.encode().decode("latin-1")


def number(value, like):
    """The text of a number or truth value as a variable."""
    if value is True or value is False:
        return "true" if value else "false"
    return str(int(go_float(value))) if "numbers" in like and abs(value) > 2 ** 53 else str(value)


def go_float(value):
    """A whole number by the shortest digits that its float has."""
    digits, _, power = repr(float(value)).partition("e+")
    sign, digits = ("-", digits[1:]) if digits.startswith("-") else ("", digits)
    whole, _, fraction = digits.partition(".")
    fraction = fraction if fraction != "0" else ""
    return sign + (whole + fraction).ljust(len(whole) + int(power or 0), "0")


class Request:
    """The parts of the bytes of one request."""

    def __init__(self, data):
        head, _, self.body = data.decode("latin-1").partition("\r\n\r\n")
        lines = head.split("\r\n")
        self.method, target, self.proto = lines[0].split(" ")
        self.target = target
        self.fields = [(lower(name), value.strip(" \t")) for name, _, value in (it.partition(":") for it in lines[1:])]
        self.host = next((value for name, value in self.fields if name == "host"), "")
        absolute = re.fullmatch(r"(?i)http://([^/?]*)(.*)", target)
        if absolute:
            self.host, target = absolute[1], absolute[2] if absolute[2].startswith("/") else "/" + absolute[2]
        self.uri = target
        self.raw, mark, query = target.partition("?")
        self.query = query if mark else None

    def closes(self):
        """Whether the client wants the connection closed after the answer."""
        members = [it.strip().lower() for name, value in self.fields if name == "connection" for it in value.split(",")]
        return self.proto == "HTTP/1.0" or "close" in members


class Scene:
    """A request, what the handlers have made of it, and the fields of its answer so far."""

    def __init__(self, request, like):
        self.request, self.like = request, like
        self.method, self.fields = request.method, [it for it in request.fields if it[0] != "host"]
        self.begin()
        self.variables, self.groups, self.error = {}, set(), None
        self.answer, self.deferred = [("Server", "Caddy")], []

    def begin(self):
        """Method, path, query and uri are those of the request as it was received."""
        self.method, self.raw, self.query, self.uri = self.request.method, self.request.raw, self.request.query, self.request.uri
        self.path = unescaped(self.raw)

    # ---- Placeholders

    def value(self, name):
        """What a placeholder stands for, None for an unknown one."""
        request = self.request
        known = {
            "method": self.method, "orig_method": request.method, "host": without_port(request.host), "hostport": request.host,
            "proto": request.proto, "scheme": "http", "uri": self.uri, "uri.path": self.path, "uri.query": self.query or "",
            "orig_uri": request.target if "absolute" in self.like else request.uri,
            "orig_uri.path": unescaped(request.raw), "orig_uri.query": request.query or "",
        }
        if name.startswith("http.vars."):
            return self.variables.get(name[10:], "")
        if name.startswith("http.error."):
            return self.of_error(name[11:])
        if name.startswith("http.request.uri.query."):
            return ",".join(value for key, value in self.pairs() if key == name[23:])
        if name.startswith("http.request.header."):
            return ",".join(value for field, value in self.seen() if field == lower(name[20:]))
        return known.get(name[13:]) if name.startswith("http.request.") else None

    def of_error(self, name):
        if self.error is None:
            return None
        known = {"status_code": str(self.error.status), "status_text": http.client.responses.get(self.error.status, ""), "message": self.error.message}
        return known.get(name)

    def seen(self):
        """The fields that placeholders and matchers see."""
        return self.fields if "host field" in self.like or not self.request.host else [("host", self.request.host), *self.fields]

    def pairs(self):
        """The pairs of the query."""
        found = []
        for part in (self.query or "").split("&"):
            if part and not ("broken query" in self.like and is_broken(part)):
                key, _, value = part.partition("=")
                found.append(tuple(map(self.decoded, (key, value))))
        return found

    def decoded(self, part):
        return unescaped(part.replace("+", " ")) if "bytes" in self.like else form_decoded(part)

    def fill(self, given, written=lambda it: it, encoded=lambda name, value: value, unknown=None):
        """The text with its placeholders filled. `unknown` stands for one that is unknown, which else stays as it is written."""
        found, at = [], 0
        for it in re.finditer(r"(\\?)\{([^{}]*)\}", given):
            value = self.value(it[2])
            if it[1] and "brace" in self.like:
                found += [written(given[at:it.start()]), given[it.start() + 1:it.end()]]
            elif value is not None:
                found += [written(given[at:it.start()] + it[1]), encoded(it[2], value)]
            else:
                found += [written(given[at:it.start()] + it[1]), it[0][len(it[1]):] if unknown is None else unknown]
            at = it.end()
        return limited("".join(found) + written(given[at:]))

    def known(self):
        """What an unknown placeholder becomes where Caddy leaves it empty."""
        return "" if "unknown" in self.like else None

    # ---- Fields of the answer

    def replace(self, name, values):
        self.answer = [it for it in self.answer if lower(it[0]) != lower(name)] + [(name, it) for it in values]

    def has(self, name):
        return any(lower(it) == name for it, _ in self.answer)


def limited(filled):
    if len(filled) > MAX_FILLED_BYTES:
        raise Failed(500)
    return filled


def is_broken(part):
    return re.search("%(?![0-9A-Fa-f]{2})", part) is not None


# ---- Matchers

def holds(sets, scene):
    return not sets or any(all(fits_one(kind, scene, it[kind]) for kind in it if it[kind] is not None) for it in sets)


def fits_one(kind, scene, wanted):
    if kind not in MATCHERS:
        raise Unmodelled(kind)
    return MATCHERS[kind](scene, wanted)


def fits_path(scene, patterns):
    def of(pattern):
        is_escaped = "escaped patterns" in scene.like and "%" in pattern
        return fits(lower(scene.raw if is_escaped else scene.path), lower(pattern))

    return any(of(text(it)) for it in patterns)


def fits_header(scene, wanted):
    def of(name, patterns):
        values = [value for field, value in scene.seen() if field == lower(text(name))]
        if patterns is None:
            return not values
        return bool(values) if not patterns else any(fits(value, text(it)) for value in values for it in patterns)

    return all(of(*it) for it in wanted.items() if it[0] != "@id")


def fits_query(scene, wanted):
    keys = [key for key in wanted if key != "@id" and (wanted[key] is not None or "null key" in scene.like)]
    wanted, pairs = {text(key): wanted[key] or [] for key in keys}, scene.pairs()
    if not wanted:
        return not pairs
    if "broken query" in scene.like and is_broken(scene.query or ""):
        return False

    def of(key, values, found):
        return any(it in map(text, values) or "*" in values for it in found)

    if "one key" in scene.like:
        first = dict(reversed(pairs))
        return any(key in first and of(key, values, [first[key]]) for key, values in wanted.items())
    return all(of(key, values, [it for name, it in pairs if name == key]) for key, values in wanted.items())


def fits_variables(scene, wanted):
    def value(key):
        return scene.fill(key) if key.startswith("{") else scene.variables.get(key, "")

    return all(value(text(key)) in map(text, values or []) for key, values in wanted.items() if key != "@id")


MATCHERS = {
    "host": lambda scene, wanted: any(host_fits(scene.request.host, text(it)) for it in wanted),
    "method": lambda scene, wanted: scene.method in map(text, wanted),
    "path": fits_path,
    "header": fits_header,
    "query": fits_query,
    "vars": fits_variables,
    "not": lambda scene, wanted: not wanted or not holds(wanted, scene),
    "@id": lambda scene, wanted: True,
}


# ---- Routes

class Walk:
    """A walk over the routes of one server, for one request. An answer is a status and a body, None where no handler answers."""

    def __init__(self, server, request, like):
        self.server, self.like, self.request = server, like, request
        self.scene = Scene(request, like)
        self.closes = request.closes()

    def run(self):
        """All that is answered, as the version, the status, the fields and the body."""
        try:
            return [self.sent(*(self.answered() or (200, "")))]
        except Ended as end:
            return end.answers

    def answered(self):
        try:
            return self.made(self.routes(self.server.get("routes") or [], lambda: None))
        except Failed as first:
            return self.made(self.after_error(first))

    def after_error(self, first):
        errors, fields = self.server.get("errors"), list(self.scene.answer)
        self.scene.deferred = []
        if errors is None:
            return first.status, ""
        self.scene.begin()
        self.scene.error = first
        try:
            return self.routes(errors.get("routes") or [], lambda: None) or (first.status, "")
        except Failed:
            if "fields of errors" not in self.like:
                self.scene.answer = fields
            return first.status, ""

    def made(self, answer):
        """The answer, once the deferred changes are made to it."""
        if answer is None and "no answer" in self.like:
            return answer
        for change in reversed(self.scene.deferred):
            change()
        return answer

    def sent(self, status, body):
        scene = self.scene
        if "guess" in self.like and body and not scene.has("content-type") and status not in (204, 304):
            scene.answer.append(("Content-Type", "text/plain; charset=utf-8"))
        if "304" in self.like and status == 304:
            scene.answer = [it for it in scene.answer if lower(it[0]) != "content-type"]
        fields = [(name, re.sub("[\x00-\x08\x0a-\x1f\x7f]", " ", value).strip(" \t")) for name, value in scene.answer]
        fields += [("Connection", "close")] if self.closes else []
        return "1.1", status, fields, "" if self.request.method == "HEAD" or status in (204, 304) else body

    def routes(self, routes, then):
        for at, route in enumerate(routes):
            group = route.get("group")
            if group is not None and group in self.scene.groups or not holds(route.get("match"), self.scene):
                continue
            if group is not None:
                self.scene.groups.add(group)
            rest = (lambda: None) if route.get("terminal") else lambda: self.routes(routes[at + 1:], then)
            return self.handlers(route.get("handle") or [], rest)
        return then()

    def handlers(self, handlers, then):
        if not handlers:
            return then()
        first, rest = handlers[0], lambda: self.handlers(handlers[1:], then)
        if first["handler"] not in HANDLERS:
            raise Unmodelled(first["handler"])
        return HANDLERS[first["handler"]](self, first, rest)

    # ---- Handlers

    def static_response(self, of, then):
        scene = self.scene
        status = self.status(of.get("status_code"), scene.error.status if scene.error else 200)
        self.set_fields(of.get("headers") or {})
        written = text(of.get("body") or "")
        body = scene.fill(written)
        self.closes = self.closes or of.get("close") is True
        if body and not scene.has("content-type"):
            scene.replace("Content-Type", ["application/json" if self.is_json(written, body) else "text/plain; charset=utf-8"])
        if 100 <= status < 200:
            raise Ended([("1.1", status, list(scene.answer), ""), self.sent(200, body)])
        if status > 999:
            raise Ended()
        return status, body

    def set_fields(self, fields):
        """The fields of a `static_response` take the place of those that are there."""
        made = []
        for name, values in sorted(fields.items()):
            if name != "@id":
                made.append((text(name), [self.scene.fill(text(it), unknown=self.scene.known()) for it in values or []]))
        if "letters" in self.like:
            names = {name for name, _ in made}
            self.scene.answer = [it for it in self.scene.answer if it[0] not in names]
            self.scene.answer += [(name, value) for name, values in made for value in values]
            return
        for name, values in made:
            self.scene.replace(name, values)

    def is_json(self, written, body):
        if "JSON" not in self.like:
            return is_json(body)
        try:
            return len(written) > 2 and isinstance(json.loads(written.encode("latin-1")), (list, dict))
        except ValueError:
            return False

    def status(self, given, otherwise):
        if given is None:
            return otherwise
        filled = self.scene.fill(text(str(given)), unknown=self.scene.known() if "statuses" in self.like else None)
        if "statuses" not in self.like:
            if not re.fullmatch("[2-9][0-9]{2}", filled):
                raise Failed(500)
            return int(filled)
        if not re.fullmatch("[+-]?[0-9]+", filled):
            raise Failed(500, f'strconv.Atoi: parsing "{filled}": invalid syntax')
        return int(filled)

    def headers(self, of, then):
        request, response = of.get("request"), of.get("response")
        if response and "request first" not in self.like:
            response = self.filled(response)
        if request:
            if any(lower(text(it)) == "host" for kind in ("add", "set") for it in request.get(kind) or {}):
                raise Unmodelled("a change of Host")
            self.scene.fields = [(lower(name), value) for name, value in self.changed(self.scene.fields, self.filled(request))]
        if response and response.get("deferred"):
            self.scene.deferred.append(self.deferred_change(response))
        elif response:
            self.change_answer(self.filled(response) if "request first" in self.like else response)
        return then()

    def deferred_change(self, response):
        if "deferred" in self.like:
            return lambda: self.change_answer(self.filled(response))
        made = self.filled(response)
        return lambda: self.change_answer(made)

    def change_answer(self, response):
        self.scene.answer = self.changed(self.scene.answer, response)

    def filled(self, changes):
        """The changes with their values filled."""
        if "@filled" in changes:
            return changes
        def of(values):
            return [self.scene.fill(text(it), unknown=self.scene.known()) for it in values or []]

        made = {kind: {text(name): of(values) for name, values in (changes.get(kind) or {}).items() if name != "@id"} for kind in ("add", "set")}
        patterns = [text(it) for it in changes.get("delete") or []]
        made["delete"] = [self.scene.fill(it, unknown="") for it in patterns] if "deletions" in self.like else patterns
        return {**made, "deferred": changes.get("deferred"), "@filled": True}

    def changed(self, fields, changes):
        patterns = [lower(it) for it in changes["delete"]]
        if "*" in patterns:
            if "all fields" in self.like:
                raise Ended()
            fields = []
        fields = list(fields)
        for name, values in sorted(changes["add"].items()):
            fields += [(name, it) for it in values]
        for name, values in sorted(changes["set"].items()):
            fields = [it for it in fields if lower(it[0]) != lower(name)]
            values = [",".join(values)] if "joined" in self.like and len(values) > 1 else values
            fields += [(name, it) for it in values]
        others = [it for it in patterns if it != "*"]
        return [it for it in fields if not any(fits(lower(it[0]), pattern) for pattern in others)]

    def vars(self, of, then):
        for name in sorted(set(of) - {"handler", "@id"}):
            value = of[name]
            if value is not None:
                self.scene.variables[text(name)] = self.scene.fill(text(value), unknown=self.scene.known()) if isinstance(value, str) else number(value, self.like)
        return then()

    def error(self, of, then):
        written = text(of.get("error") or "")
        message = written if "messages" in self.like else self.scene.fill(written)
        raise Failed(self.status(of.get("status_code"), 500), message)

    def subroute(self, of, then):
        errors = of.get("errors")
        if errors is None:
            return self.routes(of.get("routes") or [], then)
        kept = len(self.scene.deferred)
        try:
            return self.routes(of.get("routes") or [], then)
        except Failed as why:
            self.scene.deferred = self.scene.deferred[:kept]
            self.scene.error = why
            found = self.routes(errors.get("routes") or [], then)
            return found if found or "unanswered errors" in self.like else (why.status, "")

    def rewrite(self, of, then):
        Rewriting(self.scene, self.like).done(of)
        return then()


HANDLERS = {
    "static_response": Walk.static_response, "headers": Walk.headers, "vars": Walk.vars, "error": Walk.error,
    "subroute": Walk.subroute, "rewrite": Walk.rewrite,
}


# ---- Rewriting

KEPT = "-._~!$&'()*+,;=:@/"
KEPT_BY_GO = "-._~$&+,;=:@/"


def cleaned(path, merges):
    """A path as Go cleans it. Where its slashes are not merged, those side by side stay."""
    kept = path if merges else path.replace("//", "/\xff/").replace("//", "/\xff/")
    found = os.path.normpath("/" + kept.lstrip("/") if kept.startswith("/") else kept) if kept else "."
    found = found + "/" if found != "/" and kept.endswith("/") else found
    return found if merges else found.replace("\xff", "")


def trimmed(path, prefix):
    """The rest of an escaped path after a prefix, character by character as Go's Caddy does it. A path that ends within the prefix is
    taken for one that has it where its escapes make it long enough."""
    at = passed = 0
    while at < len(path) and passed < len(prefix):
        one = path[at]
        if one == "%" and prefix[passed] != "%" and len(path) >= at + 3:
            one, at = unescaped(path[at:at + 3]), at + 2
        if lower(one) != lower(prefix[passed]):
            return path
        at, passed = at + 1, passed + 1
    return path[at:] if at >= len(prefix) else path


def upper(given):
    """The text in upper case, of letters beyond ASCII too where it is UTF-8."""
    try:
        return given.encode("latin-1").decode().upper().encode().decode("latin-1")
    except UnicodeError:
        return given


class Rewriting:
    """The steps of one `rewrite`."""

    def __init__(self, scene, like):
        self.scene, self.like = scene, like
        self.path, self.raw, self.query, self.is_moved = scene.path, scene.raw, scene.query, False

    def fill(self, given, **how):
        if "later steps" in self.like:
            self.leave()
        return self.scene.fill(text(given), **how)

    def done(self, of):
        method = self.method(of["method"]) if of.get("method") else self.scene.method
        uri = self.target(of["uri"]) if of.get("uri") else None
        prefix, suffix = of.get("strip_path_prefix"), of.get("strip_path_suffix")
        steps = [(it["find"], it.get("replace") or "", min(it.get("limit") or 0, 2 ** 60) or -1) for it in of.get("uri_substring") or []]
        if "later steps" not in self.like:
            prefix, suffix = (None if it is None else self.fill(it) for it in (prefix, suffix))
            steps = [(self.fill(find), self.fill(replace), limit) for find, replace, limit in steps]
        if uri:
            self.move(*uri)
        self.strip(prefix, suffix)
        for find, replace, limit in steps:
            if "later steps" in self.like:
                find, replace = self.fill(find, unknown=self.scene.known()), self.fill(replace, unknown=self.scene.known())
            self.replace(find, replace, limit)
        if of.get("uri_substring") is not None and not self.path.startswith("/") and "no slash" not in self.like:
            self.path, self.raw = "/" + self.path, "/" + self.raw
        self.scene.method = method
        self.leave()

    def leave(self):
        """The scene has what the steps have made so far."""
        scene = self.scene
        moved = self.is_moved or (self.path, self.query) != (scene.path, scene.query)
        if moved and "uri" not in self.like:
            self.raw = self.encode(self.path)
        if moved or "uri" in self.like:
            mark = self.query is not None and (self.query != "" or "last mark" not in self.like) or "last mark" in self.like and scene.request.target.endswith("?") and not self.query
            scene.uri = (self.raw or ("/" if "no slash" in self.like else "")) + ("?" + (self.query or "") if mark else "")
        scene.path, scene.raw, scene.query = self.path, self.raw, self.query

    def method(self, given):
        found = upper(self.fill(given, unknown=self.scene.known()))
        if "any method" not in self.like and not re.fullmatch(r"[!#$%&'*+.^_`|~0-9A-Za-z-]+", found):
            raise Failed(500)
        return found

    def encode(self, path):
        return escaped(path, KEPT_BY_GO if "encoded" in self.like else KEPT)

    def target(self, given):
        """The path and the query that a `uri` makes; None for what stays."""
        before, mark, after = text(given).partition("?")
        path = query = None
        if before:
            kept = "unread escapes" in self.like
            value = (lambda name, it: self.scene.raw if kept and name == "http.request.uri.path" and "uri" in self.like else it)
            path = self.scene.fill(before, written=(lambda it: it) if kept else unescaped, encoded=lambda name, it: it, unknown=self.scene.known())
            if "question mark" in self.like and "?" in path:
                path, _, more = path.partition("?")
                after = after or more
            if not path.startswith("/") and "no slash" not in self.like:
                path = "/" + path
        if mark:
            query = self.made_query(after) or None
        return path, query, bool(mark)

    def made_query(self, given):
        parts = [self.part(it) for it in given.split("&")]
        return "&".join(it for it in parts if it or "ampersand" not in self.like)

    def part(self, given):
        key, sign, value = given.partition("=")
        nil = "%3Cnil%3E" if "nil" in self.like else None
        return self.scene.fill(key, encoded=self.in_query, unknown=nil) + sign + self.scene.fill(value, encoded=lambda *it: self.in_query(*it, is_value=True), unknown=nil)

    def in_query(self, name, value, is_value=False):
        if name == "http.request.uri.query" and not (is_value and "uri" in self.like):
            return value
        if "nil" in self.like and name.startswith("http.vars.") and name[10:] not in self.scene.variables:
            value = "<nil>"
        return escaped(value, "~-._ " if "encoded" in self.like else "*-._ ").replace(" ", "+")

    def move(self, path, query, has_query):
        if path is not None and path != self.path:
            self.path, self.raw, self.is_moved = path, self.encode(path), True
        if has_query:
            self.query = query

    def change(self, step, merges):
        """A step is done to the path, or to the path as it is escaped, from which the other form follows."""
        if "clean" in self.like:
            plain, step = step, lambda it: plain(cleaned(it, merges))
        if "escaped steps" in self.like:
            self.raw = step(self.raw)
            self.path = unescaped(self.raw) or step(self.path)
            self.raw = self.raw or self.encode(self.path)
        else:
            found = step(self.path)
            if found != self.path:
                self.path, self.raw, self.is_moved = found, self.encode(found), True

    def strip(self, prefix, suffix):
        bare = "bare prefix" in self.like
        if prefix is not None and not (bare and not prefix):
            prefix = self.fill(prefix) if "later steps" in self.like else prefix
            prefix = prefix if bare or prefix.startswith("/") else "/" + prefix
            self.change(lambda it: self.without_prefix(it, prefix), "//" not in prefix)
        if suffix is not None and not (bare and not suffix):
            suffix = self.fill(suffix) if "later steps" in self.like else suffix
            self.change(lambda it: self.without_suffix(it, suffix), "//" not in suffix)

    def without_prefix(self, path, prefix):
        if "escaped steps" in self.like:
            return trimmed(path, prefix)
        if not lower(path).startswith(lower(prefix)):
            return path
        rest = path[len(prefix):]
        return rest if rest.startswith("/") or "no slash" in self.like else "/" + rest

    def without_suffix(self, path, suffix):
        if not lower(path).endswith(lower(suffix)):
            return path
        found = path[:len(path) - len(suffix)] if suffix else path
        return found or ("" if "no slash" in self.like else "/")

    def replace(self, find, replace, limit):
        def step(it):
            if find:
                times = it.count(find) if limit < 0 else min(it.count(find), limit)
                if len(it) + times * (len(replace) - len(find)) > MAX_FILLED_BYTES:
                    raise Failed(500)
                return it.replace(find, replace, limit)
            return replace + "".join(one + replace for one in it) if "empty find" in self.like else it

        self.change(step, "//" not in find)
        if self.query is not None:
            self.query = step(self.query)


def walked(server, data, like=frozenset()):
    """What a request to a server comes to, None where the walk does not know it."""
    try:
        return Walk(server, Request(data), frozenset(like)).run()
    except (Unmodelled, ValueError, KeyError, RecursionError):
        return None
    except Failed:
        return None
