"""The same walk by the rules of Caddy 2.6.2, each of which may be followed or not."""
import json
import os
import re

from site_walk import Scene, Site, Sites, escaped, fits, form_encoded, lower, unescaped

RULES = {
    "sites": "the sites of a port are tried by their hosts: those without a star first, of these the longer ones, `*` with those without a host",
    "order": "directives of one name are sorted: a longer path first, one without a matcher last; `vars` the other way round",
    "neighbours": "directives side by side with equal matchers are one route, so both of two `rewrite` or `handle` are done",
    "no answer": "deletions are not done where no directive answers",
    "guess": "where Content-Type was deleted, it is guessed from the body",
    "empty type": "an empty Content-Type is none to `respond` and `redir`",
    "304": "an answer of 304 has no Content-Type",
    "JSON": "the type of a body is told by its text before it is filled, by the whole of JSON; `{}` and `[]` are text",
    "all": "`header -*` ends the connection without an answer",
    "clean": "paths are cleaned before they are compared; a pattern with an escape is compared with the escaped path",
    "question": "a `?` in the pattern of a path stands for any byte but `/`",
    "patterns": "placeholders in patterns are filled",
    "query": "`query` holds where the first value of one of its keys fits",
    "names": "names of fields in `header` tests that differ in case are one",
    "escapes": "escapes in the text of `rewrite` are not read, but those that `{uri}` puts into the path are",
    "mark": "what follows a `?` that a placeholder of `rewrite` puts into the path is dropped, or is the query where the text ends in `?`",
    "last mark": "a `?` at the end of the target stays in the uri after a `rewrite`",
    "ampersand": "`rewrite` leaves out an `&` where nothing is before or after it",
    "query as value": "`{query}` after a `=` of `rewrite` is encoded",
    "slash": "a path without `/` that `rewrite` makes stays so",
    "uri": "`!'()*` of a path that was rewritten are escaped in the uri, and `~` in a query is not",
    "unset": "a variable that is not set, and an unknown placeholder, is `<nil>` in the query of `rewrite`",
    "unknown": "an unknown placeholder of `vars`, `redir` and `rewrite` is empty",
    "bytes": "what is no UTF-8 in a query stays",
    "control": "control bytes but CR and LF are sent as they are",
    "brackets": "`{host}` of a host in brackets without a port has the brackets",
    "limit": "a filled text has any length",
}


def cleaned(path):
    path = path.rstrip(". ")
    found = os.path.normpath("/" + path.lstrip("/") if path.startswith("/") else path)
    return found + "/" if path.endswith("/") and found != "/" else found


class SceneOfCaddy(Scene):
    def __init__(self, request, like):
        super().__init__(request)
        self.like = like

    def pairs(self):
        if "bytes" not in self.like:
            return super().pairs()
        parts = [it.replace("+", " ").partition("=") for it in (self.query or "").split("&") if it]
        return [(unescaped(key), unescaped(value)) for key, _, value in parts]

    def value(self, name):
        if name == "http.request.host" and "brackets" in self.like and self.host.endswith("]"):
            return self.host
        return super().value(name)

    def known(self, text):
        """The text without unknown placeholders. A name may have a brace that opens."""
        return re.sub(r"\{([^}]*)\}", lambda it: "" if self.value(it[1]) is None else it[0], text) if "unknown" in self.like else text

    def limited(self, text):
        return text if "limit" in self.like else super().limited(text)

    def rewrite(self, to):
        before, mark, after = to.partition("?")
        path, query, uri = self.path, self.query, self.path + ("?" + self.query if self.query else "")
        if before:
            if "escapes" in self.like:
                path = self.fill(self.known(before), encoded=lambda name, value: uri if name == "http.request.uri" else value)
            else:
                path = self.fill(self.known(before), written=unescaped)
            path = path if path.startswith("/") or "slash" in self.like else "/" + path
            if "mark" in self.like:
                path, _, more = path.partition("?")
                after = after or more
        if mark:
            parts = [self.part(it) for it in after.split("&")]
            query = "&".join(it for it in parts if it or "ampersand" not in self.like) or None
        self.move(path, query)

    def part(self, text):
        if "unset" in self.like:
            text = re.sub(r"\{([^}]*)\}", lambda it: "%3Cnil%3E" if self.value(it[1]) is None else it[0], text)
        key, sign, value = text.partition("=")
        return self.fill(self.known(key), encoded=self.encoded) + sign + self.fill(self.known(value), encoded=lambda *it: self.encoded(*it, is_value=True))

    def encoded(self, name, value, is_value=False):
        if name == "http.request.uri.query" and not (is_value and "query as value" in self.like):
            return value
        if name.startswith("http.vars.") and name[10:] not in self.variables and "unset" in self.like:
            value = "<nil>"
        return escaped(value, "~-._ ").replace(" ", "+") if "uri" in self.like else form_encoded(value)

    def move(self, path, query):
        super().move(path, query)
        if (path, query) != self.first[1:]:
            if "uri" in self.like:
                self.uri = escaped(path, "-._~$&+,;=:@/") + ("" if query is None else "?" + query)
            if "last mark" in self.like and self.first[2] == "" and query is None:
                self.uri += "?"

    def respond(self, status, body):
        there = [value for field, value in self.answer if field == "content-type"]
        if "empty type" in self.like and there[:1] == [""]:
            self.answer, there = [it for it in self.answer if it[0] != "content-type"], []
        if "JSON" in self.like and body and not there:
            try:
                found = len(self.text) > 2 and isinstance(json.loads(self.text.encode("latin-1")), (list, dict))
            except ValueError:
                found = False
            self.replace("content-type", "application/json" if found else "text/plain; charset=utf-8")
        return super().respond(status, body)

    def end(self, answer):
        if "all" in self.like and answer and "*" in self.deletions:
            self.answer = []
            return None, ""
        if "no answer" in self.like and not answer:
            self.deletions = []
        status, body = super().end(answer)
        types = any(name == "content-type" for name, _ in self.answer)
        if "304" in self.like and status == 304:
            self.answer = [it for it in self.answer if it[0] != "content-type"]
        elif "guess" in self.like and body and not types and status not in (204, 304):
            binary = re.search("[\x00-\x08\x0b\x0e-\x1a\x1c-\x1f]", body[:512])
            self.replace("content-type", "application/octet-stream" if binary else "text/plain; charset=utf-8")
        return status, body


class SiteOfCaddy(Site):
    def __init__(self, site, like):
        super().__init__(site.host, site.port, site.source)
        self.like = like

    def tests(self, matcher):
        found = super().tests(matcher)
        if "names" in self.like and found:
            merged = {}
            for (kind, key), values in found.items():
                merged.setdefault((kind, lower(key) if kind == "header" else key), []).extend(values)
            return merged
        return found

    def holds(self, matcher, scene):
        tests = self.tests(matcher) or {}
        queries = {key: values for (kind, key), values in tests.items() if kind == "query"}
        if "query" not in self.like or not queries:
            return super().holds(matcher, scene)
        first = dict(reversed(scene.pairs()))
        held = any(key in first and (first[key] in values or "*" in values) for key, values in queries.items())
        return held and all(self.test(kind, key, values, scene) for (kind, key), values in tests.items() if kind != "query")

    def test(self, kind, key, values, scene):
        if "patterns" in self.like:
            values = [scene.fill(scene.known(it)) for it in values]
        if kind == "path" and "clean" in self.like:
            path, whole = lower(cleaned(scene.path)), lower(escaped(scene.path, "/"))
            return any(self.fits(whole if "%" in it else path, lower(it)) for it in values)
        if kind == "path":
            return any(self.fits(lower(scene.path), lower(it)) for it in values)
        return super().test(kind, key, values, scene)

    def fits(self, path, pattern):
        one = "question" in self.like and "*" not in pattern and re.fullmatch(re.escape(pattern).replace(r"\?", "[^/]"), path)
        return one or fits(path, pattern)

    def directives(self, lines):
        found = super().directives(lines)
        for end in range(1, len(found)) if "order" in self.like else []:
            while end and self.comes_first(found[end], found[end - 1]):
                found[end - 1:end + 1] = found[end], found[end - 1]
                end -= 1
        return found

    def comes_first(self, one, other):
        tests = [self.tests(it[1]) for it in (one, other)]
        if one[0] == "vars":
            tests.reverse()
        paths = [(it or {}).get(("path", ""), []) for it in tests]
        if one[0] != other[0]:
            return False
        if len(paths[0]) == len(paths[1]) == 1:
            return len(paths[0][0]) > len(paths[1][0])
        return tests[0] is not None and tests[1] is None

    def is_done(self, directives, done, scene):
        def route(directive):
            name, matcher = directive[:2]
            grouped = name == "rewrite" or name == "handle" and sum(it[0] == name for it in directives) > 1
            return self.tests(matcher), grouped and name

        if "neighbours" in self.like and done and route(directives[len(done) - 1]) == route(directives[len(done)]):
            return done[-1]
        return super().is_done(directives, done, scene)


    def do(self, name, rest, block, scene):
        if name == "vars":
            rest = [rest[0], scene.known(rest[1])]
        elif name == "redir":
            rest = [scene.known(rest[0])] + rest[1:]
        elif name == "respond":
            scene.text = rest[0] if rest else ""
        return super().do(name, rest, block, scene)


class SitesOfCaddy(Sites):
    def __init__(self, sites, like):
        super().__init__([SiteOfCaddy(it, like) for it in sites])
        self.like = like

    def scene(self, request):
        return SceneOfCaddy(request, self.like)

    def there(self, port):
        found = [it for it in self.sites if it.port == port]
        if "sites" not in self.like:
            return super().there(port)
        return sorted(found, key=lambda it: (False, "*" in it.host, -len(it.host.replace("*", ""))) if it.host not in (None, "*") else (True,))

    def sent(self, value):
        return value.replace("\r", " ").replace("\n", " ").strip(" \t") if "control" in self.like else super().sent(value)
