"""Where each row comes from, by the table in conformance_labels.txt."""
import fnmatch
import functools
import os
import re

TABLE = os.path.join(os.path.dirname(os.path.realpath(__file__)), "conformance_labels.txt")


class Label:
    """The kind of a source (`RFC`, `Caddy` or `own`), and which one it is."""

    def __init__(self, source):
        self.kind, _, self.where = source.partition(" ")
        if self.kind not in ("RFC", "Caddy", "own") or not self.where:
            raise ValueError(f"no source: {source}")

    def __str__(self):
        return f"{self.kind} {self.where}"


@functools.lru_cache(None)
def table():
    """The lines of the table: the file, what a row contains, and its label."""
    found = []
    with open(TABLE, encoding="utf-8") as file:
        for line in file:
            if line.strip() and not line.startswith("#"):
                name, _, rest = line.partition("|")
                where, _, source = rest.rpartition("|")
                found.append((name.strip(), re.compile(where.strip()), Label(source.strip())))
    return found


def label_of(row):
    """The label of a row, None where the table has none for it."""
    text = row.heading + "\n" + row.text[:20_000]
    for name, where, label in table():
        if fnmatch.fnmatch(row.file, name) and where.search(text):
            return label
    return None
