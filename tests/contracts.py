"""Reads the contracts, records, constants and edits of the crates. `list_promises` prints them, and `promises` looks that the pages
name no others."""
import os
import re

TOP = os.path.dirname(os.path.dirname(os.path.realpath(__file__)))
CRATES = os.path.join(TOP, "crates")

FUNCTION = re.compile(r"^\s*(pub )?(?:const )?(?:unsafe )?fn (\w+)")
OWNER = re.compile(r"^(?:pub )?(?:unsafe )?(impl|trait)\b(.*)")
CLAUSE = re.compile(r"^\s*(requires|ensures)\b\s*(\w+)?\s*\{")
DOC = re.compile(r"^\s*/// ?(.*)")
CONSTANT = re.compile(r"^\s*(?:pub(?:\(\w+\))? )?const ([A-Z][A-Z0-9_]*)\s*:[^=]*=\s*([^;]*);")
RECORD = re.compile(r"^\s*pub (?:open )?record (\w+)")
DERIVE = re.compile(r"^\s*#\[derive\((.*)\)\]")
TYPE = re.compile(r"^(?:pub(?:\(\w+\))? )?(?:struct|enum) (\w+)")
IMPL = re.compile(r"^(?:unsafe )?impl\b.*?\b(Drop|Copy|Clone)\b.* for (?:\w+::)*(\w+)")
MEMBER = re.compile(r"^\s+(?:pub )?(\w+) :")


class Call:
    """A function with its contract."""

    def __init__(self, crate, file, owner, name, public, about):
        self.crate, self.file, self.owner, self.name, self.public, self.about = crate, file, owner, name, public, about
        self.asked, self.promised = [], []

    def clauses(self):
        return set(self.asked + self.promised)

    def full_name(self):
        return f"{self.owner}::{self.name}" if self.owner else self.name


def lines_of(path):
    with open(path, encoding="utf-8") as file:
        return file.read().split("\n")


def files_below(folder, ending):
    found = []
    for place, folders, files in os.walk(folder):
        folders[:] = sorted(it for it in folders if it != "out")
        found += [os.path.join(place, it) for it in sorted(files) if it.endswith(ending)]
    return found


def crate_names():
    return sorted(it for it in os.listdir(CRATES) if os.path.isdir(os.path.join(CRATES, it, "src")))


def owner_of(kind, rest):
    """The type that an `impl` is for, or the name of a trait."""
    if kind == "impl":
        while rest.startswith("<"):
            depth, at = 0, 0
            for at, it in enumerate(rest):
                depth += (it == "<") - (it == ">" and rest[at - 1] != "-")
                if depth == 0:
                    break
            rest = rest[at + 1:]
        rest = rest.rpartition(" for ")[2]
    name = re.match(r"\s*&?(?:'\w+ )?(?:\w+::)*(\w+)", rest)
    return name.group(1) if name else ""


def calls_of(crate):
    """Each function of a crate, in the order of its files."""
    found = []
    for path in files_below(os.path.join(CRATES, crate, "src"), ".rt"):
        owner, call, about, trait = "", None, "", False
        for line in lines_of(path):
            if it := OWNER.match(line):
                owner, call, trait = owner_of(it.group(1), it.group(2)), None, it.group(1) == "trait"
            elif line.startswith("}"):
                owner, call = "", None
            elif it := DOC.match(line):
                about = f"{about}{it.group(1)} " if it.group(1) or not about else f"{about}\n"
                continue
            elif it := FUNCTION.match(line):
                held = owner if line.startswith(" ") else ""
                call = Call(crate, path, held, it.group(2), bool(it.group(1)) or (trait and bool(held)), about.partition("\n")[0].strip())
                found.append(call)
            elif call and (it := CLAUSE.match(line)):
                (call.asked if it.group(1) == "requires" else call.promised).append(it.group(2) or "..")
            if line.strip() and not line.lstrip().startswith("#["):
                about = ""
    return found


def records_of(crate):
    """Each record of the definitions of a crate, with its members."""
    found = {}
    for path in files_below(os.path.join(CRATES, crate, "specs"), ".antt"):
        name, depth = None, 0
        for line in lines_of(path):
            if it := RECORD.match(line):
                name, depth = it.group(1), len(line) - len(line.lstrip())
                found.setdefault(name, set())
            elif line.strip() and not line.lstrip().startswith("--") and len(line) - len(line.lstrip()) <= depth:
                name = None
            elif name and (it := MEMBER.match(line)):
                found[name].add(it.group(1))
    return found


def derived_by(crate):
    """Each type of a crate, with the names of the traits that it derives, and of Drop, Copy and Clone where it has an `impl`."""
    found = {}
    for path in files_below(os.path.join(CRATES, crate, "src"), ".rt"):
        derived = set()
        for line in lines_of(path):
            if it := DERIVE.match(line):
                derived |= {name.strip() for name in it.group(1).split(",")}
            elif it := TYPE.match(line):
                found.setdefault(it.group(1), set()).update(derived)
                derived = set()
            elif it := IMPL.match(line):
                found.setdefault(it.group(2), set()).add(it.group(1))
            elif not line.lstrip().startswith(("#[", "//")):
                derived = set()
    return found


def constants_of(crate):
    """Each constant of a crate, with the text of its value."""
    found = {}
    for path in files_below(os.path.join(CRATES, crate, "src"), ".rt"):
        for line in lines_of(path):
            if it := CONSTANT.match(line):
                found[it.group(1)] = it.group(2).strip()
    return found


def edits_of(crate):
    """The names of the mistakes that the gate tries against a crate, each with the file that it changes."""
    folder, found = os.path.join(CRATES, crate, "must-fail"), []
    if os.path.isdir(folder):
        for name in sorted(it for it in os.listdir(folder) if it.endswith(".edit")):
            changed = [it.partition(":")[2].strip() for it in lines_of(os.path.join(folder, name)) if it.startswith("file:")]
            found.append((name[:-len(".edit")], ", ".join(changed)))
    return found


def libraries():
    """Each crate of crates.txt, in its order, with what it uses."""
    found = {}
    for line in lines_of(os.path.join(TOP, "crates.txt")):
        name, colon, uses = line.partition("#")[0].partition(":")
        if colon:
            found[name.split()[0]] = uses.split()
    return found


def needed_by(crate):
    """The crates of this repository that a crate needs, itself among them."""
    all_of, needed, waiting = libraries(), set(), [crate]
    while waiting:
        name = waiting.pop()
        if name in all_of and name not in needed:
            needed.add(name)
            waiting += all_of[name]
    return needed
