"""The sources of the program, the toolchain, what this machine has, and what proofs cost."""
import hashlib
import os
import re
import shutil
import subprocess
import sys
import tempfile
import time

TOP = os.path.dirname(os.path.dirname(os.path.realpath(__file__)))
PARTS = ("src", "specs", "proofs")
GIGABYTE = 1 << 30


class NotBuilt(Exception):
    """Why there is no program for these sources."""


def write(text):
    """Writes a line on standard error, where there is one and somebody reads it."""
    try:
        if sys.stderr is not None:
            print(text, file=sys.stderr, flush=True)
    except OSError:
        pass


def say(text):
    write(f"caddy_run: {text}")


def shown(path):
    """A path as a user at this folder would write it."""
    short = os.path.relpath(path)
    return path if short.startswith("../..") else short


def minutes(seconds):
    return f"{int(seconds) // 60}:{int(seconds) % 60:02} min"


# ---- Sources

def needed_crates():
    """Each crate that the program needs, with its line in crates.txt and the crates of this repository that it uses."""
    lines = {}
    with open(os.path.join(TOP, "crates.txt"), encoding="utf-8") as file:
        for line in file:
            name, colon, libraries = line.partition("#")[0].partition(":")
            if colon:
                lines[name.split()[0]] = (line, libraries.split())
    needed, waiting = {}, ["caddy_run"]
    while waiting:
        name = waiting.pop()
        if name not in needed:
            line, libraries = lines[name]
            needed[name] = (line, [it for it in libraries if it in lines])
            waiting.extend(needed[name][1])
    return needed


def toolchain():
    """The one line that identifies the toolchain on the PATH, or None where there is none."""
    rt = shutil.which("rt")
    if rt is None:
        return None
    try:
        with open(os.path.join(os.path.dirname(os.path.dirname(os.path.realpath(rt))), "KIT-ID"), encoding="utf-8") as file:
            return file.readline().strip()
    except OSError:
        said = subprocess.run([rt, "version"], stdout=subprocess.PIPE, stderr=subprocess.DEVNULL, text=True, check=False)
        return said.stdout.strip() or "unknown"


def digests_of(needed):
    """A digest of each crate that the program is made of."""
    found = {}
    for name in sorted(needed):
        made = hashlib.sha256(" ".join(needed[name][0].split()).encode())
        for part in PARTS:
            for folder, folders, files in os.walk(os.path.join(TOP, "crates", name, part)):
                folders.sort()
                for file in sorted(files):
                    path = os.path.join(folder, file)
                    with open(path, "rb") as source:
                        content = hashlib.sha256(source.read()).hexdigest()
                    made.update(f"{os.path.relpath(path, TOP)} {content}\n".encode())
        found[name] = made.hexdigest()
    return found


def digest_of(digests):
    """A digest of all sources of the program."""
    made = hashlib.sha256()
    with open(os.path.join(TOP, "HANDLES"), "rb") as file:
        made.update(file.read())
    for name in sorted(digests):
        made.update(f"{name} {digests[name]}\n".encode())
    return made.hexdigest()


class Sources:
    """The sources as they are now, and the toolchain."""

    def __init__(self):
        self.seen = time.time()
        self.needed = needed_crates()
        self.digests = digests_of(self.needed)
        self.digest = digest_of(self.digests)
        self.kit = toolchain()

    def is_built(self, program):
        """Whether the program was built from them, by this toolchain. Its digest then counts as new, so that the next start is quick."""
        try:
            with open(f"{program}.digest", encoding="utf-8") as file:
                digest, kit = (file.read().split("\n") + [""])[:2]
        except OSError:
            return False
        if digest != self.digest or self.kit not in (None, kit) or not os.access(program, os.X_OK):
            return False
        self.mark(program)
        return True

    def mark(self, program):
        """What changes after the sources were read is newer than this file."""
        try:
            os.utime(f"{program}.digest", (self.seen - 1, self.seen - 1))
        except OSError:
            pass

    def keep(self, program):
        with open(f"{program}.digest.new", "w", encoding="utf-8") as file:
            file.write(f"{self.digest}\n{self.kit}\n")
        os.replace(f"{program}.digest.new", f"{program}.digest")
        self.mark(program)


# ---- What the machine has

def processors():
    return len(os.sched_getaffinity(0))


def number_in(path, form):
    try:
        with open(path, encoding="ascii") as file:
            found = re.search(form, file.read(), re.MULTILINE)
            return int(found.group(1)) if found else None
    except (OSError, ValueError):
        return None


def free_memory():
    """Free memory in bytes, within the limit of the control group, or None."""
    free = number_in("/proc/meminfo", r"^MemAvailable:\s+(\d+)")
    free = None if free is None else free * 1024
    limit = number_in("/sys/fs/cgroup/memory.max", r"^(\d+)")
    held = number_in("/sys/fs/cgroup/memory.current", r"^(\d+)")
    if limit is not None and held is not None:
        free = min(it for it in (free, limit - held) if it is not None)
    return free


def free_disk():
    """The place with least free space among those that a build writes to, and how much it has."""
    places = {tempfile.gettempdir(), TOP}
    return min((shutil.disk_usage(it).free, it) for it in places)


def in_gigabytes(count):
    return "unknown" if count is None else str(round(count / GIGABYTE))


def costs():
    """What the proof of each crate costs, in processor seconds."""
    found = {}
    with open(os.path.join(TOP, "contrib", "costs.txt"), encoding="utf-8") as file:
        for line in file:
            words = line.partition("#")[0].split()
            if len(words) == 2:
                found[words[0]] = int(words[1])
    return found


class Costs:
    """What is to be proved, in processor seconds."""

    def __init__(self, needed):
        known = costs()
        usual = sum(known.values()) // max(1, len(known))
        self.needed = needed
        self.of = {it: known.get(it, usual) for it in needed}

    def sum(self, names):
        return sum(self.of[it] for it in names)

    def chain(self, names):
        """The costliest chain of crates that wait for one another."""
        behind = {}

        def of(name):
            if name not in behind:
                behind[name] = self.of[name] * (name in names) + max((of(it) for it in self.needed[name][1]), default=0)
            return behind[name]

        return max(map(of, self.needed), default=0)

    def seconds(self, names, lanes):
        """How long all takes on an idle machine of the costs, with a look through all sources before and a build after."""
        return 120 + 1.05 * max(self.sum(names) / lanes, self.chain(names))
