"""Runs, builds or installs the program for the launcher. `caddy_run` at the top says which words there are.

What is printed goes to standard error. In out/ are kept: the program; its digest, which is that of its sources and of the toolchain;
PROVED, which says when, by what and from which sources each crate was proved; and the log of the build.
"""
import os
import re
import resource
import signal
import subprocess
import sys

sys.dont_write_bytecode = True
from building import PROGRAM, PROVED, UNPROVED, build, build_unproved, have  # noqa: E402
from sources import TOP, NotBuilt, Sources, say, write  # noqa: E402

UNITS = [os.path.join(TOP, "contrib", it) for it in ("caddy_run.service", "caddy_run-resume.service")]
EXAMPLE = os.path.join(TOP, "examples", "site.json")


def run(program, words):
    if program == UNPROVED:
        write("UNPROVED BUILD: no contract was checked")
    # Python ignores this signal, and the program would do so with it.
    signal.signal(signal.SIGPIPE, signal.SIG_DFL)
    # Each connection takes a descriptor: the program may have as many as the system lets it.
    _, most = resource.getrlimit(resource.RLIMIT_NOFILE)
    try:
        resource.setrlimit(resource.RLIMIT_NOFILE, (most, most))
    except (OSError, ValueError):
        pass
    # As `caddy_run` at the top does
    os.environ.setdefault("MALLOC_ARENA_MAX", "2")
    os.execv(program, ["caddy_run", *words])


# ---- Other words

def commit():
    """The commit of the checkout, where it is one."""
    words = ["git", "-C", TOP, "describe", "--always", "--dirty", "--abbrev=12"]
    try:
        said = subprocess.run(words, stdout=subprocess.PIPE, stderr=subprocess.DEVNULL, text=True, timeout=5, check=False).stdout.strip()
    except (OSError, subprocess.TimeoutExpired):
        said = ""
    return f" (commit {said.replace('-dirty', ', with changes')})" if said else ""


def first_line(path, front):
    try:
        with open(path, encoding="utf-8") as file:
            for line in file:
                if line.startswith(front):
                    return line.strip()
    except OSError:
        pass
    return None


def version():
    sources = Sources()
    print(f"caddy_run, sources {sources.digest[:12]}{commit()}")
    print(f"toolchain: {sources.kit or 'none on the PATH'}")
    when, by = first_line(PROVED, "proved on "), first_line(PROVED, "by ")
    if sources.is_built(PROGRAM) and when and first_line(PROVED, "from ") == f"from {sources.digest}":
        print(f"program: built from these sources, {when} {by}")
    elif os.access(PROGRAM, os.X_OK):
        print("program: built from other sources or by another toolchain; the next start proves and builds it anew")
    else:
        print("program: not built; the next start proves and builds it")
    if os.access(UNPROVED, os.X_OK):
        print(f"unproved build: {'of these sources' if sources.is_built(UNPROVED) else 'of other sources'}")
    return 0


def install(prefix):
    """Puts the proved program, the units and an example in place. A configuration that is there stays."""
    have(PROGRAM, build)
    program = os.path.join(prefix or "/usr/local", "bin", "caddy_run")
    units = os.path.join(prefix, "lib", "systemd", "system") if prefix else "/etc/systemd/system"
    example = os.path.join(prefix, "etc", "caddy_run", "site.json") if prefix else "/etc/caddy_run/site.json"
    record = os.path.join(prefix or "/usr/local", "share", "caddy_run", "PROVED")
    with open(PROGRAM, "rb") as file:
        place(program, file.read(), 0o755)
    for unit in UNITS:
        with open(unit, encoding="utf-8") as file:
            text = file.read().replace("/usr/local/bin/caddy_run", program).replace("/etc/caddy_run/site.json", example)
        place(os.path.join(units, os.path.basename(unit)), text.encode(), 0o644)
    with open(PROVED, "rb") as file:
        place(record, file.read(), 0o644)
    if os.path.exists(example):
        print(f"{example} (there already, and left)")
    else:
        with open(EXAMPLE, "rb") as file:
            place(example, file.read(), 0o644)
    return 0


def place(path, content, mode):
    """Writes a file by its whole, and says where."""
    os.makedirs(os.path.dirname(path), exist_ok=True)
    with open(f"{path}.new", "wb") as file:
        file.write(content)
    os.chmod(f"{path}.new", mode)
    os.replace(f"{path}.new", path)
    print(path)


def main(words):
    try:
        if words[:1] == ["version"]:
            return version()
        if words[:1] == ["install"]:
            return install(os.path.abspath(words[1]) if len(words) == 2 else "")
        if words == ["build"]:
            have(PROGRAM, build)
            return 0
        if words[:1] == ["--unproved"]:
            have(UNPROVED, build_unproved)
            run(UNPROVED, words[1:])
        have(PROGRAM, build)
        run(PROGRAM, words)
    except NotBuilt as why:
        say(f"{why} The program was not {'installed' if words[:1] == ['install'] else 'run'}.")
    except (LookupError, ValueError, OSError) as why:
        say(f"the program can't be started: {why}. It was not {'installed' if words[:1] == ['install'] else 'run'}.")
    return 127


if __name__ == "__main__":
    sys.exit(main(sys.argv[1:]))
