"""Proves the crates that the program needs, and builds it: with a proof, or without one. What was proved is kept in the crates' own
`out/`, also where a build was stopped."""
import fcntl
import os
import re
import shutil
import signal
import socket
import subprocess
import tempfile
import time

from sources import GIGABYTE, TOP, Costs, NotBuilt, Sources, free_disk, free_memory, in_gigabytes, minutes, processors, say, shown, write

KEPT = os.path.join(TOP, "out")
PROGRAM = os.path.join(KEPT, "caddy_run")
UNPROVED = os.path.join(KEPT, "caddy_run.unproved")
PROVED = os.path.join(KEPT, "PROVED")
LOG = os.path.join(KEPT, "build.log")
SIGNALS = (signal.SIGINT, signal.SIGTERM, signal.SIGHUP, signal.SIGQUIT)
SECONDS_BETWEEN_LINES = 60
# What one check takes of memory, and all proofs of disk.
MEMORY_OF_A_CHECK = 9 * GIGABYTE // 4
LEAST_MEMORY = 4 * GIGABYTE
LEAST_DISK = 6 * GIGABYTE
# How long an unproved build may take, in seconds.
PATIENCE = 1800


# ---- A command of the toolchain

def processes():
    """Each process of this machine: its parent, and its processor time in seconds."""
    found = {}
    for it in os.listdir("/proc"):
        if it.isdigit():
            try:
                with open(f"/proc/{it}/stat", encoding="utf-8", errors="replace") as file:
                    fields = file.read().rpartition(")")[2].split()
                found[int(it)] = (int(fields[1]), (int(fields[11]) + int(fields[12])) / os.sysconf("SC_CLK_TCK"))
            except (OSError, ValueError, IndexError):
                pass
    return found


def crates_under(root):
    """The crates that processes below this one are checking, with the processor seconds that they have taken."""
    everyone, found = processes(), {}
    below = {root}
    grown = True
    while grown:
        more = {it for it, (parent, _) in everyone.items() if parent in below} - below
        below |= more
        grown = bool(more)
    for it in below - {root}:
        try:
            with open(f"/proc/{it}/cmdline", "rb") as file:
                words = file.read().decode(errors="replace").split("\0")
        except OSError:
            continue
        if "--crate-name" in words[:-1] and os.path.basename(words[0]) == "rattle":
            name = words[words.index("--crate-name") + 1]
            found[name] = found.get(name, 0) + everyone[it][1]
    return found


def read_log():
    with open(LOG, encoding="utf-8", errors="replace") as log:
        return log.read()


def proved_in(text):
    """Each crate that a log says is proved, with the last line of its check."""
    return dict(re.findall(r"^crate (\w+): modules .*\n(?:.*\n)??(logic=proved .*)$", text, re.MULTILINE))


class Build:
    """A command of the toolchain. Its output is added to the log."""

    def __init__(self, command, folder, **environment):
        self.begun = time.time()
        how = {"cwd": folder, "env": {**os.environ, **environment}, "stdin": subprocess.DEVNULL, "stderr": subprocess.STDOUT}
        # A signal waits until the process is known. It has a session of its own, so that all that it starts can be stopped.
        signal.pthread_sigmask(signal.SIG_BLOCK, SIGNALS)
        with open(LOG, "ab") as log:
            try:
                words = ["nice", *command] if shutil.which("nice") else command
                self.process = subprocess.Popen(words, stdout=log, start_new_session=True, preexec_fn=unblock, **how)
            except OSError:
                unblock()
                raise

    def wait(self, look):
        """Waits for the command, calls `look` meanwhile, and returns its status. `look` ends the waiting by True."""
        try:
            unblock()
            while self.process.poll() is None:
                if look():
                    self.stop()
                    return 0
                time.sleep(0.5)
        except BaseException:
            self.stop()
            raise
        return self.process.returncode

    def stop(self):
        """Ends what the command has started, whatever further signals come."""
        old = {it: signal.signal(it, signal.SIG_IGN) for it in SIGNALS}
        for number in (signal.SIGTERM, signal.SIGKILL):
            try:
                os.killpg(self.process.pid, number)
                self.process.wait(10)
            except (ProcessLookupError, subprocess.TimeoutExpired):
                pass
        for it, before in old.items():
            signal.signal(it, before)


def unblock():
    signal.pthread_sigmask(signal.SIG_UNBLOCK, SIGNALS)


class Progress:
    """Says how far a build is: by what the crates cost, with what is checked now."""

    def __init__(self, costs, names, process):
        self.costs, self.names, self.process = costs, names, process
        self.begun, self.said, self.shown = time.time(), 0.0, None
        self.whole, self.most = max(1, costs.sum(names)), 0

    def __call__(self):
        done = set(proved_in(read_log())) & set(self.names)
        if self.shown == done and time.time() - self.said < SECONDS_BETWEEN_LINES:
            return False
        running = self.running(done)
        worked = self.costs.sum(done) + sum(min(spent, 0.9 * self.costs.of[it]) for it, spent in running.items())
        self.most = max(self.most, worked)
        self.shown, self.said = done, time.time()
        passed = self.said - self.begun
        left = f", about {max(1, round(passed * (self.whole / self.most - 1) / 60))} more" if passed > 90 and self.most > 0.1 * self.whole else ""
        now = ", ".join(sorted(running)) or ("a look through all sources" if not done else "")
        say(f"{100 * self.most / self.whole:3.0f} % done, {len(done)} of {len(self.names)} crates, after {minutes(passed)}{left}{'; now: ' * bool(now)}{now}")
        return False

    def running(self, done):
        """The crates that are proved now, with the processor seconds that they have taken. Before the first proof all sources are looked
        through, as if the program were checked; a crate whose libraries are not proved is none of these."""
        ready = {it for it in self.names if it not in done and not {low for low in self.costs.needed[it][1] if low in self.names} - done}
        return {it: spent for it, spent in crates_under(self.process().pid).items() if it in ready}


def failed():
    for line in read_log().rstrip("\n").split("\n")[-12:]:
        write(f"    {line[:300]}")
    raise NotBuilt(f"the build failed. Its log is {shown(LOG)}.")


# ---- A proved build

def out_of(name):
    return os.path.join(TOP, "crates", name, "out")


def is_kept(name):
    """Whether the checkout keeps the proofs of a crate."""
    return os.path.isdir(os.path.join(out_of(name), "incremental"))


def announce(costs, names, lanes):
    """Says what a first build is about to do, and looks whether the machine has what it needs."""
    memory, (disk, place) = free_memory(), free_disk()
    about = max(1, round(costs.seconds(names, lanes) / 60))
    say(f"there is no program for these sources yet: {len(names)} crates are proved, and the program is built.")
    say(f"That takes {max(1, round(costs.sum(names) / 60))} processor minutes, so about {about} minutes on the {lanes} processors that are used, and more where")
    say(f"they are slower than 2.7 GHz or busy. It wants up to {in_gigabytes(lanes * MEMORY_OF_A_CHECK)} GB of memory ({in_gigabytes(memory)} are free)")
    say(f"and {in_gigabytes(LEAST_DISK)} GB of disk ({in_gigabytes(disk)} are free at {place}).")
    say("For a first look in a minute or two, without a proof, stop this and put --unproved before the words.")
    say(f"What is proved is kept, so a build that is stopped goes on from there. The log is {shown(LOG)}")
    if os.environ.get("CADDY_RUN_FORCE") == "1":
        return
    if memory is not None and memory < LEAST_MEMORY:
        raise NotBuilt(f"{in_gigabytes(LEAST_MEMORY)} GB of free memory are needed. CADDY_RUN_FORCE=1 tries with less.")
    if disk < LEAST_DISK:
        raise NotBuilt(f"{in_gigabytes(LEAST_DISK)} GB of free disk are needed at {place}. CADDY_RUN_FORCE=1 tries with less.")


def lanes_here():
    """How many crates are checked side by side: one for each processor, as many as memory holds."""
    memory = free_memory()
    return max(1, min(processors(), 4, processors() if memory is None else memory // MEMORY_OF_A_CHECK))


def build_in_copy(rt, sources):
    """Proves a copy of the crates that the program needs, several side by side, and builds the program over that. Then the checkout
    gets the proofs, also where it was stopped: of the crates that it had none of."""
    costs, lanes = Costs(sources.needed), lanes_here()
    missing = [it for it in sources.needed if not is_kept(it)]
    announce(costs, missing, lanes)
    room = tempfile.mkdtemp(prefix="caddy_run-")
    copy = os.path.join(room, "copy")
    try:
        os.chmod(room, 0o711)
        rest = os.path.join(room, "rest")
        os.makedirs(os.path.join(copy, ".git"))
        os.mkdir(rest)
        shutil.copy2(os.path.join(TOP, "HANDLES"), copy)
        with open(os.path.join(copy, "crates.txt"), "w", encoding="utf-8") as file:
            file.writelines(line for line, _ in sources.needed.values())
        for name in sources.needed:
            skipped = shutil.ignore_patterns("must-fail", *["out"] * (not is_kept(name)))
            shutil.copytree(os.path.join(TOP, "crates", name), os.path.join(copy, "crates", name), ignore=skipped)
        check = Build([rt, "all", "check", "--jobs", str(lanes)], copy, TMPDIR=rest)
        if check.wait(Progress(costs, missing, lambda: check.process)):
            failed()
        make_program(rt, os.path.join(copy, "crates", "caddy_run"), TMPDIR=rest)
    finally:
        keep_proofs(copy, missing)
        shutil.rmtree(room, ignore_errors=True)


def keep_proofs(copy, names):
    """Moves what was proved in the copy to the checkout, for crates of which it keeps nothing."""
    done = proved_in(read_log()) if os.path.exists(LOG) else {}
    for name in names:
        made = os.path.join(copy, "crates", name, "out")
        if name not in done or is_kept(name) or not os.path.isdir(os.path.join(made, "incremental")):
            continue
        try:
            os.makedirs(out_of(name), exist_ok=True)
            for part in ("rlib", "incremental"):
                if os.path.isdir(os.path.join(made, part)):
                    shutil.rmtree(os.path.join(out_of(name), part), ignore_errors=True)
                    shutil.move(os.path.join(made, part), os.path.join(out_of(name), part))
        except OSError as why:
            shutil.rmtree(os.path.join(out_of(name), "incremental"), ignore_errors=True)
            say(f"the proofs of {name} could not be kept: {why}")


def build_over_kept(rt, sources):
    """Goes on from the proofs that this checkout keeps of earlier checks."""
    say(f"building the program over the proofs that this checkout keeps. The log is {shown(LOG)}")
    make_program(rt, os.path.join(TOP, "crates", "caddy_run"))


def make_program(rt, folder, **environment):
    """Builds the program in the folder of its crate, over what is proved. `build` is a word that it does not know: what was built says
    how it is used, and ends."""
    say("building the program")
    begun = len(read_log())
    build = Build([rt, "run", "--", "build"], folder, **environment)
    since = time.time()

    def look():
        nonlocal since
        if time.time() - since > SECONDS_BETWEEN_LINES:
            since = time.time()
            now = sorted(crates_under(build.process.pid))
            say(f"building the program, {minutes(since - build.begun)}{'; now: ' + ', '.join(now) if now else ''}")
        return False

    build.wait(look)
    if not re.search("^usage: caddy_run", read_log()[begun:], re.MULTILINE):
        failed()
    put(os.path.join(folder, "out", "caddy_run"), PROGRAM)


def put(made, program):
    """Puts the new program in the place of the old one. There is one at every moment."""
    shutil.copy2(made, f"{program}.new")
    if os.path.exists(f"{program}.digest"):
        os.remove(f"{program}.digest")
    os.replace(f"{program}.new", program)


def proved_before():
    """What PROVED says of each crate: its digest, and the last line of its check."""
    found = {}
    try:
        with open(PROVED, encoding="utf-8") as file:
            for line in file:
                words = line.rstrip("\n").split(" ", 2)
                if len(words) == 3 and len(words[1]) == 64:
                    found[words[0]] = (words[1], words[2])
    except OSError:
        pass
    return found


def keep_proved(sources):
    """Says in PROVED when and by what each crate was proved."""
    new, old = proved_in(read_log()), proved_before()
    lines = [f"proved on {time.strftime('%Y-%m-%d at %H:%M UTC', time.gmtime())}", f"by {sources.kit}", f"from {sources.digest}"]
    for name in sorted(sources.needed):
        digest = sources.digests[name]
        if name in new:
            said = " ".join(re.findall(r"\b(?:functions|sum)=\S+", new[name]))
        elif name in old and old[name][0] == digest:
            said = old[name][1]
        else:
            said = "proved in this checkout before"
        lines.append(f"{name} {digest} {said}")
    with open(f"{PROVED}.new", "w", encoding="utf-8") as file:
        file.write("\n".join(lines) + "\n")
    os.replace(f"{PROVED}.new", PROVED)


def build(sources):
    rt = begin_build(sources)
    if all(is_kept(it) for it in sources.needed):
        build_over_kept(rt, sources)
    else:
        build_in_copy(rt, sources)
    end_build(sources, PROGRAM)
    keep_proved(sources)


# ---- An unproved build

def build_unproved(sources):
    """`rt try` builds the program without a proof, and keeps no file. So it is let serve an address that nobody else has, and is copied
    while it runs."""
    rt = begin_build(sources)
    say(f"making a build without a proof, which takes a minute or two where a processor is free. The log is {shown(LOG)}")
    room = tempfile.mkdtemp(prefix="caddy_run-")
    folder = os.path.join(TOP, "crates", "caddy_run")
    made = []
    try:
        with socket.create_server(("127.0.0.1", 0)) as it:
            port = it.getsockname()[1]
        config = os.path.join(room, "first.json")
        with open(config, "w", encoding="ascii") as file:
            file.write(f'{{"admin":{{"listen":"127.0.0.1:{port}"}}}}')

        since = time.time()

        def look():
            nonlocal since
            if time.time() - since > SECONDS_BETWEEN_LINES:
                since = time.time()
                say(f"making a build without a proof, {minutes(since - sources.seen)}")
            for it in made or programs_below(room):
                if "serving initial configuration" in said_by(it):
                    made[:] = [it]
                    put(it, UNPROVED)
                    return True
            return False

        words = ["try", "--steps", "1", "--seconds", str(PATIENCE), "--data", f"first.json={config}", "--", "run", "--config", "first.json"]
        Build([rt, *words], folder, TMPDIR=room).wait(look)
        if not made:
            failed()
    finally:
        shutil.rmtree(room, ignore_errors=True)
    end_build(sources, UNPROVED)


def programs_below(room):
    """The programs that `rt try` runs."""
    return [os.path.join(it, "program") for it, _, files in os.walk(room) if "program" in files and "stdout" in files]


def said_by(program):
    try:
        with open(os.path.join(os.path.dirname(program), "stdout"), encoding="utf-8", errors="replace") as file:
            return file.read()
    except OSError:
        return ""


# ---- Both

def begin_build(sources):
    rt = shutil.which("rt")
    if rt is None:
        raise NotBuilt("the program has to be proved and built, and rt, the command of the toolchain that does so, is not on the PATH.")
    with open(LOG, "w", encoding="utf-8") as log:
        log.write(f"{time.strftime('%Y-%m-%d %H:%M:%S')} {sources.kit}\n")
    return rt


def end_build(sources, program):
    if Sources().digest != sources.digest:
        raise NotBuilt("the sources changed while they were built: start it again.")
    sources.keep(program)
    say(f"built in {minutes(time.time() - sources.seen)}: {shown(program)}")


def have(program, make):
    """Builds the program unless it is there."""
    sources = Sources()
    if sources.is_built(program):
        return
    os.makedirs(KEPT, exist_ok=True)
    for it in SIGNALS:
        if signal.getsignal(it) != signal.SIG_IGN:
            signal.signal(it, interrupted)
    with open(os.path.join(KEPT, "lock"), "w", encoding="ascii") as lock:
        try:
            fcntl.flock(lock, fcntl.LOCK_EX | fcntl.LOCK_NB)
        except OSError:
            say("another start is building the program: waiting for it")
            fcntl.flock(lock, fcntl.LOCK_EX)
            sources = Sources()
        if not sources.is_built(program):
            make(sources)


def interrupted(_signal, _frame):
    raise NotBuilt("the build was interrupted.")
