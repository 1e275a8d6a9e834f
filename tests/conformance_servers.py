"""A server under test, on a network of its own, and what comes on connections to it."""
import ctypes
import errno
import fcntl
import os
import random
import re
import selectors
import shutil
import signal
import socket
import struct
import subprocess
import tempfile
import time

import conformance_rows as rows
from conformance_rows import ADMIN, LOOPBACK, admin_of, compact, is_plain, tree_of

# How long anything may take, in seconds, and how long a client waits between two pieces.
PATIENCE = 100
START_PATIENCE = 20
PAUSE = 0.001
LIBC = ctypes.CDLL(None, use_errno=True)
PR_SET_PDEATHSIG = 1
CLONE_NEWNET, CLONE_NEWUSER = 0x40000000, 0x10000000
SIOCGIFFLAGS, SIOCSIFFLAGS, IFF_UP = 0x8913, 0x8914, 1


def own_network():
    """Moves this process to a network that has nothing but a loopback, where all ports are free. Says whether the system lets it."""
    user, group = os.getuid(), os.getgid()
    if LIBC.unshare(CLONE_NEWNET) != 0:
        if LIBC.unshare(CLONE_NEWUSER | CLONE_NEWNET) != 0:
            return False
        for name, line in (("setgroups", "deny"), ("uid_map", f"0 {user} 1"), ("gid_map", f"0 {group} 1")):
            with open(f"/proc/self/{name}", "w", encoding="ascii") as file:
                file.write(line)
    with socket.socket(socket.AF_INET, socket.SOCK_DGRAM) as stream:
        flags = struct.unpack("16sh", fcntl.ioctl(stream, SIOCGIFFLAGS, struct.pack("16sh", b"lo", 0)))[1]
        fcntl.ioctl(stream, SIOCSIFFLAGS, struct.pack("16sh", b"lo", flags | IFF_UP))
    return True


def end_with_parent():
    """A process that this one starts ends with it."""
    LIBC.prctl(PR_SET_PDEATHSIG, signal.SIGKILL)


# ---- Connections

def connect(address):
    """A connection, or None where nobody listens there."""
    host, port = address
    try:
        stream = socket.create_connection((LOOPBACK[host], port), timeout=PATIENCE)
    except OSError as why:
        if why.errno in (errno.ECONNREFUSED, errno.EADDRNOTAVAIL, errno.ECONNRESET):
            return None
        raise
    stream.setsockopt(socket.IPPROTO_TCP, socket.TCP_NODELAY, 1)
    return stream


def pieces_of(data, place, cut):
    """The bytes whole, or cut at three places, which the name of the row chooses."""
    if not cut or len(data) < 2:
        return [data] if data else []
    chosen = random.Random(place)
    places = sorted({0, len(data), *(chosen.randrange(1, len(data)) for _ in range(3))})
    return [data[it:end] for it, end in zip(places, places[1:])]


def exchange(address, pieces):
    """What comes on a connection until the server closes it. The client sends the pieces, and then no more. None where nobody listens."""
    stream = connect(address)
    if stream is None:
        return None
    with stream:
        stream.setblocking(False)
        return Talk(stream, pieces).run()


class Talk:
    def __init__(self, stream, pieces):
        self.patience = PATIENCE
        self.stream, self.left, self.came = stream, [memoryview(it) for it in pieces], []
        self.next = 0.0

    def run(self):
        until = time.monotonic() + PATIENCE
        if not self.left:
            self.end()
        with selectors.DefaultSelector() as selector:
            selector.register(self.stream, selectors.EVENT_READ)
            while time.monotonic() < until:
                now = time.monotonic()
                if self.left and now >= self.next:
                    self.send(now)
                wait = max(0.0, self.next - now) if self.left else until - now
                wants = selectors.EVENT_READ | (selectors.EVENT_WRITE if self.left and now >= self.next else 0)
                selector.modify(self.stream, wants)
                if any(event & selectors.EVENT_READ for _, event in selector.select(max(wait, 0) if wants == selectors.EVENT_READ else PATIENCE)):
                    if not self.receive():
                        return b"".join(self.came)
        return b"".join(self.came) + b"(and the connection stays open)"

    def send(self, now):
        try:
            sent = self.stream.send(self.left[0])
        except BlockingIOError:
            return
        except OSError:
            self.left = []
            return
        self.left[0] = self.left[0][sent:]
        if not self.left[0]:
            self.left.pop(0)
            self.next = now + PAUSE
        if not self.left:
            self.end()

    def end(self):
        try:
            self.stream.shutdown(socket.SHUT_WR)
        except OSError:
            pass

    def receive(self):
        try:
            data = self.stream.recv(1 << 20)
        except BlockingIOError:
            return True
        except OSError:
            return False
        self.came.append(data)
        return data != b""


# ---- A server

class NotReady(Exception):
    """Why a server does not serve."""


class NoAdmin(NotReady):
    """A server that does not open the address of its admin API."""


class Server:
    """The program, one process at a time. `now` is the text of the configuration that it is known to have."""

    # Whether the address of the admin API was ever open, or has not been tried yet.
    has_admin = True

    def __init__(self, program, like):
        self.program, self.like, self.process, self.now, self.tree = program, like, None, None, None
        self.folder = None

    def start(self, text, ready):
        """Starts it with the configuration, and waits until one of the addresses is open."""
        if ready == [ADMIN] and not Server.has_admin:
            raise NoAdmin("it has no admin API")
        self.end()
        self.folder = tempfile.mkdtemp(prefix="conformance-")
        path = os.path.join(self.folder, "configuration.json")
        with open(path, "wb") as file:
            file.write(self.like.configured(text))
        homes = {it: self.folder for it in ("HOME", "XDG_CONFIG_HOME", "XDG_DATA_HOME")}
        with open(os.path.join(self.folder, "out"), "wb") as out, open(os.path.join(self.folder, "err"), "wb") as err:
            words = [self.program, "run", "--config", path]
            streams = {"stdin": subprocess.DEVNULL, "stdout": out, "stderr": err}
            self.process = subprocess.Popen(words, cwd=self.folder, env={**os.environ, **homes}, preexec_fn=end_with_parent, **streams)
        self.now, self.tree = text, tree_of(text)
        self.wait(ready)

    def wait(self, ready):
        until = time.monotonic() + START_PATIENCE
        while ready:
            stream = next((it for it in map(connect, ready) if it), None)
            if stream:
                stream.close()
                return
            if self.process.poll() is not None:
                raise NotReady(f"it ends with status {self.process.returncode}: {self.said('out') or self.said('err')}")
            if time.monotonic() > until:
                Server.has_admin = Server.has_admin and ready != [ADMIN]
                raise NotReady("no address of its configuration is open") if ready != [ADMIN] else NoAdmin("it has no admin API")
            time.sleep(0.002)

    def said(self, name):
        with open(os.path.join(self.folder, name), "rb") as file:
            return file.read().decode(errors="replace").strip()[-300:]

    def read(self, name):
        try:
            with open(os.path.join(self.folder, name), "rb") as file:
                return file.read()
        except OSError:
            return b""

    def ended(self):
        """Its exit status, once it has ended."""
        try:
            return self.process.wait(PATIENCE)
        except subprocess.TimeoutExpired:
            return None

    def end(self):
        if self.process:
            if self.process.poll() is None:
                self.process.send_signal(signal.SIGKILL)
                self.process.wait()
            shutil.rmtree(self.folder, ignore_errors=True)
        self.process = None

    def is_ordinary(self):
        """Whether it runs, with its admin API where that is by itself."""
        return self.process is not None and self.process.poll() is None and self.has_admin and self.now is not None and is_plain(self.tree)

    def ask(self, method, path, body=b"", fields=b"", address=ADMIN):
        """The answer of the admin API: its status and its body."""
        host = b"[%s]:%d" % (address[0].encode(), address[1]) if ":" in address[0] else b"%s:%d" % ((address[0] or "localhost").encode(), address[1])
        head = b"%s %s HTTP/1.1\r\nHost: %s\r\nConnection: close\r\n%s" % (method, path, host, fields)
        came = exchange(address, [head + b"Content-Length: %d\r\n\r\n" % len(body) + body])
        return (None, b"") if came is None else parsed(came)

    def shown(self, address=ADMIN):
        """What it shows as its configuration. While it goes from one to the next its admin API may not be open for a moment."""
        until = time.monotonic() + START_PATIENCE
        while True:
            status, body = self.ask(b"GET", b"/config/", b"", b"", address)
            if status is not None or self.process.poll() is not None or time.monotonic() > until:
                return status, body
            time.sleep(0.01)

    def configure(self, text, ready):
        """Gives it the configuration: over the admin API where that can be, else by a start."""
        tree = tree_of(text)
        if self.is_ordinary() and is_plain(tree):
            if self.now == text:
                return
            status, body = self.ask(b"POST", b"/load", self.like.configured(text), b"Content-Type: application/json\r\n")
            if status == 200:
                self.now, self.tree = text, tree
                return
            if status is not None:
                raise NotReady(f"its configuration is refused: {body.decode(errors='replace')[:300].strip()}")
        self.start(text, ready)

    def forget(self):
        """Its configuration is not known any longer."""
        self.now = None


def parsed(came):
    """The status and the body of an answer."""
    head, _, body = came.partition(b"\r\n\r\n")
    found = re.match(rb"HTTP/1\.\d (\d{3})", head)
    if not found:
        return None, came
    if re.search(rb"(?i)\r\ntransfer-encoding: *chunked", head):
        body = unchunked(body)[0]
    return int(found[1]), body


def unchunked(data):
    """The data of chunks, and the bytes that follow them: the trailer fields."""
    body = b""
    while True:
        line, _, data = data.partition(b"\r\n")
        size = int(line.partition(b";")[0] or b"0", 16)
        if size == 0:
            return body, data
        body, data = body + data[:size], data[size + 2:]


# ---- What cases come to

class Came:
    """What differs: what was wanted, and what came."""

    def __init__(self, what, wanted, came):
        self.what, self.wanted, self.came = what, wanted, came


def run_case(server, case, place, cut):
    """Holds a server to a case. None where it does what is wanted, else what differs. After a difference its state is not known."""
    found = RUN[type(case)](server, case, place, cut)
    if found or server.like.used:
        server.forget()
    return found


def compare(server, what, wanted, came):
    return server.like.compare(what, wanted, came)


def run_site(server, case, place, cut):
    server.configure(case.text, [case.address])
    return compare(server, "the answer", case.wanted, exchange(case.address, pieces_of(case.asked, place, cut)))


def run_load(server, case, place, cut):
    if not server.is_ordinary():
        server.start(compact(rows.HELLO), [ADMIN])
    before = server.shown()
    kind = (case.kind or "application/json").encode()
    head = b"POST /load HTTP/1.1\r\nHost: localhost:2019\r\nContent-Type: %s\r\nContent-Length: %d\r\n\r\n" % (kind, len(server.like.loaded(case.body, kind)))
    came = exchange(ADMIN, pieces_of(head + server.like.loaded(case.body, kind), place, cut))
    if case.refused is None:
        server.now, server.tree = case.body, tree_of(case.body) if kind.endswith(b"json") else {}
        if case.taken and kind == b"text/caddyfile" and parsed(came or b"")[0] == 400 and not re.search(rb'"line [1-9]', came):
            return None
        wanted = b"HTTP/1.1 200 OK\r\nContent-Length: 0\r\n\r\n"
        found = compare(server, "the answer to the load", rows.Wanted(data=wanted), came)
        if found or case.gives is None:
            return found
        server.forget()
        return compare(server, "the configuration", rows.Wanted(status=200, body=case.gives + b"\n"), raw(server.shown()))
    found = compare(server, "the refusal", rows.Wanted(data=rows.refusal(400, case.refused)), came)
    if found:
        server.forget()
        return found
    return compare(server, "the configuration", rows.Wanted(status=before[0], body=before[1]), raw(server.shown()))


def raw(found):
    """An answer of a status and a body, for a comparison that looks at these alone."""
    status, body = found
    return None if status is None else b"HTTP/1.1 %d -\r\nContent-Length: %d\r\n\r\n" % (status, len(body)) + body


def run_opened(server, case, place, cut):
    server.start(case.text, case.addresses[-1:])
    server.forget()
    for it in case.addresses:
        stream = connect(it)
        if stream is None:
            return Came("an address", b"%s:%d is open" % (it[0].encode(), it[1]), b"nobody listens there")
        stream.close()
    return None


def run_asked(server, case, place, cut):
    server.configure(case.text, [case.address])
    came = exchange(case.address, pieces_of(server.like.asked(case.asked), place, cut))
    found = compare(server, "the answer", case.wanted, came)
    if case.halts and not found and server.like.ended:
        return None
    if case.halts:
        return found or (None if server.ended() == 0 else Came("the end", b"exit status 0", b"exit status %d" % (server.process.poll() or -1)))
    if case.gives is not None:
        if case.gives != case.text:
            server.forget()
        status, body = server.shown(case.address_after)
        if status != 403:
            found = found or compare(server, "the configuration", rows.Wanted(status=200, body=case.gives + b"\n"), raw((status, body)))
    if found:
        server.forget()
    return found


def run_refused(server, case, place, cut):
    try:
        server.start(case.text, [ADMIN])
    except NotReady:
        pass
    status, said = server.ended() if server.process.poll() is not None else 0, server.read("out")
    server.forget()
    return server.like.compare_refused(case.words, status, said)


def run_conversation(server, case, place, cut):
    address = admin_of(case.tree)
    server.start(case.text, rows.listened(case.tree)[-1:] or [address])
    server.forget()
    wanted, writers = [], {}
    for at, data, answers, lines in case.connections:
        came = exchange(at, pieces_of(server.like.asked(data, at), place, cut))
        found = compare(server, "the answers", rows.Wanted(data=answers), came or b"")
        if found:
            return found
        for writer, line in lines:
            writers.setdefault(writer, []).append(line)
    more = 0
    if not case.halts:
        if not address or server.ask(b"POST", b"/stop", b"", b"", address)[0] != 200:
            return logs_of(server, writers)
        more = 1
    status, said = server.ended(), server.read("out").split(b"\n")
    last = b"served %d requests under %d configurations" % (case.served + more, case.published)
    return logs_of(server, writers) or server.like.compare_end(last, status, said)


def logs_of(server, writers):
    """The lines of each writer, in their order."""
    for writer, lines in writers.items():
        name = {b"stdout": "out", b"stderr": "err"}.get(writer) or os.fsdecode(writer.partition(b":")[2])
        came = [it for it in server.read(name).split(b"\n") if it.startswith(b'"')]
        if came != lines and writer != b"discard":
            return Came("the lines of " + os.fsdecode(writer), b"\n".join(lines), b"\n".join(came))
    return None


def run_wire(server, case, place, cut):
    server.configure(compact(rows.WIRE_TREE), [("", 8080)])
    found = compare(server, "the answers", rows.Wanted(data=case.lines), exchange(("", 8080), pieces_of(case.asked, place, cut)))
    return found or compare(server, "the bodies", rows.Wanted(data=case.bodies), exchange(("", 7), pieces_of(case.asked, place, cut)))


RUN = {
    rows.Site: run_site,
    rows.Load: run_load,
    rows.Opened: run_opened,
    rows.Asked: run_asked,
    rows.Refused: run_refused,
    rows.Conversation: run_conversation,
    rows.Wire: run_wire,
}


class Itself:
    """A server of this profile: nothing is translated, and all bytes count."""

    # The rules by which it may differ, as far as a row has used them.
    used = {}
    # Whether what follows is not to be looked at, since another configuration is in force than the row says.
    ended = False

    def begin(self, task):
        pass

    def differs(self):
        return False

    def configured(self, text):
        return text

    def loaded(self, text, kind):
        return text

    def asked(self, data, address=None):
        return data

    def compare(self, what, wanted, came):
        if came is None:
            return Came(what, shown(wanted), b"nobody listens there")
        if wanted.data is not None:
            return None if came == wanted.data else Came(what, wanted.data, came)
        status, body = parsed(came)
        if wanted.length is not None:
            return None if (status, len(body)) == (wanted.status, wanted.length) else Came(what, shown(wanted), came)
        return None if (status, body) == (wanted.status, wanted.body) else Came(what, shown(wanted), came)

    def compare_start(self, why):
        return Came("the start", b"", why.encode())

    def compare_refused(self, words, status, said):
        came = b"exit status %d\n%s" % (status, said)
        return None if (status, said) == (1, words + b"\n") else Came("the refusal", b"exit status 1\n" + words + b"\n", came)

    def compare_end(self, last, status, said):
        came = said[-2] if len(said) > 1 else b""
        return None if (status, came) == (0, last) else Came("the end", b"exit status 0\n" + last, b"exit status %d\n%s" % (-1 if status is None else status, came))


def shown(wanted):
    if wanted.data is not None:
        return wanted.data
    return b"status %d, a body of %d bytes" % (wanted.status, wanted.length) if wanted.length is not None else b"status %d, body: %s" % (wanted.status, wanted.body)
