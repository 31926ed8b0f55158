"""Runs of `reflect`, and views by hand that take part in their sessions."""
import contextlib
import os
import re
import socket
import time

import websocket
from case import Wrong, expect, expect_that
from reference import croquet, log_text, read_stored
from websocket import BINARY, CLOSE, PING, PONG, Wire, frame

EMPTY = b"class Root{init(o){}}"
LAST_LINE = re.compile(r"entries (\d+) time (\d+)")
WAYS = ["left", "link-end", "link-fault", "idle", "stale", "refused", "memory", "unkept", "silent"]
LEAVE, ALIVE = croquet.LEAVE, croquet.ALIVE
# Frames that may come at any time.
EXPECTED = ("recv", "tick", "sync", "alive", "ping")


def hold_port():
    """A socket that holds a port of loopback, at which it does not listen, and others may."""
    holder = socket.socket()
    holder.setsockopt(socket.SOL_SOCKET, socket.SO_REUSEADDR, 1)
    holder.bind(("127.0.0.1", 0))
    return holder


def wait_for_listener(port, process):
    """Waits until a socket of this port of loopback listens. A connection that asked would be a link."""
    until = time.monotonic() + Wire.patience
    while not listens(port):
        expect_that(time.monotonic() < until and process.poll() is None, "a server that listens", "none")
        time.sleep(0.01)


def listens(port):
    with open("/proc/net/tcp", encoding="utf-8") as file:
        return any(f":{port:04X} 00000000:0000 0A" in line for line in file)


def join_frame(ident, view, want="whole", after=0):
    wants = {"fresh": b"\0", "whole": b"\1", "after": b"\2" + croquet.number(after, 8)}
    return croquet.framed(croquet.JOIN_TAG, ident, croquet.number(view, 4), wants[want])


def send_frame(number, payload):
    return croquet.framed(croquet.SEND_TAG, croquet.number(number, 4), croquet.bytes_field(payload))


def snap_frame(time_, snapshot):
    return croquet.framed(croquet.SNAP_TAG, croquet.number(time_, 8), croquet.bytes_field(snapshot))


class Reflector:
    """A run of `reflect` of a session named `a`. It goes on from a stored session, where one is given. It serves without an end that is counted, where its
    links are not."""

    def __init__(self, program, connections, source=EMPTY, port=None, json=None, stored=None, log="f", more=()):
        persisted = None if json is None else croquet.from_json(json)
        options, files = (list(more), {}) if json is None else ([*more, "--persisted", "j"], {"j": json})
        if connections is not None:
            options = ["--connections", str(connections), *options]
        if stored is not None:
            options, files = [*options, "--from", "o"], {**files, "o": stored}
        self.ident = croquet.session_id(b"a", source, persisted)
        self.holder = None if port else hold_port()
        self.port = port or self.holder.getsockname()[1]
        self.begun, self.address = time.monotonic(), f"127.0.0.1:{self.port}"
        self.run = program.start(
            ["reflect", "p", "a", self.address, "--log", log, *options],
            {"p": source, **files}, f"listening at {self.address}, session {self.ident.hex()}\n".encode())
        self.wires = []

    def connect(self, receive_buffer=None):
        """A connection, once it listens."""
        until = time.monotonic() + Wire.patience
        while True:
            connection = socket.socket()
            if receive_buffer:
                connection.setsockopt(socket.SOL_SOCKET, socket.SO_RCVBUF, receive_buffer)
            try:
                connection.connect(("127.0.0.1", self.port))
                break
            except ConnectionRefusedError:
                connection.close()
                if time.monotonic() > until or self.run.process.poll() is not None:
                    raise Wrong("a reflector that listens", "none") from None
                time.sleep(0.01)
        wire = Wire(connection)
        self.wires.append(wire)
        return wire

    def open(self, receive_buffer=None):
        """A WebSocket, once it listens."""
        wire = self.connect(receive_buffer)
        websocket.ask(wire)
        return wire

    def view(self, view, want="whole", after=0, receive_buffer=None):
        return View(self, view, want, after, receive_buffer)

    def stop(self, file):
        """Makes the file that ends a service, and looks at what came of it."""
        with open(os.path.join(self.run.folder, file), "xb"):
            pass
        self.run.given[file] = b""
        return self.end()

    def end(self):
        """What came of it, once all its links have ended."""
        for held in [*self.wires, *filter(None, [self.holder])]:
            held.close()
        return self.run.end()


@contextlib.contextmanager
def reflecting(program, connections, source=EMPTY, json=None, stored=None, log="f", more=()):
    """A reflector that is killed where the check does not come to its end."""
    reflector = Reflector(program, connections, source, json=json, stored=stored, log=log, more=more)
    try:
        yield reflector
    finally:
        if reflector.run.process.returncode is None:
            reflector.run.kill()
            reflector.end()


class View:
    """A view by hand. What it is told has to be served from one log, in order."""

    def __init__(self, reflector, view, want, after, receive_buffer):
        self.wire = reflector.open(receive_buffer)
        self.entries, self.tick, self.from_, self.number = [], 0, None, 0
        self.say(join_frame(reflector.ident, view, want, after))

    def say(self, content):
        self.wire.say(frame(BINARY, content, os.urandom(4)))

    def hear(self):
        """The name and the fields of the next frame; `close` and its bytes. A ping is answered."""
        final, opcode, mask, content = self.wire.read_frame()
        expect_that(final and mask is None, "a whole frame without a mask", (final, mask))
        if opcode == PING:
            self.wire.say(frame(PONG, content, os.urandom(4)))
            return "ping", (content,)
        if opcode == CLOSE:
            return "close", content
        expect(BINARY, opcode)
        try:
            name, fields = croquet.read_server(content)
        except croquet.Bad:
            raise Wrong("a frame of a reflector", content.hex()) from None
        getattr(self, f"note_{name}", lambda *_: None)(*fields)
        return name, fields

    def note_sync(self, _joined, _last, from_, _base):
        expect_that(self.from_ is None, "one sync", "another one")
        self.from_ = from_

    def note_recv(self, entry):
        last = self.entries[-1].time if self.entries else 0
        expect(self.from_ + len(self.entries) + 1, entry.seq)
        expect_that(entry.time > max(last, self.tick), f"a time above {last} and {self.tick}", entry)
        self.entries.append(entry)

    def note_tick(self, time_):
        last = self.entries[-1].time if self.entries else 0
        expect_that(time_ > self.tick and time_ >= last,
                    f"a tick above {self.tick} and from {last} on", time_)
        self.tick = time_

    def until(self, wanted):
        """The fields of the next frame of this name."""
        name = None
        for _ in self.waiting(lambda: name == wanted, wanted):
            name, fields = self.hear()
            expect_that(name in (wanted, *EXPECTED), wanted, (name, fields))
        return fields

    def until_tick(self, time_):
        """Hears on until the session's time is this or later."""
        for _ in self.waiting(lambda: self.tick >= time_, f"a tick of {time_}"):
            self.hear()

    def until_entry(self, seq):
        """The entry of this seq, once it came."""
        for _ in self.waiting(lambda: self.from_ is not None
                              and self.from_ + len(self.entries) >= seq, f"entry {seq}"):
            self.hear()
        return self.entries[seq - self.from_ - 1]

    @staticmethod
    def waiting(has_come, wanted):
        """Goes on until it has come. Ticks may come without end, so that takes its time at most."""
        last = time.monotonic() + Wire.patience
        while not has_come():
            if time.monotonic() > last:
                raise Wrong(wanted, f"none in {Wire.patience} seconds")
            yield

    def joined(self):
        """The fields of the sync."""
        return self.until("sync")

    def send(self, payload, number=None):
        """Sends an event with the next number, or with this one."""
        self.number += number is None
        self.say(send_frame(number or self.number, payload))

    def done(self, payload):
        """Sends an event, and gives its seq and time once it is acknowledged."""
        self.send(payload)
        number, seq, time_ = self.until("done")
        expect(self.number, number)
        return seq, time_

    def refused(self):
        return self.until("refused")

    def ends(self):
        """Hears to the close, answers it, and has the end behind it."""
        expect(((1000).to_bytes(2, "big"),), (self.until("close"),))
        self.wire.say(frame(CLOSE, b"\x03\xe8", bytes(4)))
        expect(b"", self.wire.read_all())
        self.wire.close()


def leave_all(*views):
    """All leave, and hear on to the end."""
    for view in views:
        view.say(LEAVE)
    for view in views:
        view.ends()


def served_log(run, views, log="f"):
    """The entries of the log, which is legal and of which the views were told. Its file is that of a stored session."""
    expect([log], sorted(run.files))
    session = read_stored(run.files[log])
    expect_that(session is not None, "a stored session", run.files[log].hex())
    entries = session.log
    match = LAST_LINE.fullmatch(run.text.decode().rstrip("\n").split("\n")[-1])
    expect_that(match is not None, "the line of a session", run.text)
    expect((len(entries), session.horizon), (int(match[1]), int(match[2])))
    expect(0, session.here)
    for view in views:
        from_ = view.from_ or 0
        expect(entries[from_:from_ + len(view.entries)], view.entries)
    return entries


def expect_words(run, words):
    """How the connections ended, in order."""
    lines = run.text.decode().rstrip("\n").split("\n")
    expect(0, run.status)
    expect([f"connection {place} {word}" for place, word in enumerate(words)], lines[:-1])


def expect_ways(lines, posts, ways):
    """In which ways the links of so many posts ended, all of which were stopped."""
    counts = " ".join(f"{way} {ways.get(way, 0)}" for way in WAYS)
    expect([f"links {counts}", f"posts {posts} stopped {posts} failed 0 memory 0 spent 0"], lines)


def expect_entries(entries, wanted):
    expect(wanted, " ".join(log_text([entry]) for entry in entries))
