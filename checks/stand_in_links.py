"""The links of the program that stands in for `croquet`: WebSockets whose receives are woken by news."""
import base64
import os
import select
import socket
import struct
import time

import websocket
from case import Wrong
from websocket import BINARY, CLOSE, PING, PONG, frame, masked

LONGEST = 8_388_608
ACCEPTED_SECONDS, MADE_SECONDS, PART_SECONDS = 0.05, 0.01, 1
SEND_SECONDS, CLOSE_SECONDS, PING_SECONDS, PING_QUIETS, NEWS_GAP = 5, 1, 15, 1000, 0.004
ALIVE = b"\x05"
ACCEPT_SECONDS = 0.1
BEGUN = time.monotonic()
ACCEPTED = []  # all links that were accepted and are not closed


class Failed(Exception):
    """A link failed."""


class LinkEnd(Exception):
    """A link ended."""


def now():
    """The microseconds since the program began."""
    return int((time.monotonic() - BEGUN) * 1e6)


def socket_address(text):
    host, _, port = text.rpartition(":")
    return ("127.0.0.1" if host == "localhost" else host, int(port))


def connect(address):
    connection = socket.create_connection(address)
    return Link(connection, is_client=True)


def listen(address):
    return socket.create_server(address, backlog=128)


def accept_soon(listener):
    """The next link; None where none came for a while."""
    if not select.select([listener], [], [], ACCEPT_SECONDS)[0]:
        return None
    link = Link(listener.accept()[0], is_client=False)
    ACCEPTED.append(link)
    return link


def wake(links):
    """Ends the receives of links, those that go on or their next ones."""
    for link in list(links):
        try:
            link.waker.send(b"n")
        except OSError:  # It is woken already, or closed.
            pass


class Link:
    """A link of either side, whose handshake is made at its first calls."""

    def __init__(self, connection, is_client):
        self.socket, self.is_client = connection, is_client
        self.socket.setsockopt(socket.IPPROTO_TCP, socket.TCP_NODELAY, 1)
        self.held, self.parts, self.last, self.is_open = bytearray(), None, None, False
        self.has_closed = self.has_part = self.owes_news = False
        self.silent, self.woken, self.quiets = None, 0, 0
        self.news, self.waker = socket.socketpair()
        self.news.setblocking(False)
        self.waker.setblocking(False)
        self.key = base64.b64encode(os.urandom(16))
        if is_client:
            self.put(websocket.request_of(self.key))

    # -- bytes

    def read(self, seconds=MADE_SECONDS, news=()):
        """Reads what comes within these seconds, or until news; whether there was anything."""
        if self.socket not in select.select([self.socket, *news], [], [], max(0, seconds))[0]:
            return False
        try:
            piece = self.socket.recv(262_144)
        except OSError:
            raise Failed() from None
        if not piece:
            raise LinkEnd()
        self.held += piece
        return True

    def put(self, content):
        """Writes bytes; fails where none is taken for 5 seconds."""
        self.socket.setblocking(False)
        rest, since = memoryview(content), time.monotonic()
        try:
            while rest:
                try:
                    rest, since = rest[self.socket.send(rest):], time.monotonic()
                except BlockingIOError:
                    if time.monotonic() - since > SEND_SECONDS:
                        raise Failed() from None
                    select.select([], [self.socket], [], 0.05)
        except OSError:
            raise Failed() from None

    def put_frame(self, opcode, content):
        self.put(frame(opcode, content, os.urandom(4) if self.is_client else None))

    # -- calls

    def hear(self):
        """The next message; None where none came for a while."""
        if self.last is not None:
            raise self.last
        try:
            return self.heard()
        except Failed as failed:
            self.end(failed, 1002)
        except LinkEnd as end:
            self.end(end, 1000)

    def heard(self):
        begun, self.has_part = time.monotonic(), False
        while True:
            if not self.is_open and not self.shake():
                return None
            said = self.next_frame()
            if said is not None:
                message = self.take(*said)
                if message is not None:
                    return message
            elif not self.wait(begun):
                return self.quiet()

    def wait(self, begun):
        """Waits for bytes of a message; whether some came before the time of the receive, or news, ended that."""
        if self.has_part:
            return self.read(begun + PART_SECONDS - time.monotonic())
        if self.is_client:
            self.has_part = self.read(begun + MADE_SECONDS - time.monotonic())
            return self.has_part
        gap = self.woken + NEWS_GAP - time.monotonic()
        self.has_part = self.read(min(gap, ACCEPTED_SECONDS)) if gap > 0 else False
        self.has_part = self.has_part or self.read(begun + ACCEPTED_SECONDS - time.monotonic(), [self.news])
        return self.has_part

    def quiet(self):
        """Takes the news, and sends a ping to who has said something, and nothing for long."""
        try:
            self.news.recv(4_096)
            self.woken = time.monotonic()
        except OSError:  # There was none.
            pass
        self.quiets += 1
        is_due = self.quiets >= PING_QUIETS or time.monotonic() - (self.silent or 0) > PING_SECONDS
        if self.silent is not None and not self.is_client and is_due:
            self.silent, self.quiets = time.monotonic(), 0
            self.put_frame(PING, b"")
        return None

    def send(self, content):
        until = time.monotonic() + SEND_SECONDS
        try:
            while self.last is None and not self.is_open:
                if time.monotonic() > until:
                    raise Failed()
                if not self.shake():
                    self.read()
            if self.last is not None:
                raise Failed()
            if self.owes_news:
                self.owes_news = False
                wake(ACCEPTED)
            self.put_frame(BINARY, content)
        except (Failed, LinkEnd):
            self.end(Failed(), 1002)

    def end(self, last, code):
        """Nothing more is heard, and the other side is told so."""
        self.last = last
        self.say_close(code)
        raise last

    def say_close(self, code):
        try:
            if self.is_open and not self.has_closed:
                self.put_frame(CLOSE, struct.pack(">H", code))
            self.has_closed = True
            self.socket.shutdown(socket.SHUT_WR)
        except (Failed, OSError):
            pass

    # -- handshakes

    def shake(self):
        """Goes on with the handshake; whether it is done."""
        while b"\r\n\r\n" not in self.held:
            if not self.read():
                return False
        head, _, rest = bytes(self.held).partition(b"\r\n\r\n")
        try:
            if self.is_client:
                websocket.check_acceptance(head, self.key)
            else:
                self.put(websocket.acceptance_of(websocket.key_of_request(head, rb"/\S*")))
        except (Wrong, ValueError):
            raise Failed() from None
        self.held, self.is_open = bytearray(rest), True
        return True

    # -- frames

    def next_frame(self):
        """The next frame, if it is whole."""
        if len(self.held) < 2:
            return None
        first, second = self.held[:2]
        size = {126: 2, 127: 8}.get(second & 0x7F, 0)
        if len(self.held) < 2 + size:
            return None
        length = int.from_bytes(self.held[2:2 + size], "big") if size else second & 0x7F
        self.check_head(first, second, length)
        start = 2 + size + (4 if second & 0x80 else 0)
        if len(self.held) < start + length:
            return None
        mask = bytes(self.held[start - 4:start]) if second & 0x80 else bytes(4)
        content = masked(bytes(self.held[start:start + length]), mask)
        del self.held[:start + length]
        return bool(first & 0x80), first & 0x0F, content

    def check_head(self, first, second, length):
        """What breaches the protocol is a failure."""
        opcode, final = first & 0x0F, first & 0x80
        bad = first & 0x70 or opcode not in (0, 1, BINARY, CLOSE, PING, PONG)
        bad = bad or bool(second & 0x80) == self.is_client or opcode == 1
        bad = bad or opcode >= CLOSE and (not final or length > 125)
        bad = bad or opcode == 0 and self.parts is None
        bad = bad or opcode == BINARY and self.parts is not None
        if bad or length + len(self.parts or b"") > LONGEST:
            raise Failed()

    def take(self, final, opcode, content):
        """The message that a frame completes."""
        if opcode in (PING, PONG):
            if opcode == PING:
                self.put_frame(PONG, content)
            return self.sign_of_life()
        if opcode == CLOSE:
            raise LinkEnd()
        self.parts = (self.parts or b"") + content
        if not final:
            return None
        message, self.parts = self.parts, None
        self.silent, self.quiets = time.monotonic(), 0
        self.owes_news = self.owes_news or message != ALIVE
        return message

    def sign_of_life(self):
        """What a ping or a pong is told as, of who has sent a frame to a link that was accepted."""
        if self.silent is None or self.is_client:
            return None
        self.silent, self.quiets = time.monotonic(), 0
        return ALIVE


def close_all(links):
    """Closes those that are open in good manners: says Close, stops sending, and reads on for a second at the most."""
    since, links = time.monotonic(), [link for link in links if link.socket.fileno() >= 0]
    for link in links:
        if link.last is None:
            link.say_close(1000)
    for link in links:
        try:
            while time.monotonic() - since < CLOSE_SECONDS:
                link.held.clear()
                link.read()
        except (Failed, LinkEnd):
            pass
        for end in (link.socket, link.news, link.waker):
            end.close()
        if link in ACCEPTED:
            ACCEPTED.remove(link)


def close(link):
    """Closes a link whose talk is over, while others go on."""
    close_all([link])
