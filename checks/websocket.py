"""WebSockets by hand (RFC 6455): frames and handshakes over the system's sockets."""
import base64
import hashlib
import os
import re
import socket
import struct
import time

from case import Wrong

GUID = b"258EAFA5-E914-47DA-95CA-C5AB0DC85B11"
TEXT, BINARY, CLOSE, PING, PONG = 1, 2, 8, 9, 10
CLOSE_NORMAL = b"\x88\x02\x03\xe8"
MOST_HEAD = 65_536


class Ended(Exception):
    """The other side ended, in the midst of what was read."""


def accept_of(key):
    """What answers a key."""
    return base64.b64encode(hashlib.sha1(key + GUID).digest())


def length_bytes(length, mask_bit):
    if length < 126:
        return bytes([mask_bit | length])
    if length < 65_536:
        return bytes([mask_bit | 126]) + struct.pack(">H", length)
    return bytes([mask_bit | 127]) + struct.pack(">Q", length)


def masked(payload, mask):
    """The payload, each byte masked by one of the four of the mask in turn."""
    if mask == bytes(4):
        return payload
    keys = (mask * (len(payload) // 4 + 1))[:len(payload)]
    size = len(payload)
    mixed = int.from_bytes(payload, "big") ^ int.from_bytes(keys, "big")
    return mixed.to_bytes(size, "big")


def frame(opcode, payload, mask=None, final=True):
    """The bytes of a frame. A client's has a mask, a server's has none."""
    head = bytes([(0x80 if final else 0) | opcode])
    if mask is None:
        return head + length_bytes(len(payload), 0) + payload
    return head + length_bytes(len(payload), 0x80) + mask + masked(payload, mask)


class Wire:
    """A socket, read byte by byte. What comes has so many seconds to come."""

    patience = 20

    def __init__(self, connection):
        self.socket = connection
        self.socket.settimeout(self.patience)
        self.socket.setsockopt(socket.IPPROTO_TCP, socket.TCP_NODELAY, 1)
        self.held = b""

    def say(self, content):
        self.socket.sendall(content)

    def say_slowly(self, content, pause=0.002):
        """Says byte after byte, so far apart that each is read alone."""
        for place in range(len(content)):
            self.say(content[place:place + 1])
            time.sleep(pause)

    def more(self):
        """Reads what comes next; `Ended` where that is the end."""
        try:
            piece = self.socket.recv(262_144)
        except ConnectionResetError:
            piece = b""
        except TimeoutError:
            raise Wrong("an answer", f"none in {self.patience} seconds") from None
        if not piece:
            raise Ended()
        self.held += piece

    def read(self, count):
        """The next bytes."""
        if len(self.held) < count:
            pieces, size = [self.held], len(self.held)
            while size < count:
                self.held = b""
                self.more()
                pieces.append(self.held)
                size += len(self.held)
            self.held = b"".join(pieces)
        taken, self.held = self.held[:count], self.held[count:]
        return taken

    def read_head(self):
        """The head of a handshake, to its empty line."""
        while b"\r\n\r\n" not in self.held:
            if len(self.held) > MOST_HEAD:
                raise Wrong("the head of a handshake", self.held[:200])
            self.more()
        head, _, self.held = self.held.partition(b"\r\n\r\n")
        return head

    def read_all(self):
        """All that comes, up to the end."""
        try:
            while True:
                self.more()
        except Ended:
            taken, self.held = self.held, b""
            return taken

    def read_frame(self):
        """Whether it is a final one, its opcode, its mask or None, and its payload."""
        first, second = self.read(2)
        length = second & 0x7F
        if length == 126:
            length = struct.unpack(">H", self.read(2))[0]
        elif length == 127:
            length = struct.unpack(">Q", self.read(8))[0]
        mask = self.read(4) if second & 0x80 else None
        payload = self.read(length)
        return bool(first & 0x80), first & 0x7F, mask, masked(payload, mask or bytes(4))

    def stop_sending(self):
        try:
            self.socket.shutdown(socket.SHUT_WR)
        except OSError:
            pass

    def close(self):
        self.socket.close()

    def reset(self):
        """Ends the connection by a reset of TCP."""
        self.socket.setsockopt(socket.SOL_SOCKET, socket.SO_LINGER, struct.pack("ii", 1, 0))
        self.socket.close()


# ---------------------------------------------------------------- handshakes


def fields_of(head):
    """The first line of a head, and its fields by their names in lower case."""
    first, *lines = head.split(b"\r\n")
    fields = {}
    for line in lines:
        name, _, value = line.partition(b":")
        fields[name.strip().lower()] = value.strip()
    return first, fields


def request_of(key):
    return (b"GET / HTTP/1.1\r\nHost: 127.0.0.1\r\nUpgrade: websocket\r\nConnection: Upgrade\r\n"
            b"Sec-WebSocket-Key: " + key + b"\r\nSec-WebSocket-Version: 13\r\n\r\n")


def acceptance_of(key):
    return (b"HTTP/1.1 101 Switching Protocols\r\nUpgrade: websocket\r\nConnection: Upgrade\r\n"
            b"Sec-WebSocket-Accept: " + accept_of(key) + b"\r\n\r\n")


def check_acceptance(head, key):
    """What accepts a key has its answer (RFC 6455, 4.2.2)."""
    first, fields = fields_of(head)
    if not first.startswith(b"HTTP/1.1 101 ") or fields.get(b"upgrade", b"").lower() != b"websocket":
        raise Wrong("101 and an upgrade to websocket", head)
    if b"upgrade" not in fields.get(b"connection", b"").lower():
        raise Wrong("the connection is upgraded", head)
    if fields.get(b"sec-websocket-accept") != accept_of(key):
        raise Wrong(accept_of(key), fields.get(b"sec-websocket-accept"))


def key_of_request(head, path=rb"/"):
    """The key of a request that is as RFC 6455, 4.1 wants it, of a path of this form."""
    first, fields = fields_of(head)
    if not re.fullmatch(rb"GET " + path + rb" HTTP/1\.1", first) or not fields.get(b"host"):
        raise Wrong("GET / HTTP/1.1 and a host", head)
    if fields.get(b"upgrade", b"").lower() != b"websocket":
        raise Wrong("an upgrade to websocket", head)
    if b"upgrade" not in fields.get(b"connection", b"").lower():
        raise Wrong("the connection is upgraded", head)
    if fields.get(b"sec-websocket-version") != b"13":
        raise Wrong("version 13", head)
    key = fields.get(b"sec-websocket-key", b"")
    if len(base64.b64decode(key)) != 16:
        raise Wrong("a key of 16 bytes", key)
    return key


def ask(wire):
    """A client's handshake."""
    key = base64.b64encode(os.urandom(16))
    wire.say(request_of(key))
    check_acceptance(wire.read_head(), key)


def answer(wire):
    """A server's handshake."""
    wire.say(acceptance_of(key_of_request(wire.read_head())))
