"""`join` over sockets, byte by byte: the other side is a server by hand."""
import contextlib
import select
import socket
import time

import websocket
from case import Case, Wrong, expect, expect_that
from reference import croquet
from reflector import EMPTY
from websocket import BINARY, CLOSE, CLOSE_NORMAL, PING, PONG, TEXT, Wire, frame

IDENT = croquet.session_id(b"a", EMPTY)
SYNC = croquet.framed(croquet.SYNC_TAG, croquet.number(1, 4), bytes(9))
JOIN = croquet.framed(croquet.RECV_TAG, croquet.number(1, 4), croquet.number(1, 8), croquet.number(7, 4), b"\1")
TICK = croquet.framed(croquet.TICK_TAG, croquet.number(2, 8))
LONGEST = 8_388_608
JOIN_WHOLE = croquet.framed(croquet.JOIN_TAG, IDENT, croquet.number(7, 4), b"\1")
JOIN_FRESH = croquet.framed(croquet.JOIN_TAG, IDENT, croquet.number(7, 4), b"\0")


class Host:
    """A server by hand, and a run of `join` that connects to it."""

    def __init__(self, program, script, receive_buffer=None):
        self.listener = socket.socket()
        if receive_buffer:
            self.listener.setsockopt(socket.SOL_SOCKET, socket.SO_RCVBUF, receive_buffer)
        self.listener.bind(("127.0.0.1", 0))
        self.listener.listen()
        self.listener.settimeout(Wire.patience)
        self.run = self.start(program, f"localhost:{self.listener.getsockname()[1]}", script)
        self.wires = []

    def start(self, program, address, script):
        return program.start(["join", "p", "a", address, "7", "s"], {"p": EMPTY, "s": script})

    def meet(self):
        """The next connection."""
        try:
            connection, _ = self.listener.accept()
        except TimeoutError:
            raise Wrong("a connection", "none") from None
        self.wires.append(Wire(connection))
        return self.wires[-1]

    def greet(self):
        """The next connection, behind its handshake."""
        wire = self.meet()
        websocket.answer(wire)
        return wire

    def end(self):
        """What came of the run, its connections closed behind it."""
        run = self.run.end()
        self.close()
        return run

    def close(self):
        self.listener.close()
        for wire in self.wires:
            wire.close()


@contextlib.contextmanager
def hosting(program, script, receive_buffer=None):
    host = Host(program, script, receive_buffer)
    try:
        yield host
    finally:
        if host.run.process.returncode is None:
            host.run.kill()
            host.run.end()
        host.close()


def binary(content):
    return frame(BINARY, content)


def heard(wire):
    """The next frame's payload, which is masked."""
    final, opcode, mask, content = wire.read_frame()
    expect((True, BINARY, True), (final, opcode, mask is not None))
    return content


def ends_well(wire):
    """A LEAVE, a Close with its code, and the end."""
    expect(croquet.LEAVE, heard(wire))
    is_close(wire, 1000)
    expect(b"", wire.read_all())
    wire.close()


def is_close(wire, code):
    final, opcode, mask, content = wire.read_frame()
    expect((True, CLOSE, True, code), (final, opcode, mask is not None,
                                       int.from_bytes(content[:2], "big")))


def expect_run(run, line, status):
    expect((line, status, {}), (run.text.decode().rstrip("\n").split("\n")[-1], run.status, run.files))


def joined_line(time_):
    """The last line of a view that came to a time, and of whose session one entry is known."""
    world = croquet.World.first(croquet.read_program(EMPTY), IDENT)
    entry = croquet.Entry(1, 1, 7, "join")
    digest = croquet.hashlib.sha256(croquet.replayed(world, [entry], time_).snapshot()).hexdigest()
    return f"view 7 time {time_} seq 1 digest {digest}"


def expect_joined(run):
    """The view came to time 2."""
    expect(f"time 2 / {joined_line(2)}", run.told())


# ---------------------------------------------------------------- that go well


def a_view_speaks_by_the_standard(program):
    """Its request is that of RFC 6455, its frames have masks that differ, and it ends with a Close."""
    masks = set()
    with hosting(program, b'publish "a" "b" 5\n' * 5 + b"wait 2\n") as host:
        wire = host.greet()
        wire.say(binary(SYNC) + binary(JOIN) + binary(TICK))
        for _ in range(7):
            masks.add(wire.read_frame()[2])
        is_close(wire, 1000)
        wire.close()
        expect_joined(host.end())
    expect_that(len(masks - {None, bytes(4)}) >= 6, "masks that differ", sorted(masks, key=repr))


def who_publishes_listens_behind_4096_events(program):
    """The next event comes only once one more is acknowledged."""
    goes_on_only_once_answered(program, b'publish "a" "b" nil\n' * 4_099, 4_097)


def who_publishes_listens_behind_65536_bytes(program):
    """Payloads of 4,096 bytes: 16 are not too many, and 17 are."""
    goes_on_only_once_answered(program, publishes(4_096) * 19, 17)


def who_publishes_counts_each_byte(program):
    """The first 17 payloads have 65,537 bytes. Without the first two, 16 have 65,536."""
    goes_on_only_once_answered(program, publishes(19) + publishes(4_078) + publishes(4_096) * 17, 17)


def publishes(length):
    """A line that publishes a payload of this length."""
    return b'publish "a" "b" "%s"\n' % (b"x" * (length - 15))


def goes_on_only_once_answered(program, script, most):
    """A view sends so many events, and then one for each answer."""
    with hosting(program, script) as host:
        wire = host.greet()
        expect(JOIN_FRESH, heard(wire))
        wire.say(binary(SYNC) + binary(JOIN))
        for number in range(1, most + 1):
            expect(number, number_of_send(heard(wire)))
        for number in (1, 2):
            expect_that(not wire.held and not select.select([wire.socket], [], [], 0.3)[0],
                        "no event before an answer", wire.held)
            wire.say(binary(done_frame(number)))
            expect(most + number, number_of_send(heard(wire)))
        wire.say(binary(done_frame(3)))
        ends_well(wire)
        expect_run(host.end(), joined_line(1), 0)


def number_of_send(content):
    """The number of a SEND."""
    expect(2, content[0])
    return int.from_bytes(content[1:5], "big")


def done_frame(number):
    return croquet.framed(croquet.DONE_TAG, croquet.number(number, 4), croquet.number(number + 1, 4),
                          croquet.number(number + 1, 8))


def bytes_may_come_one_at_a_time(program):
    with hosting(program, b"wait 2\n") as host:
        wire = host.meet()
        key = websocket.key_of_request(wire.read_head())
        wire.say_slowly(websocket.acceptance_of(key))
        expect(JOIN_FRESH, heard(wire))
        wire.say_slowly(binary(SYNC) + binary(JOIN) + binary(TICK))
        ends_well(wire)
        expect_joined(host.end())


def pings_are_answered_and_fragments_are_one_frame(program):
    with hosting(program, b"wait 2\n") as host:
        wire = host.greet()
        expect(JOIN_FRESH, heard(wire))
        wire.say(frame(BINARY, SYNC[:3], final=False) + frame(PING, b"p") + frame(0, SYNC[3:]))
        final, opcode, mask, content = wire.read_frame()
        expect((True, PONG, True, b"p"), (final, opcode, mask is not None, content))
        wire.say(frame(PONG, b"") + binary(JOIN)[:5])
        time.sleep(0.2)
        wire.say(binary(JOIN)[5:] + binary(TICK))
        ends_well(wire)
        expect_joined(host.end())


def the_longest_frame_is_taken(program):
    """Its base is none, so the view joins anew and wants all entries."""
    long_base = SYNC[:-1] + b"\1" + bytes(8) + croquet.bytes_field(bytes(LONGEST - 26))
    expect(LONGEST, len(long_base))
    with hosting(program, b"wait 2\n") as host:
        wire = host.greet()
        wire.say(binary(long_base))
        expect(JOIN_FRESH, heard(wire))
        is_close(wire, 1000)
        wire.close()
        again = host.greet()
        expect(JOIN_WHOLE, heard(again))
        again.say(binary(SYNC) + binary(JOIN) + binary(TICK))
        ends_well(again)
        expect_joined(host.end())


def a_quiet_link_is_told_that_the_view_is_alive(program):
    """After 1,000 receives of about 10 milliseconds each."""
    with hosting(program, b"wait 2\n") as host:
        wire = host.greet()
        expect(JOIN_FRESH, heard(wire))
        wire.say(binary(SYNC) + binary(JOIN))
        begun = time.monotonic()
        wire.socket.settimeout(60)
        expect(croquet.ALIVE, heard(wire))
        expect_that(time.monotonic() - begun > 5, "an ALIVE after about 10 seconds", "one before 5")
        wire.say(binary(TICK))
        ends_well(wire)
        expect_joined(host.end())


def a_peer_that_does_not_end_is_left(program):
    """A view that is done waits for the end of its link a second, and no longer."""
    with hosting(program, b"") as host:
        wire = host.greet()
        wire.say(binary(SYNC))
        expect((JOIN_FRESH, croquet.LEAVE), (heard(wire), heard(wire)))
        is_close(wire, 1000)
        begun = time.monotonic()
        run = host.end()
        expect_that(time.monotonic() - begun < 10, "an end after a second", "one after 10 seconds")
        expect(0, run.status)


# ---------------------------------------------------------------- that end


def after_sync(content, line, status, close=None):
    """The server says this behind its SYNC, and ends its side; the run ends so."""
    def check(program):
        with hosting(program, b"wait 2\n") as host:
            wire = host.greet()
            expect(JOIN_FRESH, heard(wire))
            wire.say(binary(SYNC) + content)
            if close is None:
                wire.stop_sending()
            else:
                is_close(wire, close)
                expect(b"", wire.read_all())
                wire.stop_sending()
            expect_run(host.end(), line, status)

    return check


ENDS = {
    "an orderly end of TCP": after_sync(b"", "ended", 9),
    "half a frame and the end": after_sync(binary(TICK)[:6], "ended", 9),
    "a close, which is answered by its code,": after_sync(CLOSE_NORMAL, "ended", 9, 1000),
    "a text, which is told so,": after_sync(frame(TEXT, b"hi"), "net-fault", 6, 1002),
    "a frame with a mask": after_sync(frame(BINARY, TICK, b"mask"), "net-fault", 6),
    "one byte too many": after_sync(b"\x82\x7f\0\0\0\0\0\x80\0\x01a", "net-fault", 6),
    "an opcode that is reserved": after_sync(frame(3, b"a"), "net-fault", 6),
    "a bit that is reserved": after_sync(b"\xc2" + binary(TICK)[1:], "net-fault", 6),
    "a continuation of nothing": after_sync(frame(0, b"a"), "net-fault", 6),
    "a frame that does not read": after_sync(binary(b"\xff"), "peer", 10),
}


def a_reset_is_a_fault(program):
    with hosting(program, b"wait 2\n") as host:
        wire = host.greet()
        wire.say(binary(SYNC))
        expect(JOIN_FRESH, heard(wire))
        time.sleep(0.1)
        wire.reset()
        expect_run(host.end(), "net-fault", 6)


def handshake(answer_of):
    """A server whose answer to the key is this; the run ends with a fault of the net."""
    def check(program):
        with hosting(program, b"wait 2\n") as host:
            wire = host.meet()
            wire.say(answer_of(websocket.key_of_request(wire.read_head())))
            wire.stop_sending()
            expect_run(host.end(), "net-fault", 6)
            expect(b"", wire.held)

    return check


HANDSHAKES = {
    "of a server of another kind": handshake(lambda key: b"HTTP/1.1 404 Not Found\r\n\r\n"),
    "with a wrong answer to the key":
        handshake(lambda key: websocket.acceptance_of(key[:-3] + b"x==")),
    "without an answer to the key": handshake(
        lambda key: b"HTTP/1.1 101 Switching Protocols\r\nUpgrade: websocket\r\n"
                    b"Connection: Upgrade\r\n\r\n"),
    "without an upgrade": handshake(
        lambda key: websocket.acceptance_of(key).replace(b"Upgrade: websocket\r\n", b"")),
    "that ends in its midst": handshake(lambda key: websocket.acceptance_of(key)[:40]),
}


def a_server_that_does_not_answer_is_given_up(program):
    """After about 5 seconds."""
    with hosting(program, b"wait 2\n") as host:
        wire = host.meet()
        wire.read_head()
        expect_run(host.end(), "net-fault", 6)


def a_server_that_does_not_read_is_given_up(program):
    """After 5 seconds in which nothing could be sent. The answers come, so that the view goes on sending."""
    with hosting(program, publishes(4_015) * 2_500 + b"settle\n", receive_buffer=4096) as host:
        wire = host.greet()
        wire.say(binary(SYNC) + b"".join(binary(done_frame(number)) for number in range(1, 2_485)))
        expect_run(host.end(), "net-fault", 6)


CHECKS = [a_server_that_does_not_read_is_given_up, a_server_that_does_not_answer_is_given_up,
          a_quiet_link_is_told_that_the_view_is_alive, the_longest_frame_is_taken,
          a_view_speaks_by_the_standard, who_publishes_listens_behind_4096_events,
          who_publishes_listens_behind_65536_bytes, who_publishes_counts_each_byte,
          bytes_may_come_one_at_a_time,
          pings_are_answered_and_fragments_are_one_frame, a_peer_that_does_not_end_is_left,
          a_reset_is_a_fault]


def join_cases():
    named = [Case(check.__name__.replace("_", " "), check) for check in CHECKS]
    named += [Case(f"{name} ends the run", check) for name, check in ENDS.items()]
    return named + [Case(f"a handshake {name} is a fault", check)
                    for name, check in HANDSHAKES.items()]


PARTS = {"joins": join_cases}
