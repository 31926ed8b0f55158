"""`reflect` over sockets, byte by byte: the other side is a client by hand."""
import time

import websocket
from case import Case, expect
from reference import croquet
from reflector import (LEAVE, Reflector, expect_entries, expect_words, join_frame, leave_all,
                       reflecting, send_frame, served_log)
from websocket import BINARY, CLOSE_NORMAL, PING, PONG, TEXT, frame, request_of

# The key of RFC 6455, 1.3, and what answers it.
KEY, ACCEPT = b"dGhlIHNhbXBsZSBub25jZQ==", b"s3pPLMBiTxaQ9kYGzzhZRbK+xOo="
LONGEST = 8_388_608
MASK = b"\x37\xfa\x21\x3d"
CLOSE_OF_FAULT = b"\x88\x02\x03\xea"


def beside(program, speak, word, has_joined):
    """A client by hand speaks beside a view, which it does not hurt. It ends with this word."""
    with reflecting(program, 2) as reflector:
        view = reflector.view(1)
        view.done(b"before")
        wire = reflector.connect()
        speak(wire, reflector)
        seq = 5 if has_joined else 3
        if has_joined:
            view.until_entry(4)
        expect(seq, view.done(b"behind")[0])
        view.say(LEAVE)
        wire.close()
        view.ends()
        run = reflector.end()
    expect_words(run, ["left", word])
    joined = "3:join:7 4:exit:7 " if has_joined else ""
    expect_entries(served_log(run, [view]),
                   f"1:join:1 2:event:1:1:6265666f7265 {joined}"
                   f"{seq}:event:1:2:626568696e64 {seq + 1}:exit:1")


def begin(wire, reflector):
    """A view 7 joins, and hears that it has."""
    websocket.ask(wire)
    wire.say(frame(BINARY, join_frame(reflector.ident, 7), MASK))
    hear(wire, "sync")


def hear(wire, wanted):
    """Reads on to a frame of this name."""
    while True:
        _, opcode, _, content = wire.read_frame()
        expect(BINARY, opcode)
        name, fields = croquet.read_server(content)
        if name == wanted:
            return fields


def tail(wire):
    """What comes behind the frames that tell of the session, up to the end."""
    while True:
        _, opcode, _, content = wire.read_frame()
        if opcode != BINARY:
            return frame(opcode, content) + wire.read_all()


# ---------------------------------------------------------------- handshakes


def the_key_of_the_standard_is_answered(program):
    def speak(wire, _):
        wire.say(request_of(KEY))
        head = wire.read_head()
        websocket.check_acceptance(head, KEY)
        expect(ACCEPT, websocket.fields_of(head)[1][b"sec-websocket-accept"])
        wire.stop_sending()

    beside(program, speak, "link-end", False)


BAD_REQUESTS = {
    "without an upgrade": b"GET / HTTP/1.1\r\nHost: here\r\n\r\n",
    "without a key": request_of(KEY).replace(b"Sec-WebSocket-Key", b"Sec-WebSocket-Kex"),
    "of another version": request_of(KEY).replace(b"Version: 13", b"Version: 12"),
    "by another method": request_of(KEY).replace(b"GET", b"PUT"),
    "of HTTP/1.0": request_of(KEY).replace(b"HTTP/1.1", b"HTTP/1.0"),
    "that is none": b"\x16\x03\x01\x02\0\x01\0\x01\xfc\x03\x03\r\n\r\n",
}


def bad_handshake(request):
    def speak(wire, _):
        wire.say(request)
        time.sleep(0.1)

    return lambda program: beside(program, speak, "link-fault", False)


def bytes_may_come_one_at_a_time(program):
    with reflecting(program, 1) as reflector:
        wire = reflector.connect()
        wire.say_slowly(request_of(KEY))
        websocket.check_acceptance(wire.read_head(), KEY)
        for content, answer in [(join_frame(reflector.ident, 7), "sync"),
                                (send_frame(1, b"hi"), "done")]:
            wire.say_slowly(frame(BINARY, content, MASK))
            hear(wire, answer)
        wire.say_slowly(frame(BINARY, LEAVE, MASK))
        expect(CLOSE_NORMAL, tail(wire))
        run = reflector.end()
    expect_words(run, ["left"])
    expect_entries(served_log(run, []), "1:join:7 2:event:7:1:6869 3:exit:7")


def an_end_in_the_midst_of_a_handshake_is_an_end(program):
    def speak(wire, _):
        wire.say(b"GET / HT")
        time.sleep(0.05)
        wire.stop_sending()

    beside(program, speak, "link-end", False)


# ---------------------------------------------------------------- ends


def a_close_is_answered_by_its_code(program):
    def speak(wire, reflector):
        begin(wire, reflector)
        wire.say(b"\x88\x82\0\0\0\0\x03\xe8")
        expect(CLOSE_NORMAL, tail(wire))

    beside(program, speak, "link-end", True)


def an_orderly_end_of_tcp_is_an_end(program):
    def speak(wire, reflector):
        begin(wire, reflector)
        wire.stop_sending()

    beside(program, speak, "link-end", True)


def half_a_frame_and_the_end_is_an_end(program):
    def speak(wire, reflector):
        begin(wire, reflector)
        wire.say(frame(BINARY, send_frame(1, b"hi"), MASK)[:9])
        wire.stop_sending()

    beside(program, speak, "link-end", True)


def a_reset_is_a_fault(program):
    def speak(wire, reflector):
        begin(wire, reflector)
        wire.reset()

    beside(program, speak, "link-fault", True)


def a_text_is_a_fault_and_told_so(program):
    def speak(wire, reflector):
        begin(wire, reflector)
        wire.say(frame(TEXT, b"hi", MASK))
        expect(CLOSE_OF_FAULT, tail(wire))

    beside(program, speak, "link-fault", True)


BREACHES = {
    "a frame without a mask": frame(BINARY, b"a"),
    "one byte too many": b"\x82\xff\0\0\0\0\0\x80\0\x01" + MASK + b"a",
    "one byte too many in two fragments":
        frame(BINARY, bytes(LONGEST), bytes(4), final=False) + frame(0, b"a", MASK),
    "an opcode that is reserved": frame(3, b"a", MASK),
    "a bit that is reserved": b"\xc2" + frame(BINARY, b"a", MASK)[1:],
    "a ping in fragments": frame(PING, b"a", MASK, final=False),
    "a ping that is too long": frame(PING, bytes(126), MASK),
    "a continuation of nothing": frame(0, b"a", MASK),
    "a new message in the midst of one":
        frame(BINARY, b"a", MASK, final=False) + frame(BINARY, b"a", MASK),
}


def breach(content):
    def speak(wire, reflector):
        begin(wire, reflector)
        wire.say(content)

    return lambda program: beside(program, speak, "link-fault", True)


# ---------------------------------------------------------------- frames


def pings_are_answered_and_fragments_are_one_frame(program):
    def speak(wire, reflector):
        websocket.ask(wire)
        wire.say(frame(PING, b"p", MASK))
        expect((True, PONG, None, b"p"), wire.read_frame())
        wire.say(frame(PONG, b"unasked", MASK))
        content = join_frame(reflector.ident, 7)
        wire.say(frame(BINARY, content[:5], MASK, final=False) + frame(PING, b"", MASK)
                 + frame(0, b"", MASK, final=False) + frame(0, content[5:], MASK))
        expect((True, PONG, None, b""), wire.read_frame())
        hear(wire, "sync")
        wire.stop_sending()

    beside(program, speak, "link-end", True)


def half_a_frame_waits_for_its_rest(program):
    def speak(wire, reflector):
        begin(wire, reflector)
        said = frame(BINARY, send_frame(2, b"gap"), MASK)
        wire.say(said[:7])
        time.sleep(0.2)
        wire.say(said[7:])
        expect((2, 4, 1, 0), hear(wire, "refused"))
        wire.stop_sending()

    beside(program, speak, "link-end", True)


def the_longest_frame_is_taken(program):
    """It is heard whole: its payload is refused for its length."""
    def speak(wire, reflector):
        begin(wire, reflector)
        content = send_frame(1, bytes(LONGEST - 9))
        wire.say(frame(BINARY, content, MASK))
        expect((2, 2, LONGEST - 9, 0), hear(wire, "refused"))
        wire.stop_sending()

    beside(program, speak, "link-end", True)


def a_peer_that_does_not_read_is_a_fault_of_its_link(program):
    """It is given up after 5 seconds, while others go on."""
    with reflecting(program, 2) as reflector:
        view = reflector.view(1)
        deaf = reflector.view(7, receive_buffer=4096)
        deaf.joined()
        for _ in range(25):
            numbers = [view.number + 1 + place for place in range(100)]
            for _ in numbers:
                view.send(b"x" * 4096)
            expect(numbers, [view.until("done")[0] for _ in numbers])
        for _ in view.waiting(lambda: ("exit", 7) in [(e.kind, e.view) for e in view.entries],
                              "an exit of the deaf view"):
            view.hear()
        leave_all(view)
        run = reflector.end()
    expect_words(run, ["left", "link-fault"])
    served_log(run, [view])


# ---------------------------------------------------------------- addresses


def an_address_is_taken_again_at_once(program):
    """The reflector ended its link first, and its client has not ended it yet."""
    first = Reflector(program, 1)
    view = first.view(7)
    view.say(LEAVE)
    view.until("close")
    first.holder.close()
    expect(0, first.run.end().status)
    again = Reflector(program, 1, port=first.port)
    other = again.view(8)
    leave_all(other)
    run = again.end()
    first.wires[0].close()
    expect_words(run, ["left"])
    expect_entries(served_log(run, [other]), "1:join:8 2:exit:8")


CHECKS = [
    a_peer_that_does_not_read_is_a_fault_of_its_link, the_longest_frame_is_taken,
    bytes_may_come_one_at_a_time, the_key_of_the_standard_is_answered,
    an_end_in_the_midst_of_a_handshake_is_an_end, a_close_is_answered_by_its_code,
    an_orderly_end_of_tcp_is_an_end, half_a_frame_and_the_end_is_an_end, a_reset_is_a_fault,
    a_text_is_a_fault_and_told_so, pings_are_answered_and_fragments_are_one_frame,
    half_a_frame_waits_for_its_rest, an_address_is_taken_again_at_once]


def socket_cases():
    named = [Case(check.__name__.replace("_", " "), check) for check in CHECKS]
    named += [Case(f"{name} is a fault of its link", breach(content))
              for name, content in BREACHES.items()]
    return named + [Case(f"a handshake {name} is a fault of its link", bad_handshake(request))
                    for name, request in BAD_REQUESTS.items()]


PARTS = {"sockets": socket_cases}
