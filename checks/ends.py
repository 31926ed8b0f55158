"""Links of `reflect` whose talk is over: each is closed at once, while others go on."""
import statistics
import threading
import time

import websocket
from case import Case, expect, expect_that
from reflector import EMPTY, LEAVE, expect_words, leave_all, reflecting, served_log
from websocket import BINARY, CLOSE, PING, Wire, frame

ROUNDS = 5
NO_MASK = bytes(4)
# What medians stay below: the seconds to the end of what is sent, and those of a run of `join`, which waits a second for a reflector that does not close its link.
TOLD_SECONDS, JOIN_SECONDS = 0.2, 0.7
# Within which seconds the socket ends, which is read on for one.
LEAST_SECONDS, MOST_SECONDS = 0.8, 1.2


def end_of(wire):
    """The seconds to a Close and the end behind it, and those to the end of the socket. The client sends pings, and ends nothing."""
    begun = time.monotonic()
    while (read := wire.read_frame())[1] != CLOSE:
        expect_that(read[1] in (BINARY, PING), "frames up to a Close", read)
    expect((b"\x03\xe8", b""), (read[3], wire.read_all()))
    told = time.monotonic()
    while takes_a_ping(wire):
        expect_that(time.monotonic() < told + Wire.patience, "a socket that is closed", "one that takes pings")
        time.sleep(0.02)
    return told - begun, time.monotonic() - begun


def takes_a_ping(wire):
    """Whether a ping can still be sent: it cannot once the other side has closed its socket."""
    try:
        wire.say(frame(PING, b"", NO_MASK))
        return True
    except OSError:
        return False


def expect_socket_end(seconds):
    expect_that(LEAST_SECONDS < seconds < MOST_SECONDS, f"the end of a socket after {LEAST_SECONDS} to {MOST_SECONDS} seconds", seconds)


def say(wire, content):
    wire.say(frame(BINARY, content, NO_MASK))


def who_leaves(reflector):
    """A link whose talk is over, and its word."""
    view = reflector.view(7)
    view.joined()
    view.say(LEAVE)
    return view.wire, ["left"]


def who_is_refused(reflector):
    wire = reflector.connect()
    websocket.ask(wire)
    say(wire, LEAVE)
    return wire, ["refused 14"]


def who_is_stale(reflector):
    """Its view has joined by another link, and has left."""
    old = reflector.view(7)
    old.joined()
    new = reflector.view(7)
    seq = new.joined()[0]
    new.say(LEAVE)
    new.ends()
    old.say(LEAVE)
    return old.wire, [f"stale {seq + 1}", "left"]


def ends_at_once(way):
    """In the median of some links, while a view goes on that is none of them."""
    def check(program):
        links = ROUNDS * (2 if way is who_is_stale else 1)
        with reflecting(program, 1 + links) as reflector:
            stays = reflector.view(1)
            stays.joined()
            taken, words = [], ["left"]
            for _ in range(ROUNDS):
                wire, more = way(reflector)
                taken.append(end_of(wire))
                words += more
            stays.done(b"on")
            leave_all(stays)
            run = reflector.end()
        expect_words(run, words)
        served_log(run, [stays])
        told, socket = map(statistics.median, zip(*taken))
        expect_that(told < TOLD_SECONDS, f"an end within {TOLD_SECONDS} seconds", told)
        expect_socket_end(socket)

    return check


def a_join_ends_at_once(program):
    """Its view leaves, and another one goes on."""
    with reflecting(program, 1 + ROUNDS) as reflector:
        stays = reflector.view(1)
        stays.joined()
        taken = []
        for _ in range(ROUNDS):
            begun = time.monotonic()
            run = program.run(["join", "p", "a", reflector.address, "7", "s"], {"p": EMPTY, "s": b""})
            taken.append(time.monotonic() - begun)
            expect(0, run.status)
        leave_all(stays)
        run = reflector.end()
    expect_words(run, ["left"] * (1 + ROUNDS))
    best = statistics.median(taken)
    expect_that(best < JOIN_SECONDS, f"a run within {JOIN_SECONDS} seconds", best)


def who_is_idle_is_told_its_end(program):
    """A view reads and says nothing, no pong either. It is put out after 6,000 receives; the news of another view ends each, so that takes half a minute."""
    with reflecting(program, 2) as reflector:
        idle, busy = reflector.view(1), reflector.view(2)
        idle.joined()
        over = threading.Event()
        talk = threading.Thread(target=talk_until, args=(busy, over))
        talk.start()
        try:
            told, socket = end_of(idle.wire)
        finally:
            over.set()
            talk.join()
        leave_all(busy)
        run = reflector.end()
    expect_words(run, ["idle", "left"])
    served_log(run, [busy])
    expect_that(told > 20, "an end after 6,000 receives", told)
    expect_socket_end(socket - told)


def talk_until(view, over):
    """Sends one event after the other."""
    while not over.is_set():
        view.done(b"here")
        time.sleep(0.002)


def end_cases():
    return [Case("who leaves has its end at once", ends_at_once(who_leaves)),
            Case("who is refused has its end at once", ends_at_once(who_is_refused)),
            Case("who is stale has its end at once", ends_at_once(who_is_stale)),
            Case("a join ends at once", a_join_ends_at_once)]


PARTS = {"ends": end_cases, "long-ends": lambda: [Case("who is idle is told its end", who_is_idle_is_told_its_end)]}
