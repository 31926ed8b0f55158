"""How long things take at the links of `reflect`, and what its clock gives."""
import re
import select
import statistics
import threading
import time

import websocket
from case import Case, expect, expect_that
from reference import croquet
from reflector import (ALIVE, EMPTY, LEAVE, expect_words, join_frame, leave_all, reflecting, send_frame,
                       served_log, snap_frame)
from websocket import BINARY, PING, PONG, Wire, frame

ROUNDS = 5
MOST_SENT = 1_000_000
NO_MASK = bytes(4)


# ---------------------------------------------------------------- soon


def another_has_news_soon(program):
    """A SEND has come to another view after 6 milliseconds, in the median of one of five rounds.

    A link that looks for news by a timer of 10 milliseconds or more does not reach that.
    """
    with reflecting(program, 2) as reflector:
        sender, other = reflector.view(1), reflector.view(2)
        sender.joined()
        other.until_entry(2)
        best = min(median_to_another(sender, other) for _ in range(ROUNDS))
        expect_that(best < 0.006, "a RECV of another view within 6 milliseconds", best)
        leave_all(sender, other)
        served_log(reflector.end(), [other])


def median_to_another(sender, other):
    """The median of the seconds from a SEND to another's RECV, of 40 in a row."""
    taken = []
    for _ in range(40):
        sender.done(b"x")
        last = sender.until_entry(sender.from_ + len(sender.entries) + 1).seq
        other.until_entry(last)
        begun = time.monotonic()
        sender.send(b"y")
        other.until_entry(last + 1)
        taken.append(time.monotonic() - begun)
        sender.until("done")
        sender.until_entry(last + 1)
        time.sleep(0.007)
    return statistics.median(taken)


def an_idle_view_has_few_ticks(program):
    """At most 21 a second, and some."""
    with reflecting(program, 1) as reflector:
        view = reflector.view(1)
        view.joined()
        view.until("tick")
        ticks = ticks_within(view, 2)
        expect_that(4 <= ticks <= 43, "4 to 43 ticks in 2 seconds", ticks)
        leave_all(view)
        served_log(reflector.end(), [view])


def who_says_alive_wakes_nobody(program):
    """An idle view has as few ticks beside one that says ALIVE 50 times a second."""
    with reflecting(program, 2) as reflector:
        lively, idle = reflector.view(1), reflector.view(2)
        lively.joined()
        idle.joined()
        idle.until("tick")
        talk = threading.Thread(target=say_alive, args=(lively, time.monotonic() + 2.2))
        talk.start()
        ticks = ticks_within(idle, 2)
        talk.join()
        expect_that(lively.answers > 30, "more than 30 answers to ALIVE", lively.answers)
        expect_that(ticks <= 43, "at most 43 ticks in 2 seconds", ticks)
        leave_all(lively, idle)
        served_log(reflector.end(), [lively, idle])


def say_alive(view, until):
    """Says ALIVE again and again, and counts the answers."""
    view.answers = 0
    while time.monotonic() < until:
        view.say(ALIVE)
        view.until("alive")
        view.answers += 1
        time.sleep(0.02)


def ticks_within(view, seconds):
    until, ticks = time.monotonic() + seconds, 0
    while time.monotonic() < until:
        ticks += view.hear()[0] == "tick"
    return ticks


def a_part_of_a_message_is_no_silence(program):
    """A receive that took a part of a message waits a second for its rest, and so has the next tick."""
    with reflecting(program, 1) as reflector:
        view = reflector.view(1)
        view.joined()
        said = frame(BINARY, send_frame(1, b"late"), NO_MASK)
        view.wire.say(said[:8])
        view.until("tick")
        for place in range(8, len(said)):
            time.sleep(0.2)
            view.wire.say(said[place:place + 1])
        ticks = []
        while (heard := view.hear())[0] != "done":
            ticks.append(heard[0])
        most = (len(said) - 8) * 0.2 * 3 + 3
        expect_that(ticks.count("tick") <= most, f"{most:.0f} ticks at the most", ticks)
        leave_all(view)
        served_log(reflector.end(), [view])


def the_clock_counts_microseconds(program):
    """Where 0.2 seconds pass, ticks tell that, and no tick is ahead of the reflector's age."""
    with reflecting(program, 1) as reflector:
        view = reflector.view(1)
        view.joined()
        first, begun = view.until("tick")[0], time.monotonic()
        while time.monotonic() < begun + 0.2:
            last, ended = view.until("tick")[0], time.monotonic()
        # What was sent long before it was heard may hide some time, so the clock has to have moved by half of it.
        passed = last - first
        expect_that(100_000 <= passed, "at least 100,000 microseconds", passed)
        age = (ended - reflector.begun) * 1e6
        expect_that(last <= age + 1_000, f"at most {age:.0f} microseconds", last)
        leave_all(view)
        served_log(reflector.end(), [view])


# ---------------------------------------------------------------- signs of life


def a_ping_is_told_as_alive(program):
    """Of who has sent a frame. Before that it is answered, and no more."""
    with reflecting(program, 1) as reflector:
        view = reflector.view(1)
        view.joined()
        for opcode, content in [(PING, b"p"), (PONG, b"")]:
            view.wire.say(frame(opcode, content, NO_MASK))
            if opcode == PING:
                expect((True, PONG, None, content), next_beside_ticks(view.wire))
            expect((True, BINARY, None, b"\x47"), next_beside_ticks(view.wire))
        leave_all(view)
        served_log(reflector.end(), [view])


def next_beside_ticks(wire):
    """The next frame that is no RECV and no TICK."""
    while True:
        read = wire.read_frame()
        if read[1] != BINARY or read[3][:1] not in (b"\x42", b"\x43"):
            return read


def who_is_silent_has_a_ping(program):
    """After 15 seconds, and after another 15. A pong is life, and who sends frames has no ping."""
    with reflecting(program, 2) as reflector:
        silent, busy = reflector.view(1), reflector.view(2)
        silent.joined()
        begun = time.monotonic()
        talk = threading.Thread(target=talk_until, args=(busy, begun + 18))
        talk.start()
        while silent.hear()[0] != "ping":
            expect_that(time.monotonic() < begun + 20, "a ping after 15 seconds", "none in 20")
        expect_that(time.monotonic() > begun + 14.5, "a ping after 15 seconds", time.monotonic() - begun)
        silent.until("alive")
        talk.join()
        expect_that("ping" not in busy.heard, "no ping to who sends frames", busy.heard[-3:])
        leave_all(silent, busy)
        served_log(reflector.end(), [silent, busy])


def who_is_silent_among_many_events_has_a_ping_soon(program):
    """After some 1,000 receives, each of which the news of an event has ended: long before 15 seconds."""
    with reflecting(program, 2) as reflector:
        silent, busy = reflector.view(1), reflector.view(2)
        silent.joined()
        begun = time.monotonic()
        talk = threading.Thread(target=talk_until, args=(busy, begun + 12, 0.003))
        talk.start()
        while silent.hear()[0] != "ping":
            expect_that(time.monotonic() < begun + 12, "a ping within 12 seconds", "none")
        silent.until("alive")
        talk.join()
        leave_all(silent, busy)
        served_log(reflector.end(), [silent, busy])


def talk_until(view, until, pause=1):
    """Sends an event each second, and keeps the names of what is heard."""
    view.joined()
    view.heard = []
    while time.monotonic() < until:
        view.send(b"here")
        while not view.heard or view.heard[-1] != "done":
            view.heard.append(view.hear()[0])
        view.heard.append("and on")
        time.sleep(pause)


# ---------------------------------------------------------------- progress


def a_slow_reader_has_a_long_snapshot_whole(program):
    """4 MiB at 200,000 bytes a second, which is 21 seconds: not a byte for 5 seconds would be too slow."""
    snapshot = bytes(range(256)) * 16_384
    with reflecting(program, 2) as reflector:
        giver = reflector.view(1)
        giver.joined()
        time_ = giver.until("tick")[0]
        giver.say(snap_frame(time_, snapshot))
        giver.until("snapped")
        slow = reflector.view(2, want="fresh", receive_buffer=65_536)
        reading = threading.Thread(target=read_slowly, args=(slow.wire, len(snapshot), 200_000))
        reading.start()
        while reading.is_alive():
            giver.hear()
        expect((time_, snapshot), slow.joined()[3])
        leave_all(giver, slow)
        run = reflector.end()
    expect_words(run, ["left", "left"])


def read_slowly(wire, size, rate):
    """Takes so many bytes of what comes, at this rate."""
    begun, taken = time.monotonic(), 0
    while taken < size:
        piece = wire.socket.recv(20_000)
        if not piece:
            return
        wire.held += piece
        taken += len(piece)
        time.sleep(max(0, begun + taken / rate - time.monotonic()))


def a_view_may_publish_300000_lines(program):
    """It listens meanwhile, so neither side waits for the other for ever. All its events are in the log."""
    script = b'publish "a" "b" nil\n' * 300_000
    publishes_all(program, script, ["left"], 300_000)


def a_view_may_publish_long_lines_and_be_cut(program):
    """All payloads have 4,015 bytes. What is not acknowledged is sent again after each cut."""
    lines = b'publish "a" "b" "%s"\n' % (b"x" * 4_000) * 1_000
    publishes_all(program, (lines + b"cut\n") * 3 + lines, ["link-end"] * 3 + ["left"], 4_000)


def publishes_all(program, script, ends, count):
    """A view without a settle. Its connections end so, and the log has its events, so many, once and in order."""
    with reflecting(program, len(ends)) as reflector:
        run = program.start(["join", "p", "a", reflector.address, "7", "s"], {"p": EMPTY, "s": script})
        told = run.end().told().split(" / ")
        expect_that(re.fullmatch(r"view 7 time \d+ seq \d+ digest [0-9a-f]{64}", told[-1]), "a last line", told)
        run = reflector.end()
    expect_words(run, ends)
    events = [entry.number for entry in served_log(run, []) if entry.kind == "event"]
    expect_that(events == list(range(1, count + 1)), f"{count} events", len(events))


# ---------------------------------------------------------------- a flood


def a_flood_puts_nobody_out(program):
    """One view sends as fast as it can for 20 seconds. 59 others read, and say nothing at all."""
    with reflecting(program, 60) as reflector:
        sender = reflector.connect()
        others = [reflector.connect() for _ in range(59)]
        for view, wire in enumerate([sender, *others], 1):
            websocket.ask(wire)
            wire.say(frame(BINARY, join_frame(reflector.ident, view), NO_MASK))
        until = time.monotonic() + 20
        reading = threading.Thread(target=read_all_until, args=(others, until + 0.5))
        reading.start()
        sent = flood(sender, until)
        reading.join()
        for wire in [sender, *others]:
            wire.say(frame(BINARY, LEAVE, NO_MASK))
        read_all_until([sender, *others], time.monotonic() + Wire.patience, to_the_end=True)
        run = reflector.end()
    expect_that(sent > 1_000, "more than 1,000 events in 20 seconds", sent)
    expect_words(run, ["left"] * 60)


def flood(wire, until):
    """Sends events as fast as they are acknowledged, 256 at a time. Gives how many were sent."""
    sent = 0
    while time.monotonic() < until and sent < MOST_SENT:
        wire.say(b"".join(frame(BINARY, send_frame(sent + place, b"flood"), NO_MASK)
                          for place in range(1, 257)))
        sent += 256
        done = croquet.framed(croquet.DONE_TAG, croquet.number(sent, 4))
        while not wire.read_frame()[3].startswith(done):
            pass
    return sent


def read_all_until(wires, until, to_the_end=False):
    """Reads what comes and drops it, until that time or until all have ended."""
    poll = select.poll()
    sockets = {wire.socket.fileno(): wire.socket for wire in wires}
    for number in sockets:
        poll.register(number, select.POLLIN)
    while sockets and time.monotonic() < until:
        for number, _ in poll.poll(100):
            if not sockets[number].recv(1 << 20):
                poll.unregister(number)
                del sockets[number]
    if to_the_end:
        expect([], list(sockets))


# ---------------------------------------------------------------- parts


def named(checks):
    return lambda: [Case(check.__name__.replace("_", " "), check) for check in checks]


PARTS = {
    "times": named([another_has_news_soon, an_idle_view_has_few_ticks, who_says_alive_wakes_nobody,
                    a_part_of_a_message_is_no_silence, the_clock_counts_microseconds,
                    a_ping_is_told_as_alive]),
    "long-times": named([who_is_silent_has_a_ping, who_is_silent_among_many_events_has_a_ping_soon,
                         a_slow_reader_has_a_long_snapshot_whole, a_flood_puts_nobody_out]),
    "long-publish": named([a_view_may_publish_300000_lines, a_view_may_publish_long_lines_and_be_cut]),
}
