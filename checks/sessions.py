"""Sessions of `reflect` with views by hand."""
import time

import websocket
from case import Case, expect, expect_that, read_cases
from commands import reference_cases
from reference import croquet, expanded, log_text
from reflector import (ALIVE, LAST_LINE, LEAVE, EMPTY, expect_entries, expect_words, leave_all,
                       reflecting, send_frame, served_log, snap_frame)
from views import frame_of
from websocket import BINARY, CLOSE_NORMAL, frame


def events_are_acknowledged(program):
    with reflecting(program, 2) as reflector:
        first, other = reflector.view(7), reflector.view(8)
        stamps = [first.done(b"hi"), other.done(b""), first.done(b"hi"), first.done(b"x" * 4096)]
        leave_all(first, other)
        run = reflector.end()
    expect_words(run, ["left", "left"])
    entries = served_log(run, [first, other])
    for (seq, time_), payload in zip(stamps, [b"hi", b"", b"hi", b"x" * 4096]):
        expect((seq, time_, payload),
               (entries[seq - 1].seq, entries[seq - 1].time, entries[seq - 1].payload))
    expect([("event", 7, 1), ("event", 7, 2), ("event", 7, 3)],
           [(e.kind, e.view, e.number) for e in entries if e.view == 7 and e.kind == "event"])


def a_number_again_has_its_stamp(program):
    with reflecting(program, 1) as reflector:
        view = reflector.view(7)
        stamp = view.done(b"hi")
        view.done(b"other")
        view.send(b"hi", 1)
        expect((1, *stamp), view.until("done"))
        leave_all(view)
        run = reflector.end()
    expect_entries(served_log(run, [view]),
                   "1:join:7 2:event:7:1:6869 3:event:7:2:6f74686572 4:exit:7")


def wrong_events_are_refused(program):
    """A SEND is refused for its cause, and the connection goes on."""
    with reflecting(program, 1) as reflector:
        view = reflector.view(7)
        view.done(b"hi")
        for number, payload, refusal in [(1, b"ho", (2, 3, 2, 0)), (1, b"", (2, 3, 2, 0)),
                                         (3, b"hi", (2, 4, 2, 0)), (2**32 - 1, b"", (2, 4, 2, 0)),
                                         (2, b"x" * 4097, (2, 2, 4097, 0)),
                                         (1, b"x" * 5000, (2, 2, 5000, 0))]:
            view.send(payload, number)
            expect(refusal, view.refused())
        view.say(send_frame(0, b""))
        expect((2, 4, 2, 0), view.refused())
        view.done(b"on")
        leave_all(view)
        run = reflector.end()
    expect_entries(served_log(run, [view]), "1:join:7 2:event:7:1:6869 3:event:7:2:6f6e 4:exit:7")


def a_view_is_taken_over(program):
    """A view joins by another link: the first link is stale, and what was sent is not stamped twice."""
    with reflecting(program, 2) as reflector:
        old = reflector.view(7)
        stamp = old.done(b"hi")
        new = reflector.view(7)
        expect((3, 1, 0, None), new.joined())
        old.until_entry(3)
        old.send(b"late")
        expect((2, 1, 3, 0), old.refused())
        new.send(b"hi")
        expect((1, *stamp), new.until("done"))
        new.done(b"more")
        leave_all(new)
        old.ends()
        run = reflector.end()
    expect_words(run, ["stale 3", "left"])
    expect_entries(served_log(run, [old, new]),
                   "1:join:7 2:event:7:1:6869 3:join:7 4:event:7:2:6d6f7265 5:exit:7")


def a_leave_of_an_old_link_is_stale(program):
    with reflecting(program, 2) as reflector:
        old = reflector.view(7)
        old.joined()
        new = reflector.view(7)
        new.joined()
        old.say(LEAVE)
        expect((4, 1, 2, 0), old.refused())
        leave_all(new)
        old.ends()
        run = reflector.end()
    expect_words(run, ["stale 2", "left"])
    expect_entries(served_log(run, [old, new]), "1:join:7 2:join:7 3:exit:7")


def a_snapshot_is_kept_for_who_joins(program):
    with reflecting(program, 4) as reflector:
        giver = reflector.view(7)
        _, time_ = giver.done(b"hi")
        giver.until_tick(time_ + 1)
        giver.say(snap_frame(time_, b"first"))
        expect((time_,), giver.until("snapped"))
        giver.say(snap_frame(time_, b"again"))
        expect((3, 10, time_, 0), giver.refused())
        giver.say(snap_frame(2**53 - 1, b"ahead"))
        expect((3, 9), giver.refused()[:2])
        fresh, whole = reflector.view(8, "fresh"), reflector.view(9, "whole")
        late = reflector.view(10, "after", time_ - 1)
        base = (time_, b"first")
        expect([(0, 2, base), (0, 0, None), (0, 1, None)],
               [view.joined()[1:] for view in (fresh, whole, late)])
        views = [giver, fresh, whole, late]
        leave_all(*views)
        run = reflector.end()
    expect_words(run, ["left"] * 4)
    served_log(run, views)


def a_snapshot_has_so_many_bytes_at_most(program):
    with reflecting(program, 2) as reflector:
        giver = reflector.view(7)
        giver.joined()
        giver.say(snap_frame(0, b"x" * 4_194_305))
        expect((3, 2, 4_194_305, 0), giver.refused())
        giver.say(snap_frame(0, b"y" * 4_194_304))
        expect((0,), giver.until("snapped"))
        fresh = reflector.view(8, "fresh")
        _, _, from_, (time_, content) = fresh.joined()
        expect((0, 0, b"y" * 4_194_304), (from_, time_, content))
        leave_all(giver, fresh)
        served_log(reflector.end(), [giver, fresh])


def times_are_those_of_the_clock(program):
    """Times rise with the clock, and are not above the time since the program began."""
    with reflecting(program, 1) as reflector:
        view = reflector.view(7)
        _, first = view.done(b"one")
        view.until_tick(first + 300_000)
        since = time.monotonic()
        _, second = view.done(b"two")
        passed = (time.monotonic() - reflector.begun) * 1e6
        expect_that(first + 300_000 < second <= passed,
                    f"a time from {first + 300_000} to {passed:.0f}", second)
        view.until_tick(second + 500_000)
        waited = time.monotonic() - since
        expect_that(waited > 0.4, "half a second for half a second", f"{waited} seconds")
        leave_all(view)
        served_log(reflector.end(), [view])


def joins_are_refused(program):
    """The first frame has to be a JOIN of this session, of a view, and of a time that came."""
    ident = croquet.session_id(b"a", EMPTY)
    other = croquet.session_id(b"b", EMPTY)
    firsts = [(croquet.framed(croquet.JOIN_TAG, ident, bytes(4), b"\1"), (1, 8, 0, 0)),
              (croquet.framed(croquet.JOIN_TAG, other, bytes([0, 0, 0, 7]), b"\1"), (1, 12, 0, 0)),
              (LEAVE, (4, 14, 0, 0)), (ALIVE, (5, 14, 0, 0)), (send_frame(1, b"hi"), (2, 14, 0, 0)),
              (snap_frame(0, b""), (3, 14, 0, 0)), (b"", (0, 13, 0, 0)), (b"\xff", (0, 13, 0, 0)),
              (LEAVE + b"\0", (0, 13, 0, 0)),
              (croquet.framed(croquet.JOIN_TAG, ident, bytes([0, 0, 0, 7]), b"\3"), (0, 13, 0, 0))]
    with reflecting(program, len(firsts)) as reflector:
        for first, refusal in firsts:
            wire = reflector.connect()
            websocket.ask(wire)
            wire.say(frame(BINARY, first, b"mask"))
            expect(("refused", refusal), croquet.read_server(wire.read_frame()[3]))
        expect([CLOSE_NORMAL] * len(firsts), [wire.read_all() for wire in reflector.wires])
        run = reflector.end()
    expect_words(run, [f"refused {refusal[1]}" for _, refusal in firsts])
    expect_entries(served_log(run, []), "")


def a_join_ahead_of_time_is_refused(program):
    with reflecting(program, 2) as reflector:
        view = reflector.view(7)
        view.joined()
        early = reflector.view(8, "after", 2**53 - 1)
        expect((1, 9), early.refused()[:2])
        leave_all(view)
        early.ends()
        run = reflector.end()
    expect_words(run, ["left", "refused 9"])
    expect_entries(served_log(run, [view]), "1:join:7 2:exit:7")


def other_frames_are_answered(program):
    """An ALIVE, a second JOIN and what is no frame are answered, and the connection goes on."""
    with reflecting(program, 1) as reflector:
        view = reflector.view(7)
        view.joined()
        view.say(ALIVE)
        view.until("alive")
        view.say(croquet.framed(croquet.JOIN_TAG, reflector.ident, bytes([0, 0, 0, 7]), b"\1"))
        expect((1, 15, 0, 0), view.refused())
        for content in (b"", b"\xff", b"\x41", ALIVE + b"\0"):
            view.say(content)
            expect((0, 13, 0, 0), view.refused())
        view.done(b"on")
        leave_all(view)
        run = reflector.end()
    expect_words(run, ["left"])
    expect_entries(served_log(run, [view]), "1:join:7 2:event:7:1:6f6e 3:exit:7")


def a_view_that_is_cut_off_is_put_out(program):
    """Its Exit stands in the log, it joins again behind what it has, and what it sends again is not put twice."""
    with reflecting(program, 3) as reflector:
        watcher = reflector.view(1)
        watcher.joined()
        view = reflector.view(7)
        seq, time_ = view.done(b"hi")
        view.until_entry(seq)
        view.wire.reset()
        expect(("exit", 7), (lambda entry: (entry.kind, entry.view))(watcher.until_entry(seq + 1)))
        again = reflector.view(7, "after", time_)
        expect((seq + 2, 1, seq, None), again.joined())
        again.send(b"hi")
        expect((1, seq, time_), again.until("done"))
        leave_all(watcher, again)
        run = reflector.end()
    expect_words(run, ["left", "link-fault", "left"])
    served_log(run, [watcher, view, again])


def sixty_four_links_are_served_at_once(program):
    with reflecting(program, 64) as reflector:
        views = [reflector.view(number) for number in range(1, 65)]
        for view in views:
            view.done(b"hi")
        for view in views:
            view.until_entry(128)
        leave_all(*views)
        run = reflector.end()
    expect_words(run, ["left"] * 64)
    entries = served_log(run, views)
    expect([64, 64, 64], [sum(entry.kind == kind for entry in entries)
                          for kind in ("join", "event", "exit")])


def many_events_come_to_who_joins_late(program):
    """Entries are served in batches, none twice and none left out."""
    with reflecting(program, 2) as reflector:
        view = reflector.view(7)
        for number in range(1, 1001):
            view.send(str(number).encode())
        for number in range(1, 1001):
            expect(number, view.until("done")[0])
        late = reflector.view(8)
        late.until_entry(1002)
        leave_all(view, late)
        run = reflector.end()
    entries = served_log(run, [view, late])
    expect([str(number).encode() for number in range(1, 1001)],
           [entry.payload for entry in entries if entry.kind == "event"])


# ---------------------------------------------------------------- data lines


def without_times(contents):
    """Frames as texts, without times and ticks."""
    told = []
    for content in contents:
        name, fields = croquet.read_server(content)
        if name == "recv":
            told.append(f"recv {log_text(fields)}")
        elif name == "done":
            told.append(f"done {fields[:2]}")
        elif name != "tick":
            told.append(f"{name} {fields}")
    return told


def say_all(wire, frames):
    """Says the frames and the end."""
    websocket.ask(wire)
    said = [frame(BINARY, content, b"mask") for content in frames]
    wire.say(b"".join(said) + frame(websocket.CLOSE, b"\x03\xe8", b"mask"))


def hear_all(wire):
    """The frames up to the close."""
    heard = []
    while True:
        _, opcode, _, content = wire.read_frame()
        if opcode == websocket.CLOSE:
            return heard
        heard.append(content)


def wanted_session(wanted):
    """The printed lines, the log, and the frames of each link."""
    told, *links = wanted.rpartition(" ; ")[0].split(" > ")
    text, _, digits = told.partition(" f=")
    frames = [[bytes.fromhex(word) for word in link.partition("heard")[0].split()] for link in links]
    return text, bytes.fromhex(digits), frames


def frames_of(part):
    return [] if part == "-" else [frame_of(word) for word in part.split(" ")]


def opening_of(parts):
    """The bytes of the file that a line names by its first part, if it does, and the parts that follow."""
    if not parts[0].startswith("from "):
        return None, parts
    return bytes.fromhex(parts[0].removeprefix("from ")), parts[1:]


def check_reflector(program, case, wanted):
    """A line of `reflectors`, with the times of the clock in place of those of a clock at 0."""
    _, source, *parts = case.decode().split(" | ")
    stored, parts = opening_of(parts)
    text, log, links = wanted_session(wanted)
    with reflecting(program, len(links), source.encode(), stored=stored) as reflector:
        for part, _ in zip(parts, links):
            say_all(reflector.connect(), frames_of(part))
        heard = [hear_all(wire) for wire in reflector.wires]
        run = reflector.end()
    expect([without_times(link) for link in links], [without_times(link) for link in heard])
    expect(LAST_LINE.sub("", text), LAST_LINE.sub("", run.told()))
    session = croquet.read_stored(log)
    expect(log_text(session.log), log_text(served_log(run, [])))
    expect(session.kept, croquet.read_stored(run.files["f"]).kept)


def check_no_reflector(program, case, wanted):
    """A line of `reflectors` whose inputs are refused."""
    head, source, *parts = case.decode().split(" | ")
    stored, parts = opening_of(parts)
    options, files = ([], {}) if stored is None else (["--from", "o"], {"o": stored})
    address = next((part.removeprefix("address ") for part in parts if part.startswith("address ")), "localhost:1")
    words = ["reflect", "p", "a", address, "--connections", head.split(" ")[1], "--log", "f", *options]
    run = program.run(words, {"p": source.encode(), **files})
    expect((wanted.partition(" ; ")[0], {}), (run.told(), run.files))


def reflector_cases():
    def case_of(case, wanted):
        check = check_no_reflector if wanted.startswith("input ") else check_reflector
        return Case(case, lambda program: check(program, expanded(case), wanted))

    cases = [case_of(case, wanted) for case, wanted in read_cases("reflectors")]
    return reference_cases("reflectors", "reflectors") + cases


SESSIONS = [
    sixty_four_links_are_served_at_once, many_events_come_to_who_joins_late,
    a_snapshot_has_so_many_bytes_at_most, times_are_those_of_the_clock, events_are_acknowledged,
    a_number_again_has_its_stamp, wrong_events_are_refused, a_view_is_taken_over,
    a_leave_of_an_old_link_is_stale, a_snapshot_is_kept_for_who_joins, joins_are_refused,
    a_join_ahead_of_time_is_refused, other_frames_are_answered, a_view_that_is_cut_off_is_put_out]


def named_cases(checks):
    return [Case(check.__name__.replace("_", " "), check) for check in checks]


PARTS = {"sessions": lambda: named_cases(SESSIONS), "reflectors": reflector_cases}
