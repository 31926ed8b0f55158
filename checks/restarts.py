"""Reflectors that are started again on the file of an earlier run."""
import struct
import time

from case import expect, expect_that
from files import FAILING
from live import SOURCE, check_view, start_join
from onward import FULL, MOST_OPEN, MOST_VIEWS, full_log, stored_session
from reference import croquet, log_text
from reflector import EMPTY, expect_words, leave_all, reflecting, served_log, snap_frame
from sessions import named_cases

# A horizon that no clock of a run comes to.
LATE = 10**12


def has(view):
    """How many entries a view by hand has, and the time of its world."""
    return view.from_ + len(view.entries), max([view.tick, *(entry.time for entry in view.entries)])


def first_run(program):
    """A run in which view 7 sends an event and is cut off: its file, that view, and the stamp of the event."""
    with reflecting(program, 2) as reflector:
        other = reflector.view(8)
        other.joined()
        view = reflector.view(7)
        stamp = view.done(b"hi")
        view.until_tick(stamp[1] + 1)
        view.wire.close()
        other.until_entry(has(view)[0] + 1)
        leave_all(other)
        run = reflector.end()
    served_log(run, [view, other])
    return run.files["f"], view, stamp


def a_client_of_the_first_run_joins_the_second(program):
    """It gets its Exit, its Join and no entry twice, and what it sends again has its stamp."""
    stored, view, stamp = first_run(program)
    count, time_ = has(view)
    with reflecting(program, 1, stored=stored) as reflector:
        again = reflector.view(7, "after", time_)
        joined, last, from_, base = again.joined()
        expect((1, count, None), (last, from_, base))
        again.until_entry(joined)
        again.send(b"hi", 1)
        expect((1, *stamp), again.until("done"))
        again.number = 1
        seq, _ = again.done(b"more")
        again.until_entry(seq)
        leave_all(again)
        run = reflector.end()
    expect_words(run, ["left"])
    entries = served_log(run, [again])
    before = croquet.read_log(stored)
    expect(before, entries[:len(before)])
    expect(entries[:seq], (view.entries + again.entries)[:seq])
    expect([("exit", 7), ("exit", 8), ("join", 7), ("event", 7), ("exit", 7)],
           [(entry.kind, entry.view) for entry in entries[count:]])


def who_was_here_is_put_out_in_rising_order(program):
    """Their Exits come first, above the time of the file, and what the file had stays."""
    script = b"join 9 0\njoin 7 0\njoin 8 0\njoin 4294967295 0\nleave 8 3 0\njoin 1 0\njoin 7 0\ntick %d\n" % LATE
    stored = stored_session(script)
    before = croquet.read_log(stored)
    with reflecting(program, 1, stored=stored) as reflector:
        watcher = reflector.view(5)
        expect((len(before) + 5, 0, 0, None), watcher.joined())
        watcher.until_entry(len(before) + 5)
        passed = (time.monotonic() - reflector.begun) * 1e6
        leave_all(watcher)
        run = reflector.end()
    entries = served_log(run, [watcher])
    expect(before, entries[:len(before)])
    expect("8:exit:1 9:exit:7 10:exit:9 11:exit:4294967295 12:join:5 13:exit:5", log_text(entries[len(before):]))
    times = [entry.time - LATE for entry in entries[len(before):-1]]
    expect_that(0 < times[0] and times[-1] <= passed, f"times up to {passed:.0f}", times)


def many_who_were_here_are_put_out(program):
    script = b"".join(b"join %d 0\n" % view for view in range(1024, 0, -1))
    with reflecting(program, 1, stored=stored_session(script)) as reflector:
        watcher = reflector.view(5, "after", 1024)
        expect((2049, 0, 1024, None), watcher.joined())
        watcher.until_entry(2049)
        leave_all(watcher)
        run = reflector.end()
    entries = served_log(run, [watcher])
    expect([("exit", view) for view in range(1, 1025)],
           [(entry.kind, entry.view) for entry in entries[1024:2048]])


def the_clock_goes_on(program):
    """Its times are those of the time since the program began, above the time of the file."""
    with reflecting(program, 1, stored=stored_session(b"tick %d\n" % LATE)) as reflector:
        view = reflector.view(7)
        _, first = view.done(b"one")
        view.until_tick(first + 300_000)
        since = time.monotonic()
        _, second = view.done(b"two")
        passed = (time.monotonic() - reflector.begun) * 1e6
        expect_that(first + 300_000 < second <= LATE + passed, f"a time up to {LATE + passed:.0f}", second)
        view.until_tick(second + 500_000)
        waited = time.monotonic() - since
        expect_that(waited > 0.4, "half a second for half a second", f"{waited} seconds")
        leave_all(view)
        served_log(reflector.end(), [view])


def who_joins_has_the_snapshot_of_the_first_run(program):
    with reflecting(program, 1) as reflector:
        giver = reflector.view(7)
        _, time_ = giver.done(b"hi")
        giver.until_tick(time_ + 1)
        giver.say(snap_frame(time_, b"first"))
        expect((time_,), giver.until("snapped"))
        leave_all(giver)
        run = reflector.end()
    served_log(run, [giver])
    with reflecting(program, 3, stored=run.files["f"]) as reflector:
        fresh, whole = reflector.view(8, "fresh"), reflector.view(9, "whole")
        expect([(0, 2, (time_, b"first")), (0, 0, None)], [view.joined()[1:] for view in (fresh, whole)])
        fresh.say(snap_frame(time_, b"older"))
        expect((3, 10, time_, 0), fresh.refused())
        fresh.until_entry(4)
        newer = fresh.entries[-1].time
        fresh.say(snap_frame(newer, b"second"))
        expect((newer,), fresh.until("snapped"))
        late = reflector.view(10, "fresh")
        expect((newer, b"second"), late.joined()[3])
        leave_all(fresh, whole, late)
        run = reflector.end()
    served_log(run, [fresh, whole, late])
    expect((newer, b"second"), croquet.read_stored(run.files["f"]).kept)


def a_snapshot_of_so_many_bytes_is_given_on(program):
    content = b"y" * croquet.MOST_SNAPSHOT
    session, _ = croquet.stamped(b"join 7 0\nleave 7 1 5\n")
    session.kept = (5, content)
    with reflecting(program, 1, stored=session.encoded()) as reflector:
        fresh = reflector.view(8, "fresh")
        expect((3, 0, 2, (5, content)), fresh.joined())
        leave_all(fresh)
        run = reflector.end()
    served_log(run, [fresh])
    expect((5, content), croquet.read_stored(run.files["f"]).kept)


def a_time_after_the_last_entry_is_kept(program):
    """An old link has ticks after the last entry. The next run takes who comes with such a time."""
    with reflecting(program, 2) as reflector:
        old = reflector.view(7)
        old.joined()
        new = reflector.view(7)
        new.joined()
        new.say(croquet.LEAVE)
        last = old.until_entry(3).time
        old.until_tick(last + 200_000)
        old.send(b"late")
        old.refused()
        tick = old.tick
        old.ends()
        new.ends()
        run = reflector.end()
    expect_words(run, ["stale 3", "left"])
    served_log(run, [old])
    horizon = croquet.read_stored(run.files["f"]).horizon
    expect_that(last + 200_000 <= tick <= horizon, f"a horizon from {tick} on", horizon)
    with reflecting(program, 1, stored=run.files["f"]) as reflector:
        again = reflector.view(7, "after", tick)
        expect((4, 0, 3, None), again.joined())
        expect_that(again.until_entry(4).time > horizon, f"a time above {horizon}", again.entries)
        leave_all(again)
        served_log(reflector.end(), [again])


def one_name_may_be_read_and_written(program):
    stored = stored_session(b"join 7 0\nsend 7 1 1 0 6869\ntick 100\n")
    with reflecting(program, 1, stored=stored, log="o") as reflector:
        view = reflector.view(7, "after", 100)
        expect((4, 1, 2, None), view.joined())
        view.until_entry(4)
        leave_all(view)
        run = reflector.end()
    expect_words(run, ["left"])
    expect("1:join:7 2:event:7:1:6869 3:exit:7 4:join:7 5:exit:7", log_text(served_log(run, [view], "o")))


def long_session():
    """A session whose file is too long for a program that may write short ones alone."""
    return stored_session(b"join 7 0\n" + b"".join(b"send 7 1 %d 0 %s\n" % (number, b"ab" * 20)
                                                   for number in range(1, 401)))


def a_session_that_cannot_be_put_keeps_its_file(program):
    with reflecting(program.launched_by(*FAILING), 1, stored=long_session(), log="o") as reflector:
        view = reflector.view(8)
        view.joined()
        leave_all(view)
        run = reflector.end()
    expect(("write-fault [5]", {}), (run.told(), run.files))


def a_reflector_that_is_killed_has_put_nothing(program):
    """The file keeps what it held, and who has a later time is refused by the next run."""
    stored = stored_session(b"join 7 0\ntick 100\n")
    with reflecting(program, 1, stored=stored, log="o") as reflector:
        view = reflector.view(8)
        _, time_ = view.done(b"lost")
        reflector.run.kill()
        expect({}, reflector.end().files)
    with reflecting(program, 2, stored=stored) as reflector:
        early = reflector.view(8, "after", time_ + 10**9)
        expect((1, 9), early.refused()[:2])
        whole = reflector.view(8)
        expect(0, whole.joined()[1])
        leave_all(whole)
        early.ends()
        served_log(reflector.end(), [whole])


def a_full_log_is_opened(program):
    """All 1,024 views are put out, and who comes is refused."""
    stored, entries = full_log(), MOST_OPEN + MOST_VIEWS
    with reflecting(program, 1, stored=stored) as reflector:
        view = reflector.view(7, "after", MOST_OPEN)
        expect((1, 5, entries, 0), view.refused())
        view.ends()
        run = reflector.end()
    begun, added = run.files["f"][:len(stored)], run.files["f"][len(stored):]
    expect_that(begun == stored[:8] + struct.pack(">I", entries) + stored[12:], "the log", begun[:20])
    exits = list(struct.iter_unpack(">QIB", added))
    expect([(view, 2) for view in range(1, MOST_VIEWS + 1)], [(view, kind) for _, view, kind in exits])
    times = [MOST_OPEN, *(time_ for time_, _, _ in exits)]
    expect(sorted(set(times)), times)
    expect(f"connection 0 refused 5 / entries {entries} time {times[-1]}", run.told())
    again = program.run(["stamp", "s", "--from", "o"], {"s": b"join 7 0\npull %d 1\n" % entries, "o": run.files["f"]})
    expect(f"refused log-full {entries} 0 / batch 0 tick {times[-1]}", again.told())


# ---------------------------------------------------------------- several runs of `join`

FIRST = b"""watch "s" "added" queued
wait 200000
publish "s" "add" 5
settle
wait 400000
snap
wait 600000
"""
OTHER = b'watch "s" "added" queued\npublish "s" "add" 7\nsettle\nwait 500000\n'
LATER = b'watch "s" "added" queued\npublish "s" "add" 11\nsettle\nwait %d\n'
CUT = b'publish "s" "add" 13\ncut\nsettle\nwait %d\n'


def views_of_two_runs_have_the_worlds_of_one_log(program):
    """Two views each time, and one that watches. The digests of all are those of the replay of the last file."""
    with reflecting(program, 3, SOURCE) as reflector:
        watcher = reflector.view(1)
        runs = [start_join(program, reflector, view, script) for view, script in ((7, FIRST), (8, OTHER))]
        ends = [run.end() for run in runs]
        leave_all(watcher)
        run = reflector.end()
    first = served_log(run, [watcher])
    session = croquet.read_stored(run.files["f"])
    expect_that(session.kept is not None, "a snapshot that is kept", None)
    until = session.horizon + 500_000
    with reflecting(program, 5, SOURCE, stored=run.files["f"]) as reflector:
        watcher = reflector.view(1, "after", session.horizon)
        runs = [start_join(program, reflector, view, script % until) for view, script in ((9, LATER), (10, CUT))]
        ends += [run.end() for run in runs]
        again = start_join(program, reflector, 7, b"settle\n").end()
        expect("peer [10]", again.told())
        leave_all(watcher)
        run = reflector.end()
    entries = served_log(run, [watcher])
    expect(first, entries[:len(first)])
    for view, end in zip((7, 8, 9, 10), ends):
        check_view(end, view, entries)
    expect([5, 7, 11, 13], sorted(croquet.read_payload(entry.payload)[2] for entry in entries if entry.kind == "event"))


def a_log_that_cannot_be_put_is_found_first(program):
    """No name but those that were there is left, and nothing listens."""
    words = ["reflect", "p", "a", "127.0.0.1:1", "--connections", "1", "--log"]
    for name in ("no/f", "."):
        run = program.run([*words, name], {"p": EMPTY})
        expect(("write-fault [5]", {}), (run.told(), run.files))


def a_look_leaves_nothing(program):
    """The address is none at which this program may listen: so the run ends after its look."""
    words = ["reflect", "p", "a", "192.0.2.1:1", "--connections", "1", "--log", "f"]
    for files in ({}, {"f": b"old"}):
        run = program.run(words, {"p": EMPTY, **files}, b"cannot listen at 192.0.2.1:1: this machine does not have that address\n")
        expect(("net-fault [6]", {}), (run.told(), run.files))


RESTARTS = [
    a_log_that_cannot_be_put_is_found_first, a_look_leaves_nothing,
    views_of_two_runs_have_the_worlds_of_one_log, a_client_of_the_first_run_joins_the_second,
    who_was_here_is_put_out_in_rising_order, many_who_were_here_are_put_out, the_clock_goes_on,
    who_joins_has_the_snapshot_of_the_first_run, a_snapshot_of_so_many_bytes_is_given_on,
    a_time_after_the_last_entry_is_kept, one_name_may_be_read_and_written,
    a_session_that_cannot_be_put_keeps_its_file, a_reflector_that_is_killed_has_put_nothing]
PARTS = {"restarts": lambda: named_cases(RESTARTS),
         "long-restarts": lambda: named_cases([*FULL, a_full_log_is_opened])}
