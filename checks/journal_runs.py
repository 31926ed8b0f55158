"""Reflectors that keep a journal: what each kind of end leaves in it, and that the next run goes on with all that was told.

Power cuts are not tried.
"""
import contextlib
import os
import random
import shutil
import signal
import tempfile
import threading
import time

from case import expect, expect_that
from files import ENDING, FAILING, may_mount
from live import SOURCE, check_view, start_join
from reference import croquet, log_text
from reflector import EMPTY, Reflector, hold_port, leave_all, send_frame
from sessions import named_cases
from websocket import Ended, Wire

import journal_reference as journal  # found by the path that `reference` has added

# How often a run is killed in a check. By hand 200 kills are made: CROQUET_KILLS=200 checks/run --only journal-kills
KILLS = int(os.environ.get("CROQUET_KILLS", "12"))
PEERS = 8
# How far a horizon is written ahead, in microseconds.
AHEAD = 2_000_000


# ---------------------------------------------------------------- runs

class Place:
    """A folder that outlives the runs of a check. It has the program `p`, and gets the journal `j`."""

    def __init__(self, program, source):
        self.program, self.ident = program, croquet.session_id(b"a", source, None)
        self.path = tempfile.mkdtemp(dir=program.folder)
        self.put("p", source)

    def at(self, name):
        return os.path.join(self.path, name)

    def put(self, name, content):
        with open(self.at(name), "wb") as file:
            file.write(content)

    def get(self, name):
        """What a file holds; None where there is none."""
        try:
            with open(self.at(name), "rb") as file:
                return file.read()
        except FileNotFoundError:
            return None

    def names(self):
        return sorted(os.listdir(self.path))

    def read(self):
        """What the journal is read as."""
        content = self.get("j")
        expect_that(content is not None, "a journal", "none")
        return journal.read_journal(self.ident, content)


@contextlib.contextmanager
def place(program, source=EMPTY):
    """A place that is removed in the end."""
    made = Place(program, source)
    try:
        yield made
    finally:
        shutil.rmtree(made.path, ignore_errors=True)


class Journaled(Reflector):
    """A run of `reflect` with the journal of a place. Its errors are looked at where it listens in the end."""

    def __init__(self, at, connections, options=(), launcher=(), name="j"):  # pylint: disable=super-init-not-called
        self.ident, self.holder, self.wires = at.ident, hold_port(), []
        self.port = self.holder.getsockname()[1]
        self.begun, self.address = time.monotonic(), f"127.0.0.1:{self.port}"
        self.listening = f"listening at {self.address}, session {at.ident.hex()}\n".encode()
        counted = [] if connections is None else ["--connections", str(connections)]
        self.run = at.program.launched_by(*launcher).start(
            ["reflect", at.at("p"), "a", self.address, "--journal", at.at(name), *counted, *options],
            errors=self.listening)

    def kill(self, by=signal.SIGKILL):
        """Ends it by a signal."""
        self.run.errors = None
        self.run.process.send_signal(by)
        return self.end()

    def end_anyhow(self):
        """Waits for its end, whatever it has written on the standard error."""
        self.run.errors = None
        return self.end()


@contextlib.contextmanager
def journaled(at, connections, options=(), launcher=(), name="j"):
    """A reflector that is killed where the check does not come to its end."""
    reflector = Journaled(at, connections, options, launcher, name)
    try:
        yield reflector
    finally:
        if reflector.run.process.returncode is None:
            reflector.kill()


def ended_at_once(at, options=(), launcher=(), name="j"):
    """A run that ends before it listens."""
    reflector = Journaled(at, 1, options, launcher, name)
    reflector.run.errors = b"" if not launcher else None
    return reflector.end()


def one_more_view(at, options=()):
    """A whole run in which view 8 joins and leaves: what it printed, and the view."""
    with journaled(at, 1, options) as reflector:
        view = reflector.view(8)
        view.joined()
        leave_all(view)
        run = reflector.end()
    expect(0, run.status)
    return run, view


def expect_kept(at, *views):
    """The journal has all that these views were told."""
    read = at.read()
    for view in views:
        from_ = view.from_ or 0
        expect(view.entries, read.entries[from_:from_ + len(view.entries)])
        expect_that(view.tick <= read.horizon, f"a horizon from {view.tick} on", read.horizon)
    return read


def time_of(view):
    """The time of a view's world."""
    return max([view.tick, *(entry.time for entry in view.entries)])


def kinds(entries):
    return [(entry.kind, entry.view) for entry in entries]


# ---------------------------------------------------------------- ends under load

class Peer:
    """A view that sends one event after the other, and notes each stamp that it is told. It comes back by what it has."""

    def __init__(self, number):
        self.number, self.view, self.count, self.time, self.stamps = number, None, 0, 0, []

    def join(self, reflector):
        """Joins, after what it has. It is not refused, and its last number is one that it has sent."""
        self.view = reflector.view(self.number, "after" if self.count else "whole", self.time)
        _, last, from_, base = self.view.joined()
        expect((self.count, None), (from_, base))
        count = len(self.stamps)
        expect_that(last in (count, count + 1), f"the number {count}, or one more", last)

    def go_on(self):
        """Sends, and hears, up to the end of its link. What is not acknowledged is sent again by the next one."""
        with contextlib.suppress(Ended, OSError):
            self.send()
            name, fields = self.view.hear()
            while name != "close":
                if name == "done":
                    self.stamps.append(fields)
                    self.send()
                name, fields = self.view.hear()

    def send(self):
        number = len(self.stamps) + 1
        self.view.say(send_frame(number, b"%d" % number))

    def note(self):
        """Takes over what it has, once its link is over."""
        self.count = self.view.from_ + len(self.view.entries)
        self.time = max(self.time, time_of(self.view))


def expect_stamps(read, peer):
    """Each stamp that a peer was told is that of its entry."""
    for number, (told, seq, time_) in enumerate(peer.stamps, 1):
        entry = read.entries[seq - 1]
        expect((number, time_, peer.number, "event", number),
               (told, entry.time, entry.view, entry.kind, entry.number))


def ended_under_load(at, peers, by, seconds):
    """All peers join, and after so long the reflector gets the signal."""
    with journaled(at, len(peers)) as reflector:
        for peer in peers:
            peer.join(reflector)
        threads = [threading.Thread(target=peer.go_on, daemon=True) for peer in peers]
        for thread in threads:
            thread.start()
        time.sleep(seconds)
        expect_that(all(thread.is_alive() for thread in threads), "links that go on", "one that has ended")
        reflector.kill(by)
        for thread in threads:
            thread.join(Wire.patience)


def ends_lose_nothing(program, by):
    """Again and again the reflector ends by a signal. All that was told is in the journal, and all come back."""
    draw, peers = random.Random(by), [Peer(number) for number in range(1, PEERS + 1)]
    with place(program) as at:
        for _ in range(KILLS):
            ended_under_load(at, peers, by, draw.uniform(0, 0.3))
            read = expect_kept(at, *(peer.view for peer in peers))
            for peer in peers:
                peer.note()
                expect_stamps(read, peer)


def kills_under_load_lose_nothing(program):
    ends_lose_nothing(program, signal.SIGKILL)


def ends_by_a_service_manager_lose_nothing(program):
    ends_lose_nothing(program, signal.SIGTERM)


def ends_by_the_keyboard_lose_nothing(program):
    ends_lose_nothing(program, signal.SIGINT)


# ---------------------------------------------------------------- what is in a journal

def a_session_that_ends_well_has_its_journal_and_its_log(program):
    with place(program) as at:
        with journaled(at, 1, ["--log", at.at("f")]) as reflector:
            view = reflector.view(7)
            view.done(b"hi")
            leave_all(view)
            run = reflector.end()
        read, stored = expect_kept(at, view), croquet.read_stored(at.get("f"))
        expect(f"connection 0 left / entries 3 time {stored.horizon}", run.told())
        expect("1:join:7 2:event:7:1:6869 3:exit:7", log_text(stored.log))
        expect(stored.log, read.entries)
        expect_that(stored.horizon <= read.horizon, f"a horizon from {stored.horizon} on", read.horizon)
        expect(["f", "j", "p"], at.names())


def no_stamp_is_below_a_tick_of_an_earlier_run(program):
    """The next run begins at the horizon that was written ahead of the last tick."""
    with place(program) as at:
        with journaled(at, 1) as reflector:
            view = reflector.view(7)
            _, first = view.done(b"one")
            view.until_tick(first + 200_000)
            reflector.kill()
        horizon = expect_kept(at, view).horizon
        expect_that(view.tick <= horizon <= view.tick + AHEAD, f"a horizon from {view.tick} on", horizon)
        with journaled(at, 1) as reflector:
            again = reflector.view(7, "after", view.tick)
            expect((4, 1, 2, None), again.joined())
            expect_that(again.until_entry(3).time > horizon, f"a time above {horizon}", again.entries)
            leave_all(again)
            expect(0, reflector.end().status)
        expect_kept(at, view, again)


def a_journal_that_is_there_is_gone_on_with(program):
    """The file of `--from` is not read then, and need not be there."""
    with place(program) as at:
        at.put("o", croquet.stamped(b"join 9 0\nleave 9 1 0\n")[0].encoded())
        with journaled(at, 1, ["--from", at.at("o")]) as reflector:
            view = reflector.view(7)
            view.done(b"one")
            reflector.kill()
        expect(kinds(expect_kept(at, view).entries), [("join", 9), ("exit", 9), ("join", 7), ("event", 7)])
        os.remove(at.at("o"))
        one_more_view(at, ["--from", at.at("o")])
        expect([("exit", 7), ("join", 8), ("exit", 8)], kinds(expect_kept(at, view).entries[4:]))


def a_torn_end_is_put_aside(program):
    """Its bytes go to `j.torn`, also where an earlier end is there, and the session goes on from what was before them."""
    with place(program) as at:
        one_more_view(at)
        for tail in (at.get("j")[-20:-3], b"\x00\x00\x00\x09\x02", b"T" * 5_000):
            good = at.get("j")
            at.put("j", good + tail)
            run, view = one_more_view(at)
            expect_that(f"torn {len(tail)}" in run.told().split(" / "), f"torn {len(tail)}", run.told())
            expect((tail, good), (at.get("j.torn"), at.get("j")[:len(good)]))
            expect(len(at.get("j")), expect_kept(at, view).good)


def a_journal_is_read_while_its_reflector_goes_on(program):
    """`replay` has the world of all that was told, and the reflector does not notice."""
    with place(program) as at:
        with journaled(at, 1) as reflector:
            view = reflector.view(7)
            view.done(b"1")
            entries = expect_kept(at, view).entries
            world = croquet.World.first(croquet.read_program(EMPTY), at.ident)
            run = program.run(["replay", at.at("p"), "a", at.at("j"), "9007199254740991"])
            expect(croquet.world_line(croquet.replayed(world, entries, 9_007_199_254_740_991)), run.told())
            view.done(b"2")
            leave_all(view)
            expect(0, reflector.end().status)
        expect([("join", 7), ("event", 7), ("event", 7), ("exit", 7)], kinds(expect_kept(at, view).entries))


def zeros_are_no_torn_end(program):
    """A system may leave zeros where a file was growing. They are cut, and nothing is put aside."""
    with place(program) as at:
        one_more_view(at)
        good = at.get("j")
        at.put("j", good + bytes(4_096))
        run, view = one_more_view(at)
        expect_that("torn" not in run.told(), "no torn end", run.told())
        expect((None, good), (at.get("j.torn"), at.get("j")[:len(good)]))
        expect(len(at.get("j")), expect_kept(at, view).good)


# ---------------------------------------------------------------- files that are not its own

def a_second_reflector_is_kept_away(program):
    """The journal is locked. The first reflector goes on, and nothing of its journal is lost."""
    with place(program) as at:
        with journaled(at, 1) as reflector:
            view = reflector.view(7)
            view.done(b"1")
            expect("read-fault [4]", ended_at_once(at).told())
            view.done(b"2")
            leave_all(view)
            expect(0, reflector.end().status)
        expect("1:join:7 2:event:7:1:31 3:event:7:2:32 4:exit:7", log_text(expect_kept(at, view).entries))


def the_lock_ends_with_its_program(program):
    with place(program) as at:
        with journaled(at, 1) as reflector:
            reflector.view(7).joined()
            reflector.kill()
        one_more_view(at)
        expect([("join", 7), ("exit", 7), ("join", 8), ("exit", 8)], kinds(at.read().entries))


def wait_until(wanted, has_come):
    last = time.monotonic() + Wire.patience
    while not has_come():
        expect_that(time.monotonic() < last, wanted, "none")
        time.sleep(0.01)


def first_ended(reflectors):
    """The reflector that ends first, and another one."""
    wait_until("a reflector that ends", lambda: any(it.run.process.poll() is not None for it in reflectors))
    return sorted(reflectors, key=lambda it: it.run.process.poll() is None)


def two_that_found_at_one_time_are_not_both_served(program):
    """One founds the journal and goes on with it. The other one ends with a fault, and the journal is not lost."""
    session = long_session()
    for _ in range(KILLS):
        with place(program) as at:
            at.put("o", session.encoded())
            loser, winner = first_ended([Journaled(at, 1, ["--from", at.at("o")]) for _ in range(2)])
            loser.run.errors = b""
            run = loser.end()
            expect_that(run.told() in ("read-fault [4]", "write-fault [5]"), "a fault", run.told())
            view = winner.view(8)
            view.done(b"1")
            entries = expect_kept(at, view).entries
            expect(session.log, entries[:len(session.log)])
            expect([("exit", 7), ("join", 8), ("event", 8)], kinds(entries[len(session.log):]))
            winner.kill()


def what_is_no_journal_of_the_session_is_refused(program):
    """It keeps what it holds."""
    other = journal.header(croquet.session_id(b"other", EMPTY, None))
    for content in (other, other[:39], b"", b"TEALOG01" + bytes(4)):
        with place(program) as at:
            at.put("j", content)
            expect("input journal [3]", ended_at_once(at).told())
            expect((content, ["j", "p"]), (at.get("j"), at.names()))


def what_is_no_file_is_no_journal(program):
    for make in (os.mkdir, os.mkfifo):
        with place(program) as at:
            make(at.at("j"))
            expect("read-fault [4]", ended_at_once(at).told())
    with place(program) as at:
        expect_that(ended_at_once(at, name="no/j").status in (4, 5), "a fault", "none")


def a_log_that_cannot_be_put_is_found_first(program):
    with place(program) as at:
        expect("write-fault [5]", ended_at_once(at, ["--log", at.at("no/f")]).told())
        os.mkdir(at.at("d"), 0o555)
        expect("write-fault [5]", ended_at_once(at, ["--log", at.at("d/f")]).told())


# ---------------------------------------------------------------- disks and limits

def expect_shut(lines):
    """The link ended `unkept`, and the last line is that of the fault."""
    expect_that(lines[0] == "connection 0 unkept" and lines[-1] == "write-fault", "unkept, and a fault", lines)


def send_to_the_end(view, size):
    """Sends events of this size up to the end of the link."""
    with contextlib.suppress(Ended, OSError):
        view.joined()
        name = "done"
        while name != "close":
            if name == "done":
                view.send(b"x" * size)
            name, _ = view.hear()


def expect_gone_on(reflector, view):
    """View 7 comes back, with all that it was told, and sends on."""
    again = reflector.view(7, "after", time_of(view))
    _, again.number, from_, base = again.joined()
    expect((len(view.entries), None), (from_, base))
    again.done(b"more")
    leave_all(again)
    return again


def limited(program, launcher):
    """A run whose files may have 4,096 bytes, then one without that limit: how the first one ended."""
    with place(program) as at:
        with journaled(at, 1, launcher=launcher) as reflector:
            view = reflector.view(7)
            send_to_the_end(view, 300)
            run = reflector.end_anyhow()
        expect_that(len(view.entries) > 5, "events", view.entries)
        expect_kept(at, view)
        with journaled(at, 1) as reflector:
            again = expect_gone_on(reflector, view)
            expect(0, reflector.end().status)
        expect_kept(at, view, again)
    return run


def a_limit_of_a_files_length_shuts_the_journal(program):
    """Where the program is told of it by a write that fails, in the midst of a record."""
    run = limited(program, FAILING)
    expect(5, run.status)
    expect_shut(run.text.decode().split("\n")[:-1])


def the_signal_of_a_files_length_loses_nothing(program):
    """Where the signal is not ignored, it ends the program."""
    expect_that(limited(program, ENDING).status != 0, "an end by a signal", 0)


def a_disk_that_fills_shuts_the_journal(program):
    """A file system of 64 KiB, where a process may have one of its own. Then there is room, and the same line goes on."""
    if not may_mount():
        return
    # (what the shell starts is killed with it)
    line = "setpriv --pdeathsig KILL \"$@\""
    twice = (f"mount -t tmpfs -o size=64k none d; {line}; echo \"[$?]\"; cp d/j full; "
             f"mount -o remount,size=1m none d; {line}; status=$?; cp d/j j; exit $status")
    with place(program) as at:
        os.mkdir(at.at("d"))
        launcher = ["/bin/sh", "-c", f"cd {at.path}; exec unshare -rm /bin/sh -c '{twice}' sh \"$@\"", "sh"]
        with journaled(at, 1, launcher=launcher, name="d/j") as reflector:
            view = reflector.view(7)
            send_to_the_end(view, 4_000)
            wait_until("a first run that ends", lambda: at.get("full") is not None)
            again = expect_gone_on(reflector, view)
            run = reflector.end_anyhow()
        expect(0, run.status)
        expect_that(len(view.entries) > 10, "events", len(view.entries))
        expect_kept(at, view, again)
        first, _, second = run.text.decode().partition("[5]\n")
        expect_shut(first.split("\n")[:-1])
        torn = len(at.get("full")) - journal.read_journal(at.ident, at.get("full")).good
        expect_that(torn == 0 or f"torn {torn}" in second.split("\n"), f"torn {torn}", second)


# ---------------------------------------------------------------- ends before anyone is told

def long_session():
    """A session in which view 7 is, and whose file is too long for a program that may write 4,096 bytes alone."""
    return croquet.stamped(b"join 7 0\n" + b"".join(b"send 7 1 %d 0 %s\n" % (number, b"ab" * 20)
                                                    for number in range(1, 401)))[0]


def expect_goes_on_from(at, session, options):
    """The session goes on from this one, with the Exit of the view that was in it."""
    _, view = one_more_view(at, options)
    entries = expect_kept(at, view).entries
    expect(session.log, entries[:len(session.log)])
    expect([("exit", 7), ("join", 8), ("exit", 8)], kinds(entries[len(session.log):]))


def a_kill_in_the_midst_of_the_founding_leaves_no_journal(program):
    """The signal of a file's length comes while the new file is written. What is left of it is in nobody's way."""
    session = long_session()
    with place(program) as at:
        at.put("o", session.encoded())
        options = ["--from", at.at("o")]
        for _ in range(3):
            expect_that(ended_at_once(at, options, ENDING).status != 0, "an end by a signal", 0)
            expect(None, at.get("j"))
        expect_goes_on_from(at, session, options)


def a_founding_that_fails_leaves_nothing(program):
    session = long_session()
    with place(program) as at:
        at.put("o", session.encoded())
        options = ["--from", at.at("o")]
        expect("write-fault [5]", ended_at_once(at, options, FAILING).told())
        expect(["o", "p"], at.names())
        expect_goes_on_from(at, session, options)


def kills_at_any_moment_of_the_start_lose_nothing(program):
    """Kills in the founding from a file, in the opening of a journal with a torn end, and in its cut."""
    draw, session = random.Random(1), long_session()
    with place(program) as at:
        at.put("o", session.encoded())
        options = ["--from", at.at("o")]
        for _ in range(KILLS):
            reflector = Journaled(at, 1, options)
            time.sleep(draw.uniform(0, 0.03))
            reflector.kill()
            content = at.get("j")
            if content is not None:
                expect(session.log, at.read().entries[:len(session.log)])
                at.put("j", content + content[-30:-1])
        expect_goes_on_from(at, session, options)


def kills_at_the_put_of_the_log_leave_it_whole(program):
    """Once its last view has left, the reflector puts the log and ends. The log is that of the start or that of the end."""
    draw = random.Random(2)
    for _ in range(KILLS):
        with place(program) as at:
            at.put("f", b"old")
            with journaled(at, 1, ["--log", at.at("f")]) as reflector:
                view = reflector.view(7)
                view.done(b"1")
                leave_all(view)
                time.sleep(draw.uniform(0, 0.01))
                reflector.kill()
            entries, log = expect_kept(at, view).entries, croquet.read_stored(at.get("f")).log
            expect([("join", 7), ("event", 7), ("exit", 7)], kinds(entries))
            expect_that(log in ([], entries), f"no entry, or {entries}", log)


# ---------------------------------------------------------------- what it is for

JOINED = b'watch "s" "added" queued\npublish "s" "add" %d\nsettle\nwait %d\n'


def joins_of_two_runs_have_the_world_of_one_journal(program):
    """A kill between two events. Both are in the world of who joins then."""
    with place(program, SOURCE) as at:
        with journaled(at, 2) as reflector:
            watcher = reflector.view(1)
            watcher.joined()
            first = start_join(program, reflector, 7, JOINED % (5, 300_000)).end()
            reflector.kill()
        until = expect_kept(at, watcher).horizon + 500_000
        with journaled(at, 2) as reflector:
            other = reflector.view(2)
            other.joined()
            second = start_join(program, reflector, 8, JOINED % (7, until)).end()
            leave_all(other)
            expect(0, reflector.end().status)
        entries = expect_kept(at, watcher, other).entries
        check_view(first, 7, entries)
        check_view(second, 8, entries)
        expect([5, 7], [croquet.read_payload(entry.payload)[2] for entry in entries if entry.kind == "event"])


JOURNALED = [
    a_session_that_ends_well_has_its_journal_and_its_log, no_stamp_is_below_a_tick_of_an_earlier_run,
    a_journal_that_is_there_is_gone_on_with, a_torn_end_is_put_aside, a_journal_is_read_while_its_reflector_goes_on, zeros_are_no_torn_end, a_second_reflector_is_kept_away,
    the_lock_ends_with_its_program, two_that_found_at_one_time_are_not_both_served, what_is_no_journal_of_the_session_is_refused,
    what_is_no_file_is_no_journal, a_log_that_cannot_be_put_is_found_first, a_limit_of_a_files_length_shuts_the_journal,
    the_signal_of_a_files_length_loses_nothing, a_disk_that_fills_shuts_the_journal,
    a_kill_in_the_midst_of_the_founding_leaves_no_journal, a_founding_that_fails_leaves_nothing,
    kills_at_any_moment_of_the_start_lose_nothing, kills_at_the_put_of_the_log_leave_it_whole,
    joins_of_two_runs_have_the_world_of_one_journal]
KILLED = [kills_under_load_lose_nothing, ends_by_a_service_manager_lose_nothing, ends_by_the_keyboard_lose_nothing]
PARTS = {"journal-runs": lambda: named_cases(JOURNALED), "journal-kills": lambda: named_cases(KILLED)}
