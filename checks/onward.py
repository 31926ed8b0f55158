"""Stored sessions, and scripts that go on from one."""
import struct

from case import Case, expect, expect_that
from commands import each, fronts, greatest, set_bytes, turned
from reference import croquet, read_stored
from sessions import named_cases

import journal_reference as journal  # found by the path that `reference` has added

LAST_TIME = croquet.TIME_LIMIT - 1
MOST_VIEWS, MOST_OPEN = croquet.MOST_VIEWS, croquet.MOST_OPEN_ENTRIES


def stored_session(script):
    """The bytes of the session after a script, as the reference has them."""
    return croquet.stamped(script)[0].encoded()


def go_on(program, script, stored=None):
    """A run of `stamp` which leaves its session in the file `f`."""
    words, files = ["stamp", "s", "--log", "f"], {"s": script}
    if stored is not None:
        words, files["o"] = [*words, "--from", "o"], stored
    return program.run(words, files)


# ---------------------------------------------------------------- data lines


def check_stored(program, case, wanted):
    """A file is a stored session, and is written again as it is, or it is refused."""
    stored = croquet.hex_case(case)
    run = go_on(program, b"", stored)
    if wanted == "bad":
        return expect(("input log [3]", {}), (run.told(), run.files))
    expect(("", {"f": stored}), (run.told(), run.files))
    probe = croquet.PROBE.replace(b" / ", b"\n")
    return expect(wanted, program.run(["stamp", "s", "--from", "o"], {"s": probe, "o": stored}).told())


def check_onward(program, case, wanted):
    """Each script goes on from the file before."""
    stored, scripts = croquet.onward_parts(case)
    for script in scripts:
        run = go_on(program, script, stored)
        stored = run.files.get("f")
    if stored is None:
        return expect(wanted, run.told())
    told = run.told()
    return expect(wanted, f"{told} / f={stored.hex()}" if told else f"f={stored.hex()}")


# ---------------------------------------------------------------- spoiled sessions

# The script of each session that is spoiled.
SPOILED = {"a session that keeps a snapshot": b"join 7 0\nsend 7 1 1 0 68\noffer 7 1 2 73\nleave 7 1 20\ntick 300\n",
           "a log alone": b"join 7 0\nsend 7 1 1 0 6869\n"}


def read_session(source):
    """The session of a file, which may be a journal of any session; None where it is neither.

    One bit makes of the mark of a stored session that of a journal. What comes after its head is then a torn end.
    """
    try:
        return journal.read_journal(journal.session_of(source), source).stored()
    except journal.NoJournal:
        return read_stored(source)


def check_spoiled(program, stored):
    run, session = go_on(program, b"", stored), read_session(stored)
    if session is None:
        return expect(("input log [3]", {}), (run.told(), run.files))
    return expect(("", {"f": session.encoded()}), (run.told(), run.files))


def spoiled_cases():
    """Each front of a stored session, it with each bit turned, with a byte of its head set, and with a number that is as great as can be."""
    def case_of(kind, how, content):
        return Case(f"{kind}, {how}", lambda program: check_spoiled(program, content))

    stored = {kind: stored_session(script) for kind, script in SPOILED.items()}
    return [case_of(kind, *pair) for kind, content in stored.items() for pair in fronts(content) + turned(content) + set_bytes(content) + greatest(content)]


# ---------------------------------------------------------------- files that go on


def so_many_views_may_be_here(program):
    """1,024 views are here, each of which can leave, and no further one."""
    script = b"".join(b"join %d 0\n" % view for view in range(1, 1025))
    stored = stored_session(script)
    run = go_on(program, b"join 1025 0\njoin 1024 0\nleave 1 1 0\njoin 1025 0\n", stored)
    expect("refused views-full 1024 / joined 1025 1025 0 0 / left 1026 1026 / joined 1027 1027 0 0", run.told())
    more = croquet.Session()
    for view in range(1, 1026):
        more.stamp(0, view, "join")
    expect("input log [3]", go_on(program, b"", more.encoded()).told())


def so_late_a_session_may_be(program):
    """Each view that is here can leave before the last time."""
    session = croquet.Session()
    for view in range(1, 1025):
        session.stamp(0, view, "join")
    for horizon, told in [(LAST_TIME - 1024, ""), (LAST_TIME - 1023, "input log [3]"), (LAST_TIME, "input log [3]")]:
        session.horizon = horizon
        expect(told, go_on(program, b"", session.encoded()).told())


def a_drill_goes_on(program):
    drilled = program.run(["drill", "1", "2", "300", "--log", "l", "--snapshots", "s"])
    stored = drilled.files["l"]
    script = (b"join 1 0\njoin 9 0 whole\nsend 1 613 301 0 00\nsend 1 613 300 0 00\nsend 9 614 1 0 ff\n"
              b"offer 1 613 1 aa\npull 600 5\npull 610 9\nleave 2 1 0\nleave 1 613 0\n")
    session, lines = croquet.stamped(script, stored)
    expect_that(lines[0].startswith("joined 613 ") and " base " in lines[0], "a base", lines[0])
    run = go_on(program, script, stored)
    expect((" / ".join(lines), {"f": session.encoded()}), (run.told(), run.files))
    again = go_on(program, b"pull 0 1\n", run.files["f"])
    expect({"f": session.encoded()}, again.files)


def a_file_that_cannot_be_read_is_a_fault(program):
    """The script, and then the session."""
    files = {"s": b"tick 1\n", "o": stored_session(b"tick 100\n"), "p": b"class Root{init(o){}}"}
    stamping = ["stamp", "s", "--from", "o", "--log", "f"]
    reflecting = ["reflect", "p", "a", "localhost:1", "--from", "o", "--connections", "1", "--log", "f"]
    for name, words in [("s", stamping), ("o", stamping), ("p", reflecting), ("o", reflecting)]:
        script = f"chmod 000 {name}; \"$@\"; status=$?; chmod 600 {name}; exit $status"
        run = program.launched_by("/bin/sh", "-c", script, "sh").run(words, files)
        expect(("read-fault [4]", {}), (run.told(), run.files))


# ---------------------------------------------------------------- full logs


def full_log(more=b"", count=MOST_OPEN):
    """1,024 views join, and send in turn, until no more may. The time of each entry is its seq."""
    out = [b"TEALOG01", struct.pack(">I", count)]
    for seq in range(1, MOST_OPEN + 1):
        turn, place = divmod(seq - 1, MOST_VIEWS)
        out.append(struct.pack(">QIB", seq, place + 1, 3 if turn else 1))
        if turn:
            out.append(struct.pack(">II", turn, 0))
    return b"".join(out) + more


def a_full_log_goes_on(program):
    """Nobody joins or sends any more, what is sent again has its stamp, and each view can leave."""
    seq = MOST_OPEN - MOST_VIEWS + 7
    run = go_on(program, b"join 7 0\nsend 7 7 1024 0 00\nsend 7 7 1023 0 -\nleave 9 9 0\n", full_log())
    expect(f"refused log-full {MOST_OPEN} 0 / refused log-full {MOST_OPEN} 0 / again {seq} {seq} / "
           f"left {MOST_OPEN + 1} {MOST_OPEN + 1}", run.told())
    last = struct.pack(">QIB", MOST_OPEN + 1, 9, 2)
    expect_that(run.files["f"] == full_log(last, MOST_OPEN + 1), "the log with one Exit", run.files["f"][-20:])
    joining = struct.pack(">QIB", MOST_OPEN + 1, 9, 1)
    expect("input log [3]", go_on(program, b"", full_log(joining, MOST_OPEN + 1)).told())


def a_log_of_so_many_bytes_goes_on(program):
    """16,384 events of 4,096 bytes: a byte more is refused, and an event without bytes is not."""
    def log_of(count, *lengths):
        entries = [struct.pack(">QIB", 1, 7, 1)]
        for number, length in enumerate([4_096] * count + list(lengths), 1):
            entries.append(struct.pack(">QIBII", number + 1, 7, 3, number, length) + b"x" * length)
        return b"TEALOG01" + struct.pack(">I", len(entries)) + b"".join(entries)

    run = go_on(program, b"send 7 1 16385 0 00\nsend 7 1 16385 0 -\n", log_of(16_384))
    expect("refused log-full 16385 67108864 / stamped 16386 16386", run.told())
    expect_that(run.files["f"] == log_of(16_384, 0), "the log with one event", run.files["f"][-30:])
    expect("input log [3]", go_on(program, b"", log_of(16_384, 1)).told())


ONWARD = [so_many_views_may_be_here, so_late_a_session_may_be, a_drill_goes_on, a_file_that_cannot_be_read_is_a_fault]
FULL = [a_full_log_goes_on, a_log_of_so_many_bytes_goes_on]


PARTS = {
    "stored": lambda: each("stored", "stored", check_stored),
    "onward": lambda: each("onward", "onward", check_onward) + named_cases(ONWARD),
    "spoiled-sessions": spoiled_cases,
}
