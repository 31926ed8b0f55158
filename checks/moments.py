"""Moments of the example programs by `inspect`: the same text, whatever worlds are kept and in whatever order it is asked."""
import functools
import os
import random

from case import FOLDER, Case, expect
from reference import croquet

EXAMPLES = os.path.join(os.path.dirname(FOLDER), "examples")
EVERY = [1, 2, 7]
LATER = 2_500_000


@functools.cache
def read_example(name):
    with open(os.path.join(EXAMPLES, name), "rb") as opened:
        return opened.read()


# ---------------------------------------------------------------- sessions


def recorded(script):
    """The session that a script of the examples makes."""
    session, _ = croquet.stamped(read_example(script))
    return session


def drilled():
    session = croquet.Session()
    for view in (1, 2):
        session.join(view, 0, "whole", 0)
    for number in range(1, 19):
        view = 1 + number % 2
        content = croquet.payload("drill", "add", number)
        session.send(view, session.view(view).current, (number + 1) // 2, 1_000 * number, content)
    session.leave(1, session.view(1).current, 30_000)
    return session


def played():
    """Two play, and a third looks on; one of the two goes, and comes again."""
    session = croquet.Session()
    sent = {7: 0, 8: 0, 9: 0}

    def move(view, time, place):
        sent[view] += 1
        session.send(view, session.view(view).current, sent[view], time, croquet.payload("pong", "move", place))

    for view, time in [(7, 0), (9, 200_000), (8, 500_000)]:
        session.join(view, time, "whole", 0)
    move(7, 600_000, 300)
    move(8, 700_000, 700)
    move(9, 800_000, 10)
    move(7, 1_500_000, 950)
    session.leave(8, session.view(8).current, 2_000_000)
    session.join(8, 2_600_000, "whole", 0)
    move(8, 2_700_000, 40)
    return session


def closed():
    """The mayor closes the town."""
    session = croquet.Session()
    session.join(7, 0, "whole", 0)
    session.join(8, 300_000, "whole", 0)
    session.send(7, session.view(7).current, 1, 1_500_000, croquet.payload("town", "close", None))
    return session


SCRIPTS = ["counter", "whiteboard", "balls"]
SESSIONS = {**{name: functools.partial(recorded, f"{name}.script") for name in SCRIPTS}, "drill": drilled, "pong": played, "epidemic": closed}


# ---------------------------------------------------------------- moments


def moments_of(entries):
    """Times right before, at and right after each entry, and later, in an order of their own."""
    near = {entry.time + step for entry in entries for step in (-1, 0, 1)}
    times = sorted(near | {0, entries[-1].time + LATER})
    random.Random(len(entries)).shuffle(times)
    return times


def queries_of(times):
    """Each third query asks for the line alone."""
    return [f"{'full' if place % 3 else 'at'} {time}" for place, time in enumerate(times)]


@functools.cache
def wanted(name):
    """The session of an example, its queries, and the lines that each of them prints."""
    session, source = SESSIONS[name](), read_example(f"{name}.program")
    whole = croquet.Replaying(croquet.session_id(b"n", source), [], session.log, croquet.read_program(source), None)
    queries = queries_of(moments_of(session.log))
    told = {query: croquet.inspected(whole, len(session.log), query.encode()) for query in queries}
    return session, source, queries, told


def inspected(program, session, source, every, queries):
    files = {"p": source, "l": session.encoded(), "q": "\n".join(queries).encode()}
    run = program.run(["inspect", "p", "n", "l", str(every), "q"], files)
    expect((0, {}), (run.status, run.files))
    return run.text.decode().split("\n")[:-1]


def check_moments(program, name, every):
    session, source, queries, told = wanted(name)
    for asked in (queries, queries[::-1], queries + queries[:3]):
        lines = [line for query in asked for line in told[query]]
        expect(lines, inspected(program, session, source, every or len(session.log) + 1, asked))


def check_line(program, name):
    """The first line of each query is what `replay` prints."""
    session, source, queries, _ = wanted(name)
    for query in queries[:6]:
        first = inspected(program, session, source, 7, [query])[0]
        run = program.run(["replay", "p", "n", "l", query.split(" ")[1]], {"p": source, "l": session.encoded()})
        expect((f"{first}\n", 0), (run.text.decode(), run.status))


# ---------------------------------------------------------------- what is read


def refused(program, words, files, line, status=3):
    run = program.run(["inspect", *words], files)
    expect((f"{line}\n", status, {}), (run.text.decode(), run.status, run.files))


def long_files():
    """A session of 129 entries, and no queries."""
    session = croquet.Session()
    for time in range(129):
        session.join(1, time, "whole", 0)
    return {"p": b"class Root{}", "l": session.encoded()}


def check_every_first(program):
    """EVERY is looked at before the file of the queries is opened, and after the persisted value."""
    files = long_files()
    refused(program, ["p", "n", "l", "1", "q"], files, "input every")
    refused(program, ["p", "n", "l", "1", "q", "--persisted", "j"], files, "read-fault", 4)
    refused(program, ["p", "n", "l", "1", "q", "--persisted", "j"], {**files, "j": b"{}"}, "input persisted")
    refused(program, ["p", "n", "l", "1", "q", "--persisted", "j"], {**files, "j": b"1"}, "input every")
    refused(program, ["p", "n", "l", "2", "q"], files, "read-fault", 4)


def check_many(program):
    """As many queries as the file may have, of one time and of another."""
    files = long_files()
    queries = [f"at {place % 2}" for place in range(65_536 // 5)]
    text = "\n".join(queries).encode()
    run = program.run(["inspect", "p", "n", "l", "2", "q"], {**files, "q": text})
    expect((0, len(queries)), (run.status, run.text.count(b"\n")))
    lines = run.text.splitlines()
    expect(({lines[0]}, {lines[1]}), (set(lines[::2]), set(lines[1::2])))


def read_examples():
    """Reads all files of the examples now: once cases run, they may not be read."""
    for name in SESSIONS:
        read_example(f"{name}.program")
    for name in SCRIPTS:
        read_example(f"{name}.script")


def moment_cases():
    read_examples()

    def case_of(name, every):
        told = f"every {every}" if every else "every above the length of the log"
        return Case(f"{name}, {told}", lambda program: check_moments(program, name, every))

    return [case_of(name, every) for name in SESSIONS for every in [*EVERY, None]] \
        + [Case(f"{name}, by replay", lambda program, name=name: check_line(program, name)) for name in SESSIONS] \
        + [Case("EVERY before QUERIES", check_every_first), Case("many queries", check_many)]


PARTS = {"moments": moment_cases}
