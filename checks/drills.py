"""Runs of `drill` against `replay` and against the reference."""
from case import FOLDER, Case, expect, expect_that
from reference import croquet, read_stored

PREFIX = "snap"
with open(f"{FOLDER}/../examples/drill.program", "rb") as opened:
    SOURCE = opened.read().removesuffix(b"\n")


def numbers_of(seed, view, events):
    """What a view publishes."""
    source = croquet.World(croquet.Program(croquet.parse(SOURCE)), bytes(32))
    source.random = seed * 8 + view - 1
    return [source.below(100) for _ in range(events)]


def own_entries(seed, view, events):
    """The kinds of a view's entries and its payloads, in order."""
    entries = [("join", 0, b"")]
    for number, value in enumerate(numbers_of(seed, view, events), 1):
        entries.append(("event", number, croquet.payload("drill", "add", value)))
        if number % 64 == 0:
            entries.append(("join", 0, b""))
    return entries + [("exit", 0, b"")]


def check_drill(program, seed, views, events):
    words = ["drill", str(seed), str(views), str(events), "--log", "l", "--snapshots", PREFIX]
    run = program.run(words)
    own = {view: own_entries(seed, view, events) for view in range(1, views + 1)}
    total = sum(sum(numbers_of(seed, view, events)) for view in own)
    count = sum(len(entries) for entries in own.values())
    expect((f"views {views} events {views * events} entries {count} total {total} agree {views}\n", 0),
           (run.text.decode(), run.status))
    expect(["l", *(f"{PREFIX}{view}" for view in own)], sorted(run.files))
    session = read_stored(run.files["l"])
    expect_that(session is not None, "a stored session", run.files["l"][:200].hex())
    entries = session.log
    expect((entries[-1].time, events >= 256), (session.horizon, session.kept is not None))
    if session.kept is not None:
        expect(reference_replay(entries, session.kept[0]), session.kept[1])
    for view, wanted in own.items():
        expect(wanted, [(e.kind, e.number, e.payload) for e in entries if e.view == view])
    snapshots = {run.files[f"{PREFIX}{view}"] for view in own}
    expect({replayed(program, run.files["l"], entries[-1].time)}, snapshots)
    expect({reference_replay(entries, entries[-1].time)}, snapshots)


def replayed(program, log, time):
    """The snapshot that `replay` writes."""
    words = ["replay", "p", "drill", "l", str(time), "--snapshot", "f"]
    run = program.run(words, {"p": SOURCE, "l": log})
    expect(0, run.status)
    return run.files["f"]


def reference_replay(entries, time):
    """The snapshot of the reference at this time."""
    world = croquet.World.first(croquet.Program(croquet.parse(SOURCE)),
                                croquet.session_id(b"drill", SOURCE))
    return croquet.replayed(world, entries, time).snapshot()


def drill_cases(drills):
    def case_of(drill):
        return Case(f"drill {drill}", lambda program: check_drill(program, *drill))

    return [case_of(drill) for drill in drills]


PARTS = {"drills": lambda: drill_cases([(0, 1, 0), (7, 3, 70), (4_294_967_295, 8, 1), (1, 2, 300)]),
         "long-drill": lambda: drill_cases([(1, 8, 5000)])}
