"""Journals that were cut, changed or added to: each reads as the records that are whole before that place.

What a journal has to be read as follows from the list of its records alone: the state after the first so many. The reference has
to read just that, and `replay` has to print the line of the replay of the log that is read.
"""
import random
from bisect import bisect_right
from dataclasses import dataclass

from case import Case, expect
from reference import croquet
from sessions import named_cases

import journal_reference as journal  # found by the path that `reference` has added

PROGRAM = (b"class Root { field said; init() { this.said = []; subscribe(\"s\", \"said\", \"hear\"); }"
           b" hear(v) { this.said = push(this.said, v); } }")
ID = croquet.session_id(b"n", PROGRAM)
OTHER = croquet.session_id(b"other", PROGRAM)
END = 2_000_000


@dataclass
class Told:
    """A journal by its records: the bytes, and where each record ends."""
    changes: list
    content: bytes
    ends: list  # of the header, and of each record


def event(time, view, number):
    return journal.Came(time, view, "event", number, croquet.payload("s", "said", number))


def few_changes():
    """Each kind of record, horizons that are written ahead of entries, and a view that comes again."""
    return [journal.Came(1, 7, "join"), event(2, 7, 1), journal.Reached(2_000_000), event(9, 7, 2),
            journal.Came(11, 8, "join"), journal.Kept(12, b"a snapshot, which is not read"), event(13, 8, 1),
            journal.Came(14, 7, "exit"), journal.Reached(4_000_000), journal.Kept(14, b""),
            journal.Came(15, 7, "join"), event(4_000_001, 7, 3)]


def drawn_changes(seed):
    """Records as a session might write them, drawn by chance."""
    draw, read, numbers, changes, time = random.Random(seed), journal.Read(), {}, [], 0
    while len(changes) < 40:
        time += draw.randint(1, 600_000)
        view = draw.randint(1, 4)
        if draw.random() < 0.2:
            change = journal.Reached(max(read.horizon + 1, time + 2_000_000))
        elif draw.random() < 0.1:
            change = journal.Kept(draw.randint(0, read.horizon), bytes(draw.randrange(40)))
        elif not read.session.view(view).here:
            change = journal.Came(time, view, "join")
        elif draw.random() < 0.2:
            change = journal.Came(time, view, draw.choice(["join", "exit"]))
        else:
            numbers[view] = numbers.get(view, 0) + 1
            change = event(time, view, numbers[view])
        read.take(change)
        changes.append(change)
    return changes


def told_of(changes):
    content, ends = journal.header(ID), [len(journal.header(ID))]
    for record in journal.records(journal.first_check(ID), changes):
        content += record
        ends.append(len(content))
    return Told(changes, content, ends)


def after(changes):
    """The session after these changes, one after the other, with nothing spelled or read."""
    read = journal.Read()
    for change in changes:
        read.take(change)
    return read


def line_of(entries):
    """What `replay` prints of a log."""
    world = croquet.World.first(croquet.read_program(PROGRAM), ID)
    return croquet.world_line(croquet.replayed(world, entries, END))


def of_reference(content, told, whole):
    """The reference reads so many records, if there are any, and leaves the rest."""
    if isinstance(whole, str):
        expect(whole, journal.told(ID, content))
        return
    wanted, read = after(told.changes[:whole]), journal.read_journal(ID, content)
    expect((wanted.entries, wanted.horizon, wanted.kept, told.ends[whole]),
           (read.entries, read.horizon, read.kept, read.good))


def of_program(program, content, told, whole):
    """`replay` prints the line of the log of so many records."""
    run = program.run(["replay", "p", "n", "j", str(END)], {"p": PROGRAM, "j": content})
    faults = {"no-journal": "input log [3]", "other-session": "input journal [3]"}
    wanted = faults[whole] if isinstance(whole, str) else line_of(after(told.changes[:whole]).entries)
    expect(wanted, run.told())


def case_of(name, content, told, whole):
    """A case of bytes of which so many records are read, or a word that says why none is."""
    def check(program):
        of_reference(content, told, whole)
        of_program(program, content, told, whole)
    return Case(name, check)


def case_of_reference(name, content, told, whole):
    """The same, of the reference alone."""
    return Case(name, lambda _: of_reference(content, told, whole), needs_program=False)


def whole_before(told, place):
    """How many records end at a place or before it; a word where the header does not."""
    count = bisect_right(told.ends, place)
    return count - 1 if count else "no-journal"


def cut_cases(told, kind=case_of):
    """Cut at each byte, just the records that are whole are read."""
    return [kind(f"the first {size} bytes", told.content[:size], told, whole_before(told, size))
            for size in range(len(told.content) + 1)]


def turned_case(told, place):
    """A case of one bit; of each byte one bit is a case of the program too."""
    content = bytearray(told.content)
    content[place // 8] ^= 1 << place % 8
    mark = len(journal.MARK)
    in_header = "no-journal" if place // 8 < mark else "other-session"
    whole = in_header if place // 8 < told.ends[0] else whole_before(told, place // 8)
    kind = case_of if place % 8 == place // 8 % 8 else case_of_reference
    return kind(f"bit {place} turned", bytes(content), told, whole)


def turned_cases(told):
    """With one bit changed, the records before it are read, and none after it."""
    return [turned_case(told, place) for place in range(8 * len(told.content))]


def tails(told):
    """Bytes that may be after a journal, and are no record of it."""
    older = [told.content[start:end] for start, end in zip(told.ends, told.ends[1:])]
    elsewhere = b"".join(journal.records(journal.first_check(OTHER), told.changes))
    return ([(f"{count} zeros", bytes(count)) for count in (1, 3, 4, 5, 12, 13, 4_096)]
            + [(f"record {k} again", record) for k, record in enumerate(older)]
            + [(f"all records from {k} on again", b"".join(older[k:])) for k in range(len(older))]
            + [("the journal again", told.content), ("the records of another session", elsewhere),
               ("bytes of 255", b"\xff" * 40), ("a length alone", (9).to_bytes(4, "big"))])


def goes_on(told, whole, tail):
    """The tail begins with the record that comes next anyway."""
    return whole < len(told.changes) and tail.startswith(told.content[told.ends[whole]:told.ends[whole + 1]])


def tail_cases(told):
    """With such a tail after any number of its records, just these are read."""
    return [case_of(f"{name} after {whole} records", told.content[:end] + tail, told, whole)
            for name, tail in tails(told) for whole, end in enumerate(told.ends)
            if not goes_on(told, whole, tail)]


def may_not_come():
    """Changes that may not come after those of `few_changes`, though their record is whole and its check is right."""
    limit = croquet.TIME_LIMIT
    return [("an entry at the last one's time", event(4_000_001, 7, 4)),
            ("a number again", event(4_000_002, 7, 3)),
            ("an exit of a view that is not here", journal.Came(4_000_002, 9, "exit")),
            ("view 0", journal.Came(4_000_002, 0, "join")),
            ("a payload that is too long", journal.Came(4_000_002, 7, "event", 4, bytes(4_097))),
            ("a horizon again", journal.Reached(4_000_001)),
            ("a horizon below the last entry", journal.Reached(4_000_000)),
            ("a horizon with no time for two exits", journal.Reached(limit - 2)),
            ("a join with no time for its exit", journal.Came(limit - 2, 9, "join")),
            ("a snapshot of a time to come", journal.Kept(4_000_002, b"")),
            ("a snapshot that is too long", journal.Kept(1, bytes(4_194_305)))]


def may_come():
    """Changes that may come after those of `few_changes`, each at a limit."""
    limit = croquet.TIME_LIMIT
    return [("a horizon with just time for two exits", journal.Reached(limit - 3)),
            ("an exit with just time for one more", journal.Came(limit - 2, 8, "exit")),
            ("a join with just time for three exits", journal.Came(limit - 4, 9, "join")),
            ("the longest payload", journal.Came(4_000_002, 7, "event", 4, bytes(4_096))),
            ("the longest snapshot", journal.Kept(4_000_001, bytes(4_194_304)))]


def added_cases():
    """A record with a right check is read exactly where it may come, and nothing is read after one that may not."""
    few = few_changes()
    cases = []
    for name, change in may_not_come():
        told = told_of([*few, change, event(4_000_003, 7, 4)])
        cases.append(case_of(name, told.content, told, len(few)))
    for name, change in may_come():
        told = told_of([*few, change])
        cases.append(case_of(name, told.content, told, len(few) + 1))
    return cases


def bad_bodies():
    """Bodies that say nothing."""
    came = journal.body_of(journal.Came(4_000_002, 7, "exit"))
    return [("no body", b""), ("kind 0", b"\x00"), ("kind 4", b"\x04" + bytes(8)), ("a kind alone", b"\x01"),
            ("a horizon of seven bytes", b"\x02" + bytes(7)), ("a byte after an entry", came + b"\x00"),
            ("a byte after a horizon", journal.body_of(journal.Reached(5_000_000)) + b"\x00"),
            ("an entry of kind 4", came[:-1] + b"\x04")]


def bad_body_cases():
    told = told_of(few_changes())
    check = list(journal.records(journal.first_check(ID), told.changes))[-1][-journal.CHECK_BYTES:]
    return [case_of(name, told.content + len(body).to_bytes(4, "big") + body + journal.check_of(check, body), told,
                    len(told.changes)) for name, body in bad_bodies()]


def header_cases(told):
    """What does not begin with the whole header is no journal, and one with another id is another session's."""
    records = told.content[told.ends[0]:]
    return [case_of("no header", records, told, "no-journal"),
            case_of("no bytes", b"", told, "no-journal"),
            case_of("a byte before the header", b"T" + told.content, told, "no-journal"),
            case_of("another session's header", journal.header(OTHER) + records, told, "other-session"),
            case_of("another session's journal", journal.spelled(OTHER, told.changes), told, "other-session")]


def journals_cases():
    few, drawn = told_of(few_changes()), told_of(drawn_changes(1))
    return (cut_cases(few) + turned_cases(few) + tail_cases(few) + added_cases() + bad_body_cases() + header_cases(few)
            + cut_cases(drawn, case_of_reference))


# ---------------------------------------------------------------- what each command makes of a journal

TORN = b"\x00\x00\x00\x09\x02"
WORDS = {"replay": ["replay", "p", "n", "j", str(END), "--snapshot", "w"], "inspect": ["inspect", "p", "n", "j", "2", "q"],
         "trace": ["trace", "p", "n", "j", "1", str(END)]}
STAMPING = ["stamp", "s", "--from", "j", "--log", "f"]
REFLECTING = ["reflect", "p", "n", "localhost:1", "--from", "j", "--connections", "1", "--log", "f"]
QUERIES = b"at 13\nfull 2000000\n"


def torn():
    """A journal with a torn end."""
    return journal.spelled(ID, few_changes()) + TORN


def recorded():
    """What is read of it."""
    return croquet.Replaying(ID, [], after(few_changes()).entries, croquet.read_program(PROGRAM), None)


def files_of(content):
    return {"p": PROGRAM, "j": content, "q": QUERIES, "s": b"join 9 100\npull 0 20\n", "bad": b"{"}


def expect_told(program, command, lines, files):
    run = program.run(WORDS[command], files_of(torn()))
    expect((" / ".join(lines), files), (run.told(), run.files))


def a_replay_passes_over_a_torn_end(program):
    world = croquet.replayed(recorded().first_world(), recorded().entries, END)
    expect_told(program, "replay", [croquet.world_line(world)], {"w": world.snapshot()})


def an_inspection_passes_over_a_torn_end(program):
    expect_told(program, "inspect", croquet.inspected(recorded(), 2, QUERIES), {})


def a_trace_passes_over_a_torn_end(program):
    expect_told(program, "trace", croquet.traced(recorded(), 1, END), {})


def a_stamp_goes_on_from_the_journal_of_any_session(program):
    """Its requests find the horizon that was written ahead, and who is here. What is kept goes on too."""
    changes = few_changes()[:9]
    for ident in (ID, OTHER):
        session, files = after(changes).stored(), files_of(journal.spelled(ident, changes) + TORN)
        lines = [session.reply(request) for request in croquet.read_script(files["s"])]
        run = program.run(STAMPING, files)
        expect((" / ".join(lines), {"f": session.encoded()}), (run.told(), run.files))


def elsewhere():
    return journal.spelled(OTHER, few_changes())


def another_session_is_refused(program):
    """Of each command that knows its session, with nothing put."""
    for words in (*WORDS.values(), REFLECTING, [*REFLECTING, "--journal", "k"]):
        run = program.run(words, files_of(elsewhere()))
        expect(("input journal [3]", {}), (run.told(), run.files))


def another_name_or_value_is_another_session(program):
    files = {**files_of(torn()), "v": b"1"}
    for words in WORDS.values():
        for changed in (["other" if word == "n" else word for word in words], [*words, "--persisted", "v"]):
            expect("input journal [3]", program.run(changed, files).told())


def the_value_is_read_before_the_session_is_known(program):
    """A value at fault is told first; so is a log that is none."""
    for words in WORDS.values():
        expect("input persisted [3]", program.run([*words, "--persisted", "bad"], files_of(elsewhere())).told())
        expect("input log [3]", program.run([*words, "--persisted", "bad"], files_of(b"TEALOG03" + bytes(31))).told())


def what_comes_after_is_not_read_of_another_session(program):
    """EVERY is not looked at, and the queries and the snapshot are not read."""
    replaying = [*WORDS["replay"], "--from", "none"]
    inspecting = ["inspect", "p", "n", "j", "1", "none"]
    for words in (replaying, inspecting):
        expect("read-fault [4]", program.run(words, files_of(torn())).told())
        expect("input journal [3]", program.run(words, files_of(elsewhere())).told())


def no_header_is_no_log(program):
    for words in (*WORDS.values(), STAMPING, REFLECTING):
        for content in (b"TEALOG03", b"TEALOG03" + ID[:31]):
            run = program.run(words, files_of(content))
            expect(("input log [3]", {}), (run.told(), run.files))


COMMANDS = [
    a_replay_passes_over_a_torn_end, an_inspection_passes_over_a_torn_end, a_trace_passes_over_a_torn_end,
    a_stamp_goes_on_from_the_journal_of_any_session, another_session_is_refused, another_name_or_value_is_another_session,
    the_value_is_read_before_the_session_is_known, what_comes_after_is_not_read_of_another_session, no_header_is_no_log]
PARTS = {"journals": journals_cases, "journal-logs": lambda: named_cases(COMMANDS)}
