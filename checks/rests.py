"""Views drawn by chance that stop at an entry, with a base and a cut or without: the last line of each is that of the replay, and each world that one shows is."""
import random
import re

from case import Case, expect, expect_that
from reference import croquet, outcomes
from views import check_view

COUNT, SEED = 300, 52
SHOWN = re.compile(r"time (\d+) objects .*")
LAST = re.compile(r"view 8 time (\d+) seq (\d+) digest ([0-9a-f]{64})(?= [>;]|$)")
# A world in which messages are due at the time of the entry that they follow from, and others at times of their own.
PROGRAM = """class Root{{field n;init(o){{this.n=0;subscribe("s","e","e");{first}}}
e(v){{this.n=this.n*3+v;this.future(0).f(v);{second}}}
f(v){{this.n=(this.n+random(100))%1000;publish("m","p",this.n);if(v>0){{this.future(0).f(v-1);}}}}
t(){{this.n=this.n+1;publish("m","t",this.n);this.future({period}).t();}}}}"""


def drawn_program(source):
    first = source.choice(["", "this.future(0).f(2);", "this.future(1).t();"])
    second = source.choice(["", "this.future(0).f(0);", "this.future(1).f(1);"])
    program = PROGRAM.format(first=first, second=second, period=source.randrange(1, 9))
    return program.replace("\n", "").encode()


def drawn_log(source):
    """The entries of a session: view 7 joins, and sends; view 8 joins in the midst of that, once or twice."""
    time, number, entries = 0, 0, []
    count = source.randrange(3, 13)
    joins = sorted(source.sample(range(2, count + 1), min(source.choice([1, 2]), count - 1)))
    for seq in range(1, count + 1):
        time += source.randrange(1, 8)
        if seq in (1, *joins):
            entries.append(croquet.Entry(seq, time, 7 if seq == 1 else 8, "join"))
        else:
            number += 1
            content = croquet.payload("s", "e", source.randrange(4))
            entries.append(croquet.Entry(seq, time, 7, "event", number, content))
    return entries, joins


def entry_bytes(entry):
    kinds = {"join": 1, "exit": 2, "event": 3}
    fields = [croquet.number(entry.seq, 4), croquet.number(entry.time, 8),
              croquet.number(entry.view, 4), croquet.number(kinds[entry.kind], 1)]
    if entry.kind == "event":
        fields += [croquet.number(entry.number, 4), croquet.bytes_field(entry.payload)]
    return croquet.framed(croquet.RECV_TAG, *fields)


def sync_bytes(joined, from_, base):
    told = b"\0" if base is None else b"\1" + croquet.number(base[0], 8) + croquet.bytes_field(base[1])
    return croquet.framed(croquet.SYNC_TAG, croquet.number(joined, 4), croquet.number(0, 4), croquet.number(from_, 4), told)


def served_frames(source, entries, joined, from_, base=None):
    """What a reflector tells view 8 once it has joined: its sync, the entries from there on, and a tick here and there.

    Each frame comes with the time to which it leads."""
    frames = [(0 if base is None else base[0], sync_bytes(joined, from_, base))]
    for place, entry in enumerate(entries[from_:], from_):
        frames.append((entry.time, entry_bytes(entry)))
        after = entries[place + 1].time if place + 1 < len(entries) else entry.time + 5
        if place + 1 >= joined and source.random() < 0.4 and entry.time + 1 < after:
            time = source.randrange(entry.time + 1, after)
            frames.append((time, croquet.framed(croquet.TICK_TAG, croquet.number(time, 8))))
    return frames


def drawn_base(source, program, entries):
    """The time and the snapshot of a replica that follows these entries, and how many it has seen; or none."""
    if source.random() < 0.5:
        return None, 0
    time = source.randrange(1, entries[-1].time + 1)
    seen = [entry for entry in entries if entry.time <= time]
    if seen and source.random() < 0.5:
        # A snapshot of a world that has just taken an entry: what is due at its time is still to come.
        world = first_world(program)
        for entry in seen:
            world.external(entry)
        time = world.time
    else:
        world = replayed(program, entries, time)
    return (time, world.snapshot()), len(seen)


def stop_from(source, entries, joined):
    """The time of an entry; seldom that of the join itself, where a view has it at once."""
    later = entries[joined:] or entries[joined - 1:]
    return source.choice(later).time


def shown(source):
    """The world is shown there, or not."""
    return source.choice(["", " / show", " / show / show"])


def drawn_view(source):
    """A case of a view, the program and the log."""
    program = drawn_program(source)
    entries, joins = drawn_log(source)
    base, from_ = drawn_base(source, program, entries[:joins[0] - 1])
    watched = 'watch "m" "p" queued / watch "m" "t" queued / '
    if len(joins) == 1:
        links = [served_frames(source, entries, joins[0], from_, base)]
        script = f"{watched}wait {stop_from(source, entries, joins[0])}{shown(source)}"
    else:
        told = entries[:joins[1] - 1]
        first = served_frames(source, told, joins[0], from_, base)
        pause = stop_from(source, told, joins[0])
        reached = next(time for time, _ in first if time >= pause)
        seen = sum(entry.time <= reached for entry in entries)
        links = [first, served_frames(source, entries, joins[1], seen)]
        script = (f"{watched}wait {pause}{shown(source)} / cut{shown(source)} / "
                  f"wait {stop_from(source, entries, joins[1])}{shown(source)}")
    spelled = " | ".join(" ".join(frame.hex() for _, frame in link) for link in links)
    return f"a 8 {script} | {program.decode()} | {spelled}", program, entries


def first_world(program):
    return croquet.World.first(croquet.read_program(program), croquet.session_id(b"a", program))


def replayed(program, entries, time):
    return croquet.replayed(first_world(program), entries, time)


def full_text(world):
    return [croquet.world_line(world), *croquet.full_lines(world)]


def check_shown(told, program, entries):
    """Each world that is shown is the replay's to its time, in full."""
    lines = told.partition(" > ")[0].split(" / ")
    for place, line in enumerate(lines):
        if match := SHOWN.fullmatch(line):
            wanted = full_text(replayed(program, entries, int(match[1])))
            expect(wanted, lines[place:place + len(wanted)])


def check_rest(case, told, program, entries):
    """The reference's last line is the replay's, with the number of entries up to its time."""
    check_shown(told, program, entries)
    match = LAST.search(told)
    expect_that(match is not None, "the last line of a view", told)
    time = int(match[1])
    seq = sum(entry.time <= time for entry in entries)
    digest = croquet.hashlib.sha256(replayed(program, entries, time).snapshot()).hexdigest()
    expect((seq, digest), (int(match[2]), match[3]))


def rest_cases():
    source = random.Random(SEED)
    drawn = [drawn_view(source) for _ in range(COUNT)]
    told = outcomes("views", [case for case, _, _ in drawn])

    def of_reference(case, wanted, program, entries):
        return Case(case, lambda _: check_rest(case, wanted, program, entries), needs_program=False)

    def of_program(case, wanted):
        return Case(case, lambda run: check_view(run, case.encode(), wanted))

    return ([of_reference(case, wanted, program, entries)
             for (case, program, entries), wanted in zip(drawn, told)]
            + [of_program(case, wanted) for (case, _, _), wanted in zip(drawn, told)])


PARTS = {"rests": rest_cases}
