"""Cases that are words, files and output."""
import random
import re
import socket

from case import Case, expect, expect_that, read_cases
from reference import croquet, expanded, log_text, outcomes, read_log

# ---------------------------------------------------------------- of the reference


def reference_cases(kind, file):
    """The reference gives the outcome of each line."""
    pairs = read_cases(file)
    told = outcomes(kind, [case for case, _ in pairs])

    def case_of(case, wanted, came):
        return Case(case, lambda _: expect(wanted, came), needs_program=False)

    return [case_of(*pair, came) for pair, came in zip(pairs, told)]


def each(kind, file, check):
    """A case for each line of a file, by a check of a program, the case's bytes and the outcome."""
    def case_of(case, wanted):
        return Case(case, lambda program: check(program, expanded(case), wanted))

    return reference_cases(kind, file) + [case_of(*pair) for pair in read_cases(file)]


# ---------------------------------------------------------------- sessions


def stamp(program, script):
    """A run of `stamp` of a script whose lines are divided by ` / `. The log lies in the file `l`."""
    files = {"s": script.replace(b" / ", b"\n")}
    return program.run(["stamp", "s", "--log", "l"], files)


def check_script(program, case, wanted):
    run = stamp(program, case)
    expect(wanted, run.told())
    if run.status != 0:
        return expect({}, run.files)
    session, _ = croquet.stamped(case.replace(b" / ", b"\n"))
    return expect({"l": session.encoded()}, run.files)


def check_log(program, case, wanted):
    run = stamp(program, case)
    expect(wanted, run.files["l"].hex() if "l" in run.files else run.told())


def check_hub(program, case, wanted):
    """The sessions of a hub's script lie in the files `l1`, `l2` and so on."""
    script = case.replace(b" / ", b"\n")
    run = program.run(["hub", "s", "--logs", "l"], {"s": script})
    expect(wanted, run.told())
    expect(wanted, program.run(["hub", "s"], {"s": script}).told())
    if run.status != 0:
        return expect({}, run.files)
    sessions, _ = croquet.hubbed(script)
    return expect({f"l{number}": session.encoded() for number, session in enumerate(sessions, 1)}, run.files)


HUBS, HUB_SEED = 60, 62
REQUESTS = ["join {view} {now}", "send {view} 1 1 {now} 00", "send {view} 2 2 {now} 0a", "tick {now}", "leave {view} 1 {now}", "pull 0 9"]


def drawn_hub(seed):
    """Requests to a few sessions, each of which replies as a script of its own requests alone."""
    draw = random.Random(f"{HUB_SEED} {seed}")
    names = draw.sample(["a", "b", "in", "#", "\u00e9", "n" * 255, "--logs", "1"], draw.randrange(1, 5))
    lines = [(draw.choice(names), draw.choice(REQUESTS).format(view=draw.randrange(1, 3), now=draw.randrange(50)))
             for _ in range(draw.randrange(1, 40))]

    def check(program):
        run = program.run(["hub", "s", "--logs", "l"], {"s": "".join(f"in {name} {line}\n" for name, line in lines).encode()})
        alone = {name: program.run(["stamp", "s", "--log", "l"], {"s": "".join(f"{line}\n" for of, line in lines if of == name).encode()})
                 for name in dict.fromkeys(name for name, _ in lines)}
        replies = {name: iter(stamped.text.decode().splitlines()) for name, stamped in alone.items()}
        expect([f"{name} {next(replies[name])}" for name, _ in lines], run.text.decode().splitlines())
        expect({f"l{number}": stamped.files["l"] for number, stamped in enumerate(alone.values(), 1)}, run.files)

    return Case(f"hub {HUB_SEED} {seed}", check)


def check_full_hub(program):
    """A hub has 256 sessions. Those that it has go on; one more is not made."""
    names = [f"n{number}" for number in range(256)]
    script = "".join(f"in {name} tick 1\n" for name in names) + "in x tick 0\nin n0 tick 2\nin y tick 0\nin n255 tick 3\n"
    run = program.run(["hub", "s", "--logs", "l"], {"s": script.encode()})
    expect([f"{name} ticked 1" for name in names] + ["x hub-full 256", "n0 ticked 2", "y hub-full 256", "n255 ticked 3"], run.text.decode().splitlines())
    expect([f"l{number}" for number in range(1, 257)], sorted(run.files, key=lambda name: int(name[1:])))


def drawn_hubs():
    return [drawn_hub(seed) for seed in range(HUBS)] + [Case("256 sessions and one more", check_full_hub)]


def check_program(program, case, wanted):
    run = program.run(["check", "p"], {"p": case})
    expect(wanted, run.told())
    expect({}, run.files)


# ---------------------------------------------------------------- replays


class Recorded:
    """A case of a replay, and the log that its script makes by the program itself."""

    def __init__(self, program, case, times):
        head, self.source, *self.json = case.split(b" | ", 2)
        self.name, *self.times, script = head.split(b" ", times + 1)
        self.program = program
        self.stamped = stamp(program, b"" if script == b"-" else script)

    def replay(self, time, snapshot=None, option="--snapshot"):
        """A run to this time, which writes what the option asks for into the file `f`."""
        files = {"p": self.source, "l": self.stamped.files["l"]}
        words = ["replay", "p", self.name, "l", time, option, "f"]
        if self.json:
            words += ["--persisted", "j"]
            files["j"] = self.json[0]
        if snapshot is None:
            return self.program.run(words, files)
        return self.program.run([*words, "--from", "s"], {**files, "s": snapshot})


def check_world(program, case, wanted):
    recorded = Recorded(program, case, 1)
    if recorded.stamped.status != 0:
        return expect(wanted, recorded.stamped.told())
    run = recorded.replay(recorded.times[0])
    expect(wanted, run.told())
    return expect(["f"] if run.status == 0 else [], list(run.files))


def check_snapshot(program, case, wanted):
    recorded = Recorded(program, case, 1)
    run = recorded.stamped
    if run.status == 0:
        run = recorded.replay(recorded.times[0])
    expect(wanted, run.files["f"].hex() if run.status == 0 else run.told())


def check_saved(program, case, wanted):
    recorded = Recorded(program, case, 1)
    run = recorded.replay(recorded.times[0], option="--saved")
    expect(wanted, run.files["f"].decode("utf-8", "replace") if run.status == 0 else run.told())
    return expect(["f"] if run.status == 0 else [], list(run.files))


KEEPING = b"class Root{field v;init(o,p){this.v=p;persist(p);}}"


def check_json(program, case, wanted):
    """A session is founded with this text, or it is refused."""
    files = {"p": KEEPING, "l": croquet.Session().encoded(), "j": case}
    run = program.run(["replay", "p", "a", "l", "0", "--persisted", "j", "--snapshot", "f", "--saved", "g"], files)
    if wanted == "bad":
        expect("input persisted [3]", run.told())
        return expect({}, run.files)
    value = croquet.from_json(case)
    world = croquet.World.first(croquet.read_program(KEEPING), croquet.session_id(b"a", KEEPING, value), value)
    expect(croquet.world_line(world), run.told())
    expect((world.snapshot(), case if wanted == "same" else wanted.encode()), (run.files.get("f"), run.files.get("g")))


def check_resumed(program, case, wanted):
    recorded = Recorded(program, case, 2)
    if recorded.stamped.status != 0:
        return expect(wanted, recorded.stamped.told())
    first, time = recorded.times
    begun = recorded.replay(first)
    if begun.status != 0:
        return expect(wanted, begun.told())
    run = recorded.replay(time, begun.files["f"])
    if run.status != 0:
        expect({}, run.files)
        return expect(wanted, run.told())
    whole = recorded.replay(time)
    same = "same" if whole.files == run.files else "differs"
    return expect(wanted, f"{run.told()} {same}")


# ---------------------------------------------------------------- moments of a session


def run_recorded(recorded, words, files):
    """A run of a command over the case's program and log, with its persisted value, which writes no file."""
    files = {"p": recorded.source, "l": recorded.stamped.files["l"], **files}
    if recorded.json:
        words = [*words, "--persisted", "j"]
        files["j"] = recorded.json[0]
    run = recorded.program.run(words, files)
    expect({}, run.files)
    return run.told()


def check_inspect(program, case, wanted):
    head, queries, rest = case.split(b" | ", 2)
    recorded = Recorded(program, head + b" | " + rest, 1)
    files = {"q": b"" if queries == b"-" else croquet.lines_of(queries)}
    expect(wanted, run_recorded(recorded, ["inspect", "p", recorded.name, "l", *recorded.times, "q"], files))


def check_trace(program, case, wanted):
    recorded = Recorded(program, case, 2)
    expect(wanted, run_recorded(recorded, ["trace", "p", recorded.name, "l", *recorded.times], {}))


# ---------------------------------------------------------------- spoiled snapshots

COUNTING = b"class Root{field n;init(o,p){if(p==nil){this.n=0;}else{this.n=at(p,0);}persist([this.n+1]);}}"
EMPTY = b"class Root{init(o){}}"
# It holds a number, a text and a list, and has subscriptions and messages with arguments.
FULL = (b"class Root{field a;field b;init(o){this.a=[7,\"ab\",nil];this.b=create(B,this.a);subscribe(\"s\",\"e\",\"m\");subscribe(\"s\",\"f\",\"m\");"
        b"this.future(5).m([1,true]);this.b.future(2).n(\"c\",2,this);}m(v){}}class B{field k;init(o){this.k=o;beKnown(\"b\");}n(x,y,z){}}")


def first_world(source):
    return croquet.World.first(croquet.read_program(source), croquet.session_id(b"n", source))


def fronts(content):
    """The bytes up to each place, but for all of them."""
    return [(f"the first {size} bytes", content[:size]) for size in range(len(content))]


def turned(content):
    """The bytes with each bit turned."""
    number = int.from_bytes(content, "big")
    return [(f"bit {place} from the end turned", (number ^ 1 << place).to_bytes(len(content), "big"))
            for place in range(8 * len(content))]


def set_bytes(content):
    """The bytes with each of the first sixteen set to the least and the greatest, with and without a sign."""
    return [(f"byte {place} set to {value}", content[:place] + bytes([value]) + content[place + 1:])
            for place in range(min(16, len(content))) for value in (0, 127, 128, 255)]


def greatest(content):
    """The bytes with four in a row that are a number as great as can be, at each place."""
    return [(f"four bytes from {place} on as great as can be", content[:place] + b"\xff" * 4 + content[place + 4:]) for place in range(len(content) - 3)]


def taken_up(source, snapshot):
    """What a replay from these bytes to time 0 prints, and the files that it writes."""
    world = first_world(source)
    try:
        world = croquet.read_snapshot(world.program, world.id, snapshot)
    except croquet.Bad:
        return "input snapshot [3]", {}
    if world.time > 0:
        return "input time [3]", {}
    world = croquet.replayed(world, [], 0)
    return croquet.world_line(world), {"f": snapshot, "g": croquet.to_json(world.saved)}


def check_spoiled(program, source, snapshot):
    files = {"p": source, "l": croquet.Session().encoded(), "s": snapshot}
    run = program.run(["replay", "p", "n", "l", "0", "--from", "s", "--snapshot", "f", "--saved", "g"], files)
    expect(taken_up(source, snapshot), (run.told(), run.files))


def spoiled_cases():
    """Each front of snapshots, and each bit of them turned; and numbers that are as great as can be, in a snapshot with all that a world may hold."""
    world = first_world(COUNTING)
    saving = world.snapshot()
    world.persist(None)
    bare, full = first_world(EMPTY).snapshot(), first_world(FULL).snapshot()
    kinds = {"a saved value": (COUNTING, fronts(saving) + turned(saving)), "no saved value": (COUNTING, turned(world.snapshot())),
             "a world with nothing": (EMPTY, fronts(bare) + turned(bare)), "a world with all": (FULL, greatest(full) + set_bytes(full))}

    def case_of(kind, source, how, snapshot):
        return Case(f"{kind}, {how}", lambda program: check_spoiled(program, source, snapshot))

    return [case_of(kind, source, *pair) for kind, (source, pairs) in kinds.items() for pair in pairs]


# ---------------------------------------------------------------- commands

ADDRESS = re.compile(r"(localhost|[0-9.]+):[1-9][0-9]*")


def read_command(case):
    """The words of a case, and its files."""
    words, *parts = case.split(b" ; ")
    words = [] if words == b"-" else [b"" if word == b"''" else word for word in words.split(b" ")]
    files = {}
    for part in parts:
        if b"=" in part:
            name, _, content = part.partition(b"=")
            files[name.decode()] = content.replace(b" / ", b"\n")
        else:
            name, _, digits = part.partition(b":")
            files[name.decode()] = bytes.fromhex(digits.decode())
    return words, files


def taken_address(words, port):
    """The words with this port in place of that of their address, and that address."""
    (place, match), = [(place, match) for place, match in
                       enumerate(ADDRESS.fullmatch(word.decode("utf-8")) for word in words) if match]
    address = f"{match[1]}:{port}"
    return [*words[:place], address.encode(), *words[place + 1:]], address


def told_command(run, files):
    """What is printed, the status, and the file `f`."""
    told, file = run.told(), run.files.get("f", files.get("f"))
    if file is None:
        return told
    return f"{told} f={file.hex()}" if told else f"f={file.hex()}"


def named_files(words):
    """The files that the options of a command name to be written."""
    named = set()
    for option, word in zip(words, words[1:]):
        name = word.decode("utf-8")
        if option in (b"--log", b"--snapshot", b"--saved"):
            named.add(name)
        if option == b"--snapshots":
            named |= {f"{name}{view}" for view in range(1, 9)}
    return named


def check_command(program, case, wanted):
    words, files = read_command(case)
    if wanted.startswith("net-fault"):
        with socket.create_server(("127.0.0.1", 0)) as taken:
            words, address = taken_address(words, taken.getsockname()[1])
            run = program.run(words, files, f"cannot listen at {address}: the port is in use\n".encode())
    else:
        run = program.run(words, files)
    may_change = named_files(words) if run.status == 0 else set()
    expect_that(set(run.files) <= may_change, "no other file changed", sorted(run.files))
    if words[:1] == [b"drill"] and run.status == 0:
        return check_drill(run, wanted)
    return expect(wanted, told_command(run, files))


def check_drill(run, wanted):
    """The times of a drill are those of the clock; all else of its log is as wanted."""
    text, _, digits = wanted.partition(" f=")
    expect(text, run.told())
    if digits:
        expect(log_text(read_log(bytes.fromhex(digits))), log_text(read_log(run.files["f"]) or []))


def command_cases():
    def case_of(case, wanted):
        return Case(case, lambda program: check_command(program, expanded(case), wanted))

    return [case_of(*pair) for pair in read_cases("commands")]


# ---------------------------------------------------------------- parts

PARTS = {
    "scripts": lambda: each("scripts", "scripts", check_script),
    "hubs": lambda: each("hubs", "hubs", check_hub) + drawn_hubs(),
    "logs": lambda: each("logs", "logs", check_log),
    "programs": lambda: each("programs", "programs", check_program),
    "worlds": lambda: each("worlds", "worlds", check_world)
    + each("worlds", "whiteboard", check_world),
    "snapshots": lambda: each("snapshots", "snapshots", check_snapshot),
    "resumed": lambda: each("resumed", "resumed", check_resumed),
    "saved": lambda: each("saved", "saved", check_saved),
    "jsons": lambda: each("data", "jsons", check_json),
    "inspects": lambda: each("inspects", "inspects", check_inspect),
    "traces": lambda: each("traces", "traces", check_trace),
    "spoiled": spoiled_cases,
    "commands": command_cases,
}
