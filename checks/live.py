"""Sessions of `reflect` and several runs of `join`: each view has the world of the log's replay."""
import re
import time

from case import Case, expect, expect_that
from reference import croquet
from reflector import Reflector, leave_all, reflecting, served_log

SOURCE = b"""class Root{field n;
init(o){this.n=0;subscribe("s","add","add");this.future(50).tick();}
tick(){this.n=this.n+1;publish("s","tick",this.n);this.future(50).tick();}
add(v){this.n=this.n+v;publish("s","added",[v,this.n,random(1000)]);}}"""
FIRST = b"""watch "s" "added" queued
watch "s" "tick" once
wait 300000
publish "s" "add" 5
settle
snap
wait 900000
"""
OTHER = b"""watch "s" "added" queued
wait 200000
publish "s" "add" 7
publish "s" "add" 8
cut
settle
wait 700000
"""
LATE = b"""watch "s" "added" queued
wait 1200000
cut
quit
wait 9000000
"""
LAST = re.compile(r"view (\d+) time (\d+) seq (\d+) digest ([0-9a-f]{64})")


def start_join(program, reflector, view, script):
    return program.start(["join", "p", "a", f"localhost:{reflector.port}", str(view), "s"],
                         {"p": SOURCE, "s": script})


def replay(entries, time_):
    """The world of the reference, with all that models published."""
    world = croquet.World.first(croquet.read_program(SOURCE), croquet.session_id(b"a", SOURCE))
    return croquet.replayed(world, entries, time_)


def check_view(run, view, entries):
    """The digest is that of the replay, and so is each event that is shown."""
    *lines, last = run.text.decode().rstrip("\n").split("\n")
    match = LAST.fullmatch(last)
    expect_that(match is not None and run.status == 0, "the line of a view", run.told())
    number, time_, seq = (int(match[place]) for place in (1, 2, 3))
    world = replay(entries[:seq], time_)
    expect((view, croquet.hashlib.sha256(world.snapshot()).hexdigest()), (number, match[4]))
    published = [f"event {at} {croquet.value_text(scope)} {croquet.value_text(event)} "
                 f"{croquet.value_text(value)}" for at, scope, event, value in world.published]
    shown = [line for line in lines if line.startswith("event ")]
    expect_that(set(shown) <= set(published), "events of the replay",
                sorted(set(shown) - set(published)))
    added = [line for line in published if '"added"' in line]
    return [line for line in added if line not in shown], lines


def views_come_to_the_worlds_of_the_replay(program):
    """One view offers a snapshot, one is cut off and sends again, and one joins late."""
    with reflecting(program, 6, SOURCE) as reflector:
        watcher = reflector.view(9)
        runs = [start_join(program, reflector, 7, FIRST), start_join(program, reflector, 8, OTHER)]
        watcher.until_tick(1_000_000)
        late = start_join(program, reflector, 10, LATE)
        ends = [run.end() for run in [*runs, late]]
        leave_all(watcher)
        run = reflector.end()
    entries = served_log(run, [watcher])
    expect([5, 7, 8], sorted(croquet.read_payload(entry.payload)[2] for entry in entries
                             if entry.kind == "event"))
    hidden, lines = check_view(ends[0], 7, entries)
    expect(([], True), (hidden, any(line.startswith("snapped ") for line in lines)))
    _, lines = check_view(ends[1], 8, entries)
    expect_that("settled 2" in lines, "settled 2", lines)
    check_view(ends[2], 10, entries)


def a_reflector_that_is_killed_ends_its_views(program):
    """What a view printed before stays, and no log is written."""
    with reflecting(program, 2, SOURCE) as reflector:
        watcher = reflector.view(9)
        run = start_join(program, reflector, 7, b"settle\nwait 600000000\n")
        watcher.until_entry(2)
        time.sleep(0.2)
        reflector.run.kill()
        told = run.end().told()
        expect_that(told in ("settled 0 / ended [9]", "settled 0 / net-fault [6]"), "an end", told)
        expect({}, reflector.end().files)


def an_address_that_is_taken_is_a_fault(program):
    with reflecting(program, 1) as reflector:
        view = reflector.view(7)
        view.joined()
        other = Reflector(program, 1, port=reflector.port)
        other.run.errors = f"cannot listen at {other.address}: the port is in use\n".encode()
        run = other.run.end()
        expect(("net-fault [6]", {}), (run.told(), run.files))
        leave_all(view)
        served_log(reflector.end(), [view])

FOUNDED = b"""class Root{field n;
init(o,p){this.n=at(p,0);subscribe("s","add","add");}
add(v,sender){this.n=this.n+v;persist([this.n,sender]);}}"""
ADDING = b'publish "s" "add" 3\nsettle\n'


def views_are_of_a_session_with_their_value(program):
    """A session is founded with a value. A view that has another one, or none, is of another session."""
    def run_join(view, *more):
        words = ["join", "p", "a", f"localhost:{reflector.port}", view, "s", *more]
        return program.run(words, {"p": FOUNDED, "s": ADDING, "j": b"[5]", "k": b"[6]", "m": b" [ 5 ]"})

    with reflecting(program, 5, FOUNDED, b"[5]") as reflector:
        watcher = reflector.view(9)
        watcher.until_tick(0)
        expect("refused 12 0 [7]", run_join("7", "--persisted", "k").told())
        expect("refused 12 0 [7]", run_join("7").told())
        told = [run_join(view, "--persisted", name).told() for view, name in ("7j", "8m")]
        leave_all(watcher)
        run = reflector.end()
    for lines in told:
        expect_that(lines.startswith("settled 1 / view "), "settled 1", lines)
    files = {"p": FOUNDED, "l": run.files["f"], "j": b"[5]"}
    saved = program.run(["replay", "p", "a", "l", "600000000", "--persisted", "j", "--saved", "f"], files)
    expect(b"[11,8]", saved.files.get("f"))


VOTERS, VOTED = (7, 8, 10, 11), (6, 11, 17)
VOTING = b"".join(b"vote %d\n" % at for at in VOTED) + b"settle\n"
VOTES = ["at 6 votes 4 agreed", "at 11 votes 5 diverged 12 16", "at 17 votes 4 agreed", "votes 13"]


def digest_after(entries, at):
    """The digest of the world directly after an entry, by the reference."""
    world = croquet.World.first(croquet.read_program(SOURCE), croquet.session_id(b"a", SOURCE))
    for entry in entries[:at]:
        world.external(entry)
    return croquet.hashlib.sha256(world.snapshot()).hexdigest()


def have_voted(entries, run, view):
    """A view printed its three votes, and the log has them, each with the digest of the reference's world."""
    told = " / ".join(f"voted {at} {number}" for number, at in enumerate(VOTED, start=1))
    expect_that(run.told().startswith(f"{told} / settled 3 / view {view} "), told, run.told())
    votes = [croquet.vote_payload(at, digest_after(entries, at)) for at in VOTED]
    expect(votes, [entry.payload for entry in entries if (entry.kind, entry.view) == ("event", view)])


def views_vote_on_their_worlds(program):
    """Four views vote on three entries, and agree. A client by hand votes otherwise on one of them, and its vote is named."""
    with reflecting(program, 5, SOURCE) as reflector:
        client = reflector.view(9)
        client.until_entry(1)
        runs = [start_join(program, reflector, view, VOTING) for view in VOTERS]
        client.until_entry(5)
        for at in VOTED:
            expect(at, client.done(croquet.payload("s", "add", at))[0])
            client.until_entry(at + len(VOTERS))
            if at == 11:
                expect(16, client.done(croquet.vote_payload(at, "0" * 64))[0])
        ends = [run.end() for run in runs]
        leave_all(client)
        run = reflector.end()
    entries = served_log(run, [client])
    for view, end in zip(VOTERS, ends):
        have_voted(entries, end, view)
    expect(" / ".join(VOTES), program.run(["votes", "l"], {"l": run.files["f"]}).told())


CHECKS = [views_come_to_the_worlds_of_the_replay, a_reflector_that_is_killed_ends_its_views,
          an_address_that_is_taken_is_a_fault, views_are_of_a_session_with_their_value,
          views_vote_on_their_worlds]
PARTS = {"live": lambda: [Case(check.__name__.replace("_", " "), check) for check in CHECKS]}
