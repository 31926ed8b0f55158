"""`reflect` without a count of its links: one session, served by posts until a file is there, with a journal and without one."""
import os
import signal
import time

from case import expect, expect_that
from hosts import memory_of, say_first, work_of
from journal_runs import expect_kept, journaled, place
from reference import croquet
from reflector import (EMPTY, Reflector, expect_entries, expect_ways, hold_port, join_frame, leave_all, reflecting,
                       served_log)
from restarts import first_run
from sessions import named_cases

SILENCE = 0.05


def serving(program, links=None, **rest):
    """A reflector by so many posts, which the file `u` ends."""
    counted = () if links is None else ("--links", str(links))
    return reflecting(program, None, more=(*counted, "--until", "u"), **rest)


def expect_served(run, posts, ways, views=(), log="f"):
    """In which ways the links ended, and the entries of the log, of which these views were told."""
    expect(0, run.status)
    expect_ways(run.text.decode().splitlines()[:-1], posts, ways)
    return served_log(run, views, log)


# ---------------------------------------------------------------- without a journal

def a_reflector_ends_once_its_file_is_there(program):
    with serving(program) as reflector:
        first = reflector.view(7)
        first.joined()
        second = reflector.view(8)
        second.joined()
        seq, _ = first.done(b"hi")
        second.until_entry(seq)
        leave_all(first, second)
        run = reflector.stop("u")
    told = [(entry.kind, entry.view) for entry in expect_served(run, 64, {"left": 2}, [first, second])]
    expect([("join", 7), ("join", 8), ("event", 7)], told[:3])
    expect([("exit", 7), ("exit", 8)], sorted(told[3:]))


def a_reflector_that_serves_nobody_ends(program):
    with serving(program, 1) as reflector:
        reflector.connect().close()
        time.sleep(SILENCE)
        run = reflector.stop("u")
    expect([], expect_served(run, 1, {"link-end": 1, "silent": 1}))


def a_file_that_is_there_before_ends_a_reflector(program):
    with reflecting(program, None, more=("--links", "2", "--until", "p")) as reflector:
        run = reflector.end()
    expect([], expect_served(run, 2, {}))


def links_in_a_row_through_two_posts(program):
    """Each joins, publishes and leaves."""
    count = 60
    with serving(program, 2) as reflector:
        for number in range(count):
            view = reflector.view(1 + number)
            view.joined()
            view.done(str(number).encode())
            leave_all(view)
        run = reflector.stop("u")
    entries = expect_served(run, 2, {"left": count})
    expect(3 * count, len(entries))
    expect([(1 + number, str(number).encode()) for number in range(count)],
           [(entry.view, entry.payload) for entry in entries if entry.kind == "event"])


def a_link_is_served_to_its_end_before_a_reflector_ends(program):
    with serving(program, 2) as reflector:
        view = reflector.view(7)
        view.joined()
        with open(os.path.join(reflector.run.folder, "u"), "xb"):
            pass
        reflector.run.given["u"] = b""
        time.sleep(2.5)
        expect(2, view.done(b"hi")[0])
        leave_all(view)
        run = reflector.end()
    expect_entries(expect_served(run, 2, {"left": 1}, [view]), "1:join:7 2:event:7:1:6869 3:exit:7")


def a_join_of_another_session_is_refused(program):
    with serving(program, 3) as reflector:
        view = reflector.view(7)
        view.joined()
        own, reflector.ident = reflector.ident, croquet.session_id(b"b", EMPTY)
        other = reflector.view(8)
        expect_that(other.refused()[0] != 0, "a code", "none")
        other.wire.read_all()
        reflector.ident = own
        leave_all(view)
        run = reflector.stop("u")
    expect_entries(expect_served(run, 3, {"left": 1, "refused": 1}, [view]), "1:join:7 2:exit:7")


def a_reflector_goes_on_from_a_log(program):
    """Who was here is put out before the posts serve."""
    stored, _, _ = first_run(program)
    before = croquet.read_log(stored)
    with serving(program, 2, stored=stored) as reflector:
        view = reflector.view(9)
        view.joined()
        leave_all(view)
        run = reflector.stop("u")
    entries = expect_served(run, 2, {"left": 1}, [view])
    expect(before, entries[:len(before)])
    expect(["join:9", "exit:9"], [f"{entry.kind}:{entry.view}" for entry in entries[-2:]])


def a_reflector_whose_port_is_taken_leaves_its_file(program):
    holder = hold_port()
    holder.listen()
    reflector = Reflector(program, None, port=holder.getsockname()[1], more=("--until", "u"))
    reflector.run.errors = f"cannot listen at {reflector.address}: the port is in use\n".encode()
    run = reflector.end()
    holder.close()
    expect((6, b"net-fault\n", {}), (run.status, run.text, run.files))


def a_reflector_that_is_killed_has_put_nothing(program):
    with reflecting(program, None, more=("--links", "2")) as reflector:
        view = reflector.view(7)
        view.joined()
        reflector.run.kill()
        run = reflector.end()
    expect((-signal.SIGKILL, b"", {}), (run.status, run.text, run.files))


def be_refused(reflector, count):
    """So many links in a row, each of which joins another session."""
    for _ in range(count):
        wire = say_first(reflector, join_frame(croquet.session_id(b"b", EMPTY), 7))
        wire.read_all()
        reflector.wires.remove(wire)
        wire.close()


def links_that_come_and_go_take_no_more_memory(program):
    with serving(program, 4) as reflector:
        be_refused(reflector, 200)
        before = memory_of(reflector.run.process)
        be_refused(reflector, 1000)
        grown = memory_of(reflector.run.process) - before
        run = reflector.stop("u")
    expect_that(grown <= 256, "256 kilobytes at most for 1,000 links more", grown)
    expect([], expect_served(run, 4, {"refused": 1200}))


def a_reflector_to_which_nobody_comes_rests(program):
    with serving(program) as reflector:
        reflector.connect().close()
        time.sleep(SILENCE)
        before = work_of(reflector.run.process)
        time.sleep(3)
        worked = work_of(reflector.run.process) - before
        reflector.stop("u")
    expect_that(worked <= 0.3, "0.3 seconds of a processor at most in 3", worked)


# ---------------------------------------------------------------- with a journal

def stopped(at, reflector):
    """What came of a reflector with a journal, once the file that ends it is there."""
    at.put("u", b"")
    run = reflector.end()
    os.remove(at.at("u"))
    return run


def posts_with_a_journal(at, *options, links="2"):
    return journaled(at, None, ["--links", links, "--until", at.at("u"), *options])


def a_journal_has_all_that_links_were_told(program):
    with place(program) as at:
        with posts_with_a_journal(at, "--log", at.at("f")) as reflector:
            first, second = reflector.view(7), reflector.view(8)
            first.joined()
            second.joined()
            seq, _ = first.done(b"hi")
            second.until_entry(seq)
            leave_all(first, second)
            run = stopped(at, reflector)
        expect(0, run.status)
        expect_ways(run.text.decode().splitlines()[:-1], 2, {"left": 2})
        read = expect_kept(at, first, second)
        expect(read.entries, croquet.read_log(at.get("f")))
        expect(5, len(read.entries))


def a_reflector_by_posts_that_is_killed_goes_on(program):
    """What a link was told before the kill is in the journal, and the next run goes on with it."""
    with place(program) as at:
        with posts_with_a_journal(at) as reflector:
            view = reflector.view(7)
            view.joined()
            view.done(b"hi")
            expect(-signal.SIGKILL, reflector.kill().status)
        told = expect_kept(at, view).entries
        with posts_with_a_journal(at, links="1") as reflector:
            other = reflector.view(8)
            other.joined()
            leave_all(other)
            run = stopped(at, reflector)
        expect(0, run.status)
        expect_ways(run.text.decode().splitlines()[:-1], 1, {"left": 1})
        entries = expect_kept(at, other).entries
        expect(told, entries[:len(told)])
        expect([("exit", 7), ("join", 8), ("exit", 8)], [(entry.kind, entry.view) for entry in entries[len(told):]])


def posts_and_a_count_of_links_go_on_with_one_journal(program):
    with place(program) as at:
        with journaled(at, 1) as reflector:
            view = reflector.view(7)
            view.joined()
            leave_all(view)
            expect(0, reflector.end().status)
        with posts_with_a_journal(at) as reflector:
            again = reflector.view(7, "after", view.tick)
            again.joined()
            leave_all(again)
            expect(0, stopped(at, reflector).status)
        expect(4, len(expect_kept(at, again).entries))


SERVICES = [a_reflector_ends_once_its_file_is_there, a_reflector_that_serves_nobody_ends, a_file_that_is_there_before_ends_a_reflector,
            links_in_a_row_through_two_posts, a_link_is_served_to_its_end_before_a_reflector_ends, a_join_of_another_session_is_refused,
            links_that_come_and_go_take_no_more_memory, a_reflector_to_which_nobody_comes_rests, a_reflector_goes_on_from_a_log,
            a_reflector_whose_port_is_taken_leaves_its_file, a_reflector_that_is_killed_has_put_nothing, a_journal_has_all_that_links_were_told,
            a_reflector_by_posts_that_is_killed_goes_on, posts_and_a_count_of_links_go_on_with_one_journal]

PARTS = {"services": lambda: named_cases(SERVICES)}
