"""`host` over sockets: several sessions in one process, each as if it were alone."""
import base64
import contextlib
import os
import re
import select
import signal
import time

import websocket
from case import Case, expect, expect_that
from reference import croquet, log_text, read_stored
from reflector import EMPTY, LEAVE, Reflector, View, expect_ways, hold_port, join_frame, leave_all, send_frame
from websocket import BINARY, TEXT, frame

LINK = re.compile(r"connection (\d+) session (\d+|none) (.+)")
SESSION = re.compile(r"session (\d+) entries (\d+) time (\d+)( id [0-9a-f]{64})?")
MASK = b"\x37\xfa\x21\x3d"
SILENCE = 0.05


class Session:
    """A session of a host, for views by hand."""

    def __init__(self, host, name, source):
        self.host, self.ident, self.views = host, croquet.session_id(name, source), []

    def open(self, receive_buffer=None):
        return self.host.open(receive_buffer)

    def view(self, view):
        self.views.append(View(self, view, "whole", 0, None))
        return self.views[-1]


class Host(Reflector):
    """A run of `host` of sessions with these names, all of one program, and of others where they are made on demand. It is a service where its links are
    not counted."""

    def __init__(self, program, names, connections=None, source=EMPTY, port=None, on_demand=False, options=()):
        self.holder = None if port else hold_port()
        self.port = port or self.holder.getsockname()[1]
        self.begun, self.address = time.monotonic(), f"127.0.0.1:{self.port}"
        config = "".join(f"session {name} p\n" for name in names).encode() + b"any\n" * on_demand
        counted = [] if connections is None else ["--connections", str(connections)]
        self.run = program.start(
            ["host", "c", self.address, *counted, *options, "--logs", "l"],
            {"c": config, "p": source}, f"listening at {self.address}\n".encode())
        self.wires = []
        self.sessions = [Session(self, name.encode(), source) for name in names]

    def other(self, name):
        """A session that is not listed."""
        return Session(self, name, EMPTY)


@contextlib.contextmanager
def killed_if_left(host):
    """A host that is killed where the check does not come to its end."""
    try:
        yield host
    finally:
        if host.run.process.returncode is None:
            host.run.kill()
            host.end()


def hosting(program, names, connections, on_demand=False):
    return killed_if_left(Host(program, names, connections, on_demand=on_demand))


def serving(program, names, links=None, on_demand=False):
    """A service of so many posts, which the file `u` ends."""
    options = ["--until", "u"] if links is None else ["--links", str(links), "--until", "u"]
    return killed_if_left(Host(program, names, on_demand=on_demand, options=options))


def expect_hosted(run, links, sessions, made=()):
    """How the links ended, each with its session, in any order of acceptance, and how many entries each session has. The last sessions were made on demand, with these ids."""
    expect(0, run.status)
    lines = run.text.decode().splitlines()
    told = [LINK.fullmatch(line) for line in lines[:len(links)]]
    expect_that(all(told), "a line for each link", lines)
    expect([str(number) for number in range(len(links))], [match[1] for match in told])
    expect(sorted(links), sorted((match[2], match[3]) for match in told))
    return expect_sessions(run, lines[len(links):], sessions, made)


def expect_served(run, posts, ways, sessions, made=()):
    """In which ways the links of a service of so many posts ended, all of which were stopped, and how many entries each session has."""
    expect(0, run.status)
    lines = run.text.decode().splitlines()
    expect_ways(lines[:2], posts, ways)
    return expect_sessions(run, lines[2:], sessions, made)


def expect_sessions(run, lines, sessions, made):
    """How many entries each session has. The last ones were made on demand, with these ids."""
    rows = [SESSION.fullmatch(line) for line in lines]
    expect_that(len(rows) == len(sessions) and all(rows), "a line for each session", lines)
    expect([(str(number), str(entries)) for number, entries in enumerate(sessions, 1)],
           [(match[1], match[2]) for match in rows])
    listed = len(sessions) - len(made)
    expect([None] * listed + [f" id {ident.hex()}" for ident in made], [match[4] for match in rows])
    names = [f"l{number}" for number in range(1, listed + 1)] + [f"l{ident.hex()}" for ident in made]
    expect(set(names), set(run.files))
    logs = [read_stored(run.files[name]) for name in names]
    expect([match[3] for match in rows], [str(log.horizon) for log in logs])
    return logs


def expect_entries(log, wanted):
    """The entries of a log, without their times."""
    expect(wanted, log_text(log.log))


def say_first(host, content, opcode=BINARY):
    """A link whose first message is this."""
    wire = host.connect()
    websocket.ask(wire)
    wire.say(frame(opcode, content, MASK))
    return wire


# ---------------------------------------------------------------- where a link goes


def two_sessions_have_their_own_links(program):
    with hosting(program, ["a", "b"], 2) as host:
        first, second = host.sessions
        of_second, of_first = second.view(7), first.view(7)
        of_second.joined()
        of_first.joined()
        expect(2, of_second.done(b"hi")[0])
        leave_all(of_second, of_first)
        run = host.end()
    logs = expect_hosted(run, [("2", "left"), ("1", "left")], [2, 3])
    expect_entries(logs[0], "1:join:7 2:exit:7")
    expect_entries(logs[1], "1:join:7 2:event:7:1:6869 3:exit:7")


def a_session_that_is_not_listed_is_refused_by_the_first(program):
    with hosting(program, ["a", "b"], 1) as host:
        wire = say_first(host, join_frame(croquet.session_id(b"c", EMPTY), 7))
        wire.read_all()
        wire.close()
        run = host.end()
    expect_hosted(run, [("1", "refused 12")], [0, 0])


FIRST_FRAMES = {
    "a send": (send_frame(1, b"hi"), "refused 14"),
    "no frame of a client": (b"\x07", "refused 13"),
    "an empty message": (b"", "refused 13"),
    "half a join": (join_frame(bytes(32), 7)[:20], "refused 13"),
}


def first_frame(content, word):
    def check(program):
        with hosting(program, ["a", "b"], 1) as host:
            wire = say_first(host, content)
            wire.read_all()
            wire.close()
            run = host.end()
        expect_hosted(run, [("1", word)], [0, 0])

    return check


def a_link_without_a_frame_has_no_session(program):
    with hosting(program, ["a", "b"], 3) as host:
        silent = host.connect()
        websocket.ask(silent)
        silent.stop_sending()
        silent.read_all()
        half = host.connect()
        half.say(b"GET / HT")
        time.sleep(SILENCE)
        half.stop_sending()
        half.read_all()
        text = say_first(host, b"hi", TEXT)
        text.read_all()
        run = host.end()
    expect_hosted(run, [("none", "link-end"), ("none", "link-end"), ("none", "link-fault")], [0, 0])


# ---------------------------------------------------------------- on demand


def sessions_are_made_on_demand(program):
    """Two sessions that are not listed are made beside one that is, in the order in which their first links join."""
    with hosting(program, ["a"], 3, on_demand=True) as host:
        first, second = host.other(b"b"), host.other(b"c")
        views = [first.view(7)]
        views[0].joined()
        for session in (second, host.sessions[0]):
            views.append(session.view(7))
            views[-1].joined()
        expect(2, views[1].done(b"hi")[0])
        leave_all(*views)
        run = host.end()
    logs = expect_hosted(run, [("2", "left"), ("3", "left"), ("1", "left")], [2, 2, 3], [first.ident, second.ident])
    expect_entries(logs[0], "1:join:7 2:exit:7")
    expect_entries(logs[1], "1:join:7 2:exit:7")
    expect_entries(logs[2], "1:join:7 2:event:7:1:6869 3:exit:7")


def two_links_that_join_one_id_are_in_one_session(program):
    with hosting(program, ["a"], 8, on_demand=True) as host:
        session = host.other(b"b")
        views = [session.view(number) for number in range(1, 9)]
        for view in views:
            view.joined()
        for number, view in enumerate(views, 1):
            expect(8 + number, view.done(b"hi")[0])
        leave_all(*views)
        run = host.end()
    logs = expect_hosted(run, [("2", "left")] * 8, [0, 24], [session.ident])
    expect(sorted(range(1, 9)), sorted(entry.view for entry in logs[1].log if entry.kind == "join"))


def a_request_that_is_refused_makes_its_session(program):
    """A JOIN of view 0 is refused, and its session is there for the next link."""
    with hosting(program, ["a"], 3, on_demand=True) as host:
        made, other = host.other(b"b"), host.other(b"c")
        for session in (made, other):
            wire = say_first(host, join_frame(session.ident, 0))
            expect(("refused", (1, 8, 0, 0)), croquet.read_server(wire.read_frame()[3]))
            wire.close()
        view = made.view(7)
        view.joined()
        leave_all(view)
        run = host.end()
    logs = expect_hosted(run, [("2", "refused 8"), ("3", "refused 8"), ("2", "left")], [0, 2, 0], [made.ident, other.ident])
    expect_entries(logs[1], "1:join:7 2:exit:7")


def a_first_frame_that_joins_nothing_makes_no_session(program):
    with hosting(program, ["a"], len(FIRST_FRAMES) + 1, on_demand=True) as host:
        for content, _ in FIRST_FRAMES.values():
            wire = say_first(host, content)
            wire.read_frame()
            wire.close()
        silent = host.connect()
        websocket.ask(silent)
        silent.close()
        run = host.end()
    expect_hosted(run, [("1", word) for _, word in FIRST_FRAMES.values()] + [("none", "link-end")], [0])


def no_link_asks_for_a_session(program):
    with hosting(program, ["a", "b"], 1, on_demand=True) as host:
        view = host.sessions[1].view(7)
        view.joined()
        leave_all(view)
        run = host.end()
    expect_hosted(run, [("2", "left")], [0, 2])


# ---------------------------------------------------------------- one beside the others


def flood(view):
    """A view sends many events at a time, before it reads what it is told."""
    for _ in range(8):
        for _ in range(50):
            view.send(b"x" * 512)
        for _ in range(50):
            view.until("done")


def sessions_do_not_notice_one_another(program):
    """Eight sessions of eight links: one session is flooded, and some links say what is none. Of the other sessions each has just its own events, in the order of each view."""
    names = [f"s{number}" for number in range(8)]
    odd = [b"GET / HT", None, b""]
    with hosting(program, names, 8 * 7 + len(odd)) as host:
        silent = host.connect()
        websocket.ask(silent)
        half = host.connect()
        half.say(odd[0])
        text = say_first(host, b"hi", TEXT)
        views = [[session.view(view) for view in range(1, 8)] for session in host.sessions]
        for view in [view for of in views for view in of]:
            view.joined()
        flood(views[0][0])
        for turn in range(1, 4):
            for of in views[1:]:
                for number, view in enumerate(of):
                    view.done(f"{turn} {number}".encode())
        for view in [view for of in views for view in of]:
            view.say(LEAVE)
            view.until("close")
        for wire in (silent, half, text):
            wire.close()
        run = host.end()
    logs = expect_hosted(run, [(str(number), "left") for number in range(1, 9) for _ in range(7)]
                         + [("none", "link-end"), ("none", "link-end"), ("none", "link-fault")],
                         [7 + 400 + 7] + [7 + 21 + 7] * 7)
    for log in logs[1:]:
        events = [(entry.view, entry.payload) for entry in log.log if entry.kind == "event"]
        expect(sorted((number + 1, f"{turn} {number}".encode()) for turn in range(1, 4) for number in range(7)), sorted(events))


def one_view_is_in_two_sessions(program):
    with hosting(program, ["a", "b"], 4) as host:
        views = [host.sessions[place].view(7) for place in (0, 1, 1, 0)]
        for view in views[:2]:
            view.joined()
        for view in views[2:]:
            view.joined()
        for view in views:
            view.wire.stop_sending()
        run = host.end()
    expect(0, run.status)
    for number in (1, 2):
        kinds = [entry.kind for entry in read_stored(run.files[f"l{number}"]).log]
        expect(["join"] * 2 + ["exit"], sorted(kinds, reverse=True))


# ---------------------------------------------------------------- a service


def a_service_ends_once_its_file_is_there(program):
    with serving(program, ["a", "b"]) as host:
        first, second = host.sessions
        of_second, of_first = second.view(7), first.view(7)
        of_second.joined()
        of_first.joined()
        expect(2, of_second.done(b"hi")[0])
        leave_all(of_second, of_first)
        run = host.stop("u")
    logs = expect_served(run, 64, {"left": 2}, [2, 3])
    expect_entries(logs[0], "1:join:7 2:exit:7")
    expect_entries(logs[1], "1:join:7 2:event:7:1:6869 3:exit:7")


def a_service_that_serves_nobody_ends(program):
    with serving(program, ["a"], 1) as host:
        host.connect().close()
        time.sleep(SILENCE)
        run = host.stop("u")
    expect_served(run, 1, {"link-end": 1, "silent": 1}, [0])


def a_file_that_is_there_before_ends_a_service(program):
    host = Host(program, ["a"], options=["--links", "2", "--until", "c"])
    with killed_if_left(host):
        run = host.end()
    expect_served(run, 2, {}, [0])


def a_link_is_served_to_its_end_before_a_service_ends(program):
    with serving(program, ["a"], 2) as host:
        view = host.sessions[0].view(7)
        view.joined()
        with open(os.path.join(host.run.folder, "u"), "xb"):
            pass
        host.run.given["u"] = b""
        time.sleep(2.5)
        expect(2, view.done(b"hi")[0])
        leave_all(view)
        run = host.end()
    expect_entries(expect_served(run, 2, {"left": 1}, [3])[0], "1:join:7 2:event:7:1:6869 3:exit:7")


def two_hundred_links_in_a_row_through_two_posts(program):
    """Each joins, publishes and leaves; the sessions take turns."""
    count = 200
    with serving(program, ["a", "b"], 2) as host:
        for number in range(count):
            view = host.sessions[number % 2].view(1 + number)
            view.joined()
            view.done(str(number).encode())
            leave_all(view)
        run = host.stop("u")
    logs = expect_served(run, 2, {"left": count}, [3 * count // 2] * 2)
    for place, log in enumerate(logs):
        events = [(entry.view, entry.payload) for entry in log.log if entry.kind == "event"]
        expect([(1 + number, str(number).encode()) for number in range(place, count, 2)], events)


def a_link_waits_while_all_posts_serve(program):
    """Of three links two are served at a time, and the third one once one of these has left."""
    with serving(program, ["a"], 2) as host:
        first = [host.sessions[0].view(view) for view in (1, 2)]
        for view in first:
            view.joined()
        third = host.connect()
        third.say(websocket.request_of(base64.b64encode(bytes(16))))
        expect(([], [], []), select.select([third.socket], [], [], 10 * SILENCE))
        leave_all(first[0])
        third.read_head()
        third.stop_sending()
        third.read_all()
        leave_all(first[1])
        run = host.stop("u")
    expect_served(run, 2, {"left": 2, "link-end": 1, "silent": 1}, [4])


def a_service_makes_sessions_on_demand(program):
    with serving(program, ["a"], 3, on_demand=True) as host:
        other = host.other(b"b")
        views = [host.sessions[0].view(7), other.view(7), other.view(8)]
        for view in views:
            view.joined()
        expect(3, views[1].done(b"hi")[0])
        leave_all(*views)
        run = host.stop("u")
    expect_served(run, 3, {"left": 3}, [2, 5], [other.ident])


def be_refused(host, count):
    """So many links in a row, each of which joins a session that is not there."""
    for _ in range(count):
        wire = say_first(host, join_frame(croquet.session_id(b"c", EMPTY), 7))
        wire.read_all()
        host.wires.remove(wire)
        wire.close()


def memory_of(process):
    """How many kilobytes a process has in memory."""
    with open(f"/proc/{process.pid}/status", encoding="utf-8") as file:
        return next(int(line.split()[1]) for line in file if line.startswith("VmRSS:"))


def links_that_come_and_go_take_no_more_memory(program):
    with serving(program, ["a"], 8) as host:
        be_refused(host, 200)
        before = memory_of(host.run.process)
        be_refused(host, 20_000)
        grown = memory_of(host.run.process) - before
        run = host.stop("u")
    expect_that(grown <= 256, "256 kilobytes at most for 20,000 links more", grown)
    expect_served(run, 8, {"refused": 20_200}, [0])


def work_of(process):
    """How many seconds a process has had of a processor."""
    with open(f"/proc/{process.pid}/stat", encoding="utf-8") as file:
        fields = file.read().rpartition(")")[2].split()
    return (int(fields[11]) + int(fields[12])) / os.sysconf("SC_CLK_TCK")


def a_service_to_which_nobody_comes_rests(program):
    with serving(program, ["a"]) as host:
        host.connect().close()
        time.sleep(SILENCE)
        before = work_of(host.run.process)
        time.sleep(3)
        worked = work_of(host.run.process) - before
        host.stop("u")
    expect_that(worked <= 0.3, "0.3 seconds of a processor at most in 3", worked)


def a_service_that_is_killed_writes_nothing(program):
    host = Host(program, ["a"], options=["--links", "2"])
    with killed_if_left(host):
        view = host.sessions[0].view(7)
        view.joined()
        host.run.kill()
        run = host.end()
    expect((-signal.SIGKILL, b"", {}), (run.status, run.text, run.files))


SERVICES = [a_service_ends_once_its_file_is_there, a_service_that_serves_nobody_ends, a_file_that_is_there_before_ends_a_service,
            a_link_is_served_to_its_end_before_a_service_ends, two_hundred_links_in_a_row_through_two_posts,
            a_link_waits_while_all_posts_serve, a_service_makes_sessions_on_demand, links_that_come_and_go_take_no_more_memory,
            a_service_to_which_nobody_comes_rests,
            a_service_that_is_killed_writes_nothing]

HOSTS = [two_sessions_have_their_own_links, a_session_that_is_not_listed_is_refused_by_the_first, a_link_without_a_frame_has_no_session,
         sessions_are_made_on_demand, two_links_that_join_one_id_are_in_one_session, a_request_that_is_refused_makes_its_session,
         a_first_frame_that_joins_nothing_makes_no_session, no_link_asks_for_a_session,
         sessions_do_not_notice_one_another, one_view_is_in_two_sessions]


def host_cases():
    return ([Case(check.__name__.replace("_", " "), check) for check in HOSTS + SERVICES]
            + [Case(f"the first frame is {what}", first_frame(*of)) for what, of in FIRST_FRAMES.items()])


PARTS = {"hosts": host_cases}
