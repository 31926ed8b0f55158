"""Programs at their bounds, scripts with control characters, and links that do all that nobody should do, beside views that get all that they are owed.
At last, reflectors with little memory.
"""
import contextlib
import socket
import threading
import time

import websocket
from case import Wrong, expect, expect_that
from journal_runs import Peer, ended_at_once, expect_kept, expect_stamps, journaled, place
from reference import croquet, read_stored
from reflector import ALIVE, EMPTY, hold_port, join_frame, leave_all, reflecting, send_frame, served_log, snap_frame
from sessions import named_cases
from websocket import BINARY, Ended, frame

MASK = b"\x37\xfa\x21\x3d"
GREATEST = b"\xff" * 4
# How a link ends that its peer has closed: TCP resets it where the peer left bytes unread.
CLOSED = ["link-end", "link-fault"]
CONTROLS = [*range(32), 127]

# ---------------------------------------------------------------- programs and scripts


def full_program():
    """A program of 65,536 bytes with as many classes, fields, methods, parameters, brackets and operators as there may be."""
    fields = "".join(f"field f{number};" for number in range(256))
    parameters = ",".join(f"p{number}" for number in range(16))
    nested = "(" * 30 + "1" + ")" * 30
    methods = "".join(f"m{number}(){{}}" for number in range(253))
    methods += f"a({parameters}){{return 1{'+1' * 32};}}b(){{return {nested};}}c(){{return this.a({','.join('1' * 16)});}}"
    classes = "".join(f"class C{number}{{}}" for number in range(255))
    source = f"class Root{{{fields}{methods}}}{classes}".encode()
    return source + b" " * (croquet.PROGRAM_BYTES - len(source))


def a_program_may_be_at_all_its_bounds(program):
    source = full_program()
    checked = croquet.read_program(source)
    methods = sum(len(class_.methods) for class_ in checked.classes)
    expect((65_536, 256, 256, 256), (len(source), len(checked.classes), len(checked.classes[0].fields), methods))
    run = program.run(["check", "p"], {"p": source})
    expect(("classes 256 methods 256", {}), (run.told(), run.files))
    world = croquet.World.first(checked, croquet.session_id(b"n", source))
    run = program.run(["replay", "p", "n", "l", "0", "--snapshot", "f"], {"p": source, "l": croquet.Session().encoded()})
    expect((croquet.world_line(world), {"f": world.snapshot()}), (run.told(), run.files))
    expect("input program [3]", program.run(["check", "p"], {"p": source + b" "}).told())


def controls_in(line):
    """The line with each control character before it, in the midst of each of its blanks, and after it."""
    places = [0, *(place for place in range(len(line)) if line[place:place + 1] == b" "), len(line)]
    return [line[:place] + bytes([code]) + line[place:] for code in CONTROLS for place in places]


def told_script(script):
    """What `stamp` prints of a script."""
    try:
        return " / ".join(croquet.stamped(script)[1])
    except croquet.Ended as ended:
        return f"{ended.line} [{ended.status}]"


def scripts_with_control_characters(program):
    """As a script divides lines by LF, with or without CR, all others make a line that is none, where they stand in one that is not skipped."""
    for script in [*controls_in(b"join 7 0"), *controls_in(b"# a line that is skipped"), *(bytes([code]) for code in CONTROLS)]:
        script = b"tick 1\n" + script + b"\ntick 5\n"
        expect((script, told_script(script)), (script, program.run(["stamp", "s"], {"s": script}).told()))


def told_view(script):
    """What `join` prints where nobody listens."""
    try:
        croquet.read_view_script(script)
        return "net-fault [6]"
    except croquet.Ended as ended:
        return f"{ended.line} [{ended.status}]"


def view_scripts_with_control_characters(program):
    holder = hold_port()
    words = ["join", "p", "a", f"127.0.0.1:{holder.getsockname()[1]}", "7", "s"]
    for script in [*controls_in(b'publish "a" "b" [1, "c"]'), *controls_in(b"wait 2"), *(b'publish "a%c" "b" nil' % code for code in CONTROLS)]:
        script += b"\nsettle\n"
        expect((script, told_view(script)), (script, program.run(words, {"p": EMPTY, "s": script}).told()))
    holder.close()


# ---------------------------------------------------------------- beside views that behave


@contextlib.contextmanager
def beside(program, links, words):
    """So many links, which the body makes, beside two views that behave: these get all that they are owed. The reflector and the two are given.

    Each link is closed at the end of the body, and ends with one of these words.
    """
    with reflecting(program, links + 2) as reflector:
        views = [reflector.view(1), reflector.view(2)]
        for view in views:
            view.done(b"before")
        hostile = len(reflector.wires)
        yield reflector, views
        for wire in reflector.wires[hostile:]:
            wire.close()
        last = max(view.done(b"behind")[0] for view in views)
        for view in views:
            view.until_entry(last)
        leave_all(*views)
        run = reflector.end()
    entries = served_log(run, views)
    sent = [entry.payload for view in (1, 2) for entry in entries if entry.kind == "event" and entry.view == view]
    expect([b"before", b"behind"] * 2, [payload for payload in sent if payload != b"meanwhile"])
    expect_ends(run, links, words)


def expect_ends(run, links, words):
    """The two views have left, and each other link has ended with one of these words."""
    ends = [line.split(" ", 2)[2] for line in run.text.decode().split("\n") if line.startswith("connection ")]
    expect((0, ["left", "left"], links), (run.status, ends[:2], len(ends) - 2))
    expect_that(all(end in words for end in ends[2:]), f"ends that are {' or '.join(words)}", ends[2:])


def joined(reflector, number, receive_buffer=None):
    """A link by which this view has joined."""
    view = reflector.view(number, receive_buffer=receive_buffer)
    view.joined()
    return view


def refused_all(view, contents, wanted):
    """Each of these is answered so, and the link goes on."""
    for content in contents:
        view.say(content)
        expect((content, wanted), (content, view.refused()))


FRAMES = {"JOIN": lambda ident: join_frame(ident, 7), "JOIN after": lambda ident: join_frame(ident, 7, "after", 5), "SEND": lambda _: send_frame(1, b"hi"),
          "SNAP": lambda _: snap_frame(1, b"world")}


def fronts_of(content):
    return [content[:size] for size in range(len(content))]


def each_front_of_each_frame_is_refused(program):
    """As a message, on a link that goes on."""
    with beside(program, 1, CLOSED) as (reflector, _):
        view = joined(reflector, 7)
        for frame_of in FRAMES.values():
            refused_all(view, fronts_of(frame_of(reflector.ident)), (0, 13, 0, 0))


def each_front_of_a_join_ends_its_link(program):
    """As the first message: each link is refused, and ends."""
    count = len(join_frame(bytes(32), 7))
    with beside(program, count, ["refused 13"]) as (reflector, _):
        for content in fronts_of(join_frame(reflector.ident, 7)):
            wire = reflector.connect()
            websocket.ask(wire)
            wire.say(frame(BINARY, content, MASK))
            expect(("refused", (0, 13, 0, 0)), croquet.read_server(wire.read_frame()[3]))


def each_front_of_the_bytes_of_a_frame_ends_its_link(program):
    """On the way: the bytes of a message stop, and then TCP ends."""
    said = frame(BINARY, send_frame(1, b"hi"), MASK)
    with beside(program, len(said), CLOSED) as (reflector, _):
        for size in range(len(said)):
            view = joined(reflector, 7 + size)
            view.wire.say(said[:size])
            view.wire.stop_sending()


def each_tag_is_answered(program):
    """A tag alone, and one with twenty zeros: of all only ALIVE is a frame, apart from LEAVE."""
    with beside(program, 1, CLOSED) as (reflector, _):
        view = joined(reflector, 7)
        refused_all(view, [bytes([tag]) for tag in range(256) if tag not in (4, 5)], (0, 13, 0, 0))
        refused_all(view, [bytes([tag]) + bytes(20) for tag in range(256)], (0, 13, 0, 0))
        view.say(ALIVE)
        view.until("alive")


def counts_that_nothing_fits_are_refused(program):
    """A payload and a snapshot that claim 2^32 - 1 bytes, and an event of that number."""
    with beside(program, 1, CLOSED) as (reflector, _):
        view = joined(reflector, 7)
        claims = [send_frame(1, b"hi")[:5] + GREATEST + b"hi", send_frame(1, b"")[:5] + GREATEST, snap_frame(1, b"hi")[:9] + GREATEST + b"hi"]
        refused_all(view, claims, (0, 13, 0, 0))
        refused_all(view, [send_frame(2**32 - 1, b"hi")], (2, 4, 1, 0))


def many_frames_of_a_peer_that_does_not_read(program):
    """10,000 frames, every tenth an event, and it reads no answer. The others go on meanwhile, and hear its events, or that it was put out."""
    with beside(program, 1, CLOSED) as (reflector, views):
        deaf = joined(reflector, 7, receive_buffer=4_096)
        said = b"".join(frame(BINARY, send_frame(number, b"x" * 400), bytes(4)) + 9 * frame(BINARY, ALIVE, bytes(4)) for number in range(1, 1_001))
        sender = threading.Thread(target=say_to_the_end, args=(deaf.wire, said))
        sender.start()
        for view in views:
            view.done(b"meanwhile")
            hear_until_over(view, 7, 1_000)
        deaf.wire.close()
        sender.join()


def hear_until_over(view, number, count):
    """Hears on until this other view has left, or so many of its events have come. Each hundred of them may take its time."""
    def has_come(most):
        kinds = [entry.kind for entry in view.entries if entry.view == number]
        return "exit" in kinds or kinds.count("event") >= most

    for most in range(100, count + 1, 100):
        for _ in view.waiting(lambda: has_come(most), f"event {most} of view {number}, or its exit"):
            view.hear()


def say_to_the_end(wire, said):
    """Says all of it, or as much as is taken."""
    with contextlib.suppress(OSError):
        wire.socket.sendall(said)


LONG_FIELD = b"X-Long: " + b"x" * 65_536 + b"\r\n"
KEY = b"dGhlIHNhbXBsZSBub25jZQ=="


def handshakes_of_64_kib(program):
    """One that is whole, one that does not end, one of many fields, and one line alone."""
    whole = websocket.request_of(KEY).replace(b"\r\n\r\n", b"\r\n" + LONG_FIELD + b"\r\n")
    heads = [whole, whole[:-2], websocket.request_of(KEY)[:-2] + b"".join(b"X-%d: y\r\n" % number for number in range(6_000)) + b"\r\n", b"G" * 65_536]
    with beside(program, len(heads), CLOSED) as (reflector, views):
        for head in heads:
            say_to_the_end(reflector.connect(), head)
        for view in views:
            view.done(b"meanwhile")
        time.sleep(0.2)


def sixty_links_that_say_nothing(program):
    """Half of them have made their handshake."""
    with beside(program, 60, CLOSED) as (reflector, views):
        wires = [reflector.connect() for _ in range(60)]
        for wire in wires[::2]:
            websocket.ask(wire)
        for view in [*views, *views]:
            view.done(b"meanwhile")


# ---------------------------------------------------------------- little memory

LINKS = 32
LIMIT_KIB = 40_960
# The room for the bytes of any log, which a reflector takes before it listens.
ROOM_KIB = 93_344_801 // 1_024 + 1
# A thread takes 8 MiB for its stack, where the system is told nothing else.
STACK_KIB = 1_024
# How long a view that reads nothing waits for its handshake: a link that has no thread is served once all links after it are over.
SECONDS = 5


def limited(kib, stack_kib=None):
    """A launcher: its program has so much memory for its data, stacks of threads among them, which have so much each."""
    stack = f"ulimit -s {stack_kib}; " if stack_kib else ""
    return ["/bin/sh", "-c", f"{stack}ulimit -d {kib}; exec \"$@\"", "sh"]


def offer_the_longest_snapshot(reflector, number):
    """As this view, whose link may be over by it."""
    with contextlib.suppress(Wrong, Ended, OSError):
        giver = joined(reflector, number)
        giver.say(snap_frame(0, bytes(4_194_304)))
        giver.until("snapped")


def join_by_the_snapshot(reflector, number):
    """As this view, which reads nothing of what it is sent."""
    with contextlib.suppress(Wrong, Ended, OSError):
        wire = reflector.connect(receive_buffer=4_096)
        wire.socket.settimeout(SECONDS)
        websocket.ask(wire)
        wire.say(frame(BINARY, join_frame(reflector.ident, number, "fresh"), MASK))


def crowd(reflector):
    """All links but the first: one view offers a snapshot of 4 MiB, and the others join by it, all at once."""
    offer_the_longest_snapshot(reflector, 2)
    threads = [threading.Thread(target=join_by_the_snapshot, args=(reflector, number)) for number in range(3, LINKS + 1)]
    for thread in threads:
        thread.start()
    for thread in threads:
        thread.join()


def run_of_a_crowd(at, kib, options, stack_kib):
    """A reflector with so much memory. One view sends events all the time, beside the crowd. What it was told, and what came of the run."""
    with journaled(at, LINKS, options, limited(kib, stack_kib)) as reflector:
        peer = Peer(1)
        peer.join(reflector)
        sender = threading.Thread(target=peer.go_on)
        sender.start()
        crowd(reflector)
        with contextlib.suppress(OSError):
            peer.view.wire.socket.shutdown(socket.SHUT_RDWR)
        sender.join()
        return peer, reflector.end_anyhow()


def goes_on_in(program, kib, stack_kib=None, has_log=False):
    """Links end for want of memory, and the run does not. Its journal has all that was told, and its log is whole."""
    with place(program) as at:
        at.put("f", b"old")
        peer, run = run_of_a_crowd(at, kib, ["--log", at.at("f")] if has_log else [], stack_kib)
        ends = [line.split(" ")[2] for line in run.text.decode().split("\n") if line.startswith("connection ")]
        expect((0, LINKS), (run.status, len(ends)))
        expect_that(all(end in [*CLOSED, "memory"] for end in ends) and "memory" in ends, "links that end with `memory`, and no other fault", ends)
        read = expect_kept(at, peer.view)
        expect_stamps(read, peer)
        log = read_stored(at.get("f")).log if has_log else read.entries
        expect(["f", "j", "p"], at.names())
        expect(read.entries, log)


def thirty_two_links_in_40_mib(program):
    """Its journal is its log."""
    goes_on_in(program, LIMIT_KIB, STACK_KIB)


def thirty_two_links_in_40_mib_with_stacks_of_8_mib(program):
    """Four links have a thread. The others are served when all links after them are over."""
    goes_on_in(program, LIMIT_KIB)


def thirty_two_links_in_40_mib_beside_the_room_of_a_log(program):
    goes_on_in(program, LIMIT_KIB + ROOM_KIB, STACK_KIB, has_log=True)


def without_the_room_of_a_log_nothing_begins(program):
    """It ends before it listens, and what was there stays."""
    with place(program) as at:
        at.put("f", b"old")
        run = ended_at_once(at, ["--log", at.at("f")], limited(LIMIT_KIB))
        expect((8, b"memory\n", b"old"), (run.status, run.text, at.get("f")))
        expect(["f", "p"], at.names())


FILES = [a_program_may_be_at_all_its_bounds, scripts_with_control_characters, view_scripts_with_control_characters]
LINKED = [many_frames_of_a_peer_that_does_not_read, each_front_of_each_frame_is_refused, each_front_of_a_join_ends_its_link,
          each_front_of_the_bytes_of_a_frame_ends_its_link, each_tag_is_answered, counts_that_nothing_fits_are_refused, handshakes_of_64_kib,
          sixty_links_that_say_nothing]

LIMITED = [thirty_two_links_in_40_mib, thirty_two_links_in_40_mib_with_stacks_of_8_mib, thirty_two_links_in_40_mib_beside_the_room_of_a_log,
           without_the_room_of_a_log_nothing_begins]

PARTS = {"bounds": lambda: named_cases(FILES), "hostile": lambda: named_cases(LINKED), "little-memory": lambda: named_cases(LIMITED)}
