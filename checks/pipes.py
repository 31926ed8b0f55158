"""`join` whose lines come from the standard input: the other side is a server by hand, or a reflector."""
import contextlib
import os
import re
import select
import subprocess
import threading
import time

from case import Case, Wrong, expect, expect_that
from joins import JOIN, JOIN_FRESH, SYNC, TICK, Host, binary, ends_well, heard
from live import LAST
from reference import croquet
from reflector import EMPTY, leave_all, reflecting, served_log
from websocket import Wire

WORDS = ["join", "p", "a"]
LONGEST = 65_536


class Lines:
    """The pipes of a run: lines are written to it as they are, and its lines are read as they come."""

    def __init__(self, run):
        self.run, self.held = run, b""
        os.set_blocking(run.process.stdout.fileno(), False)

    def say(self, content):
        self.run.process.stdin.write(content)
        self.run.process.stdin.flush()

    def say_slowly(self, content, pause=0.003):
        for place in range(len(content)):
            self.say(content[place:place + 1])
            time.sleep(pause)

    def close(self):
        """No line will come. Who waits for the run's end shall not close it again."""
        if self.run.process.stdin is not None:
            self.run.process.stdin.close()
            self.run.process.stdin = None

    def line(self):
        """The next line, without its LF."""
        until = time.monotonic() + Wire.patience
        while b"\n" not in self.held:
            left = until - time.monotonic()
            if left <= 0 or not select.select([self.run.process.stdout], [], [], left)[0]:
                raise Wrong("a line", f"none in {Wire.patience} seconds after {self.held!r}")
            content = self.run.process.stdout.read(65_536)
            if content == b"":
                raise Wrong("a line", f"the end after {self.held!r}")
            self.held += content or b""
        line, _, self.held = self.held.partition(b"\n")
        return line.decode()

    def until(self, *wanted):
        """Reads until each of these lines has come."""
        left = set(wanted)
        while left:
            left.discard(self.line())

    def rest(self):
        """Closes the input. The other lines, and the status."""
        self.close()
        os.set_blocking(self.run.process.stdout.fileno(), True)
        run = self.run.end()
        text = (self.held + run.text).decode().removesuffix("\n")
        return (text.split("\n") if text else []), run.status


class PipedHost(Host):
    """A server by hand, and a run of `join` to which lines come."""

    def start(self, program, address, script):
        run = program.start([*WORDS, address, "7", "-"], {"p": EMPTY}, stdin=script or subprocess.PIPE)
        self.lines = None if script else Lines(run)
        return run

    def joined(self):
        """Its connection, once it has taken its own Join."""
        wire = self.greet()
        expect(JOIN_FRESH, heard(wire))
        wire.say(binary(SYNC) + binary(JOIN))
        expect("here", self.lines.line())
        return wire


@contextlib.contextmanager
def piped(program, stdin=None):
    """A run that is killed where the check does not come to its end."""
    host = PipedHost(program, stdin)
    try:
        yield host
    finally:
        if host.run.process.returncode is None:
            host.run.kill()
            host.run.end()
        host.close()


def told_of(content, lines, slowly=False):
    """These bytes come, and then the end: these lines are printed before the last one."""
    def check(program):
        with piped(program) as host:
            wire = host.joined()
            (host.lines.say_slowly if slowly else host.lines.say)(content)
            host.lines.close()
            ends_well(wire)
            *told, last = host.lines.rest()[0]
            expect(lines, told)
            expect_that(last.startswith("view 7 time 1 seq 1 digest "), "the last line", last)

    return check


TOLD = {
    "byte by byte": told_of(b"mark a\nmark b\r\nmark c", ["mark a", "mark b", "mark c"], slowly=True),
    "in one piece": told_of(b"mark a\nmark b\nmark c\n", ["mark a", "mark b", "mark c"]),
    "with CR before LF": told_of(b"mark a\r\nmark b\r\n", ["mark a", "mark b"]),
    "with a CR in its midst": told_of(b"mark a\rb\nmark b\n", ["mark a\rb", "mark b"]),
    "with two CR before LF": told_of(b"mark a\r\r\nmark b\n", ["mark a\r", "mark b"]),
    "without a last LF": told_of(b"mark a\nmark b", ["mark a", "mark b"]),
    "of 65,536 bytes": told_of(b"#" + b"x" * (LONGEST - 1) + b"\nmark b\n", ["mark b"]),
    "of 65,536 bytes and CR": told_of(b"#" + b"x" * (LONGEST - 1) + b"\r\nmark b\n", ["mark b"]),
    "of 65,537 bytes": told_of(b"#" + b"x" * LONGEST + b"\nmark b\n", ["bad-line 1", "mark b"]),
    "of 65,537 bytes whose last one is no CR before LF":
        told_of(b"#" + b"x" * (LONGEST - 1) + b"\rx\nmark b\n", ["bad-line 1", "mark b"]),
    "of 300,000 bytes": told_of(b"#" + b"x" * 300_000 + b"\nmark b\n", ["bad-line 1", "mark b"]),
    "that is empty, and one that is none": told_of(b"\n\nnothing\nmark b\n", ["bad-line 3", "mark b"]),
    "that is not UTF-8": told_of(b"mark \xff\nmark b\n", ["bad-line 1", "mark b"]),
    "that says quit": told_of(b"mark a\nquit\nmark b\n", ["mark a"]),
    "of none": told_of(b"", []),
}


def a_line_at_work_is_done_before_the_end(program):
    """The end of the input cuts no wait short, and what comes meanwhile waits."""
    with piped(program) as host:
        wire = host.joined()
        host.lines.say(b"wait 2\nmark a\n")
        host.lines.close()
        time.sleep(0.3)
        expect(None, host.run.process.poll())
        wire.say(binary(TICK))
        ends_well(wire)
        *told, last = host.lines.rest()[0]
        expect(["time 2", "mark a"], told)


def times_of_lines(lines, first, count=20):
    """How long so many lines take, from when each was written to when it was read, the shortest first."""
    times = []
    for number in range(first, first + count):
        time.sleep(0.017)
        begun = time.monotonic()
        lines.say(b"mark m%d\n" % number)
        expect(f"mark m{number}", lines.line())
        times.append(time.monotonic() - begun)
    return sorted(times)


def a_line_is_done_soon(program):
    """Half of 20 lines within 20 milliseconds. Other work may disturb them, so once in ten times is enough."""
    with piped(program) as host:
        wire = host.joined()
        tries = (times_of_lines(host.lines, 20 * place)[10] for place in range(10))
        expect_that(any(middle < 0.02 for middle in tries), "lines within 20 milliseconds", "later ones")
        host.lines.close()
        ends_well(wire)
        host.lines.rest()


def processor_time(pid):
    """The seconds of a processor that a process has used."""
    with open(f"/proc/{pid}/stat", encoding="utf-8") as file:
        fields = file.read().rpartition(")")[2].split()
    return (int(fields[11]) + int(fields[12])) / os.sysconf("SC_CLK_TCK")


def waiting_takes_no_processor(program):
    """At most two in a hundred of five seconds."""
    with piped(program) as host:
        wire = host.joined()
        before = processor_time(host.run.process.pid)
        time.sleep(5)
        used = processor_time(host.run.process.pid) - before
        host.lines.close()
        ends_well(wire)
        host.lines.rest()
        expect_that(used <= 0.1, "0.1 seconds of a processor at most", str(used))


def a_link_that_is_gone_is_made_again(program):
    """After `hold 1`, a second later; the next one that is gone ends the run."""
    with piped(program) as host:
        wire = host.joined()
        host.lines.say(b"hold 1\nmark a\n")
        expect("mark a", host.lines.line())
        begun = time.monotonic()
        wire.stop_sending()
        wire = host.greet()
        took = time.monotonic() - begun
        expect_that(0.9 < took < 5, "a second", f"{took} seconds")
        resumed = JOIN_FRESH[:-1] + b"\2" + croquet.number(1, 8)
        expect(resumed, heard(wire))
        wire.say(binary(croquet.framed(croquet.SYNC_TAG, croquet.number(2, 4), croquet.number(0, 4), croquet.number(1, 4), b"\0")))
        expect("rejoined 2 1", host.lines.line())
        wire.stop_sending()
        expect("ended", host.lines.line())
        expect(([], 9), host.lines.rest())


def an_input_that_cannot_be_read_is_a_fault(program):
    """The standard input is a folder."""
    folder = os.open("/", os.O_RDONLY)
    try:
        with piped(program, folder) as host:
            wire = host.greet()
            expect(JOIN_FRESH, heard(wire))
            run = host.run.end()
            expect("read-fault [4]", run.told())
    finally:
        os.close(folder)


def an_input_that_is_not_open_is_a_fault(program):
    """What the system gives its number to later is not read."""
    with piped(program.launched_by("sh", "-c", 'exec "$@" <&-', "sh")) as host:
        wire = host.greet()
        expect(JOIN_FRESH, heard(wire))
        expect("read-fault [4]", host.run.end().told())


def a_file_is_read_to_its_end(program):
    """Also one that is longer than what is read at a time."""
    lines = b"".join(b"mark m%d\n" % number for number in range(30_000))
    folder = program.folder
    path = os.path.join(folder, "lines")
    with open(path, "wb") as file:
        file.write(lines)
    descriptor = os.open(path, os.O_RDONLY)
    try:
        with piped(program, descriptor) as host:
            wire = host.greet()
            expect(JOIN_FRESH, heard(wire))
            wire.say(binary(SYNC) + binary(JOIN))
            run = host.run.end()
            told = [line for line in run.text.decode().split("\n") if line.startswith("mark ")]
            expect(lines.decode().split("\n")[:-1], told)
            expect(0, run.status)
    finally:
        os.close(descriptor)
        os.remove(path)


def an_output_that_is_closed_is_a_fault(program):
    with piped(program) as host:
        host.joined()
        host.run.process.stdout.close()
        host.lines.say(b"mark a\n")
        host.lines.close()
        expect(5, host.run.process.wait(Wire.patience))


def nothing_is_lost_of_what_is_read_late(program):
    """The other end of the output reads nothing for a while, until all pipes are full."""
    words = [f"m{number}-" + "x" * 200 for number in range(2_000)]
    with piped(program) as host:
        wire = host.joined()
        sender = threading.Thread(target=host.lines.say, args=("".join(f"mark {word}\n" for word in words).encode(),))
        sender.start()
        time.sleep(1)
        expect_that(sender.is_alive(), "a pipe that is full", "one that is not")
        expect([f"mark {word}" for word in words], [host.lines.line() for _ in words])
        sender.join()
        host.lines.close()
        ends_well(wire)
        expect(0, host.lines.rest()[1])


SOURCE = b"""class Root{field n;
init(o){this.n=0;subscribe("s","add","add");}
add(v){this.n=this.n+v;publish("s","added",[v,this.n]);}}"""
MOVES = 100
EVENT = re.compile(r'event \d+ "s" "added" \[1,(\d+)\]')


def two_programs_play_through_pipes(program):
    """Each makes a move once it has the other's. Both digests are the replay's."""
    with reflecting(program, 3, SOURCE) as reflector:
        watcher = reflector.view(9)
        players = []
        for view in (7, 8):
            run = program.start([*WORDS, f"localhost:{reflector.port}", str(view), "-"], {"p": SOURCE},
                                stdin=subprocess.PIPE)
            players.append(Lines(run))
        for player in players:
            player.say(b'watch "s" "added" queued\nmark ready\n')
            player.until("mark ready", "here")
        made = 0
        for move in range(1, MOVES + 1):
            players[move % 2].say(b'publish "s" "add" 1\n')
            for player in players:
                line = player.line()
                match = EVENT.fullmatch(line)
                expect_that(match is not None, f"move {move}", line)
                made = int(match[1])
        expect(MOVES, made)
        ends = []
        for player in players:
            player.say(b"settle\n")
            player.line()
            ends.append(player.rest())
        leave_all(watcher)
        run = reflector.end()
    entries = served_log(run, [watcher])
    for (lines, status), view in zip(ends, (7, 8)):
        match = LAST.fullmatch(lines[-1])
        expect_that(status == 0 and match is not None, "the line of a view", str(lines))
        number, time_, seq = (int(match[place]) for place in (1, 2, 3))
        world = croquet.World.first(croquet.read_program(SOURCE), croquet.session_id(b"a", SOURCE))
        world = croquet.replayed(world, entries[:seq], time_)
        expect((view, croquet.hashlib.sha256(world.snapshot()).hexdigest()), (number, match[4]))


def one_that_is_killed_is_put_out(program):
    """The others see that it has gone, and go on."""
    with reflecting(program, 3, SOURCE) as reflector:
        watcher = reflector.view(9)
        watcher.joined()
        players = []
        for view in (7, 8):
            run = program.start([*WORDS, f"localhost:{reflector.port}", str(view), "-"], {"p": SOURCE}, stdin=subprocess.PIPE)
            players.append(Lines(run))
            players[-1].say(b'publish "s" "add" 1\nsettle\n')
            players[-1].until("here", "settled 1")
        players[0].run.kill()
        players[0].run.process.wait()
        entry = watcher.until_entry(6)
        expect(("exit", 7), (entry.kind, entry.view))
        players[1].say(b'publish "s" "add" 1\nsettle\n')
        expect("settled 2", players[1].line())
        status = players[1].rest()[1]
        players[0].rest()
        leave_all(watcher)
        run = reflector.end()
    entries = served_log(run, [watcher])
    expect((0, [7, 8, 8]), (status, [entry.view for entry in entries if entry.kind == "event"]))


CHECKS = [a_line_at_work_is_done_before_the_end, a_line_is_done_soon, waiting_takes_no_processor,
          a_link_that_is_gone_is_made_again, an_input_that_cannot_be_read_is_a_fault, an_input_that_is_not_open_is_a_fault,
          a_file_is_read_to_its_end,
          an_output_that_is_closed_is_a_fault, nothing_is_lost_of_what_is_read_late, one_that_is_killed_is_put_out,
          two_programs_play_through_pipes]


def pipe_cases():
    named = [Case(check.__name__.replace("_", " "), check) for check in CHECKS]
    return named + [Case(f"a line {name}", check) for name, check in TOLD.items()]


PARTS = {"pipes": pipe_cases}
