"""The hints on the error stream: mistakes of a person at the terminal, and where their hints point.

A case has the heads of its hints: a file, a line and a column, or a word of the command line, and the first words of what is said. The program that stands in has no
hints, so these cases are of the built program alone.
"""
import os
import pty
import re
import select
import socket
import subprocess
import time

from case import FOLDER, Case, Wrong, expect, expect_that, read_cases
from commands import read_command
from reference import expanded
from reflector import hold_port

HEAD = re.compile(r"([^ ]+):(\d+):(\d+): .*")
LINE = re.compile(r"  (\d+) \| (.*)")
with open(os.path.join(FOLDER, os.pardir, "docs", "TUTORIAL.md"), encoding="utf-8") as opened:
    TUTORIAL = opened.read()


def is_head(lines, place):
    """Whether a line of a hint is its head: the first one, and each that names a place."""
    return place == 0 or HEAD.fullmatch(lines[place]) is not None


def check_mark(files, lines, place):
    """The line that a head names is shown under it, and the mark is under the column."""
    head = HEAD.fullmatch(lines[place])
    if head is None:
        return
    name, number, column = head[1], int(head[2]), int(head[3])
    shown, mark = LINE.fullmatch(lines[place + 1]), lines[place + 2]
    expect_that(shown is not None and int(shown[1]) == number, f"line {number}", lines[place + 1])
    text = files[name].split(b"\n")[number - 1].removesuffix(b"\r").decode("utf-8", "replace")
    text = re.sub(r"[\x00-\x1f\x7f]", " ", text)
    if len(text) <= 100 and "\ufffd" not in text:
        expect(text, shown[2])
        expect(column - 1, mark.index("^") - shown.start(2))


def check_heads(files, told, wanted):
    """The hints begin with these words, and their marks are right."""
    lines = told.decode("utf-8").splitlines()
    heads = [place for place in range(len(lines)) if is_head(lines, place)]
    came = [lines[place] for place in heads]
    expect_that(len(came) == len(wanted) and all(head.startswith(first) for head, first in zip(came, wanted)), wanted, came)
    for place in heads:
        check_mark(files, lines, place)


def check_hint(program, words, files, wanted):
    """A run says its hint, and the same run that is to be quiet has the same output and status, and says nothing."""
    run = program.run(words, files, None, is_quiet=False)
    quiet = program.run(words, files)
    expect((quiet.status, quiet.text, quiet.files), (run.status, run.text, run.files))
    expect_that(run.status != 0, "a mistake", run.told())
    check_heads(files, run.errors, wanted.split(" | "))


def word_cases():
    """The lines of `hints`: words, and files."""
    def case_of(case, wanted):
        return Case(case, lambda program: check_hint(program, *read_command(expanded(case)), wanted))

    return [case_of(*pair) for pair in read_cases("hints")]


# ---------------------------------------------------------------- the game of the tutorial


def written_by(name):
    """The file of this name that the tutorial has its reader write."""
    return re.search(rf"^cat > {re.escape(name)} <<'END'\n(.*?)^END$", TUTORIAL, re.MULTILINE | re.DOTALL)[1]


def changed(text, change):
    """A text in which the first of two pieces, which is there once, is the second."""
    old, new = (piece.replace(" / ", "\n") for piece in change.split(" -> "))
    expect(1, text.count(old))
    return text.replace(old, new).encode()


def check_game(program, case, wanted):
    """A mistake in a file of the game: the file's name, ` | ` and the change."""
    name, change = case.split(" | ", 1)
    files = {each: written_by(each).encode() for each in ("lamp.program", "ann.view")}
    files[name] = changed(written_by(name), change)
    words = ["check", name] if name == "lamp.program" else ["join", "lamp.program", "lesson", "localhost:1", "1", name]
    check_hint(program, words, files, wanted)


def game_cases():
    """The lines of `hints-game`: a change of a file of the tutorial's game."""
    def case_of(case, wanted):
        return Case(case, lambda program: check_game(program, case, wanted))

    return [case_of(*pair) for pair in read_cases("hints-game")]


# ---------------------------------------------------------------- what goes well


def check_silence(program, words, files):
    """A run in which all goes well says nothing."""
    run = program.run(words, files, None, is_quiet=False)
    expect((0, b""), (run.status, run.errors))


def silent_cases():
    """Commands that do what they are asked for."""
    log = bytes.fromhex("5445414c4f47303100000000")
    runs = [(["check", "p"], {"p": b"class Root{}"}), (["stamp", "s"], {"s": b"tick 1"}),
            (["replay", "p", "n", "l", "0"], {"p": b"class Root{}", "l": log})]

    def case_of(words, files):
        return Case(f"silent: {' '.join(words)}", lambda program: check_silence(program, words, files))

    return [case_of(*run) for run in runs]


# ---------------------------------------------------------------- while a run goes on


FAULTY = b"""class Root {
  init(o) {
    subscribe("door", "bell", "ring");
    this.future(100).chime();
  }
  ring(count) {
    return 1 / count;
  }
  chime() {
    this.future(50).chime();
    return this.tone(1);
  }
}
"""
VISITOR = b"""publish "door" "bell" 1
publish "door" "knock" nil
publish "door" "knock" nil
publish "door" "bell" 0
publish "door" "bell" 0
settle
wait +400000
"""


class Session:
    """A run of `reflect` that is not quiet, and that `join`s of this program take part in."""

    def __init__(self, program, connections, source, is_quiet):
        self.program, self.source, self.is_quiet = program, source, is_quiet
        self.holder = hold_port()
        self.address = f"127.0.0.1:{self.holder.getsockname()[1]}"
        self.run = program.start(["reflect", "p", "a", self.address, "--connections", str(connections), "--log", "f"], {"p": source},
                                 errors=None, is_quiet=is_quiet)

    def join(self, view, script, source=None, stdin=subprocess.DEVNULL):
        """A `join` of this view, which is tried until the reflector listens."""
        words = ["join", "p", "a", self.address, str(view), "-" if script is None else "s"]
        files = {"p": source or self.source, **({} if script is None else {"s": script})}
        until = time.monotonic() + self.program.patience
        while True:
            run = self.program.start(words, files, errors=None, is_quiet=self.is_quiet, stdin=stdin)
            ended = run.end()
            if ended.status != 6 or time.monotonic() > until:
                return ended
            time.sleep(0.1)

    def end(self):
        run = self.run.end()
        self.holder.close()
        return run


def guests_are_told(program):
    """One view joins and leaves, one has another program."""
    session = Session(program, 2, b"class Root{}", False)
    expect(0, session.join(7, b"quit\n").status)
    refused = session.join(8, b"quit\n", b"class Root{} ")
    expect(7, refused.status)
    expect_that(refused.errors.startswith(b"hint: the reflector refused it, another session: "), "why it was refused", refused.errors)
    lines = session.end().errors.decode().splitlines()
    expect_that(lines[0].startswith("listening at "), "the line of who listens", lines[:1])
    wanted = ["link 0: view 7 joined", "link 0: view 7 left", "link 1: view 8 refused 12: another session"]
    expect_that(len(lines) == 4 and all(line.startswith(first) for line, first in zip(lines[1:], wanted)), wanted, lines)


def faults_are_told(program):
    """Each kind of fault is told once in its place, and each event that no handler heard."""
    session = Session(program, 1, FAULTY, False)
    run = session.join(7, VISITOR)
    session.end()
    expect(0, run.status)
    lines = run.errors.decode().splitlines()
    wanted = [r'fault no-method at \d+ in the method chime of Root: ', r'no handler heard "door" "knock" at \d+, entry \d+: ',
              r'fault zero-divisor at \d+ in a handler of "door" "bell": ']
    matched = sorted(first for first in wanted for line in lines if re.match(first, line))
    expect((sorted(wanted), len(wanted)), (matched, len(lines)))


def twenty_faults_are_told(program):
    """Of faults in 22 places the first twenty are told, and that there are further ones."""
    places = range(22)
    heard = "".join(f'    subscribe("door", "bell {place}", "ring{place}");\n' for place in places)
    handlers = "".join(f"  ring{place}(count) {{\n    return 1 / count;\n  }}\n" for place in places)
    session = Session(program, 1, f"class Root {{\n  init(o) {{\n{heard}  }}\n{handlers}}}\n".encode(), False)
    run = session.join(7, "".join(f'publish "door" "bell {place}" 0\n' for place in places).encode() + b"settle\nwait +400000\n")
    session.end()
    expect(0, run.status)
    lines = run.errors.decode().splitlines()
    wanted = [rf'fault zero-divisor at \d+ in a handler of "door" "bell {place}": ' for place in places[:20]] + ["further faults and events are not told$"]
    expect(len(wanted), len(lines))
    expect_that(all(re.match(*pair) for pair in zip(wanted, lines)), wanted, lines)


def taken_port_is_told(program):
    """A reflector at a port that another one has says so."""
    with socket.create_server(("127.0.0.1", 0)) as other:
        address = f"127.0.0.1:{other.getsockname()[1]}"
        run = program.run(["reflect", "p", "a", address, "--connections", "1", "--log", "f"], {"p": b"class Root{}"}, None, is_quiet=False)
    expect("net-fault [6]", run.told())
    lines = run.errors.decode().splitlines()
    expect([f"cannot listen at {address}: the port is in use", f"hint: at {address}: the port is taken"], [lines[0], lines[1].rsplit(":", 1)[0]])


def lines_are_told(program):
    """Of a line of the standard input that is none it is said what is wrong, by its number."""
    session = Session(program, 1, b"class Root{}", False)
    with subprocess.Popen(["printf", "mark a\nmrk b\nhold x\nquit\n"], stdout=subprocess.PIPE) as lines:
        time.sleep(1)
        run = session.join(7, None, stdin=lines.stdout)
    session.end()
    expect(["bad-line 2", "bad-line 3", "mark a"], sorted(run.told().split(" / ")[:3]))
    heads = [line for line in run.errors.decode().splitlines() if line.startswith("line ")]
    wanted = ['line 2: there is no line "mrk"', "line 3: N is a whole number"]
    expect_that(len(heads) == 2 and all(head.startswith(first) for head, first in zip(heads, wanted)), wanted, heads)


def all_is_quiet(program):
    """With CROQUET_QUIET nothing but who listens is told."""
    session = Session(program, 1, FAULTY, True)
    run = session.join(7, VISITOR)
    reflected = session.end()
    expect((0, b""), (run.status, run.errors))
    expect_that(re.fullmatch(rb"listening at [^\n]*\n", reflected.errors) is not None, "one line", reflected.errors)


def written_on(terminal, seconds):
    """What was written on a terminal, once something was, or so many seconds have passed."""
    if not select.select([terminal], [], [], seconds)[0]:
        return b""
    try:
        return os.read(terminal, 65536)
    except OSError:  # nobody has it open any more
        return b""


def on_a_terminal(program, words, is_quiet=False):
    """What a run writes on the error stream, where that is a terminal; and its output and its status."""
    terminal, other = pty.openpty()
    quiet = {"CROQUET_QUIET": "1"} if is_quiet else {}
    process = subprocess.Popen([*program.launcher, program.path, *words], cwd=program.folder, env={"PATH": os.environ.get("PATH", ""), **quiet},
                               stdin=subprocess.DEVNULL, stdout=subprocess.PIPE, stderr=other)
    os.close(other)
    shown, until = b"", time.monotonic() + program.patience
    while process.poll() is None:
        if time.monotonic() > until:
            process.kill()
            raise Wrong("an end", "none")
        shown += written_on(terminal, 0.1)
    while more := written_on(terminal, 0):
        shown += more
    os.close(terminal)
    return shown, process.communicate()[0], process.returncode


SLOW = b"""class Root { init(o) { this.future(1).work(); }
work() { let i = 0; while (i < 9000) { i = i + 1; } this.future(1).work(); } }
"""


def write_slow(program, entries):
    """The program, and a log of so many events, a message of some work before each."""
    script = "join 7 0\n" + "".join(f"send 7 1 {number} {number * 1000} -\n" for number in range(1, entries + 1))
    log = program.run(["stamp", "s", "--log", "log"], {"s": script.encode()}).files["log"]
    for name, content in (("slow", SLOW), ("log", log)):
        with open(os.path.join(program.folder, name), "wb") as file:
            file.write(content)


def long_work_is_shown(program):
    """A replay of some seconds shows its line on a terminal, and takes it away; a short one shows nothing, and so does one that is quiet."""
    entries, took = 4, 0
    while took < 3:
        entries *= 2
        write_slow(program, entries)
        words = ["replay", "slow", "a", "log", str(entries * 1000)]
        began = time.monotonic()
        shown, text, status = on_a_terminal(program, words)
        took = time.monotonic() - began
    expect(0, status)
    counted = rf"\rreplay: \d+ s, [1-9]\d* of {entries + 1} entries, some \d+ s left".encode()
    expect_that(b"\rreplay: 1 s\x1b[K" in shown and shown.endswith(b"\r\x1b[K"), "a line that is taken away", shown)
    expect_that(re.search(counted, shown) is not None, counted, shown)
    expect((b"", text, 0), on_a_terminal(program, words, True))
    expect(b"", on_a_terminal(program, ["replay", "slow", "a", "log", "1"])[0])


def note_cases():
    checks = [guests_are_told, faults_are_told, twenty_faults_are_told, taken_port_is_told, lines_are_told, all_is_quiet, long_work_is_shown]
    return [Case(f"notes: {check.__name__.replace('_', ' ')}", check) for check in checks]


PARTS = {"hints": lambda: word_cases() + game_cases() + silent_cases() + note_cases()}
