"""Files and frames that chance has damaged: a program has to make of each what the reference makes of it.

What is damaged comes from the cases of `data/`: logs, snapshots, scripts, programs, JSON, journals, queries, scripts of views, and frames in both
directions. Bits are turned, parts are cut out, put in again elsewhere or swapped, and numbers are put in place of others. A case follows from its seed
and its number alone.
"""
import functools
import os
import random
import sys
import threading
from concurrent.futures import ThreadPoolExecutor

import journals
import stand_in
from case import Case, Wrong, expect, read_cases
from commands import Recorded
from reference import croquet, expanded
from sessions import check_reflector, frames_of
from views import check_view

SEED, COUNT = 1, 2_000
# What a case may spend, as messages count it. One that spends more is left out: it would take long.
MOST_SPENT = 200_000
STACK = 256 * 1024 * 1024
MOST_DEEP = 100_000
MOST_CASE = 60_000
COUNTS = [0, 1, 127, 128, 255, 256, 65_535, 65_536, 2**31 - 1, 2**31, 2**32 - 1]
TIMES = [0, 1, 2**32, 2**53 - 4_097, 2**53 - 4_096, 2**53 - 1, 2**53, 2**63 - 1, 2**63, 2**64 - 1]
JOIN, SNAP = 1, 3
NUMERALS = [b"0", b"1", b"01", b"-1", b"255", b"256", b"257", b"4096", b"4294967295", b"4294967296", b"9007199254740991", b"9007199254740992",
            b"9223372036854775807", b"9223372036854775808", b"18446744073709551615", b"18446744073709551616"]


class LeftOut(Exception):
    """A case that is not compared."""


# ---------------------------------------------------------------- the reference in memory


class Held(threading.local):
    """What a run of the reference in this thread reads, puts and prints, and what it may still spend; None where that is not counted."""
    files, put, lines, left = {}, {}, [], None


HELD = Held()


class CountedEvaluation(croquet.Evaluation):
    """An evaluation that counts what all messages spend."""

    def spend(self, steps):
        if HELD.left is not None:
            HELD.left -= steps + 1
            if HELD.left < 0:
                raise LeftOut()
        super().spend(steps)


def read_held(name, kind):
    if len(HELD.files[name]) > stand_in.LIMITS[kind]:
        raise croquet.Ended(f"input {kind}", 3)
    return HELD.files[name]


def put_held(name, content):
    HELD.put[name] = content


def use_memory():
    """From now on the stand-in of this process reads and writes what its thread holds."""
    croquet.Evaluation = CountedEvaluation
    stand_in.read_file, stand_in.write_file, stand_in.say = read_held, put_held, lambda line: HELD.lines.append(line)


@functools.cache
def deep_thread():
    """One thread with a stack that is deep enough for the reference."""
    use_memory()
    sys.setrecursionlimit(MOST_DEEP)
    before = threading.stack_size(STACK)
    pool = ThreadPoolExecutor(1)
    pool.submit(int).result()
    threading.stack_size(before)
    return pool


def deeply(work):
    """What this comes to in the deep thread, where it does not spend too much."""
    def counted():
        HELD.left = MOST_SPENT
        try:
            return work()
        finally:
            HELD.left = None

    return deep_thread().submit(counted).result()


def told_by_reference(words, files):
    """What the stand-in prints, with its status, and the files that it puts."""
    HELD.files, HELD.put, HELD.lines = files, {}, []
    status = stand_in.run(words)
    told = " / ".join(HELD.lines)
    if status != 0:
        told = f"{told} [{status}]" if told else f"[{status}]"
    return told, {name: content for name, content in HELD.put.items() if files.get(name) != content}


# ---------------------------------------------------------------- damages


def turn_bits(draw, content):
    for _ in range(draw.choice([1, 1, 2, 5])):
        place, bit = draw.randrange(len(content)), 1 << draw.randrange(8)
        content = content[:place] + bytes([content[place] ^ bit]) + content[place + 1:]
    return content


def cut(draw, content):
    return content[:draw.randrange(len(content))]


def drawn_part(draw, content, most=40):
    begin = draw.randrange(len(content))
    return begin, min(len(content), begin + draw.randint(1, most))


def cut_out(draw, content):
    begin, end = drawn_part(draw, content)
    return content[:begin] + content[end:]


def copy(draw, content):
    begin, end = drawn_part(draw, content)
    place = draw.choice([end, draw.randint(0, len(content))])
    return content[:place] + content[begin:end] + content[place:]


def swap(draw, content):
    begin, end = drawn_part(draw, content)
    rest = content[:begin] + content[end:]
    place = draw.randint(0, len(rest))
    return rest[:place] + content[begin:end] + rest[place:]


def count(draw, content):
    """A number of one, four or eight bytes in place of what is there."""
    size = draw.choice([1, 4, 4, 8])
    place = draw.randrange(len(content))
    number = draw.choice([draw.choice(TIMES if size == 8 else COUNTS), draw.randrange(300)]) % 256 ** size
    return content[:place] + number.to_bytes(size, "big") + content[place + size:]


def numeral(draw, content):
    """A decimal number in place of one that is there."""
    begins = [place for place in range(len(content)) if content[place:place + 1].isdigit() and not content[place - 1:place].isdigit()]
    if not begins:
        return turn_bits(draw, content)
    begin = end = draw.choice(begins)
    while content[end:end + 1].isdigit():
        end += 1
    return content[:begin] + draw.choice([draw.choice(NUMERALS), str(draw.randrange(300)).encode()]) + content[end:]


OF_BYTES = [turn_bits, turn_bits, cut, cut_out, copy, swap, count, count]
OF_TEXT = [turn_bits, cut, cut_out, copy, swap, numeral, numeral]


def damaged(draw, content, ways):
    """The bytes, damaged once or twice."""
    for _ in range(draw.choice([1, 1, 1, 2])):
        content = draw.choice(ways)(draw, content) if content else bytes([draw.randrange(256)])
    return content


# ---------------------------------------------------------------- what is damaged


def short_cases(file, most=MOST_CASE):
    """The cases of a file, expanded, without those that are long."""
    cases = [expanded(case) for case, outcome in read_cases(file) if len(outcome) < most]
    return [case for case in cases if len(case) < most]


@functools.cache
def recordings():
    """Of each world: the name, the time, the log, the program and the JSON, as the words and the files of `replay`."""
    found = []
    for case in short_cases("worlds") + short_cases("snapshots"):
        head, source, *json = case.split(b" | ", 2)
        name, time, script = head.split(b" ", 2)
        try:
            log = croquet.stamped(b"" if script == b"-" else script.replace(b" / ", b"\n"))[0].encoded()
            found.append((name.decode(), int(time), {"p": source, "l": log, **({"j": json[0]} if json else {})}))
        except croquet.Ended:
            pass
    return found


def drawn_recording(draw):
    """The words after the command, the time, the options and the files of a recorded session."""
    name, time, files = draw.choice(recordings())
    return ["p", name, "l"], time, ["--persisted", "j"] if "j" in files else [], files


def of_log(draw):
    plain, time, options, files = drawn_recording(draw)
    files = {**files, "l": damaged(draw, files["l"], OF_BYTES), "s": b"tick 5\npull 0 3\njoin 9 0 fresh\n"}
    return draw.choice([
        (["replay", *plain, str(time), *options, "--snapshot", "f", "--saved", "g"], files),
        (["trace", *plain, "0", str(time), *options], files),
        (["votes", "l"], files),
        (["stamp", "s", "--from", "l", "--log", "f"], files)])


def of_snapshot(draw):
    plain, time, options, files = drawn_recording(draw)
    told, put = told_by_reference(["replay", *plain, str(time), *options, "--snapshot", "f"], files)
    if "f" not in put:
        raise LeftOut()
    files = {**files, "s": damaged(draw, put["f"], OF_BYTES)}
    return ["replay", *plain, str(time + draw.choice([0, 1, 5_000])), *options, "--from", "s", "--snapshot", "f", "--saved", "g"], files


def of_program(draw):
    plain, time, options, files = drawn_recording(draw)
    source = draw.choice([files["p"], files["p"], draw.choice(programs())])
    files = {**files, "p": damaged(draw, source, OF_TEXT)}
    return draw.choice([(["check", "p"], files), (["replay", *plain, str(min(time, 20_000)), *options, "--snapshot", "f", "--saved", "g"], files)])


@functools.cache
def programs():
    folder = os.path.join(os.path.dirname(os.path.dirname(os.path.abspath(__file__))), "examples")
    sources = short_cases("programs")
    for name in sorted(os.listdir(folder)):
        if name.endswith(".program"):
            with open(os.path.join(folder, name), "rb") as file:
                sources.append(file.read())
    return sources


@functools.cache
def scripts():
    return [case.replace(b" / ", b"\n") for case in short_cases("scripts") + short_cases("logs")]


def of_script(draw):
    script = damaged(draw, draw.choice(scripts()) + b"\n", OF_TEXT)
    return ["stamp", "s", "--log", "f"], {"s": script}


def of_json(draw):
    plain, time, options, files = drawn_recording(draw)
    files = {**files, "j": damaged(draw, draw.choice(jsons()), OF_TEXT)}
    return ["replay", *plain, str(min(time, 20_000)), "--persisted", "j", "--snapshot", "f", "--saved", "g"], files


@functools.cache
def jsons():
    return short_cases("jsons")


@functools.cache
def told_journals():
    return [journals.told_of(changes).content for changes in [journals.few_changes(), *map(journals.drawn_changes, range(8))]]


def of_journal(draw):
    files = {"p": journals.PROGRAM, "j": damaged(draw, draw.choice(told_journals()), OF_BYTES), "s": b"tick 5\njoin 9 0\n"}
    return draw.choice([
        (["replay", "p", "n", "j", str(journals.END), "--snapshot", "f"], files),
        (["inspect", "p", "n", "j", "3", "q"], {**files, "q": b"at 0\nfull 2000000\n"}),
        (["votes", "j"], files),
        (["stamp", "s", "--from", "j", "--log", "f"], files)])


@functools.cache
def inspections():
    return [case.split(b" | ", 2) for case in short_cases("inspects")]


def of_queries(draw):
    head, queries, rest = draw.choice(inspections())
    name, every, script = head.split(b" ", 2)
    source, *json = rest.split(b" | ", 1)
    log = croquet.stamped(b"" if script == b"-" else script.replace(b" / ", b"\n"))[0].encoded()
    queries = b"" if queries == b"-" else croquet.lines_of(queries)
    files = {"p": source, "l": log, "q": damaged(draw, queries, OF_TEXT), **({"j": json[0]} if json else {})}
    return ["inspect", "p", name.decode(), "l", every.decode(), "q", *(["--persisted", "j"] if json else [])], files


# ---------------------------------------------------------------- frames


def damaged_frames(draw, part):
    """A link whose frames are damaged, left out, told again or swapped."""
    frames = frames_of(part)
    place = draw.randrange(len(frames))
    way = draw.randrange(8)
    if way == 0:
        del frames[place]
    elif way == 1:
        frames.insert(draw.randint(0, len(frames)), frames[place])
    elif way == 2:
        frames.insert(place, damaged(draw, frames[place], OF_BYTES))
    else:
        frames[place] = damaged(draw, frames[place], OF_BYTES)
    return " ".join(frame.hex() or "''" for frame in frames) or "-"


def is_link(part):
    return part != "-" and all(word == "''" or set(word) <= set("0123456789abcdef") for word in part.split(" "))


@functools.cache
def lines_with_links(file):
    """The lines whose last parts are links, each as what comes before them and the links."""
    found = []
    for case in short_cases(file, 3_000):
        parts = case.decode("utf-8", "replace").split(" | ")
        links = [part for part in parts[2:] if is_link(part)]
        if links and parts[2:] == links and "�" not in case.decode("utf-8", "replace"):
            found.append((parts[:2], links))
    return found


def of_server_frames(draw):
    head, links = draw.choice(lines_with_links("views"))
    place = draw.randrange(len(links))
    links = [*links[:place], damaged_frames(draw, links[place]), *links[place + 1:]]
    return " | ".join([*head, *links]).encode()


def of_client_frames(draw):
    """One link, so that no other comes between. Of what the clock says, nothing is compared."""
    head, links = draw.choice([(head, links) for head, links in lines_with_links("reflectors") if len(links) == 1])
    link = damaged_frames(draw, links[0])
    for content in frames_of(link):
        leave_out_times(content)
    return " | ".join([*head, link]).encode()


def leave_out_times(content):
    """Whether a time has come depends on the clock, which is another one in a run."""
    try:
        tag, fields = croquet.read_client(content)
    except croquet.Bad:
        return
    if tag == SNAP and fields[0] > 0 or tag == JOIN and fields[-1] > 0:
        raise LeftOut()


# ---------------------------------------------------------------- cases

OF_FILES = {"log": (of_log, 18), "snapshot": (of_snapshot, 16), "script": (of_script, 14), "program": (of_program, 20), "JSON": (of_json, 8),
            "journal": (of_journal, 10), "queries": (of_queries, 4)}
OF_LINKS = {"client frames": (of_client_frames, "reflectors", check_reflector, 5), "server frames": (of_server_frames, "views", check_view, 5)}


class Drawn:
    """A case by its seed and its number. What it has to come to is computed once."""

    def __init__(self, seed, number):
        self.draw = random.Random(f"{seed} {number}")
        weights = {**{kind: weight for kind, (_, weight) in OF_FILES.items()}, **{kind: row[-1] for kind, row in OF_LINKS.items()}}
        self.kind, = self.draw.choices(list(weights), list(weights.values()))
        self.name = f"seed {seed}, case {number}, {self.kind}"
        self.lock, self.made = threading.Lock(), None

    def make(self):
        """What a program is run on, and what has to come of it; None where the case is left out."""
        try:
            return deeply(self.make_link if self.kind in OF_LINKS else self.make_files)
        except LeftOut:
            return None

    def make_files(self):
        words, files = OF_FILES[self.kind][0](self.draw)
        return words, files, told_by_reference(words, files)

    def make_link(self):
        drawn, kind, _, _ = OF_LINKS[self.kind]
        line = drawn(self.draw)
        wanted = croquet.outcome_of(kind, line)
        if wanted.startswith("input ") or wanted == "bad":
            raise LeftOut()
        return line, wanted

    def check(self, program):
        with self.lock:
            if self.made is None:
                self.made = self.make() or ()
        if self.made == ():
            return
        if self.kind in OF_LINKS:
            line, wanted = self.made
            self.told(lambda: OF_LINKS[self.kind][2](program, line, wanted))
        else:
            words, files, wanted = self.made
            self.told(lambda: self.check_files(program, words, files, wanted))

    def check_files(self, program, words, files, wanted):
        run = program.run(words, files)
        expect(wanted, (run.told(), run.files))

    def told(self, check):
        """What is wrong is told with what the program was run on."""
        try:
            check()
        except Wrong as wrong:
            wrong.wanted += f"\n    of      {self.made[:-1]!r}"
            raise


def read_all():
    """Reads all that cases are drawn from, as long as it may be read: the checks become nobody before the first run."""
    for read in (recordings, programs, scripts, jsons, told_journals, inspections):
        read()
    for file in ("views", "reflectors"):
        lines_with_links(file)


def drawn_cases(seed, numbers):
    read_all()
    drawn = [Drawn(seed, number) for number in numbers]
    return [Case(one.name, one.check) for one in drawn]


PARTS = {"damages": lambda: drawn_cases(SEED, range(COUNT))}
