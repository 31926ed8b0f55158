"""What a journal is read as, computed apart from the program.

It was written from the description of the bytes and not from the code in crates/. It takes the
fields, the limits and the state of a log from croquet_reference. Nothing is proved of it.

A journal is the eight bytes `TEALOG03`, the session's id of 32 bytes, and records. A record is a
length of four bytes, a body of so many bytes, and a check of eight. A body is

    1, then an entry as a log spells it: it came
    2, then a horizon of eight bytes: no tick is later until the next such record
    3, then a time of eight bytes, a length of four and so many bytes: this snapshot is kept

A check is the first eight bytes of SHA-256 of the check before it and the body. The check before
the first record is that of nothing and the header. A journal is read from its front, as long as the
length is not 0, the record is whole, its check is right and it may come. The rest is a torn end.

A record may come where its entry may follow the log, its horizon is above the one before, or its
snapshot is not above the limit and of a time up to the horizon; and where after it the horizon and
the number of views that are here are together below 2^53.

    python3 journal_reference.py ID FILE

prints what FILE is read as, where ID is the session's id in 64 hexadecimal digits.
"""
import hashlib
import sys
from dataclasses import dataclass

from croquet_reference import (Bad, MOST_ALL_ENTRIES, MOST_LOG_BYTES, MOST_OPEN_ENTRIES,
                               MOST_PAYLOAD, MOST_SNAPSHOT, MOST_VIEWS, TIME_LIMIT, Reader, Session,
                               need, number)

MARK = b"TEALOG03"
ID_BYTES = 32
CHECK_BYTES = 8
MOST_JOURNAL = 268_435_456
KINDS = {1: "join", 2: "exit", 3: "event"}


class NoJournal(Exception):
    """The bytes do not begin with a whole header."""


class OtherSession(Exception):
    """The journal is that of another session."""


@dataclass
class Came:
    time: int
    view: int
    kind: str  # join, exit, event
    number: int = 0
    payload: bytes = b""


@dataclass
class Reached:
    time: int


@dataclass
class Kept:
    time: int
    snapshot: bytes


class Read:
    """A session as its journal tells it, and how many of the bytes do."""

    def __init__(self):
        self.session = Session()
        self.horizon = 0
        self.good = len(MARK) + ID_BYTES

    @property
    def entries(self):
        return self.session.log

    @property
    def kept(self):
        return self.session.kept

    def stored(self):
        """The session as it goes on: at the horizon that was written ahead."""
        self.session.horizon = max(self.session.horizon, self.horizon)
        return self.session

    def take(self, change):
        """Takes a change; it is `Bad`, and nothing has changed, where it may not come."""
        horizon, here = self.after(change)
        need(horizon + here < TIME_LIMIT)
        self.horizon = horizon
        if isinstance(change, Came):
            self.session.append(change.time, change.view, change.kind, change.number, change.payload)
        elif isinstance(change, Kept):
            self.session.kept = (change.time, change.snapshot)

    def after(self, change):
        """The horizon and the number of views that are here after a change."""
        session = self.session
        if isinstance(change, Came):
            need_legal(session, change)
            is_here = session.view(change.view).here
            here = session.here + {"join": not is_here, "exit": -1, "event": 0}[change.kind]
            return max(self.horizon, change.time), here
        if isinstance(change, Reached):
            need(change.time > self.horizon)
            return change.time, session.here
        need(change.time <= self.horizon and len(change.snapshot) <= MOST_SNAPSHOT)
        return self.horizon, session.here


def need_legal(session, entry):
    """The log of a session may go on with an entry. Its last time is `session.horizon`."""
    state = session.view(entry.view)
    need(session.horizon < entry.time < TIME_LIMIT and entry.view > 0)
    if entry.kind == "join":
        need(state.here or session.here < MOST_VIEWS)
        need(len(session.log) < MOST_OPEN_ENTRIES)
    elif entry.kind == "exit":
        need(state.here and len(session.log) < MOST_ALL_ENTRIES)
    else:
        need(state.here and entry.number == len(state.events) + 1)
        need(len(entry.payload) <= MOST_PAYLOAD)
        need(session.payloads + len(entry.payload) <= MOST_LOG_BYTES)
        need(len(session.log) < MOST_OPEN_ENTRIES)


# ---------------------------------------------------------------- spelling

def check_of(before, body):
    return hashlib.sha256(before + body).digest()[:CHECK_BYTES]


def header(id_):
    return MARK + id_


def body_of(change):
    if isinstance(change, Came):
        kind = {word: tag for tag, word in KINDS.items()}[change.kind]
        entry = number(change.time, 8) + number(change.view, 4) + number(kind, 1)
        if change.kind == "event":
            entry += number(change.number, 4) + number(len(change.payload), 4) + change.payload
        return b"\x01" + entry
    if isinstance(change, Reached):
        return b"\x02" + number(change.time, 8)
    return b"\x03" + number(change.time, 8) + number(len(change.snapshot), 4) + change.snapshot


def records(check, changes):
    """The record of each change, after a check."""
    for change in changes:
        body = body_of(change)
        check = check_of(check, body)
        yield number(len(body), 4) + body + check


def first_check(id_):
    return check_of(b"", header(id_))


def spelled(id_, changes):
    return header(id_) + b"".join(records(first_check(id_), changes))


# ---------------------------------------------------------------- reading

def read_entry(reader):
    time, view, tag = reader.number(8), reader.number(4), reader.number(1)
    need(tag in KINDS)
    event = (reader.number(4), reader.bytes(reader.number(4))) if tag == 3 else ()
    return Came(time, view, KINDS[tag], *event)


def read_body(body):
    reader = Reader(body)
    tag = reader.number(1)
    need(1 <= tag <= 3)
    if tag == 1:
        change = read_entry(reader)
    elif tag == 2:
        change = Reached(reader.number(8))
    else:
        change = Kept(reader.number(8), reader.bytes(reader.number(4)))
    reader.end()
    return change


def read_record(reader, check):
    """The next body, which is whole, is not empty, and has the right check."""
    body = reader.bytes(reader.number(4))
    need(body and reader.bytes(CHECK_BYTES) == check_of(check, body))
    return body


def session_of(source):
    """The id that a journal names."""
    if len(source) < len(MARK) + ID_BYTES or not source.startswith(MARK):
        raise NoJournal()
    return source[len(MARK):len(MARK) + ID_BYTES]


def read_journal(id_, source):
    """The session of this id as its journal tells it."""
    if session_of(source) != id_:
        raise OtherSession()
    read, reader, check = Read(), Reader(source), first_check(id_)
    reader.at = read.good
    try:
        while True:
            body = read_record(reader, check)
            read.take(read_body(body))
            check, read.good = check_of(check, body), reader.at
    except Bad:
        return read


# ---------------------------------------------------------------- telling

def told(id_, source):
    """What the bytes are read as, in a line."""
    try:
        read = read_journal(id_, source)
    except NoJournal:
        return "no-journal"
    except OtherSession:
        return "other-session"
    last = read.entries[-1].time if read.entries else 0
    kept = "nothing" if read.kept is None else f"{len(read.kept[1])} at {read.kept[0]}"
    return (f"entries {len(read.entries)} last {last} horizon {read.horizon} here {read.session.here} "
            f"kept {kept} good {read.good} torn {len(source) - read.good}")


def main():
    id_, file = sys.argv[1:]
    with open(file, "rb") as opened:
        print(told(bytes.fromhex(id_), opened.read(MOST_JOURNAL)))


if __name__ == "__main__":
    main()
