"""Journals of the program that stands in for `croquet`: files that are locked, read, cut and appended to."""
import fcntl
import os
import stat

from reference import croquet

import journal_reference as journal  # found by the path that `reference` has added

AHEAD = 2_000_000


class Torn:
    """The bytes after the records of a journal, if they are not all zeros."""

    def __init__(self, content):
        self.content = content if content.strip(b"\0") else b""


def fault(line, status):
    return croquet.Ended(line, status)


def sync_folder(name):
    folder = os.open(os.path.dirname(name) or ".", os.O_RDONLY)
    try:
        os.fsync(folder)
    finally:
        os.close(folder)


def found(name, content):
    """Puts a new file whole or not at all. A file that is there stays."""
    for number in range(2**32):
        new = f"{name}.{number}.new"
        try:
            file = open(new, "xb")
            break
        except FileExistsError:
            continue
    try:
        with file:
            file.write(content)
            file.flush()
            os.fsync(file.fileno())
        os.link(new, name)
    finally:
        os.remove(new)
    sync_folder(name)


class File:
    """The open file of a journal."""

    def __init__(self, name):
        self.number = os.open(name, os.O_RDWR | os.O_APPEND)
        fcntl.flock(self.number, fcntl.LOCK_EX | fcntl.LOCK_NB)
        if not stat.S_ISREG(os.fstat(self.number).st_mode):
            raise OSError("no plain file")
        sync_folder(name)
        self.content = self.read()

    def read(self):
        content = b""
        while piece := os.read(self.number, 1_048_576):
            content += piece
        return content

    def append(self, piece):
        while piece:
            piece = piece[os.write(self.number, piece):]
        os.fdatasync(self.number)

    def cut(self, length):
        os.ftruncate(self.number, length)
        os.fdatasync(self.number)


def open_file(name):
    """The open file of this name; None where there is none."""
    try:
        return File(name)
    except FileNotFoundError:
        return None
    except OSError:
        raise fault("read-fault", 4) from None


def changes_of(session):
    """What the journal of a session begins with."""
    for entry in session.log:
        yield came(entry)
    if session.horizon > session.last_time():
        yield journal.Reached(session.horizon)
    if session.kept is not None:
        yield journal.Kept(*session.kept)


def came(entry):
    return journal.Came(entry.time, entry.view, entry.kind, entry.number, entry.payload)


def opened(name, ident, opening):
    """The file of a journal, which is founded with a session where there is none."""
    file = open_file(name)
    if file is not None:
        return file
    try:
        found(name, journal.spelled(ident, changes_of(opening())))
    except OSError:
        raise fault("write-fault", 5) from None
    file = open_file(name)
    if file is None:
        raise fault("read-fault", 4)
    return file


class Journal:
    """A journal that is kept. After a call that failed nothing more is written."""

    def __init__(self, name, ident, opening):
        self.file = opened(name, ident, opening)
        self.shut = False
        content = self.file.content
        try:
            read = journal.read_journal(ident, content)
        except (journal.NoJournal, journal.OtherSession):
            raise fault("input journal", 3) from None
        self.torn = Torn(content[read.good:]).content
        self.session, self.horizon = read.stored(), read.horizon
        self.check = last_check(ident, content[:read.good])
        self.good, self.written = read.good, len(self.session.log)

    def cut(self):
        self.file.cut(self.good)

    def keep(self, session):
        """Writes what the session has that the journal has not; whether that is done."""
        changes = [came(entry) for entry in session.log[self.written:]]
        horizon = max([self.horizon, *(change.time for change in changes)])
        if session.horizon > horizon:
            changes.append(journal.Reached(min(session.horizon + AHEAD, croquet.END)))
        if self.shut or not changes:
            return not self.shut
        try:
            for record, change in zip(list(journal.records(self.check, changes)), changes):
                self.file.append(record)
                self.check = record[-journal.CHECK_BYTES:]
                self.horizon = max(self.horizon, change.time)
        except OSError:
            self.shut = True
            return False
        self.written = len(session.log)
        return True


def last_check(ident, content):
    """The check that the next record follows."""
    if len(content) == len(journal.header(ident)):
        return journal.first_check(ident)
    return content[-journal.CHECK_BYTES:]


class Reflecting(croquet.Reflecting):
    """A session of which nobody is told what its journal has not."""

    def __init__(self, ident, kept, clock):
        self.kept = kept
        super().__init__(ident, kept.session, clock)
        self.keep()

    def keep(self):
        if not self.kept.keep(self.session):
            raise croquet.LinkOver("unkept")

    def ask(self, request, *words):
        with self.lock:
            reply = super().ask(request, *words)
            self.keep()
            return reply

    def entries(self, after):
        with self.lock:
            told = super().entries(after)
            self.keep()
            return told


class Talk(croquet.Talk):
    """A link that ends where something is not kept."""

    def run(self):
        try:
            return super().run()
        except croquet.LinkOver as over:
            return over.word
