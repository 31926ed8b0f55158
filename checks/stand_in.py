"""A program that stands in for `croquet`: the same words, files, output and statuses, by the reference.

Wrong programs are this one with one thing changed, so that it can be seen what finds them.
"""
import errno
import os
import select
import sys
import threading
import time

import stand_in_journals as journals
import stand_in_links as links
from reference import croquet
from stand_in_links import Failed, LinkEnd

import journal_reference as journal  # found by the path that `reference` has added

COMMANDS = {"stamp": (1, {"--from", "--log"}, set()), "check": (1, set(), set()),
            "replay": (4, {"--persisted", "--from", "--snapshot", "--saved"}, set()),
            "inspect": (5, {"--persisted"}, set()),
            "trace": (5, {"--persisted"}, set()),
            "votes": (1, set(), set()),
            "hub": (1, {"--logs"}, set()),
            "join": (5, {"--persisted"}, set()),
            "reflect": (3, {"--persisted", "--from", "--connections", "--links", "--until", "--journal", "--log"}, set()),
            "host": (2, {"--connections", "--links", "--until", "--logs"}, {"--logs"}),
            "drill": (3, {"--log", "--snapshots"}, {"--log", "--snapshots"})}
LIMITS = {"script": croquet.SCRIPT_BYTES, "program": croquet.PROGRAM_BYTES, "log": croquet.LOG_FILE_BYTES,
          "snapshot": croquet.MOST_SNAPSHOT, "persisted": croquet.MOST_JSON,
          "queries": croquet.MOST_QUERIES_BYTES, "config": croquet.MOST_CONFIG_BYTES}
DRILL = (b'class Root{field total;field n;init(o){this.total=0;this.n=0;subscribe("drill","add","add")'
         b';}add(v){this.total=this.total+v;this.n=this.n+1;if(this.n%16==0){this.future(1).mark();}}'
         b'mark(){publish("drill","mark",this.total);}}')

# ---------------------------------------------------------------- words


def usage(holds):
    if not holds:
        raise croquet.Ended("usage", 1)


def number(word, least, limit):
    try:
        value = croquet.decimal(word, limit)
    except croquet.Bad:
        usage(False)
    usage(value >= least)
    return value


def read_words(words):
    """The command, its words and its options."""
    usage(words and all(words) and words[0] in COMMANDS)
    count, allowed, needed = COMMANDS[words[0]]
    plain, options, rest = [], {}, iter(words[1:])
    for word in rest:
        if word.startswith("-") and word != "-":
            value = next(rest, "-")
            usage(word in allowed and word not in options and not value.startswith("-"))
            options[word] = value
        else:
            plain.append(word)
    usage(len(plain) == count and needed <= set(options))
    usage("-" not in plain or words[0] == "join" and plain.index("-") == 4)
    return words[0], plain, options


def check_name(name):
    usage(len(name.encode()) <= 255)
    return name.encode()


# ---------------------------------------------------------------- files and output


def read_file(name, kind):
    """The bytes of a file that is within its limit."""
    try:
        with open(name, "rb") as file:
            content = file.read(LIMITS[kind] + 1)
    except OSError:
        raise croquet.Ended("read-fault", 4) from None
    if len(content) > LIMITS[kind]:
        raise croquet.Ended(f"input {kind}", 3)
    return content


# No new file can be made beside the name, or moved over it.
NOT_BESIDE = {errno.EACCES, errno.EPERM, errno.EBUSY, errno.EROFS, errno.ENAMETOOLONG, errno.EEXIST}


def write_file(name, content):
    """Puts a file whole or not at all, where it is a plain one, or none, and its folder takes another."""
    try:
        if os.path.lexists(name) and (os.path.islink(name) or not os.path.isfile(name)
                                      or not os.access(name, os.W_OK)):
            return write_over(name, content)
        try:
            return replace(name, content)
        except OSError as error:
            if error.errno not in NOT_BESIDE:
                raise
            return write_over(name, content)
    except OSError:
        raise croquet.Ended("write-fault", 5) from None


def write_over(name, content):
    with open(name, "wb") as file:
        file.write(content)


def replace(name, content):
    """Writes a file beside the name, and moves it there."""
    for number in range(100):
        new = f"{name}.{number}.new"
        try:
            file = open(new, "xb")
        except FileExistsError:
            continue
        try:
            with file:
                file.write(content)
            return os.replace(new, name)
        except OSError:
            os.remove(new)
            raise
    raise OSError(errno.EEXIST, "all names are in use")


def say(line):
    sys.stdout.buffer.write(line.encode() + b"\n")
    sys.stdout.buffer.flush()


def tell(line):
    """Writes a line on the standard error."""
    sys.stderr.write(line + "\n")
    sys.stderr.flush()


class Output:
    """The standard output, as the run of a view takes it."""

    @staticmethod
    def write(line):
        say(line)


# ---------------------------------------------------------------- commands that wait for nobody


def id_in(content):
    """The id that a log names, if it is a journal."""
    try:
        return journal.session_of(content)
    except journal.NoJournal:
        return None


def check_own(named, ident):
    """A log of a session that is known names no other one."""
    if named not in (None, ident):
        raise croquet.Ended("input journal", 3)


def opening_session(options):
    """The session of `--from`, or the first one."""
    if "--from" not in options:
        return croquet.Session()
    content = read_file(options["--from"], "log")
    named = id_in(content)
    if named is None:
        return croquet.read_opening(content)
    session = journal.read_journal(named, content).stored()
    session.named = named
    return session


def own_session(options, ident):
    """The same, of the session of this id."""
    session = opening_session(options)
    check_own(getattr(session, "named", None), ident)
    return session


def stamp(plain, options):
    requests = croquet.read_script(read_file(plain[0], "script"))
    session = opening_session(options)
    lines = [session.reply(request) for request in requests]
    if "--log" in options:
        write_file(options["--log"], session.encoded())
    for line in lines:
        say(line)


def check(plain, _):
    program = croquet.read_program(read_file(plain[0], "program"))
    methods = sum(len(class_.methods) for class_ in program.classes)
    say(f"classes {len(program.classes)} methods {methods}")


def read_or(kind, read, *words):
    try:
        return read(*words)
    except croquet.Bad:
        raise croquet.Ended(f"input {kind}", 3) from None


def read_persisted(options):
    """The value that a session is founded with, nil where the option is not given."""
    if "--persisted" not in options:
        return None
    return croquet.read_persisted(read_file(options["--persisted"], "persisted"))


def read_entries(name):
    """The entries of a log, and the id that it names, if it is a journal."""
    log = read_file(name, "log")
    named = id_in(log)
    return named, read_or("log", croquet.read_log, log) if named is None else journal.read_journal(named, log).entries


def read_recorded(plain, options):
    """The program, the log and the persisted value of a recorded session, read in this order."""
    source = read_file(plain[0], "program")
    program = croquet.read_program(source)
    named, entries = read_entries(plain[2])
    persisted = read_persisted(options)
    ident = croquet.session_id(plain[1].encode(), source, persisted)
    check_own(named, ident)
    return croquet.Replaying(ident, [], entries, program, persisted)


def replay(plain, options):
    check_name(plain[1])
    time = number(plain[3], 0, croquet.TIME_LIMIT)
    recorded = read_recorded(plain, options)
    if "--from" in options:
        snapshot = read_file(options["--from"], "snapshot")
        world = read_or("snapshot", croquet.read_snapshot, recorded.program, recorded.id, snapshot)
        if time < world.time:
            raise croquet.Ended("input time", 3)
    else:
        world = recorded.first_world()
    world = croquet.replayed(world, recorded.entries, time)
    if "--snapshot" in options:
        write_file(options["--snapshot"], world.snapshot())
    if "--saved" in options:
        write_file(options["--saved"], croquet.to_json(world.saved))
    say(croquet.world_line(world))


def inspect(plain, options):
    check_name(plain[1])
    every = number(plain[3], 1, 1_048_577)
    recorded = read_recorded(plain, options)
    croquet.check_every(recorded.entries, every)
    for line in croquet.inspected(recorded, every, read_file(plain[4], "queries")):
        say(line)


def trace(plain, options):
    check_name(plain[1])
    begin, end = (number(word, 0, croquet.TIME_LIMIT) for word in plain[3:])
    for line in croquet.traced(read_recorded(plain, options), begin, end):
        say(line)


def votes(plain, options):
    for line in croquet.voted(read_entries(plain[0])[1]):
        say(line)


def hub(plain, options):
    sessions, lines = croquet.hubbed(read_file(plain[0], "script"))
    if "--logs" in options:
        for number, session in enumerate(sessions, 1):
            write_file(f"{options['--logs']}{number}", session.encoded())
    for line in lines:
        say(line)


def drill(plain, options):
    """One view after the other: the log is one that threads may leave too."""
    seed, views = number(plain[0], 0, 2**32), number(plain[1], 1, 9)
    events = number(plain[2], 0, 10_001)
    session, program = croquet.Session(), croquet.Program(croquet.parse(DRILL))
    world = croquet.World.first(program, croquet.session_id(b"drill", DRILL))
    for view in range(1, views + 1):
        drill_view(session, world, seed * 8 + view - 1, view, events)
    world = croquet.replayed(world, session.log, session.horizon)
    write_file(options["--log"], session.encoded())
    for view in range(1, views + 1):
        write_file(f"{options['--snapshots']}{view}", world.snapshot())
    say(f"views {views} events {views * events} entries {len(session.log)} "
        f"total {world.objects[1].fields[0]} agree {views}")


def drill_view(session, world, seed, view, events):
    source = croquet.World(world.program, bytes(32))
    source.random = seed
    session.join(view, 0, "whole", 0)
    for event in range(1, events + 1):
        content = croquet.payload("drill", "add", source.below(100))
        session.send(view, session.view(view).current, event, 0, content)
        if event % 256 == 0:
            offer(session, world, view)
        if event % 64 == 0:
            session.join(view, 0, "whole", 0)
    session.leave(view, session.view(view).current, 0)


def offer(session, world, view):
    """Offers the snapshot of the world at the time of the session."""
    croquet.replayed(world, session.log, session.horizon)
    session.offer(view, session.view(view).current, world.time, world.snapshot())


# ---------------------------------------------------------------- a view


class Net:
    """Links to an address. One that is over is closed."""

    def __init__(self, address):
        self.address, self.over = address, self

    def connect(self):
        try:
            return OneLink(links.connect(self.address))
        except OSError:
            raise croquet.Failed() from None

    @staticmethod
    def append(link):
        links.close_all([link.link])


class OneLink:
    """A link as the reference takes it."""

    def __init__(self, link):
        self.link = link

    def recv(self):
        try:
            heard = self.link.hear()
        except Failed:
            raise croquet.Failed() from None
        except LinkEnd:
            return croquet.LINK_END
        return croquet.QUIET if heard is None else heard

    def send(self, content):
        try:
            self.link.send(content)
        except (Failed, LinkEnd):
            raise croquet.Failed() from None


class InputFeed:
    """The lines of the standard input."""

    def __init__(self):
        self.held, self.ended = b"", False

    def next(self):
        if b"\n" not in self.held and not self.ended and select.select([0], [], [], 0)[0]:
            try:
                content = os.read(0, 65_536)
            except OSError:
                raise croquet.Ended("read-fault", 4) from None
            self.held, self.ended = self.held + content, content == b""
        if b"\n" in self.held:
            line, _, self.held = self.held.partition(b"\n")
            return line.removesuffix(b"\r")
        if not self.ended:
            return croquet.NOTHING
        line, self.held = self.held, b""
        return line.removesuffix(b"\r") if line else croquet.CLOSED


def join(plain, options):
    name, view = check_name(plain[1]), number(plain[3], 1, 2**32)
    source = read_file(plain[0], "program")
    program = croquet.read_program(source)
    croquet.check_address(plain[2])
    script = None if plain[4] == "-" else croquet.read_view_script(read_file(plain[4], "script"))
    persisted = read_persisted(options)
    replica = croquet.Replica(program, croquet.session_id(name, source, persisted), view, persisted)
    net = Net(links.socket_address(plain[2]))
    if script is None:
        croquet.LiveRun(replica, net, Output, InputFeed(), pause=lambda: time.sleep(1)).run_live()
    else:
        croquet.ViewRun(replica, net, Output).run(script)


# ---------------------------------------------------------------- how long links are served

WAYS = ["left", "link-end", "link-fault", "idle", "stale", "refused", "memory", "unkept"]


def span_of(options):
    """How many links are served, where they are counted; else by how many posts, and the file that ends these."""
    if "--connections" in options:
        usage("--links" not in options and "--until" not in options)
        return number(options["--connections"], 1, 65), None, None
    return None, number(options.get("--links", "64"), 1, 65), options.get("--until")


def serve_by_posts(listener, posts, until, serve):
    """Serves one link after the other in each of so many threads, until the file is there. Gives how the links ended."""
    ends, taking = [], threading.Lock()

    def serve_on():
        while until is None or not os.path.exists(until):
            with taking:
                link = links.accept_soon(listener)
            if link is not None:
                ends.append(serve(link))
                links.close_all([link])

    threads = [threading.Thread(target=serve_on) for _ in range(posts)]
    for thread in threads:
        thread.start()
    for thread in threads:
        thread.join()
    return ends


def say_ways(ends, posts):
    """In which ways links have ended, each with the number of its session, if one served it; and that all posts were stopped."""
    words = [word.split()[0] for _, word in ends]
    counts = [f"{way} {words.count(way)}" for way in WAYS]
    silent = sum(place is None for place, _ in ends)
    say(" ".join(["links", *counts, f"silent {silent}"]))
    say(f"posts {posts} stopped {posts} failed 0 memory 0 spent 0")


# ---------------------------------------------------------------- a reflector


Reflecting, Talk = croquet.Reflecting, croquet.Talk


def reflect(plain, options):
    usage("--log" in options or "--journal" in options)
    name, (count, posts, until) = check_name(plain[1]), span_of(options)
    source = read_file(plain[0], "program")
    croquet.read_program(source)
    croquet.check_address(plain[2])
    ident = croquet.session_id(name, source, read_persisted(options))
    shared, talk = shared_session(ident, options)
    try:
        listener = links.listen(links.socket_address(plain[2]))
    except OSError:
        tell(f"cannot listen at {plain[2]}: the port is in use")
        raise croquet.Ended("net-fault", 6) from None
    tell(f"listening at {plain[2]}, session {shared.ident.hex()}")
    if count is None:
        ends = serve_by_posts(listener, posts, until, lambda link: serve_heard(shared, talk, link))
    else:
        words = serve_counted(listener, shared, talk, count)
    if "--log" in options:
        write_file(options["--log"], shared.session.encoded())
    if count is None:
        say_ways(ends, posts)
    else:
        for place in sorted(words):
            say(f"connection {place} {words[place]}")
    say(f"entries {len(shared.session.log)} time {shared.session.horizon}")
    if is_shut(shared):
        raise croquet.Ended("write-fault", 5)


def serve_counted(listener, shared, talk, count):
    """Serves so many links. Gives how each ended, by its number."""
    accepted, words, threads = [], {}, []
    while len(accepted) < count and not is_shut(shared):
        link = links.accept_soon(listener)
        if link is not None:
            serve = lambda place, link: words.update({place: serve_link(link, talk(shared, OneLink(link)))})
            threads.append(threading.Thread(target=serve, args=(len(accepted), link)))
            accepted.append(link)
            threads[-1].start()
    for thread in threads:
        thread.join()
    links.close_all(accepted)
    return words


def serve_heard(shared, talk, link):
    """Serves a link once it has given a frame. Gives 0, if it has, and how it ended."""
    first, word = hear_first(OneLink(link))
    if first is None:
        links.close(link)
        return None, word
    return 0, serve_link(link, talk(shared, Peeked(link, first)))


def serve_link(link, talk):
    """How the talk on a link ends. The link is closed then."""
    word = talk.run()
    links.close(link)
    return word


def is_shut(shared):
    """Whether its journal is shut, if it has one."""
    return isinstance(shared, journals.Reflecting) and shared.kept.shut


def shared_session(ident, options):
    """The session that links share, and what their talks are."""
    if "--journal" not in options:
        return Reflecting(ident, own_session(options, ident), lambda: links.now()), Talk
    name = options["--journal"]
    kept = journals.Journal(name, ident, lambda: own_session(options, ident))
    if kept.torn:
        write_file(f"{name}.torn", kept.torn)
        say(f"torn {len(kept.torn)}")
    if "--log" in options:
        write_file(options["--log"], kept.session.encoded())
    kept.cut()
    return journals.Reflecting(ident, kept, lambda: links.now()), journals.Talk


# ---------------------------------------------------------------- a host


class Peeked(OneLink):
    """A link whose first frame was taken, and is given once more."""

    def __init__(self, link, first):
        super().__init__(link)
        self.first = [first]

    def recv(self):
        return self.first.pop() if self.first else super().recv()


def hear_first(link):
    """The first frame of a link, or the word of its end."""
    for _ in range(croquet.MOST_QUIET):
        try:
            heard = link.recv()
        except croquet.Failed:
            return None, "link-fault"
        if heard is croquet.LINK_END:
            return None, "link-end"
        if heard is not croquet.QUIET:
            return heard, None
    return None, "idle"


class Hosted:
    """The sessions of a host: those that are listed, and then those that were made on demand."""

    def __init__(self, ids, on_demand):
        self.ids, self.sessions, self.listed, self.on_demand = [], [], len(ids), on_demand
        self.lock = threading.Lock()
        for ident in ids:
            self.make(ident)

    def make(self, ident):
        self.sessions.append(Reflecting(ident, croquet.Session(), lambda: links.now()))
        self.ids.append(ident)

    def place_for(self, first):
        """The number of the session, from 0, to which a link goes whose first frame is this."""
        with self.lock:
            if self.on_demand and croquet.is_to_be_made(self.ids, first):
                self.make(croquet.joined_id(first))
            return croquet.goes_to(self.ids, first)

    def is_listed(self, place):
        return place < self.listed


def serve_hosted(hosted, link):
    """The number of the session that serves a link, from 0, if one does, and the word of its end."""
    first, word = hear_first(OneLink(link))
    if first is None:
        links.close(link)
        return None, word
    place = hosted.place_for(first)
    return place, serve_link(link, Talk(hosted.sessions[place], Peeked(link, first)))


def put_hosted(hosted, prefix):
    """Writes each session under a name that ends in its number, or in its id where it was made on demand."""
    for place, shared in enumerate(hosted.sessions):
        name = place + 1 if hosted.is_listed(place) else shared.ident.hex()
        write_file(f"{prefix}{name}", shared.session.encoded())


def host_counted(listener, hosted, count):
    """Serves so many links. Gives how each ended, by its number."""
    accepted, ends, threads = [], {}, []
    while len(accepted) < count:
        link = links.accept_soon(listener)
        if link is not None:
            serve = lambda place, link: ends.update({place: serve_hosted(hosted, link)})
            threads.append(threading.Thread(target=serve, args=(len(accepted), link)))
            accepted.append(link)
            threads[-1].start()
    for thread in threads:
        thread.join()
    links.close_all(accepted)
    return ends


def host(plain, options):
    count, posts, until = span_of(options)
    lines, on_demand = croquet.read_config(read_file(plain[0], "config"))
    sources = {}
    for _, program in lines:
        if program not in sources:
            sources[program] = read_file(program, "program")
            croquet.read_program(sources[program])
    ids = croquet.hosted_ids(lines, sources)
    croquet.check_address(plain[1])
    hosted = Hosted(ids, on_demand)
    try:
        listener = links.listen(links.socket_address(plain[1]))
    except OSError:
        tell(f"cannot listen at {plain[1]}: the port is in use")
        raise croquet.Ended("net-fault", 6) from None
    tell(f"listening at {plain[1]}")
    if count is None:
        ends = serve_by_posts(listener, posts, until, lambda link: serve_hosted(hosted, link))
    else:
        ends = host_counted(listener, hosted, count)
    put_hosted(hosted, options["--logs"])
    if count is None:
        say_ways(ends, posts)
    else:
        for place in sorted(ends):
            session, word = ends[place]
            say(f"connection {place} session {'none' if session is None else session + 1} {word}")
    for place, shared in enumerate(hosted.sessions):
        made = "" if hosted.is_listed(place) else f" id {shared.ident.hex()}"
        say(f"session {place + 1} entries {len(shared.session.log)} time {shared.session.horizon}{made}")


# ---------------------------------------------------------------- the program


def run(words):
    """Runs a command, and gives its status."""
    try:
        command, plain, options = read_words(words)
        globals()[command](plain, options)
        return 0
    except croquet.Ended as ended:
        if ended.line is not None:
            say(ended.line)
        return ended.status


def main():
    """Runs in a thread whose stack is deep enough for the reference."""
    ends = []
    try:
        words = [word.encode("utf-8", "surrogateescape").decode() for word in sys.argv[1:]]
    except UnicodeDecodeError:
        words = []
    sys.setrecursionlimit(100_000)
    threading.stack_size(256 * 1024 * 1024)
    thread = threading.Thread(target=lambda: ends.append(run(words)))
    thread.start()
    thread.join()
    sys.exit(ends[0])
