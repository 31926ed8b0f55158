"""`host` behind nginx, by the configuration in deploy/: TLS, origins, limits, and one process for each session.

One session is listed, and the others are made on demand.
"""
import contextlib
import encodings.idna  # noqa: F401 (what wrap_socket loads; nobody may not be able to read it)
import os
import re
import shutil
import socket
import ssl
import subprocess
import tempfile
import time

from case import FOLDER, Case, expect, expect_that
from hosts import Host
from reference import croquet, read_stored
from reflector import LEAVE, View, hold_port, wait_for_listener
from websocket import Ended, Wire

LINE = re.compile(r"session (\d+) entries (\d+) time (\d+)(?: id ([0-9a-f]{64}))?")
DEPLOYED = {}
# They are read here, since the checks become nobody, who may not be able to read them.
for name in ("croquet.conf", "croquet-rates.conf"):
    with open(os.path.join(FOLDER, os.pardir, "deploy", "nginx", name), encoding="utf-8") as opened:
        DEPLOYED[name] = opened.read()
STREAMS = "/usr/lib/nginx/modules/ngx_stream_module.so"
SESSIONS = [f"board-{number}" for number in range(40)]
# So many sessions have a second view.
SHARED = 8
TURNS = 3
SOURCE = b"""class Root{field sum;field last;
init(o){this.sum=0;subscribe("board","add","add");}
add(v,view){this.sum=this.sum+v*random(1000);this.last=view;this.future(100).more();}
more(){this.sum=this.sum+1;}}"""
# More links than come to one process by the proxy.
MOST_LINKS = 64
HOME = "https://board.example.org"


def has_nginx():
    """Whether this machine has nginx, and openssl for a certificate."""
    return bool(find_nginx() and shutil.which("openssl"))


def find_nginx():
    return shutil.which("nginx", path=os.environ.get("PATH", "") + ":/usr/sbin:/sbin")


def deployed_text(name, changes):
    """A file of deploy/, with other addresses and another folder."""
    text = DEPLOYED[name]
    for old, new in changes.items():
        expect_that(old in text, f"{old} in the configuration", "none")
        text = text.replace(old, new)
    return text


def configuration(folder, port, processes):
    """That of deploy/, within the blocks that its files are for. Where nginx has no streams, links have no rates."""
    has_streams = os.path.exists(STREAMS)
    fronts = [f"127.0.0.1:{free_port()}" for _ in processes] if has_streams else processes
    places = "".join(f"{kind}_temp_path {folder}/{kind}; " for kind in ("client_body", "proxy", "fastcgi", "uwsgi", "scgi"))
    text = f"load_module {STREAMS};\n" if has_streams else ""
    text += f"daemon off; pid {folder}/pid; error_log stderr crit; worker_processes 2; events {{ worker_connections 512; }}\n"
    text += f"http {{ access_log off; {places}\n"
    text += deployed_text("croquet.conf", {"listen 443 ssl;": f"listen 127.0.0.1:{port} ssl;", "/etc/ssl/board": f"{folder}/board",
                                           "127.0.0.1:8081": fronts[0], "127.0.0.1:8082": fronts[1]}) + "}\n"
    if has_streams:
        text += "stream {\n" + deployed_text("croquet-rates.conf", {"127.0.0.1:9081": fronts[0], "127.0.0.1:9082": fronts[1],
                                                                    "127.0.0.1:8081": processes[0], "127.0.0.1:8082": processes[1]}) + "}\n"
    return text


def free_port():
    """A port of loopback that nobody has."""
    with hold_port() as holder:
        return holder.getsockname()[1]


def connected(port, source="127.0.0.1"):
    """A socket of loopback that is connected to this port, from this address."""
    plain = socket.socket()
    try:
        plain.bind((source, 0))
        plain.connect(("127.0.0.1", port))
    except OSError:
        plain.close()
        raise
    return plain


class Proxy:
    """A run of nginx before two processes."""

    def __init__(self, hosts):
        self.folder = tempfile.mkdtemp(prefix="croquet-nginx-")
        self.port = free_port()
        subprocess.run(["openssl", "req", "-x509", "-newkey", "rsa:2048", "-nodes", "-days", "2", "-subj", "/CN=board.example.org",
                        "-keyout", f"{self.folder}/board.key", "-out", f"{self.folder}/board.crt"], check=True, capture_output=True)
        with open(f"{self.folder}/conf", "w", encoding="utf-8") as file:
            file.write(configuration(self.folder, self.port, [host.address for host in hosts]))
        self.process = subprocess.Popen([find_nginx(), "-e", "stderr", "-p", self.folder, "-c", f"{self.folder}/conf"], stderr=subprocess.DEVNULL)
        self.trust = ssl.create_default_context(cafile=f"{self.folder}/board.crt")
        self.trust.check_hostname = False

    def connect(self, source):
        """A TLS connection from this address of loopback, once it listens."""
        until = time.monotonic() + Wire.patience
        while True:
            try:
                return Wire(self.trust.wrap_socket(connected(self.port, source), server_hostname="board.example.org"))
            except ConnectionRefusedError:
                expect_that(time.monotonic() < until and self.process.poll() is None, "nginx listens", "it does not")
                time.sleep(0.01)

    def status(self, name, source, *fields):
        """The status of a handshake for a session, and its link."""
        wire = self.connect(source)
        lines = [f"GET /{name} HTTP/1.1", "Host: board.example.org", "Connection: Upgrade", "Upgrade: websocket",
                 "Sec-WebSocket-Version: 13", "Sec-WebSocket-Key: dGhlIHNhbXBsZSBub25jZQ==", *fields, "", ""]
        wire.say("\r\n".join(lines).encode())
        return int(wire.read_head().split(b" ")[1]), wire

    def end(self):
        self.process.terminate()
        self.process.wait()
        shutil.rmtree(self.folder, ignore_errors=True)


def ident_of(name):
    return croquet.session_id(name.encode(), SOURCE)


# The name of each session, by the digits of its id.
NAMES = {ident_of(name).hex(): name for name in SESSIONS}


class Link:
    """What a view by hand connects to: a session behind the proxy."""

    def __init__(self, proxy, name, source):
        self.proxy, self.name, self.source = proxy, name, source
        self.ident = ident_of(name)

    def open(self, _receive_buffer):
        status, wire = self.proxy.status(self.name, self.source)
        expect(101, status)
        return wire


def started(program, port=None):
    """A process. The first session is listed."""
    return Host(program, SESSIONS[:1], MOST_LINKS, SOURCE, port, on_demand=True)


@contextlib.contextmanager
def deployed(program):
    """Two processes that make sessions on demand, and nginx before them."""
    hosts = [started(program) for _ in range(2)]
    proxy = None
    try:
        for host in hosts:
            wait_for_listener(host.port, host.run.process)
        proxy = Proxy(hosts)
        yield proxy, hosts
    finally:
        if proxy:
            proxy.end()
        for host in hosts:
            if host.run.process.returncode is None:
                host.run.kill()
                host.end()


def source_of(number):
    """Each session has clients of its own address, as the limits are of an address."""
    return f"127.0.1.{number + 1}"


def fill(host):
    """The links that a process still waits for come and go."""
    while host.run.process.poll() is None:
        with contextlib.suppress(OSError):
            connected(host.port).close()
        time.sleep(0.002)
    return host.end()


def view(proxy, number, view_number):
    return View(Link(proxy, SESSIONS[number], source_of(number)), view_number, "whole", 0, None)


def leave(views):
    """All leave, and hear to the Close. A link that is not ended within a second is ended by its process."""
    for one in views:
        one.say(LEAVE)
    for one in views:
        one.until("close")


def event(value):
    return croquet.payload("board", "add", value)


def files_of(host):
    """The files of the sessions of a process that have entries, each by its name, once the process has ended. It told of each file."""
    run = fill(host)
    expect(0, run.status)
    rows = [LINE.fullmatch(line) for line in run.text.decode().splitlines()[MOST_LINKS:]]
    expect_that(all(rows) and not rows[0][4] and all(match[4] for match in rows[1:]), "a session that is listed, and others with their ids", run.text)
    files = [f"l{match[4] or match[1]}" for match in rows]
    expect(sorted(files), sorted(run.files))
    names = [SESSIONS[0], *(NAMES.get(match[4]) for match in rows[1:])]
    return {name: run.files[file] for name, file, match in zip(names, files, rows) if match[2] != "0"}


def expect_replays(program, views, hosts):
    """Each session is in the file of one process. Each view was told of its log, and its world has the digest of the replay. Gives the entries of each session."""
    files = [files_of(host) for host in hosts]
    expect_that(all(files), "sessions in both processes", [len(of) for of in files])
    expect(sorted(SESSIONS), sorted(name for of in files for name in of))
    files = {**files[0], **files[1]}
    logs = [read_stored(files[name]).log for name in SESSIONS]
    for name, log, of in zip(SESSIONS, logs, views):
        for one in of:
            expect(log[:len(one.entries)], one.entries)
            expect_digest(program, name, files[name], one)
    return logs


def expect_digest(program, name, content, one):
    """The world that a view has in the end, by the reference, is that of the replay of its session's file to that time."""
    time_ = max(one.tick, one.entries[-1].time)
    world = croquet.World.first(croquet.read_program(SOURCE), ident_of(name))
    world = croquet.replayed(world, one.entries, time_)
    run = program.run(["replay", "p", name, "l", str(time_)], {"p": SOURCE, "l": content})
    expect_that(run.status == 0, "a replay", run.told())
    expect(croquet.hashlib.sha256(world.snapshot()).hexdigest(), run.text.split()[-1].decode())


def each_session_is_in_one_process(program):
    with deployed(program) as (proxy, hosts):
        views = [[view(proxy, number, 7)] for number in range(len(SESSIONS))]
        for number in range(SHARED):
            views[number].append(view(proxy, number, 8))
        everyone = [one for of in views for one in of]
        for one in everyone:
            expect(0, one.joined()[2])
        for turn in range(TURNS):
            for number, of in enumerate(views):
                for one in of:
                    one.done(event(TURNS * number + turn))
        leave(everyone)
        logs = expect_replays(program, views, hosts)
    for number, (log, of) in enumerate(zip(logs, views)):
        expect([event(TURNS * number + turn) for turn in range(TURNS) for _ in of],
               [entry.payload for entry in log if entry.kind == "event"])


def a_page_of_another_site_is_turned_away(program):
    with deployed(program) as (proxy, _hosts):
        expect(403, proxy.status(SESSIONS[0], source_of(0), "Origin: https://elsewhere.example")[0])
        expect(101, proxy.status(SESSIONS[0], source_of(0), f"Origin: {HOME}")[0])


def a_client_has_sixteen_links(program):
    with deployed(program) as (proxy, _hosts):
        links = [proxy.status(SESSIONS[0], source_of(0)) for _ in range(17)]
        expect([101] * 16 + [429], [status for status, _ in links])
        expect(101, proxy.status(SESSIONS[0], source_of(1))[0])


def a_session_waits_for_its_process(program):
    """While a process is gone, its sessions are in no other one, and those of the other process go on. Once it is there again, its
    clients come back, and their sessions begin anew."""
    with deployed(program) as (proxy, hosts):
        views = [view(proxy, number, 7) for number in range(len(SESSIONS))]
        for one in views:
            one.joined()
            one.done(event(1))
        hosts[0].run.kill()
        hosts[0].end()
        lives = [is_there(one) for one in views]
        expect_that(any(lives) and not all(lives), "sessions in both processes", sum(lives))
        lost = [number for number, lives_on in enumerate(lives) if not lives_on]
        expect(502, proxy.status(SESSIONS[lost[0]], source_of(lost[0]))[0])
        hosts[0] = started(program, hosts[0].port)
        wait_for_listener(hosts[0].port, hosts[0].run.process)
        for number in lost:
            views[number] = view(proxy, number, 7)
            expect((1, 0, 0, None), views[number].joined())
        # In a session that went on there are its join, an event, and the event by which the check has asked.
        expect([4 if lives_on else 2 for lives_on in lives], [one.done(event(2))[0] for one in views])
        leave(views)
        expect_replays(program, [[one] for one in views], hosts)


def is_there(one):
    """Whether the link of a view is still there."""
    try:
        one.done(event(3))
        return True
    except (Ended, OSError):
        return False


PROXIED = [each_session_is_in_one_process, a_page_of_another_site_is_turned_away, a_client_has_sixteen_links, a_session_waits_for_its_process]


def proxied_cases():
    if not has_nginx():
        print("proxied: left out, since nginx or openssl is not installed")
        return []
    return [Case(check.__name__.replace("_", " "), check) for check in PROXIED]


PARTS = {"proxied": proxied_cases}
