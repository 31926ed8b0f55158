"""Cases of `join` over sockets: a peer by hand plays the links of a case."""
import re
import socket
import threading

import websocket
from case import Case, expect, expect_that, read_cases
from commands import reference_cases
from reference import expanded
from websocket import BINARY, CLOSE, CLOSE_NORMAL, Ended, Wire, frame

CALLS = re.compile(r" heard \d+(?= >| ;)")
ASKED = re.compile(r" ; (\d+) back of (\d+) asked$")


class Peer:
    """A reflector by hand: it gives each link what stands in the case, and records what is sent."""

    def __init__(self, links):
        self.links, self.sent, self.faults = links, [], []
        self.listener = socket.socket()
        self.listener.bind(("127.0.0.1", 0))
        self.port = self.listener.getsockname()[1]
        if links:
            self.listener.listen()
        self.thread = threading.Thread(target=self.serve, daemon=True)
        self.thread.start()

    def serve(self):
        """Serves the links in order. Who asks for one more is refused."""
        try:
            for place, frames in enumerate(self.links):
                connection, _ = self.listener.accept()
                if place + 1 == len(self.links):
                    self.listener.close()
                self.serve_link(Wire(connection), frames)
        except OSError:
            pass
        except Exception as fault:
            self.faults.append(fault)

    def serve_link(self, wire, frames):
        sent = []
        self.sent.append(sent)
        websocket.answer(wire)
        said = b"".join(frame(BINARY, content) for content in frames) + CLOSE_NORMAL
        sender = threading.Thread(target=say_all, args=(wire, said), daemon=True)
        sender.start()
        try:
            while True:
                final, opcode, mask, content = wire.read_frame()
                expect_that(final and mask is not None, "a whole frame with a mask", (final, mask))
                if opcode == CLOSE:
                    break
                expect(BINARY, opcode)
                sent.append(content)
            expect(b"", wire.read_all())
        except Ended:
            pass
        finally:
            wire.close()
            sender.join()

    def end(self):
        """Waits for its links; one that was not asked for is given up."""
        if len(self.sent) < len(self.links):
            try:
                self.listener.shutdown(socket.SHUT_RDWR)
            except OSError:
                pass
        self.thread.join()
        self.listener.close()
        if self.faults:
            raise self.faults[0]


def say_all(wire, content):
    """Says what a view need not read to its end."""
    try:
        wire.say(content)
    except OSError:
        pass


def read_view(case):
    """The words before the address, the files, the host, the words after the script, and the frames of each link."""
    head, source, *parts = case.split(b" | ")
    name, view, script = head.split(b" ", 2)
    files = {"p": source, "s": b"" if script == b"-" else script.replace(b" / ", b"\n")}
    address, options, links = "localhost:8080", [], []
    for part in (part.decode("utf-8") for part in parts):
        if part.startswith("address "):
            address = part.removeprefix("address ")
        elif part.startswith("persisted "):
            options, files["j"] = ["--persisted", "j"], part.removeprefix("persisted ").encode()
        else:
            links.append([] if part == "-" else [frame_of(word) for word in part.split(" ")])
    return name, view, files, address, options, links


def frame_of(word):
    return b"" if word == "''" else bytes.fromhex(word)


def wanted_parts(wanted):
    """What is printed with the status, the frames of each link, and how many links are asked for."""
    asked = ASKED.search(wanted)
    told, *links = CALLS.sub("", wanted[:asked.start()] + " ;").removesuffix(" ;").split(" > ")
    frames = [[] if link.startswith("heard") else link.split(" ") for link in links]
    return told, frames, int(asked[1])


def check_view(program, case, wanted):
    name, view, files, address, options, links = read_view(case)
    told, frames, back = wanted_parts(wanted)
    peer = Peer(links)
    address = address.replace(":8080", f":{peer.port}")
    try:
        run = program.run(["join", "p", name, address, view, "s", *options], files)
    finally:
        peer.end()
    expect(told, run.told())
    expect({}, run.files)
    expect(frames, [[content.hex() or "''" for content in link] for link in peer.sent])
    expect(back, len(peer.sent))


def view_cases():
    def case_of(case, wanted):
        return Case(case, lambda program: check_view(program, expanded(case), wanted))

    return reference_cases("views", "views") + [case_of(*pair) for pair in read_cases("views")]


PARTS = {"views": view_cases}
