#!/usr/bin/env python3
"""Measures what a journal costs `reflect`: instructions, bytes, events a second, ticks, and the time until it goes on from a long one.

    examples/measure_journal.py [--seconds N] [--idle N] [--entries N] [PROGRAM [FOLDER]]

PROGRAM is the built program. FOLDER is on the disk that is measured, and is /var/tmp if it is not given. Links send for `--seconds` each time, 10 if not
given. A view is idle for `--idle` seconds, 60 if not given. The long journal has `--entries`, a million if not given. Nothing else should run. It
needs valgrind and strace, and takes some five minutes. It ends with an error where the log, or the journal, has not just the events that were
answered. docs/PERFORMANCE.md has what it printed.
"""
import argparse
import collections
import contextlib
import multiprocessing
import os
import re
import selectors
import signal
import socket
import statistics
import struct
import subprocess
import sys
import tempfile
import time

TOP = os.path.dirname(os.path.dirname(os.path.realpath(__file__)))
sys.path.insert(0, os.path.join(TOP, "checks"))
sys.dont_write_bytecode = True

from case import Wrong, expect, expect_that  # noqa: E402
from reference import croquet  # noqa: E402
from reflector import EMPTY, LEAVE, View, hold_port, send_frame  # noqa: E402
import websocket  # noqa: E402
from websocket import BINARY, CLOSE, CLOSE_NORMAL, PING, PONG, Wire, frame  # noqa: E402

import journal_reference as journal  # noqa: E402 (found by the path that `reference` has added)

MEMORY = "/dev/shm"
# The event "counter" "reset" without a value.
PAYLOAD = bytes.fromhex("00000007636f756e74657200000005726573657400")
TICK, DONE, REFUSED = 67, 68, 70
NO_MASK = bytes(4)
ROUNDS = 3
SENDERS = (1, 8, 63)
COUNTING = ("valgrind", "--tool=callgrind", "--callgrind-out-file=/dev/null")
FOUR_MS_MORE = ("strace", "-f", "-qq", "--seccomp-bpf", "-o", "/dev/null", "-e", "trace=fdatasync",
                "-e", "inject=fdatasync:delay_enter=4000")


# ---------------------------------------------------------------- reflectors

class Reflector:
    """A run of `reflect` in a folder, with these options. It listens once this is made."""

    def __init__(self, program, folder, connections, options, launcher=()):
        self.ident, self.wires, self.holder = croquet.session_id(b"a", EMPTY), [], hold_port()
        self.port = self.holder.getsockname()[1]
        with open(os.path.join(folder, "p"), "wb") as file:
            file.write(EMPTY)
        begun = time.monotonic()
        self.process = subprocess.Popen(
            [*launcher, program, "reflect", "p", "a", f"127.0.0.1:{self.port}", *options, "--connections", str(connections)],
            cwd=folder, stdin=subprocess.DEVNULL, stdout=subprocess.DEVNULL, stderr=subprocess.PIPE)
        first = next((line for line in self.process.stderr if not line.startswith(b"==")), b"")
        expect_that(first.startswith(b"listening at "), "a reflector that listens", first)
        self.opening = time.monotonic() - begun
        self.pid = self.own_process()

    def own_process(self):
        """The number of the process of `reflect`, which a launcher may have started."""
        with open(f"/proc/{self.process.pid}/task/{self.process.pid}/children", encoding="ascii") as file:
            return int((file.read().split() or [self.process.pid])[0])

    def open(self, _receive_buffer):
        """A WebSocket, as `View` asks for one."""
        self.wires.append(Wire(socket.create_connection(("127.0.0.1", self.port))))
        websocket.ask(self.wires[-1])
        return self.wires[-1]

    def view(self, number):
        """A view that has joined."""
        view = View(self, number, "whole", 0, None)
        view.joined()
        return view

    def end(self):
        """Waits for its good end. Gives what it has written on the standard error."""
        errors = self.process.stderr.read()
        expect(0, self.process.wait())
        self.close()
        return errors.decode()

    def close(self):
        self.process.stderr.close()
        for held in [*self.wires, self.holder]:
            held.close()

    def kill(self):
        os.kill(self.pid, signal.SIGKILL)
        self.process.wait()
        self.close()

    def most_memory(self):
        """The most MiB that it has had at a time."""
        with open(f"/proc/{self.pid}/status", encoding="ascii") as file:
            return int(re.search(r"VmHWM:\s+(\d+)", file.read()).group(1)) / 1024

    def processor(self):
        """The seconds that it has had of the processor."""
        with open(f"/proc/{self.pid}/stat", encoding="ascii") as file:
            fields = file.read().rpartition(")")[2].split()
        return (int(fields[11]) + int(fields[12])) / os.sysconf("SC_CLK_TCK")


@contextlib.contextmanager
def reflecting(*words):
    """A reflector that is killed where it does not come to its end."""
    reflector = Reflector(*words)
    try:
        yield reflector
    finally:
        if reflector.process.returncode is None:
            reflector.kill()


def place(parent):
    """A folder that is removed in the end."""
    return tempfile.TemporaryDirectory(prefix="croquet-measure-", dir=parent)


def content(folder, name):
    with open(os.path.join(folder, name), "rb") as file:
        return file.read()


# ---------------------------------------------------------------- links

def whole_frames(held):
    """The opcode and the payload of each frame that is whole in what is held, and the rest."""
    frames, at = [], 0
    while at + 2 <= len(held):
        size, start = held[at + 1], at + 2
        expect_that(size < 127, "a frame of less than 65,536 bytes", size)
        if size == 126:
            size, start = int.from_bytes(held[at + 2:at + 4], "big"), at + 4
        if start + size > len(held):
            break
        frames.append((held[at] & 15, held[start:start + size]))
        at = start + size
    return frames, held[at:]


class Link:
    """A view that has joined, and hears on until its link is closed."""

    def __init__(self, view):
        self.socket, self.held, self.is_open = view.wire.socket, view.wire.held, True
        self.ticks = []
        view.wire.held = b""

    def say(self, frame_, opcode=BINARY):
        self.socket.sendall(frame(opcode, frame_, NO_MASK))

    def hear(self):
        """Takes what has come."""
        piece = self.socket.recv(262_144)
        expect_that(piece, "a close", "an end")
        frames, self.held = whole_frames(self.held + piece)
        for opcode, told in frames:
            if opcode == BINARY:
                self.take(told)
            elif opcode == PING:
                self.say(told, PONG)
            elif opcode == CLOSE:
                self.socket.sendall(frame(CLOSE, CLOSE_NORMAL[2:], NO_MASK))
                self.is_open = False

    def take(self, told):
        """Takes a frame of the reflector."""
        if told[0] == TICK:
            self.ticks.append(time.monotonic())
        expect_that(told[0] != REFUSED, "no refusal", told)


class Sender(Link):
    """A view that sends its next event once the last one was answered, as long as `goes_on` says of the number of answers."""

    def __init__(self, view, goes_on):
        super().__init__(view)
        self.goes_on, self.stamps, self.ended = goes_on, [], None

    def send(self):
        """Sends the next event, or leaves."""
        count = len(self.stamps)
        if self.goes_on(count):
            self.say(send_frame(count + 1, PAYLOAD))
        else:
            self.ended = time.monotonic()
            self.say(LEAVE)

    def take(self, told):
        if told[0] == DONE:
            number, seq, time_ = struct.unpack(">xIIQ", told)
            expect(len(self.stamps) + 1, number)
            self.stamps.append((seq, time_))
            self.send()
        else:
            super().take(told)


def hear_until(links, is_over, asked=None):
    """Hears on until it is over. The links leave once there is something at `asked`."""
    with selectors.DefaultSelector() as selector:
        for link in links:
            if link.is_open:
                selector.register(link.socket, selectors.EVENT_READ, link)
        if asked is not None:
            selector.register(asked, selectors.EVENT_READ)
        while not is_over():
            ready = selector.select(Wire.patience)
            expect_that(ready, "something to hear", "silence")
            for key, _ in ready:
                if key.data is None:
                    selector.unregister(asked)
                    for link in links:
                        link.say(LEAVE)
                    continue
                key.data.hear()
                if not key.data.is_open:
                    selector.unregister(key.fileobj)


def hear_to_the_close(links, asked=None):
    hear_until(links, lambda: not any(link.is_open for link in links), asked)


class Listener:
    """A view that sends nothing, in a process of its own."""

    def __init__(self, view):
        self.told, other = multiprocessing.Pipe()
        self.process = multiprocessing.Process(target=self.listen, args=(Link(view), other), daemon=True)
        self.process.start()
        view.wire.close()

    @staticmethod
    def listen(link, told):
        hear_to_the_close([link], told)
        told.send(link.ticks)

    def leave(self):
        self.told.send("leave")

    def end(self):
        """Gives when ticks came, once the link is closed, which it is when all have left."""
        told = self.told.recv()
        self.process.join()
        return told


# ---------------------------------------------------------------- what is in the files

def expect_kept(folder, links, is_kept):
    """The log, which is legal, has each event that was answered, at its place and by its time, and so has the journal, where there is one."""
    log = croquet.read_stored(content(folder, "f")).log
    events = sum(entry.kind == "event" for entry in log)
    expect(sum(len(link.stamps) for link in links), events)
    for number, link in enumerate(links, 1):
        for count, (seq, time_) in enumerate(link.stamps, 1):
            entry = log[seq - 1]
            expect((number, "event", count, time_, PAYLOAD), (entry.view, entry.kind, entry.number, entry.time, entry.payload))
    if is_kept:
        kept = content(folder, "j")
        read = journal.read_journal(croquet.session_id(b"a", EMPTY), kept)
        expect_that(log == read.entries and read.good == len(kept), "a journal of this log", read.good)
    return log


def options_of(is_kept):
    return ["--log", "f", *(["--journal", "j"] if is_kept else [])]


def sizes(kept):
    """How many records of each kind a journal has, and how many bytes these have together."""
    counts, bytes_, at = collections.Counter(), collections.Counter(), 40
    while at < len(kept):
        length = int.from_bytes(kept[at:at + 4], "big") + 12
        counts[kept[at + 4]] += 1
        bytes_[kept[at + 4]] += length
        at += length
    return counts, bytes_


# ---------------------------------------------------------------- instructions and bytes

def sent(program, count, is_kept, launcher=()):
    """A run in which one view sends so many events: the standard error, how many ticks came, the log, and the journal."""
    with place(MEMORY) as folder, reflecting(program, folder, 1, options_of(is_kept), launcher) as reflector:
        link = Sender(reflector.view(1), lambda answered: answered < count)
        link.send()
        hear_to_the_close([link])
        errors = reflector.end()
        expect(count + 2, len(expect_kept(folder, [link], is_kept)))
        return errors, len(link.ticks), content(folder, "f"), content(folder, "j") if is_kept else b""


def instructions(program, is_kept):
    """How many instructions a send takes, by the difference of two runs, and how many ticks the longer one had more."""
    collected, ticks = [], []
    for count in (1_000, 2_000):
        errors, heard, _, _ = sent(program, count, is_kept, COUNTING)
        collected.append(int(re.search(r"Collected : (\d+)", errors).group(1)))
        ticks.append(heard)
    return (collected[1] - collected[0]) / 1_000, ticks[1] - ticks[0]


def measure_sends(program):
    for is_kept, name in ((False, "without a journal"), (True, "with a journal")):
        rounds = [instructions(program, is_kept) for _ in range(ROUNDS)]
        told = ", ".join(f"{count:,.0f} ({ticks} ticks)" for count, ticks in rounds)
        print(f"instructions a send {name}: {told}", flush=True)
    runs = [sent(program, count, True) for count in (1_000, 2_000)]
    log_bytes = (len(runs[1][2]) - len(runs[0][2])) / 1_000
    entries = [sizes(kept)[1][1] for _, _, _, kept in runs]
    print(f"bytes of an event with a payload of {len(PAYLOAD)}: journal {(entries[1] - entries[0]) / 1_000:g}, log {log_bytes:g}", flush=True)


def measure_idle(program, seconds):
    """What is added while a view is here and nobody sends, and what that comes to in a day."""
    with place(MEMORY) as folder, reflecting(program, folder, 1, options_of(True)) as reflector:
        listener = Listener(reflector.view(1))
        before = sizes(content(folder, "j"))
        time.sleep(seconds)
        after = sizes(content(folder, "j"))
        listener.leave()
        listener.end()
        reflector.end()
    added, grown = (then[2] - now[2] for now, then in zip(before, after))
    expect(before[0][1], after[0][1])
    day = grown * 86_400 // seconds
    print(f"an idle view for {seconds} seconds: {added} horizons of {grown} bytes; in a day by that {day:,} bytes", flush=True)


# ---------------------------------------------------------------- events and ticks

def waited():
    """The milliseconds that this thread was ready and had no processor."""
    with open("/proc/thread-self/schedstat", encoding="ascii") as file:
        return int(file.read().split()[1]) / 1e6


def sync_text(parent, count):
    """What an append of the bytes of an event and a sync take, of so many one after the other."""
    taken = []
    with place(parent) as folder, open(os.path.join(folder, "j"), "ab", buffering=0) as file:
        before = waited()
        for _ in range(count):
            begun = time.monotonic()
            file.write(bytes(34) + PAYLOAD)
            os.fdatasync(file.fileno())
            taken.append((time.monotonic() - begun) * 1_000)
        idle = (waited() - before) / count
    taken.sort()
    return (f"{statistics.mean(taken):.3f} ms, of which {idle:.3f} ms it waited for a processor "
            f"(median {taken[count // 2]:.3f}, 99th percentile {taken[count * 99 // 100]:.3f}, longest {taken[-1]:.1f})")


def longest_gap(ticks, begun, ended):
    """The longest time without a tick, of those that began or ended between these two times."""
    gaps = [(after - before) for before, after in zip(ticks, ticks[1:]) if after > begun and before < ended]
    expect_that(gaps, "ticks", ticks)
    return max(gaps) * 1_000


def load(reflector, senders, seconds):
    """So many links send for so long: the links, when they began and ended, when the listener had ticks, and the seconds of the processor that
    the reflector and this process had for it."""
    listener = Listener(reflector.view(senders + 1))
    views = [reflector.view(number) for number in range(1, senders + 1)]
    time.sleep(0.5)
    begun, taken, own = time.monotonic(), reflector.processor(), time.process_time()
    links = [Sender(view, lambda _: time.monotonic() < begun + seconds) for view in views]
    for link in links:
        link.send()
    hear_until(links, lambda: all(link.ended for link in links))
    ended = max(link.ended for link in links)
    had = (reflector.processor() - taken, time.process_time() - own)
    listener.leave()
    hear_to_the_close(links)
    return links, begun, ended, listener.end(), had


def measure_load(program, parent, name, senders, seconds, is_kept=True, launcher=()):
    """Prints a line of so many links that send at once."""
    with place(parent) as folder, reflecting(program, folder, senders + 1, options_of(is_kept), launcher) as reflector:
        links, begun, ended, ticks, had = load(reflector, senders, seconds)
        reflector.end()
        expect_kept(folder, links, is_kept)
    events = sum(len(link.stamps) for link in links)
    print(f"{name}, {'1 link sends' if senders == 1 else f'{senders} links send'}: {events} events, {events / (ended - begun):,.0f} a second; longest gap "
          f"between ticks {longest_gap(ticks, begun, ended):.0f} ms; processor {had[0] / events * 1e6:,.0f} microseconds an event, "
          f"client busy {had[1] / (ended - begun):.0%}", flush=True)


def measure_loads(program, disk, seconds):
    """One link more is open, of the view that listens. A run has 64 links at most."""
    for senders in SENDERS:
        measure_load(program, MEMORY, "without a journal", senders, seconds, is_kept=False)
        measure_load(program, MEMORY, "journal in memory", senders, seconds)
        measure_load(program, MEMORY, "journal in memory, each sync takes 4 ms more", senders, seconds, launcher=FOUR_MS_MORE)
        print(f"a sync of the disk before: {sync_text(disk, 500)}", flush=True)
        measure_load(program, disk, "journal on the disk", senders, seconds)
        print(f"a sync of the disk after: {sync_text(disk, 500)}", flush=True)


# ---------------------------------------------------------------- a long journal

def long_log(entries):
    """A log in which view 1 joins and sends."""
    first = struct.pack(">8sIQIB", b"TEALOG01", entries, 1, 1, 1)
    return first + b"".join(struct.pack(">QIBII", seq, 1, 3, seq - 1, len(PAYLOAD)) + PAYLOAD for seq in range(2, entries + 1))


def measure_opening(program, folder, name, options):
    """Prints what it takes until a reflector listens. Then it is killed."""
    with reflecting(program, folder, 1, options) as reflector:
        print(f"{name}: {reflector.opening:.2f} s until it listens, {reflector.processor():.2f} s of the processor, {reflector.most_memory():.0f} MiB",
              flush=True)


def measure_openings(program, disk, entries):
    with place(disk) as folder:
        with open(os.path.join(folder, "o"), "wb") as file:
            file.write(long_log(entries))
        measure_opening(program, folder, f"a log of {entries} entries", ["--from", "o", "--log", "f"])
        measure_opening(program, folder, "a journal that is founded from it", ["--from", "o", "--journal", "j"])
        print(f"the log has {len(content(folder, 'o')):,} bytes, the journal {len(content(folder, 'j')):,}", flush=True)
        for _ in range(ROUNDS):
            measure_opening(program, folder, "the journal", ["--journal", "j"])
        # (the view that was here has left at the first start)
        expect(entries + 1, sizes(content(folder, "j"))[0][1])


# ---------------------------------------------------------------- all

def read_words():
    reader = argparse.ArgumentParser(description="Measures what a journal costs.")
    reader.add_argument("--seconds", type=float, default=10)
    reader.add_argument("--idle", type=int, default=60)
    reader.add_argument("--entries", type=int, default=1_000_000)
    reader.add_argument("program", nargs="?", default=os.path.join(TOP, "release/croquet-x86_64-linux"))
    reader.add_argument("folder", nargs="?", default="/var/tmp")
    return reader.parse_args()


def print_machine(disk):
    with open("/proc/cpuinfo", encoding="utf-8") as file:
        model = re.search(r"model name\s*: (.*)", file.read())
    found = subprocess.run(["findmnt", "-n", "-o", "SOURCE,FSTYPE", "-T", disk], stdout=subprocess.PIPE, check=True)
    print(f"{os.cpu_count()} processors {model.group(1) if model else ''}; {disk} is on {' '.join(found.stdout.decode().split())}; "
          f"load {os.getloadavg()[0]:.1f}")


def measure(words):
    program = os.path.realpath(words.program)
    print_machine(words.folder)
    measure_sends(program)
    measure_idle(program, words.idle)
    for parent in (words.folder, MEMORY):
        print(f"a write of {34 + len(PAYLOAD)} bytes and a sync in {parent}: {sync_text(parent, 1_000)}", flush=True)
    measure_loads(program, words.folder, words.seconds)
    measure_openings(program, words.folder, words.entries)
    print_machine(words.folder)


def main():
    try:
        measure(read_words())
    except Wrong as wrong:
        sys.exit(f"wanted {wrong.wanted}, came {wrong.came}")


if __name__ == "__main__":
    main()
