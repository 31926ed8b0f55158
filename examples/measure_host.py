#!/usr/bin/env python3
"""Measures `host`: events a second of forty links in 1, 8 and 40 sessions of one process, beside `reflect` and a plain reflector in JavaScript.

    examples/measure_host.py [--seconds N] [--rounds N] [--clients N] [--sessions N..] [PROGRAM]

PROGRAM is the built program, and the released one if it is not given. All forty links are there in each run, as evenly in the sessions as they go. Each
sends its next event once the last one was answered, for `--seconds`, 10 if not given, and hears on until it was told all events of its session. The links
are in `--clients` processes, 4 if not given, so that they seldom wait for each other. Up to 16 sessions are listed; of more than 16 one is listed, and the
line `any` lets a JOIN make each other one. There are `--rounds`, 3 if not given. Nothing else should run. It ends with an error where a log has not just
the events that were answered. The plain reflector, `plain_reflector.js`, needs node and node-ws, and is left out without them. docs/PERFORMANCE.md has
what it printed.
"""
import argparse
import collections
import multiprocessing
import os
import shutil
import subprocess
import sys
import threading
import time

import measure_journal as links
from case import Wrong, expect, expect_that
from reference import croquet, read_stored
from reflector import EMPTY, LEAVE, View, hold_port, send_frame, wait_for_listener

LINKS = 40
SESSIONS = (1, 8, 40)
MOST_LISTED = 16
RELEASE = os.path.join(links.TOP, "release", "croquet-x86_64-linux")
PLAIN = os.path.join(links.TOP, "examples", "plain_reflector.js")
NODE_WS = "/usr/share/nodejs/ws"
RECV, EVENT = 66, 3
# Where a RECV has the kind of its entry.
KIND = 17


class Served(links.Reflector):
    """A run of a server of so many sessions. It listens once this is made."""

    def __init__(self, words_of, program, folder, sessions):
        self.holder, self.wires = hold_port(), []
        self.port = self.holder.getsockname()[1]
        names = [f"s{number}" for number in range(sessions)]
        self.idents = [croquet.session_id(name.encode(), EMPTY) for name in names]
        self.listed = sessions if sessions <= MOST_LISTED else 1
        with open(os.path.join(folder, "p"), "wb") as file:
            file.write(EMPTY)
        with open(os.path.join(folder, "c"), "w", encoding="ascii") as file:
            file.writelines(f"session {name} p\n" for name in names[:self.listed])
            file.write("any\n" * (self.listed < sessions))
        self.process = subprocess.Popen(words_of(program, self.port), cwd=folder, stdin=subprocess.DEVNULL, stdout=subprocess.DEVNULL, stderr=subprocess.DEVNULL)
        self.pid = self.process.pid
        wait_for_listener(self.port, self.process)

    def view_of(self, place, number):
        """A view of one of the sessions, once it has joined."""
        self.ident = self.idents[place]
        view = View(self, number, "whole", 0, None)
        view.joined()
        return view

    def log_names(self):
        """The file of each session."""
        return [f"l{place + 1}" if place < self.listed else f"l{ident.hex()}" for place, ident in enumerate(self.idents)]

    def close(self):
        for held in [*self.wires, self.holder]:
            held.close()


def host_words(program, port):
    return [program, "host", "c", f"127.0.0.1:{port}", "--connections", str(LINKS), "--logs", "l"]


def reflect_words(program, port):
    return [program, "reflect", "p", "s0", f"127.0.0.1:{port}", "--connections", str(LINKS), "--log", "l1"]


def plain_words(_program, port):
    return ["node", PLAIN, str(port)]


# ---------------------------------------------------------------- links

class Sender(links.Link):
    """A view that sends its next event once the last one was answered, until its time is over. It counts the events that it was told."""

    def __init__(self, view, place):
        super().__init__(view)
        self.place, self.until, self.answered, self.told, self.has_ended = place, 0, 0, 0, False

    def send(self):
        """Sends the next event, if there is time."""
        if time.monotonic() < self.until:
            self.say(send_frame(self.answered + 1, links.PAYLOAD))
        else:
            self.has_ended = True

    def take(self, told):
        if told[0] == RECV:
            self.told += told[KIND] == EVENT
        elif told[0] == links.DONE:
            self.answered += 1
            expect(self.answered, int.from_bytes(told[1:5], "big"))
            self.send()
        else:
            super().take(told)


class Clients:
    """Processes that have forty links together. Each begins to send, and goes away, once all others are ready to."""

    def __init__(self, served, processes, seconds):
        self.together = multiprocessing.Barrier(processes + 1, timeout=seconds + 60)
        self.sums = multiprocessing.Array("Q", len(served.idents))
        self.begun, self.ended, self.own = (multiprocessing.Array("d", processes) for _ in range(3))
        self.processes = [multiprocessing.Process(target=self.run, args=(served, first, seconds), daemon=True) for first in range(processes)]
        for process in self.processes:
            process.start()

    def run(self, served, first, seconds):
        """The links of one process: the one with this number, and each that comes so many places later as there are processes."""
        try:
            sessions = len(served.idents)
            senders = [Sender(served.view_of(number % sessions, number // sessions + 1), number % sessions)
                       for number in range(first, LINKS, len(self.own))]
            self.together.wait()
            self.measured(first, senders, seconds)
            self.together.wait()
            self.leave(served, senders)
        except BaseException:
            self.together.abort()
            raise

    def measured(self, place, senders, seconds):
        """Notes when these links began to send and when they were told the last event, and what this process had of the processor meanwhile."""
        self.begun[place], own = time.monotonic(), time.process_time()
        for sender in senders:
            sender.until = self.begun[place] + seconds
            sender.send()
        links.hear_until(senders, lambda: all(sender.has_ended for sender in senders))
        with self.sums.get_lock():
            for sender in senders:
                self.sums[sender.place] += sender.answered
        self.together.wait()
        sums = self.sums[:]
        links.hear_until(senders, lambda: all(sender.told == sums[sender.place] for sender in senders))
        self.ended[place], self.own[place] = time.monotonic(), time.process_time() - own
        self.together.wait()

    @staticmethod
    def leave(served, senders):
        for sender in senders:
            sender.say(LEAVE)
        if served.process.args[0] != "node":
            links.hear_to_the_close(senders)

    def measure(self, served):
        """The seconds until all links were told all events, and those of the processor that the server and the clients had."""
        self.together.wait()
        had = served.processor()
        self.together.wait()
        self.together.wait()
        had = served.processor() - had
        self.together.wait()
        for process in self.processes:
            process.join()
            expect(0, process.exitcode)
        return max(self.ended) - min(self.begun), had, sum(self.own)


# ---------------------------------------------------------------- rows

def expect_logs(folder, names, sums):
    """The log of each session has just the events that were answered."""
    for name, count in zip(names, sums):
        log = read_stored(links.content(folder, name)).log
        expect(count, sum(entry.kind == "event" for entry in log))


def measure(name, words_of, words, sessions):
    """Prints a line of forty links in so many sessions, the first of which have one more where they do not come out even."""
    with links.place(links.MEMORY) as folder:
        served = Served(words_of, os.path.realpath(words.program), folder, sessions)
        try:
            clients = Clients(served, words.clients, words.seconds)
            taken, had, own = clients.measure(served)
            if words_of is not plain_words:
                expect(0, served.process.wait())
                expect_logs(folder, served.log_names(), clients.sums[:])
        finally:
            if served.process.poll() is None:
                served.kill()
            else:
                served.close()
    sums = clients.sums[:]
    of_session = collections.Counter(number % sessions for number in range(LINKS))
    told = sum(count * of_session[place] for place, count in enumerate(sums))
    expect_that(sum(sums), "events", sums)
    print(f"{name}: {sum(sums) / taken:,.0f} events a second, told {told / taken:,.0f} times; processor {had / sum(sums) * 1e3:.3f} s a thousand events, "
          f"{had / taken:.2f} of {os.cpu_count()}; the clients' {own / taken:.2f}", flush=True)


def read_words():
    reader = argparse.ArgumentParser(description="Measures many sessions in one process.")
    reader.add_argument("--seconds", type=float, default=10)
    reader.add_argument("--rounds", type=int, default=links.ROUNDS)
    reader.add_argument("--clients", type=int, default=4)
    reader.add_argument("--sessions", type=int, nargs="+", default=SESSIONS)
    reader.add_argument("program", nargs="?", default=RELEASE)
    return reader.parse_args()


def measure_all(words):
    links.print_machine(links.MEMORY)
    for _ in range(words.rounds):
        measure("reflect", reflect_words, words, 1)
        for sessions in words.sessions:
            measure(f"host, {sessions} {'session' if sessions == 1 else 'sessions'}", host_words, words, sessions)
        if shutil.which("node") and os.path.isdir(NODE_WS):
            measure("the plain reflector", plain_words, words, 1)
    links.print_machine(links.MEMORY)


def main():
    try:
        measure_all(read_words())
    except Wrong as wrong:
        sys.exit(f"wanted {wrong.wanted}, came {wrong.came}")
    except threading.BrokenBarrierError:
        sys.exit("a process of clients has failed")


if __name__ == "__main__":
    main()
