"""Votes on the worlds of a session: which events are votes, and what they come to.

What the votes of a drawn log come to follows from how it was drawn. `votes` and the reference have to print those lines.
"""
import random
import re
from dataclasses import dataclass

from case import Case, expect, expect_that
from commands import each, stamp
from reference import croquet

COUNT, SEED = 200, 7
VIEWS = [7, 8, 9, 4_294_967_295]
MANY_VIEWS, MANY = 100, 100_000
MOST_TIMES, TRIES = 2.2, 12


@dataclass
class Drawn:
    """A session, and the votes that were put into it: of each the entry, the view, the entry that it is on, and a digest."""
    session: object
    votes: list


# ---------------------------------------------------------------- logs


def no_vote(source, seq):
    """A payload that is almost one of a vote by the entry `seq`."""
    digits = "0" * 64
    return source.choice([
        croquet.vote_payload(0, digits), croquet.vote_payload(seq, digits), croquet.vote_payload(seq + 1, digits),
        croquet.vote_payload(1, "A" * 64), croquet.vote_payload(1, digits[1:]), croquet.vote_payload(1, digits + "0"),
        croquet.payload("#vote", "digests", croquet.List([1, digits])),
        croquet.payload("vote", "digest", croquet.List([1, digits])),
        croquet.payload("#vote", "digest", croquet.List([1, digits, None])),
        croquet.payload("#vote", "digest", digits), croquet.vote_payload(1, digits) + b"\0", b""])


def send(session, view, content):
    state = session.view(view)
    session.send(view, state.current, len(state.events) + 1, 0, content)
    return len(session.log)


def drawn(seed):
    """Views that come, go, vote, and send what is no vote."""
    source = random.Random(f"{SEED} {seed}")
    made = Drawn(croquet.Session(), [])
    session = made.session
    digests = ["".join(source.choices("0123456789abcdef", k=64)) for _ in range(source.randrange(1, 4))]
    for _ in range(source.randrange(2, 60)):
        view, seq = source.choice(VIEWS), len(session.log) + 1
        if not session.view(view).here:
            session.join(view, 0, "whole", 0)
        elif source.random() < 0.1:
            session.leave(view, session.view(view).current, 0)
        elif source.random() < 0.3:
            send(session, view, no_vote(source, seq))
        else:
            at, digits = source.randrange(max(1, seq - 8), seq), source.choice(digests)
            made.votes.append((send(session, view, croquet.vote_payload(at, digits)), view, at, digits))
    return made


def lines_of_votes(votes):
    """What votes come to, counted one by one."""
    count, on = 0, {}
    for entry, view, at, digits in votes:
        before = on.setdefault(at, [])
        if view not in [other for _, other, _ in before]:
            before.append((entry, view, digits))
            count += 1
    lines = []
    for at, those in sorted(on.items()):
        others = [entry for entry, _, digits in those if digits != those[0][2]]
        lines.append(f"at {at} votes {len(those)} " + (f"diverged {those[0][0]} {others[0]}" if others else "agreed"))
    return [*lines, f"votes {count}"]


# ---------------------------------------------------------------- cases


def run_votes(program, content):
    run = program.run(["votes", "l"], {"l": content})
    expect({}, run.files)
    return run.told()


def check_votes(program, case, wanted):
    expect(wanted, run_votes(program, stamp(program, case).files["l"]))


def of_both(program, made):
    lines = lines_of_votes(made.votes)
    expect(lines, croquet.voted(made.session.log))
    expect(" / ".join(lines), run_votes(program, made.session.encoded()))


def drawn_case(seed):
    return Case(f"the log drawn by {seed}", lambda program: of_both(program, drawn(seed)))


def votes_cases():
    return each("votes", "votes", check_votes) + [drawn_case(seed) for seed in range(COUNT)]


# ---------------------------------------------------------------- many votes


def many(count):
    """A log of so many votes, by a hundred views, on one entry after the other."""
    session = croquet.Session()
    for view in range(1, MANY_VIEWS + 1):
        session.join(view, 0, "whole", 0)
    for place in range(count):
        send(session, 1 + place % MANY_VIEWS, croquet.vote_payload(1 + place // MANY_VIEWS, "0" * 64))
    return session.encoded()


# Runs the words after it five times, and prints how long the processor was at work on that. So it matters little what else runs.
MEASURED = 'for run in 1 2 3 4 5; do "$@" > /dev/null || exit; done; times'
SPENT = re.compile(r"(\d+)m([\d.]+)s")


def seconds_of(program, count, content):
    """How long the program takes for a log of so many votes."""
    expect(f"votes {count}", run_votes(program, content).rpartition(" / ")[2])
    measured = program.launched_by("/bin/sh", "-c", MEASURED, "sh")
    return sum(60 * int(minutes) + float(seconds) for minutes, seconds in SPENT.findall(run_votes(measured, content)))


def check_many(program):
    """Twice as many votes take little more than twice as long. Other work may disturb a measurement, so one of several is enough."""
    less, more = many(MANY), many(2 * MANY)
    for _ in range(TRIES):
        once, twice = seconds_of(program, MANY, less), seconds_of(program, 2 * MANY, more)
        if twice <= MOST_TIMES * once:
            return
    expect_that(False, f"at most {MOST_TIMES} times {once:.3f} seconds", f"{twice:.3f} seconds")


PARTS = {"votes": votes_cases, "long-votes": lambda: [Case("twice as many votes", check_many)]}
