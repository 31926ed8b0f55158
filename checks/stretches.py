"""What ran in the sessions of the example programs by `trace`: as a whole, and the same lines stretch by stretch."""
import functools

from case import Case, expect
from moments import LATER, SESSIONS, read_example, read_examples
from reference import croquet


@functools.cache
def recorded(name):
    """The session of an example, and its program's text."""
    return SESSIONS[name](), read_example(f"{name}.program")


def wanted(name, begin, end):
    """The lines of what ran in a stretch."""
    session, source = recorded(name)
    program = croquet.read_program(source)
    return croquet.traced(croquet.Replaying(croquet.session_id(b"n", source), [], session.log, program, None), begin, end)


def traced(program, name, begin, end):
    session, source = recorded(name)
    run = program.run(["trace", "p", "n", "l", str(begin), str(end)], {"p": source, "l": session.encoded()})
    expect((0, {}), (run.status, run.files))
    return run.text.decode().split("\n")[:-1]


def end_of(name):
    """A time that is later than each entry."""
    session, _ = recorded(name)
    return session.log[-1].time + LATER


def check_whole(program, name):
    expect(wanted(name, 0, end_of(name)), traced(program, name, 0, end_of(name)))


def check_pieces(program, name):
    """Stretches that follow one another have together what ran, each line once."""
    session, _ = recorded(name)
    begins = sorted({0, *(entry.time for entry in session.log)})
    ends = [begin - 1 for begin in begins[1:]] + [end_of(name)]
    lines = [line for begin, end in zip(begins, ends) for line in traced(program, name, begin, end)]
    expect(wanted(name, 0, end_of(name)), lines)


def check_instants(program, name):
    """A stretch that ends at the time at which it begins has what ran then."""
    session, _ = recorded(name)
    for time in sorted({0, *(entry.time for entry in session.log)}):
        expect(wanted(name, time, time), traced(program, name, time, time))


def stretch_cases():
    read_examples()
    checks = {"as a whole": check_whole, "in pieces": check_pieces, "at the times of entries": check_instants}

    def case_of(name, told, check):
        return Case(f"{name}, {told}", lambda program: check(program, name))

    return [case_of(name, told, check) for name in SESSIONS for told, check in checks.items()]


PARTS = {"stretches": stretch_cases}
