"""Lines of the language, done by programs whose Root does them as the world begins."""
import re

from case import Case, expect, read_cases
from commands import reference_cases
from reference import croquet, expanded, outcomes
from views import Peer

EMPTY_LOG = croquet.Session().encoded()
ROOT = re.compile(r"class Root ?\{(?: *field +[a-z]\w* *;)*")
HEARING = b'class Root{field v;init(o){subscribe(%s,%s,"take");}take(v){this.v=v;}}'
ONE_FIELD = b"class Root{field f;init(o){}}"


def replay(program, source, log=EMPTY_LOG, time="0", more=(), files=None):
    words = ["replay", "p", "a", "l", time, "--snapshot", "f", *more]
    return program.run(words, {"p": source, "l": log, **(files or {})})


def told_snapshot(run):
    """The snapshot in hexadecimal digits, or what is told where there is none."""
    return run.files["f"].hex() if run.status == 0 else run.told()


def expression_program(case):
    """A program whose Root holds what the expression gives."""
    return f"class Root{{field f;init(o){{this.f={case};}}none(){{}}pair(a,b){{return [a,b];}}}}"


def method_program(case):
    """The program, whose Root calls its method `m` as it is made, and holds what that gives."""
    return ROOT.sub(lambda root: root[0] + "field given;init(o){this.given=this.m();}", case, 1)


def first_worlds(file, program_of):
    """A case for each line: the first world of its program has the snapshot of the reference."""
    names = [case for case, _ in read_cases(file)]
    sources = [program_of(case) for case in names]
    wanted = outcomes("snapshots", [f"a 0 - | {source}" for source in sources])

    def case_of(name, source, snapshot):
        return Case(name, lambda program: expect(
            snapshot, told_snapshot(replay(program, expanded(source)))))

    return [case_of(*parts) for parts in zip(names, sources, wanted)]


# ---------------------------------------------------------------- values


def check_payload(program, case, wanted):
    """An event with this payload is heard by who subscribed to it, or counted as bad."""
    bytes_ = bytes.fromhex(case.decode())
    if wanted == "bad":
        scope = event = b'""'
    else:
        scope, event = (croquet.value_text(word).encode()
                        for word in croquet.read_payload(bytes_)[:2])
    source = HEARING % (scope, event)
    script = b"join 7 0\nsend 7 1 1 1 %s\n" % (case or b"-")
    session, _ = croquet.stamped(script)
    run = program.run(["stamp", "s", "--log", "l"], {"s": script})
    expect(session.encoded(), run.files.get("l"))
    world = croquet.World.first(croquet.read_program(source), croquet.session_id(b"a", source))
    expect(croquet.replayed(world, session.log, 2).snapshot().hex(),
           told_snapshot(replay(program, source, run.files["l"], "2")))


def check_value(program, case, wanted):
    """A snapshot with this value in a field is taken up and spelled again, or it is none."""
    content = bytes.fromhex(case.decode())
    program_ = croquet.read_program(ONE_FIELD)
    world = croquet.World.first(program_, croquet.session_id(b"a", ONE_FIELD))
    world.set_field(1, 0, 9_007_199_254_740_993)
    before, after = world.snapshot().split(croquet.encode(9_007_199_254_740_993))
    snapshot = before + content + after
    run = replay(program, ONE_FIELD, more=["--from", "s"], files={"s": snapshot})
    if wanted == "bad":
        return expect(("input snapshot [3]", {}), (run.told(), run.files))
    return expect(snapshot.hex(), told_snapshot(run))


SAYING = b'class Root{init(o){subscribe("v","say","say");}say(x){publish("m","heard",x);}}'
SCRIPT = b'watch "m" "heard" queued\npublish "v" "say" %s\nwait 2\n'


def check_text(program, case, wanted):
    """A view publishes the value of this text and shows it, or its script is refused."""
    frames = [croquet.framed(croquet.SYNC_TAG, croquet.number(1, 4), bytes(9))]
    if wanted != "bad":
        content = croquet.text_field("v") + croquet.text_field("say") + spelling_of(wanted)
        frames.append(croquet.framed(croquet.RECV_TAG, croquet.number(1, 4), croquet.number(2, 8),
                                     croquet.number(7, 4), b"\3", croquet.number(1, 4),
                                     croquet.bytes_field(content)))
    peer = Peer([frames])
    try:
        run = program.run(["join", "p", "a", f"localhost:{peer.port}", "7", "s"],
                          {"p": SAYING, "s": SCRIPT % case})
    finally:
        peer.end()
    if wanted == "bad":
        return expect("input script [3]", run.told())
    expect(f'event 2 "m" "heard" {text_behind(wanted)}', run.text.decode().split("\n")[0])
    return expect(croquet.framed(croquet.SEND_TAG, croquet.number(1, 4), croquet.bytes_field(content)).hex(),
                  peer.sent[0][1].hex())


def spelling_of(wanted):
    return bytes.fromhex(wanted.partition(" ")[0])


def text_behind(wanted):
    return wanted.partition(" ")[2]


# ---------------------------------------------------------------- parts


def lines(file, check, is_seen=lambda case, outcome: True):
    """A case for each line that the program can show."""
    def case_of(case, wanted):
        return Case(case, lambda program: check(program, expanded(case), wanted))

    return [case_of(case, wanted) for case, wanted in read_cases(file)
            if is_seen(expanded(case), wanted)]


def fits_an_event(case, _):
    return len(case) <= 2 * croquet.MOST_PAYLOAD


def fits_a_line(case, outcome):
    """Whether the text is a word of a script's line, and its event is not too long."""
    return case == case.strip(b" \n") and len(outcome.partition(" ")[0]) <= 2 * 4000


def reference_texts():
    """The reference reads and prints the texts of values."""
    def check(case, wanted):
        try:
            value = croquet.value_of(expanded(case).decode("utf-8"))
            told = f"{croquet.encode(value).hex()} {croquet.value_text(value)}"
        except (croquet.Bad, UnicodeDecodeError):
            told = "bad"
        expect(wanted, told)

    return [Case(case, lambda _, case=case, wanted=wanted: check(case, wanted), False)
            for case, wanted in read_cases("texts")]


PARTS = {
    "expressions": lambda: reference_cases("evaluate", "expressions")
    + first_worlds("expressions", expression_program),
    "methods": lambda: reference_cases("run", "methods")
    + first_worlds("methods", method_program),
    "payloads": lambda: reference_cases("payload", "payloads")
    + lines("payloads", check_payload, fits_an_event),
    "values": lambda: reference_cases("decode", "values") + lines("values", check_value),
    "texts": lambda: reference_texts() + lines("texts", check_text, fits_a_line),
}
