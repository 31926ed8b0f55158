"""A view of a session, over two pipes: it writes lines to `croquet join PROGRAM NAME ADDRESS VIEW -`, and reads what that prints.

A value is None, True, False, a number, a text, a list of values, or {"ref": N}, a reference to the object N of the world.
"""
import json
import re
import subprocess

ESCAPES = {'"': '\\"', "\\": "\\\\", "\n": "\\n"}
WORDS = {None: "nil", True: "true", False: "false"}
NO_JSON = re.compile(r'"(?:[^"\\]|\\.)*"|nil|#[0-9]+')
EVENT = re.compile(r'event ([0-9]+) ("(?:[^"\\]|\\.)*") ("(?:[^"\\]|\\.)*") (.*)')


def spell(value):
    """The text of a value."""
    if isinstance(value, str):
        return '"' + re.sub(r'["\\\x00-\x1f\x7f]', lambda it: ESCAPES.get(it[0], f"\\x{ord(it[0]):02x}"), value) + '"'
    if isinstance(value, (list, tuple)):
        return f"[{','.join(map(spell, value))}]"
    if isinstance(value, dict):
        return f"#{value['ref']}"
    return WORDS[value] if value is None or isinstance(value, bool) else str(value)


def as_json(token):
    if token == "nil":
        return "null"
    if token[0] == "#":
        return f'{{"ref":{token[1:]}}}'
    return re.sub(r"\\(.)", lambda it: "\\u00" if it[1] == "x" else it[0], token)


def read(text):
    """The value of a text."""
    return json.loads(NO_JSON.sub(lambda it: as_json(it[0]), text))


class Session:
    """A view that takes part. It hears of events in `listen`, and while it waits for an answer."""

    def __init__(self, program, name, address, view, croquet="./croquet"):
        words = [croquet, "join", program, name, address, str(view), "-"]
        self.process = subprocess.Popen(words, stdin=subprocess.PIPE, stdout=subprocess.PIPE, text=True, bufsize=1)
        self.handlers, self.asked = {}, 0

    def write(self, line):
        self.process.stdin.write(line + "\n")

    def publish(self, scope, event, value=None):
        self.write(f"publish {spell(scope)} {spell(event)} {spell(value)}")

    def on(self, scope, event, handler):
        """Calls handler(value) for each such event that models publish from now on."""
        self.handlers[scope, event] = handler
        self.write(f"watch {spell(scope)} {spell(event)} queued")

    def listen(self):
        """Takes the next line, and returns it where it is of no event. None is the end: the view has left, or its link is lost."""
        line = self.process.stdout.readline().rstrip("\n")
        event = EVENT.fullmatch(line)
        if event is None:
            return line or None
        self.handlers[read(event[2]), read(event[3])](read(event[4]))
        return ""

    def ask(self, line):
        """Writes a line, and returns what it prints, once it is done."""
        self.asked += 1
        end, said = f"mark {self.asked}", []
        self.write(f"{line}\n{end}")
        while (heard := self.listen()) != end:
            if heard is None:
                raise EOFError("\n".join(said))
            said += [heard] if heard else []
        return said

    def settle(self):
        """Waits until the reflector has all that was published."""
        return self.ask("settle")

    def show(self):
        """The lines of the world, as `inspect` prints them."""
        return self.ask("show")

    def leave(self):
        """Leaves, and returns the last line."""
        self.process.stdin.close()
        last = None
        while (line := self.listen()) is not None:
            last = line or last
        self.process.wait()
        return last
