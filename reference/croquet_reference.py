"""What cases must come to, computed apart from the program.

This is a second implementation of the language, of worlds, of sessions and of
their formats. It was written from their description and not from the code in
crates/, so it can find what both the code and its contracts get wrong. Nothing
is proved of it.

    python3 croquet_reference.py KIND FILE

prints each line of FILE with what it comes to. The kinds are evaluate, run,
canonical, decode, payload, data (language), client, server (frames) and scripts,
logs, stored, onward, programs, worlds, saved, snapshots, resumed, inspects, traces,
votes, reflectors, views (commands).
"""
import hashlib
import heapq
import json
import re
import sys
import threading
from dataclasses import dataclass, field

# ---------------------------------------------------------------- limits

PROGRAM_BYTES = 65_536
SCRIPT_BYTES = 16_777_216
LOG_FILE_BYTES = 268_435_456
MOST_OPEN = 32
MOST_OPERATORS = 32
MOST_CLASSES = MOST_FIELDS = MOST_METHODS = 256
MOST_PARAMETERS = 16
MOST_NAME = 64
FUEL = 100_000
MOST_DEPTH = 512
MOST_TURNS = 1_024
MOST_OBJECTS = 4_096
MOST_PENDING = 16_384
MOST_SUBSCRIPTIONS = 16_384
MOST_WORLD_WEIGHT = 131_072
MOST_WEIGHT = 4_096
MOST_LIST_DEPTH = 32
MOST_VIEWS = 1_024
MOST_PAYLOAD = 4_096
MOST_SNAPSHOT = 4_194_304
MOST_JSON = 1_048_576
MOST_SESSIONS, MOST_SESSION_NAME = 256, 255
MOST_ENTRIES = 2**20
MOST_LOG_BYTES = 2**26
TIME_LIMIT = 2**53
END = 2**53 - 4096
LEAST_INT, GREATEST_INT = -(2**63), 2**63 - 1

FAULTS = ["Overflow", "ZeroDivisor", "BadKind", "BadIndex", "NoObject", "NoMethod", "Arity",
          "Fuel", "Depth", "Size", "Instant", "Time", "Full", "BadEvent"]


class Fault(Exception):
    """A fault of the model program that ends a message."""

    def __init__(self, name):
        super().__init__(name)
        self.name = name


class Ended(Exception):
    """A command that ends with a fault's line and a status."""

    def __init__(self, line, status):
        super().__init__(line)
        self.line = line
        self.status = status


class Bad(Exception):
    """Bytes that spell nothing."""


def syntax(at):
    return Ended(f"syntax {at}", 2)


def too_large(word, count):
    return Ended(f"too-large {word} {count}", 2)


# ---------------------------------------------------------------- tokens

WORDS = set("class field let if else while return this nil true false create future".split())
SYMBOLS = ["==", "!=", "<=", ">=", "&&", "||", "{", "}", "(", ")", "[", "]", ",", ";", ".",
           "=", "<", ">", "+", "-", "*", "/", "%", "!"]
OPERATORS = set("|| && == != < <= > >= + - * / % ! .".split())
LOWER = b"abcdefghijklmnopqrstuvwxyz_"
UPPER = b"ABCDEFGHIJKLMNOPQRSTUVWXYZ"
DIGITS = b"0123456789"
NAME_BYTES = LOWER + UPPER + DIGITS
ESCAPED_CONTROLS = {f"{code:02x}".encode(): code for code in [*range(32), 127] if code != 10}


@dataclass
class Token:
    kind: str  # name, class, word, number, text, symbol, end
    value: object
    at: int


def character_end(source, at):
    """The end of the UTF-8 character at `at`; the place of the first byte that cannot stand."""
    lead = source[at]
    if lead < 0x80:
        return at + 1
    if 0xC2 <= lead <= 0xDF:
        ranges = [(0x80, 0xBF)]
    elif 0xE0 <= lead <= 0xEF:
        ranges = [{0xE0: (0xA0, 0xBF), 0xED: (0x80, 0x9F)}.get(lead, (0x80, 0xBF)), (0x80, 0xBF)]
    elif 0xF0 <= lead <= 0xF4:
        ranges = [{0xF0: (0x90, 0xBF), 0xF4: (0x80, 0x8F)}.get(lead, (0x80, 0xBF))]
        ranges += [(0x80, 0xBF)] * 2
    else:
        raise syntax(at)
    for low, high in ranges:
        at += 1
        if at >= len(source) or not low <= source[at] <= high:
            raise syntax(at)
    return at + 1


def escape(source, at):
    """The character of the escape whose backslash stands before `at`, and its end."""
    if at >= len(source):
        raise syntax(at)
    simple = {ord('"'): '"', ord("\\"): "\\", ord("n"): "\n"}
    if source[at] in simple:
        return simple[source[at]], at + 1
    if source[at] != ord("x"):
        raise syntax(at)
    for count in (1, 2):
        digits = source[at + 1:at + 1 + count]
        if len(digits) < count or not any(code.startswith(digits) for code in ESCAPED_CONTROLS):
            raise syntax(at + count)
    return chr(ESCAPED_CONTROLS[digits]), at + 3


def text_token(source, start):
    pieces, at = [], start + 1
    while at < len(source):
        byte = source[at]
        if byte == ord('"'):
            return Token("text", "".join(pieces), start), at + 1
        if byte == ord("\\"):
            piece, at = escape(source, at + 1)
        elif byte < 32 or byte == 127:
            raise syntax(at)
        else:
            end = character_end(source, at)
            piece, at = source[at:end].decode("utf-8"), end
        pieces.append(piece)
    raise syntax(len(source))


def run_of(source, at, allowed):
    while at < len(source) and source[at] in allowed:
        at += 1
    return at


def word_token(source, at):
    end = run_of(source, at, NAME_BYTES)
    if end - at > MOST_NAME:
        raise syntax(at)
    name = source[at:end].decode()
    if name in WORDS:
        return Token("word", name, at), end
    return Token("class" if source[at] in UPPER else "name", name, at), end


def number_token(source, at):
    end = at + 1 if source[at] == ord("0") else run_of(source, at, DIGITS)
    value = int(source[at:end]) if end - at < 20 else 2**64
    if value > GREATEST_INT:
        raise syntax(at)
    return Token("number", value, at), end


def symbol_token(source, at):
    for symbol in SYMBOLS:
        if source.startswith(symbol.encode(), at):
            return Token("symbol", symbol, at), at + len(symbol)
    raise syntax(at + 1 if source[at] in b"&|" else at)


def tokens_of(source):
    found, at = [], 0
    while at < len(source):
        byte = source[at]
        if byte in b" \t\r\n":
            at += 1
            continue
        if source.startswith(b"//", at):
            end = source.find(b"\n", at)
            at = len(source) if end < 0 else end
            continue
        if byte in LOWER or byte in UPPER:
            token, at = word_token(source, at)
        elif byte in DIGITS:
            token, at = number_token(source, at)
        elif byte == ord('"'):
            token, at = text_token(source, at)
        else:
            token, at = symbol_token(source, at)
        found.append(token)
    return found


def check_nesting(found):
    open_ = 0
    for token in found:
        if token.kind == "symbol" and token.value in "([{":
            open_ += 1
            if open_ > MOST_OPEN:
                raise too_large("brackets", MOST_OPEN + 1)
        elif token.kind == "symbol" and token.value in ")]}":
            open_ = max(open_ - 1, 0)
    operators = 0
    for token in found:
        if token.kind == "symbol" and token.value in OPERATORS:
            operators += 1
            if operators > MOST_OPERATORS:
                raise too_large("operators", MOST_OPERATORS + 1)
        elif token.kind == "symbol" and token.value in ",;{}":
            operators = 0


# ---------------------------------------------------------------- tree

@dataclass
class Class:
    name: str
    fields: list
    methods: list


@dataclass
class Method:
    name: str
    params: list
    body: list


@dataclass
class Let:
    name: str
    value: object


@dataclass
class Assign:
    name: str
    value: object


@dataclass
class SetField:
    name: str
    value: object


@dataclass
class If:
    test: object
    yes: list
    no: object


@dataclass
class While:
    test: object
    body: list


@dataclass
class Return:
    value: object


@dataclass
class Do:
    value: object


@dataclass
class Literal:
    """Nil, Bool, Int or Text."""
    value: object


@dataclass
class This:
    pass


@dataclass
class Local:
    name: str


@dataclass
class Field:
    name: str


@dataclass
class ListOf:
    items: list


@dataclass
class Unary:
    op: str
    of: object


@dataclass
class Binary:
    op: str
    left: object
    right: object


@dataclass
class Builtin:
    name: str
    args: list


@dataclass
class Call:
    object: object
    name: str
    args: list


@dataclass
class Future:
    object: object
    delay: object
    name: str
    args: list


@dataclass
class Create:
    name: str
    options: object


# ---------------------------------------------------------------- parser

class Parser:
    def __init__(self, found, length):
        self.found = found + [Token("end", None, length)]
        self.index = 0
        self.lists = []  # [place of the list, number of its items]

    def token(self, ahead=0):
        return self.found[min(self.index + ahead, len(self.found) - 1)]

    def refuse(self):
        return syntax(self.token().at)

    def sees(self, value, ahead=0):
        """Whether this symbol or reserved word comes next."""
        token = self.token(ahead)
        return token.kind in ("symbol", "word") and token.value == value

    def sees_kind(self, kind, ahead=0):
        return self.token(ahead).kind == kind

    def accept(self, value):
        if not self.sees(value):
            return False
        self.index += 1
        return True

    def expect(self, *values):
        for value in values:
            if not self.accept(value):
                raise self.refuse()

    def expect_kind(self, kind):
        token = self.token()
        if token.kind != kind:
            raise self.refuse()
        self.index += 1
        return token.value

    def program(self):
        classes = [self.class_()]
        while not self.sees_kind("end"):
            classes.append(self.class_())
        return classes

    def class_(self):
        self.expect("class")
        name = self.expect_kind("class")
        self.expect("{")
        fields, methods = [], []
        while self.accept("field"):
            fields.append(self.expect_kind("name"))
            self.expect(";")
        while not self.accept("}"):
            methods.append(self.method())
        return Class(name, fields, methods)

    def method(self):
        name = self.expect_kind("name")
        params = self.listed("(", ")", lambda: self.expect_kind("name"), True)
        return Method(name, params, self.block())

    def listed(self, before, after, item, counted):
        record = [self.token().at, 0]
        self.expect(before)
        items = []
        if counted:
            self.lists.append(record)
        if not self.accept(after):
            items.append(item())
            while self.accept(","):
                items.append(item())
            self.expect(after)
        record[1] = len(items)
        return items

    def block(self):
        self.expect("{")
        statements = []
        while not self.accept("}"):
            statements.append(self.statement())
        return statements

    def ended(self, make, *before):
        value = self.expression()
        self.expect(";")
        return make(*before, value)

    def statement(self):
        if self.accept("let"):
            name = self.expect_kind("name")
            self.expect("=")
            return self.ended(Let, name)
        if self.sees_kind("name") and self.sees("=", 1):
            name = self.expect_kind("name")
            self.expect("=")
            return self.ended(Assign, name)
        if self.sees("this") and self.sees(".", 1) and self.sees_kind("name", 2) and self.sees("=", 3):
            self.expect("this", ".")
            name = self.expect_kind("name")
            self.expect("=")
            return self.ended(SetField, name)
        if self.accept("if"):
            test = self.bracketed()
            yes = self.block()
            return If(test, yes, self.block() if self.accept("else") else None)
        if self.accept("while"):
            test = self.bracketed()
            return While(test, self.block())
        if self.accept("return"):
            return self.ended(Return)
        return self.ended(Do)

    def bracketed(self):
        self.expect("(")
        value = self.expression()
        self.expect(")")
        return value

    def chain(self, part, operators):
        left = part()
        while any(self.sees(operator) for operator in operators):
            operator = self.token().value
            self.index += 1
            left = Binary(operator, left, part())
        return left

    def expression(self):
        return self.chain(self.and_, ["||"])

    def and_(self):
        return self.chain(self.relation, ["&&"])

    def relation(self):
        left = self.sum()
        for operator in ["==", "!=", "<", "<=", ">", ">="]:
            if self.accept(operator):
                return Binary(operator, left, self.sum())
        return left

    def sum(self):
        return self.chain(self.term, ["+", "-"])

    def term(self):
        return self.chain(self.unary, ["*", "/", "%"])

    def unary(self):
        for operator in ["-", "!"]:
            if self.accept(operator):
                return Unary(operator, self.unary())
        return self.post()

    def args(self, counted):
        return self.listed("(", ")", self.expression, counted)

    def post(self):
        value = self.primary()
        while self.accept("."):
            if self.accept("future"):
                delay = self.bracketed()
                self.expect(".")
                name = self.expect_kind("name")
                value = Future(value, delay, name, self.args(True))
            else:
                name = self.expect_kind("name")
                value = Call(value, name, self.args(True))
        return value

    def primary(self):
        token = self.token()
        if token.kind in ("number", "text"):
            self.index += 1
            return Literal(token.value)
        if token.kind == "name":
            self.index += 1
            if self.sees("("):
                return Builtin(token.value, self.args(False))
            return Local(token.value)
        for word, value in (("nil", None), ("true", True), ("false", False)):
            if self.accept(word):
                return Literal(value)
        if self.accept("this"):
            return self.after_this()
        if self.accept("create"):
            self.expect("(")
            name = self.expect_kind("class")
            self.expect(",")
            options = self.expression()
            self.expect(")")
            return Create(name, options)
        if self.sees("["):
            return ListOf(self.listed("[", "]", self.expression, False))
        if self.sees("("):
            return self.bracketed()
        raise self.refuse()

    def after_this(self):
        """`this`, or the field; a method call on `this` is left to `post`."""
        if self.sees(".") and self.sees_kind("name", 1) and not self.sees("(", 2):
            self.expect(".")
            return Field(self.expect_kind("name"))
        return This()


def parse(source):
    if len(source) > PROGRAM_BYTES:
        raise too_large("bytes", len(source))
    found = tokens_of(source)
    check_nesting(found)
    parser = Parser(found, len(source))
    classes = parser.program()
    if len(classes) > MOST_CLASSES:
        raise too_large("classes", len(classes))
    for class_ in classes:
        if len(class_.fields) > MOST_FIELDS:
            raise too_large("fields", len(class_.fields))
    for class_ in classes:
        if len(class_.methods) > MOST_METHODS:
            raise too_large("methods", len(class_.methods))
    for _, count in sorted(parser.lists):
        if count > MOST_PARAMETERS:
            raise too_large("parameters", count)
    return classes


# ---------------------------------------------------------------- canonical text

LEVELS = {"||": 0, "&&": 1, "==": 2, "!=": 2, "<": 2, "<=": 2, ">": 2, ">=": 2,
          "+": 3, "-": 3, "*": 4, "/": 4, "%": 4}
UNARY_LEVEL, POST_LEVEL, PRIMARY_LEVEL = 5, 6, 7


class Printer:
    def __init__(self):
        self.pieces = []
        self.after_word = False

    def word(self, text):
        if self.after_word:
            self.pieces.append(" ")
        self.pieces.append(text)
        self.after_word = True

    def sign(self, text):
        self.pieces.append(text)
        self.after_word = False

    def listed(self, items, show):
        for index, item in enumerate(items):
            if index > 0:
                self.sign(",")
            show(item)

    def program(self, classes):
        for class_ in classes:
            self.word("class")
            self.word(class_.name)
            self.sign("{")
            for name in class_.fields:
                self.word("field")
                self.word(name)
                self.sign(";")
            for method in class_.methods:
                self.word(method.name)
                self.sign("(")
                self.listed(method.params, self.word)
                self.sign(")")
                self.block(method.body)
            self.sign("}")
        return "".join(self.pieces)

    def block(self, statements):
        self.sign("{")
        for statement in statements:
            self.statement(statement)
        self.sign("}")

    def statement(self, s):
        if isinstance(s, If):
            self.word("if")
            self.bracketed(s.test)
            self.block(s.yes)
            if s.no is not None:
                self.word("else")
                self.block(s.no)
        elif isinstance(s, While):
            self.word("while")
            self.bracketed(s.test)
            self.block(s.body)
        else:
            self.simple(s)
            self.expression(s.value, 0)
            self.sign(";")

    def simple(self, s):
        if isinstance(s, Let):
            self.word("let")
            self.word(s.name)
            self.sign("=")
        elif isinstance(s, Assign):
            self.word(s.name)
            self.sign("=")
        elif isinstance(s, SetField):
            self.word("this")
            self.sign(".")
            self.word(s.name)
            self.sign("=")
        elif isinstance(s, Return):
            self.word("return")

    def bracketed(self, e):
        self.sign("(")
        self.expression(e, 0)
        self.sign(")")

    def args(self, args):
        self.sign("(")
        self.listed(args, lambda e: self.expression(e, 0))
        self.sign(")")

    def expression(self, e, least):
        """The part `e` where the grammar takes parts of level `least` and above."""
        if level(e) < least:
            self.bracketed(e)
        elif isinstance(e, Binary):
            own = LEVELS[e.op]
            self.expression(e.left, own + 1 if own == 2 else own)
            self.sign(e.op)
            self.expression(e.right, own + 1)
        elif isinstance(e, Unary):
            self.sign(e.op)
            self.expression(e.of, UNARY_LEVEL)
        elif isinstance(e, (Call, Future)):
            self.post(e)
        else:
            self.primary(e)

    def post(self, e):
        self.expression(e.object, POST_LEVEL)
        self.sign(".")
        if isinstance(e, Future):
            self.word("future")
            self.bracketed(e.delay)
            self.sign(".")
        self.word(e.name)
        self.args(e.args)

    def primary(self, e):
        if isinstance(e, Literal):
            if isinstance(e.value, str):
                self.sign(value_text(e.value))
            else:
                self.word(value_text(e.value))
        elif isinstance(e, This):
            self.word("this")
        elif isinstance(e, Local):
            self.word(e.name)
        elif isinstance(e, Field):
            self.word("this")
            self.sign(".")
            self.word(e.name)
        elif isinstance(e, ListOf):
            self.sign("[")
            self.listed(e.items, lambda item: self.expression(item, 0))
            self.sign("]")
        elif isinstance(e, Builtin):
            self.word(e.name)
            self.args(e.args)
        elif isinstance(e, Create):
            self.word("create")
            self.sign("(")
            self.word(e.name)
            self.sign(",")
            self.expression(e.options, 0)
            self.sign(")")


def level(e):
    if isinstance(e, Binary):
        return LEVELS[e.op]
    if isinstance(e, Unary):
        return UNARY_LEVEL
    return POST_LEVEL if isinstance(e, (Call, Future)) else PRIMARY_LEVEL


# ---------------------------------------------------------------- check

COUNTS = {"now": 0, "random": 1, "viewCount": 0, "views": 0, "sessionId": 0, "known": 1,
          "beKnown": 1, "exists": 1, "destroy": 1, "publish": 3, "subscribe": 3,
          "unsubscribe": 3, "cancel": 1, "persist": 1, "length": 1, "at": 2, "put": 3, "push": 2, "slice": 3,
          "concat": 2, "text": 1, "number": 1, "compare": 2}


def check_fault(word, name):
    return Ended(f"{word} {name}", 2)


def check_distinct(seen, name):
    if name in seen:
        raise check_fault("twice", name)
    seen.add(name)


class Checker:
    """Walks the program in the order of its text; the first fault ends the walk."""

    def __init__(self, classes):
        self.classes = {class_.name for class_ in classes}
        self.fields = set()

    def class_(self, class_):
        self.fields = set(class_.fields)
        seen = set()
        for name in class_.fields:
            check_distinct(seen, name)
        seen = set()
        for method in class_.methods:
            check_distinct(seen, method.name)
            scope = set()
            for name in method.params:
                check_distinct(scope, name)
            self.block(method.body, scope)

    def block(self, statements, outer):
        scope = set(outer)
        for s in statements:
            self.statement(s, scope)

    def statement(self, s, scope):
        if isinstance(s, Let):
            if s.name in scope:
                raise check_fault("twice", s.name)
            self.expression(s.value, scope)
            scope.add(s.name)
        elif isinstance(s, If):
            self.expression(s.test, scope)
            self.block(s.yes, scope)
            self.block(s.no or [], scope)
        elif isinstance(s, While):
            self.expression(s.test, scope)
            self.block(s.body, scope)
        else:
            if isinstance(s, Assign) and s.name not in scope:
                raise check_fault("no-name", s.name)
            if isinstance(s, SetField):
                self.field(s.name)
            self.expression(s.value, scope)

    def field(self, name):
        if name not in self.fields:
            raise check_fault("no-field", name)

    def builtin(self, e):
        if e.name not in COUNTS:
            raise check_fault("no-name", e.name)
        if len(e.args) != COUNTS[e.name]:
            raise check_fault("count", e.name)

    def expression(self, e, scope):
        if isinstance(e, Local) and e.name not in scope:
            raise check_fault("no-name", e.name)
        if isinstance(e, Field):
            self.field(e.name)
        if isinstance(e, Builtin):
            self.builtin(e)
        if isinstance(e, Create) and e.name not in self.classes:
            raise check_fault("no-class", e.name)
        for part in parts_of(e):
            self.expression(part, scope)


def parts_of(e):
    if isinstance(e, ListOf):
        return e.items
    if isinstance(e, Unary):
        return [e.of]
    if isinstance(e, Binary):
        return [e.left, e.right]
    if isinstance(e, Builtin):
        return e.args
    if isinstance(e, Call):
        return [e.object, *e.args]
    if isinstance(e, Future):
        return [e.object, e.delay, *e.args]
    return [e.options] if isinstance(e, Create) else []


class Program:
    """A checked program."""

    def __init__(self, classes):
        checker, seen = Checker(classes), set()
        for class_ in classes:
            check_distinct(seen, class_.name)
            checker.class_(class_)
        if "Root" not in seen:
            raise Ended("no-root", 2)
        self.classes = classes
        self.numbers = {class_.name: number for number, class_ in enumerate(classes)}
        self.methods = [{m.name: m for m in class_.methods} for class_ in classes]
        self.slots = [{name: k for k, name in enumerate(class_.fields)} for class_ in classes]


def read_program(source):
    """What the commands do with the file of a program."""
    if len(source) > PROGRAM_BYTES:
        raise Ended("input program", 3)
    return Program(parse(source))


# ---------------------------------------------------------------- values
# Nil is None, Bool bool, Int int, Text str; Refs and Lists have types of their own.

@dataclass(frozen=True)
class Ref:
    id: int


class List:
    __slots__ = ("items", "weight", "depth")

    def __init__(self, items):
        self.items = items
        self.weight = 1 + sum(weight(item) for item in items)
        self.depth = 1 + max((depth(item) for item in items), default=0)


def is_int(v):
    return type(v) is int


def is_bool(v):
    return type(v) is bool


def is_text(v):
    return type(v) is str


def weight(v):
    if type(v) is str:
        return 1 + (len(v.encode("utf-8")) + 15) // 16
    return v.weight if type(v) is List else 1


def depth(v):
    return v.depth if type(v) is List else 0


def in_bounds(v):
    return weight(v) <= MOST_WEIGHT and depth(v) <= MOST_LIST_DEPTH


def holds_ref(v):
    return any(holds_ref(item) for item in v.items) if type(v) is List else type(v) is Ref


def saved_weight(v):
    """What a saved value weighs in its world."""
    return 0 if v is None else weight(v)


def same(a, b):
    if type(a) is not type(b):
        return False
    if type(a) is List:
        return len(a.items) == len(b.items) and all(same(x, y) for x, y in zip(a.items, b.items))
    return a == b


def value_text(v):
    if v is None:
        return "nil"
    if is_bool(v):
        return "true" if v else "false"
    if is_int(v):
        return str(v)
    if type(v) is Ref:
        return f"#{v.id}"
    if type(v) is List:
        return "[" + ",".join(value_text(item) for item in v.items) + "]"
    return '"' + "".join(character_text(c) for c in v) + '"'


def character_text(c):
    if c in '"\\':
        return "\\" + c
    if c == "\n":
        return "\\n"
    return f"\\x{ord(c):02x}" if ord(c) < 32 or ord(c) == 127 else c


def number(value, size):
    return value.to_bytes(size, "big")


def text_field(text):
    spelled = text.encode("utf-8")
    return number(len(spelled), 4) + spelled


def encode(v):
    if v is None:
        return b"\x00"
    if is_bool(v):
        return b"\x02" if v else b"\x01"
    if is_int(v):
        return b"\x03" + v.to_bytes(8, "big", signed=True)
    if is_text(v):
        return b"\x04" + text_field(v)
    if type(v) is Ref:
        return b"\x05" + number(v.id, 4)
    return b"\x06" + number(len(v.items), 4) + b"".join(encode(item) for item in v.items)


class Reader:
    def __init__(self, source):
        self.source = source
        self.at = 0

    def bytes(self, count):
        if count > len(self.source) - self.at:
            raise Bad()
        self.at += count
        return self.source[self.at - count:self.at]

    def number(self, size):
        return int.from_bytes(self.bytes(size), "big")

    def text(self):
        try:
            return self.bytes(self.number(4)).decode("utf-8")
        except UnicodeDecodeError:
            raise Bad() from None

    def value(self, deep=0):
        tag = self.number(1)
        if tag <= 2:
            return [None, False, True][tag]
        if tag == 3:
            return int.from_bytes(self.bytes(8), "big", signed=True)
        if tag == 4:
            return self.text()
        if tag == 5:
            return Ref(self.number(4))
        if tag != 6 or deep >= MOST_LIST_DEPTH:
            raise Bad()
        count = self.number(4)
        if count > len(self.source) - self.at:
            raise Bad()
        return List([self.value(deep + 1) for _ in range(count)])

    def value_in_bounds(self):
        v = self.value()
        if not in_bounds(v):
            raise Bad()
        return v

    def end(self):
        if self.at != len(self.source):
            raise Bad()


def decode(source):
    reader = Reader(source)
    v = reader.value_in_bounds()
    reader.end()
    return v


# ---------------------------------------------------------------- values as JSON

BLANKS = re.compile(r"[ \t\n\r]*")
JSON_WORDS = {"null": None, "true": True, "false": False}
JSON_WORD = re.compile("null|true|false")
JSON_INT = re.compile(r"-?(?:0|[1-9][0-9]*)(?![0-9.eE])", re.ASCII)
JSON_PART = re.compile(r'[^"\\\x00-\x1f]+|\\["\\/bfnrt]|\\u[0-9a-fA-F]{4}', re.ASCII)
HALVES = re.compile("[\ud800-\udbff][\udc00-\udfff]")
JSON_ESCAPES = dict(zip('"\\/bfnrt', '"\\/\b\f\n\r\t'))


class JsonReader:
    """The JSON texts that are values: no object, and no number but an Int, as it is written in decimal."""

    def __init__(self, text):
        self.text = text
        self.at = 0

    def match(self, pattern):
        found = pattern.match(self.text, self.at)
        self.at = found.end() if found else self.at
        return found

    def sees(self, sign):
        """Whether this is the next character; it is taken then."""
        if not self.text.startswith(sign, self.at):
            return False
        self.at += len(sign)
        return True

    def value(self, deep=0):
        self.match(BLANKS)
        v = self.part(deep)
        self.match(BLANKS)
        return v

    def part(self, deep):
        if found := self.match(JSON_WORD):
            return JSON_WORDS[found.group()]
        if found := self.match(JSON_INT):
            v = int(found.group()) if len(found.group()) <= 20 else 2**63
            need(found.group() != "-0" and LEAST_INT <= v <= GREATEST_INT)
            return v
        if self.sees('"'):
            return self.characters()
        need(self.sees("[") and deep < MOST_LIST_DEPTH)
        return self.items(deep + 1)

    def items(self, deep):
        self.match(BLANKS)
        if self.sees("]"):
            return List([])
        items = [self.value(deep)]
        while self.sees(","):
            items.append(self.value(deep))
        need(self.sees("]"))
        return List(items)

    def characters(self):
        units = []
        while not self.sees('"'):
            found = self.match(JSON_PART)
            need(found)
            part = found.group()
            if part.startswith("\\u"):
                units.append(chr(int(part[2:], 16)))
            else:
                units.append(JSON_ESCAPES[part[1]] if part.startswith("\\") else part)
        return self.paired("".join(units))

    @staticmethod
    def paired(text):
        """The text whose halves of a character are put together."""
        def one(pair):
            high, low = map(ord, pair.group())
            return chr(0x10000 + (high - 0xD800) * 0x400 + low - 0xDC00)

        whole = HALVES.sub(one, text)
        need(not any(0xD800 <= ord(c) < 0xE000 for c in whole))
        return whole


def from_json(source):
    """The value of a JSON text."""
    try:
        reader = JsonReader(source.decode("utf-8"))
    except UnicodeDecodeError:
        raise Bad() from None
    v = reader.value()
    need(reader.at == len(reader.text) and in_bounds(v))
    return v


def to_json(v):
    """The compact JSON text of a value without a Ref."""
    def plain(v):
        return [plain(item) for item in v.items] if type(v) is List else v

    return json.dumps(plain(v), ensure_ascii=False, separators=(",", ":")).encode()


def read_persisted(source):
    """What the commands do with the file of a persisted value."""
    if len(source) > MOST_JSON:
        raise Ended("input persisted", 3)
    try:
        return from_json(source)
    except Bad:
        raise Ended("input persisted", 3) from None


def payload(scope, event, value):
    return text_field(scope) + text_field(event) + encode(value)


def read_payload(source):
    reader = Reader(source)
    scope, event, value = reader.text(), reader.text(), reader.value_in_bounds()
    reader.end()
    return scope, event, value


# ---------------------------------------------------------------- the world's state

@dataclass
class Object:
    class_: int
    fields: list


@dataclass
class Message:
    time: int
    number: int
    object: int
    method: str
    args: list

    def weight(self):
        return 3 + weight(self.method) + sum(weight(v) for v in self.args)


def subscription_weight(scope, event, method):
    return 2 + weight(scope) + weight(event) + weight(method)


class World:
    def __init__(self, program, session_id):
        self.program = program
        self.id = session_id
        self.time = 0
        self.next_object = 1
        self.next_number = 0
        self.random = int.from_bytes(session_id[:8], "little")
        self.turns = 0
        self.faults = [0] * 14
        self.views = set()
        self.objects = {}
        self.known = {}
        self.subscriptions = {}  # (scope, event, object, method), in order
        self.topics = {}  # (scope, event) to (object, method), in order
        self.pending = {}  # by number
        self.queue = []  # heap of (time, number); some may be pending no more
        self.saved = None
        self.weight = 0
        self.published = []

    # -- what messages change

    def fits(self, more):
        return self.weight + more <= MOST_WORLD_WEIGHT

    def persist(self, v):
        more = saved_weight(v) - saved_weight(self.saved)
        if not self.fits(more):
            raise Fault("Full")
        self.saved = v
        self.weight += more

    def add_object(self, class_):
        fields = len(self.program.classes[class_].fields)
        if len(self.objects) >= MOST_OBJECTS or self.next_object >= 2**32 - 1:
            raise Fault("Full")
        if not self.fits(2 + fields):
            raise Fault("Full")
        id_ = self.next_object
        self.next_object += 1
        self.objects[id_] = Object(class_, [None] * fields)
        self.weight += 2 + fields
        return id_

    def set_field(self, id_, slot, v):
        fields = self.objects[id_].fields
        more = weight(v) - weight(fields[slot])
        if not self.fits(more):
            raise Fault("Full")
        fields[slot] = v
        self.weight += more

    def be_known(self, name, id_):
        if name not in self.known:
            if not self.fits(1 + weight(name)):
                raise Fault("Full")
            self.weight += 1 + weight(name)
        self.known[name] = id_

    def put_subscription(self, scope, event, id_, method):
        self.subscriptions[(scope, event, id_, method)] = True
        self.topics.setdefault((scope, event), {})[(id_, method)] = True
        self.weight += subscription_weight(scope, event, method)

    def subscribe(self, scope, event, id_, method):
        if (scope, event, id_, method) in self.subscriptions:
            return
        if len(self.subscriptions) >= MOST_SUBSCRIPTIONS:
            raise Fault("Full")
        if not self.fits(subscription_weight(scope, event, method)):
            raise Fault("Full")
        self.put_subscription(scope, event, id_, method)

    def unsubscribe(self, scope, event, id_, method):
        if self.subscriptions.pop((scope, event, id_, method), False):
            del self.topics[(scope, event)][(id_, method)]
            self.weight -= subscription_weight(scope, event, method)

    def put_message(self, message):
        self.pending[message.number] = message
        heapq.heappush(self.queue, (message.time, message.number))
        self.weight += message.weight()

    def schedule(self, id_, delay, method, args):
        if id_ not in self.objects:
            raise Fault("NoObject")
        time = self.time + 1000 * delay
        if delay < 0 or time >= TIME_LIMIT:
            raise Fault("Time")
        if delay == 0 and self.turns == MOST_TURNS:
            raise Fault("Instant")
        if len(self.pending) >= MOST_PENDING or self.next_number >= 2**64 - 1:
            raise Fault("Full")
        message = Message(time, self.next_number, id_, method, args)
        if not self.fits(message.weight()):
            raise Fault("Full")
        self.put_message(message)
        self.next_number += 1

    def remove_messages(self, numbers):
        for number_ in numbers:
            self.weight -= self.pending.pop(number_).weight()
        return len(numbers)

    def cancel(self, id_, method):
        return self.remove_messages(
            [n for n, m in self.pending.items() if m.object == id_ and m.method == method])

    def destroy(self, id_):
        if id_ not in self.objects:
            raise Fault("NoObject")
        for key in [key for key in self.subscriptions if key[2] == id_]:
            self.unsubscribe(*key)
        self.remove_messages([n for n, m in self.pending.items() if m.object == id_])
        for name in [name for name, known in self.known.items() if known == id_]:
            del self.known[name]
            self.weight -= 1 + weight(name)
        gone = self.objects.pop(id_)
        self.weight -= 2 + sum(weight(v) for v in gone.fields)

    def below(self, n):
        """One SplitMix64 word, scaled."""
        mask = 2**64 - 1
        self.random = (self.random + 0x9E3779B97F4A7C15) & mask
        word = self.random
        word = ((word ^ (word >> 30)) * 0xBF58476D1CE4E5B9) & mask
        word = ((word ^ (word >> 27)) * 0x94D049BB133111EB) & mask
        word ^= word >> 31
        return (word * n) >> 64

    # -- messages

    def message(self, work):
        """One message: `work` with a fresh budget. A fault is counted, and its name is given."""
        self.turns = min(self.turns + 1, MOST_TURNS)
        try:
            work(Evaluation(self))
        except Fault as fault:
            self.count(fault.name)
            return fault.name
        return None

    def count(self, name):
        place = FAULTS.index(name)
        self.faults[place] = min(self.faults[place] + 1, 2**64 - 1)

    @staticmethod
    def first(program, session_id, persisted=None):
        world = World(program, session_id)
        world.persist(persisted)

        def make_root(evaluation):
            root = program.numbers["Root"]
            id_ = world.add_object(root)
            world.be_known("modelRoot", id_)
            init = program.methods[root].get("init")
            if init is not None:
                takes_two = len(init.params) == 2
                evaluation.start(id_, "init", [None, persisted] if takes_two else [None])

        world.message(make_root)
        return world

    def take_least(self, most):
        """The least pending message with a time of at most `most`, taken out."""
        while self.queue and self.queue[0][0] <= most:
            _, number_ = heapq.heappop(self.queue)
            if number_ in self.pending:
                message = self.pending.pop(number_)
                self.weight -= message.weight()
                return message
        return None

    def move_to(self, time):
        if time > self.time:
            self.time = time
            self.turns = 0

    def advance(self, time):
        while (m := self.take_least(time)) is not None:
            self.move_to(m.time)
            self.message(lambda evaluation: evaluation.start(m.object, m.method, m.args))
        self.move_to(time)

    def external(self, entry):
        self.advance(entry.time)
        self.message(lambda evaluation: self.enter(entry, evaluation))

    def enter(self, entry, evaluation):
        scope = self.id.hex()
        if entry.kind == "join":
            if entry.view == 0 or entry.view in self.views:
                return
            if len(self.views) >= MOST_VIEWS:
                raise Fault("Full")
            self.views.add(entry.view)
            evaluation.call_handlers(scope, "view-join", entry.view, entry.view)
        elif entry.kind == "exit":
            if entry.view not in self.views:
                return
            self.views.remove(entry.view)
            evaluation.call_handlers(scope, "view-exit", entry.view, entry.view)
        else:
            try:
                event = read_payload(entry.payload)
            except Bad:
                raise Fault("BadEvent") from None
            evaluation.call_handlers(*event, entry.view)

    # -- readings

    def pending_in_order(self):
        return sorted(self.pending.values(), key=lambda m: (m.time, m.number))

    def whole_weight(self):
        """The weight of the world, summed anew."""
        total = sum(2 + sum(weight(v) for v in o.fields) for o in self.objects.values())
        total += sum(m.weight() for m in self.pending.values())
        total += sum(subscription_weight(s, e, m) for s, e, _, m in self.subscriptions)
        total += sum(1 + weight(name) for name in self.known)
        return total + saved_weight(self.saved)

    def snapshot(self):
        assert self.weight == self.whole_weight()
        out = [self.id, number(self.time, 8), number(self.next_object, 4),
               number(self.next_number, 8), number(self.random, 8), number(self.turns, 4)]
        out += [number(count, 8) for count in self.faults]
        out.append(number(len(self.views), 4))
        out += [number(view, 4) for view in sorted(self.views)]
        out.append(number(len(self.objects), 4))
        for id_, o in sorted(self.objects.items()):
            out += [number(id_, 4), number(o.class_, 2)] + [encode(v) for v in o.fields]
        out.append(number(len(self.known), 4))
        for name, id_ in sorted(self.known.items()):
            out += [text_field(name), number(id_, 4)]
        out.append(number(len(self.subscriptions), 4))
        for scope, event, id_, method in self.subscriptions:
            out += [text_field(scope), text_field(event), number(id_, 4), text_field(method)]
        out.append(number(len(self.pending), 4))
        for m in self.pending_in_order():
            out += [number(m.time, 8), number(m.number, 8), number(m.object, 4),
                    text_field(m.method), number(len(m.args), 1)] + [encode(v) for v in m.args]
        if self.saved is not None:
            out.append(encode(self.saved))
        return b"".join(out)


# ---------------------------------------------------------------- reading a snapshot

def need(condition):
    if not condition:
        raise Bad()


def rising(keys):
    return all(a < b for a, b in zip(keys, keys[1:]))


def read_snapshot(program, session_id, source):
    """The valid world that the bytes spell."""
    if len(source) > MOST_SNAPSHOT:
        raise Bad()
    reader = Reader(source)
    need(reader.bytes(32) == session_id)
    world = World(program, session_id)
    read_numbers(world, reader)
    read_objects(world, reader)
    read_known(world, reader)
    for _ in range(reader.number(4)):
        scope, event = reader.text(), reader.text()
        id_, method = reader.number(4), reader.text()
        need((scope, event, id_, method) not in world.subscriptions and id_ in world.objects)
        need(all(weight(t) <= MOST_WEIGHT for t in (scope, event, method)))
        world.put_subscription(scope, event, id_, method)
    read_pending(world, reader)
    read_saved(world, reader)
    reader.end()
    need(len(world.subscriptions) <= MOST_SUBSCRIPTIONS and world.weight <= MOST_WORLD_WEIGHT)
    return world


def read_numbers(world, reader):
    world.time, world.next_object = reader.number(8), reader.number(4)
    world.next_number, world.random = reader.number(8), reader.number(8)
    world.turns = reader.number(4)
    world.faults = [reader.number(8) for _ in range(14)]
    need(world.time < TIME_LIMIT and world.next_object >= 1 and world.turns <= MOST_TURNS)
    count = reader.number(4)
    need(count <= MOST_VIEWS)
    views = [reader.number(4) for _ in range(count)]
    need(rising(views) and 0 not in views)
    world.views = set(views)


def read_objects(world, reader):
    count = reader.number(4)
    need(count <= MOST_OBJECTS)
    for _ in range(count):
        id_, class_ = reader.number(4), reader.number(2)
        need(max(world.objects, default=0) < id_ < world.next_object)
        need(class_ < len(world.program.classes))
        fields = [reader.value_in_bounds() for _ in world.program.classes[class_].fields]
        world.objects[id_] = Object(class_, fields)
        world.weight += 2 + sum(weight(v) for v in fields)


def read_known(world, reader):
    names = []
    for _ in range(reader.number(4)):
        name, id_ = reader.text(), reader.number(4)
        need(id_ in world.objects and weight(name) <= MOST_WEIGHT)
        names.append(name)
        world.known[name] = id_
        world.weight += 1 + weight(name)
    need(rising(names))


def read_pending(world, reader):
    count, order = reader.number(4), []
    need(count <= MOST_PENDING)
    for _ in range(count):
        m = Message(reader.number(8), reader.number(8), reader.number(4), reader.text(), [])
        args = reader.number(1)
        need(args <= MOST_PARAMETERS)
        m.args = [reader.value_in_bounds() for _ in range(args)]
        need(world.time <= m.time < TIME_LIMIT and m.number < world.next_number)
        need(m.number not in world.pending and m.object in world.objects)
        need(weight(m.method) <= MOST_WEIGHT)
        order.append((m.time, m.number))
        world.put_message(m)
    need(rising(order))


def read_saved(world, reader):
    """A nil saved value is spelled by nothing."""
    if reader.at < len(reader.source):
        v = reader.value_in_bounds()
        need(v is not None and not holds_ref(v))
        world.saved = v
        world.weight += saved_weight(v)


# ---------------------------------------------------------------- evaluation

@dataclass
class Frame:
    me: int
    locals: dict


class Returned:
    def __init__(self, value):
        self.value = value


def want(condition, fault="BadKind"):
    if not condition:
        raise Fault(fault)


class Evaluation:
    """One message: its budget over a world."""

    def __init__(self, world):
        self.world = world
        self.fuel = FUEL
        self.open = 0

    def spend(self, steps):
        if steps > self.fuel:
            raise Fault("Fuel")
        self.fuel -= steps

    def enter(self):
        self.spend(1)
        if self.open == MOST_DEPTH:
            raise Fault("Depth")
        self.open += 1

    def start(self, id_, name, args):
        """Starts a method and gives its value."""
        o = self.world.objects.get(id_)
        want(o is not None, "NoObject")
        method = self.world.program.methods[o.class_].get(name)
        want(method is not None, "NoMethod")
        want(len(method.params) == len(args), "Arity")
        done = self.block(method.body, Frame(id_, dict(zip(method.params, args))))
        return None if done is None else done.value

    def call_handlers(self, scope, event, value, sender):
        """A handler with two parameters has the sender as its second one."""
        for id_, method in list(self.world.topics.get((scope, event), ())):
            if id_ in self.world.objects:
                self.spend(1)
                found = self.world.program.methods[self.world.objects[id_].class_].get(method)
                takes_two = found is not None and len(found.params) == 2
                self.start(id_, method, [value, sender] if takes_two else [value])

    def block(self, statements, frame):
        for s in statements:
            self.enter()
            done = self.statement(s, frame)
            self.open -= 1
            if done is not None:
                return done
        return None

    def statement(self, s, frame):
        kind = type(s)
        if kind is If:
            if self.test(s.test, frame):
                return self.block(s.yes, frame)
            return self.block(s.no or [], frame)
        if kind is While:
            while self.test(s.test, frame):
                done = self.block(s.body, frame)
                if done is not None:
                    return done
            return None
        v = self.value(s.value, frame)
        if kind is Return:
            return Returned(v)
        if kind is SetField:
            self.world.set_field(frame.me, self.slot(s.name, frame), v)
        elif kind is not Do:
            frame.locals[s.name] = v
        return None

    def test(self, e, frame):
        v = self.value(e, frame)
        want(is_bool(v))
        return v

    def slot(self, name, frame):
        o = self.world.objects.get(frame.me)
        want(o is not None, "NoObject")
        return self.world.program.slots[o.class_][name]

    def value(self, e, frame):
        self.enter()
        v = EVALUATE[type(e)](self, e, frame)
        self.open -= 1
        return v

    def values(self, parts, frame):
        return [self.value(part, frame) for part in parts]

    def sized(self, v):
        want(in_bounds(v), "Size")
        return v

    def weighed(self, v):
        """The result of a form that takes its weight in fuel."""
        self.spend(weight(self.sized(v)))
        return v

    # -- the forms

    def literal(self, e, frame):
        return self.sized(e.value)

    def this(self, e, frame):
        return Ref(frame.me)

    def local(self, e, frame):
        return frame.locals[e.name]

    def field(self, e, frame):
        slot = self.slot(e.name, frame)
        return self.world.objects[frame.me].fields[slot]

    def list_of(self, e, frame):
        return self.weighed(List(self.values(e.items, frame)))

    def unary(self, e, frame):
        v = self.value(e.of, frame)
        if e.op == "!":
            want(is_bool(v))
            return not v
        want(is_int(v))
        want(v != LEAST_INT, "Overflow")
        return -v

    def binary(self, e, frame):
        if e.op in ("||", "&&"):
            left = self.test(e.left, frame)
            if left == (e.op == "||"):
                return left
            return self.test(e.right, frame)
        left, right = self.value(e.left, frame), self.value(e.right, frame)
        if e.op in ("==", "!="):
            return same(left, right) == (e.op == "==")
        want(is_int(left) and is_int(right))
        if e.op in COMPARE:
            return COMPARE[e.op](left, right)
        return arithmetic(e.op, left, right)

    def call(self, e, frame):
        o = self.value(e.object, frame)
        args = self.values(e.args, frame)
        want(type(o) is Ref)
        return self.start(o.id, e.name, args)

    def future(self, e, frame):
        o, delay = self.value(e.object, frame), self.value(e.delay, frame)
        args = self.values(e.args, frame)
        want(type(o) is Ref and is_int(delay))
        self.world.schedule(o.id, delay, e.name, args)

    def create(self, e, frame):
        options = self.value(e.options, frame)
        class_ = self.world.program.numbers[e.name]
        id_ = self.world.add_object(class_)
        if "init" in self.world.program.methods[class_]:
            self.start(id_, "init", [options])
        return Ref(id_)

    def builtin(self, e, frame):
        args = self.values(e.args, frame)
        if e.name in PURE:
            v = PURE[e.name](*args)
        else:
            v = ACTIONS[e.name](self, frame, *args)
        return self.weighed(v) if e.name in WEIGHED else v

    def here(self, frame):
        """This object, which must be held."""
        want(frame.me in self.world.objects, "NoObject")
        return frame.me

    # -- the builtins that see the world

    def random(self, frame, n):
        want(is_int(n))
        want(n >= 1, "BadIndex")
        return self.world.below(n)

    def known(self, frame, name):
        want(is_text(name))
        id_ = self.world.known.get(name)
        return None if id_ is None else Ref(id_)

    def be_known(self, frame, name):
        want(is_text(name))
        self.world.be_known(name, self.here(frame))

    def exists(self, frame, ref):
        want(type(ref) is Ref)
        return ref.id in self.world.objects

    def destroy(self, frame, ref):
        want(type(ref) is Ref)
        self.world.destroy(ref.id)

    def publish(self, frame, scope, event, v):
        want(is_text(scope) and is_text(event))
        self.world.published.append((self.world.time, scope, event, v))
        self.call_handlers(scope, event, v, None)

    def persist(self, frame, v):
        want(not holds_ref(v))
        self.world.persist(v)

    def subscribe(self, frame, scope, event, method):
        want(is_text(scope) and is_text(event) and is_text(method))
        self.world.subscribe(scope, event, self.here(frame), method)

    def unsubscribe(self, frame, scope, event, method):
        want(is_text(scope) and is_text(event) and is_text(method))
        self.world.unsubscribe(scope, event, self.here(frame), method)

    def cancel(self, frame, method):
        want(is_text(method))
        return self.world.cancel(self.here(frame), method)


COMPARE = {"<": lambda a, b: a < b, "<=": lambda a, b: a <= b,
           ">": lambda a, b: a > b, ">=": lambda a, b: a >= b}


def arithmetic(op, left, right):
    if op in "/%":
        want(right != 0, "ZeroDivisor")
        want((left, right) != (LEAST_INT, -1), "Overflow")
        quotient = abs(left) // abs(right)
        if (left < 0) != (right < 0):
            quotient = -quotient
        return quotient if op == "/" else left - quotient * right
    v = {"+": left + right, "-": left - right, "*": left * right}[op]
    want(LEAST_INT <= v <= GREATEST_INT, "Overflow")
    return v


def sequence(x):
    """The characters or items."""
    want(is_text(x) or type(x) is List)
    return x if is_text(x) else x.items


def like(x, part):
    return part if is_text(x) else List(part)


def at_(x, i):
    part = sequence(x)
    want(is_int(i))
    want(0 <= i < len(part), "BadIndex")
    return part[i]


def put(x, i, v):
    want(type(x) is List and is_int(i))
    want(0 <= i < len(x.items), "BadIndex")
    return List(x.items[:i] + [v] + x.items[i + 1:])


def push(x, v):
    want(type(x) is List)
    return List(x.items + [v])


def slice_(x, i, j):
    part = sequence(x)
    want(is_int(i) and is_int(j))
    want(0 <= i <= j <= len(part), "BadIndex")
    return like(x, part[i:j])


def concat(x, y):
    want(type(x) is type(y))
    return like(x, sequence(x) + sequence(y))


def text_of(v):
    want(v is None or type(v) in (bool, int, str))
    return v if is_text(v) else value_text(v)


def number_of(t):
    want(is_text(t))
    if not re.fullmatch(r"0|-?[1-9][0-9]*", t, re.ASCII) or len(t) > 20:
        return None
    v = int(t)
    return v if LEAST_INT <= v <= GREATEST_INT else None


def compare(a, b):
    want(type(a) is type(b) and (is_int(a) or is_text(a)))
    return (a > b) - (a < b)


PURE = {"length": lambda x: len(sequence(x)), "at": at_, "put": put, "push": push,
        "slice": slice_, "concat": concat, "text": text_of, "number": number_of,
        "compare": compare}
WEIGHED = {"put", "push", "slice", "concat", "text", "views"}
ACTIONS = {
    "now": lambda evaluation, frame: evaluation.world.time // 1000,
    "viewCount": lambda evaluation, frame: len(evaluation.world.views),
    "views": lambda evaluation, frame: List(sorted(evaluation.world.views)),
    "sessionId": lambda evaluation, frame: evaluation.world.id.hex(),
    "random": Evaluation.random, "known": Evaluation.known, "beKnown": Evaluation.be_known,
    "exists": Evaluation.exists, "destroy": Evaluation.destroy, "publish": Evaluation.publish,
    "subscribe": Evaluation.subscribe, "unsubscribe": Evaluation.unsubscribe,
    "cancel": Evaluation.cancel, "persist": Evaluation.persist}
EVALUATE = {Literal: Evaluation.literal, This: Evaluation.this, Local: Evaluation.local,
            Field: Evaluation.field, ListOf: Evaluation.list_of, Unary: Evaluation.unary,
            Binary: Evaluation.binary, Call: Evaluation.call, Future: Evaluation.future,
            Create: Evaluation.create, Builtin: Evaluation.builtin}


# ---------------------------------------------------------------- session

@dataclass
class Entry:
    seq: int
    time: int
    view: int
    kind: str  # join, exit, event
    number: int = 0
    payload: bytes = b""


@dataclass
class ViewState:
    current: int = 0
    here: bool = False
    events: list = field(default_factory=list)


class Refusal(Exception):
    def __init__(self, words):
        super().__init__(words)
        self.words = words


class Session:
    def __init__(self):
        self.log = []
        self.horizon = 0
        self.kept = None  # (time, bytes)
        self.views = {}
        self.here = 0
        self.payloads = 0

    def view(self, view):
        return self.views.get(view, ViewState())

    def stamp(self, now, view, kind, number_=0, payload_=b""):
        return self.append(max(min(now, END), self.horizon + 1), view, kind, number_, payload_)

    def append(self, time, view, kind, number_, payload_):
        self.horizon = time
        entry = Entry(len(self.log) + 1, self.horizon, view, kind, number_, payload_)
        self.log.append(entry)
        self.payloads += len(payload_)
        state = self.views.setdefault(view, ViewState())
        if kind == "event":
            state.events.append(entry)
        else:
            self.here += (kind == "join") - state.here
            state.current, state.here = entry.seq, kind == "join"
        return entry

    def count_until(self, time):
        return sum(entry.time <= time for entry in self.log)

    def refuse_stale(self, view, joined):
        state = self.view(view)
        if state.current != joined or not state.here:
            raise Refusal(f"stale {state.current}")

    def refuse_full(self, more):
        if len(self.log) >= MOST_ENTRIES or self.payloads + more > MOST_LOG_BYTES:
            raise Refusal(f"log-full {len(self.log)} {self.payloads}")

    def refuse_end(self):
        if self.horizon >= END:
            raise Refusal(f"time-end {self.horizon}")

    def join(self, view, now, wanted, after):
        if view == 0:
            raise Refusal("bad-view")
        if wanted == "after" and after > self.horizon:
            raise Refusal(f"ahead {self.horizon}")
        if not self.view(view).here and self.here >= MOST_VIEWS:
            raise Refusal(f"views-full {self.here}")
        self.refuse_full(0)
        self.refuse_end()
        from_, base = 0, ""
        if wanted == "after":
            from_ = self.count_until(after)
        elif wanted == "fresh" and self.kept is not None:
            from_, base = self.count_until(self.kept[0]), f" base {self.kept[0]}"
        entry = self.stamp(now, view, "join")
        return f"joined {entry.seq} {entry.time} {len(self.view(view).events)} {from_}{base}"

    def send(self, view, joined, number_, now, payload_):
        self.refuse_stale(view, joined)
        if len(payload_) > MOST_PAYLOAD:
            raise Refusal(f"too-long {len(payload_)}")
        events = self.view(view).events
        if number_ == 0:
            raise Refusal(f"gap {len(events) + 1}")
        if number_ <= len(events):
            entry = events[number_ - 1]
            if entry.payload != payload_:
                raise Refusal(f"differs {entry.seq}")
            return f"again {entry.seq} {entry.time}"
        if number_ > len(events) + 1:
            raise Refusal(f"gap {len(events) + 1}")
        self.refuse_full(len(payload_))
        self.refuse_end()
        entry = self.stamp(now, view, "event", number_, payload_)
        return f"stamped {entry.seq} {entry.time}"

    def tick(self, now):
        self.horizon = max(self.horizon, min(now, END))
        return f"ticked {self.horizon}"

    def leave(self, view, joined, now):
        self.refuse_stale(view, joined)
        entry = self.stamp(now, view, "exit")
        return f"left {entry.seq} {entry.time}"

    def offer(self, view, joined, time, bytes_):
        self.refuse_stale(view, joined)
        if len(bytes_) > MOST_SNAPSHOT:
            raise Refusal(f"too-long {len(bytes_)}")
        if time > self.horizon:
            raise Refusal(f"ahead {self.horizon}")
        if self.kept is not None and self.kept[0] >= time:
            raise Refusal(f"older {self.kept[0]}")
        self.kept = (time, bytes_)
        return "kept"

    def pull(self, after, limit):
        if after > len(self.log):
            raise Refusal(f"no-such-seq {len(self.log)}")
        count = min(limit, len(self.log) - after)
        if after + count == len(self.log):
            return f"batch {count} tick {self.horizon}"
        return f"batch {count} more"

    def next_here(self, above):
        """The least view above this number that is here, with its current; None where there is none."""
        here = [view for view, state in self.views.items() if state.here and view > above]
        return (min(here), self.views[min(here)].current) if here else None

    def put_out_all(self, now):
        """A Leave of each view that is here, in rising order."""
        found = self.next_here(0)
        while found is not None:
            self.leave(*found, now())
            found = self.next_here(found[0])

    def reply(self, request):
        name, *words = request
        try:
            return getattr(self, name)(*words)
        except Refusal as refusal:
            return f"refused {refusal.words}"

    def last_time(self):
        return self.log[-1].time if self.log else 0

    def encoded(self):
        """The bytes of the stored session."""
        if self.kept is None and self.horizon == self.last_time():
            return b"TEALOG01" + self.encoded_log()
        kept = b"\0" if self.kept is None else b"\1" + number(self.kept[0], 8) + bytes_field(self.kept[1])
        return b"TEALOG02" + number(self.horizon, 8) + kept + self.encoded_log()

    def encoded_log(self):
        out = [number(len(self.log), 4)]
        kinds = {"join": 1, "exit": 2, "event": 3}
        for entry in self.log:
            out += [number(entry.time, 8), number(entry.view, 4), number(kinds[entry.kind], 1)]
            if entry.kind == "event":
                out += [number(entry.number, 4), number(len(entry.payload), 4), entry.payload]
        return b"".join(out)


# ---------------------------------------------------------------- reading a stored session

MOST_OPEN_ENTRIES = 2**20
MOST_ALL_ENTRIES = MOST_OPEN_ENTRIES + MOST_VIEWS


def read_stored(source):
    """The session that the bytes spell."""
    reader, session = Reader(source), Session()
    mark = reader.bytes(8)
    need(mark in (b"TEALOG01", b"TEALOG02"))
    horizon, kept = read_state(reader) if mark == b"TEALOG02" else (None, None)
    count = reader.number(4)
    need(count <= MOST_ALL_ENTRIES)
    for _ in range(count):
        append_read(session, reader)
    reader.end()
    if mark == b"TEALOG02":
        need(has_state(session.horizon, horizon, kept))
        session.horizon, session.kept = horizon, kept
    need(each_can_leave(session) and keeps_no_later_time(session))
    return session


def has_state(last, horizon, kept):
    """Whether a horizon and what is kept are more than the log says by its last time."""
    return horizon > last or horizon == last and kept is not None


def each_can_leave(session):
    return session.horizon + session.here < TIME_LIMIT


def keeps_no_later_time(session):
    return session.kept is None or session.kept[0] <= session.horizon


def read_state(reader):
    """A horizon, and what is kept: a time and bytes, or nothing."""
    horizon, flag = reader.number(8), reader.number(1)
    need(flag <= 1)
    kept = (reader.number(8), reader.bytes(reader.number(4))) if flag else None
    need(kept is None or len(kept[1]) <= MOST_SNAPSHOT)
    return horizon, kept


def read_log(source):
    """The entries of the stored session that the bytes spell."""
    return read_stored(source).log


def append_read(session, reader):
    """Appends the next entry that is read to the log, where that stays legal."""
    time, view, kind = reader.number(8), reader.number(4), reader.number(1)
    need(session.horizon < time < TIME_LIMIT and view > 0 and 1 <= kind <= 3)
    state = session.view(view)
    need(kind == 2 or len(session.log) < MOST_OPEN_ENTRIES)
    need(state.here or kind == 1 and session.here < MOST_VIEWS)
    event = (reader.number(4), reader.bytes(reader.number(4))) if kind == 3 else (0, b"")
    need(kind < 3 or event[0] == len(state.events) + 1 and len(event[1]) <= MOST_PAYLOAD)
    need(session.payloads + len(event[1]) <= MOST_LOG_BYTES)
    session.append(time, view, ["join", "exit", "event"][kind - 1], *event)


# ---------------------------------------------------------------- session scripts

def number_word(word, limit):
    if not re.fullmatch(r"0|[1-9][0-9]*", word, re.ASCII) or len(word) > 20 or int(word) >= limit:
        raise Ended("input script", 3)
    return int(word)


def hex_word(word):
    if word == "-":
        return b""
    if len(word) % 2 or not re.fullmatch(r"[0-9a-fA-F]+", word, re.ASCII):
        raise Ended("input script", 3)
    return bytes.fromhex(word)


ROWS = {"send": [2**32, 2**32, 2**32, 2**64, "hex"], "tick": [2**64],
        "leave": [2**32, 2**32, 2**64], "offer": [2**32, 2**32, TIME_LIMIT, "hex"],
        "pull": [2**32, 2**32]}


def read_request(line):
    name, *words = re.split(" +", line)
    if name == "join" and len(words) >= 2:
        view, now = number_word(words[0], 2**32), number_word(words[1], 2**64)
        wanted = words[2:] or ["fresh"]
        if wanted in (["fresh"], ["whole"]):
            return ["join", view, now, wanted[0], 0]
        if wanted[0] == "after" and len(wanted) == 2:
            return ["join", view, now, "after", number_word(wanted[1], TIME_LIMIT)]
    elif name in ROWS and len(words) == len(ROWS[name]):
        read = [hex_word(w) if row == "hex" else number_word(w, row)
                for w, row in zip(words, ROWS[name])]
        return [name, *read]
    raise Ended("input script", 3)


def read_lines(source, limit, refusal):
    """The lines of a text that are not skipped."""
    if len(source) > limit:
        raise Ended(refusal, 3)
    try:
        lines = source.decode("utf-8").split("\n")
    except UnicodeDecodeError:
        raise Ended(refusal, 3) from None
    ended = [line.removesuffix("\r") for line in lines[:-1]] + lines[-1:]
    return [line for line in ended if line and not line.startswith("#")]


def read_script(source):
    return [read_request(line) for line in read_lines(source, SCRIPT_BYTES, "input script")]


def stamped(source, stored=None):
    """The session after a script, and the printed lines. It goes on from a stored one, where there is one.

    The script is read before the stored session.
    """
    requests = read_script(source)
    session = Session() if stored is None else read_opening(stored)
    return session, [session.reply(request) for request in requests]


def read_hub_script(source):
    """The requests of a hub's script, each with the name of its session."""
    return [read_named(line) for line in read_lines(source, SCRIPT_BYTES, "input script")]


def read_named(line):
    first, *rest = re.split(" +", line, maxsplit=2)
    if first != "in" or len(rest) < 2 or len(rest[0].encode()) > MOST_SESSION_NAME:
        raise Ended("input script", 3)
    return rest[0], read_request(rest[1])


def hubbed(source):
    """The sessions after a hub's script, in the order in which they were made, and the printed lines."""
    sessions, lines = {}, []
    for name, request in read_hub_script(source):
        ident = session_id(name.encode(), b"")
        if ident not in sessions and len(sessions) == MOST_SESSIONS:
            lines.append(f"{name} hub-full {MOST_SESSIONS}")
            continue
        session = sessions.setdefault(ident, Session())
        lines.append(f"{name} {session.reply(request)}")
    return list(sessions.values()), lines


MOST_CONFIG_BYTES, MOST_HOSTED = 65_536, 16


def read_config(source):
    """The name and the program of each session of a host's configuration, and whether sessions are made on demand."""
    lines = [re.split(" +", line) for line in read_lines(source, MOST_CONFIG_BYTES, "input config")]
    listed = [line for line in lines if line != ["any"]]
    if not all(len(line) == 3 and line[0] == "session" and len(line[1].encode()) <= MOST_SESSION_NAME for line in listed):
        raise Ended("input config", 3)
    if not 1 <= len(listed) <= MOST_HOSTED or len(lines) - len(listed) > 1:
        raise Ended("input config", 3)
    return [(name, program) for _, name, program in listed], len(lines) > len(listed)


def hosted_ids(sessions, sources):
    """The ids of sessions, by the bytes of each program. No two are the same."""
    ids = [session_id(name.encode(), sources[program]) for name, program in sessions]
    if len(set(ids)) != len(ids):
        raise Ended("input config", 3)
    return ids


def joined_id(content):
    """The id of the session that a frame joins, if it joins one."""
    try:
        tag, fields = read_client(content)
    except Bad:
        return None
    return fields[0] if tag == 1 else None


def is_to_be_made(ids, content):
    """Whether a first frame makes a session of a host that makes them on demand, and has these."""
    ident = joined_id(content)
    return ident is not None and ident not in ids and len(ids) < MOST_SESSIONS


def goes_to(ids, content):
    """The number of the session, from 0, to which a link goes whose first frame is this."""
    ident = joined_id(content)
    return ids.index(ident) if ident in ids else 0


def read_opening(source):
    """The session with which a run begins."""
    if len(source) > LOG_FILE_BYTES:
        raise Ended("input log", 3)
    try:
        return read_stored(source)
    except Bad:
        raise Ended("input log", 3) from None


# ---------------------------------------------------------------- replay

def session_id(name, source, persisted=None):
    founding = b"" if persisted is None else b"\x00" + encode(persisted)
    return hashlib.sha256(number(len(name), 4) + name + source + founding).digest()


def replayed(world, entries, time):
    for entry in entries:
        if world.time < entry.time <= time:
            world.external(entry)
    world.advance(time)
    return world


def world_line(world):
    return (f"time {world.time} objects {len(world.objects)} pending {len(world.pending)} "
            f"subscriptions {len(world.subscriptions)} faults {sum(world.faults)} "
            f"digest {hashlib.sha256(world.snapshot()).hexdigest()}")


@dataclass
class Replaying:
    """A case of a replay, read: its name, times, log, program and persisted value."""
    id: bytes
    times: list
    entries: list
    program: Program
    persisted: object

    def first_world(self):
        return World.first(self.program, self.id, self.persisted)


def read_replaying(case, times):
    """`NAME TIME.. SCRIPT | PROGRAM`, and ` | JSON` where a value is persisted."""
    head, source, *given = case.split(b" | ", 2)
    words = head.split(b" ", times + 1)
    script = b"" if words[-1] == b"-" else lines_of(words[-1])
    session, _ = stamped(script)
    program = read_program(source)
    persisted = read_persisted(given[0]) if given else None
    return Replaying(session_id(words[0], source, persisted), [int(w) for w in words[1:-1]],
                     session.log, program, persisted)


def whole_replay(case):
    return replayed(case.first_world(), case.entries, case.times[-1])


# ---------------------------------------------------------------- inspect

MOST_QUERIES_BYTES = 65_536
MOST_KEYFRAMES = 128


def fault_word(name):
    """`zero-divisor` of `ZeroDivisor`."""
    return re.sub(r"(?<!^)(?=[A-Z])", "-", name).lower()


def method_word(method):
    """A method's name as it is, and a text that is no name of the language as its literal."""
    named = re.fullmatch(r"[a-z_][A-Za-z0-9_]*", method, re.ASCII) and len(method) <= MOST_NAME
    return method if named and method not in WORDS else value_text(method)


def object_line(world, id_):
    o = world.objects[id_]
    class_ = world.program.classes[o.class_]
    fields = [f"{name} {value_text(v)}" for name, v in zip(class_.fields, o.fields, strict=True)]
    return " ".join([f"object {id_} {class_.name}", *fields])


def full_lines(world):
    """The lines of what is in a world."""
    lines = [object_line(world, id_) for id_ in sorted(world.objects)]
    lines += [f"topic {value_text(scope)} {value_text(event)} {id_} {method_word(method)}"
              for scope, event, id_, method in world.subscriptions]
    lines += [f"pending {m.time} {m.number} {m.object} {method_word(m.method)} {value_text(List(m.args))}"
              for m in world.pending_in_order()]
    lines += [f"fault {fault_word(name)} {count}"
              for name, count in zip(FAULTS, world.faults, strict=True) if count]
    return lines


def read_query(line):
    """The word of a query, and its time."""
    words = re.split(" +", line)
    if len(words) != 2 or words[0] not in ("at", "full") or not is_time(words[1]):
        raise Ended("input queries", 3)
    return words[0], int(words[1])


def is_time(word):
    return re.fullmatch(r"0|[1-9][0-9]{0,15}", word, re.ASCII) and int(word) < TIME_LIMIT


def check_every(entries, every):
    """Refuses what would keep too many worlds. That is looked at before the queries are read."""
    if len(entries) // every > MOST_KEYFRAMES:
        raise Ended("input every", 3)


def inspected(recorded, every, source):
    """The lines that queries print."""
    check_every(recorded.entries, every)
    lines = []
    for word, time in [read_query(line) for line in read_lines(source, MOST_QUERIES_BYTES, "input queries")]:
        world = replayed(recorded.first_world(), recorded.entries, time)
        lines.append(world_line(world))
        lines += full_lines(world) if word == "full" else []
    return lines


# ---------------------------------------------------------------- trace

class Tracing:
    """A world that goes on, and the lines of what runs from a time on."""

    def __init__(self, recorded, begin):
        self.world, self.begin, self.lines = recorded.first_world(), begin, []
        init = self.world.program.methods[self.world.program.numbers["Root"]].get("init")
        if init is not None:
            args = [None, recorded.persisted] if len(init.params) == 2 else [None]
            self.tell(f"message 0 1 Root init {value_text(List(args))}")
        self.tell_fault(next((name for name, count in zip(FAULTS, self.world.faults) if count), None))

    def tell(self, line):
        if self.world.time >= self.begin:
            self.lines.append(line)

    def tell_fault(self, name):
        if name is not None:
            self.tell(f"fault {fault_word(name)}")

    def run_until(self, time):
        """The messages that are due up to a time, each told before it runs."""
        world = self.world
        while (m := world.take_least(time)) is not None:
            world.move_to(m.time)
            class_ = world.program.classes[world.objects[m.object].class_].name
            self.tell(f"message {m.time} {m.object} {class_} {method_word(m.method)} {value_text(List(m.args))}")
            self.tell_fault(world.message(lambda evaluation: evaluation.start(m.object, m.method, m.args)))
        world.move_to(time)

    def topic_of(self, entry):
        """What models are told of an entry; None where it is nothing."""
        world = self.world
        if entry.kind == "event":
            try:
                return read_payload(entry.payload)[:2]
            except Bad:
                return None
        if entry.kind == "join":
            comes = entry.view not in world.views and len(world.views) < MOST_VIEWS
            return (world.id.hex(), "view-join") if comes else None
        return (world.id.hex(), "view-exit") if entry.view in world.views else None

    def enter(self, entry):
        self.run_until(entry.time)
        topic = self.topic_of(entry)
        words = [f"entry {entry.seq} time {entry.time} view {entry.view} {entry.kind}"]
        words += [value_text(text) for text in topic or ()]
        heard = len(self.world.topics.get(topic, ()))
        self.tell(" ".join([*words, f"heard {heard}"]))
        self.tell_fault(self.world.message(lambda evaluation: self.world.enter(entry, evaluation)))


def traced(recorded, begin, end):
    """The lines of what ran from one time to another."""
    tracing = Tracing(recorded, begin)
    for entry in recorded.entries:
        if entry.time <= end:
            tracing.enter(entry)
    tracing.run_until(end)
    return tracing.lines


# ---------------------------------------------------------------- votes

@dataclass
class Ballot:
    """What an event votes: its entry and view, the entry that it is on, and the digest's digits."""
    entry: int
    view: int
    at: int
    digits: str


def vote_payload(at, digits):
    return payload("#vote", "digest", List([at, digits]))


def read_ballot(entry):
    """The vote that an entry is; None where it is none."""
    if entry.kind != "event":
        return None
    try:
        scope, event, v = read_payload(entry.payload)
    except Bad:
        return None
    if (scope, event) != ("#vote", "digest") or type(v) is not List or len(v.items) != 2:
        return None
    at, digits = v.items
    if not is_int(at) or not 1 <= at < entry.seq:
        return None
    if not is_text(digits) or not re.fullmatch(r"[0-9a-f]{64}", digits, re.ASCII):
        return None
    return Ballot(entry.seq, entry.view, at, digits)


def counted(ballots):
    """The votes that count: of those of one view on one entry the first."""
    first = {}
    for ballot in ballots:
        first.setdefault((ballot.at, ballot.view), ballot)
    return list(first.values())


def verdict_line(at, ballots):
    first = ballots[0]
    other = next((ballot for ballot in ballots if ballot.digits != first.digits), None)
    said = "agreed" if other is None else f"diverged {first.entry} {other.entry}"
    return f"at {at} votes {len(ballots)} {said}"


def voted(entries):
    """The lines of what the votes of a log come to."""
    ballots = counted([ballot for ballot in map(read_ballot, entries) if ballot is not None])
    on = {}
    for ballot in ballots:
        on.setdefault(ballot.at, []).append(ballot)
    return [*(verdict_line(at, on[at]) for at in sorted(on)), f"votes {len(ballots)}"]


# ---------------------------------------------------------------- frames

NO_TAG = 0
JOIN_TAG, SEND_TAG, SNAP_TAG, LEAVE_TAG, ALIVE_TAG = range(1, 6)
SYNC_TAG, RECV_TAG, TICK_TAG, DONE_TAG, SNAPPED_TAG, REFUSED_TAG, SERVER_ALIVE_TAG = range(65, 72)


def framed(tag, *fields):
    return number(tag, 1) + b"".join(fields)


def bytes_field(source):
    return number(len(source), 4) + source


LEAVE, ALIVE = framed(LEAVE_TAG), framed(ALIVE_TAG)


def frame_time(reader):
    time = reader.number(8)
    need(time < TIME_LIMIT)
    return time


def read_base(reader):
    flag = reader.number(1)
    need(flag <= 1)
    return (frame_time(reader), reader.bytes(reader.number(4))) if flag else None


def read_entry(reader):
    seq, time, view, kind = reader.number(4), frame_time(reader), reader.number(4), reader.number(1)
    need(1 <= kind <= 3)
    if kind < 3:
        return Entry(seq, time, view, ["join", "exit"][kind - 1])
    return Entry(seq, time, view, "event", reader.number(4), reader.bytes(reader.number(4)))


def numbers_of(*sizes):
    return lambda reader: tuple(reader.number(size) for size in sizes)


SERVER_FRAMES = {
    SYNC_TAG: ("sync", lambda reader: (*numbers_of(4, 4, 4)(reader), read_base(reader))),
    RECV_TAG: ("recv", lambda reader: (read_entry(reader),)),
    TICK_TAG: ("tick", lambda reader: (frame_time(reader),)),
    DONE_TAG: ("done", lambda reader: (*numbers_of(4, 4)(reader), frame_time(reader))),
    SNAPPED_TAG: ("snapped", lambda reader: (frame_time(reader),)),
    REFUSED_TAG: ("refused", numbers_of(1, 1, 8, 8)),
    SERVER_ALIVE_TAG: ("alive", numbers_of())}


def read_server(source):
    """The name of a server frame, and its fields."""
    reader = Reader(source)
    tag = reader.number(1)
    need(tag in SERVER_FRAMES)
    name, fields = SERVER_FRAMES[tag]
    frame = (name, fields(reader))
    reader.end()
    return frame


# ---------------------------------------------------------------- replica

class BadBase(Exception):
    """A base that a fresh join can not begin with."""


def peer(condition):
    """What the reflector of a session owes."""
    if not condition:
        raise Ended("peer", 10)


class Replica:
    def __init__(self, program, id_, view, persisted=None):
        self.program, self.id, self.view, self.persisted = program, id_, view, persisted
        self.world = World.first(program, id_, persisted)
        self.seen = 0
        self.payloads = []  # of all events that were published
        self.bytes = 0  # of the payloads that are not acknowledged
        self.acknowledged = 0
        self.given = 0
        self.wanted = None  # the join that is awaited
        self.synced = False  # since the last join

    def join(self, wanted):
        self.wanted, self.synced = wanted, False
        self.given = self.acknowledged
        want = {"fresh": b"\0", "whole": b"\1", "resume": b"\2" + number(self.world.time, 8)}
        return framed(JOIN_TAG, self.id, number(self.view, 4), want[wanted])

    def publish(self, scope, event, value):
        self.payloads.append(payload(scope, event, value))
        self.bytes += len(self.payloads[-1])

    def unsent(self):
        """The SENDs of the events that were not given since the last Sync."""
        if not self.synced:
            return []
        first, self.given = self.given, len(self.payloads)
        return [framed(SEND_TAG, number(k + 1, 4), bytes_field(self.payloads[k]))
                for k in range(first, self.given)]

    def settled(self):
        return self.unacknowledged() == 0

    def unacknowledged(self):
        return len(self.payloads) - self.acknowledged

    def unacknowledged_bytes(self):
        return self.bytes

    def take(self, name, fields):
        if name == "refused":
            about, code, kept, _ = fields
            if about != 3:
                raise Ended(f"refused {code} {kept}", 7)
        elif name == "sync":
            peer(self.wanted is not None)
            self.take_sync(*fields)
        elif name != "alive":
            peer(self.synced)
            getattr(self, f"take_{name}")(*fields)

    def take_sync(self, _joined, last, from_, base):
        peer(self.acknowledged <= last <= len(self.payloads))
        if self.wanted == "resume":
            peer(from_ == self.seen)
        elif base is None:
            peer(from_ == 0)
        if base is not None:
            peer(self.wanted == "fresh")
            self.world = self.world_of(base)
        elif self.wanted != "resume":
            self.world = World.first(self.program, self.id, self.persisted)
        self.seen, self.wanted, self.synced = from_, None, True

    def world_of(self, base):
        time, source = base
        try:
            world = read_snapshot(self.program, self.id, source)
        except Bad:
            raise BadBase() from None
        if world.time != time:
            raise BadBase()
        return world

    def take_recv(self, entry):
        peer(entry.seq == self.seen + 1 and entry.time > self.world.time)
        self.world.external(entry)
        self.seen += 1

    def take_tick(self, time):
        peer(time >= self.world.time)
        self.world.advance(time)

    def take_done(self, number_, _seq, _time):
        peer(number_ == self.acknowledged + 1 and not self.settled())
        self.bytes -= len(self.payloads[self.acknowledged])
        self.acknowledged = number_
        self.given = max(self.given, number_)

    def take_snapped(self, _time):
        pass

    def take_out(self):
        out, self.world.published = self.world.published, []
        return out


# ---------------------------------------------------------------- view scripts

TEXT_LITERAL = r'"(?:[^"\\\x00-\x1f\x7f]|\\["\\n]|\\x(?:0[0-9b-f]|1[0-9a-f]|7f))*"'
VALUE_TOKEN = re.compile(rf'nil|true|false|-?[0-9]+|#[0-9]+|[\[\],]|{TEXT_LITERAL}', re.ASCII)
DECIMAL = re.compile(r"0|[1-9][0-9]*", re.ASCII)


def script_words(line):
    """The words of a line: spaces divide them, but for those between quotes, or behind the last one."""
    words = re.findall(r'(?:"(?:[^"\\]|\\.)*(?:"|\\?\Z)|[^" ])+| +', line, re.DOTALL)
    if "".join(words) != line or line.startswith(" ") or line.endswith(" "):
        raise Bad()
    return [word for word in words if not word.startswith(" ")]


def literal(word):
    need(re.fullmatch(TEXT_LITERAL, word, re.DOTALL))
    escapes = {"n": "\n", '"': '"', "\\": "\\"}
    return re.sub(r"\\(x..|.)", lambda m: escapes.get(m[1]) or chr(int(m[1][1:], 16)), word[1:-1])


def decimal(word, limit):
    need(DECIMAL.fullmatch(word) and len(word) <= 20 and int(word) < limit)
    return int(word)


def value_of(word):
    """The value in bounds of a value text."""
    tokens = VALUE_TOKEN.findall(word)
    need("".join(tokens) == word)
    v = value_from(tokens)
    need(not tokens and in_bounds(v))
    return v


def value_from(tokens, deep=0):
    need(tokens and deep <= MOST_LIST_DEPTH)
    token = tokens.pop(0)
    if token in ("nil", "true", "false"):
        return {"nil": None, "true": True, "false": False}[token]
    if token[0] == '"':
        return literal(token)
    if token[0] == "#":
        return Ref(decimal(token[1:], 2**32))
    if token != "[":
        v = number_of(token)
        need(v is not None)
        return v
    return List(items_from(tokens, deep + 1))


def items_from(tokens, deep):
    """The items of a list behind its opening bracket."""
    if tokens[:1] == ["]"]:
        tokens.pop(0)
        return []
    items = []
    while True:
        items.append(value_from(tokens, deep))
        need(tokens)
        sign = tokens.pop(0)
        if sign == "]":
            return items
        need(sign == ",")


def read_view_line(line):
    name, *words = script_words(line)
    if name == "publish":
        need(len(words) == 3)
        event = (literal(words[0]), literal(words[1]), value_of(words[2]))
        need(len(payload(*event)) <= MOST_PAYLOAD)
        return (name, *event)
    if name == "watch":
        need(len(words) == 3 and words[2] in ("queued", "once"))
        return (name, literal(words[0]), literal(words[1]), words[2])
    if name == "wait":
        need(len(words) == 1)
        if words[0].startswith("+"):
            return ("wait_for", decimal(words[0][1:], TIME_LIMIT))
        return (name, decimal(words[0], TIME_LIMIT))
    if name == "mark":
        need(len(words) == 1)
        return (name, words[0])
    if name == "vote":
        need(len(words) == 1 and decimal(words[0], 2**32) >= 1)
        return (name, int(words[0]))
    need(name in ("settle", "snap", "cut", "quit", "show") and not words)
    return (name,)


MOST_PUBLISHED = 2**20


def read_view_script(source):
    try:
        need(len(source) <= SCRIPT_BYTES)
        lines = source.decode("utf-8").split("\n")
        ended = [line.removesuffix("\r") for line in lines[:-1]] + lines[-1:]
        read = [read_view_line(line) for line in ended if line and not line.startswith("#")]
        need(sum(line[0] in ("publish", "vote") for line in read) <= MOST_PUBLISHED)
    except (Bad, UnicodeDecodeError):
        raise Ended("input script", 3) from None
    return read


# ---------------------------------------------------------------- links in memory

class Failed(Exception):
    """A call of the outside that fails."""


class Calls:
    """Calls that are numbered from 1."""

    def __init__(self, failing):
        self.failing = set(failing)
        self.made = 0

    def call(self):
        self.made += 1
        if self.made in self.failing:
            raise Failed()


QUIET, LINK_END = object(), object()


class Link(Calls):
    def __init__(self, frames, failing, quiet):
        super().__init__(failing)
        self.frames, self.quiet = list(frames), quiet
        self.heard, self.sent = 0, []

    def recv(self):
        """The next frame; QUIET or LINK_END."""
        self.heard += 1
        self.call()
        if any(self.made in numbers for numbers in self.quiet):
            return QUIET
        return self.frames.pop(0) if self.frames else LINK_END

    def send(self, frame):
        self.call()
        self.sent.append(frame)


class Net(Calls):
    def __init__(self, links, failing):
        super().__init__(failing)
        self.coming, self.over = list(links), []

    def connect(self):
        self.call()
        if not self.coming:
            raise Failed()
        return self.coming.pop(0)


class Output(Calls):
    def __init__(self, failing, wanting):
        super().__init__(failing)
        self.wanting, self.lines = wanting, []
        self.tried = 0

    def write(self, line):
        self.tried += 1
        if self.tried == self.wanting:
            raise Ended("memory", 8)
        try:
            self.call()
        except Failed:
            raise Ended(None, 5) from None
        self.lines.append(line)


# ---------------------------------------------------------------- a reflector

CODES = ["stale", "too-long", "differs", "gap", "log-full", "time-end", "views-full", "bad-view",
         "ahead", "older", "no-such-seq"]
OTHER_SESSION, NO_FRAME, NOT_JOINED, JOINED_ALREADY = 12, 13, 14, 15
MOST_BATCH = 256
MOST_QUIET = 6_000


class LinkOver(Exception):
    """The end of a link, with the word that says how."""

    def __init__(self, word):
        super().__init__(word)
        self.word = word


def later_clock(clock, since):
    """The clock of a session that begins at this horizon."""
    return lambda: min(clock() + since, 2**64 - 1)


class Reflecting:
    """A session that links share. Whoever is here as it begins is put out."""

    def __init__(self, ident, session, clock):
        self.ident, self.session, self.lock = ident, session, threading.RLock()
        self.now = later_clock(clock, session.horizon)
        session.put_out_all(self.now)

    def ask(self, request, *words):
        with self.lock:
            return self.session.reply([request, *words])

    def entries(self, after):
        """A tick, and then the entries after this seq and the time, if they reach to the end."""
        with self.lock:
            self.session.tick(self.now())
            entries = self.session.log[after:after + MOST_BATCH]
            is_end = after + MOST_BATCH >= len(self.session.log)
            return entries, self.session.horizon if is_end else None

    def base(self):
        with self.lock:
            return self.session.kept


def code_of(word):
    return CODES.index(word) + 1


def refused_frame(about, code, kept=0, more=0):
    sizes = [(about, 1), (code, 1), (kept, 8), (more, 8)]
    return framed(REFUSED_TAG, *(number(value, size) for value, size in sizes))


def refusal_of(about, reply):
    """The frame of a reply that refuses."""
    word, *numbers = reply.split(" ")[1:]
    return refused_frame(about, code_of(word), *map(int, numbers))


def entry_frame(entry):
    kinds = {"join": 1, "exit": 2, "event": 3}
    fields = [number(entry.seq, 4), number(entry.time, 8), number(entry.view, 4), number(kinds[entry.kind], 1)]
    if entry.kind == "event":
        fields += [number(entry.number, 4), bytes_field(entry.payload)]
    return framed(RECV_TAG, *fields)


def read_client(content):
    """The tag of a view's frame, and its fields."""
    reader = Reader(content)
    tag = reader.number(1)
    if tag == JOIN_TAG:
        fields = [reader.bytes(32), reader.number(4), reader.number(1)]
        need(fields[2] <= 2)
        fields.append(frame_time(reader) if fields[2] == 2 else 0)
    elif tag == SEND_TAG:
        fields = [reader.number(4), reader.bytes(reader.number(4))]
    elif tag == SNAP_TAG:
        fields = [frame_time(reader), reader.bytes(reader.number(4))]
    else:
        need(tag in (LEAVE_TAG, ALIVE_TAG))
        fields = []
    reader.end()
    return tag, fields


class Talk:
    """A link from its first frame to its end."""

    def __init__(self, shared, link):
        self.shared, self.link = shared, link
        self.view = self.joined = self.after = self.last_tick = self.quiets = 0

    def run(self):
        """The word that says how it ended."""
        word = self.converse()
        if self.joined and word in ("link-end", "link-fault", "idle"):
            self.shared.ask("leave", self.view, self.joined, self.shared.now())
        return word

    def converse(self):
        try:
            word = self.begin()
            while word is None:
                self.serve()
                word = self.take(self.hear())
            return word
        except LinkOver as over:
            return over.word
        except Failed:
            return "link-fault"

    def hear(self):
        """The next frame; None where the receive was quiet."""
        heard = self.link.recv()
        if heard is LINK_END:
            raise LinkOver("link-end")
        self.quiets = self.quiets + 1 if heard is QUIET else 0
        if self.quiets == MOST_QUIET:
            raise LinkOver("idle")
        return None if heard is QUIET else heard

    def begin(self):
        """Joins; the word of the end where that is refused."""
        while (content := self.hear()) is None:
            pass
        try:
            tag, fields = read_client(content)
        except Bad:
            return self.refuse(NO_TAG, NO_FRAME)
        if tag != JOIN_TAG:
            return self.refuse(tag, NOT_JOINED)
        ident, self.view, want, time = fields
        if ident != self.shared.ident:
            return self.refuse(JOIN_TAG, OTHER_SESSION)
        with self.shared.lock:
            base = self.shared.base()
            reply = self.shared.ask("join", self.view, self.shared.now(), ["fresh", "whole", "after"][want], time)
        if reply.startswith("refused"):
            frame = refusal_of(JOIN_TAG, reply)
            self.send_last(frame)
            return f"refused {frame[2]}"
        words = reply.split(" ")
        self.joined, last, self.after = int(words[1]), int(words[3]), int(words[4])
        tail = [b"\0"] if "base" not in words else [b"\1", number(base[0], 8), bytes_field(base[1])]
        self.link.send(framed(SYNC_TAG, *(number(value, 4) for value in (self.joined, last, self.after)), *tail))
        return None

    def refuse(self, about, code):
        self.send_last(refused_frame(about, code))
        return f"refused {code}"

    def send_last(self, frame):
        """Sends a refusal that ends the link, which changes nothing of the end where it fails."""
        try:
            self.link.send(frame)
        except Failed:
            pass

    def serve(self):
        """Sends the entries and the time that the link lacks."""
        entries, tick = self.shared.entries(self.after)
        for entry in entries:
            self.link.send(entry_frame(entry))
            self.after = entry.seq
        if tick is not None and tick > self.last_tick:
            self.link.send(framed(TICK_TAG, number(tick, 8)))
            self.last_tick = tick

    def take(self, content):
        """Answers a frame, if there is one; the word of the end where it is the last one."""
        if content is None:
            return None
        try:
            tag, fields = read_client(content)
        except Bad:
            return self.link.send(refused_frame(NO_TAG, NO_FRAME))
        if tag == JOIN_TAG:
            return self.link.send(refused_frame(JOIN_TAG, JOINED_ALREADY))
        if tag == ALIVE_TAG:
            return self.link.send(framed(SERVER_ALIVE_TAG))
        return self.asked(tag, fields)

    def asked(self, tag, fields):
        """Makes the request of a SEND, a SNAP or a LEAVE, and answers by its reply."""
        words = {SEND_TAG: lambda: ["send", self.view, self.joined, fields[0], self.shared.now(), fields[1]],
                 SNAP_TAG: lambda: ["offer", self.view, self.joined, *fields],
                 LEAVE_TAG: lambda: ["leave", self.view, self.joined, self.shared.now()]}[tag]()
        reply = self.shared.ask(*words)
        word, *numbers = reply.split(" ")
        if word == "left":
            return "left"
        if reply.startswith("refused stale"):
            self.send_last(refusal_of(tag, reply))
            return f"stale {numbers[1]}"
        if word == "refused":
            return self.link.send(refusal_of(tag, reply))
        if word == "kept":
            return self.link.send(framed(SNAPPED_TAG, number(fields[0], 8)))
        return self.link.send(framed(DONE_TAG, number(fields[0], 4), number(int(numbers[0]), 4), number(int(numbers[1]), 8)))


# ---------------------------------------------------------------- the run of a view

RECEIVES_TO_ALIVE = 1_000
MOST_UNANSWERED = 4_096
MOST_UNANSWERED_BYTES = 65_536


class ViewRun:
    def __init__(self, replica, net, out):
        self.replica, self.net, self.out = replica, net, out
        self.link = None
        self.topics = {}  # (scope, event) to queued or once

    # -- the link

    def connect(self, wanted):
        """Leaves the link, and joins over a new one."""
        self.drop()
        self.link = self.net.connect()
        self.quiets = self.receives = 0
        self.send(self.replica.join(wanted))

    def drop(self):
        if self.link is not None:
            self.net.over.append(self.link)
            self.link = None

    def send(self, frame):
        self.link.send(frame)
        self.receives = 0

    def send_unsent(self):
        for frame in self.replica.unsent():
            self.send(frame)

    def receive(self):
        """The name and the fields of the frame that comes; None where it is quiet."""
        heard, frame = self.link.recv(), None
        self.receives += 1
        if heard is LINK_END:
            raise Ended("ended", 9)
        self.quiets = self.quiets + 1 if heard is QUIET else 0
        if self.quiets == MOST_QUIET:
            raise Ended("ended", 9)
        if heard is not QUIET:
            frame = self.take(heard)
        if self.receives == RECEIVES_TO_ALIVE:
            self.send(ALIVE)
        return frame

    def take(self, heard):
        try:
            frame = read_server(heard)
        except Bad:
            raise Ended("peer", 10) from None
        self.replica.take(*frame)
        return frame

    def receive_until(self, is_last):
        """The frame with which it is so."""
        while True:
            frame = self.receive()
            if frame is not None and is_last(*frame):
                return frame

    def synced(self):
        """The seq of the Join, and from where the entries follow."""
        _, (joined, _, from_, _) = self.receive_until(lambda name, _: name == "sync")
        return joined, from_

    # -- the lines

    def run(self, script):
        try:
            self.begin()
            for line in script:
                if line[0] == "quit":
                    break
                own = getattr(self, f"do_{line[0]}")(*line[1:])
                self.update()
                if own is not None:
                    self.out.write(own)
            self.rest()
            self.send(LEAVE)
            self.out.write(self.last_line())
        except Failed:
            raise Ended("net-fault", 6) from None
        finally:
            self.drop()

    def begin(self):
        try:
            self.connect("fresh")
            self.synced()
        except BadBase:
            self.connect("whole")
            self.synced()

    def rest(self):
        """Nothing is due any more at the world's own time, and what came of that is told."""
        self.replica.take_tick(self.replica.world.time)
        self.update()

    def last_line(self):
        world = self.replica.world
        return (f"view {self.replica.view} time {world.time} seq {self.replica.seen} "
                f"digest {hashlib.sha256(world.snapshot()).hexdigest()}")

    def tell(self, line):
        self.out.write(line)

    def update(self):
        """Prints what models published, of the topics that are watched."""
        watched = [event for event in self.replica.take_out() if event[1:3] in self.topics]
        last = {event[1:3]: place for place, event in enumerate(watched)}
        for place, (time, scope, event, v) in enumerate(watched):
            topic = scope, event
            if self.topics[topic] == "queued" or last[topic] == place:
                self.tell(f"event {time} {value_text(scope)} {value_text(event)} {value_text(v)}")

    def do_publish(self, scope, event, v):
        self.replica.publish(scope, event, v)
        self.send_unsent()
        while (self.replica.unacknowledged() > MOST_UNANSWERED
               or self.replica.unacknowledged_bytes() > MOST_UNANSWERED_BYTES):
            self.receive()

    def do_watch(self, scope, event, handling):
        self.topics[scope, event] = handling

    def do_wait(self, time):
        while self.replica.world.time < time:
            self.receive()
        return f"time {self.replica.world.time}"

    def do_wait_for(self, span):
        return self.do_wait(min(self.replica.world.time + span, TIME_LIMIT - 1))

    def do_settle(self):
        self.send_unsent()
        while not self.replica.settled():
            self.receive()
        return f"settled {self.replica.acknowledged}"

    def do_snap(self):
        world = self.replica.world
        self.send(framed(SNAP_TAG, number(world.time, 8), bytes_field(world.snapshot())))
        name, fields = self.receive_until(
            lambda name, fields: name == "snapped" or name == "refused" and fields[0] == 3)
        if name == "snapped":
            return f"snapped {fields[0]}"
        return f"snap-refused {fields[1]} {fields[2]}"

    def do_cut(self):
        self.connect("resume")
        joined, from_ = self.synced()
        self.send_unsent()
        return f"rejoined {joined} {from_}"

    def do_mark(self, word):
        return f"mark {word}"

    def do_show(self):
        """Its world in full, once nothing is due any more at the world's own time."""
        self.rest()
        world = self.replica.world
        return "\n".join([world_line(world), *full_lines(world)])

    def do_vote(self, at):
        """The digest of the world directly after an entry, as an event."""
        if self.replica.seen >= at:
            return f"vote-missed {self.replica.seen}"
        while self.replica.seen < at:
            self.receive()
        digest = hashlib.sha256(self.replica.world.snapshot()).hexdigest()
        self.replica.publish("#vote", "digest", List([at, digest]))
        self.send_unsent()
        return f"voted {at} {len(self.replica.payloads)}"


# ---------------------------------------------------------------- a view whose lines come to its run

MOST_LINE = 65_536
LINES_IN_A_ROW = 64
NOTHING, CLOSED = object(), object()


class Feed(Calls):
    """Lines in memory. The calls of these numbers fail, or tell nothing."""

    def __init__(self, lines, failing, idle):
        super().__init__(failing)
        self.lines, self.idle = list(lines), set(idle)

    def next(self):
        try:
            self.call()
        except Failed:
            raise Ended("read-fault", 4) from None
        if self.made in self.idle:
            return NOTHING
        return self.lines.pop(0) if self.lines else CLOSED


class LinkGone(Exception):
    """A link that ended, failed or was quiet too often, and in whose place another one is made."""


class LiveRun(ViewRun):
    """The feed is asked until it tells nothing, or for 64 lines; then the link is heard once; and so on."""

    def __init__(self, replica, net, out, feed, pause=lambda: None):
        super().__init__(replica, net, out)
        self.feed, self.pause, self.waiting, self.closed = feed, pause, [], False
        self.count = self.holds = self.in_a_row = 0
        self.ready = []  # what is printed next, in one piece
        self.own_join = None  # the seq of its own Join, until that entry was taken

    # -- what comes

    def tell(self, line):
        self.ready.append(line)

    def print(self):
        """What is ready; and that its own Join was taken, while it hears its link."""
        ready, self.ready = self.ready, []
        if ready:
            self.out.write("\n".join(ready))
        if self.link is not None and self.own_join is not None and self.own_join <= self.replica.seen:
            self.own_join = None
            self.out.write("here")

    def line_came(self, source):
        """A line, which is done after those that came before."""
        if self.closed:
            return
        self.count += 1
        words = source.split(b" ")
        try:
            need(len(source) <= MOST_LINE)
            if words[0] == b"hold" and len(words) == 2:
                self.holds = decimal(words[1].decode("utf-8"), 2**32)
                return
            more = read_view_script(source)
            publishing = sum(line[0] == "publish" for line in self.waiting + more)
            need(len(self.replica.payloads) + publishing <= MOST_PUBLISHED)
        except (Bad, Ended, UnicodeDecodeError):
            self.tell(f"bad-line {self.count}")
            return
        self.waiting += more

    def turn(self):
        """What the link says, or None where the feed was asked."""
        self.print()
        if self.in_a_row == LINES_IN_A_ROW:
            self.in_a_row = 0
            return self.link.recv()
        line = self.feed.next()
        if line is NOTHING or line is CLOSED:
            self.in_a_row = LINES_IN_A_ROW
            self.closed = self.closed or line is CLOSED
        else:
            self.in_a_row += 1
            self.line_came(line)
        return None

    def hear(self):
        """The name and the fields of what the link says, if it is a frame; None as well where the feed was asked."""
        try:
            heard = self.turn()
            if heard is None:
                return None
            self.receives += 1
            self.quiets = self.quiets + 1 if heard is QUIET else 0
            if heard is LINK_END or self.quiets == MOST_QUIET:
                if self.holds > 0:
                    raise LinkGone()
                raise Ended("ended", 9)
        except Failed:
            if self.holds > 0:
                raise LinkGone() from None
            raise
        frame = None if heard is QUIET else self.take(heard)
        if self.receives == RECEIVES_TO_ALIVE:
            self.send(ALIVE)
        return frame

    receive = hear

    def take(self, heard):
        frame = super().take(heard)
        if frame[0] == "sync":
            self.own_join = frame[1][0]
        return frame

    # -- its links

    def connect(self, wanted):
        """Joins over a new link, once there is one."""
        self.drop()
        self.print()
        self.own_join = None
        while self.link is None:
            try:
                self.link = self.net.connect()
            except Failed:
                if self.holds == 0:
                    raise
                self.let_go()
        self.quiets = self.receives = self.in_a_row = 0
        self.send(self.replica.join(wanted))

    def join(self, how):
        """Joins over as many links as it takes, and sends what is not acknowledged again."""
        while True:
            try:
                self.connect(how)
                joined, from_ = self.synced()
                break
            except BadBase:
                how = "whole"
            except LinkGone:
                self.let_go()
        if how == "resume":
            self.send_unsent()
            self.done(f"rejoined {joined} {from_}")

    def let_go(self):
        """One link fewer is made again, some time later."""
        self.holds -= 1
        self.pause()

    def join_again(self):
        self.let_go()
        self.join("resume")

    # -- its run

    def run_live(self):
        try:
            self.join("fresh")
            while not self.go_on():
                pass
            self.print()
        except Failed:
            raise Ended("net-fault", 6) from None
        finally:
            self.drop()

    def go_on(self):
        """Does the next line, or hears the link at rest. Whether the view has left."""
        if not self.waiting and not self.closed:
            try:
                self.hear()
                self.update()
            except LinkGone:
                self.join_again()
            return False
        line = self.waiting.pop(0) if self.waiting else ("quit",)
        if line[0] == "quit":
            self.rest()
            self.send(LEAVE)
            self.tell(self.last_line())
            self.own_join = None
            return True
        self.work(line)
        return False

    def work(self, line):
        """A line. Where its link is lost it is done anew, a wait for the same time."""
        if line[0] == "wait_for":
            line = ("wait", min(self.replica.world.time + line[1], TIME_LIMIT - 1))
        try:
            self.done(getattr(self, f"do_{line[0]}")(*line[1:]))
        except LinkGone:
            if line[0] in ("wait", "settle", "snap"):
                self.waiting.insert(0, line)
            self.join_again()

    def done(self, own):
        self.update()
        if own is not None:
            self.tell(own)

    def do_cut(self):
        self.join("resume")


# ---------------------------------------------------------------- the command join

ADDRESS = re.compile(r"(?:localhost|([^.:]+)\.([^.:]+)\.([^.:]+)\.([^.:]+)):([^.:]+)", re.DOTALL)


def check_address(address):
    match = ADDRESS.fullmatch(address)
    try:
        need(match)
        for part in match.groups()[:4]:
            need(part is None or decimal(part, 256) >= 0)
        need(decimal(match.group(5), 65_536) >= 1)
    except Bad:
        raise Ended("input address", 3) from None


def check_join_words(name, address, view):
    try:
        need(name and address and len(name) <= 255)
        need(not name.startswith(b"-") and not address.startswith("-"))
        need(decimal(view, 2**32) >= 1)
    except Bad:
        raise Ended("usage", 1) from None


@dataclass
class Joining:
    """A case of `join`: its words and files, and the outside."""
    name: bytes
    view: str
    address: str
    source: bytes
    script: bytes
    json: bytes  # or None
    failing_files: list
    net: Net
    out: Output

    def read(self, place):
        """The file of this place among those that are read."""
        if place in self.failing_files:
            raise Ended("read-fault", 4)
        return [self.source, self.json if self.script is None else self.script, self.json][place - 1]

    def run(self):
        check_join_words(self.name, self.address, self.view)
        source = self.read(1)
        program = read_program(source)
        check_address(self.address)
        script = read_view_script(self.read(2))
        persisted = None if self.json is None else read_persisted(self.read(3))
        ViewRun(self.replica(program, source, persisted), self.net, self.out).run(script)

    def replica(self, program, source, persisted):
        return Replica(program, session_id(self.name, source, persisted), int(self.view), persisted)

    def run_live(self, feed):
        """The same where the lines come to the run."""
        check_join_words(self.name, self.address, self.view)
        source = self.read(1)
        program = read_program(source)
        check_address(self.address)
        persisted = None if self.json is None else read_persisted(self.read(2))
        LiveRun(self.replica(program, source, persisted), self.net, self.out, feed).run_live()


def told(out, ended):
    """What is printed, and the status in square brackets."""
    if ended.line is not None:
        try:
            out.write(ended.line)
        except Ended as other:
            if other.status == 8:
                return told(out, other)
            ended = other
    return " / ".join(out.lines) + (" " if out.lines else "") + f"[{ended.status}]"


# ---------------------------------------------------------------- cases

def lines_of(script):
    """A script whose lines are divided by ` / `."""
    return script.replace(b" / ", b"\n") + b"\n"


def replaced(case):
    def one(match):
        kind, text = match.group(1), match.group(2)
        if kind == b"x":
            return bytes.fromhex(text.decode())
        if kind == b"t":
            return text_field(text.decode("utf-8")).hex().encode()
        if b"#" not in text:
            return text * int(kind)
        return b"".join(text.replace(b"#", str(k).encode()) for k in range(1, int(kind) + 1))

    return re.sub(rb"<<([0-9]+|x|t):(.*?)>>", one, case, flags=re.DOTALL)


CASE_ID = bytes([0xAB, *range(1, 31), 0xFF])


def case_world(program):
    """The world in which expressions and programs of the language's cases run."""
    world = World(program, CASE_ID)
    world.time, world.next_object, world.next_number = 2500, 2, 7
    world.random, world.turns = 0, 1
    root = program.numbers["Root"]
    fields = len(program.classes[root].fields)
    world.objects[1] = Object(root, [None] * fields)
    world.weight = 2 + fields
    return world


def run_m(world):
    """What method m of object 1 comes to, and the fuel left."""
    evaluation = Evaluation(world)
    try:
        outcome = value_text(evaluation.start(1, "m", []))
    except Fault as fault:
        outcome = fault.name
    return outcome, evaluation.fuel


def evaluate_case(case):
    source = (b"class Root{field f;m(){return " + case
              + b";}none(){}pair(a,b){return [a,b];}}")
    try:
        program = Program(parse(source))
    except Ended:
        return "no expression"
    return run_m(case_world(program))[0]


def run_case(case):
    program = read_program(case)
    world = case_world(program)
    outcome, left = run_m(world)
    parts = [f"{outcome} left {left}", f"next #{world.next_object} {world.next_number}"]
    for id_, o in sorted(world.objects.items()):
        parts.append(f"#{id_} of {program.classes[o.class_].name} {value_text(List(o.fields))}")
    for name, id_ in sorted(world.known.items()):
        parts.append(f"known {value_text(name)} #{id_}")
    for scope, event, id_, method in world.subscriptions:
        parts.append(f"subscribed #{id_}.{method} to {value_text(scope)} {value_text(event)}")
    for m in world.pending_in_order():
        parts.append(f"pending {m.number} at {m.time} #{m.object}.{m.method} "
                     f"{value_text(List(m.args))}")
    if world.saved is not None:
        parts.append(f"saved {value_text(world.saved)}")
    for time, scope, event, v in world.published:
        parts.append(f"published at {time} {value_text(scope)} {value_text(event)} {value_text(v)}")
    return "; ".join(parts)


def canonical_case(case):
    tree = parse(case)
    text = Printer().program(tree)
    assert parse(text.encode()) == tree
    return text


def hex_case(case):
    try:
        return b"" if case == b"-" else bytes.fromhex(case.decode())
    except ValueError:
        raise Bad() from None


def decode_case(case):
    source = hex_case(case)
    v = decode(source)
    assert encode(v) == source
    return f"{value_text(v)} weight {weight(v)} depth {depth(v)}"


def payload_case(case):
    source = hex_case(case)
    scope, event, v = read_payload(source)
    assert payload(scope, event, v) == source
    return f"{value_text(scope)} {value_text(event)} {value_text(v)}"


def scripts_case(case):
    return " / ".join(stamped(lines_of(case))[1])


def hubs_case(case):
    return " / ".join(hubbed(lines_of(case))[1])


def logs_case(case):
    return stamped(lines_of(case))[0].encoded().hex()


# What shows the horizon of a session, how long its log is, and what is kept.
PROBE = b"tick 0 / pull 4294967295 0 / join 4294967295 0 fresh"


def stored_case(case):
    """What a stored session is told by, if the bytes are one."""
    source = hex_case(case)
    try:
        assert read_opening(source).encoded() == source
    except Ended:
        raise Bad() from None
    return " / ".join(stamped(lines_of(PROBE), source)[1])


def onward_parts(case):
    """The bytes of the first file, if there is one, and the scripts, each of which goes on from the file before."""
    stored, parts = None, case.split(b" | ")
    if parts[0].startswith(b"from "):
        stored = hex_case(parts.pop(0).removeprefix(b"from "))
    return stored, [b"" if part == b"-" else lines_of(part) for part in parts]


def onward_case(case):
    """The lines of the last script, and the file that it leaves."""
    stored, scripts = onward_parts(case)
    for script in scripts:
        session, lines = stamped(script, stored)
        stored = session.encoded()
    return " / ".join([*lines, f"f={stored.hex()}"])


def programs_case(case):
    program = read_program(case)
    methods = sum(len(class_.methods) for class_ in program.classes)
    return f"classes {len(program.classes)} methods {methods}"


def worlds_case(case):
    return world_line(whole_replay(read_replaying(case, 1)))


def saved_case(case):
    """The saved value at the end, as JSON."""
    return to_json(whole_replay(read_replaying(case, 1)).saved).decode()


def data_case(case):
    """The compact text of the value of a JSON text, or that it is this one."""
    v = from_json(case)
    text = to_json(v)
    assert same(from_json(text), v)
    return "same" if text == case else text.decode()


def snapshots_case(case):
    return whole_replay(read_replaying(case, 1)).snapshot().hex()


def resumed_case(line):
    case = read_replaying(line, 2)
    first, time = case.times
    put_away = replayed(case.first_world(), case.entries, first).snapshot()
    world = read_snapshot(case.program, case.id, put_away)
    if time < world.time:
        raise Ended("input time", 3)
    world = replayed(world, case.entries, time)
    whole = whole_replay(case)
    return world_line(world) + (" same" if world.snapshot() == whole.snapshot() else " differs")


def inspects_case(line):
    """`NAME EVERY SCRIPT | QUERIES | PROGRAM`, and ` | JSON` where a value is persisted."""
    head, queries, rest = line.split(b" | ", 2)
    recorded = read_replaying(head + b" | " + rest, 1)
    return " / ".join(inspected(recorded, recorded.times[0], b"" if queries == b"-" else lines_of(queries)))


def traces_case(line):
    recorded = read_replaying(line, 2)
    return " / ".join(traced(recorded, *recorded.times))


def votes_case(case):
    """The votes of the log that a script leaves."""
    return " / ".join(voted(stamped(lines_of(case))[0].log))


def numbers_in(word):
    """`N` or `N-M`."""
    first, _, last = word.partition("-")
    return range(int(first), int(last or first) + 1)


def read_link(part):
    """Frames, `fail N`, `quiet N` and `quiet N-M`; `''` is the empty frame, `-` alone no word."""
    frames, faults = [], {"fail": [], "quiet": []}
    words = iter([] if part == "-" else part.split(" "))
    for word in words:
        if word in faults:
            faults[word].append(numbers_in(next(words)))
        else:
            frames.append(b"" if word == "''" else bytes.fromhex(word))
    return Link(frames, [k for numbers in faults["fail"] for k in numbers], faults["quiet"])


JOIN_OPTIONS = ["fail net ", "fail file ", "fail output ", "want output "]


def read_joining(case):
    head, source, *rest = case.split(b" | ")
    name, view, script = head.split(b" ", 2)
    address, links, faults = "localhost:8080", [], {option: [] for option in JOIN_OPTIONS}
    json_text = None
    for part in (part.decode() for part in rest):
        option = next((option for option in JOIN_OPTIONS if part.startswith(option)), None)
        if option is not None:
            faults[option].append(int(part.removeprefix(option)))
        elif part.startswith("address "):
            address = part.removeprefix("address ")
        elif part.startswith("persisted "):
            json_text = part.removeprefix("persisted ").encode()
        else:
            links.append(read_link(part))
    script = b"" if script == b"-" else script.replace(b" / ", b"\n")
    return Joining(name, view.decode(), address, source, script, json_text, faults["fail file "],
                   Net(links, faults["fail net "]),
                   Output(faults["fail output "], next(iter(faults["want output "]), 0)))


def reflectors_case(case):
    """What `reflect` prints at a clock that is always 0, its file, and what it sends on each link."""
    head, source, *parts = case.decode().split(" | ")
    name, count = head.split(" ")
    links, address, stored = [], "localhost:8080", None
    for part in parts:
        if part.startswith("address "):
            address = part.removeprefix("address ")
        elif part.startswith("from "):
            stored = hex_case(part.removeprefix("from ").encode())
        else:
            links.append(read_link(part))
    links = links[:int(count)]
    try:
        read_program(source.encode())
        check_address(address)
        session = Session() if stored is None else read_opening(stored)
    except Ended as ended:
        return f"{ended.line} [{ended.status}] ; 0 back of 0 asked"
    shared = Reflecting(session_id(name.encode(), source.encode()), session, lambda: 0)
    lines = [f"connection {place} {Talk(shared, link).run()}" for place, link in enumerate(links)]
    lines.append(f"entries {len(session.log)} time {session.horizon} f={session.encoded().hex()}")
    told = [" ".join([*(frame.hex() for frame in link.sent), f"heard {link.heard}"]) for link in links]
    return " > ".join([" / ".join(lines), *told]) + f" ; {len(links)} back of {len(links)} asked"


def client_case(case):
    """The frame of a view that the bytes spell, in words."""
    tag, fields = read_client(hex_case(case))
    if tag == JOIN_TAG:
        ident, view, want, time = fields
        return f"join {ident.hex()} view {view} " + ["fresh", "whole", f"after {time}"][want]
    words = {SEND_TAG: lambda: f"send {fields[0]} {fields[1].hex()}", SNAP_TAG: lambda: f"snap {fields[0]} {fields[1].hex()}",
             LEAVE_TAG: lambda: "leave", ALIVE_TAG: lambda: "alive"}
    return words[tag]()


def server_case(case):
    """The same of a frame of a reflector."""
    name, fields = read_server(hex_case(case))
    if name == "recv":
        entry, = fields
        event = f" {entry.number} {entry.payload.hex()}" if entry.kind == "event" else ""
        return f"recv {entry.seq} time {entry.time} view {entry.view} {entry.kind}{event}"
    if name == "sync":
        joined, last, from_, base = fields
        return f"sync joined {joined} last {last} from {from_}" + ("" if base is None else f" base {base[0]} {base[1].hex()}")
    words = {"done": "done {} seq {} time {}", "refused": "refused about {} code {} kept {} more {}", "tick": "tick {}", "snapped": "snapped {}", "alive": "alive"}
    return words[name].format(*fields)


def views_case(case):
    joining = read_joining(case)
    return joined_case(joining, joining.run)


def lives_case(case):
    """The same where the lines come by a feed; `fail feed N`, `idle N` and `idle N-M` are of its calls."""
    parts, failing, idle = [], [], []
    for part in case.split(b" | "):
        if part.startswith(b"fail feed "):
            failing.append(int(part.removeprefix(b"fail feed ")))
        elif part.startswith(b"idle "):
            idle += numbers_in(part.removeprefix(b"idle ").decode())
        else:
            parts.append(part)
    joining = read_joining(b" | ".join(parts))
    lines = joining.script.split(b"\n") if joining.script else []
    joining.script = None
    return joined_case(joining, lambda: joining.run_live(Feed(lines, failing, idle)))


def joined_case(joining, run):
    net = joining.net
    try:
        run()
        outcome = " / ".join(joining.out.lines)
    except Ended as ended:
        outcome = told(joining.out, ended)
    outcome = outcome.replace("\n", " / ")
    for link in net.over:
        sent = [frame.hex() for frame in link.sent]
        outcome += " > " + " ".join([*sent, f"heard {link.heard}"])
    return f"{outcome} ; {len(net.over)} back of {net.made} asked"


KINDS = {"evaluate": evaluate_case, "run": run_case, "canonical": canonical_case,
         "decode": decode_case, "payload": payload_case, "data": data_case, "scripts": scripts_case, "hubs": hubs_case,
         "logs": logs_case, "stored": stored_case, "onward": onward_case,
         "programs": programs_case, "worlds": worlds_case, "saved": saved_case,
         "snapshots": snapshots_case, "resumed": resumed_case, "inspects": inspects_case,
         "traces": traces_case, "votes": votes_case, "reflectors": reflectors_case, "views": views_case,
         "lives": lives_case, "client": client_case, "server": server_case}
WITH_STATUS = {"scripts", "hubs", "logs", "onward", "programs", "worlds", "saved", "snapshots", "resumed",
               "inspects", "traces", "votes"}


def outcome_of(kind, case):
    try:
        return KINDS[kind](replaced(case))
    except Ended as ended:
        return ended.line + (f" [{ended.status}]" if kind in WITH_STATUS else "")
    except Bad:
        return "bad"


def main():
    kind, file = sys.argv[1:]
    with open(file, "rb") as opened:
        lines = opened.read().removesuffix(b"\n").split(b"\n")
    for line in lines:
        if line and not line.startswith(b"#"):
            line += b" = " + outcome_of(kind, line).encode("utf-8")
        sys.stdout.buffer.write(line + b"\n")


if __name__ == "__main__":
    sys.setrecursionlimit(100_000)
    threading.stack_size(512 * 1024 * 1024)
    worker = threading.Thread(target=main)
    worker.start()
    worker.join()
