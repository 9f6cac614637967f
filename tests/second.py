"""A second implementation of the rules, written from the documents and not from the code.

It has the hosts, the notation and the verdict on templates, how texts are read, how templates
are filled and printed, how records are read, and how they are merged. The scripts beside it
compare the program under test with what it says.
"""

from typing import NamedTuple

LOWER = b"abcdefghijklmnopqrstuvwxyz"
DIGITS = b"0123456789"

MAX_LENGTH = 3584
MAX_HOLES = 64
MAX_NAME = 16
MAX_VALUE = 160
MAX_PAIRS = 64


# ---- Refusals --------------------------------------------------------------------------

SENTENCES = {
    1: "the template has more than 3584 bytes",
    2: "after @ comes one of @ n r t {",
    3: "a hole's name is 1 to 16 of a-z 0-9 _, a letter first, then }",
    5: "the template has more than 64 holes",
    6: "the host does not take this byte here",
    7: "the host takes no hole here",
    8: "the host does not let the text end here",
    10: "the template has no such hole",
    11: "the hole has a value already",
    12: "a value has at most 160 bytes",
    13: "this byte of the value cannot be written in the hole",
    14: "the hole has no value to release",
    15: "this hole still has no value",
    20: "the input ends before the record does",
    21: "the tag of a field is 1, 2 or 3",
    22: "a name comes before its value, and a value after its name",
    23: "a name is 1 to 16 of a-z 0-9 _, a letter first",
    24: "a value has at most 160 bytes",
    25: "a record has at most 64 names",
    26: "the record has this name already",
    27: "the end of a record has length 0",
    30: "the record has no value of this hole's name",
}


class Refused(Exception):
    """A refusal: its number, its place and the hole that it names, if it names one."""

    def __init__(self, number, place, hole=None):
        super().__init__(number, place, hole)
        self.number, self.place, self.hole = number, place, hole

    def line(self):
        hole = "" if self.hole is None else f" hole {self.hole}"
        return f"refused {self.number}{hole} place {self.place}: {SENTENCES[self.number]}".encode()


# ---- The hosts -------------------------------------------------------------------------
#
# A step answers the next context and an effect, or None where the host refuses the byte. An
# effect says what is closed before and after, each a kind or None, and what is done in between:
# None, OPEN or the byte to keep. An end that is missing from ENDS is refused. Where a
# hole may stand, HOLES has its opener, body and closer. A spelling is None where the byte is
# turned away.

OPEN = "open"
NOTHING = (None, None, None)


def keep(byte):
    return None, byte, None


class Shell:
    KINDS = ["word", "operator"]
    GAP, WORD, GAP_BACKSLASH, WORD_BACKSLASH, SINGLE, DOUBLE, DOUBLE_BACKSLASH = range(7)
    ENDS = {GAP: NOTHING, WORD: (1, None, None)}
    HOLES = {GAP: (b"'", SINGLE, b"'"), WORD: (b"'", SINGLE, b"'"),
             SINGLE: (b"", SINGLE, b""), DOUBLE: (b"", DOUBLE, b"")}

    BLANKS = b" \t"
    OPERATORS = b"\n;&|>()"
    REFUSED = b"$`<*?[~\x7f" + bytes(range(0x01, 0x09)) + bytes(range(0x0B, 0x20))

    @classmethod
    def step(cls, context, byte):
        if byte == 0:
            return None
        if context in (cls.GAP, cls.WORD):
            return cls.step_outside(context == cls.WORD, byte)
        if context in (cls.GAP_BACKSLASH, cls.WORD_BACKSLASH):
            if byte == ord("\n"):
                return (cls.GAP if context == cls.GAP_BACKSLASH else cls.WORD), NOTHING
            return cls.WORD, keep(byte)
        if context == cls.SINGLE:
            return (cls.WORD, NOTHING) if byte == ord("'") else (cls.SINGLE, keep(byte))
        if context == cls.DOUBLE:
            if byte in b"$`":
                return None
            if byte in b'"\\':
                return (cls.WORD if byte == ord('"') else cls.DOUBLE_BACKSLASH), NOTHING
            return cls.DOUBLE, keep(byte)
        if byte == ord("\n"):
            return cls.DOUBLE, NOTHING
        return (cls.DOUBLE, keep(byte)) if byte in b'$`"\\' else None

    @classmethod
    def step_outside(cls, in_word, byte):
        """A step in a gap or in a word."""
        closing = 1 if in_word else None
        if byte in cls.BLANKS:
            return cls.GAP, (closing, None, None)
        if byte in cls.OPERATORS:
            return cls.GAP, (closing, byte, 2)
        if byte in b"'\"":
            opening = NOTHING if in_word else (None, OPEN, None)
            return (cls.SINGLE if byte == ord("'") else cls.DOUBLE), opening
        if byte == ord("\\"):
            return (cls.WORD_BACKSLASH if in_word else cls.GAP_BACKSLASH), NOTHING
        if byte in cls.REFUSED or (byte == ord("#") and not in_word):
            return None
        return cls.WORD, keep(byte)

    @classmethod
    def spelling(cls, context, byte):
        if byte == 0 or context not in (cls.SINGLE, cls.DOUBLE):
            return None
        if context == cls.SINGLE and byte == ord("'"):
            return b"'\\''"
        if context == cls.DOUBLE and byte in b'$`"\\':
            return bytes([ord("\\"), byte])
        return bytes([byte])


class Sql:
    KINDS = ["word", "text", "sign"]
    GAP, WORD, TEXT, QUOTE_SEEN = range(4)
    ENDS = {GAP: NOTHING, WORD: (1, None, None), QUOTE_SEEN: (2, None, None)}
    HOLES = {GAP: (b"'", TEXT, b"'"), TEXT: (b"", TEXT, b"")}

    CLOSINGS = {GAP: None, WORD: 1, QUOTE_SEEN: 2}
    BLANKS = b" \t\n\r"
    SIGNS = b"(),;=<>+*:?"
    WORD_BYTES = LOWER + LOWER.upper() + DIGITS + b"_."

    @classmethod
    def step(cls, context, byte):
        if byte == 0:
            return None
        if context == cls.TEXT:
            return (cls.QUOTE_SEEN, NOTHING) if byte == ord("'") else (cls.TEXT, keep(byte))
        if byte == ord("'"):
            if context == cls.WORD:
                return None
            return cls.TEXT, ((None, OPEN, None) if context == cls.GAP else keep(byte))
        if context == cls.WORD and byte in cls.WORD_BYTES:
            return cls.WORD, keep(byte)
        closing = cls.CLOSINGS[context]
        if byte in cls.BLANKS:
            return cls.GAP, (closing, None, None)
        if byte in cls.SIGNS:
            return cls.GAP, (closing, byte, 3)
        if byte in cls.WORD_BYTES:
            return cls.WORD, (closing, byte, None)
        return None

    @classmethod
    def spelling(cls, context, byte):
        if byte == 0 or context != cls.TEXT:
            return None
        return b"''" if byte == ord("'") else bytes([byte])


class Csv:
    KINDS = ["field", "row"]
    ROW_START, FIELD_START, BARE, QUOTED, QUOTE_SEEN, RETURN_SEEN = range(6)
    ENDS = {ROW_START: NOTHING, FIELD_START: (1, None, 2), BARE: (1, None, 2),
            QUOTE_SEEN: (1, None, 2)}
    HOLES = {ROW_START: (b'"', QUOTED, b'"'), FIELD_START: (b'"', QUOTED, b'"'),
             BARE: (b"", BARE, b""), QUOTED: (b"", QUOTED, b"")}

    TEXTDATA = b"\x20\x21" + bytes(range(0x23, 0x2C)) + bytes(range(0x2D, 0x7F))

    @classmethod
    def step(cls, context, byte):
        if context == cls.RETURN_SEEN:
            return (cls.ROW_START, (1, None, 2)) if byte == ord("\n") else None
        if context == cls.QUOTED:
            if byte == ord('"'):
                return cls.QUOTE_SEEN, NOTHING
            return (cls.QUOTED, keep(byte)) if byte in cls.TEXTDATA + b",\n\r" else None
        if byte == ord(","):
            return cls.FIELD_START, (1, None, None)
        if byte == ord("\r"):
            return cls.RETURN_SEEN, (None, OPEN, None)
        if context == cls.QUOTE_SEEN:
            return (cls.QUOTED, keep(byte)) if byte == ord('"') else None
        if byte == ord('"'):
            return None if context == cls.BARE else (cls.QUOTED, (None, OPEN, None))
        return (cls.BARE, keep(byte)) if byte in cls.TEXTDATA else None

    @classmethod
    def spelling(cls, context, byte):
        if context in (cls.BARE, cls.QUOTED) and byte in cls.TEXTDATA:
            return bytes([byte])
        if context == cls.QUOTED and byte in b'",\n\r':
            return b'""' if byte == ord('"') else bytes([byte])
        return None


HOSTS = {"shell": Shell, "sql": Sql, "csv": Csv}


# ---- Runs ------------------------------------------------------------------------------

class Mark(NamedTuple):
    """Where the value of a hole belongs, in a template or in a token."""

    hole: int


class Run:
    """A run under a host. A token is a kind with a row of bytes and marks."""

    def __init__(self, host):
        self.host, self.context, self.tokens, self.open = host, 0, [], None

    def add(self, *parts):
        """Adds to the open token, which is opened if none is."""
        if self.open is None:
            self.open = []
        self.open += parts

    def close(self, kind):
        if kind is not None:
            self.tokens.append((kind, self.open or []))
            self.open = None

    def apply(self, effect):
        first, middle, last = effect
        self.close(first)
        if middle is not None:
            self.add(*([] if middle == OPEN else [middle]))
        self.close(last)

    def read(self, byte):
        """Whether the host takes the byte; then it is read."""
        step = self.host.step(self.context, byte)
        if step is not None:
            self.context = step[0]
            self.apply(step[1])
        return step is not None

    def read_hole(self, number):
        """The body of the hole, or None where the host takes no hole."""
        if self.context not in self.host.HOLES:
            return None
        opener, body, closer = self.host.HOLES[self.context]
        assert all([self.read(byte) for byte in opener]) and self.context == body
        self.add(Mark(number))
        assert all([self.read(byte) for byte in closer])
        return body

    def read_end(self):
        """Whether the host takes the end."""
        effect = self.host.ENDS.get(self.context)
        if effect is not None:
            self.apply(effect)
        return effect is not None


def reading(host, text):
    """The tokens of a text, each a kind and its bytes; None where the host refuses the text."""
    run = Run(host)
    if not all(run.read(byte) for byte in text) or not run.read_end():
        return None
    return [(kind, bytes(parts)) for kind, parts in run.tokens]


def filled_in(plan, values):
    """The tokens of a plan with the values in place of the marks."""
    return [(kind, b"".join(values[part.hole] if isinstance(part, Mark) else bytes([part])
                            for part in parts))
            for kind, parts in plan]


# ---- Templates -------------------------------------------------------------------------

ESCAPES = {ord("@"): 0x40, ord("n"): 0x0A, ord("r"): 0x0D, ord("t"): 0x09}


class Hole(NamedTuple):
    name: bytes
    place: int
    body: int


class Template(NamedTuple):
    """What is known of a template that a host takes. Items are bytes and marks."""

    items: list
    holes: list
    plan: list


def is_name(name):
    return 1 <= len(name) <= MAX_NAME and name[0] in LOWER and \
        all(byte in LOWER + DIGITS + b"_" for byte in name)


def name_end(template, start):
    """The place of the brace that ends the name at `start`."""
    for place in range(start, len(template)):
        byte, length = template[place], place - start
        if byte == ord("}") and length >= 1:
            return place
        fits = byte in LOWER or (length >= 1 and byte in DIGITS + b"_")
        if length == MAX_NAME or not fits:
            raise Refused(3, place)
    raise Refused(3, len(template))


def walk(host, template):
    """The items and the holes of a template, and its run before the end; raises Refused."""
    if len(template) > MAX_LENGTH:
        raise Refused(1, MAX_LENGTH)
    items, holes, run, place = [], [], Run(host), 0
    while place < len(template):
        byte, after = template[place], place + 1
        if byte == ord("@"):
            choice = template[after] if after < len(template) else None
            if choice == ord("{"):
                brace = name_end(template, place + 2)
                if len(holes) == MAX_HOLES:
                    raise Refused(5, place)
                body = run.read_hole(len(holes))
                if body is None:
                    raise Refused(7, place)
                items.append(Mark(len(holes)))
                holes.append(Hole(template[place + 2:brace], place, body))
                place = brace + 1
                continue
            if choice not in ESCAPES:
                raise Refused(2, place)
            byte, after = ESCAPES[choice], place + 2
        if not run.read(byte):
            raise Refused(6, place)
        items.append(byte)
        place = after
    return items, holes, run


def check(host, template):
    """The template as the host takes it; raises Refused."""
    items, holes, run = walk(host, template)
    if not run.read_end():
        raise Refused(8, len(template))
    return Template(items, holes, run.tokens)


def shown_line(line):
    """A line of a file, as the program shows it."""
    return b"".join(bytes([byte]) if 0x20 <= byte <= 0x7E else b"\\x%02x" % byte for byte in line)


def shown_fault(template, refused):
    """The refusal of a template as the program tells it, with a caret under the place."""
    before = shown_line(template[:refused.place].rpartition(b"\n")[2])
    after = shown_line(template[refused.place:].partition(b"\n")[0])
    return [refused.line(), before + after, b" " * len(before) + b"^"]


def shown(byte):
    """A byte of a token in the notation of templates, as the program prints it."""
    if byte == ord("@"):
        return b"@@"
    return bytes([byte]) if 0x20 <= byte <= 0x7E and byte not in b'\\"' else b"\\x%02x" % byte


def shown_plan(template):
    """The tokens of a template's plan, each a kind and what it holds as the program prints it."""
    return [(kind, b"".join(b"@{%s}" % template.holes[part.hole].name if isinstance(part, Mark)
                            else shown(part) for part in parts))
            for kind, parts in template.plan]


# ---- Filling and printing --------------------------------------------------------------

def turned_away(host, body, value):
    """The place of the first byte of the value that the body turns away, or None."""
    places = [place for place, byte in enumerate(value) if host.spelling(body, byte) is None]
    return places[0] if places else None


class Slate:
    """For each hole its value, or None where it is owed."""

    def __init__(self, host, holes):
        self.host, self.holes, self.values = host, holes, [None] * len(holes)

    def bind(self, hole, value):
        if hole >= len(self.holes):
            raise Refused(10, 0, hole)
        if self.values[hole] is not None:
            raise Refused(11, 0, hole)
        if len(value) > MAX_VALUE:
            raise Refused(12, MAX_VALUE, hole)
        place = turned_away(self.host, self.holes[hole].body, value)
        if place is not None:
            raise Refused(13, place, hole)
        self.values[hole] = value

    def release(self, hole):
        if hole >= len(self.holes):
            raise Refused(10, 0, hole)
        if self.values[hole] is None:
            raise Refused(14, 0, hole)
        self.values[hole] = None

    def owed(self):
        """The holes that are owed, in order."""
        return [hole for hole, value in enumerate(self.values) if value is None]

    def finish(self):
        """The number of holes; raises Refused."""
        if self.owed():
            raise Refused(15, 0, self.owed()[0])
        return len(self.holes)


def text_of(host, items, values):
    """The text of a template with values that its holes take."""
    text, context = b"", 0
    for item in items:
        if not isinstance(item, Mark):
            written, read = bytes([item]), bytes([item])
        else:
            opener, body, closer = host.HOLES[context]
            spelled = b"".join(host.spelling(body, byte) for byte in values[item.hole])
            written, read = opener + spelled + closer, opener + closer
        text += written
        for byte in read:
            context = host.step(context, byte)[0]
    return text


# ---- Records ---------------------------------------------------------------------------

NAME, VALUE, END = 1, 2, 3


class Record(NamedTuple):
    pairs: list
    end: int    # the place of the end tag
    next: int   # the place after the record


def field(tag, value):
    """The written form of a field."""
    return bytes([tag]) + len(value).to_bytes(2, "big") + value


def record(pairs):
    """The written form of a record."""
    written = [field(NAME, name) + field(VALUE, value) for name, value in pairs]
    return b"".join(written) + field(END, b"")


def read_field(data, place):
    """The tag and the bytes of the field at a place, and the place after it; raises Refused."""
    if place >= len(data):
        raise Refused(20, len(data))
    start = place + 3
    after = start + int.from_bytes(data[place + 1:start], "big")
    if len(data) < start or len(data) < after:
        raise Refused(20, place)
    if data[place] not in (NAME, VALUE, END):
        raise Refused(21, place)
    return data[place], data[start:after], after


def read_record(data, place):
    """The record at a place, or None where the input ends there; raises Refused."""
    if place == len(data):
        return None
    pairs = []
    while True:
        tag, name, after = read_field(data, place)
        if tag == VALUE:
            raise Refused(22, place)
        if tag == END:
            if name:
                raise Refused(27, place)
            return Record(pairs, place, after)
        if not is_name(name):
            raise Refused(23, place)
        if len(pairs) == MAX_PAIRS:
            raise Refused(25, place)
        if name in dict(pairs):
            raise Refused(26, place)
        place = after
        tag, value, after = read_field(data, place)
        if tag != VALUE:
            raise Refused(22, place)
        if len(value) > MAX_VALUE:
            raise Refused(24, place)
        pairs.append((name, value))
        place = after


# ---- Merging ---------------------------------------------------------------------------

class Merged(NamedTuple):
    text: bytes
    values: list    # the value of each hole
    next: int


def merge(host, template, data, place):
    """The record at a place merged into a template, or None at the input's end; raises Refused."""
    found = read_record(data, place)
    if found is None:
        return None
    slate, pairs = Slate(host, template.holes), dict(found.pairs)
    for number, hole in enumerate(template.holes):
        if hole.name not in pairs:
            raise Refused(30, found.end, number)
        slate.bind(number, pairs[hole.name])
    slate.finish()
    return Merged(text_of(host, template.items, slate.values), slate.values, found.next)
