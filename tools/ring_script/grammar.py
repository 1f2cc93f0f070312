"""The lines of a script: what each says, and the first that is outside the grammar (docs/FORMATS.md)."""
import re
from typing import NamedTuple

from .table import ENUMS, LIMITS

INPUT_LIMIT = LIMITS["DATA_LIMIT"]
KINDS = ("FLOAT", "FLOAT_VEC2", "FLOAT_VEC3", "FLOAT_VEC4", "FLOAT_MAT2", "FLOAT_MAT3", "FLOAT_MAT4")
UNIFORM_KINDS = KINDS + ("INT", "INT_VEC2", "INT_VEC3", "INT_VEC4", "BOOL", "BOOL_VEC2", "BOOL_VEC3", "BOOL_VEC4", "SAMPLER_2D", "SAMPLER_CUBE")
COLUMNS = {"FLOAT_MAT2": 2, "FLOAT_MAT3": 3, "FLOAT_MAT4": 4}

FORMS = {
    "surface": "`surface W H`, once, with sides of 1 to 2,048",
    "ring": "`ring N` with 2 to 1,048,576 entries, once, before every line of memory and `put`",
    "region": "`region ID SIZE` with an ID of 1 to 255 that no line has, and at most 67,108,864 bytes, 268,435,456 with all before",
    "bytes": "`bytes REGION OFFSET HEX` inside the ring, which is region 0, or a region of a line before",
    "at": "`at COPY REGION OFFSET HEX` inside the ring, which is region 0, or a region of a line before",
    "put": "`put K`",
    "oom": "`oom N`, each with another N",
    "lost": "`lost N`, once",
    "compile": "`compile ok HEX` or `compile fail HEX`",
    "link": "`link ok HEX` or `link fail HEX`",
    "validate": "`validate ok HEX` or `validate fail HEX`",
    "pixels": "`pixels HEX`",
    "attr": "`attr NAME KIND LOCATION` behind `link ok`, with another name and locations up to 15 that none before it has",
    "uniform": "`uniform NAME KIND SIZE` behind `link ok` and its lines `attr`, with another name, and a size above 1 for `NAME[0]` alone",
}
WORDS = ", ".join(f"`{word}`" for word in FORMS)


class BadLine(Exception):
    """A line, what was found in it, and what may stand there."""

    def __init__(self, number, found, expected):
        super().__init__(number, found, expected)
        self.number, self.found, self.expected = number, found, expected

    def __str__(self):
        return f"line {self.number}: found {self.found}; what may stand there: {self.expected}"


class Line(NamedTuple):
    """A line of a script: its number, its text, its first word (none where it is passed over), and the values of its fields."""

    number: int
    text: str
    word: str
    values: tuple


class Outside(Exception):
    """A field is outside the grammar, or the line may not stand there."""


def number(text):
    if not re.fullmatch(r"0|[1-9][0-9]*|0x[0-9A-Fa-f]{1,8}", text, re.A) or (value := int(text, 0)) >= 2**32:
        raise Outside(f"`{text}`, which is no number below 2^32")
    return value


def hexadecimal(text):
    if text == "-":
        return b""
    if not re.fullmatch(r"(?:[0-9A-Fa-f]{2})+", text, re.A):
        raise Outside(f"`{shortened(text)}`, which is neither `-` nor pairs of hexadecimal digits")
    return bytes.fromhex(text)


def shortened(text):
    """A text for a message."""
    return text if len(text) <= 60 else text[:57] + "..."


def lines_of(data):
    """The lines of an input, as text of one character a byte."""
    lines = data.decode("latin-1").split("\n")
    return lines if lines[-1] else lines[:-1]


class Script:
    """What the lines so far say. `take` takes the next one."""

    def __init__(self):
        self.entries = LIMITS["DEFAULT_ENTRIES"]
        self.sizes = {}
        self.lines = []
        self.said = set()
        self.rooms = set()
        # What the last `link ok` has, while its list may grow: names of attributes, locations, names of uniforms and their sizes.
        self.link = None

    def size_of(self, region):
        size = 4 * self.entries if region == 0 else self.sizes.get(region)
        if size is None:
            raise Outside(f"region {region}, which is not there")
        return size

    def take(self, at, text):
        """The line that this text is, or BadLine."""
        if text == "" or text.startswith("#"):
            line = Line(at, text, "", ())
        else:
            word, *fields = text.split(" ")
            rule = RULES.get(word)
            if rule is None:
                raise BadLine(at, f"`{shortened(text)}`", f"an empty line, a comment, or a line that begins with {WORDS}")
            try:
                line = Line(at, text, word, tuple(rule(self, word, fields)))
            except Outside as outside:
                raise BadLine(at, str(outside), FORMS[word]) from None
        self.lines.append(line)
        return line

    def once(self, word, key):
        if key in self.said:
            raise Outside(f"a second `{word}`")
        self.said.add(key)

    def ends_list(self):
        self.link = None

    def ranged(self, region, offset, data):
        size = self.size_of(region)
        if offset + len(data) > size:
            raise Outside(f"{len(data)} bytes from {offset} on, which leave {'the ring' if region == 0 else f'region {region}'} of {size} bytes")

    def surface(self, word, fields):
        sides = [number(field) for field in exactly(2, fields)]
        if not all(1 <= side <= LIMITS["SIDE_LIMIT"] for side in sides):
            raise Outside(f"the sides {sides[0]} and {sides[1]}")
        self.once(word, word)
        self.ends_list()
        return sides

    def ring(self, word, fields):
        (entries,) = [number(field) for field in exactly(1, fields)]
        if not LIMITS["LEAST_ENTRIES"] <= entries <= LIMITS["MOST_ENTRIES"]:
            raise Outside(f"{entries} entries")
        if "memory" in self.said:
            raise Outside("a `ring` behind a line of memory or a `put`")
        self.once(word, "memory")
        self.ends_list()
        self.entries = entries
        return [entries]

    def region(self, word, fields):
        region, size = [number(field) for field in exactly(2, fields)]
        if not 1 <= region <= LIMITS["LAST_REGION"] or region in self.sizes:
            raise Outside(f"the region {region}" + ", which a line before has" * (region in self.sizes))
        if size > LIMITS["DATA_LIMIT"] or 4 * self.entries + sum(self.sizes.values()) + size > LIMITS["TOTAL_LIMIT"]:
            raise Outside(f"{size} bytes")
        self.says_memory()
        self.sizes[region] = size
        return [region, size]

    def says_memory(self):
        self.said.add("memory")
        self.ends_list()

    def bytes(self, word, fields):
        region, offset, text = exactly(3, fields)
        region, offset, data = number(region), number(offset), hexadecimal(text)
        self.ranged(region, offset, data)
        self.says_memory()
        return [region, offset, data]

    def at(self, word, fields):
        copy, *rest = exactly(4, fields)
        return [number(copy), *self.bytes(word, rest)]

    def put(self, word, fields):
        (put,) = [number(field) for field in exactly(1, fields)]
        self.says_memory()
        return [put]

    def oom(self, word, fields):
        (question,) = [number(field) for field in exactly(1, fields)]
        if question in self.rooms:
            raise Outside(f"a second `oom {question}`")
        self.rooms.add(question)
        self.ends_list()
        return [question]

    def lost(self, word, fields):
        (calls,) = [number(field) for field in exactly(1, fields)]
        self.once(word, word)
        self.ends_list()
        return [calls]

    def verdict(self, word, fields):
        said, log = exactly(2, fields)
        if said not in ("ok", "fail"):
            raise Outside(f"`{shortened(said)}`")
        log = hexadecimal(log)
        self.link = (set(), set(), {}) if (word, said) == ("link", "ok") else None
        return [said, log]

    def pixels(self, word, fields):
        (text,) = exactly(1, fields)
        data = hexadecimal(text)
        self.ends_list()
        return [data]

    def attr(self, word, fields):
        name, kind, location = exactly(3, fields)
        name, kind, location = named(name), kind_of(kind, KINDS), number(location)
        taken = set(range(location, location + COLUMNS.get(kind, 1)))
        if self.link is None or self.link[2]:
            raise Outside("an `attr` that is not behind a `link ok` or its lines `attr`")
        names, locations, _ = self.link
        if name in names:
            raise Outside(f"a second attribute `{name}`")
        if max(taken) > LIMITS["LAST_ATTRIBUTE"] or taken & locations:
            raise Outside(f"the location {location}")
        names.add(name)
        locations |= taken
        return [name, kind, location]

    def uniform(self, word, fields):
        name, kind, size = exactly(3, fields)
        name, kind, size = named(name), kind_of(kind, UNIFORM_KINDS), number(size)
        if self.link is None:
            raise Outside("a `uniform` that is not behind a `link ok` and its lines")
        uniforms = self.link[2]
        if name in uniforms:
            raise Outside(f"a second uniform `{name}`")
        if size < 1 or (size > 1 and not name.endswith("[0]")) or sum(uniforms.values()) + size > LIMITS["UNIFORM_LIMIT"]:
            raise Outside(f"the size {size}")
        uniforms[name] = size
        return [name, kind, size]


def exactly(count, fields):
    if len(fields) != count:
        raise Outside(f"{len(fields)} fields" if len(fields) != 1 else "1 field")
    return fields


def named(text):
    if not re.fullmatch(rf"[A-Za-z0-9_.\[\]]{{1,{LIMITS['NAME_LENGTH_LIMIT']}}}", text, re.A):
        raise Outside(f"the name `{shortened(text)}`")
    return text


def kind_of(text, kinds):
    """The kind of this name or number."""
    for kind in kinds:
        if text == kind:
            return kind
    try:
        value = number(text)
    except Outside:
        raise Outside(f"the kind `{shortened(text)}`") from None
    for kind in kinds:
        if value == ENUMS[kind]:
            return kind
    raise Outside(f"the kind `{text}`")


RULES = {word: getattr(Script, word) for word in FORMS if word not in ("compile", "link", "validate")}
RULES |= {word: Script.verdict for word in ("compile", "link", "validate")}


def parsed(data):
    """The script that the bytes are, or BadLine."""
    script = Script()
    for at, text in enumerate(lines_of(data), 1):
        script.take(at, text)
    return script
