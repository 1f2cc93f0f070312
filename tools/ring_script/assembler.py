"""Makes a script from commands that are written by name: first where everything stands, then its lines, and last the copies that labels name."""
import re
from difflib import get_close_matches
from typing import NamedTuple

from . import grammar, spelling
from .grammar import BadLine, Script, lines_of, shortened
from .table import BY_NAME
from .wire import Memory, Wire, header, packed, wire_of

LABEL = r"[a-z_][a-z0-9_]*"
ENTRY_FORM = "an entry of the ring, a label, or a label and entries behind it as `label+2`"
PUT_FORM = f"`put` alone, or with {ENTRY_FORM}"
COPY_FORM = "a number, or a label with `.header`, `.words` or `.data`"
PARTS = ("header", "words", "data")


class Item(NamedTuple):
    """Words that stand in the ring, data that has to stand in a region, and the entries behind that a Noop fills up to the ring's end."""

    entry: int
    words: list
    data: tuple | None
    fill: int


class Label(NamedTuple):
    """The entry that a label names, and how many commands were laid out at that entry before."""

    entry: int
    before: int


class Layout:
    """Where the commands of all lines stand. Each line is looked at, but for where the labels in it stand, which may come behind."""

    def __init__(self, texts):
        self.script = Script()
        self.names = {text[:-1] for _, text in texts if re.fullmatch(LABEL + ":", text)}
        self.items, self.labels, self.behind = {}, {}, {}
        self.laid = {}
        self.next = 0
        # How many entries wait for a `put`. Behind a `place` they are not counted any more.
        self.waiting = 0
        for at, text in texts:
            self.take(at, text)
            self.behind[at] = self.next

    def take(self, at, text):
        word, *fields = text.split(" ")
        if word in BY_NAME or word in ("command", "entries"):
            self.lay(at, *spelled(at, word, fields))
        elif re.fullmatch(LABEL + ":", text):
            self.label(at, text[:-1])
        elif word == "place":
            self.place(at, fields)
        elif word == "put":
            self.waiting = None if self.waiting is None else 0
            self.script.take(at, "put 0" if text == "put" else self.without_labels(at, text))
        elif word and word not in grammar.FORMS and not text.startswith("#"):
            raise BadLine(at, f"`{shortened(text)}`", expected(word))
        else:
            self.script.take(at, self.without_labels(at, text))

    def without_labels(self, at, text):
        """A line with numbers where labels stand."""
        fields = text.split(" ")
        if named_copy(text):
            self.known(at, fields[1].split(".")[0], fields[1], COPY_FORM)
            fields[1] = "0"
        if (place := label_place(fields)) is not None:
            self.known(at, fields[place].split("+")[0], fields[place], ENTRY_FORM)
            fields[place] = "0"
        return " ".join(fields)

    def known(self, at, name, found, form):
        if name not in self.names:
            raise BadLine(at, f"`{shortened(found)}`, which is no label", form)

    def label(self, at, name):
        if name in self.labels:
            raise BadLine(at, f"a second label `{name}:`", "a label that no line before has")
        self.labels[name] = Label(self.next, self.laid.get(self.next, 0))

    def place(self, at, fields):
        entry = entry_of(at, fields[0], self.labels) if len(fields) == 1 else None
        if entry is None or entry >= self.script.entries:
            raise BadLine(at, f"`{' '.join(['place', *fields])}`", f"`place` and {ENTRY_FORM}, which stands before it")
        self.next, self.waiting = entry, None

    def lay(self, at, words, size, data):
        entries = self.script.entries
        if size > entries:
            raise BadLine(at, f"{size} entries", f"at most {entries} entries, which the ring has")
        fill = entries - self.next if self.next + size > entries else 0
        if self.waiting is not None:
            self.waiting += fill + size
            if self.waiting >= entries:
                raise BadLine(at, "a command for which the ring has no room", f"a `put` before it, as at most {entries - 1} entries may wait")
        self.script.says_memory()
        if data:
            region, offset, own = data
            self.script.take(at, f"bytes {region} {offset} {own.hex() or '-'}")
        entry = 0 if fill else self.next
        self.items[at] = Item(entry, words, data, fill)
        self.laid[entry] = self.laid.get(entry, 0) + 1
        self.next = (entry + size) % entries


def expected(word):
    """What may stand in place of a first word that is none."""
    near = get_close_matches(word, [*BY_NAME, *grammar.FORMS, "place", "entries", "command"], 1)
    lines = f"an empty line, a comment, a label as `here:`, a command by its name, `command`, `entries`, `place`, {grammar.WORDS}"
    return lines + "".join(f" (perhaps `{name}`)" for name in near)


def is_label(text):
    return re.fullmatch(rf"{LABEL}(\+[0-9]+)?", text, re.A) is not None


def named_copy(text):
    """The label and its part where a line `at` names its copy so, or None."""
    found = re.match(rf"at ({LABEL}\.\w+) ", text, re.A)
    return found and found[1]


def label_place(fields):
    """Which field of a line is a label for an entry, or None."""
    place = {"put": 1, "bytes": 2, "at": 3}.get(fields[0])
    if place is None or len(fields) <= place or not is_label(fields[place]):
        return None
    return place if place == 1 or fields[place - 1] == "0" else None


def entry_of(at, text, labels):
    """The entry that a number, a label, or a label and a number of entries behind it say."""
    value = spelling.number_word(text)
    if value is not None and not text.startswith("-"):
        return value
    name, _, more = text.partition("+")
    if not is_label(text) or name not in labels:
        raise BadLine(at, f"`{shortened(text)}`", ENTRY_FORM)
    return labels[name].entry + int(more or 0)


def spelled(at, word, fields):
    """The words of a line of a command or of entries, how many entries it takes, and its data."""
    try:
        if word == "entries":
            words = spelling.read_numbers(fields)
            if not words:
                raise spelling.Wrong("`entries` alone", "`entries WORD ..`")
            return words, len(words), None
        if word == "command":
            number, *words = spelling.read_numbers(fields) or [2**11]
            if number >= 2**11:
                raise spelling.Wrong(f"`{shortened(' '.join([word, *fields]))}`", "`command NUMBER WORD ..` with a number below 2,048")
            return [header(number, 1 + len(words)), *words], 1 + len(words), None
        command = spelling.read_command(word, fields, hexadecimal)
        return [header(command.number, command.size), *command.words], command.size, command.data
    except spelling.Wrong as wrong:
        raise BadLine(at, shortened(wrong.found), wrong.expected) from None


def hexadecimal(text):
    try:
        return grammar.hexadecimal(text)
    except grammar.Outside as outside:
        raise spelling.Wrong(str(outside), spelling.DATA) from None


class Reader:
    """A service that reads along, so that bytes that are written again are written just before the copy that has to find them."""

    def __init__(self, layout, overwrites):
        self.wire = Wire(Memory({0: 4 * layout.script.entries} | layout.script.sizes), layout.script.entries)
        for line in overwrites:
            self.overwrite(line)

    def overwrite(self, line):
        copy, *where = line.values
        self.wire.memory.overwrite(copy, line.number, *where)

    def follow(self, line):
        """Takes a line of the script, but for the overwrites that were known before."""
        if line.word == "bytes":
            region, offset, data = line.values
            self.wire.memory.regions[region][offset : offset + len(data)] = data
        elif line.word == "put":
            self.copies_up_to(line.values[0])

    def copies_up_to(self, entry):
        """How many copies there are when all commands up to an entry were read."""
        for _ in self.wire.run(entry):
            pass
        return self.wire.memory.copies


class Assembler:
    """The second pass: the lines of the script, in order."""

    def __init__(self, texts):
        self.layout = Layout(texts)
        self.entries = self.layout.script.entries
        self.script = Script()
        # The lines `at` of the script whose copy a label names: the place among all lines, and the label with its part.
        self.named_copies = []
        self.claimed = {}
        self.reader, self.followed = None, 0
        self.texts = [(at, self.resolved(at, text)) for at, text in texts]
        for at, text in self.texts:
            self.take(at, text)

    def resolved(self, at, text):
        """The line with numbers in place of the entries that labels name."""
        if text == "put":
            return f"put {self.layout.behind[at]}"
        fields = text.split(" ")
        place = label_place(fields)
        if place is None:
            return text
        entry = entry_of(at, fields[place], self.layout.labels)
        fields[place] = str(entry if place == 1 else 4 * entry)
        return " ".join(fields)

    def take(self, at, text):
        item = self.layout.items.get(at)
        if item is not None:
            self.lay(at, item)
        elif copy := named_copy(text):
            self.named_copies.append((len(self.script.lines), copy))
            self.script.take(at, text.replace(copy, "0", 1))
        elif not text.startswith("place ") and not re.fullmatch(LABEL + ":", text):
            self.script.take(at, text)

    def lay(self, at, item):
        if item.fill:
            self.put_bytes(at, item, 0, 4 * (self.entries - item.fill), packed([header(0, item.fill)]))
        if item.data:
            self.put_bytes(at, item, *item.data)
        self.put_bytes(at, item, 0, 4 * item.entry, packed(item.words))

    def put_bytes(self, at, item, region, offset, data):
        """Bytes for a command: they stand there at first, or are written when what stood there for another one was read."""
        claimed = self.claimed.setdefault(region, {})
        place = range(offset, offset + len(data))
        said = f"{region} {offset} {data.hex() or '-'}"
        if all(claimed.get(where, own) == own for where, own in zip(place, data)):
            self.script.take(at, f"bytes {said}")
        else:
            copies = self.copies_before(item)
            self.reader.overwrite(self.script.take(at, f"at {copies} {said}"))
        claimed.update(zip(place, data))

    def copies_before(self, item):
        if self.reader is None:
            known = [Script.take(self.layout.script, at, text) for at, text in self.texts if re.match(r"at [0-9]", text)]
            self.reader = Reader(self.layout, known)
        for line in self.script.lines[self.followed :]:
            self.reader.follow(line)
        self.followed = len(self.script.lines)
        return self.reader.copies_up_to(self.entries - item.fill if item.fill else item.entry)

    def output(self):
        """The texts of all lines, with the copies that labels name."""
        texts = [line.text for line in self.script.lines]
        if self.named_copies:
            left_out = {place for place, _ in self.named_copies}
            copies = copies_by_entry(self.script, left_out)
            for place, copy in self.named_copies:
                number = self.copy_of(self.script.lines[place].number, copy, copies)
                texts[place] = texts[place].replace("at 0 ", f"at {number} ", 1)
        return texts

    def copy_of(self, at, text, copies):
        name, part = text.split(".")
        label = self.layout.labels.get(name)
        if label is None or part not in PARTS:
            raise BadLine(at, f"`{text}`", COPY_FORM)
        read = copies.get(label.entry, [])
        if label.before >= len(read) or len(read[label.before]) <= PARTS.index(part):
            raise BadLine(at, f"`{text}`, which no copy takes", COPY_FORM)
        return read[label.before][PARTS.index(part)].number


def copies_by_entry(script, left_out):
    """The copies of each command, by its entry, as if some lines were not there."""
    read = {}
    kept = Script()
    kept.entries, kept.sizes = script.entries, script.sizes
    kept.lines = [line for place, line in enumerate(script.lines) if place not in left_out]
    wire = wire_of(kept)
    for line in kept.lines:
        if line.word == "put":
            for fetched in wire.run(line.values[0]):
                read.setdefault(fetched.entry, []).append(fetched.copies)
    return read


def assembled(data):
    """The script that a text with commands by name spells, in lines, or BadLine."""
    return Assembler(list(enumerate(lines_of(data), 1))).output()
