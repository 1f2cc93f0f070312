"""The table of commands, the names of enums and the limits, as the sources of the repository have them."""
import re
from pathlib import Path
from typing import NamedTuple

CRATES = Path(__file__).resolve().parents[2] / "crates"
NUMBERS = CRATES / "gl_plain/src/numbers.rt"
LAYOUTS = CRATES / "cb_format/specs/Layouts.antt"
NAMES = CRATES / "cb_format/src/tables.rt"
CONSTANTS = CRATES / "gl_base/src"

# Modes of draws and texture units, of which the sources name the ends alone (OpenGL ES 2.0.25, sections 2.6.1 and 3.7).
MODES = ("POINTS", "LINES", "LINE_LOOP", "LINE_STRIP", "TRIANGLES", "TRIANGLE_STRIP", "TRIANGLE_FAN")


class TableError(Exception):
    """The sources don't say what the tool needs, or don't agree."""


class Word(NamedTuple):
    """A word of a command: its name, if it has one, and its form: `e` an enum, `i` signed, `u` unsigned, `f` a float, `b` a boolean."""

    name: str
    form: str


class Command(NamedTuple):
    """A command: its words before those of data or of a reply's place, whether data follows, and the most words of a reply that follows."""

    number: int
    name: str
    words: tuple[Word, ...]
    has_data: bool
    reply_words: int | None
    is_of_any_size: bool

    @property
    def word_count(self):
        return len(self.words) + 4 * self.has_data + 2 * (self.reply_words is not None)

    @property
    def places_bytes(self):
        """GetBucketData: its last words are a count, and the region and the place where so many bytes go."""
        return [word.name for word in self.words[-3:]] == ["count", "region", "place"]

    @property
    def usage(self):
        """What stands behind the name, in words."""
        if self.is_of_any_size:
            return "nothing, `size N`, or the words behind it"
        parts = [f"{word.name or 'word'}:{word.form}" for word in self.words]
        if self.places_bytes:
            parts[-2:] = ["PLACE"]
        return " ".join(parts + ["DATA"] * self.has_data + ["PLACE"] * (self.reply_words is not None)) or "nothing"


def words_of(said, constant):
    """The words that the comment of a row names: `target:e id:u`, with `D` for data, `R(k)` for a reply and `B` for a bucket."""
    words, has_data, reply = [], False, None
    for part in said.split():
        if has_data or reply is not None:
            raise TableError(f"{LAYOUTS}: {constant}: words behind those of data or a reply")
        if part == "D":
            has_data = True
        elif part == "B":
            words.append(Word("bucket", "u"))
        elif found := re.fullmatch(r"R\((\d+)\)", part):
            reply = int(found[1])
        elif found := re.fullmatch(r"(?:(\w+):)?([eiufb])", part):
            words.append(Word(found[1] or "", found[2]))
        else:
            raise TableError(f"{LAYOUTS}: {constant}: the word {part} has no form")
    return tuple(words), has_data, reply


def read_commands():
    numbers = {name: int(number) for name, number in re.findall(r"pub const (\w+): u32 = (\d+);", NUMBERS.read_text())}
    names = {int(number): name for number, name in re.findall(r"// (\d+) (\w+)$", NAMES.read_text(), re.M)}
    commands = []
    for constant, layout, said in re.findall(r"\((\w+), (of_any_size|[\w ]+)\) ∷  --(.*)$", LAYOUTS.read_text(), re.M):
        number = numbers.get(constant)
        name = names.get(number)
        if name is None or name.upper() != constant.replace("_", ""):
            raise TableError(f"{constant}: {NUMBERS} and {NAMES} don't name the command")
        kind, *counts = layout.split(" ")
        words, has_data, reply = words_of("" if kind == "of_any_size" else said, constant)
        command = Command(number, name, words, has_data, reply, kind == "of_any_size")
        wanted = {
            "of_any_size": [],
            "plain": [len(words)],
            "with_data": [len(words)] if has_data else None,
            "with_reply": [len(words), reply] if reply is not None else None,
        }
        if wanted.get(kind) != [int(count) for count in counts] or (has_data and kind != "with_data"):
            raise TableError(f"{LAYOUTS}: {constant}: the comment names other words than the layout")
        commands.append(command)
    if len(commands) != len(numbers) or len({command.number for command in commands}) != len(numbers):
        raise TableError(f"{NUMBERS} and {LAYOUTS} have other commands")
    return commands


def read_enums():
    enums, bits = {}, {}
    for path in sorted(CONSTANTS.glob("*.rt")):
        text = path.read_text()
        for name, value in re.findall(r"pub const (\w+): GlEnum = GlEnum\((\w+)\);", text):
            enums[name.removesuffix("_FACTOR") if name == "ONE_FACTOR" else name] = int(value, 0)
        for name, value in re.findall(r"pub const (\w+_BIT): u32 = (\w+);", text):
            bits[name] = int(value, 0)
    if enums.get(MODES[-1]) != len(MODES) - 1 or enums.get("TEXTURE7", 0) - enums.get("TEXTURE0", 0) != 7:
        raise TableError(f"{CONSTANTS}: the modes or the texture units end elsewhere")
    enums.update((mode, at) for at, mode in enumerate(MODES))
    enums.update((f"TEXTURE{unit}", enums["TEXTURE0"] + unit) for unit in range(8))
    return enums, bits


def read_limits():
    text = (CONSTANTS / "limits.rt").read_text()
    return {name: int(value.replace("_", ""), 0) for name, value in re.findall(r"pub const (\w+): u(?:32|64) = (\w+);", text)}


LIMITS = read_limits()
COMMANDS = read_commands()
BY_NAME = {command.name: command for command in COMMANDS}
BY_NUMBER = {command.number: command for command in COMMANDS}
ENUMS, BITS = read_enums()

# Values below this have several names; which one is meant, the word tells.
LEAST_NAMED = 16
NAME_OF = {value: name for name, value in sorted(ENUMS.items(), reverse=True) if value >= LEAST_NAMED}
FACTORS = {"srcrgb", "dstrgb", "srcalpha", "dstalpha"}
STENCIL_ACTIONS = {"fail", "zfail", "zpass"}


def enum_name(command, word, value):
    """The name of an enum as the word of a command has it, or None."""
    if command.name.startswith("Draw") and word.name == "mode" and value < len(MODES):
        return MODES[value]
    if word.name in FACTORS and value in (0, 1):
        return ("ZERO", "ONE")[value]
    if word.name in STENCIL_ACTIONS and value == 0:
        return "ZERO"
    return NAME_OF.get(value)


def bits_name(value):
    """The names of all bits of a mask with `|` between them, or None where one has none, or none is set."""
    named = [name for name, bit in BITS.items() if value & bit]
    return "|".join(named) if named and sum(BITS[name] for name in named) == value else None
