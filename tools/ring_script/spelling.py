"""How commands and their words are written by name, and read."""
import re
import struct

from .table import BITS, BY_NAME, ENUMS, bits_name, enum_name

WORD_LIMIT = 2**32
FIELD = "a number below 2^32 (`31`, `0x1F`, `-1`), the name of an enum, or bits as `COLOR_BUFFER_BIT|DEPTH_BUFFER_BIT`"
FLOAT = "a float as `1.0` or `-2.5e3`, or its pattern as a number"
DATA = "`none`, `data REGION OFFSET HEX`, `region REGION OFFSET COUNT`, `bucket BUCKET COUNT`, or the four words as numbers"
PLACE = "`reply REGION OFFSET`, or the two words as numbers"


class Wrong(Exception):
    """What was found, and what may stand there."""

    def __init__(self, found, expected):
        super().__init__(found)
        self.found, self.expected = found, expected


def number_word(text):
    """The word of a number, or None: decimal, also behind `-` down to -2^31, or hexadecimal behind `0x`."""
    if re.fullmatch(r"0|[1-9][0-9]*|0x[0-9A-Fa-f]{1,8}", text, re.A):
        value = int(text, 0)
        return value if value < WORD_LIMIT else None
    if re.fullmatch(r"-[1-9][0-9]*", text, re.A):
        value = int(text)
        return value + WORD_LIMIT if value >= -(2**31) else None
    return None


def float_word(text):
    """The pattern of the float that is nearest to a decimal number with a point, or None."""
    if not re.fullmatch(r"-?[0-9]+\.[0-9]+(e-?[0-9]+)?", text, re.A):
        return None
    try:
        return struct.unpack("<I", struct.pack("<f", float(text)))[0]
    except OverflowError:
        return None


def name_word(text):
    """The value of an enum, or of bits with `|` between them, or None."""
    if text in ENUMS:
        return ENUMS[text]
    bits = text.split("|")
    if all(bit in BITS for bit in bits) and len(set(bits)) == len(bits):
        return sum(BITS[bit] for bit in bits)
    return None


def word_of(text, word):
    """The word that a text spells where this word of a command stands, or Wrong."""
    value = number_word(text)
    if value is None:
        value = float_word(text) if word.form == "f" else name_word(text)
    if value is None:
        name = f" for `{word.name}`" if word.name else ""
        raise Wrong(f"`{text}`{name}", FLOAT if word.form == "f" else FIELD)
    return value


def float_text(pattern):
    """A float in digits, where they give its pattern back, or its pattern."""
    (value,) = struct.unpack("<f", struct.pack("<I", pattern))
    for digits in range(1, 10):
        text = f"{value:.{digits}g}"
        if "." not in text and "e" not in text:
            text += ".0"
        if float_word(text) == pattern:
            return text
    return f"0x{pattern:08X}"


def word_text(command, word, value):
    """How a word is written: by name where it has one."""
    if word.form == "e":
        return enum_name(command, word, value) or (str(value) if value < 16 else f"0x{value:04X}")
    if word.form == "i":
        return str(value - WORD_LIMIT if value >= 2**31 else value)
    if word.form == "f":
        return float_text(value)
    if command.name == "Clear" and bits_name(value):
        return bits_name(value)
    return str(value) if value < 2**31 else f"0x{value:08X}"


def data_text(words):
    source, count, place, offset = words
    if words == [0, 0, 0, 0]:
        return "none"
    if source == 1:
        return f"region {place} {offset} {count}"
    if source == 2 and offset == 0:
        return f"bucket {place} {count}"
    return " ".join(map(str, words))


def command_text(command, size, words):
    """A command by name, with its words; of a Noop the words are not looked at."""
    if command.is_of_any_size:
        return command.name if size == 1 else f"{command.name} size {size}"
    own, rest = words[: len(command.words)], words[len(command.words) :]
    parts = [word_text(command, word, value) for word, value in zip(command.words, own)]
    if command.places_bytes:
        parts[-2:] = [f"reply {own[-2]} {own[-1]}"]
    if command.has_data:
        parts.append(data_text(rest))
    if command.reply_words is not None:
        parts.append(f"reply {rest[0]} {rest[1]}")
    return " ".join([command.name, *parts])


class Spelled:
    """A command that was read: its header's size, the words that stand behind the header, and data that has to stand in a region."""

    def __init__(self, number, words, size=None, data=None):
        self.number, self.words, self.data = number, words, data
        self.size = 1 + len(words) if size is None else size


def read_numbers(fields):
    words = [number_word(field) for field in fields]
    if None in words:
        raise Wrong(f"`{fields[words.index(None)]}`", "a number below 2^32")
    return words


def read_data(fields, hexadecimal):
    """The four words of data, and what they say has to stand in a region: the region, the offset and the bytes."""
    if fields == ["none"]:
        return [0, 0, 0, 0], None
    if len(fields) == 4 and fields[0] == "data":
        region, offset = read_numbers(fields[1:3])
        data = hexadecimal(fields[3])
        return [1, len(data), region, offset], (region, offset, data)
    if len(fields) == 4 and fields[0] == "region":
        region, offset, count = read_numbers(fields[1:])
        return [1, count, region, offset], None
    if len(fields) == 3 and fields[0] == "bucket":
        bucket, count = read_numbers(fields[1:])
        return [2, count, bucket, 0], None
    if len(fields) == 4:
        return read_numbers(fields), None
    raise Wrong(f"`{' '.join(fields)}`" if fields else "the end of the line", DATA)


def read_place(fields):
    if len(fields) == 3 and fields[0] == "reply":
        fields = fields[1:]
    if len(fields) != 2:
        raise Wrong(f"`{' '.join(fields)}`" if fields else "the end of the line", PLACE)
    return read_numbers(fields)


def read_noop(command, fields):
    if fields[:1] == ["size"]:
        size = number_word(fields[1]) if len(fields) == 2 else None
        if size is None or not 1 <= size < 2**21:
            raise Wrong(f"`{' '.join(fields)}`", "`size N` with N of 1 to 2,097,151")
        return Spelled(command.number, [], size)
    return Spelled(command.number, read_numbers(fields))


def read_command(name, fields, hexadecimal):
    """The command that a line of a name and its words spells, or Wrong."""
    command = BY_NAME[name]
    if command.is_of_any_size:
        return read_noop(command, fields)
    count = len(command.words) - 2 * command.places_bytes
    own, rest = fields[:count], fields[count:]
    if len(own) < count or (rest and command.word_count == count):
        raise Wrong(f"{len(fields)} of {name}'s words", f"{name} and {command.usage}")
    words = [word_of(text, word) for text, word in zip(own, command.words)]
    data = None
    if command.has_data:
        more, data = read_data(rest, hexadecimal)
        words += more
    elif command.word_count > count:
        words += read_place(rest)
    return Spelled(command.number, words, None, data)
