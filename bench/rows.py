"""Rows as crates/gles2_rows reads them: what stands in a file of rows, and the script that a row makes (docs/FORMATS.md)."""
import re, struct

NOT_A_SCRIPT = ("words", "word", "reads_fail", "writes_fail")


def number(text):
    return (int(text[2:], 16) if text.startswith("0x") else int(text)) % 2**32


def decoded(text):
    return re.sub(rb"%([0-9A-Fa-f]{2})", lambda found: bytes([int(found[1], 16)]), text.encode())


def encoded(line):
    """A text of a row: `%` and two digits for `%`, for what is no printable ASCII, and for a space at the end."""
    return re.sub(rb"%|[^ -~]| $", lambda byte: b"%%%02X" % byte[0][0], line).decode()


def single_lines(lines):
    """The lines, with each line `each N LINE` written out."""
    for line in lines:
        if line.startswith("each "):
            _, times, rest = line.split(" ", 2)
            for above in range(number(times)):
                yield re.sub(r"\{(\w+)\}", lambda found: str(number(found[1]) + above), rest)
        else:
            yield line


def text_of(word, rest):
    """What a line `|` or `repeat` adds to a text."""
    if word == "|":
        return decoded(rest) + b"\n"
    times, text = rest.split(" ", 1)
    return decoded(text) * number(times)


def script_of(lines):
    """The script that the lines before `status` make, or None where a row is none of a script alone."""
    script, place = bytearray(), 0
    for line in single_lines(lines):
        word, _, rest = line.partition(" ")
        if word in NOT_A_SCRIPT:
            return None
        if word in ("command", "entries"):
            words = [number(each) for each in rest.split(" ")]
            if word == "command":
                words[0] = words[0] << 21 | len(words)
            script += f"bytes 0 {4 * place} {struct.pack(f'<{len(words)}I', *words).hex()}\n".encode()
            place += len(words)
        elif word == "place":
            place = number(rest)
        elif word == "publish":
            script += f"put {place}\n".encode()
        elif word == "front":
            del script[number(rest) :]
        else:
            script += text_of(word, rest)
    return bytes(script)


def parts(text):
    """The lines before the first row, and those of each row, with the comments before the next."""
    head, rows = [], []
    for line in text.split("\n")[:-1]:
        if line.startswith("row "):
            rows.append([line])
        else:
            (rows[-1] if rows else head).append(line)
    return head, rows
