#!/usr/bin/env python3
"""Writes the table of all commands: where each one's layout, refusal, effect, driver condition, code and test stand.

    tools/command_table.py >docs/COMMANDS.md

Each cell is looked up in the sources: the rows of the definitions by the command's own name, the arms of the code that executes it, and the row
that runs it where it goes well. Where one isn't found, or is found twice, the program says so on standard error and ends with status 1.
.ci/run fails where docs/COMMANDS.md is not what this writes.
"""
import re, sys
from pathlib import Path

ROOT = Path(__file__).resolve().parent.parent
CRATES = ROOT / "crates"
SPECS = CRATES / "gl_plain/specs"
ROWS = CRATES / "gles2_rows/data/commands.rows"

HEAD = """# All commands

`tools/command_table.py` writes this page from the sources, and `.ci/run` fails where it is not what that writes. [Formats](FORMATS.md) says
what each command's words are, what it is refused with and what it replies.

- **Layout**: how many words, and where in them data or a reply are named.
- **Malformed**: the argument rules that end a run, beside those that all commands share. Data and replies in buckets have their own rule,
  `breaks_a_bucket_rule`.
- **Refusal**: the definition of the error code, if one is recorded. **Effect**: the definition of what the command leaves in the tables, or of
  its reply. Pixels are what the driver calls make of them ([`contents_after_call`](../crates/gl_plain/specs/driver/Effect.antt)).
- **Driver calls**: each with the definition of the condition under which the driver may be called so. Zeroings of what was never written come
  before them where a command reads or keeps such pixels ([`whole_first`](../crates/gl_plain/specs/Wire.antt)).
- **Code**: the function that carries the command out, behind the tests. **Test**: a row that runs it where it goes well; the other rows of
  `crates/gles2_rows/data` run it at its limits.

| Number | Command | Layout | Malformed | Refusal | Effect | Driver calls | Code | Test |
|---|---|---|---|---|---|---|---|---|
"""

# Families whose rows of definitions begin with these names, and the files that have the arms of their commands.
REFUSALS = ["object_command_refusal", "image_command_refusal", "draw_command_refusal", "query_command_refusal"]
REFUSALS += ["word_query_refusal", "byte_query_refusal", "command_refusal"]
EFFECTS = ["object_outcome", "image_outcome", "draw_effect", "query_outcome", "word_query_reply", "byte_query_reply"]
EFFECTS += ["buckets_after", "own_step"]
MALFORMED = ["object_is_bad", "image_is_bad", "bucket_command_is_bad", "is_bad"]
CALLS = ["own_object_calls", "own_image_calls", "own_draw_calls", "own_query_calls", "own_calls"]
CONDITIONS = ["IsObjectAllowed", "IsImageAllowed", "IsProgramAllowed", "IsDrawingAllowed"]
ARMS = ["decoder_core/src/tables.rt", "decode_objects/src/command.rt", "decode_images/src/command.rt", "decode_draw/src/command.rt"]
ARMS += ["decode_query/src/command.rt", "decode_query/src/answers.rt", "decode_query/src/bytes.rt"]
# What stands in a row around the definition that it names.
CARRIERS = {"leaves", "with_programs", "with_objects", "flag", "word_reply", "answers", "natural", "number_of", "program_at", "shader_at"}
CARRIERS |= {"executable_in", "queried_of", "drawable_of", "bound", "on_wire", "store_outcome", "image_stored", "storage_stored"}
CARRIERS |= {"bind_outcome", "create_outcome", "delete_outcome", "names_in", "with_names", "bytes_of", "data_in", "view_of", "payload_of"}
CARRIERS |= {"refused_by", "sources_of", "sources_in", "drawable_in", "first", "behind"}

wrong = []


def complain(what):
    wrong.append(what)
    return "?"


def link(name, path):
    return f"[`{name}`](../{path.relative_to(ROOT)})"


def definitions():
    """The files of all definitions, by their names, and the rows of each: a row is a line `NAME ..` with the lines that go on behind it."""
    files, rows = {}, {}
    for path in sorted(SPECS.rglob("*.antt")):
        for block in re.split(r"\n(?=\S)", path.read_text()):
            head = re.match(r"(?:abbrev |unfoldable )*(?:pub )(?:record )?(\w+)\b", block)
            if head:
                files.setdefault(head[1], path)
            row = re.match(r"(\w+) .*=", block)
            if row:
                rows.setdefault(row[1], []).append((block, path))
    return files, rows


FILES, ROWS_OF = definitions()


def row_of(heads, name):
    """What the row of a command says behind `=`, and the definition that has the row; its name stands alone or with its words."""
    for head in heads:
        for block, path in ROWS_OF.get(head, []):
            left, _, right = block.partition(" =")
            if re.search(rf"(?<![\w.])(?:\w+\.)?{name}(?![\w.])", left.split(" ", 1)[1]):
                return head, right.strip(), path
    return None


def named(text, suffixes=()):
    """The definition that a row names: the first with one of these endings, or else the first that is no carrier."""
    found = [word for word in re.findall(r"(?<![\w.])[a-z]\w*", text) if word in FILES and word not in CARRIERS]
    for suffix in suffixes:
        for word in found:
            if word.endswith(suffix):
                return word
    return found[0] if found else None


def commands():
    """The number, the constant and the name of each command, in order."""
    constants = dict()
    for constant, number in re.findall(r"pub const (\w+): u32 = (\d+);", (CRATES / "gl_plain/src/numbers.rt").read_text()):
        constants[int(number)] = constant
    names = re.findall(r"// (\d+) (\w+)$", (CRATES / "cb_format/src/tables.rt").read_text(), re.M)
    return [(int(number), constants.get(int(number), ""), name) for number, name in names]


def layout(constant):
    path = CRATES / "cb_format/specs/Layouts.antt"
    found = re.findall(rf"\({constant}, (.*?)\) ∷", path.read_text())
    return link(found[0], path) if len(found) == 1 else complain(f"{constant}: {len(found)} layouts")


def malformed(constant, variant):
    # A query whose form or kind is none spells no command.
    if any(f"number == {constant} then" in block for block, _ in ROWS_OF["formed_query_in"]):
        return link("formed_query_in", FILES["formed_query_in"])
    row = row_of(MALFORMED, variant)
    if row is None or row[1] == "false":
        return ""
    return link(row[0], row[2])


def is_raster(constant):
    text = (SPECS / "subjects/Raster.antt").read_text()
    return re.search(rf"number == {constant} then", text) is not None


def refusal(constant, variant):
    if is_raster(constant):
        return link("rules_of", FILES["rules_of"])
    row = row_of(REFUSALS, variant)
    if row is None:
        return "none" if row_of(["buckets_after"], variant) else complain(f"{variant}: no refusal")
    if row[1] == "None":
        return "none"
    name = named(row[1], ("_refusal",))
    return link(name, FILES[name]) if name else link(row[0], row[2])


def effect(constant, variant):
    if is_raster(constant):
        return link("raster_effect", FILES["raster_effect"])
    row = row_of(EFFECTS, variant)
    if row is None:
        return complain(f"{variant}: no effect")
    name = named(row[1], ("_effect", "_deleted", "_outcome"))
    return link(name, FILES[name]) if name else link(row[0], row[2])


def driver_calls(text, seen=()):
    """The driver calls that a row names, itself or by definitions of calls."""
    found = re.findall(r"(?<!\w)(?:program_)?calls\.([A-Z]\w*)", text)
    for space in re.findall(r"gen_call (\w+)|bind_calls (\w+)", text):
        row = row_of(["gen_call"], "".join(space))
        found += driver_calls(row[1]) if row else [complain(f"{space}: no gen_call")]
    for word in re.findall(r"(?<![\w.])\w+_calls?(?!\w)", text):
        if word in ROWS_OF and word not in ("gen_call", "bind_calls") and word not in seen:
            for block, _ in ROWS_OF[word]:
                found += driver_calls(block.partition(" =")[2], (*seen, word))
    return list(dict.fromkeys(found))


def condition(call):
    row = row_of(CONDITIONS, call)
    if row is None:
        return complain(f"{call}: no condition")
    name = next((word for word in re.findall(r"\w+", row[1]) if word in FILES and re.match(r"(Is|Can)\w+|\w+_refusal$", word)), None)
    return f"`{call}`: {link(name, FILES[name]) if name else link(row[0], row[2])}"


def conditions(constant, variant):
    if is_raster(constant):
        return "" if constant == "PIXEL_STOREI" else condition("SetRaster")
    row = row_of(CALLS, variant)
    return "; ".join(condition(call) for call in driver_calls(row[1])) if row else ""


def functions():
    """The files of the functions of the layers that execute commands."""
    files = {}
    for crate in ["decode_objects", "decode_images", "decode_draw", "decode_query", "decoder_core"]:
        for path in sorted((CRATES / crate / "src").glob("*.rt")):
            for name in re.findall(r"^\s*(?:pub )?fn (\w+)", path.read_text(), re.M):
                files.setdefault(name, path)
    return files


FUNCTIONS = functions()


def code(constant, variant):
    if is_raster(constant):
        return link("set_raster", FUNCTIONS["set_raster"])
    for file in ARMS:
        path = CRATES / file
        arm = re.search(rf"(?:Command|Query)::{variant}\b[^;]*?=>(.*?)(?=\n\s+(?:\| |Some\()?\w*(?:Command|Query)::|\n\s*\}};?\n)", path.read_text(), re.S)
        if arm:
            called = re.findall(r"(?:(?<![\w.:])|(?<=self\.))(\w+)\(", arm[1])
            calls = [name for name in called if name in FUNCTIONS and name not in ("data_bytes", "word_query_reply")]
            return link(calls[0], FUNCTIONS[calls[0]]) if calls else link(path.name, path)
    return complain(f"{variant}: no code")


def test(number, name):
    """The row of this name has the command, ends well, and records no error at its end."""
    rows = re.findall(rf"^row {name}\n(.*?)(?=^row |\Z)", ROWS.read_text(), re.M | re.S)
    if len(rows) != 1:
        return complain(f"{name}: {len(rows)} rows")
    if not re.search(rf"^command {number}\b", rows[0], re.M) or "\nstatus 0\n" not in rows[0] or "error NO_ERROR\n" not in rows[0]:
        return complain(f"{name}: its row does not run it well")
    return link(name, ROWS)


def main():
    lines = []
    for number, constant, name in commands():
        variant = name.replace("Bucket", "") if 2 <= number <= 5 else name
        cells = [str(number), name, layout(constant), malformed(constant, variant), refusal(constant, variant), effect(constant, variant)]
        cells += [conditions(constant, variant), code(constant, variant), test(number, name)]
        lines.append("| " + " | ".join(cells) + " |\n")
    if len(lines) != 95:
        complain(f"{len(lines)} commands")
    sys.stdout.write(HEAD + "".join(lines))
    for what in wrong:
        print(f"tools/command_table.py: {what}", file=sys.stderr)
    return 1 if wrong else 0


sys.exit(main())
