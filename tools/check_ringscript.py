#!/usr/bin/env python3
"""Tests tools/ringscript: docs/TOOLS.md says what of it. It ends with status 1 and a line for each failure.

    tools/check_ringscript.py

Two scripts mean the same where their rings, regions and surfaces, what stands in memory at first, and their other lines are the same: then their
runs are the same, whatever the service is. Rows of crates/gles2_rows that are longer than LONGEST bytes are passed over.
"""
import hashlib, re, subprocess, sys
from concurrent.futures import ProcessPoolExecutor
from pathlib import Path

ROOT = Path(__file__).resolve().parent.parent
sys.path.insert(0, str(ROOT / "bench"))

from ring_script.assembler import assembled
from ring_script.explainer import explained, named
from ring_script.grammar import BadLine, parsed
from ring_script.table import BY_NAME
from rows import parts, script_of, single_lines

LONGEST = 1 << 20
TOOL = ROOT / "tools/ringscript"
ROWS = ROOT / "crates/gles2_rows/data"
PAGE = ROOT / "docs/TOOLS.md"
CASES = ROOT / "tools/ringscript.cases"


def joined(lines):
    return "".join(line + "\n" for line in lines).encode("latin-1")


def meaning(data):
    """What a script says, but for comments and how it is spelled."""
    script = parsed(data)
    first = {region: bytearray() for region in [0, *script.sizes]}
    for line in script.lines:
        if line.word == "bytes":
            region, offset, own = line.values
            first[region].extend(bytes(max(0, offset + len(own) - len(first[region]))))
            first[region][offset : offset + len(own)] = own
    others = [(line.word, line.values) for line in script.lines if line.word not in ("", "bytes")]
    return script.entries, script.sizes, {region: bytes(own).rstrip(b"\0") for region, own in first.items()}, others


def bad_line(form, data):
    """The line that is named, or None where the text is taken."""
    try:
        list(form(data))
    except BadLine as bad:
        return bad.number
    return None


def row_failure(name, script, told, named_lines):
    """What is wrong with a row's script, or None: it comes back from its named form, and the stop that is explained is that of the run."""
    if told[0] == "status 3":
        by = {form.__name__: bad_line(form, script) for form in (explained, named, assembled)}
        bad = by["explained"]
        # Such lines are lines of the named form.
        line = script.split(b"\n")[bad - 1].decode("latin-1") if bad else ""
        if line == "put" or line.split(" ", 1)[0] in BY_NAME:
            del by["assembled"]
        output = f"bad line {bad}"
        is_told = told[1] in (f"| {output}", f"sha1 {hashlib.sha1(joined([output])).hexdigest()}")
        return None if is_told and set(by.values()) == {bad} else f"{name}: its run says {told[1]}, and these lines are named: {by}"
    lines = list(named(script))
    named_lines.update(line.split(" ", 1)[0] for line in lines)
    if meaning(joined(assembled(joined(lines)))) != meaning(script):
        return f"{name}: its named form is another script"
    stops = [stop for line in explained(script) if (stop := re.search(r"The run stops: (stop \w+ \d+)$", line))]
    if told[0] == "status 0" and stops:
        return f"{name}: its run doesn't stop, and {stops[0][1]} is explained"
    ends = re.match(r"\| (stop (\w+) \d+)$", told[-1])
    # Argument rules are not looked at. A command that breaks one may stop the run before.
    if ends and ends[2] != "InvalidArguments" and [stop[1] for stop in stops] != [ends[1]]:
        return f"{name}: it ends with {ends[1]}, and {[stop[1] for stop in stops]} is explained"
    return None


def file_failures(path):
    """The failures of a file of rows, how many scripts it has, and the first words of their named forms."""
    head, rows = parts(path.read_text())
    given = [line for line in head if line and not line.startswith("#")]
    failures, count, named_lines = [], 0, set()
    for lines in rows:
        lines = [line for line in lines if line and not line.startswith("#")]
        status = next(at for at, line in enumerate(lines) if line.startswith("status "))
        told = list(single_lines(lines[status:]))
        if sum(map(len, lines)) > LONGEST or any(line.startswith("repeat ") for line in lines[:status]) or told[0] in ("status 2", "status 9"):
            continue
        script = script_of(given + lines[1:status])
        if script is not None and len(script) <= LONGEST:
            count += 1
            failures.append(row_failure(f"{path.name}: {lines[0][4:]}", script, told, named_lines))
    return [failure for failure in failures if failure], count, named_lines


def examples():
    for path in sorted((ROOT / "examples").glob("*.ring")):
        by_name = path.with_suffix(".named")
        if bad_line(parsed_lines, path.read_bytes()):
            continue
        if not by_name.exists():
            yield f"{by_name.name} is not there"
        elif meaning(joined(assembled(by_name.read_bytes()))) != meaning(path.read_bytes()):
            yield f"{by_name.name} is another script than {path.name}"


def parsed_lines(data):
    return parsed(data).lines


def single_cases():
    text = re.sub(r"^#.*\n", "", CASES.read_text(), flags=re.M)
    for name, *lines in (case.split("\n") for case in text.strip().split("\n\n")):
        given = joined([line[2:] for line in lines if line.startswith(">")])
        script = joined([line[2:] for line in lines if line.startswith("=")])
        bad = int(lines[-1].removeprefix("bad ")) if not script else None
        found = bad_line(assembled, given)
        if found != bad:
            yield f"{CASES.name}: {name}: {found} is named as the bad line"
        elif not bad and meaning(joined(assembled(given))) != meaning(script):
            yield f"{CASES.name}: {name}: it makes {joined(assembled(given)).decode()!r}"


def page():
    """Each block of the page that begins with a command line of the tool has what that prints."""
    for block in re.findall(r"```\n\$ tools/ringscript (.*?)\n(.*?)```", PAGE.read_text(), re.S):
        words, _, file = block[0].partition(" <")
        given = (ROOT / file).read_bytes() if file else b""
        if subprocess.run([TOOL, *words.split()], input=given, stdout=subprocess.PIPE).stdout.decode() != block[1]:
            yield f"docs/TOOLS.md: {block[0]} prints something else"


def main():
    failures = [*single_cases(), *examples(), *page()]
    with ProcessPoolExecutor() as pool:
        found = list(pool.map(file_failures, sorted(ROWS.glob("*.rows"))))
    failures += [failure for file, _, _ in found for failure in file]
    missing = set(BY_NAME) - set().union(*(names for _, _, names in found))
    failures += [f"no row has the command {name}" for name in sorted(missing)]
    for failure in failures:
        print(f"check_ringscript: {failure}", file=sys.stderr)
    print(f"{sum(count for _, count, _ in found)} scripts of rows, {len(failures)} failures")
    return 1 if failures else 0


if __name__ == "__main__":
    sys.exit(main())
