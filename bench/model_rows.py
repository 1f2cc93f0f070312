#!/usr/bin/env python3
"""Compares rows that were written by hand with what a model says of their scripts, or fills in what the model says.

    bench/model_rows.py FOLDER STAGE FILE..           names the rows whose status or output differs from the model's
    bench/model_rows.py --write FOLDER STAGE FILE..   puts the model's status and output in place of what differs or is not there

FOLDER has a program `expected`: `expected --upto STAGE ring` reads a script, writes the output that it has to have, and ends with its
status. Rows of another command line, and of reads or writes that fail, are left as they are. docs/FORMATS.md says what the lines of a row
mean. Ends with status 1 where a row differs.
"""
import hashlib, subprocess, sys
from concurrent.futures import ThreadPoolExecutor

from rows import encoded, parts, script_of, single_lines, text_of

IS_WRITING = sys.argv[1] == "--write"
FOLDER, STAGE, *FILES = sys.argv[1 + IS_WRITING :]
# A longer output is given by its SHA-1.
LONGEST = 100


def is_wanted(lines, status, output):
    """Whether the lines from `status` on say this."""
    if not lines or lines[0] != f"status {status}":
        return False
    text = b""
    for line in single_lines(lines[1:]):
        word, _, rest = line.partition(" ")
        if word == "sha1":
            return rest == hashlib.sha1(output).hexdigest()
        text += text_of(word, rest)
    return text == output


def wanted(status, output):
    lines = output.split(b"\n")
    if lines.pop() != b"" or len(lines) > LONGEST:
        return [f"status {status}", f"sha1 {hashlib.sha1(output).hexdigest()}"]
    return [f"status {status}"] + [f"| {encoded(line)}" for line in lines]


class Row:
    def __init__(self, head, lines):
        self.lines = lines
        said = [at for at, line in enumerate(lines) if line and not line.startswith("#")]
        status = [at for at in said if lines[at].startswith("status ")]
        # Where what is given ends.
        self.end = status[0] if status else said[-1] + 1
        self.told = [lines[at] for at in said if at >= self.end]
        self.script = script_of(head + [lines[at] for at in said if 0 < at < self.end])

    def run(self):
        """Whether the row says what the model does. Where it is to be written, it does from here on."""
        if self.script is None:
            return True
        ran = subprocess.run([f"{FOLDER}/expected", "--upto", STAGE, "ring"], input=self.script, stdout=subprocess.PIPE)
        if is_wanted(self.told, ran.returncode, ran.stdout):
            return True
        behind = [line for line in self.lines[self.end :] if not line or line.startswith("#")]
        self.lines = self.lines[: self.end] + wanted(ran.returncode, ran.stdout) + behind
        return False


def run_file(pool, path):
    head, rows = parts(open(path).read())
    given = [line for line in head if line and not line.startswith("#")]
    rows = [Row(given, lines) for lines in rows]
    agree = list(pool.map(Row.run, rows))
    for row, agrees in zip(rows, agree):
        if not agrees:
            print(f"{path}: {row.lines[0][4:]}")
    if IS_WRITING and not all(agree):
        with open(path, "w") as file:
            file.writelines(line + "\n" for line in head + [line for row in rows for line in row.lines])
    return all(agree)


with ThreadPoolExecutor(2) as pool:
    agree = [run_file(pool, path) for path in FILES]
sys.exit(0 if all(agree) else 1)
