#!/usr/bin/env python3
"""Writes rows of scripts that a generator makes, with the status and the SHA-1 of the output that a model gives.

    bench/generated_rows.py FOLDER STAGE [COUNT [LONGEST]] >crates/gles2_rows/data/generated.rows

FOLDER has two programs, an independent model's: `generate --upto STAGE --seed N [--mutate]` writes a script, and `expected --upto STAGE
ring` reads one, writes the output that it has to have, and ends with its status. There are COUNT scripts (1,000), the half of them
mutated. To keep the file small, a script of more than LONGEST bytes (6,000) is passed over, and the next seed taken.
"""
import hashlib, re, subprocess, sys
from concurrent.futures import ThreadPoolExecutor

FOLDER, STAGE = sys.argv[1:3]
COUNT = int(sys.argv[3]) if len(sys.argv) > 3 else 1000
LONGEST = int(sys.argv[4]) if len(sys.argv) > 4 else 6000
AT_ONCE = 64


def generated(seed, is_mutated):
    words = [f"{FOLDER}/generate", "--upto", STAGE, "--seed", str(seed)] + ["--mutate"] * is_mutated
    return subprocess.run(words, stdout=subprocess.PIPE, check=True).stdout


def escaped(line):
    """A text of a row: `%` and two digits for `%`, for what is no printable ASCII, and for a space at the end."""
    text = re.sub(rb"%|[^ -~]|(?<= ) $| $", lambda byte: b"%%%02X" % byte[0][0], line)
    return re.sub(rb" +(?=(%20)?$)", lambda spaces: b"%20" * len(spaces[0]), text).decode()


def row(name, script):
    ran = subprocess.run([f"{FOLDER}/expected", "--upto", STAGE, "ring"], input=script, stdout=subprocess.PIPE)
    lines = script.split(b"\n")
    last = lines.pop()
    text = [f"| {escaped(line)}" if line else "|" for line in lines] + [f"repeat 1 {escaped(last)}"] * bool(last)
    return "\n".join([f"row {name}", *text, f"status {ran.returncode}", f"sha1 {hashlib.sha1(ran.stdout).hexdigest()}"]) + "\n"


def rows(pool, first, count, is_mutated):
    """Rows of the first short scripts from a seed on, and the seed behind them."""
    found = []
    while len(found) < count:
        seeds = range(first, first + AT_ONCE)
        scripts = pool.map(lambda seed: generated(seed, is_mutated), seeds)
        short = [(seed, script) for seed, script in zip(seeds, scripts) if len(script) <= LONGEST][: count - len(found)]
        what = " mutated" if is_mutated else ""
        found += pool.map(lambda it: row(f"seed {it[0]}{what}", it[1]), short)
        first += AT_ONCE
    return found, first


with ThreadPoolExecutor(2) as pool:
    plain, behind = rows(pool, 1, COUNT - COUNT // 2, False)
    mutated, _ = rows(pool, behind, COUNT // 2, True)
print("# Scripts that a generator made, by its seed, with what an independent model says of them: bench/generated_rows.py.\n")
print("\n".join(plain + mutated), end="")
