#!/usr/bin/env bash
# Refuses each growth of the program's memory in turn, on two scripts, and compares what it does with what its contract says of status 7:
# it writes the first of the replies, the first of the driver calls and `end no memory`, or stops writing before.
#
#   bench/want_of_memory.sh [PROGRAM [ROWS]]
#
# PROGRAM is crates/gles2_cli/out/gles2_cli where it is left out, which `./gles2 --prove` makes. ROWS is crates/gles2_rows/out/gles2_rows,
# which `rt run` makes in crates/gles2_rows: with it the output goes to memory, whose growth may be refused too, and then the status is 5.
# Without that program only the first is tried.
#
# It needs python3 and a C compiler, cc, for the allocator that refuses. Its status is 0 where all is as the contract says.

set -eu
root=$(dirname "$(dirname "$(readlink -f "${BASH_SOURCE[0]}")")")
program=${1:-$root/crates/gles2_cli/out/gles2_cli}
rows=${2:-$root/crates/gles2_rows/out/gles2_rows}
if [[ ! -x "$program" ]]; then
    echo "want_of_memory: there is no program $program: ./gles2 --prove makes it" >&2
    exit 2
fi
work=$(mktemp -d)
trap 'rm -rf "$work"' EXIT

cat >"$work/refuse.c" <<'C'
/* An allocator that refuses the growth whose number, from 1, the environment gives as REFUSE, and then writes a byte to descriptor 3. */
#define _GNU_SOURCE
#include <dlfcn.h>
#include <stdlib.h>
#include <unistd.h>

static long grown;

static int is_refused(void) {
    const char *refuse = getenv("REFUSE");
    if (++grown != (refuse ? atol(refuse) : 0)) return 0;
    return write(3, "x", 1) == 1;
}

void *malloc(size_t size) {
    static void *(*next)(size_t);
    if (!next) next = (void *(*)(size_t))dlsym(RTLD_NEXT, "malloc");
    return is_refused() ? NULL : next(size);
}

void *realloc(void *old, size_t size) {
    static void *(*next)(void *, size_t);
    if (!next) next = (void *(*)(void *, size_t))dlsym(RTLD_NEXT, "realloc");
    return is_refused() ? NULL : next(old, size);
}
C
cc -O1 -shared -fPIC -o "$work/refuse.so" "$work/refuse.c" -ldl

python3 - "$program" "$rows" "$work" "$root/examples/parts.ring" <<'PYTHON'
import os, re, subprocess, sys

PROGRAM, ROWS, WORK, PARTS = sys.argv[1:]
NO_MEMORY = b"end no memory\n"
# GenBuffers, BindBuffer, BufferData with four bytes of region 1, GetError: 16 entries.
FOUR_COMMANDS = b"""ring 32
region 1 16
bytes 1 0 01020304
bytes 0 0 0200202001000000030040209288000001000000
bytes 0 20 080060209288000004000000e488000001000000040000000100000000000000
bytes 0 52 0300e0280100000008000000
put 16
"""
SCRIPTS = [("four commands", FOUR_COMMANDS), ("examples/parts.ring", open(PARTS, "rb").read())]


def run(words, script, refused):
    """The status and the output of a run where that growth is refused, and whether it came to it."""
    told = f"{WORK}/told"
    with open(told, "wb") as told_to:
        os.dup2(told_to.fileno(), 3)
        env = {"LD_PRELOAD": f"{WORK}/refuse.so", "REFUSE": str(refused)}
        ran = subprocess.run(words, input=script, stdout=subprocess.PIPE, stderr=subprocess.PIPE, env=env, pass_fds=[3])
    return ran.returncode, ran.stdout, os.path.getsize(told) > 0


def is_front_of(text, whole):
    return whole.startswith(text)


def without_end(text):
    """A text without the front of `end no memory` in which it ends."""
    kept = max(count for count in range(len(NO_MEMORY) + 1) if text.endswith(NO_MEMORY[:count]))
    return text[: len(text) - kept]


def is_allowed(text, output):
    """Whether a text is the first replies, the first driver calls and the end, or a front of them and of that end."""
    lines = output.splitlines(keepends=True)
    replies = b"".join(line for line in lines if line.startswith(b"reply "))
    calls = b"".join(line for line in lines if line.startswith(b"driver "))
    body = without_end(text)
    split = re.search(rb"^driver ", body, re.M)
    told = body[: split.start()] if split else body
    made = body[len(told) :]
    return is_front_of(told, replies) and is_front_of(made, calls) and (not made or told.endswith(b"\n") or not told)


def fault_of_run(status, text, wanted):
    if status != 7:
        return f"status {status}"
    return None if is_allowed(text, wanted) else f"status 7, and the output {text!r}"


def try_program(name, script):
    """Each growth of the program, refused in turn."""
    status, wanted, _ = run([PROGRAM, "ring"], script, 0)
    if status != 0:
        sys.exit(f"want_of_memory: {name} ends with status {status} where nothing is refused")
    refused, faults = 0, []
    while True:
        status, text, came = run([PROGRAM, "ring"], script, refused + 1)
        if not came:
            break
        refused += 1
        fault = fault_of_run(status, text, wanted)
        if fault:
            faults.append(f"{name}, growth {refused}: {fault}")
    return refused, faults


def row_of(script):
    """A row whose run is well where it ends with status 0 and prints nothing: so what it is instead is shown."""
    lines = "".join(f"| {line}\n" for line in script.decode().splitlines())
    return f"row it\n{lines}status 255\n"


def try_rows(name, script):
    """Each growth of the program of rows, whose output goes to memory, refused in turn: how many came to each status of the run."""
    file = f"{WORK}/it.rows"
    with open(file, "w") as to:
        to.write(row_of(script))
    refused, counts, faults = 0, {5: 0, 7: 0}, []
    while True:
        status, text, came = run([ROWS, file], b"", refused + 1)
        if not came:
            break
        refused += 1
        ended = re.fullmatch(rb"it: status (\d+) and not 255\n", text)
        if ended and int(ended[1]) in counts:
            counts[int(ended[1])] += 1
        elif ended or status != 2:
            # (with status 2 the memory was wanting for the row itself)
            faults.append(f"{name} in memory, growth {refused}: status {status}, and {text!r}")
    return counts, faults


failed = False
for name, script in SCRIPTS:
    refused, faults = try_program(name, script)
    print(f"{name}: {refused} growths refused, {len(faults)} not as the contract says")
    if os.access(ROWS, os.X_OK):
        counts, more = try_rows(name, script)
        print(f"{name} in memory: status 7 at {counts[7]} growths, status 5 at {counts[5]}, {len(more)} not as the contract says")
        faults += more
    for fault in faults:
        print(f"  {fault}")
    failed |= bool(faults)
sys.exit(failed)
PYTHON
