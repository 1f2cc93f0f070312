#!/usr/bin/env bash
# Measures the proved program on large scripts: commands a second, bytes of input a second, seconds and peak memory, each at a size and at twice that size.
#
#   bench/ring.sh [PROGRAM]      PROGRAM is crates/gles2_cli/out/gles2_cli where it is left out, which ./gles2 --prove first brings up to date
#
# It needs python3. The peak is what /usr/bin/time reports, or without it what python3's wait4 does, which is never below python3's own.
# Times are the least of five runs, with the start of the process, reading the script and writing the report to a file: the seconds that
# passed, from which the rates come, and those of the processor, which a busy machine disturbs less and which show that time is linear.

set -eu
root=$(dirname "$(dirname "$(readlink -f "${BASH_SOURCE[0]}")")")
program=${1:-}
if [[ -z "$program" ]]; then
    "$root/gles2" --prove
    program="$root/crates/gles2_cli/out/gles2_cli"
fi

exec python3 - "$program" <<'PYTHON'
import os, shutil, struct, subprocess, sys, tempfile, time

PROGRAM = sys.argv[1]
RUNS = 5
ENTRIES = 1048576
DATA_LIMIT = 67108864
NOOP, SET_BUCKET_SIZE, SET_BUCKET_DATA = 0, 2, 3
GEN_BUFFERS, BIND_BUFFER, BUFFER_DATA, BUFFER_SUB_DATA, DELETE_BUFFERS, GET_ERROR = 257, 258, 259, 260, 261, 327
ACTIVE_TEXTURE, GEN_TEXTURES, BIND_TEXTURE, TEX_IMAGE_2D, TEX_SUB_IMAGE_2D = 256, 262, 263, 265, 266
CREATE_SHADER, COMPILE_SHADER, CREATE_PROGRAM, ATTACH_SHADER, LINK_PROGRAM, USE_PROGRAM, UNIFORM = 280, 282, 284, 285, 288, 290, 292
VERTEX_ATTRIB_POINTER, ENABLE_VERTEX_ATTRIB_ARRAY, ENABLE, DISABLE, DRAW_ARRAYS, DRAW_ELEMENTS = 294, 295, 297, 298, 322, 323
ARRAY_BUFFER, ELEMENT_ARRAY_BUFFER, STATIC_DRAW, VERTEX_SHADER, FRAGMENT_SHADER = 0x8892, 0x8893, 0x88E4, 0x8B31, 0x8B30
UNSIGNED_BYTE, UNSIGNED_SHORT, FLOAT, BLEND, TRIANGLES = 0x1401, 0x1403, 0x1406, 0x0BE2, 4
GEN_FRAMEBUFFERS, BIND_FRAMEBUFFER, DELETE_FRAMEBUFFERS, FRAMEBUFFER_TEXTURE_2D, CLEAR, READ_PIXELS = 275, 276, 277, 278, 321, 324
TEXTURE_2D, TEXTURE0, RGBA = 0x0DE1, 0x84C0, 0x1908
FRAMEBUFFER, COLOR_ATTACHMENT0, COLOR_BUFFER_BIT = 0x8D40, 0x8CE0, 0x4000
DELETE_TEXTURES, DELETE_SHADER, DELETE_PROGRAM, DELETE_RENDERBUFFERS = 264, 283, 291, 273
DEPTH_ATTACHMENT, RENDERBUFFER, DEPTH_COMPONENT16, ONE = 0x8D00, 0x8D41, 0x81A5, 0x3F800000


def command(number, *words):
    return struct.pack(f"<{1 + len(words)}I", number << 21 | 1 + len(words), *words)


def script(ring, lines=""):
    """A ring in one line of bytes, some lines before it, and put behind its last command."""
    return f"ring {ENTRIES}\n{lines}bytes 0 0 {ring.hex()}\nput {len(ring) // 4}\n".encode()


# Each maker gives a script, how many commands it has, and how many lines the program prints.

def noops(n):
    return script(command(NOOP) * n), n, 1


def new_names(n):
    return script(b"".join(command(GEN_BUFFERS, id + 1) for id in range(n))), n, n + 1


def names_come_and_go(n):
    ids = range(1, n // 2 + 1)
    ring = b"".join(command(GEN_BUFFERS, id) for id in ids) + b"".join(command(DELETE_BUFFERS, id) for id in ids)
    return script(ring), n, n + 1


def parts(n):
    """Rounds of 100,000 commands on 1,000 buffers of 16 bytes: each is bound and stored, and then 49 times bound and changed."""
    first = range(1, 1001)
    binds = [command(BIND_BUFFER, ARRAY_BUFFER, id) for id in first]
    ring = b"".join(bind + command(BUFFER_DATA, ARRAY_BUFFER, 16, STATIC_DRAW, 0, 0, 0, 0) for bind in binds)
    ring += b"".join(bind + command(BUFFER_SUB_DATA, ARRAY_BUFFER, 0, 16, 1, 16, 1, 0) for bind in binds) * 49
    entries = len(ring) // 4
    text = f"ring {entries}\nregion 1 16\nbytes 1 0 {'7f' * 16}\nbytes 0 0 {ring.hex()}\n"
    return (text + f"put {entries // 50}\nput 0\n" * (n // 100000)).encode(), n, n + 1001


def buffer_data(n):
    """16 bytes for each of four buffers in turn: a bind and an upload."""
    ring = b"".join(command(GEN_BUFFERS, id + 1) for id in range(4))
    for k in range(n // 2):
        ring += command(BIND_BUFFER, ARRAY_BUFFER, k % 4 + 1)
        ring += command(BUFFER_DATA, ARRAY_BUFFER, 16, STATIC_DRAW, 0, 0, 0, 0)
    return script(ring), n + 4, n + 5


def program():
    """A program of two compiled shaders, linked and current. It takes 18 copies."""
    ring = b"".join(command(CREATE_SHADER, id, kind, 1, 0) + command(COMPILE_SHADER, id) for id, kind in ((1, VERTEX_SHADER), (2, FRAGMENT_SHADER)))
    ring += command(CREATE_PROGRAM, 3, 1, 0) + command(ATTACH_SHADER, 3, 1) + command(ATTACH_SHADER, 3, 2)
    return ring + command(LINK_PROGRAM, 3) + command(USE_PROGRAM, 3)


def link_lines(uniforms):
    return "link ok -\n" + "".join(f"uniform u{k} FLOAT_VEC4 1\n" for k in range(uniforms))


def uniforms(n):
    """Rounds of 100,000 commands over 256 uniforms. Behind the first round a Noop covers the commands that make the program."""
    front = program()
    size = len(front) // 4
    ring = front + b"".join(command(UNIFORM, k % 256, 4, 1, 0, 1, 16, 1, 0) for k in range(100000))
    entries = len(ring) // 4
    text = f"ring {entries}\n{link_lines(256)}region 1 16\nbytes 1 0 {'3f' * 16}\nbytes 0 0 {ring.hex()}\n"
    text += f"at 18 0 0 {struct.pack('<I', size).hex()}\n"
    return (text + f"put {entries // 2 // 9 * 9 + size % 9}\nput 0\n" * (n // 100000)).encode(), n, n + 13


def laps(setup, copies, lines, commands, count, rounds):
    """Some commands of one size, of which there are so many, in rounds. Behind the first round a Noop covers the setup, which takes so many copies."""
    middle = len(commands) // count * (count // 2)
    return halved_laps(setup, copies, lines, commands[:middle], commands[middle:], rounds)


def halved_laps(setup, copies, lines, first, second, rounds):
    """The same of any commands: each round publishes the first ones, and then the second."""
    size = len(setup) // 4
    middle, entries = size + len(first) // 4, size + (len(first) + len(second)) // 4
    commands = first + second
    text = f"ring {entries}\n{lines}bytes 0 0 {(setup + commands).hex()}\nat {copies} 0 0 {struct.pack('<I', size).hex()}\n"
    return (text + f"put {middle}\nput 0\n" * rounds).encode()


def stored(id, target, size):
    return command(GEN_BUFFERS, id) + command(BIND_BUFFER, target, id) + command(BUFFER_DATA, target, size, STATIC_DRAW, 0, 0, 0, 0)


def four_arrays():
    """A program with four attributes, whose arrays lie in one buffer. It takes 40 copies, and 23 lines are printed."""
    ring = program() + stored(1, ARRAY_BUFFER, 4096)
    for k in range(4):
        ring += command(VERTEX_ATTRIB_POINTER, k, 4, FLOAT, 0, 64, 16 * k) + command(ENABLE_VERTEX_ATTRIB_ARRAY, k)
    return ring


FOUR_ATTRIBUTES = "link ok -\n" + "".join(f"attr a{k} FLOAT_VEC4 {k}\n" for k in range(4)) + "region 1 8\n"


def draw_arrays(n):
    """Rounds of 100,000 draws of three vertices."""
    return laps(four_arrays(), 40, FOUR_ATTRIBUTES, command(DRAW_ARRAYS, TRIANGLES, 0, 3) * 100000, 100000, n // 100000), n, n + 24


def draw_elements(kind, indices, count, n):
    setup = four_arrays() + stored(2, ELEMENT_ARRAY_BUFFER, 2 * indices)
    return laps(setup, 46, FOUR_ATTRIBUTES, command(DRAW_ELEMENTS, TRIANGLES, indices, kind, 0) * count, count, n // count), n, n + 27


def small_elements(n):
    return draw_elements(UNSIGNED_SHORT, 300, 10000, n)


def large_elements(n):
    return draw_elements(UNSIGNED_BYTE, 1000000, 100, n)


def texture(id, sides):
    """A texture with levels of these sides, of which nothing is written."""
    ring = command(GEN_TEXTURES, id) + command(BIND_TEXTURE, TEXTURE_2D, id)
    return ring + b"".join(
        command(TEX_IMAGE_2D, TEXTURE_2D, level, RGBA, side, side, 0, RGBA, UNSIGNED_BYTE, 0, 0, 0, 0) for level, side in enumerate(sides)
    )


def parts_of_image(n):
    """Rounds of 50,000 parts of 16 by 16 pixels, row by row of an image of 2,048 by 2,048. The first of the second row has the rest zeroed."""
    places = [(16 * (k % 128), 16 * (k // 128 % 128)) for k in range(50000)]
    ring = b"".join(command(TEX_SUB_IMAGE_2D, TEXTURE_2D, 0, x, y, 16, 16, RGBA, UNSIGNED_BYTE, 1, 1024, 1, 0) for x, y in places)
    return laps(texture(1, [2048]), 6, f"region 1 1024\nbytes 1 0 {'7f' * 64}\n", ring, 50000, n // 50000), n, n + 5


def images(n):
    """1,024 by 1,024 pixels of four bytes, n times."""
    size = 4 << 20
    ring = texture(1, []) + command(TEX_IMAGE_2D, TEXTURE_2D, 0, RGBA, 1024, 1024, 0, RGBA, UNSIGNED_BYTE, 1, size, 1, 0) * n
    return script(ring, f"region 1 {size}\nbytes 1 0 {'7f' * 64}\n"), n + 2, n + 3


def eight_textures(n):
    """Rounds of 100,000 draws that sample eight textures of five levels, which are zeroed at the first. The setup takes 170 copies."""
    setup = program()
    for unit in range(8):
        setup += command(ACTIVE_TEXTURE, TEXTURE0 + unit) + texture(unit + 1, [16, 8, 4, 2, 1])
        setup += command(UNIFORM, unit, 5, 1, 0, 1, 4, 1, 8 + 4 * unit)
    lines = "link ok -\n" + "".join(f"uniform s{k} SAMPLER_2D 1\n" for k in range(8))
    lines += f"region 1 40\nbytes 1 8 {b''.join(struct.pack('<I', k) for k in range(8)).hex()}\n"
    return laps(setup, 170, lines, command(DRAW_ARRAYS, TRIANGLES, 0, 3) * 100000, 100000, n // 100000), n, n + 125


def attached(id, texture):
    """A framebuffer with the texture as its colours."""
    ring = command(GEN_FRAMEBUFFERS, id) + command(BIND_FRAMEBUFFER, FRAMEBUFFER, id)
    return ring + command(FRAMEBUFFER_TEXTURE_2D, FRAMEBUFFER, COLOR_ATTACHMENT0, TEXTURE_2D, texture, 0)


def framebuffers(n):
    """Rounds of 65,536 framebuffers, all with one texture: they are made and bound, the texture is attached, and then they are deleted."""
    ids = range(1, 65537)
    made = b"".join(attached(id, 1) for id in ids)
    deleted = b"".join(command(DELETE_FRAMEBUFFERS, id) for id in ids)
    return halved_laps(texture(1, [16]), 6, "", made, deleted, n // 65536), 4 * n, 4 * n + 4


def clears(n):
    """Rounds of 100,000 Clears of a framebuffer with a texture, which is zeroed at the first."""
    setup = texture(1, [16]) + attached(1, 1)
    return laps(setup, 12, "", command(CLEAR, COLOR_BUFFER_BIT) * 100000, 100000, n // 100000), n, n + 8


def reads(n):
    """Rounds of 100,000 reads of 16 by 16 pixels of the default framebuffer into a bucket."""
    read = command(READ_PIXELS, 0, 0, 16, 16, RGBA, UNSIGNED_BYTE, 0)
    return laps(command(NOOP), 1, "", read * 100000, 100000, n // 100000), n, 2 * n + 1


def raster(n):
    """Rounds of 100,000 commands on the fixed state."""
    return laps(command(NOOP), 1, "", (command(ENABLE, BLEND) + command(DISABLE, BLEND)) * 50000, 100000, n // 100000), n, n + 1


def links(n):
    """n links of 8 uniforms each."""
    ring = program() + command(LINK_PROGRAM, 3) * (n - 1)
    return script(ring, link_lines(8) * n + "region 1 8\n"), n + 8, n + 12


def through_bucket(n):
    """n bytes in all: pieces of 1 MiB fill a bucket of 64 MiB, and a BufferData uses it."""
    piece = 1 << 20
    ring = command(GEN_BUFFERS, 1) + command(BIND_BUFFER, ARRAY_BUFFER, 1)
    for _ in range(n // DATA_LIMIT):
        ring += command(SET_BUCKET_SIZE, 0, DATA_LIMIT)
        ring += b"".join(command(SET_BUCKET_DATA, 0, k * piece, 1, piece, 1, 0) for k in range(DATA_LIMIT // piece))
        ring += command(BUFFER_DATA, ARRAY_BUFFER, DATA_LIMIT, STATIC_DRAW, 2, DATA_LIMIT, 0, 0)
    return script(ring, f"region 1 {piece}\n"), 2 + (n // DATA_LIMIT) * 66, 3 + n // DATA_LIMIT


def comment(n):
    return b"#" + b"x" * (n - 1), 0, 1


def lines(n):
    """A Noop in a line of its own, n times."""
    text = "".join(f"bytes 0 {4 * k} 01000000\n" for k in range(n))
    return f"ring {ENTRIES}\n{text}put {n}\n".encode(), n, 1


def uploads(n):
    """n bytes of data in all, in pieces of 65,536."""
    ring = command(GEN_BUFFERS, 1) + command(BIND_BUFFER, ARRAY_BUFFER, 1)
    ring += command(BUFFER_DATA, ARRAY_BUFFER, 65536, STATIC_DRAW, 0, 0, 0, 0) * (n // 65536)
    return script(ring), n // 65536 + 2, n // 65536 + 3


def fetched(target, size, n):
    """BufferData of so many bytes of region 1, n times: refused where its target is none, when its data was fetched."""
    ring = command(GEN_BUFFERS, 1) + command(BIND_BUFFER, ARRAY_BUFFER, 1)
    ring += command(BUFFER_DATA, target, size, STATIC_DRAW, 1, size, 1, 0) * n
    return script(ring, f"region 1 {size}\nbytes 1 0 {'7f' * 64}\n"), n + 2, 3 + (n if target else 0)


def small_fetched(n):
    return fetched(ARRAY_BUFFER, 64, n)


def large_fetched(n):
    return fetched(ARRAY_BUFFER, DATA_LIMIT, n)


def large_refused(n):
    return fetched(0, DATA_LIMIT, n)


def get_errors(n):
    """A reply of 8 bytes into region 1, n times."""
    return script(command(GET_ERROR, 1, 0) * n, "region 1 8\n"), n, n + 1


def rounds(entries, n):
    """n Noops in a ring of so many entries, with a put for each time that it is filled."""
    step = entries - 1
    puts = "".join(f"put {end % entries}\n" for end in [*range(step, n, step), n])
    return f"ring {entries}\nbytes 0 0 {(command(NOOP) * entries).hex()}\n{puts}".encode(), n, 1


def large_rounds(n):
    return rounds(1025, n)


def small_rounds(n):
    return rounds(2, n)


def overwrites(copy, n):
    """A ring of zeros, where each Noop is written before the copy of a number that depends on its place."""
    text = "".join(f"at {copy(k)} 0 {4 * k} 01000000\n" for k in range(n))
    return f"ring {ENTRIES}\n{text}put {n}\n".encode(), n, 1


def overwrites_in_turn(n):
    return overwrites(lambda k: k, n)


def overwrites_at_once(n):
    return overwrites(lambda k: 0, n)


# One round of all 95 commands, each of which goes well, as words. It leaves the tables as they were: what is made in it is deleted in it.
# Data lies in region 1, and replies go there, behind it.
MIXED_DATA = struct.pack("<4f", 1, 2, 3, 4) + bytes((0, 1, 2, 0)) + b"pos"
AT_FLOATS, AT_INDICES, AT_NAME, AT_REPLY = 0, 16, 20, 24
REPLY = (1, AT_REPLY)
MIXED = [
    # Objects
    (NOOP, 0), (1, 7), (GEN_BUFFERS, 1), (BIND_BUFFER, ARRAY_BUFFER, 1), (BUFFER_DATA, ARRAY_BUFFER, 64, STATIC_DRAW, 0, 0, 0, 0),
    (BUFFER_SUB_DATA, ARRAY_BUFFER, 0, 16, 1, 16, 1, AT_FLOATS), (GEN_BUFFERS, 2), (BIND_BUFFER, ELEMENT_ARRAY_BUFFER, 2),
    (BUFFER_DATA, ELEMENT_ARRAY_BUFFER, 4, STATIC_DRAW, 1, 4, 1, AT_INDICES), (ACTIVE_TEXTURE, TEXTURE0), (GEN_TEXTURES, 1),
    (BIND_TEXTURE, TEXTURE_2D, 1), (TEX_IMAGE_2D, TEXTURE_2D, 0, RGBA, 2, 2, 0, RGBA, UNSIGNED_BYTE, 1, 16, 1, AT_FLOATS),
    (TEX_SUB_IMAGE_2D, TEXTURE_2D, 0, 1, 1, 1, 1, RGBA, UNSIGNED_BYTE, 1, 4, 1, AT_FLOATS), (269, TEXTURE_2D, 0x2801, 0x2600),
    (267, TEXTURE_2D, 0, RGBA, 0, 0, 2, 2, 0), (268, TEXTURE_2D, 0, 0, 0, 0, 0, 1, 1), (270, TEXTURE_2D),
    (271, 1), (272, RENDERBUFFER, 1), (274, RENDERBUFFER, DEPTH_COMPONENT16, 2, 2), (GEN_FRAMEBUFFERS, 1), (BIND_FRAMEBUFFER, FRAMEBUFFER, 1),
    (FRAMEBUFFER_TEXTURE_2D, FRAMEBUFFER, COLOR_ATTACHMENT0, TEXTURE_2D, 1, 0), (279, FRAMEBUFFER, DEPTH_ATTACHMENT, RENDERBUFFER, 1),
    # Shaders and programs
    (CREATE_SHADER, 1, VERTEX_SHADER, *REPLY), (281, 1, 1, 16, 1, AT_FLOATS), (COMPILE_SHADER, 1), (CREATE_SHADER, 2, FRAGMENT_SHADER, *REPLY),
    (COMPILE_SHADER, 2), (CREATE_PROGRAM, 3, *REPLY), (ATTACH_SHADER, 3, 1), (286, 3, 1), (ATTACH_SHADER, 3, 1), (ATTACH_SHADER, 3, 2),
    (287, 3, 0, 1, 3, 1, AT_NAME), (LINK_PROGRAM, 3), (289, 3), (USE_PROGRAM, 3), (UNIFORM, 0, 4, 1, 0, 1, 16, 1, AT_FLOATS),
    # Attributes and fixed state
    (293, 1, ONE, 0, 0, ONE), (VERTEX_ATTRIB_POINTER, 0, 4, FLOAT, 0, 16, 0), (ENABLE_VERTEX_ATTRIB_ARRAY, 0), (ENABLE, BLEND), (299, ONE, 0, 0, ONE),
    (300, 0x8006, 0x8006), (301, 0x0302, 0x0303, 1, 0), (302, ONE, 0, 0, ONE), (303, ONE), (304, 1), (305, 1, 1, 1, 1), (306, 0x0405), (307, 0x0203),
    (308, 1), (309, 0, ONE), (310, 0x0901), (311, 0x8192, 0x1101), (312, ONE), (313, 0x0D05, 4), (314, 0, ONE), (315, ONE, 0), (316, 0, 0, 2, 2),
    (317, 0x0408, 0x0203, 1, 255), (318, 0x0408, 255), (319, 0x0408, 0x1E00, 0x1E00, 0x1E01), (320, 0, 0, 2, 2),
    # Clear, draws, reads
    (CLEAR, COLOR_BUFFER_BIT), (DRAW_ARRAYS, TRIANGLES, 0, 3), (DRAW_ELEMENTS, TRIANGLES, 3, UNSIGNED_BYTE, 0), (325,), (326,),
    (READ_PIXELS, 0, 0, 2, 2, RGBA, UNSIGNED_BYTE, 1), (4, 1, *REPLY), (5, 1, 0, 16, *REPLY), (SET_BUCKET_SIZE, 2, 8),
    (SET_BUCKET_DATA, 2, 4, 1, 4, 1, AT_FLOATS),
    # Queries
    (GET_ERROR, *REPLY), (328, 2, 0x0B21, *REPLY), (329, FRAMEBUFFER, *REPLY), (330, ARRAY_BUFFER, 0x8764, *REPLY), (331, TEXTURE_2D, 0x2801, *REPLY),
    (332, RENDERBUFFER, 0x8D42, *REPLY), (333, FRAMEBUFFER, COLOR_ATTACHMENT0, 0x8CD1, *REPLY), (334, 1, 0x8626, 1, *REPLY), (335, 1, 0x8B4F, *REPLY),
    (336, 3, 0x8B85, *REPLY), (337, 1, 0), (338, 3, 0), (339, 1, 0), (340, 3, 0), (341, 3, 0, 2, *REPLY), (342, 4, 1, *REPLY), (343, 3, 0),
    (344, 0, 3, UNSIGNED_BYTE, *REPLY),
    # Deletions, and what the deleted objects leave behind
    (DISABLE, BLEND), (296, 0), (USE_PROGRAM, 0), (DELETE_PROGRAM, 3), (DELETE_SHADER, 1), (DELETE_SHADER, 2), (DELETE_FRAMEBUFFERS, 1),
    (DELETE_RENDERBUFFERS, 1), (DELETE_TEXTURES, 1), (DELETE_BUFFERS, 1), (DELETE_BUFFERS, 2),
]


def mixed(n):
    """Rounds of all commands, 900 in a ring, which is published in halves. Each prints 24 replies and 79 driver calls."""
    count, in_a_ring = n // len(MIXED), 900
    ring = b"".join(command(*words) for words in MIXED) * in_a_ring
    entries = len(ring) // 4
    lines = "link ok -\nattr pos FLOAT_VEC4 0\nuniform u FLOAT_VEC4 1\n" * count + f"region 1 128\nbytes 1 0 {MIXED_DATA.hex()}\n"
    text = f"ring {entries}\n{lines}bytes 0 0 {ring.hex()}\n" + f"put {entries // 2}\nput 0\n" * (count // in_a_ring)
    return text.encode(), len(MIXED) * count, (24 + 79) * count + 1


ROWS = [
    ("Noops in one line", noops, 500000),
    ("GenBuffers", new_names, 32000),
    ("GenBuffers, DeleteBuffers", names_come_and_go, 65536),
    ("BindBuffer, BufferData of 16 bytes", buffer_data, 90000),
    ("BindBuffer, BufferSubData of 16 bytes", parts, 500000),
    ("BufferData of 65,536 bytes", uploads, 1 << 27),
    ("BufferData of 64 bytes of a region", small_fetched, 65000),
    ("BufferData of 64 MiB of a region", large_fetched, 1),
    ("the same, refused when it was fetched", large_refused, 4),
    ("GetError", get_errors, 170000),
    ("Uniform of 16 bytes, 256 uniforms", uniforms, 500000),
    ("LinkProgram, 8 uniforms", links, 50000),
    ("DrawArrays of 3, four arrays", draw_arrays, 500000),
    ("DrawElements of 300 indices", small_elements, 50000),
    ("DrawElements of 1,000,000 indices", large_elements, 100),
    ("TexSubImage2D of 16 by 16", parts_of_image, 50000),
    ("TexImage2D of 4 MiB of a region", images, 500),
    ("DrawArrays of 3, eight textures", eight_textures, 500000),
    ("framebuffers made, attached, deleted", framebuffers, 65536),
    ("Clear of a texture's framebuffer", clears, 1000000),
    ("ReadPixels of 16 by 16", reads, 100000),
    ("Enable and Disable", raster, 500000),
    ("all 95 commands in turn", mixed, 900 * len(MIXED)),
    ("64 MiB through a bucket", through_bucket, DATA_LIMIT),
    ("Noops, a put for each 1,024", large_rounds, 500000),
    ("Noops, a put for each", small_rounds, 500000),
    ("Noops, each before its own copy", overwrites_in_turn, 500000),
    ("Noops, all before the first copy", overwrites_at_once, 500000),
    ("one comment", comment, 33000000),
    ("Noops in a line each", lines, 500000),
]


def run_once(source, sink):
    """Seconds, seconds of the processor and peak KiB of one run."""
    timed = shutil.which("/usr/bin/time")
    with tempfile.NamedTemporaryFile("r") as peak:
        words = [PROGRAM, "ring"]
        if timed:
            words = [timed, "-f", "%M", "-o", peak.name] + words
        source.seek(0)
        sink.seek(0)
        sink.truncate()
        began = time.perf_counter()
        process = subprocess.Popen(words, stdin=source, stdout=sink)
        _, status, usage = os.wait4(process.pid, 0)
        seconds = time.perf_counter() - began
        process.returncode = os.waitstatus_to_exitcode(status)
        if process.returncode != 0:
            sys.exit(f"bench: the program ended with status {process.returncode}")
        return seconds, usage.ru_utime + usage.ru_stime, int(peak.read()) if timed else usage.ru_maxrss


def measured(text, printed):
    """The least times and the greatest peak of some runs, whose output has so many lines and ends in `end ok`."""
    with tempfile.TemporaryFile() as source, tempfile.TemporaryFile() as sink:
        source.write(text)
        source.flush()
        runs = [run_once(source, sink) for _ in range(RUNS)]
        sink.seek(0)
        output = sink.read().splitlines()
    if len(output) != printed or output[-1] != b"end ok":
        sys.exit("bench: the program printed something else")
    seconds, cpu, peaks = zip(*runs)
    return min(seconds), min(cpu), max(peaks)


print(f"{'script':38}{'commands':>10}{'input bytes':>13}{'seconds':>9}{'cpu':>8}{'commands/s':>12}{'MB/s':>8}{'peak MiB':>10}{'twice':>7}")
for name, maker, n in ROWS:
    before = None
    for size in (n, 2 * n):
        text, commands, printed = maker(size)
        seconds, cpu, peak = measured(text, printed)
        rate = f"{commands / seconds:12,.0f}" if commands else f"{'-':>12}"
        speed = len(text) / seconds / 1e6
        twice = f"{cpu / before:7.2f}" if before else ""
        print(f"{name:38}{commands:10,}{len(text):13,}{seconds:9.3f}{cpu:8.3f}{rate}{speed:8.1f}{peak / 1024:10.1f}{twice}", flush=True)
        before = cpu
print("twice: the processor's time at twice the size over that at the size")
PYTHON
