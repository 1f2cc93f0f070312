"""What a script says: its commands as they stand, the copies that are made of them, and the same script with commands by name."""
from .grammar import parsed
from .spelling import command_text
from .table import BY_NUMBER
from .wire import planned, wire_of, SIZE_BITS, SIZE_MASK

SHOWN = 32


def bytes_text(data):
    return f"{data[:SHOWN].hex() or '-'}{'+' * (len(data) > SHOWN)}"


def counted(count, what):
    return f"{count:,} {what}{'s' * (count != 1)}"


def place_text(plan, data):
    what, region, offset, count = plan
    where = f"region {region}" if region else "the ring"
    if what == "data":
        return f"its data, {counted(count, 'byte')} of {where} from byte {offset} on: {bytes_text(data)}"
    room = f"at most {counted(count // 4 - 1, 'word')}" if what == "reply" else counted(count, "byte")
    return f"its reply goes to {where} from byte {offset} on: {room}"


def copies_text(copies):
    """The copies in a line; pieces of data that meet no overwrite are put together."""
    parts = []
    for copy in copies:
        met = "".join(f", which meets line {line}" for line in sorted(copy.met))
        if copy.part.startswith("data ") and not met and parts and parts[-1][3] == "":
            parts[-1][1], parts[-1][2] = copy.number, f"{parts[-1][2].rsplit(' to ', 1)[0]} to {copy.part.rsplit(' ', 1)[1]}"
            continue
        mergeable = "" if copy.part.startswith("data ") and not met else "alone"
        parts.append([copy.number, copy.number, copy.part, mergeable, met])
    said = [f"{first} {part}{met}" if first == last else f"{first} to {last} {part}" for first, last, part, _, met in parts]
    return f"{'copy' if len(copies) == 1 else 'copies'} {'; '.join(said)}"


def fetched_lines(fetched):
    """The lines on what was read at an entry."""
    command, head = fetched.command, f"  entry {fetched.entry}: "
    if fetched.fault and fetched.fault.test <= 5:
        said = f"the header 0x{fetched.header:08X}" if fetched.copies else "nothing is read"
    else:
        said = command_text(command, fetched.size, fetched.words)
    yield head + said
    plan = planned(command, fetched.words) if fetched.words else None
    if plan and not fetched.fault:
        yield f"    {place_text(plan, fetched.data)}"
    if fetched.copies:
        yield f"    {copies_text(fetched.copies)}"
    if fetched.fault:
        yield f"    test {fetched.fault.test} fails: {fetched.fault.why}. The run stops: stop {fetched.fault.kind} {fetched.entry}"


def explained(data):
    """The lines that explain a script."""
    script = parsed(data)
    wire = wire_of(script)
    regions = "".join(f"; region {region} of {counted(size, 'byte')}" for region, size in script.sizes.items())
    yield f"A ring of {script.entries:,} entries{regions}."
    puts = [line for line in script.lines if line.word == "put"]
    for line in puts:
        (put,) = line.values
        if wire.stop:
            yield f"line {line.number}: put {put} is not taken, as the run has stopped"
        elif wire.get == put:
            yield f"line {line.number}: put {put}, where the service is: there is nothing to do"
        else:
            yield f"line {line.number}: put {put}, from entry {wire.get} on"
        for fetched in wire.run(put):
            yield from fetched_lines(fetched)
    if not puts:
        yield "Nothing is published."
    yield f"{counted(wire.memory.copies, 'copy').replace('copys', 'copies')} in all."
    yield from overwrites(script, wire)


def overwrites(script, wire):
    """What became of each line `at`."""
    written = dict(wire.memory.written)
    for line in script.lines:
        if line.word == "at":
            copy, region, offset, data = line.values
            what = f"line {line.number}: {counted(len(data), 'byte')} of {f'region {region}' if region else 'the ring'} from byte {offset} on"
            when = f"written just before copy {written[line.number]}" if line.number in written else f"not written, as copy {copy} isn't reached"
            yield f"{what}, {when}"


def whole_command(ring, entry):
    """The command at an entry of the ring as it stands at first, with its size and words, where header and layout fit."""
    header = int.from_bytes(ring[4 * entry : 4 * entry + 4], "little")
    command, size = BY_NUMBER.get(header >> SIZE_BITS), header & SIZE_MASK
    if command is None or size == 0 or 4 * (entry + size) > len(ring):
        return None
    if command.is_of_any_size:
        return command, size, []
    if size != 1 + command.word_count:
        return None
    words = [int.from_bytes(ring[at : at + 4], "little") for at in range(4 * entry + 4, 4 * (entry + size), 4)]
    return command, size, words


def named_commands(script, ring):
    """The commands that a reader meets in the ring as it stands at first: by entry, with how many entries they take in the text."""
    wire, visited = wire_of(script), []
    for line in script.lines:
        if line.word == "put":
            visited += [fetched.entry for fetched in wire.run(line.values[0]) if fetched.copies]
    found, entry = {}, 0
    while (whole := whole_command(ring, entry)) is not None:
        found[entry] = whole
        entry += whole[1]
    taken = {at for entry, (command, _, words) in found.items() for at in range(entry, entry + 1 + len(words))}
    for entry in visited:
        whole = whole_command(ring, entry) if entry not in taken else None
        covered = whole and range(entry, entry + 1 + len(whole[2]))
        if whole and taken.isdisjoint(covered):
            found[entry] = whole
            taken.update(covered)
    return found, taken


def named(data):
    """The script with its commands by name, in lines; other bytes of the ring stand as they are."""
    script = parsed(data)
    ring = bytearray(4 * script.entries)
    for line in script.lines:
        if line.word == "bytes" and line.values[0] == 0:
            ring[line.values[1] : line.values[1] + len(line.values[2])] = line.values[2]
    found, taken = named_commands(script, ring)
    # The entry at which the next command would stand; none before the first, so that a `place` stands there.
    behind = None
    for line in script.lines:
        if line.word == "bytes" and line.values[0] == 0:
            _, offset, own = line.values
            for entry in range(offset // 4, -(-(offset + len(own)) // 4)):
                if entry in found:
                    command, size, words = found.pop(entry)
                    if entry != behind:
                        yield f"place {entry}"
                    yield command_text(command, size, words)
                    behind = (entry + size) % script.entries
            yield from other_bytes(offset, own, taken)
        elif line.word == "put" and line.values[0] == behind:
            yield "put"
        else:
            yield line.text


def other_bytes(offset, own, taken):
    """Lines for the bytes of a line that are in no command."""
    at, end = offset, offset + len(own)
    while at < end:
        stop = min(end, 4 * (at // 4) + 4)
        if at // 4 in taken:
            at = stop
            continue
        first = at
        while at < end and at // 4 not in taken:
            at = min(end, 4 * (at // 4) + 4)
        yield f"bytes 0 {first} {own[first - offset : at - offset].hex()}"
