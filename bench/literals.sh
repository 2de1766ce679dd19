#!/bin/sh
# Makes forms whose literals, not packed, are 7.5 MB and 15 MB of mixed small terms, and prints for the
# first the time of `beamkit show literals` divided by that of `sha256sum` over its output, and the most
# memory that it took divided by the sizes of the output and of the file; and then the same memory for
# twice the literals, and the time for these divided by that for the first. Aim: below 4 times the
# output, and about 2.
. "$(dirname -- "$0")/setup.sh"
python3 - "$program" "$folder" <<'PYTHON'
import os, random, resource, struct, sys
from measure import apart, run

program, folder = sys.argv[1:]
chance = random.Random(1)
NIL = b"\x6a"


def integer(size):
    if size == 1:
        return bytes([97, chance.randrange(256)])
    if size == 4:
        return b"\x62" + struct.pack(">i", chance.randrange(-2**31, 2**31))
    return bytes([110, size, chance.randrange(2)]) + chance.randbytes(size - 1) + b"\x7f"


def atom():
    name = chance.choice(("ok", "error", "undefined", "a_longer_name@1", "Elixir.Some.Module", "it's", "\u00fcber")).encode()
    return bytes([119, len(name)]) + name


def binary():
    size = chance.randrange(40)
    return b"\x6d" + struct.pack(">I", size) + chance.randbytes(size)


def byte_list():
    size = 1 + chance.randrange(30)
    return b"\x6b" + struct.pack(">H", size) + chance.randbytes(size)


def flat():
    return chance.choice((
        lambda: integer(1), lambda: integer(4), lambda: integer(chance.randrange(4, 9)),
        lambda: integer(chance.randrange(9, 17)), lambda: integer(chance.randrange(17, 30)),
        atom, atom, binary, byte_list,
    ))()


def members(levels):
    items = [term(levels - 1) for _ in range(1 + chance.randrange(4))]
    return len(items), b"".join(items)


def tuple_of(levels):
    count, items = members(levels)
    return bytes([104, count]) + items


def list_of(levels, tail):
    count, items = members(levels)
    return b"\x6c" + struct.pack(">I", count) + items + tail


def map_of(levels):
    count, values = 1 + chance.randrange(4), b""
    for key in range(count):
        values += bytes([97, key]) + term(levels - 1)
    return b"\x74" + struct.pack(">I", count) + values


def term(levels):
    if levels == 0:
        return flat()
    return chance.choice((
        flat, lambda: tuple_of(levels), lambda: list_of(levels, NIL), lambda: list_of(levels, atom()),
        lambda: map_of(levels),
    ))()


def form(path, size):
    literals, total = [], 0
    while total < size:
        literal = b"\x83" + term(3)
        literals.append(struct.pack(">I", len(literal)) + literal)
        total += len(literals[-1])
    payload = struct.pack(">2I", 0, len(literals)) + b"".join(literals)
    padded = payload + bytes(-len(payload) % 4)
    with open(path, "wb") as file:
        file.write(b"FOR1" + struct.pack(">I", 12 + len(padded)) + b"BEAMLitT" + struct.pack(">I", len(payload)) + padded)


path, listing = os.path.join(folder, "literals.beam"), os.path.join(folder, "listing")
times = []
for size in (7_500_000, 15_000_000):
    apart(lambda: form(path, size))
    with open(path, "rb") as file:
        count = int.from_bytes(file.read(28)[24:], "big")
    own, peak = run([program, "show", "literals", path], listing)
    file, output = os.path.getsize(path), os.path.getsize(listing)
    other, _ = run(["sha256sum", listing], os.devnull)
    times.append(own)
    print(f"file {file} bytes, {count} literals, output {output} bytes")
    print(f"time {own:.4f} s, sha256sum {other:.4f} s, ratio {own / other:.2f}")
    print(f"memory {peak} bytes, ratio {peak / output:.2f} to the output, {peak / file:.2f} to the file")
assert peak > 2 * resource.getrusage(resource.RUSAGE_SELF).ru_maxrss * 1024
print(f"twice the literals {times[1]:.4f} s, ratio {times[1] / times[0]:.2f}")
PYTHON
