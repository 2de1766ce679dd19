#!/bin/sh
# Prints the time and the memory of `beamkit gen` for 500, 1,000 and 2,000 functions, beside those of `beamkit
# validate` of the same module, which is assembled from its listing, and the time for twice as many functions
# divided by that for the half. Aim: at most 2.1 for twice as many, and at most 2.5 times `validate`.
. "$(dirname -- "$0")/setup.sh"
python3 - "$program" "$folder" <<'PYTHON'
import os, subprocess, sys
from measure import run


def word(number):
    return number.to_bytes(4, "big")


def payload_lines(payload):
    return ["  " + payload[at : at + 32].hex() for at in range(0, len(payload), 32)]


def function(count, k):
    label, callee = 4 * k - 3, 4 * (k % count + 1) - 2
    return [
        f"label u{label}", f"func_info a1 a{k + 1} u1", f"label u{label + 1}", "allocate u1 u1", "move x0 y0", f"label u{label + 2}",
        f"is_nonempty_list f{label + 3} y0", "get_tl y0 y0", "move y0 x0", f"call u1 f{callee}", f"jump f{label + 2}", f"label u{label + 3}",
        "test_heap u2 u0", "put_list y0 a0 x0", "deallocate u1", "return",
    ]


def listing(count):
    atoms = [b"gen"] + [b"f%d" % k for k in range(1, count + 1)]
    exports = b"".join(word(k + 1) + word(1) + word(4 * k - 2) for k in range(1, count + 1))
    version = b"k\0\x01" + bytes([count]) if count < 256 else b"l" + word(1) + b"b" + word(count) + b"j"
    yield from ["beam 1", "chunk AtU8"] + payload_lines(word(len(atoms)) + b"".join(bytes([len(a)]) + a for a in atoms))
    yield f"code 163 {4 * count + 1} {count} -"
    yield from ("  " + line for k in range(1, count + 1) for line in function(count, k))
    yield from ["  int_code_end", "chunk StrT", "chunk ImpT", "  00000000", "chunk ExpT"] + payload_lines(word(count) + exports)
    yield from ["chunk Attr"] + payload_lines(b"\x83l" + word(1) + b"h\x02w\x03vsn" + version + b"j")


program, folder = sys.argv[1:]
path, before = os.path.join(folder, "made.beam"), None
for count in (500, 1000, 2000):
    text = "".join(line + "\n" for line in listing(count)).encode()
    with open(path, "wb") as file:
        subprocess.run([program, "asm", "-"], input=text, stdout=file, check=True)
    told = subprocess.run([program, "gen", str(count)], capture_output=True, check=True).stdout
    assert told == f"module gen\nfunctions {count}\ninstructions {16 * count + 1}\nbytes {os.path.getsize(path)}\naccepted\n".encode()
    (own, peak), (other, most) = run([program, "gen", str(count)], os.devnull, 9), run([program, "validate", path], os.devnull, 9)
    ratio = f"; ratio to half as many {own / before:.2f}" if before else ""
    print(f"{count} functions: made and judged in {own:.4f} s, judged in {other:.4f} s, ratio {own / other:.2f}; memory {peak} and {most} bytes{ratio}")
    before = own
PYTHON
