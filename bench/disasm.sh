#!/bin/sh
# Makes a form whose code has 4 MB of mixed instructions, and prints the time of `beamkit disasm` on it
# divided by that of `sha256sum` over its output, the most memory that it took divided by the size of
# the output, and the time for twice the code divided by that for the code. Aim: below 3, below 8,
# about 2. Then it prints the same for the same code with names in comments, of few atoms and of many.
# Then it prints what the worst case takes, a file of 16 MiB whose instructions have one byte
# each, for which there is no aim; it needs some gigabytes of memory.
. "$(dirname -- "$0")/setup.sh"
python3 - "$program" "$folder" <<'PYTHON'
import os, sys
from files import code, form, mixed_code, names
from measure import apart, run

program, folder = sys.argv[1:]
once, twice, short, listing = (os.path.join(folder, name) for name in ("once.beam", "twice.beam", "short.beam", "listing"))
apart(lambda: form(once, [(b"Code", mixed_code(4_000_000))]))
apart(lambda: form(twice, [(b"Code", mixed_code(8_000_000))]))
double, _ = run([program, "disasm", twice], listing)
own, peak = run([program, "disasm", once], listing)
output = os.path.getsize(listing)
other, _ = run(["sha256sum", listing], os.devnull)
print(f"file {os.path.getsize(once)} bytes, output {output} bytes")
print(f"time {own:.4f} s, sha256sum {other:.4f} s, ratio {own / other:.2f}")
print(f"memory {peak} bytes, ratio {peak / output:.2f}")
print(f"twice the code {double:.4f} s, ratio {double / own:.2f}")
for atoms, imports in ((400, 900), (60_000, 60_000)):
    named = os.path.join(folder, "named.beam")
    apart(lambda: form(named, [*names(atoms, imports), (b"Code", mixed_code(4_000_000))]))
    took, peak = run([program, "disasm", named], listing)
    size = os.path.getsize(listing)
    print(f"with {atoms} atoms and {imports} imports: {took:.4f} s, ratio {took / own:.2f}; output {size} bytes, memory {peak / size:.2f} times the output")
apart(lambda: form(short, [(b"Code", code(b"\x13" * (16 * 1024 * 1024 - 44), 0))]))  # return
own, peak = run([program, "disasm", short], listing)
size, output = os.path.getsize(short), os.path.getsize(listing)
print(f"one-byte instructions {size} bytes: {own:.4f} s, memory {peak} bytes, {peak / output:.2f} times the output, {peak / size:.0f} times the file")
PYTHON
