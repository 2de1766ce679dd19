#!/bin/sh
# Lists a form whose code has 4 MB of mixed instructions, and prints the time of `beamkit asm` on that
# listing divided by that of `sha256sum`, the most memory that it took divided by the size of the
# listing, and the time for the listing of twice the code divided by that for the code. Aim: below 3,
# below 8, about 2. Then the same for a listing of payload lines alone.
. "$(dirname -- "$0")/setup.sh"
python3 - "$program" "$folder" <<'PYTHON'
import os, subprocess, sys
from files import form, mixed_code
from measure import apart, compare

program, folder = sys.argv[1:]


def listed(name, chunks):
    """The listing of a form of these chunks, which is assembled to the form again."""
    file, listing, again = (os.path.join(folder, name + end) for end in (".beam", ".list", ".again"))
    apart(lambda: form(file, chunks()))
    with open(listing, "wb") as output:
        subprocess.run([program, "disasm", file], stdout=output, check=True)
    with open(again, "wb") as output:
        subprocess.run([program, "asm", listing], stdout=output, check=True)
    subprocess.run(["cmp", file, again], check=True)
    return listing


first = compare([program, "asm"], [listed("once", lambda: [(b"Code", mixed_code(2_000_000))])])
second = compare([program, "asm"], [listed("twice", lambda: [(b"Code", mixed_code(4_000_000))])])
print(f"twice the code: ratio {second / first:.2f}")
first = compare([program, "asm"], [listed("bytes", lambda: [(b"StrT", bytes(4_000_000))])])
second = compare([program, "asm"], [listed("more", lambda: [(b"StrT", bytes(7_900_000))])])
print(f"twice the payload: ratio {second / first:.2f}")
PYTHON
