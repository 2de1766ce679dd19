#!/bin/sh
# Makes a form of 16 MiB without code, and prints the time of `beamkit canon` on it divided by that of
# `sha256sum`, and the most memory that it took divided by the file's size. Aim: below 0.5 and below 3.2.
# Then the same for 4 MB of mixed code, for which there is no aim, and the time for twice the code
# divided by that for the code, which should be about 2.
. "$(dirname -- "$0")/setup.sh"
python3 - "$program" "$folder" <<'PYTHON'
import os, sys
from files import form, many_chunks, mixed_code
from measure import apart, compare

program, folder = sys.argv[1:]
large, once, twice = (os.path.join(folder, name) for name in ("large.beam", "once.beam", "twice.beam"))
apart(lambda: many_chunks(large))
apart(lambda: form(once, [(b"Code", mixed_code(4_000_000))]))
apart(lambda: form(twice, [(b"Code", mixed_code(8_000_000))]))
compare([program, "canon"], [large])
first = compare([program, "canon"], [once])
second = compare([program, "canon"], [twice])
print(f"twice the code: ratio {second / first:.2f}")
PYTHON
