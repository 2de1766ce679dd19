#!/bin/sh
# Makes a file whose code is 4 MB of functions, and prints the time of opening it as a module divided by
# that of reading it as `disasm` does before it makes its text, each without the time of loading it, the
# most memory of both, and the same for twice the code. Aim: below 2, and about 2 for twice the code.
. "$(dirname -- "$0")/setup.sh"
. "$top/tools/opened_program.sh"
python3 - "$opened" "$folder" <<'PYTHON'
import os, sys
from files import form, functions, names
from measure import apart, run

program, folder = sys.argv[1:]
times = []
for size in (4_000_000, 8_000_000):
    path = os.path.join(folder, "functions.beam")
    apart(lambda: form(path, [*names(400, 900), (b"Code", functions(size))]))
    (loaded, _), (read, reading), (opened, opening) = (run([program, task, path], os.devnull, 9) for task in ("load", "read", "open"))
    times.append(opened - loaded)
    print(f"file {os.path.getsize(path)} bytes: opened in {opened - loaded:.4f} s, read in {read - loaded:.4f} s, ratio {(opened - loaded) / (read - loaded):.2f}; memory {opening} and {reading} bytes")
print(f"twice the code: ratio {times[1] / times[0]:.2f}")
PYTHON
