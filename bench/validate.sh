#!/bin/sh
# Makes a module of 1,000 functions of 100 instructions with calls, tests and a loop each, one of twice as
# many functions, and one of a single function of 199,998 instructions, and prints for each the time of
# `beamkit validate` divided by that of `beamkit disasm`, the most memory of both, and the time for twice the
# functions divided by that for the functions. Aim: below 2, and at most 2.1 for twice the functions.
. "$(dirname -- "$0")/setup.sh"
python3 - "$program" "$folder" <<'PYTHON'
import os, sys
from files import form, judged_code, names
from measure import apart, run

program, folder = sys.argv[1:]
times = []
for functions, instructions in ((1000, 100), (2000, 100), (1, 199_998)):
    path = os.path.join(folder, "judged.beam")
    apart(lambda: form(path, [*names(400, 900), (b"Code", judged_code(functions, instructions))]))
    (own, peak), (other, most) = (run([program, command, path], os.devnull, 9) for command in ("validate", "disasm"))
    times.append(own)
    print(f"{functions} functions of {instructions} instructions, file {os.path.getsize(path)} bytes: validated in {own:.4f} s, listed in {other:.4f} s, ratio {own / other:.2f}; memory {peak} and {most} bytes, ratio {peak / most:.2f}")
print(f"twice the functions: ratio {times[1] / times[0]:.2f}")
PYTHON
