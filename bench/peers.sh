#!/bin/sh
# Prints how much processor time beamkit takes beside Erlang's own tools for the same files, a file and a
# megabyte: beamkit as a process for each file, and less the time that a process takes without words;
# Erlang in one virtual machine that has done the task before, and as a process for each of some files.
# Aims, less the process: `info` 1.5 times as quick as beam_lib:info, `show` and `cmp` 3 times as beam_lib's,
# `disasm` 5 times as beam_disasm; and a process 200 times as quick as one of `erl`.
# It is skipped where Erlang is missing. Words: files, or none for those below /usr/lib and /usr/local/lib.
if ! command -v escript >/dev/null; then
    echo "skipped: Erlang is not installed"
    exit 0
fi
. "$(dirname -- "$0")/setup.sh"
if [ $# -gt 0 ]; then printf '%s\n' "$@"; else find /usr/lib /usr/local/lib -name '*.beam' -type f; fi |
    sort >"$folder/all"
python3 - "$program" "$folder" "$top/bench/peers.escript" <<'PYTHON'
import os, platform, subprocess, sys, time

program, folder, escript = sys.argv[1:]
ROUNDS = 5
TABLES = tuple(("show", table) for table in ("atoms", "imports", "exports", "locals", "attributes", "compile"))
EACH = "Tables = [atoms, indexed_imports, labeled_exports, labeled_locals, attributes, compile_info], "
STRIP = "{ok, {_, Cs}} = beam_lib:chunks(F, beam_lib:significant_chunks(), [allow_missing_chunks]), "
# For each task the words of beamkit, what a process of erl does, the task of peers.escript, and its aim.
TASKS = [
    ("info", (("info",),), "beam_lib:info(F)", "info", 1.5),
    ("show, six tables, a call each", TABLES, None, "each", 3),
    ("show, six tables, in Erlang one call", TABLES, EACH + "beam_lib:chunks(F, Tables)", "show", None),
    ("cmp", (("cmp",),), "beam_lib:cmp(F, F)", "cmp", 3),
    ("strip", (("strip",),), STRIP + "beam_lib:build_module([C || {_, B} = C <- Cs, is_binary(B)])", "strip", None),
    ("disasm", (("disasm",),), "beam_disasm:file(F)", "disasm", 5),
    ("validate", (("validate",),), None, None, None),
]
BARE, TRUE = (), ("true",)
NOWHERE = [(os.POSIX_SPAWN_OPEN, descriptor, os.devnull, os.O_WRONLY, 0) for descriptor in (1, 2)]


def used(words, statuses=(0, 1)):
    """The processor time and the time in microseconds of a process whose output goes nowhere."""
    begin = time.perf_counter()
    child = os.posix_spawnp(words[0], words, os.environ, file_actions=NOWHERE)
    _, status, usage = os.wait4(child, 0)
    took = time.perf_counter() - begin
    assert os.waitstatus_to_exitcode(status) in statuses, words
    return 1e6 * (usage.ru_utime + usage.ru_stime), 1e6 * took


def measurable(path):
    """Whether a file isn't packed and each command takes it."""
    takes = lambda words: subprocess.run([program, *words], stdout=subprocess.DEVNULL, stderr=subprocess.DEVNULL).returncode < 2
    return all(takes(words_for(words, path)) for _, asked, _, _, _ in TASKS for words in asked)


def words_for(words, path):
    return [*words, path, path] if words == ("cmp",) else [*words, path]


def rounds():
    """The processor time of all files for each of the words, the best of the rounds. They go in turn for each
    file, so that what else the machine does meets them alike."""
    each = {words: [] for words in {words for _, asked, _, _, _ in TASKS for words in asked} | {BARE, TRUE}}
    for _ in range(ROUNDS):
        for times in each.values():
            times.append(0.0)
        for path in paths:
            for words, times in each.items():
                whole = words if words == TRUE else [program] if words == BARE else [program, *words_for(words, path)]
                times[-1] += used(whole, (0, 1, 2))[0]
    return {words: min(times) / len(paths) for words, times in each.items()}


def least(words, statuses=(0, 1)):
    """The least processor time and the least time of a process, each by itself."""
    runs = [used(words, statuses) for _ in range(ROUNDS)]
    return min(cpu for cpu, _ in runs), min(took for _, took in runs)


with open(os.path.join(folder, "all")) as listed:
    all_paths = listed.read().splitlines()
paths = [path for path in all_paths if measurable(path)]
assert paths, "no file that each command takes"
with open(os.path.join(folder, "measured"), "w") as output:
    output.write("".join(path + "\n" for path in paths))
some = sorted(paths, key=os.path.getsize)[len(paths) // 20 :: max(1, len(paths) // 10)]
count, megabytes = len(paths), sum(map(os.path.getsize, paths)) / 1e6
said = subprocess.run(["escript", escript, str(ROUNDS), os.path.join(folder, "measured")], stdout=subprocess.PIPE, text=True, check=True)
theirs = dict(line.split() for line in said.stdout.splitlines())
with open("/proc/cpuinfo") as info:
    processor = next((line.split(": ")[1].strip() for line in info if line.startswith("model name")), platform.processor())
print(f"{processor}, Linux {platform.release()}, Erlang/OTP {theirs.pop('version')}")
print(f"{count} files, {megabytes:.1f} MB; {len(all_paths) - count} left out, which are packed or which a command refuses")
own = rounds()
print(f"a process of beamkit without words takes {own[BARE]:.0f} µs, and one of `true` {own[TRUE]:.0f}")
print()
print("Microseconds of processor time a file, and how many MB a second of it:")
print()
print("| | beamkit, a process each | less the process | Erlang, warm | ratio of these two | aim |")
print("|---|---|---|---|---|---|")
for name, asked, _, task, aim in TASKS:
    whole = sum(own[words] for words in asked)
    warm = max(whole - own[BARE] * len(asked), 0.1)
    speed = lambda time: f"{time:.0f} ({megabytes * 1e6 / count / time:.0f} MB/s)"
    if task is None:
        print(f"| {name} | {speed(whole)} | {speed(warm)} | | | |")
        continue
    other = int(theirs[task]) / count
    print(f"| {name} | {speed(whole)} | {speed(warm)} | {speed(other)} | {other / warm:.1f} | {aim or ''} |")
print()
print(f"A process for each of {len(some)} files: microseconds of processor time, and from start to end (aim: 200):")
print()
print("| | beamkit | erl | ratio | beamkit, to the end | erl, to the end | ratio |")
print("|---|---|---|---|---|---|---|")
for name, asked, call, _, _ in TASKS:
    if call is None:
        continue
    sums = [0.0] * 4
    for path in some:
        ours = [least([program, *words_for(words, path)]) for words in asked]
        other = least(["erl", "-noinput", "-eval", f'F = "{path}", {call}, halt().'])
        for place, time_taken in enumerate((*map(sum, zip(*ours)), *other)):
            sums[place] += time_taken / len(some)
    print(f"| {name} | {sums[0]:.0f} | {sums[2]:.0f} | {sums[2] / sums[0]:.0f} | {sums[1]:.0f} | {sums[3]:.0f} | {sums[3] / sums[1]:.0f} |")
print()
print("""What each side does not do: beamkit starts anew for each file and reads one table a process, so six for six
tables; it writes its output as text or as a file, here to nowhere. Erlang's tools give terms, and print nothing;
where they are asked once for six tables, they read the file once. `beam_lib:strip` packs its
result, which is left out here. `beam_disasm` finds the functions, names what operands refer to and unpacks
literals, and leaves out debug information; `disasm` lists all chunks. Nothing in Erlang judges the code of a .beam file:
its validator looks at what the compiler is about to write.""")
PYTHON
