"""Times programs, and the most memory that they took.

As a program: a command with its files, beside `sha256sum` over these files.
"""
import os, subprocess, sys, tempfile, time


def apart(make):
    """Makes something in another process: a program's peak is counted from that of the one that starts it."""
    child = os.fork()
    if child == 0:
        make()
        os._exit(0)
    assert os.waitpid(child, 0)[1] == 0


def run(words, output, times=5):
    """The best time in seconds and the peak in bytes of a program that writes to this file."""
    best, peak = None, 0
    for _ in range(times):
        with open(output, "wb") as file:
            begin = time.perf_counter()
            child = subprocess.Popen(words, stdout=file)
            _, status, usage = os.wait4(child.pid, 0)
            took = time.perf_counter() - begin
        assert status == 0
        best = took if best is None else min(best, took)
        peak = max(peak, usage.ru_maxrss * 1024)
    return best, peak


def compare(words, paths):
    """Prints time and memory of a command on files beside `sha256sum` over the same files."""
    size = sum(os.path.getsize(path) for path in paths)
    with tempfile.NamedTemporaryFile() as output:
        own, peak = run(words + paths, output.name, 9)
        other, _ = run(["sha256sum"] + paths, os.devnull, 9)
        print(f"input {size} bytes, output {os.path.getsize(output.name)} bytes")
    print(f"time {own:.4f} s, sha256sum {other:.4f} s, ratio {own / other:.2f}")
    print(f"memory {peak} bytes, ratio {peak / size:.2f}")
    return own


if __name__ == "__main__":
    compare(sys.argv[1:3], sys.argv[3:])
