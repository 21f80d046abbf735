#!/usr/bin/env python3
"""Makes files of assignments of growing size, runs the program on each, and prints the size, the time and
the peak memory of each run. Run it from the top of the repository: bench/assignments_growth.py"""

import os
import resource
import subprocess
import sys
import tempfile
import time

TOP = os.path.dirname(os.path.dirname(os.path.abspath(__file__)))
PROGRAM = os.path.join(TOP, "crates", "lazycheck", "out", "lazycheck")
SIZES = [250, 500, 1000, 2000]
RUNS = 40


def source(size):
    """A file with this many declarations and as many statements, the last of which breaks."""
    lines = [f"int v{i};" for i in range(size)]
    lines.append("int main(void) {")
    lines += [f"v{i} = v{(7 * i) % size};" for i in range(size - 1)]
    lines.append("assert(v0 == 1);")
    lines.append("}")
    return "\n".join(lines) + "\n"


def run(path):
    """The seconds and the peak memory in KiB of one run."""
    before = time.perf_counter()
    process = subprocess.Popen([PROGRAM, path], stdout=subprocess.DEVNULL)
    _, status, usage = os.wait4(process.pid, 0)
    seconds = time.perf_counter() - before
    if os.waitstatus_to_exitcode(status) != 1:
        sys.exit(f"{path}: status {os.waitstatus_to_exitcode(status)}")
    return seconds, usage.ru_maxrss


def main():
    if not os.access(PROGRAM, os.X_OK):
        sys.exit("build the program first: ./lazycheck examples/holds.c")
    print("declarations  statements     bytes   best ms   peak KiB")
    with tempfile.TemporaryDirectory() as folder:
        for size in SIZES:
            path = os.path.join(folder, f"grow{size}.c")
            text = source(size)
            with open(path, "w") as file:
                file.write(text)
            runs = [run(path) for _ in range(RUNS)]
            best = min(seconds for seconds, _ in runs)
            peak = max(memory for _, memory in runs)
            print(f"{size:12} {size:11} {len(text):9} {1000 * best:9.1f} {peak:10}")


if __name__ == "__main__":
    resource.setrlimit(resource.RLIMIT_CORE, (0, 0))
    main()
