#!/usr/bin/env python3
"""Makes source files of several shapes, each in doubling sizes, runs the program on each, and prints the size, the
status, the time and the peak memory of each run, so that one sees how work grows with the file. Run it from the top
of the repository: bench/front_end.py [SHAPE..]"""

import os
import subprocess
import sys
import tempfile
import time

TOP = os.path.dirname(os.path.dirname(os.path.abspath(__file__)))
PROGRAM = os.path.join(TOP, "crates", "lazycheck", "out", "lazycheck")
LIMIT = 1048576
RUNS = 5


def declarations(size):
    return "".join(f"int v{i};\n" for i in range(size)) + "int main(void) { }\n"


def statements(size):
    return "int x;\nint main(void) {\n" + "x = x + 1;\n" * size + "}\n"


def functions(size):
    return "".join(f"int f{i}(int a) {{ return a; }}\n" for i in range(size))


def one_line(size):
    return "int " + ", ".join(f"v{i}" for i in range(size)) + ";"


def parentheses(size):
    return "int main(void) { return " + "(" * size


def braces(size):
    return "int main(void) {" + "{" * size


def blanks(size):
    return " " * size


# each shape with its greatest size
SHAPES = {
    "declarations": (declarations, 64000),
    "statements": (statements, 80000),
    "functions": (functions, 30000),
    "one_line": (one_line, 128000),
    "parentheses": (parentheses, 1000000),
    "braces": (braces, 1000000),
    "blanks": (blanks, LIMIT),
}


def run(path):
    """The status, the seconds and the peak memory in KiB of one run."""
    before = time.perf_counter()
    process = subprocess.Popen([PROGRAM, path], stdout=subprocess.PIPE)
    report = process.stdout.read()
    _, status, usage = os.wait4(process.pid, 0)
    seconds = time.perf_counter() - before
    process.stdout.close()
    return os.waitstatus_to_exitcode(status), report.decode().split("\n")[0], seconds, usage.ru_maxrss


def measure(name, folder):
    make, greatest = SHAPES[name]
    for size in [greatest // 8, greatest // 4, greatest // 2, greatest]:
        text = make(size)
        if len(text) > LIMIT:
            sys.exit(f"{name} of size {size} has {len(text)} bytes")
        path = os.path.join(folder, "case.c")
        with open(path, "w") as file:
            file.write(text)
        runs = [run(path) for _ in range(RUNS)]
        best = min(seconds for _, _, seconds, _ in runs)
        peak = max(memory for _, _, _, memory in runs)
        print(f"{name:13} {size:8} {len(text):8} {1000 * best:8.1f} {peak:9} {runs[0][0]:7}  {runs[0][1]}")


def main():
    if not os.access(PROGRAM, os.X_OK):
        sys.exit("build the program first: ./lazycheck examples/holds.c")
    print("shape             size    bytes  best ms  peak KiB  status  first line of the report")
    with tempfile.TemporaryDirectory() as folder:
        for name in sys.argv[1:] or SHAPES:
            measure(name, folder)


if __name__ == "__main__":
    main()
