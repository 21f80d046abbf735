#!/usr/bin/env python3
"""Times the rules, slots and cost on source files of about a mebibyte. Run it from anywhere:
bench/front_end_rules.py PROGRAM [SHAPE..], where PROGRAM is the command lazycheck.

Each shape is made in four sizes that double, and the program runs on each: the size, the bytes, the best time and the best time of the
processor of five runs (the second swings less on a machine with other work), the peak memory, the status and the first line of the
report are printed, with how the processor's time grew from the size before. The first four shapes are accepted and each passes the
rules, the slots and the cost. The others are there so that no walk is done per function, per call, per name or per scope, and no depth
grows with the file. Last comes a shape of the grammar alone, to take the time of lexer and parser away."""

import os
import subprocess
import sys
import tempfile
import time

LIMIT = 1048576
LARGE = "int large[4096], larger[4096];"  # in main, so that the cost is over its limit and no later part of the program runs
RUNS = 5
SECONDS = 60


def functions(size):
    """Functions that all call the one before them, but for every hundredth."""
    rows = [f"int f{i}(int a){{{'a' if i % 100 == 0 else f'f{i - 1}(a)'};}}\n" for i in range(size)]
    return "".join(rows) + f"int main(void){{{LARGE}f{size - 1}(1);}}\n"


def statements(size):
    """One function with so many statements, which main calls."""
    rows = ["x = x + y[x & 1];\n", "y[x] += 2 << x;\n", "if (x) y[1]++;\n", "v = -x * 3u / v;\n"]
    return "int x, y[3]; unsigned v;\nvoid f(void) {\n" + "".join(rows[i % 4] for i in range(size)) + "}\nint main(void) { f(); }\n"


def cells(size):
    """Arrays with so many elements together, each with a value."""
    made, number = "", 0
    while size:
        length = min(size, 4096)
        made += f"int a{number}[{length}] = {{" + "2147483647-9,\n" * (length - 1) + "1};\n"
        size, number = size - length, number + 1
    return made + "int main(void) { " + LARGE + " a0[0] = 1; }\n"


def chain(size):
    """So many functions in a chain, each of which calls the next one twice and fills its share of the file."""
    fill = "x = x + 1;" * 330
    rows = ["int x;\nvoid f0(void) { x = 0; }\n"]
    rows += [f"void f{i}(void) {{ f{i - 1}(); {fill} f{i - 1}(); }}\n" for i in range(1, size)]
    return "".join(rows) + f"int main(void) {{ f{size - 1}(); }}\n"


def calls(size):
    """Half of it statements of one function, half of it calls of that function."""
    return "int x;\nvoid f(void) {" + "x = 1;\n" * size + "}\nint main(void) {" + "f();f();\n" * size + "}\n"


def deep(size):
    """A chain of calls that is too high: the bodies stand in order of the calls, so the last one is found first."""
    rows = [f"void f{i}(void) {{ f{i + 1}(); }}\n" for i in range(size)]
    return "".join(rows) + f"void f{size}(void) {{ }}\nint main(void) {{ }}\n"


def circle(size):
    """One circle of calls; the first call comes back."""
    rows = [f"void f{i}(void) {{ f{(i + 1) % size}(); }}\n" for i in range(size)]
    return "".join(rows) + "int main(void) { }\n"


def all_called(size):
    """Functions without calls, each of which main calls once."""
    return "".join(f"void f{i}(void){{}}\n" for i in range(size)) + f"int main(void){{{LARGE}" + "".join(f"f{i}();" for i in range(size)) + "}\n"


def all_call_back(size):
    """As all_called, but each calls main."""
    rows = [f"void f{i}(void){{main();}}\n" for i in range(size)]
    return "".join(rows) + "int main(void){" + "".join(f"f{i}();" for i in range(size)) + "}\n"


def fan(size):
    """Groups of 90 functions that each call the three before them."""
    rows = [f"void f{i}(void){{" + "".join(f"f{j}();" for j in range(max(i - 3, i - i % 90), i)) + "}\n" for i in range(size)]
    return "".join(rows) + f"int main(void){{{LARGE}}}\n"


def late_circle(size):
    """Groups of 90 functions that each call the three before them, and a call that comes back at the end of the file."""
    rows = [f"void f{i}(void) {{ " + "".join(f"f{j}();" for j in range(max(i - 3, i - i % 90), i)) + " }\n" for i in range(size)]
    return "".join(rows) + "void g(void) { g(); }\nint main(void) { }\n"


def locals_in_a_row(size):
    """So many objects in one block, each with the one before for its value."""
    return "int main(void) {\nint v0;\n" + "".join(f"int v{i}=v{i - 1};\n" for i in range(1, size)) + "}\n"


def hiding(size):
    """Blocks that all hide one name, side by side and 90 deep."""
    inner = "int a=a;" + "{int a=a;" * 90 + "}" * 90
    return "int a;\nint main(void) {" + LARGE + f"{{{inner}}}\n" * size + "}\n"


def prototypes(size):
    """Prototypes of one function, and one at the end that does not fit."""
    return "int f(int,int a);\n" * size + "int f(int a, int b) { }\nint main(void) { }\nint f(int);\n"


def lexed_and_parsed(size):
    """As statements, with a piece at the end that no program has."""
    return statements(size) + "goto"


# each shape with its greatest size
SHAPES = {
    "functions": (functions, 30000), "statements": (statements, 60000), "cells": (cells, 65536), "chain": (chain, 300),
    "calls": (calls, 60000), "deep": (deep, 32000), "circle": (circle, 32000), "late_circle": (late_circle, 20000),
    "all_called": (all_called, 30000), "all_call_back": (all_call_back, 25000), "fan": (fan, 20000),
    "locals_in_a_row": (locals_in_a_row, 55000), "hiding": (hiding, 1000), "prototypes": (prototypes, 55000),
    "lexed_and_parsed": (lexed_and_parsed, 60000),
}  # fmt: skip


def run(program, path):
    """The status, the first line of the report, the seconds, those of the processor and the peak memory in KiB of one run."""
    before = time.perf_counter()
    process = subprocess.Popen(["timeout", str(SECONDS), program, path], stdout=subprocess.PIPE)
    report = process.stdout.read()
    _, status, usage = os.wait4(process.pid, 0)
    seconds = time.perf_counter() - before
    process.stdout.close()
    return os.waitstatus_to_exitcode(status), report.decode().split("\n")[0], seconds, usage.ru_utime + usage.ru_stime, usage.ru_maxrss


def measure(program, name, folder):
    make, greatest = SHAPES[name]
    last = None
    for size in [greatest // 8, greatest // 4, greatest // 2, greatest]:
        text = make(size)
        if len(text) > LIMIT:
            sys.exit(f"{name} of size {size} has {len(text)} bytes")
        path = os.path.join(folder, "case.c")
        with open(path, "w", encoding="ascii") as file:
            file.write(text)
        runs = [run(program, path) for _ in range(RUNS)]
        best, work = (min(run[each] for run in runs) for each in (2, 3))
        peak = max(memory for _, _, _, _, memory in runs)
        grew = f"{work / last:5.1f}" if last else "     "
        print(f"{name:16} {size:7} {len(text):8} {1000 * best:9.1f} {1000 * work:9.1f} {grew} {peak:9} {runs[0][0]:7}  {runs[0][1]}", flush=True)
        last = work


def main():
    if len(sys.argv) < 2 or not os.access(sys.argv[1], os.X_OK):
        sys.exit("usage: bench/front_end_rules.py PROGRAM [SHAPE..]")
    print("shape               size    bytes   best ms   work ms  grew  peak KiB  status  first line of the report")
    with tempfile.TemporaryDirectory() as folder:
        for name in sys.argv[2:] or SHAPES:
            measure(sys.argv[1], name, folder)


if __name__ == "__main__":
    main()
