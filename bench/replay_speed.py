#!/usr/bin/env python3
"""Times the replay of long schedules and the reading of long schedule texts. Run it from anywhere:
bench/replay_speed.py PROGRAM [runs|sizes|texts ..], where PROGRAM is the command lazycheck.

runs    programs of one thread, each shape in four sizes that double up to the limit on cost, replayed by the schedule of all their
        steps. Every line of it is `step 0 0`, since these programs have no choice; the number of the lines is the index that is told
        where too many are asked for. Printed are the bytes of the program, the steps, the least time and the least time of the
        processor of RUNS runs, how the second grew from the size before, the processor's time without the steps (the same program by
        the empty schedule), the microseconds of a step, and the peak memory.
sizes   programs that do the same steps and differ in their text alone: in the functions that are never called, in the height of the
        trees, in the loops that are written out. Time that grew as the steps times the text would show in the time of a step.
texts   schedule texts of four sizes, of several kinds of lines; the program of each ends after two steps, so nearly all of the time is
        that of the reading. Printed are the megabytes a second of the processor, and the peak memory beside that of the text with its
        list of steps.

On a machine with other work the processor's time swings less. No peak memory below that of this script can be told, some 17 MiB. Every
answer is compared with the one that is due; another one ends the script."""

import os
import subprocess
import sys
import tempfile
import time

RUNS = 5
SECONDS = 120
COST = 10000000
STEP = 16  # the bytes of a step in the list
SCHEDULE = 268435456

# ---------------------------------------------------------------------------------------------------------------- programs

# An action costs 1,024 at least, so these have fewer than 9,766. A turn of `for (int i = 0; i < 100; i++)` costs 7,168 beside its body.


def straight(size):
    """So many statements, one after the other."""
    return "int x;\nint main(void) {\n" + "x = 1;\n" * size + "}\n"


def nested(size):
    """A loop of a hundred turns around so many statements."""
    return f"int x;\nint main(void) {{\nfor (int i = 0; i < 100; i++) {{\n{'x = 1; ' * size}\n}}\n}}\n"


def loops(size):
    """So many loops of a hundred turns, one after the other, with four statements each."""
    return "int x;\nint main(void) {\n" + "for (int i = 0; i < 100; i++) { x = 1; x = 2; x = 3; x = 4; }\n" * size + "}\n"


def calls(size):
    """So many calls of a function of eight statements in a loop of a hundred turns."""
    head = f"int x;\nvoid set(void) {{ {'x = 1; ' * 8}}}\nint main(void) {{\nfor (int i = 0; i < 100; i++) {{\n"
    return head + "set();\n" * size + "}\n}\n"


def arguments(size):
    """So many calls with two arguments and a result in a loop of a hundred turns."""
    head = "int x;\nint add(int a, int b) { return a + b; }\nint main(void) {\nfor (int i = 0; i < 100; i++) {\n"
    return head + "x = add(x, i);\n" * size + "}\n}\n"


def arrays(size):
    """So many elements that are copied in a loop of a hundred turns, each with two checks, a read and a write."""
    rows = "".join(f"a[{i % 4}] = a[{(i + 1) % 4}];\n" for i in range(size))
    return "int a[4] = { 1, 2, 3, 4 };\nint main(void) {\nfor (int i = 0; i < 100; i++) {\n" + rows + "}\n}\n"


def checks(size):
    """So many assertions in a loop of a hundred turns."""
    return "int main(void) {\nfor (int i = 0; i < 100; i++) {\n" + "assert(1);\n" * size + "}\n}\n"


def local(size):
    """So many sums of local objects in a loop of a hundred turns, which are no steps, and one step a turn."""
    rows = "a = a + i;\n" * size
    return "int x;\nint main(void) {\nint a = 0;\nfor (int i = 0; i < 100; i++) {\n" + rows + "x = 1;\n}\n}\n"


def threads(size):
    """Sixteen threads with so many statements each."""
    creates = "".join(f"pthread_create(&t[{i}], 0, w, 0);\n" for i in range(16))
    return f"int x;\nvoid *w(void *a) {{\n{'x = 1; ' * size}\n}}\nint main(void) {{\npthread_t t[16];\n{creates}}}\n"


def in_turn(size):
    """The schedule of `threads` that takes one step of each thread in turn."""
    return "step 0 0\n" * 32 + "".join(f"step {i} 0\n" for i in range(1, 17)) * (size + 1) + "step 0 0\n"


# each shape with its greatest size: the largest one whose program is within the limit on cost, or nearly
SHAPES = {
    "straight": (straight, 9760), "nested": (nested, 88), "loops": (loops, 8), "calls": (calls, 8), "arguments": (arguments, 8),
    "arrays": (arrays, 14), "checks": (checks, 88), "local": (local, 16), "threads": (threads, 592),
}  # fmt: skip


def uncalled(size):
    """`nested` behind so many functions that nothing calls."""
    return "".join(f"int f{i}(int a) {{ return a + {i}; }}\n" for i in range(size)) + nested(80)


def objects(size):
    """`nested` behind so many objects that nothing reads."""
    return "".join(f"int y{i};\n" for i in range(size)) + nested(80)


def high(size):
    """`nested` with its statements in so many blocks, one in the other."""
    head, end = "{" * size, "}" * size
    return f"int x;\nint main(void) {{\nfor (int i = 0; i < 100; i++) {{\n{head}{'x = 1; ' * 80}{end}\n}}\n}}\n"


def far(size):
    """`nested` behind so many statements in a branch that is not taken, in every turn."""
    dead = f"if (i < 0) {{ {'x + 1; ' * size}}}\n"
    return f"int x;\nint main(void) {{\nfor (int i = 0; i < 100; i++) {{\n{dead}{'x = 1; ' * 30}\n}}\n}}\n"


def written_out(size):
    """So many of 8,000 statements one after the other, behind the others in a loop of a hundred turns."""
    part = (8000 - size) // 100
    return f"int x;\nint main(void) {{\nfor (int i = 0; i < 100; i++) {{\n{'x = 1; ' * part}\n}}\n{'x = 1; ' * size}\n}}\n"


def chain(size):
    """A loop of a hundred turns around a chain of so many calls, the last one of 60 statements."""
    rows = [f"void f0(void) {{ {'x = 1; ' * 60}}}\n"] + [f"void f{i}(void) {{ f{i - 1}(); }}\n" for i in range(1, size)]
    return f"int x;\n{''.join(rows)}int main(void) {{ for (int i = 0; i < 100; i++) f{size - 1}(); }}\n"


def operands(size):
    """Statements with so many operands each, 4,000 together."""
    return "int x;\nint main(void) {\n" + f"{' + '.join(['x'] * size)};\n" * (4000 // size) + "}\n"


# each with its sizes
SAME = {
    "uncalled": (uncalled, [0, 250, 2500, 25000]), "objects": (objects, [0, 600, 6000, 60000]), "high": (high, [0, 10, 30, 90, 180]),
    "far": (far, [0, 2, 20]), "written out": (written_out, [0, 2000, 4000, 8000]), "chain": (chain, [1, 3, 10, 30]),
    "operands": (operands, [1, 5, 20, 80]),
}  # fmt: skip

# ---------------------------------------------------------------------------------------------------------------- texts

ENDS = "int x;\nint main(void) { x = 1; }\n"  # two steps: the write, and the end
GREATEST = "step 4294967295 18446744073709551615\n"

# each kind of line, with the number of steps in a line, and what is told of a text of many of them
LINES = {
    "step 0 0": ("step 0 0\n", 1, "NOTARUN index 2"), "greatest numbers": (GREATEST, 1, "NOTARUN index 0"),
    "step 0 77777": ("step 0 77777\n", 1, "NOTARUN index 0"), "blank": ("\n", 0, "HOLDS events 0"),
    "rounds": ("rounds " + "x" * 1000 + "\n", 0, "HOLDS events 0"),
}  # fmt: skip
SIZES = [2**20, 2**23, 2**26, SCHEDULE]


def write_text(path, line, size):
    """A text of whole lines that is at most so long, and how many lines it has."""
    count = size // max(len(line), 1)
    piece = (line * (2**20 // max(len(line), 1) + 1)).encode()
    left = count * len(line)
    with open(path, "wb") as file:
        while left:
            file.write(piece[:left] if left < len(piece) else piece)
            left -= min(left, len(piece))
    return count


# ---------------------------------------------------------------------------------------------------------------- running


def run(words):
    """The status, the report, the seconds, those of the processor and the peak memory in KiB of one run."""
    before = time.perf_counter()
    process = subprocess.Popen(["timeout", str(SECONDS), *words], stdout=subprocess.PIPE)
    report = process.stdout.read()
    _, status, usage = os.wait4(process.pid, 0)
    seconds = time.perf_counter() - before
    process.stdout.close()
    return os.waitstatus_to_exitcode(status), report.decode().strip(), seconds, usage.ru_utime + usage.ru_stime, usage.ru_maxrss


def best(words, due, runs=RUNS):
    """The least seconds, the least of the processor and the greatest peak memory of some runs, whose answer has to be the due one."""
    found = [run(words) for _ in range(runs)]
    for status, report, _, _, _ in found:
        if report != due:
            sys.exit(f"{' '.join(words)}: status {status}, {report!r} in place of {due!r}")
    return min(each[2] for each in found), min(each[3] for each in found), max(each[4] for each in found)


class Bench:
    def __init__(self, program, folder):
        self.program, self.source, self.schedule = program, os.path.join(folder, "case.c"), os.path.join(folder, "case.schedule")

    def words(self):
        return [self.program, "--mode", "replay", "--unwind", "100", "--schedule", self.schedule, self.source]

    def write(self, text):
        with open(self.source, "w", encoding="ascii") as file:
            file.write(text)

    def schedule_of(self, name, size):
        """The schedule of all steps of a program, which is written already, and how many they are."""
        if name == "threads":
            return in_turn(size), in_turn(size).count("\n")
        write_text(self.schedule, "step 0 0\n", 9 * 20000)
        status, report, *_ = run(self.words())
        if not report.startswith("NOTARUN index "):
            sys.exit(f"{name} of size {size} is answered with status {status}, {report!r}")
        steps = int(report.split()[2])
        return "step 0 0\n" * steps, steps

    def show(self, name, size, last=None):
        text = (SHAPES.get(name) or SAME[name])[0](size)
        self.write(text)
        schedule, steps = self.schedule_of(name, size)
        write_text(self.schedule, "", 0)
        _, without, _ = best(self.words(), "HOLDS events 0")
        write_text(self.schedule, schedule, len(schedule))
        seconds, work, peak = best(self.words(), f"HOLDS events {steps}")
        grew = f"{work / last:5.1f}" if last else "     "
        row = f"{name:12} {size:6} {len(text):8} {steps:6} {1000 * seconds:8.1f} {1000 * work:8.1f} {grew}"
        print(f"{row} {1000 * without:11.1f} {1e6 * (work - without) / steps:8.2f} {peak:9}", flush=True)
        return work

    def runs(self):
        print("shape          size    bytes  steps  best ms  work ms  grew  without ms  us/step  peak KiB")
        for name, (_, greatest) in SHAPES.items():
            last = None
            for size in [greatest // 8, greatest // 4, greatest // 2, greatest]:
                last = self.show(name, size, last)

    def sizes(self, only=None):
        print("shape          size    bytes  steps  best ms  work ms        without ms  us/step  peak KiB")
        for name in only or SAME:
            for size in SAME[name][1]:
                self.show(name, size)

    def texts(self):
        print("lines                 bytes      lines  best ms  work ms   MB/s  peak KiB  text and list in KiB")
        self.write(ENDS)
        for name, (line, steps, due) in LINES.items():
            for size in SIZES:
                count = write_text(self.schedule, line, size)
                length = count * len(line)
                seconds, work, peak = best(self.words(), due, RUNS if size < SCHEDULE else 3)
                row = f"{name:16} {length:10} {count:10} {1000 * seconds:8.1f} {1000 * work:8.1f} {length / work / 1e6:6.1f}"
                print(f"{row} {peak:9} {(length + STEP * steps * count) // 1024:21}", flush=True)


def main():
    if len(sys.argv) < 2 or not os.access(sys.argv[1], os.X_OK):
        sys.exit("usage: bench/replay_speed.py PROGRAM [runs|sizes|texts ..]")
    with tempfile.TemporaryDirectory() as folder:
        bench = Bench(os.path.abspath(sys.argv[1]), folder)
        for part in sys.argv[2:] or ["runs", "sizes", "texts"]:
            {"runs": bench.runs, "sizes": bench.sizes, "texts": bench.texts}[part]()


if __name__ == "__main__":
    main()
