#!/usr/bin/env python3
"""Solves formulas with the driver lz_bench, each beside Debian's minisat in the same run, and prints the ratios of time,
conflicts and propagations a second. Run it from the top of the repository, with the driver built (`rt run` in
crates/lz_bench): bench/solver.py [FILE.cnf | FOLDER ...]

Beside the files it makes random formulas of three-literal clauses at the hard ratio of 4.26, pigeonhole formulas and long
implication chains. Times are those of the processor, without the time of other programs: of solving alone, and what
checking the log adds to that. A propagation is a literal that becomes true. Where minisat is missing, its columns are
empty."""

import os
import random
import re
import resource
import shutil
import subprocess
import sys
import tempfile

TOP = os.path.dirname(os.path.dirname(os.path.abspath(__file__)))
DRIVER = os.path.join(TOP, "crates", "lz_bench", "out", "lz_bench")
CONFLICTS = 1000000
LIMIT = 60


def limit():
    resource.setrlimit(resource.RLIMIT_CPU, (LIMIT, LIMIT))


def timed(words):
    """The output of a command, and its processor time; None where it ran into the limit."""
    before = resource.getrusage(resource.RUSAGE_CHILDREN)
    done = subprocess.run(words, stdout=subprocess.PIPE, stderr=subprocess.DEVNULL, preexec_fn=limit, check=False)
    after = resource.getrusage(resource.RUSAGE_CHILDREN)
    seconds = after.ru_utime + after.ru_stime - before.ru_utime - before.ru_stime
    return (done.stdout.decode() if done.returncode >= 0 else None), seconds


def ours(path):
    """Answer, conflicts, propagations and seconds of the driver, and the seconds that it takes more to check the log."""
    text, seconds = timed([DRIVER, path, str(CONFLICTS), "alone"])
    if text is None:
        return "UNDECIDED", None, None, seconds, None
    answer, conflicts, propagations = text.split()[0:5:2]
    if answer == "SAT":
        return answer, int(conflicts), int(propagations), seconds, None
    text, whole = timed([DRIVER, path, str(CONFLICTS)])
    words = text.splitlines()[1].split() if text else None
    if words is not None and words[1] != words[7]:
        sys.exit(f"{path}: step {words[7]} does not follow")
    return answer, int(conflicts), int(propagations), seconds, whole - seconds if words else None


def minisat(path):
    """Answer, conflicts, propagations and seconds of minisat without preprocessing."""
    if shutil.which("minisat") is None:
        return None
    text, seconds = timed(["minisat", "-no-pre", "-no-elim", path])
    if text is None:
        return "UNDECIDED", None, None, seconds
    numbers = {name: int(value) for name, value in re.findall(r"(conflicts|propagations)\s*:\s*(\d+)", text)}
    answer = "UNSAT" if "UNSATISFIABLE" in text else "SAT"
    return answer, numbers.get("conflicts"), numbers.get("propagations"), seconds


def write(folder, name, variables, clauses):
    path = os.path.join(folder, name + ".cnf")
    with open(path, "w") as file:
        file.write(f"p cnf {variables} {len(clauses)}\n")
        for clause in clauses:
            file.write(" ".join(map(str, clause)) + " 0\n")
    return path


def random_formula(variables, seed):
    chance = random.Random(seed)
    clauses = []
    for _ in range(round(4.26 * variables)):
        chosen = chance.sample(range(1, variables + 1), 3)
        clauses.append([v if chance.random() < 0.5 else -v for v in chosen])
    return clauses


def pigeonhole(holes):
    """One pigeon more than there are holes."""
    def at(pigeon, hole):
        return pigeon * holes + hole + 1
    clauses = [[at(p, h) for h in range(holes)] for p in range(holes + 1)]
    for hole in range(holes):
        for one in range(holes + 1):
            for other in range(one):
                clauses.append([-at(one, hole), -at(other, hole)])
    return clauses


def chain(length):
    """Each variable implies the next, the first is true, and the last is false."""
    return [[-v, v + 1] for v in range(1, length)] + [[1], [-length]]


def paths(folder, given):
    for name in given:
        if os.path.isdir(name):
            for file in sorted(os.listdir(name)):
                if file.endswith(".cnf"):
                    yield os.path.join(name, file)
        else:
            yield name
    for variables in (50, 100, 150, 200):
        for seed in (1, 2, 3):
            yield write(folder, f"random_{variables}_{seed}", variables, random_formula(variables, seed))
    for holes in (5, 6, 7, 8):
        yield write(folder, f"pigeonhole_{holes}", holes * (holes + 1), pigeonhole(holes))
    for length in (1000, 10000, 100000):
        yield write(folder, f"chain_{length}", length, chain(length))


def shown(number, digits=2):
    return "-" if number is None else f"{number:.{digits}f}"


def ratio(one, other):
    return None if one is None or not other else one / other


def main():
    if not os.access(DRIVER, os.X_OK):
        sys.exit("needs the driver built: rt run in crates/lz_bench")
    print("| formula | answer | conflicts | seconds | check | propagations a second | conflicts / minisat's | seconds / minisat's "
          "| propagations a second / minisat's |")
    print("|---|---|---|---|---|---|---|---|---|")
    with tempfile.TemporaryDirectory() as folder:
        for path in paths(folder, sys.argv[1:]):
            answer, conflicts, propagations, seconds, checked = ours(path)
            rate = ratio(propagations, max(seconds, 0.01))
            other = minisat(path)
            cells = ["", "", ""]
            if other is not None:
                theirs, their_conflicts, their_propagations, their_seconds = other
                if "UNDECIDED" not in (answer, theirs) and answer not in (theirs, "SPENT"):
                    sys.exit(f"{path}: {answer}, and minisat answers {theirs}")
                cells = [shown(ratio(conflicts, their_conflicts)), shown(ratio(seconds, max(their_seconds, 0.01)), 1),
                         shown(ratio(rate, ratio(their_propagations, max(their_seconds, 0.01))))]
            name = os.path.basename(path)[:-4]
            print(f"| {name} | {answer} | {'-' if conflicts is None else conflicts} | {seconds:.2f} | {shown(checked)} | {shown(rate, 0)} "
                  f"| {' | '.join(cells)} |", flush=True)


if __name__ == "__main__":
    main()
