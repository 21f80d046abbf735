#!/usr/bin/env python3
"""Compares the program with an evaluator of its own on random files of assignments and assertions and on near misses.
Run it from the top of the repository: bench/assignments_compare.py [SEED [FILES]]

The evaluator below reads the text by a regular expression for each statement and knows nothing of the
program's tokens, trees or traces. Of a text that is not of the form it expects any other report: no token, no
program, a broken rule, a choice, or a verdict."""

import os
import random
import re
import subprocess
import sys
import tempfile

TOP = os.path.dirname(os.path.dirname(os.path.abspath(__file__)))
PROGRAM = os.path.join(TOP, "crates", "lazycheck", "out", "lazycheck")
RESERVED = set(
    """auto break case char const continue default do double else enum extern float for goto if inline int long
    register restrict return short signed sizeof static struct switch typedef union unsigned void volatile while
    _Bool _Complex _Imaginary pthread_t pthread_mutex_t pthread_cond_t NULL PTHREAD_MUTEX_INITIALIZER
    PTHREAD_COND_INITIALIZER assert __VERIFIER_assume __VERIFIER_nondet_int __VERIFIER_nondet_uint
    __VERIFIER_error reach_error abort __VERIFIER_atomic_begin __VERIFIER_atomic_end pthread_create pthread_join
    pthread_exit pthread_mutex_init pthread_mutex_destroy pthread_mutex_lock pthread_mutex_unlock
    pthread_cond_init pthread_cond_destroy pthread_cond_wait pthread_cond_signal pthread_cond_broadcast printf
    main""".split()
)
WORD = r"[A-Za-z_][A-Za-z0-9_]*"
NUMBER = r"(?:0+|[1-9][0-9]*)(?![A-Za-z0-9_])"
BLANK = r"(?:[ \t\n\r]|/\*(?:(?!\*/)[\s\S])*\*/|//[^\n]*\n)"
GAP = rf"{BLANK}*"
OPERAND = rf"(?:{WORD}|{NUMBER})"
SUM = rf"{OPERAND}(?:{GAP}\+(?!\+){GAP}{OPERAND})*"
DECLARATION = re.compile(rf"{GAP}int{BLANK}+({WORD}){GAP}(?:=(?!=){GAP}({NUMBER}){GAP})?;")
HEAD = re.compile(rf"{GAP}int{BLANK}+main{GAP}\({GAP}void{GAP}\){GAP}\{{")
ASSIGNMENT = re.compile(rf"{GAP}({WORD}){GAP}=(?!=){GAP}({SUM}){GAP};")
ASSERTION = re.compile(rf"{GAP}(assert){GAP}\({GAP}({SUM}){GAP}==(?!=){GAP}({SUM}){GAP}\){GAP};")
END = re.compile(rf"{GAP}\}}{GAP}(?://[^\n]*)?\Z")
REPORTS = {
    0: re.compile(r"SUCCESSFUL unwind 2 rounds 2\n\Z"),
    1: re.compile(r"FAILED\ncheck (?:assert|divzero) line ([1-9][0-9]*)\nrounds 1\n(?:step 0 0\n)+\Z"),
    12: re.compile(r"NOTBUILT line ([1-9][0-9]*)\n\Z"),
    4: re.compile(r"SOURCE line ([1-9][0-9]*) (?:byte (?:0|[1-9][0-9]*): not a token|token (?:0|[1-9][0-9]*): not a program|rule (?:[1-9]|1[0-9]|2[0-6]))\n\Z|SOURCE line (0) rule 15\n\Z"),
}


class NotTheForm(Exception):
    pass


def operands(text):
    return re.findall(OPERAND, re.sub(BLANK, " ", text))


def value(text, values):
    parts = operands(text)
    if len(parts) > 100:
        raise NotTheForm
    total = 0
    reads = 0
    for part in parts:
        if part[0].isdigit():
            if int(part) > 2147483647:
                raise NotTheForm
            total += int(part)
        else:
            if part not in values:
                raise NotTheForm
            total += values[part]
            reads += 1
    return total % 2**32, reads


def statements(text, place, values):
    """The statements from a place on, checked whole before any is evaluated."""
    found = []
    while not END.match(text, place):
        match = ASSERTION.match(text, place) or ASSIGNMENT.match(text, place)
        if not match:
            raise NotTheForm
        if match.re is ASSIGNMENT and match.group(1) not in values:
            raise NotTheForm
        for group in match.groups()[1:]:
            value(group, values)
        found.append(match)
        place = match.end()
    return found


def expected(text):
    values = {}
    place = 0
    try:
        while not HEAD.match(text, place):
            match = DECLARATION.match(text, place)
            if not match or match.group(1) in RESERVED or match.group(1) in values:
                raise NotTheForm
            first = int(match.group(2) or "0")
            if first > 2147483647:
                raise NotTheForm
            values[match.group(1)] = first
            place = match.end()
        place = HEAD.match(text, place).end()
        steps = 0
        for match in statements(text, place, values):
            if match.re is ASSIGNMENT:
                values[match.group(1)], reads = value(match.group(2), values)
                steps += reads + 1
            else:
                left, left_reads = value(match.group(2), values)
                right, right_reads = value(match.group(3), values)
                steps += left_reads + right_reads + 1
                if left != right:
                    line = text.count("\n", 0, match.start(1)) + 1
                    return f"FAILED\ncheck assert line {line}\nrounds 1\n" + "step 0 0\n" * steps, 1
        return "SUCCESSFUL unwind 2 rounds 2\n", 0
    except NotTheForm:
        return None


def is_report(text, report, status):
    """Whether the report is one of its status, on a line that the text has."""
    match = REPORTS[status].match(report) if status in REPORTS else None
    return match is not None and (status == 0 or int(match.group(1) or 0) <= text.count("\n") + 1)


def gap(rng):
    return "".join(rng.choice([" ", "\t", "\n", " ", "/* int */", "// x\n"]) for _ in range(rng.choice([0, 1, 1, 2])))


def operand(rng, names):
    if names and rng.random() < 0.6:
        return rng.choice(names)
    return str(rng.choice([0, 1, 2, 3, 7, 2147483647, 2147483646, rng.randrange(2**31)]))


def sum_of(rng, names):
    count = 100 if rng.random() < 0.01 else rng.choice([1, 1, 1, 2, 3])
    return (gap(rng) + "+" + gap(rng)).join(operand(rng, names) for _ in range(count))


def file_of(rng):
    names = []
    text = gap(rng)
    for _ in range(rng.randrange(5)):
        name = rng.choice("abcxyz_") + rng.choice(["", "1", "_a", "int"])
        if name in names:
            continue
        names.append(name)
        first = gap(rng) + "=" + gap(rng) + str(rng.choice([0, 1, 2147483647])) if rng.random() < 0.5 else ""
        text += "int " + gap(rng) + name + first + gap(rng) + ";" + gap(rng)
    text += "int " + gap(rng) + "main" + gap(rng) + "(" + gap(rng) + "void" + gap(rng) + ")" + gap(rng) + "{"
    for _ in range(rng.randrange(8)):
        text += gap(rng)
        if names and rng.random() < 0.6:
            text += rng.choice(names) + gap(rng) + "=" + gap(rng) + sum_of(rng, names)
        else:
            side = sum_of(rng, names)
            other = side if rng.random() < 0.7 else sum_of(rng, names)
            text += "assert" + gap(rng) + "(" + gap(rng) + side + gap(rng) + "==" + gap(rng) + other + gap(rng) + ")"
        text += gap(rng) + ";"
    return text + gap(rng) + "}" + gap(rng)


def near_miss(rng, text):
    """The text with one byte left out, doubled, exchanged or added."""
    place = rng.randrange(len(text))
    other = rng.choice(";=(){}+ \t\n0129aint_/*#\r-")
    kind = rng.randrange(4)
    if kind == 0:
        return text[:place] + text[place + 1 :]
    if kind == 1:
        return text[:place] + text[place] + text[place:]
    if kind == 2:
        return text[:place] + other + text[place + 1 :]
    return text[:place] + other + text[place:]


def main():
    if not os.access(PROGRAM, os.X_OK):
        sys.exit("build the program first: ./lazycheck examples/holds.c")
    seed = int(sys.argv[1]) if len(sys.argv) > 1 else 1
    files = int(sys.argv[2]) if len(sys.argv) > 2 else 600
    rng = random.Random(seed)
    counts = {}
    with tempfile.TemporaryDirectory() as folder:
        path = os.path.join(folder, "case.c")
        for number in range(files):
            text = file_of(rng)
            if number % 2:
                text = near_miss(rng, text)
            with open(path, "w", newline="") as file:
                file.write(text)
            done = subprocess.run([PROGRAM, path], stdout=subprocess.PIPE, check=False)
            got = (done.stdout.decode(), done.returncode)
            want = expected(text)
            if got != want if want else not is_report(text, *got):
                sys.exit(f"seed {seed}, file {number}:\n{text!r}\nwanted {want or 'another report'}\ngot    {got}")
            counts[got[1]] = counts.get(got[1], 0) + 1
    print(f"{files} files agree; by status: {dict(sorted(counts.items()))}")


if __name__ == "__main__":
    main()
