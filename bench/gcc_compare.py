#!/usr/bin/env python3
"""Compares the program with gcc on random programs of one thread without undefined behaviour. Run it from anywhere:
bench/gcc_compare.py PROGRAM [--seed S] [--programs N] [--mode replay|check|both] [--changed] [--keep DIRECTORY]
where PROGRAM is the command lazycheck; gcc has to be there.

A random program has integer objects and arrays, functions, loops of a bounded number of turns, every operator, conversions, shadowed
names and checks, no thread, no input, and each object has an initializer. What C leaves open is kept out: an operand with an effect
stands where a sequence point or nothing else is beside it, and gcc's sanitizers reject the rest (`-fsanitize=undefined,address`; sums
wrap by `-fwrapv`, as they do here). Each program is run by gcc twice: once to find out which values its probes meet, of which the assertions of
the second text are made, so that most of them hold for a while, and some break late; once to find the check that breaks.

In mode replay the schedule is as many `step 0 0` as go, which is the index that is told where there are too many: the answer is to be
`BROKEN` with the kind and line of gcc's check, or `HOLDS`. In mode check it is to be `FAILED` with them, and as many steps as that
schedule has, or `SUCCESSFUL`. Some programs have an index or a divisor that may be none; gcc's text tests these, and which of two in a
statement is the first is left open, since C leaves it open. Told are each difference and how often each answer came, and with
`--changed`, where the command is handed each program with one operator changed, how many of these are answered otherwise."""

import argparse
import collections
import ctypes
import os
import random
import re
import signal
import subprocess
import sys
import tempfile

HEADER = r"""
#include <stdio.h>
#include <stdlib.h>
#include <unistd.h>
static void ended(const char *what, int line) { fflush(stdout); printf("\n@%s %d\n", what, line); fflush(stdout); _exit(0); }
static void probed(int number, unsigned value) { printf("\n?%d %u\n", number, value); }
#define assert(e) ((e) ? (void)0 : ended("assert", __LINE__))
#define reach_error() ended("reached", __LINE__)
#define __VERIFIER_error() ended("reached", __LINE__)
#define __VERIFIER_assume(e) ((e) ? (void)0 : ended("none", 0))
#define abort() ended("none", 0)
#define INDEX(i, length) ((unsigned)(i) < length ? (void)0 : ended("bounds", __LINE__), (i))
#define DIVISOR(e) ((e) ? (void)0 : ended("divzero", __LINE__), (e))
"""
GCC = ["gcc", "-O0", "-fwrapv", "-w", "-std=gnu99"]
SANITIZED = ["-g", "-fsanitize=undefined,address", "-fno-sanitize-recover=all"]
BATCH = 40
MANY = 20000  # more steps than a program has within the limit on cost
TURNS = 12  # the bound on turns; no loop has more

# ---------------------------------------------------------------------------------------------------------------- programs

COMPARISONS, SUMS, BITS = ["<", ">", "<=", ">=", "==", "!="], ["+", "-", "*"], ["&", "|", "^"]
ODD = ["7", "10", "31", "32", "255", "-1", "-2", "2147483647", "(-2147483647 - 1)", "4294967295u", "0x80000000", "0xFFu", "017", "'a'",
       "'\\n'", "2147483648u", "65536", "1000000007", "3u", "LIMIT", "NEGATIVE"]  # fmt: skip
INTS = ["int", "int", "unsigned", "signed", "unsigned int"]


class Scalar:
    """A name that is in scope, and whether it may be assigned to."""

    def __init__(self, name, free=True):
        self.name, self.free = name, free


class Maker:
    """A random program as lines. Expressions are `pure`, which have no effect, or those of `seq`, whose effects stand between sequence points.
    A function is `pure` where it writes only its own objects and prints nothing; it may then stand anywhere. A place where the value of an
    expression is probed is written `@(number, expression)@`, for `asserted` to fill in."""

    def __init__(self, random, tag, risky):
        self.random, self.tag, self.risky = random, tag, risky
        self.count, self.probes, self.turns = 0, 0, 1
        self.scopes, self.arrays, self.functions = [[]], [[]], []
        self.gives, self.in_loop, self.in_pure, self.lines, self.weight = "int", 0, False, [], 0

    def chance(self, share):
        return self.random.random() < share

    def one(self, *of):
        return self.random.choice(of)

    def some(self, least, most):
        return self.random.randint(least, most)

    def name(self):
        self.count += 1
        return f"v{self.count}{self.tag}"

    def line(self, text):
        self.lines.append(text)

    # the file

    def program(self):
        self.line("#define LIMIT 9")
        self.line("#define NEGATIVE (-3)")
        for _ in range(self.some(2, 5)):
            self.file_scalar()
        for _ in range(self.some(1, 3)):
            self.file_array()
        for _ in range(self.some(0, 4)):
            self.function()
        self.gives = "int"
        self.line(f"int main({self.one('void', '')})")
        self.body(self.some(4, 10), last=self.globals_probed)
        return self.lines

    def file_scalar(self):
        name, base = self.name(), self.one(*INTS)
        first = self.one("", f" = {self.constant()}", f" = {self.constant()} {self.one(*SUMS, *BITS)} {self.constant()}")
        self.line(f"{self.one('', '', '', 'static ', 'volatile ')}{base} {name}{first};")
        self.scopes[0].append(Scalar(name))

    def file_array(self):
        name, length = self.name(), self.one(1, 2, 3, 4, 4, 8, 8, 5)
        first = [self.constant() for _ in range(self.some(1, length))]
        values = f" = {{ {', '.join(first)}{self.one('', ',')} }}" if self.chance(0.7) else ""
        self.line(f"{self.one('', '', 'static ')}{self.one(*INTS)} {name}[{length}]{values};")
        self.arrays[0].append((name, length))

    def constant(self):
        return self.one("0", "1", "2", "3", "5", self.one(*ODD))

    def function(self):
        """A function, of which it is kept by whom it may be called and how much it does."""
        name, gives, pure = f"f{len(self.functions)}{self.tag}", self.one("int", "int", "unsigned", "void"), self.chance(0.5)
        params = [(self.one(*INTS), self.name()) for _ in range(self.some(0, 3))]
        self.gives, outer = gives, self.in_pure
        self.in_pure = pure and gives != "void"
        words, static = ", ".join(f"{base} {param}" for base, param in params) or "void", self.one("", "", "static ", "inline static ")
        if self.chance(0.2):
            self.line(f"{static}{gives} {name}({self.one(words, '')});")
        self.line(f"{static}{gives} {name}({words})")
        before, self.weight = self.weight, 0
        self.body(self.some(1, 4), [param for _, param in params])
        self.functions.append((name, gives, len(params), self.in_pure, self.weight + 1))
        self.in_pure, self.weight = outer, before

    def globals_probed(self):
        for scalar in self.scopes[0]:
            self.probe(scalar.name)
        for name, length in self.arrays[0]:
            for place in range(length):
                if self.chance(0.6):
                    self.probe(f"{name}[{place}]")

    def probe(self, expression):
        self.line(f"@({self.probes}, {expression})@")
        self.probes += 1

    # statements

    def body(self, statements, params=(), last=None):
        self.scopes.append([Scalar(param) for param in params])
        self.arrays.append([])
        outer, self.in_loop, self.turns = (self.in_loop, self.turns), 0, 1
        self.line("{")
        self.several(statements, 2)
        if last:
            last()
        if self.gives == "void":
            self.line(self.one("", "return;"))
        elif not last or self.chance(0.5):
            self.line(f"return {self.pure(2)};")
        self.line("}")
        self.in_loop, self.turns = outer
        self.scopes.pop()
        self.arrays.pop()

    def several(self, statements, depth):
        for _ in range(statements):
            self.statement(depth)

    def statement(self, depth):
        self.weight += self.turns
        kinds = ["assigned"] * 6 + ["declared"] * 2 + ["called"] * 2 + ["sequence", "probed", "probed"]
        if depth and self.turns * TURNS <= 200:
            kinds += ["loop"] * 3
        if depth:
            kinds += ["branch"] * 3 + ["block"]
        if self.in_loop:
            kinds += ["leave"] * 2
        if not self.in_pure:
            kinds += ["printed", "given_up"]
        kinds += ["returned"] * (self.random.random() < 0.3)
        getattr(self, "write_" + self.one(*kinds))(depth)

    def block(self, statements, depth, head=""):
        self.scopes.append([])
        self.arrays.append([])
        self.line(head + "{")
        self.several(statements, depth)
        self.line("}")
        self.scopes.pop()
        self.arrays.pop()

    def write_assigned(self, depth):
        target, value = self.target(), self.pure(3)
        kind = self.one("plain", "plain", "op", "op", "step", "chain", "give")
        if target is None:
            self.line(self.one(";", f"{value};"))
        elif kind == "plain":
            self.line(f"{target} = {value};")
        elif kind == "step":
            self.line(self.one(f"{target}++;", f"{target}--;", f"++{target};", f"--{target};"))
        elif kind == "chain":
            other = self.written_scalar()
            self.line(f"{target} = {other} = {value};" if other and other not in target else f"{target} = {value};")
        elif kind == "give":
            self.line(f"{target} = ({self.one('int', 'unsigned')})({value});")
        else:
            op = self.one(*SUMS, *BITS, "<<", ">>", "/", "%")
            self.line(f"{target} {op}= {self.operand(op, 2)};")

    def write_declared(self, depth):
        if self.chance(0.2):
            name, length = self.name(), self.some(1, 6)
            values = ", ".join(self.pure(1) for _ in range(self.some(1, length)))
            self.line(f"{self.one(*INTS)} {name}[{length}] = {{ {values} }};")
            self.arrays[-1].append((name, length))
            return
        value, name = self.pure(2), self.name()
        if self.chance(0.1) and len(self.scopes) > 2:
            name = self.one(*self.scopes[0]).name  # an outer object is hidden from here on
            if any(scalar.name == name for scalar in self.scopes[-1]):
                return
            value = self.constant()
        constant = self.chance(0.1)
        self.line(f"{'const ' if constant else ''}{self.one(*INTS)} {name} = {value};")
        self.scopes[-1].append(Scalar(name, not constant))

    def write_called(self, depth):
        """A call whose effects no other operand of the statement sees."""
        name, call = self.effective_call()
        if name is None:
            return self.write_assigned(depth)
        scalar = self.written_scalar()
        gives = next(gives for other, gives, *_ in self.functions if other == name)
        if gives == "void" or scalar is None or self.chance(0.2):
            self.line(f"{call};")
        elif self.chance(0.3):
            fresh = self.name()
            self.line(f"{self.one(*INTS)} {fresh} = {call};")
            self.scopes[-1].append(Scalar(fresh))
        else:
            self.line(f"{scalar} = {call};")
        return None

    def write_sequence(self, depth):
        self.line(f"{self.seq(self.some(2, 3))};")

    def write_probed(self, depth):
        if self.in_pure:
            return self.write_assigned(depth)
        return self.probe(self.pure(2))

    def write_branch(self, depth):
        self.block(self.some(0, 3), depth - 1, f"if ({self.test()}) ")
        if self.chance(0.5):
            self.block(self.some(0, 2), depth - 1, "else ")
        elif self.chance(0.3):
            self.block(self.some(0, 2), depth - 1, f"else if ({self.test()}) ")

    def write_block(self, depth):
        self.block(self.some(1, 4), depth - 1)

    def write_loop(self, depth):
        """A loop over a name of its own that its body does not write, but perhaps to go on by one more."""
        name, turns, base = self.name(), self.some(0, TURNS), self.one(*INTS)
        outer, self.turns = self.turns, self.turns * TURNS
        self.in_loop += 1
        kind = self.one("up", "up", "down", "down", "do", "endless", "less")
        self.scopes.append([Scalar(name, False)])
        self.arrays.append([])
        if kind == "up":
            step = self.one(f"{name}++", f"++{name}", f"{name} += 1", f"{name} = {name} + 1")
            self.block(self.some(1, 3), depth - 1, f"for ({base} {name} = 0; {name} < {turns}; {step}) ")
        elif kind == "less":
            self.block(self.some(1, 3), depth - 1, f"for (int {name} = {turns} - 1; {name} >= 0 && {self.pure(1)}; {name}--) ")
        elif kind == "endless":
            self.line(f"for (int {name} = 0; ; {name}++) {{")
            self.line(f"if ({name} >= {min(turns, TURNS - 1)}) break;")
            self.several(self.some(1, 3), depth - 1)
            self.line("}")
        else:
            self.line("{")
            self.line(f"{base} {name} = {turns};")
            if kind == "down":
                self.block(self.some(1, 3), depth - 1, f"while ({name}-- > 0) " if "unsigned" not in base else f"while ({name}--) ")
            else:
                self.block(self.some(1, 3), depth - 1, "do ")
                self.lines[-1] = f"}} while ({name}-- > 1{'' if self.chance(0.7) else f' && ({self.seq(1)})'});"
            self.line("}")
        self.scopes.pop()
        self.arrays.pop()
        self.in_loop -= 1
        self.turns = outer

    def write_leave(self, depth):
        self.line(f"if ({self.test()}) {self.one('break', 'continue')};")

    def write_printed(self, depth):
        self.line(f'printf("%d %u\\n", {self.pure(1)}, {self.pure(1)});')

    def write_given_up(self, depth):
        """A check that is reached, or an end of the program, both behind a test that seldom holds."""
        seldom = f"{self.pure(1)} == {self.some(11, 99)}"
        ends = [f"__VERIFIER_assume({self.pure(1)} != {self.some(11, 99)});", f"if ({seldom}) abort();"]
        self.line(self.one(*ends, f"if ({seldom}) reach_error();", f"if ({seldom}) __VERIFIER_error();"))

    def write_returned(self, depth):
        value = "" if self.gives == "void" else " " + self.pure(1)
        self.line(f"if ({self.test()} && {self.pure(1)} == {self.constant()}) return{value};")

    # expressions

    def readable(self):
        """The names of scalars that are in scope and not hidden."""
        return sorted({scalar.name for scope in self.scopes for scalar in scope})

    def written_scalar(self):
        found = {}
        for number, scope in enumerate(self.scopes):
            for scalar in scope:
                found[scalar.name] = scalar.free and not (self.in_pure and number == 0)
        free = sorted(name for name, free in found.items() if free)
        return self.one(*free) if free else None

    def target(self):
        """What is written: a scalar or an element, whose index has no effect."""
        arrays = [each for scope in self.arrays[1 if self.in_pure else 0 :] for each in scope]
        if arrays and self.chance(0.35):
            return self.element(self.one(*arrays), 1)
        return self.written_scalar()

    def element(self, array, depth):
        name, length = array
        if self.chance(0.5):
            return f"{name}[{self.some(0, length - 1)}]"
        index = self.pure(depth - 1)
        if self.risky and self.chance(0.06):
            return f"{name}[INDEX({index}, {length})]"
        if length in (1, 2, 4, 8):
            return f"{name}[{index} & {length - 1}]" if index.isalnum() else f"{name}[({index}) & {length - 1}]"
        return f"{name}[(unsigned)({index}) % {length}u]"

    def operand(self, op, depth):
        """The right operand of an operator, such that it is defined; sometimes only perhaps."""
        value = self.pure(depth - 1)
        if op in ("<<", ">>") and not (self.risky and self.chance(0.03)):
            return f"(({value}) & 31)"
        if op in ("/", "%") and self.risky and self.chance(0.06):
            return f"DIVISOR(({value}))"
        if op in ("/", "%"):
            return self.one(f"((({value}) & 15) + 1)", f"(({value}) | 1)", "3", "7u", "-5", "1000003")
        return f"({value})"

    def test(self):
        return self.seq(1) if self.chance(0.2) else self.pure(2)

    def pure(self, depth):
        """An expression without effects."""
        if depth <= 0 or self.chance(0.2):
            return self.leaf()
        kinds = ["sum"] * 4 + ["compared"] * 3 + ["bits", "shifted", "logical", "unary"] * 2 + ["divided", "chosen", "cast", "called"]
        return getattr(self, "pure_" + self.one(*kinds))(depth)

    def leaf(self):
        names, arrays = self.readable(), [each for scope in self.arrays for each in scope]
        kinds = ["constant"] + ["scalar"] * 4 * bool(names) + ["element"] * 2 * bool(arrays)
        kind = self.one(*kinds)
        if kind == "constant":
            return self.constant()
        return self.one(*names) if kind == "scalar" else self.element(self.one(*arrays), 1)

    def pure_sum(self, depth):
        return f"({self.pure(depth - 1)} {self.one(*SUMS)} {self.pure(depth - 1)})"

    def pure_compared(self, depth):
        return f"({self.pure(depth - 1)} {self.one(*COMPARISONS)} {self.pure(depth - 1)})"

    def pure_bits(self, depth):
        return f"({self.pure(depth - 1)} {self.one(*BITS)} {self.pure(depth - 1)})"

    def pure_divided(self, depth):
        op = self.one("/", "%")
        return f"({self.pure(depth - 1)} {op} {self.operand(op, depth)})"

    def pure_shifted(self, depth):
        op = self.one("<<", ">>", ">>")
        return f"({self.pure(depth - 1)} {op} {self.operand(op, depth)})"

    def pure_logical(self, depth):
        return f"({self.pure(depth - 1)} {self.one('&&', '||')} {self.pure(depth - 1)})"

    def pure_unary(self, depth):
        return f"({self.one('-', '~', '!', '+', '!!', '- -')} {self.pure(depth - 1)})"

    def pure_chosen(self, depth):
        return f"({self.pure(depth - 1)} ? {self.pure(depth - 1)} : {self.pure(depth - 1)})"

    def pure_cast(self, depth):
        return f"({self.one(*INTS)})({self.pure(depth - 1)})"

    def pure_called(self, depth):
        pure = [each for each in self.functions if each[3] and self.may_call(each)]
        return self.call(self.one(*pure), depth - 1) if pure else self.leaf()

    def may_call(self, function):
        return self.turns * function[4] <= 150 and self.weight + self.turns * function[4] <= 600

    def call(self, function, depth):
        name, _, params, _, weight = function
        self.weight += self.turns * weight
        return f"{name}({', '.join(self.pure(depth) for _ in range(params))})"

    def effective_call(self):
        able = [each for each in self.functions if (each[3] or not self.in_pure) and self.may_call(each)]
        if not able:
            return None, None
        function = self.one(*able)
        return function[0], self.call(function, 1)

    def seq(self, parts):
        """An expression whose parts have effects, with a sequence point between them (C99 6.5.13 to 6.5.15)."""
        made = self.effect()
        for _ in range(parts - 1):
            made = self.one(f"{made} && {self.effect()}", f"({made}) || {self.effect()}", f"({made}) ? {self.effect()} : {self.effect()}")
        return made if self.chance(0.7) else f"({made}) || {self.pure(1)}"

    def effect(self):
        """An expression with one effect, on an object that it does not read otherwise."""
        name = self.written_scalar()
        if name is None:
            return self.pure(1)
        step = self.one(f"{name}++", f"{name}--", f"++{name}", f"--{name}")
        compared = f"{step} {self.one(*COMPARISONS)} {self.constant()}"
        op = self.one("+=", "-=", "^=", "|=", "&=", "*=")
        updated = f"({name} {op} {self.pure(1)}) {self.one(*COMPARISONS)} {self.constant()}"
        return self.one(step, compared, compared, f"({name} = {self.pure(2)})", updated)


def spread(random, lines):
    """The lines as text, some empty lines and comments between them."""
    made = []
    for line in lines:
        made += [""] * (random.random() < 0.1) + ["/* two\n   lines */"] * (random.random() < 0.03)
        made.append(line + " // to the end" * (random.random() < 0.03))
    return "\n".join(made) + "\n"


OTHERS = {"+": "-", "-": "+", "*": "+", "<": "<=", ">": ">=", "<=": "<", ">=": ">", "==": "!=", "!=": "==", "&": "|", "|": "^", "^": "&",
          "<<": ">>", ">>": "<<", "/": "%", "%": "/", "&&": "||", "||": "&&"}  # fmt: skip


def changed(random, text):
    """The text with one binary operator changed, and none of an assertion."""
    places = [found for found in re.finditer(r" (\S+) ", text) if found[1] in OTHERS and "assert" not in text[: found.start()].split("\n")[-1]]
    if not places:
        return text
    place = random.choice(places)
    return f"{text[:place.start()]} {OTHERS[place[1]]} {text[place.end():]}"


def unmarked(text):
    """The text that the command reads: an index and a divisor without the test that gcc makes of it, `INDEX(i, length)` and `DIVISOR(e)`."""
    made, closing = [], []  # of each open parenthesis, what its end writes
    for piece in re.split(r"(INDEX\(|DIVISOR\(|, \d+\)|[()])", text):
        if piece in ("INDEX(", "DIVISOR("):
            closing.append("")
        elif piece == "(":
            closing.append(")")
            made.append(piece)
        elif piece.startswith(", ") and piece.endswith(")") and closing[-1]:
            made += [piece[:-1], closing.pop()]
        elif piece.endswith(")") and piece.strip(", 0123456789)") == "":
            made.append(closing.pop())
        else:
            made.append(piece)
    return "".join(made)


PROBE = re.compile(r"@\((\d+), (.*)\)@")


def asserted(random, text, met):
    """The text with an assertion or nothing in place of each probe, from the values that it met: one that holds for all of them, or one
    that breaks at some of them."""

    def check(found):
        number, expression, values = int(found[1]), found[2], met.get(int(found[1]), [])
        if random.random() < 0.15:
            return ";"
        if not values:
            return random.choice([f"assert({expression});", "assert(0);", "reach_error();"])
        if random.random() < 0.1:
            value = random.choice(values)  # breaks where it is met for the first time
            return f"assert({expression} != {value}u);"
        if len(set(values)) == 1:
            return f"assert({expression} == {values[0]}u);"
        other = random.choice([value for value in range(50) if value not in values])
        return random.choice([f"assert({expression} != {other}u);", f"assert(({expression} == {values[0]}u) || {other});"])

    return PROBE.sub(check, text)


# ---------------------------------------------------------------------------------------------------------------- gcc


class Gcc:
    """Programs that are built together and run one by one."""

    def __init__(self, directory):
        self.directory = directory
        with open(os.path.join(directory, "header.h"), "w") as file:
            file.write(HEADER)

    def built(self, name, texts, flags):
        """The path of one program that runs the text of the number that it is handed."""
        rows = [f'#include "{self.directory}/header.h"']
        for number, text in enumerate(texts):
            path = os.path.join(self.directory, f"{name}{number}.c")
            with open(path, "w") as file:
                file.write(text)
            rows += [f"#define main main_{number}", f'#include "{path}"', "#undef main"]
        cases = "".join(f"case {number}: main_{number}(); break; " for number in range(len(texts)))
        rows.append(f'int main(int n, char **w) {{ switch (atoi(w[1])) {{ {cases}}} ended("none", 0); }}')
        path = os.path.join(self.directory, name)
        with open(path + ".c", "w") as file:
            file.write("\n".join(rows) + "\n")
        built = subprocess.run([*GCC, *flags, "-o", path, path + ".c"], capture_output=True, text=True)
        if built.returncode:
            sys.exit(f"gcc refuses\n{built.stderr[:2000]}")
        return path

    def run(self, path, number):
        """What one text prints, and what the sanitizers say."""
        done = subprocess.run([path, str(number)], capture_output=True, text=True, timeout=60, errors="replace")
        return done.returncode, done.stdout, done.stderr


def ending(printed):
    """The kind and line of the check that broke, or None, and whether the program came to its end or to a check at all."""
    found = re.findall(r"^@([a-z]+) (\d+)$", printed, re.M)
    return (None if found[0][0] == "none" else (found[0][0], int(found[0][1]))) if found else "no end"


def met_values(printed):
    met = collections.defaultdict(list)
    for number, value in re.findall(r"^\?(\d+) (\d+)$", printed, re.M):
        met[int(number)].append(int(value))
    return met


# ---------------------------------------------------------------------------------------------------------------- comparing


class Command:
    def __init__(self, program, directory):
        self.program, self.source, self.schedule = program, os.path.join(directory, "case.c"), os.path.join(directory, "case.schedule")

    def write(self, text):
        with open(self.source, "w") as file:
            file.write(text)

    def replay(self, steps):
        with open(self.schedule, "w") as file:
            file.write("step 0 0\n" * steps)
        words = ["--mode", "replay", "--unwind", str(TURNS), "--schedule", self.schedule, self.source]
        done = subprocess.run([self.program, *words], capture_output=True, text=True, timeout=600)
        return done.stdout

    def replayed(self):
        """The kind and line of the check that breaks behind as many steps as go, or None, and how many these are; or the answer itself."""
        answer = self.replay(MANY)
        found = re.fullmatch(r"NOTARUN index (\d+)\n", answer)
        if not found:
            return answer, 0
        steps = int(found[1])
        answer = self.replay(steps)
        if answer == f"HOLDS events {steps}\n":
            return None, steps
        found = re.fullmatch(rf"BROKEN check ([a-z]+) line (\d+) events {steps}\n", answer)
        return ((found[1], int(found[2])) if found else answer), steps

    def checked(self, steps):
        """As `replayed`, in mode check; the schedule of a failure has so many steps."""
        done = subprocess.run([self.program, "--unwind", str(TURNS), self.source], capture_output=True, text=True, timeout=600)
        if done.stdout.startswith("SUCCESSFUL") and done.returncode == 0:
            return None
        head, *rest = re.split(r"(?=step )", done.stdout, maxsplit=1)
        found = re.fullmatch(r"FAILED\ncheck ([a-z]+) line (\d+)\nrounds 1\n", head)
        whole = found and done.returncode == 1 and "".join(rest) == "step 0 0\n" * steps
        return (found[1], int(found[2])) if whole else done.stdout[:200]


DEFINED = ("bounds", "divzero")  # the checks that C has not


class Comparison:
    def __init__(self, asked, directory):
        self.asked, self.directory = asked, directory
        self.gcc, self.command = Gcc(directory), Command(os.path.abspath(asked.program), directory)
        self.tally, self.wrong, self.steps = collections.Counter(), 0, 0

    def batch(self, numbers):
        chosen = [random.Random(f"{self.asked.seed} {number}") for number in numbers]
        texts = [spread(each, Maker(each, f"_{place}", each.random() < 0.3).program()) for place, each in enumerate(chosen)]
        probed = self.gcc.built("probed", [PROBE.sub(r"probed(\1, \2);", text) for text in texts], SANITIZED)
        kept = []
        for place, text in enumerate(texts):
            status, printed, said = self.gcc.run(probed, place)
            if status or said:
                self.tally["undefined, left out"] += 1
            else:
                kept.append((numbers[place], asserted(chosen[place], text, met_values(printed))))
        plain = self.gcc.built("plain", [text for _, text in kept], []) if kept else None
        for place, (number, text) in enumerate(kept):
            self.compare(number, text, ending(self.gcc.run(plain, place)[1]))

    def compare(self, number, text, expected):
        if expected == "no end":
            sys.exit(f"program {number} has no end\n{text}")
        text, told = unmarked(text), f"gcc: {expected[0] if expected else 'none breaks'}"
        if self.asked.changed:
            self.command.write(changed(random.Random(number), text))
            same = self.command.replayed()[0] == expected
            self.tally["changed: " + ("answered as the unchanged one" if same else "answered otherwise")] += 1
            return
        self.command.write(text)
        got, steps = self.command.replayed()
        self.steps += steps
        if self.judge(told, number, text, expected, got) and self.asked.mode != "replay":
            self.judge("mode check, " + told, number, text, expected, self.command.checked(steps))

    def judge(self, told, number, text, expected, got):
        if isinstance(got, str) and got.startswith("LIMIT cost"):
            self.tally["too dear, left out"] += 1
            return False
        self.tally[told] += 1
        if expected and got and expected[0] in DEFINED and got[0] in DEFINED:  # which of two on a line comes first is open in C
            got = (expected[0], got[1])
        if got != expected:
            self.wrong += 1
            print(f"program {number}: gcc {expected!r}, the command {got!r}", flush=True)
            if self.asked.keep:
                os.makedirs(self.asked.keep, exist_ok=True)
                with open(os.path.join(self.asked.keep, f"{self.asked.seed}_{number}.c"), "w") as file:
                    file.write(text)
        return got == expected


def main():
    parser = argparse.ArgumentParser(description="see the top of the file")
    parser.add_argument("program")
    parser.add_argument("--seed", type=int, default=1)
    parser.add_argument("--programs", type=int, default=1000)
    parser.add_argument("--mode", choices=["replay", "check", "both"], default="replay")
    parser.add_argument("--changed", action="store_true")
    parser.add_argument("--keep")
    asked = parser.parse_args()
    ctypes.CDLL(None).personality(0x0040000)  # no addresses at random, with which some sanitizers never come to an end
    signal.signal(signal.SIGTERM, signal.default_int_handler)  # what was compared by then is told
    with tempfile.TemporaryDirectory() as directory:
        comparison, done = Comparison(asked, directory), 0
        try:
            while done < asked.programs:
                comparison.batch(list(range(done, min(done + BATCH, asked.programs))))
                done = min(done + BATCH, asked.programs)
        except KeyboardInterrupt:
            print("stopped")
        for name, count in sorted(comparison.tally.items()):
            print(f"{count:7} {name}")
        print(f"{done} programs with seed {asked.seed}, {comparison.steps} steps, {comparison.wrong} differences")
    return int(comparison.wrong > 0)


if __name__ == "__main__":
    sys.exit(main())
