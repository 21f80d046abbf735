#!/usr/bin/env python3
"""Compares the circuit of each operator with whole-number arithmetic, with a textbook encoding, and by a solver.
Run it from the top of the repository, after (cd crates/lz_circuits && rt run): bench/circuits.py [SEED [RANDOM PAIRS]]

The program of crates/lz_circuits prints the circuit of an operator as a formula. For each operator and kind:
  values  over fresh operands and over constant ones, the operands are fixed as units and the formula is evaluated by
          plain unit propagation, for all pairs of corners (0, 1, the powers of two and their neighbours) and for
          random ones. Every variable gets a value, without a conflict and with each clause true, so that the model is
          the only one; and the result is that of whole-number arithmetic, written here from C99 6.3.1.3, 6.5.3.3 and
          6.5.5 to 6.5.14.
  proved  the formula, beside a plain encoding of the same operator (Tseitin, gate by gate, without folding) and a
          clause that says that the two results differ, has no model, by minisat or cadical where one is installed.
          Products and divisions are left out: they are too hard at 32 bits.
  sizes   how many variables and clauses each has, beside those of the plain encoding, which is evaluated likewise.
Ends with status 1 where something disagrees."""

import os
import random
import shutil
import subprocess
import sys
import tempfile

TOP = os.path.dirname(os.path.dirname(os.path.abspath(__file__)))
PROGRAM = os.path.join(TOP, "crates", "lz_circuits", "out", "lz_circuits")
WIDTH = 32
BOUND = 1 << WIDTH
KINDS = ("int", "unsigned")
UNARY = ("+", "-", "~", "!", "convert", "test")
BINARY = ("*", "/", "%", "+", "-", "<<", ">>", "<", ">", "<=", ">=", "==", "!=", "&", "^", "|", "&&", "||")
HARD = ("*", "/", "%")
CONSTANTS = (0, 1, 2, 3, 7, 10, 31, 32, 33, 64, 1 << 16, 0x55555555, (1 << 31) - 1, 1 << 31, BOUND - 2, BOUND - 1)
SECONDS = 600


# ---- whole-number arithmetic


def signed(kind, word):
    return word - BOUND if kind == "int" and word >= BOUND >> 1 else word


def truncated(a, b):
    """The quotient of whole numbers, truncated toward zero."""
    return abs(a) // abs(b) * (1 if (a < 0) == (b < 0) else -1)


def unary_value(op, kind, word):
    return {
        "+": word,
        "-": -word % BOUND,
        "~": BOUND - 1 - word,
        "!": int(word == 0),
        "convert": word,
        "test": int(word != 0),
    }[op]


def binary_value(op, kind, left, right):
    a, b = signed(kind, left), signed(kind, right)
    if op in ("/", "%"):
        if b == 0:
            return 0
        return (truncated(a, b) if op == "/" else a - truncated(a, b) * b) % BOUND
    if op == "<<":
        return left << right % WIDTH & BOUND - 1
    if op == ">>":
        return (a >> right % WIDTH) % BOUND
    if op in ("*", "+", "-"):
        return {"*": a * b, "+": a + b, "-": a - b}[op] % BOUND
    if op in ("&", "^", "|"):
        return {"&": left & right, "^": left ^ right, "|": left | right}[op]
    if op in ("&&", "||"):
        return int(left != 0 and right != 0) if op == "&&" else int(left != 0 or right != 0)
    return int({"<": a < b, ">": a > b, "<=": a <= b, ">=": a >= b, "==": a == b, "!=": a != b}[op])


# ---- formulas. A literal is a number from 1 up, or the negation of one; literal 1 is true.


class Formula:
    def __init__(self, variables, clauses):
        self.variables, self.clauses = variables, clauses

    def fresh(self):
        self.variables += 1
        return self.variables

    def require(self, *clause):
        self.clauses.append(clause)


class Circuit:
    """A formula with the literals of its operands, which are words or one literal, and of its result."""

    def __init__(self, formula, operands, result):
        self.formula, self.operands, self.result = formula, operands, result
        named = {abs(lit) for bits in operands for lit in bits} | {1}
        self.variables = formula.variables - len(named)
        self.clauses = len(formula.clauses) - 1


def numbers(words):
    lits = [int(word) for word in words]
    assert lits.pop() == 0 and 0 not in lits
    return tuple(lits)


def printed(op, kind, *operands):
    """The circuit that the program prints."""
    words = [PROGRAM, op, kind, *map(str, operands)]
    text = subprocess.run(words, stdout=subprocess.PIPE, check=True).stdout.decode()
    names, clauses, heads = [], [], []
    for line in text.splitlines():
        words = line.split()
        if words[0] == "c":
            names.append((words[1], numbers(words[2:])))
        elif words[0] == "p":
            heads.append((int(words[2]), int(words[3])))
        else:
            clauses.append(numbers(words))
    [(variables, count)] = heads
    assert count == len(clauses) and clauses[0] == (1,)
    assert all(0 < abs(lit) <= variables for clause in clauses for lit in clause)
    return Circuit(Formula(variables, clauses), [b for name, b in names if name == "operand"], names[-1][1])


# ---- unit propagation, in many lanes at once: a set of lanes is a number, whose bits say which are in it


def lanes_of(words, place):
    """The lanes whose word has a 1 at this place."""
    return int("".join("1" if word >> place & 1 else "0" for word in reversed(words)), 2)


class Values:
    """For each variable the lanes in which it is true, and those in which it is false."""

    def __init__(self, formula, lanes):
        self.formula, self.all = formula, (1 << lanes) - 1
        self.true = [0] * (formula.variables + 1)
        self.false = [0] * (formula.variables + 1)

    def of(self, lit):
        return self.true[lit] if lit > 0 else self.false[-lit]

    def set(self, lit, lanes):
        if lit > 0:
            self.true[lit] |= lanes
        else:
            self.false[-lit] |= lanes

    def turn(self, clause):
        """Where all literals of a clause but one are false, that one becomes true. Whether something changed."""
        before, behind = [self.all], [self.all]
        for lit in clause:
            before.append(before[-1] & self.of(-lit))
        for lit in reversed(clause):
            behind.append(behind[-1] & self.of(-lit))
        changed = False
        for place, lit in enumerate(clause):
            forced = before[place] & behind[len(clause) - 1 - place] & ~self.of(lit)
            if forced:
                self.set(lit, forced)
                changed = True
        return changed

    def propagate(self):
        while any([self.turn(clause) for clause in self.formula.clauses]):
            pass

    def fault(self):
        """Where the values are no model, or leave a variable open, a word that says so."""
        for variable in range(1, self.formula.variables + 1):
            if self.true[variable] & self.false[variable]:
                return f"conflict at variable {variable}"
            if self.true[variable] | self.false[variable] != self.all:
                return f"variable {variable} is open"
        for clause in self.formula.clauses:
            lanes = 0
            for lit in clause:
                lanes |= self.of(lit)
            if lanes != self.all:
                return f"clause {clause} is false"
        return None


def disagreement(circuit, operands, wanted):
    """Where the circuit differs from the wanted results at these operands, one list for each, a text that says so."""
    values = Values(circuit.formula, len(wanted))
    for bits, words in zip(circuit.operands, operands):
        for place, lit in enumerate(bits):
            ones = lanes_of(words, place)
            values.set(lit, ones)
            values.set(-lit, values.all & ~ones)
    values.propagate()
    fault = values.fault()
    if fault:
        return fault
    for place, lit in enumerate(circuit.result):
        wrong = values.of(lit) ^ lanes_of(wanted, place)
        if wrong:
            lane = wrong.bit_length() - 1
            return f"bit {place} at {[words[lane] for words in operands]}, wanted {wanted[lane]}"
    return None


# ---- the plain encoding


class Plain(Formula):
    """Gates by Tseitin's encoding, each with a variable, whatever its operands; only negations are free."""

    def both(self, a, b):
        g = self.fresh()
        self.require(-g, a), self.require(-g, b), self.require(g, -a, -b)
        return g

    def either(self, a, b):
        return -self.both(-a, -b)

    def differ(self, a, b):
        g = self.fresh()
        self.require(-g, a, b), self.require(-g, -a, -b), self.require(g, -a, b), self.require(g, a, -b)
        return g

    def choice(self, test, yes, no):
        return self.either(self.both(test, yes), self.both(-test, no))

    def choices(self, test, yes, no):
        return [self.choice(test, a, b) for a, b in zip(yes, no)]

    def some(self, bits):
        """Whether one is true, by a tree of gates."""
        while len(bits) > 1:
            bits = [self.either(*bits[i : i + 2]) if i + 1 < len(bits) else bits[i] for i in range(0, len(bits), 2)]
        return bits[0]

    def sum_of(self, left, right, carry):
        """A ripple of full adders, and what it carries."""
        bits = []
        for a, b in zip(left, right):
            half = self.differ(a, b)
            bits.append(self.differ(half, carry))
            carry = self.either(self.both(a, b), self.both(half, carry))
        return bits, carry

    def minus(self, bits):
        return self.sum_of([-1] * len(bits), [-lit for lit in bits], 1)[0]

    def less(self, left, right):
        below = -1
        for a, b in zip(left, right):
            below = self.either(self.both(-a, b), self.both(-self.differ(a, b), below))
        return below

    def product(self, left, right):
        rest = [self.both(a, right[0]) for a in left]
        low = []
        for place in range(1, WIDTH):
            low.append(rest.pop(0))
            row = [self.both(a, right[place]) for a in left[: WIDTH - place]]
            rest = self.sum_of(rest, row, -1)[0]
        return low + rest

    def division(self, left, right):
        """Quotient and rest, without sign."""
        rest, quotient = [-1] * WIDTH, []
        divisor = [-lit for lit in right] + [1]
        for digit in reversed(left):
            taken = [digit] + rest
            less, fits = self.sum_of(taken, divisor, 1)
            quotient.insert(0, fits)
            rest = self.choices(fits, less[:WIDTH], taken[:WIDTH])
        return quotient, rest

    def size_of(self, bits):
        return self.choices(bits[-1], self.minus(bits), bits)

    def divided(self, op, kind, left, right):
        if kind == "unsigned":
            parts = self.division(left, right)
            found = parts[op == "%"]
        else:
            parts = self.division(self.size_of(left), self.size_of(right))
            sign = left[-1] if op == "%" else self.differ(left[-1], right[-1])
            found = self.choices(sign, self.minus(parts[op == "%"]), parts[op == "%"])
        given = self.some(list(right))
        return [self.both(given, lit) for lit in found]

    def shifted(self, op, kind, bits, amount):
        bits = list(bits)
        for stage in range(5):
            by = 1 << stage
            if op == "<<":
                moved = [-1] * by + bits[:-by]
            else:
                moved = bits[by:] + [bits[-1] if kind == "int" else -1] * by
            bits = self.choices(amount[stage], moved, bits)
        return bits

    def order(self, op, kind, left, right):
        if kind == "int":
            left, right = list(left[:-1]) + [-left[-1]], list(right[:-1]) + [-right[-1]]
        if op in (">", "<="):
            left, right = right, left
        below = self.less(left, right)
        return -below if op in ("<=", ">=") else below

    def bit_of(self, op, kind, left, right):
        """The literal of an operator whose value is 0 or 1."""
        if op in ("<", ">", "<=", ">="):
            return self.order(op, kind, left, right)
        if op in ("==", "!="):
            other = self.some([self.differ(a, b) for a, b in zip(left, right)])
            return -other if op == "==" else other
        gate = self.both if op == "&&" else self.either
        return gate(self.some(list(left)), self.some(list(right)))

    def binary(self, op, kind, left, right):
        if op in ("/", "%"):
            return self.divided(op, kind, left, right)
        if op in ("<<", ">>"):
            return self.shifted(op, kind, left, right)
        if op in ("&", "^", "|"):
            gate = {"&": self.both, "^": self.differ, "|": self.either}[op]
            return [gate(a, b) for a, b in zip(left, right)]
        if op == "*":
            return self.product(left, right)
        if op in ("+", "-"):
            return self.sum_of(left, right if op == "+" else [-lit for lit in right], -1 if op == "+" else 1)[0]
        return [self.bit_of(op, kind, left, right)] + [-1] * (WIDTH - 1)

    def unary(self, op, kind, of):
        if op == "-":
            return self.minus(of)
        if op == "~":
            return [-lit for lit in of]
        if op in ("!", "test"):
            some = self.some(list(of))
            return [some] if op == "test" else [-some] + [-1] * (WIDTH - 1)
        return list(of)

    def made(self, op, kind, operands):
        if op == "?":
            [[test], yes, no] = operands
            return self.choices(test, yes, no)
        return self.unary(op, kind, *operands) if len(operands) == 1 else self.binary(op, kind, *operands)


def plain(op, kind, count):
    """The plain circuit over fresh operands."""
    formula = Plain(1, [(1,)])
    words = [[formula.fresh() for _ in range(WIDTH)] for _ in range(count)]
    operands = [[formula.fresh()], *words] if op == "?" else words
    return Circuit(formula, operands, formula.made(op, kind, operands))


# ---- the comparisons


def corners():
    near = {(1 << place) + by for place in range(WIDTH + 1) for by in (-1, 0, 1)}
    return sorted(word % BOUND for word in near | {0, 1})


def random_word(rng):
    """A word of some length, or the negation of one."""
    word = rng.getrandbits(rng.randrange(1, WIDTH + 1))
    return word if rng.randrange(2) else -word % BOUND


class Tried:
    def __init__(self):
        self.circuits, self.values, self.faults, self.proved = 0, 0, [], []

    def compare(self, name, circuit, operands, wanted):
        self.circuits += 1
        self.values += len(wanted)
        fault = disagreement(circuit, operands, wanted)
        if fault:
            self.faults.append(f"{name}: {fault}")
            print(f"DISAGREES {name}: {fault}", flush=True)


def lists_for(op, kind, count, pairs):
    """Operands, one list for each, and the wanted results."""
    lefts, rights = [a for a, _ in pairs], [b for _, b in pairs]
    if op == "?":
        tests = [place % 2 for place in range(len(pairs))]
        return [tests, lefts, rights], [a if t else b for t, a, b in zip(tests, lefts, rights)]
    if count == 1:
        return [lefts], [unary_value(op, kind, a) for a in lefts]
    return [lefts, rights], [binary_value(op, kind, a, b) for a, b in pairs]


def with_constants(sides, words):
    """Operands of which one or all are constant, with the pairs at which the circuit is tried."""
    for constant in CONSTANTS:
        if sides == 1:
            yield (constant,), [(constant, 0)]
            continue
        yield (constant, "fresh"), [(constant, word) for word in words]
        yield ("fresh", constant), [(word, constant) for word in words]
        for other in CONSTANTS:
            yield (constant, other), [(constant, other)] * 2


def without_model(solver, formula):
    """Whether the solver says that the formula has no model."""
    with tempfile.NamedTemporaryFile("w", suffix=".cnf") as file:
        file.write(f"p cnf {formula.variables} {len(formula.clauses)}\n")
        for clause in formula.clauses:
            file.write(" ".join(map(str, clause)) + " 0\n")
        file.flush()
        quiet = {"stdout": subprocess.DEVNULL, "stderr": subprocess.DEVNULL}
        return subprocess.run([solver, file.name], timeout=SECONDS, check=False, **quiet).returncode == 20


def prove(tried, solver, op, kind, circuit):
    """That the result is always that of the plain encoding over the same operands."""
    formula = Plain(circuit.formula.variables, list(circuit.formula.clauses))
    other = formula.made(op, kind, circuit.operands)
    formula.require(*[formula.differ(a, b) for a, b in zip(circuit.result, other)])
    name = f"{op} {kind}"
    if without_model(solver, formula):
        tried.proved.append(name)
    else:
        tried.faults.append(f"{name}: not proved by {solver}")
        print(f"NOT PROVED {name}", flush=True)


def compare_operator(tried, solver, op, kind, sides, pairs, words):
    """All comparisons of an operator at one kind, and its sizes beside those of the plain encoding."""
    circuit, textbook = printed(op, kind, *["fresh"] * sides), plain(op, kind, sides)
    lists, wanted = lists_for(op, kind, sides, pairs)
    for name, one in (("", circuit), (", plain", textbook)):
        tried.compare(f"{op} {kind}{name}", one, lists, wanted)
    for operands, tries in with_constants(sides, words):
        lists, wanted = lists_for(op, kind, sides, tries)
        tried.compare(f"{op} {kind} {operands}", printed(op, kind, *operands), lists, wanted)
    if solver and op not in HARD:
        prove(tried, solver, op, kind, circuit)
    return circuit.variables, circuit.clauses, textbook.variables, textbook.clauses


def main():
    if not os.access(PROGRAM, os.X_OK):
        sys.exit("build the program first: (cd crates/lz_circuits && rt run)")
    seed = int(sys.argv[1]) if len(sys.argv) > 1 else 1
    count = int(sys.argv[2]) if len(sys.argv) > 2 else 2000
    rng = random.Random(seed)
    solver = shutil.which("cadical") or shutil.which("minisat")
    tried, edges = Tried(), corners()
    pairs = [(a, b) for a in edges for b in edges] + [(random_word(rng), random_word(rng)) for _ in range(count)]
    words = edges + [random_word(rng) for _ in range(count // 10)]
    print("| operator | kind | variables | clauses | plain: variables | clauses |\n|---|---|---|---|---|---|")
    for op, sides in [(op, 1) for op in UNARY] + [(op, 2) for op in BINARY] + [("?", 2)]:
        sizes = {kind: compare_operator(tried, solver, op, kind, sides, pairs, words) for kind in KINDS}
        if sizes["int"] == sizes["unsigned"]:
            sizes = {"both": sizes["int"]}
        for kind, size in sizes.items():
            cells = [f"`{op}`".replace("|", "\\|"), kind, *(f"{number:,}" for number in size)]
            print("| " + " | ".join(cells) + " |", flush=True)
    print(f"{tried.circuits} circuits at {tried.values} lists of operands, {len(tried.faults)} disagreements")
    print(f"{len(tried.proved)} circuits proved by {os.path.basename(solver)}" if solver else "no solver is installed")
    return 1 if tried.faults else 0


if __name__ == "__main__":
    sys.exit(main())
