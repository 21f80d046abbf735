#!/usr/bin/env python3
"""Random small formulas through the driver lz_bench, against brute force and a checker of logs that is written anew here.

Each answer is compared with all assignments. Each log is checked here, step by step, and each learnt clause for newness:
unit propagation over the clauses before it, from the negations of its other literals, does not come to the literal left.
Then proof texts are changed at random, and what the driver's reader and checker answer to them is compared with this
script's: the first line that says nothing, the first step that does not follow, or neither.

Run it from the top of the repository, with the driver built (`rt run` in crates/lz_bench):
bench/solver_random.py [FORMULAS [SEED]]"""

import os
import random
import re
import subprocess
import sys
import tempfile

TOP = os.path.dirname(os.path.dirname(os.path.abspath(__file__)))
DRIVER = os.path.join(TOP, "crates", "lz_bench", "out", "lz_bench")
NUMBER = re.compile(rb"0|[1-9][0-9]*")
LIMIT = 2147483647


def random_formula(chance):
    variables = chance.randint(1, 12)
    clauses = []
    for _ in range(chance.randint(1, 5 * variables)):
        size = min(variables, chance.choice([1, 2, 2, 3, 3, 3, 4]))
        clause = [v if chance.random() < 0.5 else -v for v in chance.sample(range(1, variables + 1), size)]
        if chance.random() < 0.05:
            clause.append(chance.choice(clause))
        if chance.random() < 0.05:
            clause.append(-clause[0])
        clauses.append(clause)
    return variables, clauses


def has_model(variables, clauses):
    masks = []
    for clause in clauses:
        plus = sum(1 << (lit - 1) for lit in set(clause) if lit > 0)
        minus = sum(1 << (-lit - 1) for lit in set(clause) if lit < 0)
        masks.append((plus, minus))
    whole = (1 << variables) - 1
    return any(all(values & plus or ~values & whole & minus for plus, minus in masks) for values in range(1 << variables))


def number(word):
    """The number that a word writes, without leading zeros, or None."""
    return int(word) if NUMBER.fullmatch(word) else None


def literals(words, variables):
    """The literals up to the word 0, and the words behind it; None where there is a fault."""
    found = []
    for place, word in enumerate(words):
        if word == b"0":
            return found, words[place + 1:]
        sign = -1 if word.startswith(b"-") else 1
        value = number(word[1:] if sign < 0 else word)
        if value is None or not 1 <= value <= variables:
            return None
        found.append(sign * value)
    return None


def read(text):
    """What a proof text says, as (variables, clauses, steps), or the number of the first bad line."""
    lines = text.split(b"\n")
    whole = len(lines) - 1
    last = lines.pop()
    if last:
        lines.append(last)

    def words(place):
        return lines[place].split(b" ") if place < whole else None

    head = words(0)
    if head is None or len(head) != 4 or head[:2] != [b"p", b"cnf"]:
        return 1
    variables, count = number(head[2]), number(head[3])
    if variables is None or count is None or variables > LIMIT:
        return 1
    clauses = []
    while len(clauses) < count:
        parts = words(len(clauses) + 1)
        found = None if parts is None else literals(parts, variables)
        if found is None or found[1]:
            return len(clauses) + 2
        clauses.append(found[0])
    steps = []
    for place in range(count + 1, len(lines)):
        parts = words(place)
        if parts is None or parts[0] != b"l":
            return place + 1
        found = literals(parts[1:], variables)
        if found is None or not found[1] or found[1][-1] != b"0":
            return place + 1
        hints = [number(word) for word in found[1][:-1]]
        if any(hint is None or not 1 <= hint <= count + len(steps) for hint in hints):
            return place + 1
        steps.append((found[0], hints))
    return variables, clauses, steps


def follows(known, clause, hints):
    """Whether a step follows by its hints."""
    false = set(clause)
    if not hints or any(-lit in false for lit in false):
        return False
    for place, hint in enumerate(hints):
        left = {lit for lit in known[hint - 1] if lit not in false}
        if place + 1 == len(hints):
            return not left
        if len(left) != 1:
            return False
        false.add(-left.pop())
    return False


def first_bad(clauses, steps):
    """The first step that does not follow; the log's length where no step is empty; None where the log refutes."""
    known = list(clauses)
    for index, (clause, hints) in enumerate(steps):
        if not follows(known, clause, hints):
            return index
        known.append(clause)
    return None if any(not clause for clause, _ in steps) else len(steps)


def is_new(known, clause):
    """Whether some assignment of a part makes the clause's literals but one false and no known clause unit or false."""
    return any(not propagates(known, [-lit for lit in set(clause) if lit != left], left) for left in set(clause))


def propagates(known, true, left):
    """Whether unit propagation from these literals makes a clause false or sets the literal's variable."""
    true = set(true)
    changed = True
    while changed:
        changed = False
        for clause in known:
            if any(lit in true for lit in clause):
                continue
            open_ = {lit for lit in clause if -lit not in true}
            if not open_:
                return True
            if len(open_) == 1:
                true.add(open_.pop())
                changed = True
    return left in true or -left in true


def changed(chance, text):
    """The text with one change."""
    kind = chance.randrange(6)
    lines = text.split(b"\n")
    place = chance.randrange(len(lines))
    if kind == 0:
        del lines[place]
    elif kind == 1:
        lines.insert(place, lines[chance.randrange(len(lines))])
    elif kind == 2:
        words = lines[place].split(b" ")
        words[chance.randrange(len(words))] = chance.choice([b"0", b"1", b"-1", b"2", b"-2", b"3", b"00", b"01", b"-0", b"", b"l", b"4294967297", b"9" * 40])
        lines[place] = b" ".join(words)
    elif kind == 3:
        words = lines[place].split(b" ")
        del words[chance.randrange(len(words))]
        lines[place] = b" ".join(words)
    else:
        at = chance.randrange(len(text) + 1)
        piece = bytes([chance.choice(b"0123456789 -lp\n\t\x00\xff")]) if kind == 4 else b""
        return text[:at] + piece + text[at + 1:]
    return b"\n".join(lines)


def run(folder, text, *words):
    path = os.path.join(folder, "text")
    with open(path, "wb") as file:
        file.write(text)
    return subprocess.run([DRIVER, path, *words], stdout=subprocess.PIPE, check=True).stdout


def check_answer(variables, clauses, output):
    """Compares an answer with brute force and this script's checker. Answers the proof text, or None."""
    head, _, rest = output.partition(b"\n")
    kind, _, conflicts = head.split()[:3]
    if kind == b"SAT":
        values = [word == b"1" for word in rest.split()]
        if len(values) != variables or not all(any(values[abs(lit) - 1] == (lit > 0) for lit in clause) for clause in clauses):
            raise AssertionError("no model")
        return None
    told, _, rest = rest.partition(b"\n")
    steps, follow = (int(word) for word in told.split()[1::6])
    said = read(rest)
    if not isinstance(said, tuple) or said[0] != variables or said[1] != clauses:
        raise AssertionError(f"the text does not say the formula: {said}")
    if not steps == follow == len(said[2]) == int(conflicts):
        raise AssertionError("the log has other steps than there were conflicts, or its check finds a bad one")
    bad = first_bad(clauses, said[2])
    known = list(clauses)
    for clause, _ in said[2]:
        if clause and not is_new(known, clause):
            raise AssertionError("a clause that is not new")
        known.append(clause)
    if kind == b"UNSAT":
        if bad is not None or has_model(variables, clauses):
            raise AssertionError("not refuted")
    elif bad != len(said[2]):
        raise AssertionError("a spent log with a bad step")
    return rest


def answer_to(text):
    said = read(text)
    if not isinstance(said, tuple):
        return f"TEXT line {said}\n".encode()
    bad = first_bad(said[1], said[2])
    if bad is None:
        return f"REFUTED formula {len(said[1])} log {len(said[2])}\n".encode()
    return f"BADSTEP index {bad}\n".encode()


def main():
    count = int(sys.argv[1]) if len(sys.argv) > 1 else 3000
    seed = int(sys.argv[2]) if len(sys.argv) > 2 else 1
    chance = random.Random(seed)
    counts = dict.fromkeys(["SAT", "UNSAT", "SPENT", "steps", "TEXT", "BADSTEP", "REFUTED"], 0)
    with tempfile.TemporaryDirectory() as folder:
        for _ in range(count):
            variables, clauses = random_formula(chance)
            text = f"p cnf {variables} {len(clauses)}\n" + "".join(" ".join(map(str, c)) + " 0\n" for c in clauses)
            budget = chance.choice([1, 2, 5, 1000, 1000, 1000])
            output = run(folder, text.encode(), str(budget), "proof")
            kind = output.split(None, 1)[0].decode()
            counts[kind] += 1
            if kind == "SAT" and not has_model(variables, clauses):
                raise AssertionError("a model of a formula that has none")
            proof = check_answer(variables, clauses, output)
            if proof is None:
                continue
            counts["steps"] += proof.count(b"\nl ")
            for _ in range(5):
                proof_text = changed(chance, proof)
                if chance.random() < 0.3:
                    proof_text = changed(chance, proof_text)
                try:
                    proof_text.decode()
                except UnicodeDecodeError:
                    continue
                head = proof_text.split(b"\n", 1)[0].split(b" ")
                if len(head) == 4 and len(head[2]) > 6:
                    continue
                ours, theirs = answer_to(proof_text), run(folder, proof_text, "recheck")
                if ours != theirs:
                    sys.exit(f"{proof_text!r}: here {ours!r}, there {theirs!r}")
                counts[ours.split()[0].decode()] += 1
    print(", ".join(f"{name} {value}" for name, value in counts.items()))


if __name__ == "__main__":
    main()
