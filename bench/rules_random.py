#!/usr/bin/env python3
"""Compares the program with a checker of the rules and a count of slots and cost of its own.
Run it from anywhere: bench/rules_random.py PROGRAM [--seed S] [--programs N] [--words "WORDS"] [--only KIND] [--shrink], where PROGRAM
is the command lazycheck and WORDS stand before the file (`--unwind N` and `--rounds K` among them set the bounds of slots and cost).
--self prints each program with the answer that is expected, --gcc compiles random accepted programs with gcc, and --cost FILE prints
what this checker says of one file; these need no PROGRAM.

Everything here is written from the text of the rules (docs/LANGUAGE.md): a lexer and a parser (c_reader.py), the 26 rules, slots and
cost. It shares no form with the program's checker: names are resolved in a pass of their own, and a second pass without scopes lists all faults.
Random accepted programs come from a generator that knows types and scopes. Faults are spliced in at places that the generator kept: one
rule at a time, two at a time, near misses, statements and externals of any form, and blindly by exchanged tokens. Other programs stand
at the limits of cost and slots, or past them, where the report tells the exact number. What is expected always comes from the checker
below; rows with answers that were worked out by hand are compared with it first. Told are each disagreement (as small as it gets
with --shrink), each form that never broke its rule, and how many programs had each answer."""

import argparse
import collections
import os
import random
import re
import subprocess
import sys
import tempfile
import threading

from c_reader import ADDRESS, ASSIGNMENTS, COND, INT, KEYWORDS, MOST, MUTEX, Node, Parser, Refused, SPELLED, THREAD, TIGHT, UNSIGNED, VOID
from c_reader import WORD, parts_of

# ---------------------------------------------------------------------------------------------------------------- trees

REFUSED_TYPES = set(SPELLED.values()) - {INT, UNSIGNED}
IN_ITS_NODE = {"target", "objects", "declarator", "value", "mutex", "cond"}  # parts that count as their node's


def nodes_below(node):
    """The nodes below a node of an expression or a statement, from left to right."""
    made = []
    for part in parts_of(node):
        made += nodes_below(part) if part.kind in IN_ITS_NODE else [part]
    return made


def height_of(node, called=lambda call: 0):
    below = [height_of(part, called) for part in nodes_below(node)]
    if node.kind == "call":
        below.append(called(node))
    return 1 + max(below, default=0)


def parsed(text):
    parser = Parser(text)
    externals = parser.program()
    for external in externals:
        bodies = [external.body] if external.kind == "function" else []
        if external.kind == "objects":
            bodies = [Node("declare", external.line, of=external.of)]
        if any(height_of(body) > 200 + (external.kind == "objects") for body in bodies):
            raise Refused("SOURCE of a tree that is too high")
    return externals


# ---------------------------------------------------------------------------------------------------------------- words


def signed(kind, word):
    return word - WORD if kind == INT and word >= WORD // 2 else word


def divided(a, b):
    return abs(a) // abs(b) * (1 if (a < 0) == (b < 0) else -1)


def operated(op, kind, a, b):
    """The word of a binary operator on words of one kind; the divisor is not 0."""
    x, y = signed(kind, a), signed(kind, b)
    if op in ("<<", ">>"):
        return (a << b % 32 if op == "<<" else x >> b % 32) % WORD
    exact = {
        "*": lambda: x * y, "+": lambda: x + y, "-": lambda: x - y, "/": lambda: divided(x, y), "%": lambda: x - y * divided(x, y),
        "<": lambda: x < y, ">": lambda: x > y, "<=": lambda: x <= y, ">=": lambda: x >= y, "==": lambda: a == b,
        "!=": lambda: a != b, "&": lambda: a & b, "^": lambda: a ^ b, "|": lambda: a | b, "&&": lambda: a and b, "||": lambda: a or b,
    }[op]()  # fmt: skip
    return int(bool(exact)) if op in ("&&", "||") else int(exact) % WORD


def constant_of(e):
    """The kind and the word of a constant expression; None for every other expression."""
    if e.kind == "constant":
        small = e.value < WORD // 2
        unsigned = e.form.unsigned or (not e.form.decimal and not small)
        odd = e.form.longs or (e.value >= WORD) or (e.form.decimal and not e.form.unsigned and not small)
        return (UNSIGNED if unsigned and not odd else INT), e.value % WORD
    if e.kind == "paren":
        return constant_of(e.inner)
    if e.kind == "unary":
        inner = constant_of(e.of)
        if inner is None:
            return None
        kind, word = inner
        return {"+": (kind, word), "-": (kind, -word % WORD), "~": (kind, WORD - 1 - word), "!": (INT, int(word == 0))}[e.op]
    if e.kind == "cast" and e.to != ADDRESS:
        inner = constant_of(e.of)
        return inner and (UNSIGNED if e.to == UNSIGNED else INT, inner[1])
    if e.kind == "binary":
        left, right = constant_of(e.left), constant_of(e.right)
        if left is None or right is None or (e.op in ("/", "%") and right[1] == 0):
            return None
        common = UNSIGNED if UNSIGNED in (left[0], right[0]) else INT
        if e.op in ("<<", ">>"):
            return left[0], operated(e.op, left[0], left[1], right[1])
        return (INT if TIGHT[e.op] in (2, 3, 7, 8) else common), operated(e.op, common, left[1], right[1])
    if e.kind == "choose":
        test, yes, no = constant_of(e.test), constant_of(e.yes), constant_of(e.no)
        if test is None or yes is None or no is None:
            return None
        return (UNSIGNED if UNSIGNED in (yes[0], no[0]) else INT), (yes if test[1] else no)[1]
    return None


def length_of(e):
    """The length that an expression gives an array; None where it gives none."""
    bare = e
    while bare.kind == "paren":
        bare = bare.inner
    if bare.kind == "constant" and bare.value >= WORD:
        return None
    value = constant_of(e)
    return signed(*value) if value and 1 <= signed(*value) <= 4096 else None


# ---------------------------------------------------------------------------------------------------------------- names

# for each known name what it gives, and its arguments: i an integer, p a `void *`, 0 an attribute, t a thread object, T M C the
# address of a thread, a mutex or a condition, f a start routine, s a text with any number of integers behind it
KNOWN = {
    "assert": (VOID, "i"), "__VERIFIER_assume": (VOID, "i"), "__VERIFIER_nondet_int": (INT, ""), "__VERIFIER_nondet_uint": (UNSIGNED, ""),
    "__VERIFIER_error": (VOID, ""), "reach_error": (VOID, ""), "abort": (VOID, ""), "__VERIFIER_atomic_begin": (VOID, ""),
    "__VERIFIER_atomic_end": (VOID, ""), "pthread_create": (INT, "T0fp"), "pthread_join": (INT, "t0"), "pthread_exit": (VOID, "p"),
    "pthread_mutex_init": (INT, "M0"), "pthread_mutex_destroy": (INT, "M"), "pthread_mutex_lock": (INT, "M"),
    "pthread_mutex_unlock": (INT, "M"), "pthread_cond_init": (INT, "C0"), "pthread_cond_destroy": (INT, "C"),
    "pthread_cond_wait": (INT, "CM"), "pthread_cond_signal": (INT, "C"), "pthread_cond_broadcast": (INT, "C"), "printf": (INT, "s"),
}  # fmt: skip
OF_LETTER = {"T": THREAD, "M": MUTEX, "C": COND}


class Thing:
    """An object that a declarator or a parameter declares."""

    def __init__(self, base, array, length):
        self.base, self.array, self.length = base, array, length


def starts(function):
    return function.gives == ADDRESS and [param.base for param in function.params] == [ADDRESS]


class Names:
    """The first pass: what each name means, which names are declared twice, and which function calls which."""

    def __init__(self, externals):
        self.definitions = {}
        for external in externals:
            if external.kind == "function":
                self.definitions.setdefault(external.name, external)
        self.scopes = [{}]
        self.declared = set()  # functions that are declared so far
        self.calls = collections.defaultdict(list)
        self.caller = None
        for external in externals:
            self.external(external)

    def function(self, name):
        """The function of the file that a called name means where no object hides it."""
        return None if name in KNOWN and name != "reach_error" else self.definitions.get(name)

    def declare(self, node, thing):
        node.twice = node.name in self.scopes[-1] or (len(self.scopes) == 1 and node.name in self.declared)
        self.scopes[-1][node.name] = thing

    def external(self, node):
        if node.kind == "objects":
            return self.objects(node.of)
        taken = self.scopes[0].get(node.name) is not None
        node.twice = taken or (node.kind == "function" and self.definitions[node.name] is not node)
        self.declared.add(node.name)
        self.scopes.append({})
        for param in node.params:
            param.twice = False
            if param.name is not None:
                self.declare(param, Thing(param.base, False, None))
        if node.kind == "function":
            self.caller = node
            for part in node.body.parts:
                self.statement(part)
            self.caller = None
        self.scopes.pop()

    def objects(self, node):
        for declarator in node.declarators:
            if declarator.length is not None:
                self.expression(declarator.length)
            length = None if declarator.length is None else length_of(declarator.length)
            declarator.thing = Thing(node.base, declarator.length is not None, length)
            self.declare(declarator, declarator.thing)
            if declarator.first is not None and declarator.first.kind in ("value", "listed"):
                for value in values_of(declarator.first):
                    self.expression(value)

    def inside(self, *statements):
        """Statements in a scope of their own."""
        self.scopes.append({})
        for statement in statements:
            self.statement(statement)
        self.scopes.pop()

    def statement(self, node):
        kind = node.kind
        if kind == "declare":
            self.objects(node.of)
        elif kind == "block":
            self.inside(*node.parts)
        elif kind == "label":
            self.statement(node.of)
        elif kind == "if":
            self.expression(node.test)
            self.inside(node.yes)
            if node.no is not None:
                self.inside(node.no)
        elif kind == "while":
            self.expression(node.test)
            self.inside(node.body)
        elif kind == "do":
            self.inside(node.body)
            self.expression(node.test)
        elif kind == "for":
            self.scopes.append({})
            self.statement(node.first)
            for e in (node.test, node.step):
                if e is not None:
                    self.expression(e)
            self.inside(node.body)
            self.scopes.pop()
        elif kind in ("eval", "return") and node.value is not None:
            self.expression(node.value)

    def expression(self, node):
        if node.kind in ("object", "address", "step", "assign"):
            target = node.target
            target.thing = self.nearest(target.name)
            target.function = target.thing is None and target.name in self.declared
            # the function that a bare name means as an argument, also one that is declared later
            target.routine = self.function(target.name) if target.thing is None and target.index is None else None
        elif node.kind == "call":
            node.thing = self.nearest(node.name)
            node.function = None if node.thing else self.function(node.name)
            if node.function is not None and self.caller is not None:
                self.calls[self.caller].append(node)
        for part in nodes_below(node):
            self.expression(part)

    def nearest(self, name):
        for scope in reversed(self.scopes):
            if name in scope:
                return scope[name]
        return None


def values_of(first):
    if first is None or first.kind in ("mutex", "cond"):
        return []
    return [first.value] if first.kind == "value" else first.values


# ---------------------------------------------------------------------------------------------------------------- rules

UNNEEDED, ANY = "unneeded", "any"  # what is wanted of an expression; else INT for an integer, ADDRESS for a `void *`


def is_zero(e):
    return e.kind == "constant" and e.value == 0


class Checker:
    """The second pass: the list of all faults as pairs of line and rule, in order."""

    def __init__(self, text):
        self.externals = parsed(text)
        self.names = Names(self.externals)
        self.functions = [external for external in self.externals if external.kind == "function"]
        self.definitions = self.names.definitions
        self.reached_from = {}
        for function in self.functions:
            self.reached_from[function] = self.reach([function])
        routines = [function for function in self.functions if starts(function) and self.definitions[function.name] is function]
        self.threaded = self.reach(routines)
        self.heights = {}
        self.faults = []
        self.elements = 0
        for external in self.externals:
            self.external(external)
        entry = self.definitions.get("main")
        if entry is None or entry.gives != INT or entry.params:
            self.faults.append((0, 15))

    def reach(self, starting):
        """The functions that these are or can reach through calls."""
        found, todo = set(starting), list(starting)
        while todo:
            for call in self.names.calls[todo.pop()]:
                if call.function not in found:
                    found.add(call.function)
                    todo.append(call.function)
        return found

    def comes_back(self, call):
        """Whether the function in which a call stands can reach itself through it."""
        return call.function is not None and self.caller in self.reached_from[call.function]

    def height(self, function):
        if function not in self.heights:

            def called(call):
                back = call.function is None or function in self.reached_from[call.function]
                return 0 if back else self.height(call.function)

            self.heights[function] = height_of(function.body, called)
        return self.heights[function]

    def add(self, line, *rules):
        self.faults.extend((line, rule) for rule in sorted(rules))

    # externals and declarations

    def external(self, node):
        if node.kind == "objects":
            self.caller = None
            return self.objects(node.of, None)
        rules = []
        if node.twice:
            rules.append(2)
        if node.kind == "function" and node.name in KNOWN and node.name != "reach_error":
            rules.append(5)
        if node.gives in (THREAD, MUTEX, COND):
            rules.append(7)
        if node.gives == ADDRESS and not starts(node):
            rules.append(18)
        if node.gives in REFUSED_TYPES:
            rules.append(24)
        if node.kind == "prototype" and node.name not in KNOWN and not self.fits(node):
            rules.append(25)
        if node.kind == "function" and self.height(node) > 1000:
            rules.append(26)
        self.add(node.line, *rules)
        for param in node.params:
            self.parameter(param, node)
        if node.kind == "function":
            self.caller, self.loops = node, 0
            self.statement(node.body)

    def fits(self, prototype):
        """Whether a prototype agrees with the definition of its name, if any."""
        definition = self.names.function(prototype.name)
        if definition is None:
            return True
        bases = [param.base for param in prototype.params]
        same = bases == [param.base for param in definition.params] or (not bases and not prototype.void_word)
        return same and prototype.gives == definition.gives

    def parameter(self, node, function):
        rules = [2] if node.twice else []
        if node.name in KNOWN and node.name != "reach_error":
            rules.append(5)
        if node.base in (VOID, THREAD):
            rules.append(7)
        if node.base == ADDRESS and not starts(function):
            rules.append(18)
        if node.base in (MUTEX, COND):
            rules.append(19)
        if node.base in REFUSED_TYPES:
            rules.append(24)
        self.add(node.line, *rules)

    def objects(self, node, function):
        self.add(node.line, *([24] if node.base in REFUSED_TYPES else []))
        for declarator in node.declarators:
            self.declarator(declarator, node.base, function)

    def declarator(self, node, base, function):
        rules = [2] if node.twice else []
        first = node.first and node.first.kind
        if node.name in KNOWN and node.name != "reach_error":
            rules.append(5)
        if base in (VOID, ADDRESS):
            rules.append(7)
        if node.length is not None and node.thing.length is None:
            rules.append(8)
        if function is None and any(constant_of(value) is None for value in values_of(node.first)):
            rules.append(9)
        if self.misfits(node, base, first):
            rules.append(10)
        if function is not None and base == THREAD and function in self.threaded:
            rules.append(17)
        if function is not None and base in (MUTEX, COND):
            rules.append(19)
        if function is None and base not in (VOID, ADDRESS):
            self.elements += 1 if node.length is None else node.thing.length or 0
            if self.elements > 65536:
                rules.append(23)
        self.add(node.line, *rules)
        if node.length is not None:
            self.walk(node.length, INT)
        for value in values_of(node.first):
            self.walk(value, ADDRESS if base == ADDRESS else INT)

    def misfits(self, node, base, first):
        """Whether the form of an initializer does not fit its object."""
        if first is None:
            return False
        array = node.length is not None
        if first == "mutex" or first == "cond":
            return array or base != {"mutex": MUTEX, "cond": COND}[first]
        if base in (THREAD, MUTEX, COND) or (first == "listed") != array:
            return True
        return first == "listed" and node.thing.length is not None and len(node.first.values) > node.thing.length

    # statements

    def statement(self, node):
        kind = node.kind
        if kind == "declare":
            self.objects(node.of, self.caller)
        elif kind == "eval":
            self.walk(node.value, UNNEEDED)
        elif kind == "block":
            for part in node.parts:
                self.statement(part)
        elif kind == "label":
            self.statement(node.of)
        elif kind == "if":
            self.walk(node.test, INT)
            self.statement(node.yes)
            if node.no is not None:
                self.statement(node.no)
        elif kind in ("while", "do", "for"):
            self.loop(node)
        elif kind in ("break", "continue"):
            self.add(node.line, *([12] if not self.loops else []))
        elif kind == "return":
            gives = self.caller.gives
            self.add(node.line, *([13] if (node.value is None) != (gives == VOID) else []))
            if node.value is not None:
                self.walk(node.value, {VOID: UNNEEDED, ADDRESS: ADDRESS}.get(gives, INT))

    def loop(self, node):
        if node.kind == "for":
            self.statement(node.first)
        if node.kind != "do" and node.test is not None:
            self.walk(node.test, INT)
        if node.kind == "for" and node.step is not None:
            self.walk(node.step, UNNEEDED)
        self.loops += 1
        self.statement(node.body)
        self.loops -= 1
        if node.kind == "do":
            self.walk(node.test, INT)

    # expressions

    def own(self, e):
        """The rules that an expression breaks by itself wherever it stands, and the type that it would have without."""
        if not hasattr(e, "judged"):
            e.judged = getattr(self, "own_" + e.kind)(e)
        return e.judged

    def own_constant(self, e):
        rules = []
        if (not e.form.longs and e.value >= WORD) or (e.form.decimal and not e.form.unsigned and not e.form.longs and e.value >= WORD // 2):
            rules.append(11)
        if e.form.longs:
            rules.append(24)
        return rules, constant_of(e)[0]

    def own_null(self, e):
        return [], ADDRESS

    def own_text(self, e):
        return [22], INT

    def own_object(self, e):
        thing = e.target.thing
        if thing is None:
            return ([7] if e.target.function and e.target.index is None else []), INT
        if self.misused(e.target):
            return [], INT
        if thing.base in (THREAD, MUTEX, COND):
            return [7], INT
        return [], thing.base if thing.base in (UNSIGNED, ADDRESS) else INT

    def own_address(self, e):
        return [20], INT

    def own_paren(self, e):
        rules, plain = self.own(e.inner)
        return [], INT if rules else plain

    def own_unary(self, e):
        return [], INT if e.op == "!" else UNSIGNED if self.type(e.of) == UNSIGNED else INT

    def own_cast(self, e):
        return ([24] if e.to in REFUSED_TYPES else []), e.to

    def own_binary(self, e):
        unsigned = self.type(e.left) == UNSIGNED or (e.op not in ("<<", ">>") and self.type(e.right) == UNSIGNED)
        return [], UNSIGNED if unsigned and TIGHT[e.op] not in (2, 3, 7, 8) else INT

    def own_choose(self, e):
        types = (self.type(e.yes), self.type(e.no))
        return [], ADDRESS if ADDRESS in types else UNSIGNED if UNSIGNED in types else INT

    def own_assign(self, e):
        thing = e.target.thing
        if thing is None or thing.base != ADDRESS or self.misused(e.target):
            return [], UNSIGNED if thing is not None and thing.base == UNSIGNED else INT
        return [7], INT

    own_step = own_assign

    def own_call(self, e):
        if e.thing is not None or (e.function is None and e.name not in KNOWN):
            return [3], INT
        if e.function is not None:
            return self.own_call_of_the_file(e)
        gives, wanted = KNOWN[e.name]
        rules = []
        if len(e.args) < 1 if wanted == "s" else len(e.args) != len(wanted):
            rules.append(4)
        if e.name in ("pthread_create", "pthread_join") and self.caller in self.threaded:
            rules.append(17)
        for arg, letter in zip(e.args, wanted):
            if letter == "f" and not (arg.kind == "object" and arg.target.routine is not None and starts(arg.target.routine)):
                rules.append(16)
            if (letter in OF_LETTER and not self.is_object(arg, "address", OF_LETTER[letter])) or (
                letter == "t" and not self.is_object(arg, "object", THREAD)
            ):
                rules.append(20)
            if letter == "0" and not (arg.kind == "null" or is_zero(arg)):
                rules.append(21)
            if letter == "s" and arg.kind != "text":
                rules.append(22)
        return sorted(set(rules)), gives

    def own_call_of_the_file(self, e):
        function, rules = e.function, []
        if len(e.args) != len(function.params):
            rules.append(4)
        if self.comes_back(e):
            rules.append(14)
        if starts(function) or function.name == "main":
            rules.append(18)
        return rules, INT if function.gives in REFUSED_TYPES | {THREAD, MUTEX, COND} else function.gives

    def is_object(self, arg, kind, base):
        return arg.kind == kind and arg.target.thing is not None and arg.target.thing.base == base

    def misused(self, target):
        """Whether an array stands without index, or an index on what is no array."""
        return target.thing is not None and (target.index is not None) != target.thing.array

    def type(self, e):
        rules, plain = self.own(e)
        return INT if rules or plain == VOID else plain

    def clash(self, e, want):
        rules, plain = self.own(e)
        if want == UNNEEDED:
            return []
        if not rules and plain == VOID:
            return [6]
        fits = want == ANY or (self.type(e) == ADDRESS) == (want == ADDRESS) or (want == ADDRESS and is_zero(e))
        return [] if fits else [7]

    def walk(self, e, want):
        self.add(e.line, *self.own(e)[0], *self.clash(e, want))
        kind = e.kind
        if kind in ("object", "address", "step", "assign"):
            self.target(e.target, kind in ("step", "assign"))
        if kind == "assign":
            self.walk(e.value, ADDRESS if e.target.thing is not None and e.target.thing.base == ADDRESS else INT)
        elif kind == "paren":
            self.walk(e.inner, UNNEEDED)
        elif kind == "unary":
            self.walk(e.of, INT)
        elif kind == "cast":
            self.walk(e.of, ANY)
        elif kind == "binary":
            self.walk(e.left, INT)
            self.walk(e.right, INT)
        elif kind == "choose":
            self.walk(e.test, INT)
            for part in (e.yes, e.no):
                self.walk(part, ADDRESS if ADDRESS in (self.type(e.yes), self.type(e.no)) else INT)
        elif kind == "call":
            self.arguments(e)

    def target(self, target, changed):
        rules = []
        if target.thing is None and not target.function:
            rules.append(1)
        elif self.misused(target) or (target.thing is None and target.index is not None):
            rules.append(7)
        elif changed and (target.thing is None or target.thing.base in (THREAD, MUTEX, COND)):
            rules.append(7)
        self.add(target.line, *rules)
        if target.index is not None:
            self.walk(target.index, INT)

    def arguments(self, e):
        if e.thing is None and e.function is not None:
            wanted = "".join("p" if param.base == ADDRESS else "i" for param in e.function.params)
        else:
            wanted = KNOWN[e.name][1] if e.thing is None and e.name in KNOWN else ""
        for number, arg in enumerate(e.args):
            letter = wanted[number] if number < len(wanted) else "i"
            if letter in OF_LETTER and arg.kind == "address":
                self.target(arg.target, False)
            elif letter == "t" and self.is_object(arg, "object", THREAD):
                self.target(arg.target, False)
            elif letter == "f" and arg.kind == "object" and arg.target.routine is not None:
                pass
            elif letter == "s" and arg.kind == "text":
                pass
            elif letter in "TMCt0fs":
                self.walk(arg, UNNEEDED)
            else:
                self.walk(arg, ADDRESS if letter == "p" else INT)


# ---------------------------------------------------------------------------------------------------------------- slots and cost


class Costs:
    """Slots and cost of an accepted program with `turns` turns of a loop and `rounds` rounds."""

    NUMBERS = {"*": 8192, "/": 16384, "%": 16384, "<<": 2048, ">>": 2048, "&&": 2048, "||": 2048}

    def __init__(self, checker, turns, rounds):
        self.turns, self.kept, self.kept_slots = turns, {}, {}
        entry = checker.definitions["main"]
        self.starts, self.threads = {}, 0
        sites = self.sites(entry)
        self.slots = min(sum(sites.values()), MOST)
        self.threads = self.slots + 1
        total = 4096 + self.function(entry)
        for routine, count in sites.items():
            total += count * (4096 + self.function(routine))
        self.cost = min(rounds * total, MOST)

    def sites(self, function):
        """For each start routine how often it is created, in one call of a function."""
        if function not in self.kept_slots:
            self.kept_slots[function] = self.created(function.body)
        return self.kept_slots[function]

    def created(self, node):
        made = collections.Counter()

        def gain(part, times=1):
            if part is not None:
                for routine, count in self.created(part).items():
                    made[routine] = made[routine] + times * count

        if node.kind in ("while", "do", "for"):
            for part in (node.test, node.body, getattr(node, "step", None)):
                gain(part, self.turns)
            if node.kind != "do":
                gain(node.test)
            gain(getattr(node, "first", None))
            return made
        for part in nodes_below(node):
            gain(part)
        if node.kind == "call" and node.function is not None:
            for routine, count in self.sites(node.function).items():
                made[routine] += count
        elif node.kind == "call" and node.name == "pthread_create":
            made[node.args[2].target.routine] += 1
        return made

    def function(self, function):
        if function not in self.kept:
            self.kept[function] = self.cost_of(function.body)
        return self.kept[function]

    def all(self, *parts):
        return sum(self.cost_of(part) for part in parts if part is not None)

    def cost_of(self, node):
        kind = node.kind
        if kind in ("while", "do", "for"):
            turn = 2048 + self.all(node.test, node.body, getattr(node, "step", None))
            return self.turns * turn + 2048 + self.all(node.test, getattr(node, "first", None))
        if kind == "call":
            return self.call(node)
        if kind == "declare":
            return self.all(*nodes_below(node)) + sum(1024 * (d.thing.length or 1) for d in node.of.declarators)
        return self.number(node) + self.all(*nodes_below(node))

    def number(self, node):
        kind = node.kind
        if kind in ("object", "assign", "step"):
            length = node.target.thing.length
            reads = 1024 if length is None else 2048 + 256 * length
            if kind == "object" or (kind == "assign" and node.op is None):
                return reads
            return 2 * reads + (1024 if kind == "step" else self.NUMBERS.get(node.op, 1024))
        if kind == "unary":
            return 0 if node.op == "+" else 512
        if kind == "binary":
            return self.NUMBERS.get(node.op, 1024)
        return {"cast": 256, "choose": 3072, "if": 2048, "break": 1024, "continue": 1024, "return": 1024}.get(kind, 0)

    def call(self, node):
        if node.function is not None:
            return self.all(*node.args) + 1024 * (len(node.args) + 1) + self.function(node.function)
        cost = {"__VERIFIER_atomic_begin": 2048, "__VERIFIER_atomic_end": 2048, "pthread_cond_wait": 8192, "pthread_create": 8192,
                "pthread_join": 4096, "printf": 0}.get(node.name, 2048 if node.name.startswith("pthread_") else 1024)  # fmt: skip
        cost = 1024 if node.name == "pthread_exit" else cost
        if node.name in ("pthread_join", "pthread_cond_signal", "pthread_cond_broadcast"):
            cost += 512 * self.threads
        for arg, letter in zip(node.args, KNOWN[node.name][1] + "i" * len(node.args)):
            if letter in "TMCt":
                cost += 256 * (arg.target.thing.length or 1) + self.all(arg.target.index)
            elif letter != "f":
                cost += self.cost_of(arg)
        return cost


def expected(text, turns, rounds):
    """What the program has to say of a text: its report, or None where the text is accepted within the limits, with all faults."""
    try:
        checker = Checker(text)
    except Refused as refused:
        return str(refused), None
    if checker.faults:
        line, rule = checker.faults[0]
        return f"SOURCE line {line} rule {rule}", checker.faults
    costs = Costs(checker, turns, rounds)
    if costs.slots > 16:
        return f"LIMIT slots {costs.slots} over 16", []
    if costs.cost > 10000000:
        return f"LIMIT cost {costs.cost} over 10000000", []
    return None, []


# ---------------------------------------------------------------------------------------------------------------- random programs

NAMES = "a b c d e f g h i j k n p q r s u v w x y z count total _t1 Int intx main_ assert_".split()
NUMBERS = [0, 0, 1, 1, 2, 3, 4, 5, 7, 8, 31, 32, 33, 64, 255, 1000, 4095, 4096, 4097, 65535, 2**31 - 1]
KNOWN_PROTOTYPES = ["extern void abort ( void ) ;", "int __VERIFIER_nondet_int ( ) ;", "void assert ( int ) ;", "int printf ( int ) ;",
                    "extern void __VERIFIER_assume ( int cond ) ;", "unsigned pthread_join ( int , unsigned x ) ;"]  # fmt: skip
ATOM, PREFIX = 13, 12  # levels of the grammar beside those of TIGHT: 1 for `?:`, 0 for an assignment


class Place:
    """A place of a random program: its kind, what can be seen there, the level that an expression needs there, and its tokens."""

    def __init__(self, kind, view, need, tokens):
        self.kind, self.view, self.need, self.tokens = kind, view, need, tokens


class Plan:
    """A function that is to be made: what it gives and takes, its rank (it calls lower ranks), and whether a start routine may call it."""

    def __init__(self, name, gives, params, rank, reached):
        self.name, self.gives, self.params, self.rank, self.reached = name, gives, params, rank, reached


View = collections.namedtuple("View", "objects here plan loop")  # objects: name to base and length, None for a scalar


def flat(tokens):
    if isinstance(tokens, str):
        yield tokens
    else:
        for token in tokens.tokens if isinstance(tokens, Place) else tokens:
            yield from flat(token)


def calm(e):
    """Whether a constant expression has the same value in C: no sum wraps, and no shift goes past the width."""
    if not all(calm(part) for part in nodes_below(e)):
        return False
    value = constant_of(e)
    if value is None:
        return False
    if e.kind == "unary" and e.op == "-" and value[0] == INT:
        return value[1] != WORD // 2
    if e.kind != "binary":
        return True
    (left, a), (right, b) = constant_of(e.left), constant_of(e.right)
    if e.op in ("<<", ">>"):
        return b < 32 and (left == UNSIGNED or a << (b if e.op == "<<" else 0) < WORD // 2)
    if value[0] == UNSIGNED or e.op not in ("+", "-", "*", "/", "%"):
        return True
    x, y = signed(INT, a), signed(INT, b)
    return -WORD // 2 <= {"+": x + y, "-": x - y, "*": x * y}.get(e.op, x // (y or 1)) < WORD // 2


class Generator:
    """A random accepted program as rows of tokens with places; `plain` keeps to what every C99 compiler takes."""

    def __init__(self, rng, plain=False):
        self.rng, self.plain, self.places, self.scopes, self.plan, self.loop = rng, plain, [], [{}], None, False
        self.seen = None
        self.make_plans()
        self.externals = [self.external(*what) for what in self.order()]

    def chance(self, part):
        return self.rng.random() < part

    def any_of(self, *makers):
        return self.rng.choice(makers)()

    # plans

    def make_plans(self):
        rng = self.rng
        names = rng.sample(NAMES, len(NAMES))
        self.functions = []
        for rank in range(rng.randrange(0, 6)):
            gives = rng.choice([VOID, INT, UNSIGNED, ADDRESS, ADDRESS])
            bases = [ADDRESS] if gives == ADDRESS else [rng.choice([INT, UNSIGNED]) for _ in range(rng.choice([0, 0, 1, 2, 3]))]
            params = list(zip(bases, rng.sample(NAMES, len(bases))))
            self.functions.append(Plan(names.pop(), gives, params, rank, gives == ADDRESS or self.chance(0.6)))
        if not self.plain and self.chance(0.1):
            self.functions.append(Plan("reach_error", rng.choice([VOID, INT]), [], -1, True))
        self.functions.append(Plan("main", INT, [], 100, False))
        self.taken = {plan.name for plan in self.functions}

    def order(self):
        """The externals in order of text."""
        made = [("function", plan) for plan in self.functions] + [("objects", None)] * self.rng.randrange(2, 7)
        if self.plain:
            self.rng.shuffle(made)
            return [("prototype", plan) for plan in self.functions] + made
        made += [("prototype", plan) for plan in self.functions for _ in range(self.rng.choice([0, 0, 1, 2]))]
        made += [("known", None)] * self.rng.choice([0, 0, 1])
        self.rng.shuffle(made)
        return made

    def external(self, kind, plan):
        rng = self.rng
        if kind == "known":
            return rng.choice(KNOWN_PROTOTYPES).split()
        if kind == "objects":
            return (["static"] if self.chance(0.1) else []) + self.objects(rng.choice([INT, INT, UNSIGNED, MUTEX, COND, THREAD]), True)
        if kind == "prototype":
            lead = [] if self.plain else rng.choice([[], [], ["static"], ["extern"]])
            return lead + [self.type(plan.gives), plan.name, "(", self.prototype(plan), ")", ";"]
        return self.function(plan)

    def prototype(self, plan):
        if not plan.params:
            return self.rng.choice([["void"], ["void"] if self.plain else []])
        if not self.plain and plan.gives != ADDRESS and self.chance(0.2):
            return []
        names = self.rng.sample(NAMES, len(plan.params))
        made = []
        for (base, _), name in zip(plan.params, names):
            made += [",", self.type(base)] + ([name] if self.chance(0.5) else [])
        return made[1:]

    def type(self, base):
        spelled = {INT: ["int", "int", "int", "signed", "signed int"], UNSIGNED: ["unsigned", "unsigned int"]}.get(base, [base])
        return self.rng.choice(spelled).split()

    def function(self, plan):
        self.plan, self.scopes, self.seen = plan, self.scopes[:1] + [{}], None
        for base, name in plan.params:
            self.declare(name, base, None)
        params = [[",", self.type(base), name] for base, name in plan.params]
        params = sum(params, [])[1:] or self.rng.choice([["void"], []])
        made = (["static"] if not self.plain and self.chance(0.1) else []) + [self.place("result", self.type(plan.gives))]
        made.append(self.place("name" if plan.name == "main" else "other", [plan.name]))
        made += ["(", self.place("params", params), ")", "{", self.parts(3, self.rng.randrange(1, 7)), "}"]
        self.plan, self.scopes, self.seen = None, self.scopes[:1], None
        return made

    # scopes

    def view(self):
        if self.seen is None or self.seen.loop != self.loop:
            objects = {}
            for scope in self.scopes:
                objects.update(scope)
            self.seen = View(objects, set(self.scopes[-1]), self.plan, self.loop)
        return self.seen

    def declare(self, name, base, length):
        self.scopes[-1][name], self.seen = (base, length), None

    def inside(self, make, *words):
        """What `make` makes in a scope of its own."""
        self.scopes.append({})
        self.seen = None
        made = make(*words)
        self.scopes.pop()
        self.seen = None
        return made

    def place(self, kind, tokens, need=0, view=None):
        made = Place(kind, view or self.view(), need, tokens)
        self.places.append(made)
        return made

    def objects_of(self, *bases, array=None):
        return [
            name
            for name, (base, length) in self.view().objects.items()
            if base in bases and (array is None or array == (length is not None))
        ]

    def callable(self, *gives):
        """The functions that may be called here: of lower rank, not hidden, none that makes threads where a start routine may come."""
        return [
            plan
            for plan in self.functions
            if plan.gives in gives and plan.rank < self.plan.rank and plan.name not in self.view().objects
            and (plan.reached or not self.plan.reached)
        ]  # fmt: skip

    # declarations

    def objects(self, base, outside):
        made = self.type(base)
        for number in range(self.rng.choice([1, 1, 1, 2, 3])):
            made += [","] * (number > 0) + self.declarator(base, outside)
        return made + [";"]

    def declarator(self, base, outside):
        rng = self.rng
        free = [name for name in NAMES if name not in self.scopes[-1] and not (outside and name in self.taken)]
        if not free:
            free = [f"more{len(self.scopes[-1])}"]
        name = rng.choice(free)
        hidden = [name for scope in self.scopes[:-1] for name in scope if name not in self.scopes[-1] and name != "reach_error"]
        if hidden and self.chance(0.4):
            name = rng.choice(hidden)
        if not self.plain and self.chance(0.02) and "reach_error" not in self.taken and "reach_error" not in self.scopes[-1]:
            name = "reach_error"  # the one known name that may be declared
        length, made = None, [name]
        if self.chance(0.3):
            row, length = self.length()
            made += ["[", self.place("length", row), "]"]
        self.declare(name, base, length)
        if base in (MUTEX, COND):
            if length is None and self.chance(0.5):
                made += ["=", "PTHREAD_MUTEX_INITIALIZER" if base == MUTEX else "PTHREAD_COND_INITIALIZER"]
        elif base != THREAD and self.chance(0.6):
            value = (lambda: self.place("first", self.constant(2))) if outside else (lambda: self.integer(2, 0))
            if length is None:
                made += ["=", value()]
            else:
                rows = [[",", value()] for _ in range(min(length, rng.randrange(1, 5)))]
                made += ["=", "{", sum(rows, [])[1:], [","] if self.chance(0.2) else [], "}"]
        return made

    def spelled(self, value):
        """A constant of this value in some spelling."""
        ways = [str(value)] * 4 + [f"{value}u", f"{value}U", f"0{value:o}", f"0x{value:x}", f"0X{value:X}u"]
        if 32 <= value < 127 and value not in (39, 92):
            ways.append(f"'{chr(value)}'")
        ways += {0: ["'\\0'"], 7: ["'\\a'"], 10: ["'\\n'"]}.get(value, [])
        return self.rng.choice(ways)

    def constant(self, depth):
        """The tokens of a constant expression; in plain programs of one that has the same value in C."""
        for _ in range(10):
            row = self.constant_form(depth)
            e = Parser(" ".join(flat(row))).assign()
            if constant_of(e) is not None and (not self.plain or calm(e)):
                return row
        return [self.spelled(1)]

    def constant_form(self, depth):
        rng = self.rng
        if depth <= 0 or self.chance(0.3):
            large = rng.choice(["4294967295u", "0xFFFFFFFF", "2147483648u"])
            leaf = [self.spelled(rng.choice(NUMBERS)) if self.plain or self.chance(0.9) else large]
            return ["(", "-", leaf, ")"] if self.chance(0.25) else leaf
        inner = lambda: ["(", self.constant_form(depth - 1), ")"] if self.chance(0.7) else [self.spelled(rng.choice(NUMBERS))]
        return self.any_of(
            lambda: [rng.choice(["+", "-", "~", "!"]), inner()],
            lambda: ["(", self.type(rng.choice([INT, UNSIGNED])), ")", inner()],
            lambda: [inner(), rng.choice(list(TIGHT)), inner()],
            lambda: [inner(), rng.choice(["/", "%", ">>", "<<", "<", ">=", "*"]), inner()],
            lambda: [inner(), "?", inner(), ":", inner()],
        )

    def length(self):
        """The tokens of a length, and its value."""
        row = self.constant(2) if self.chance(0.4) else [self.spelled(self.rng.choice([1, 2, 3, 4, 5]))]
        value = length_of(Parser(" ".join(flat(row))).assign())
        if value is None or (value > 100 and self.chance(0.8)):
            row = ["(", row, ")", "%", "5u", "+", "1"]
            value = length_of(Parser(" ".join(flat(row))).assign())
        return row, value

    # expressions

    def wrapped(self, made, need):
        row, level = made
        return ["(", row, ")"] if level < need or self.chance(0.05) else row

    def integer(self, depth, need=0):
        """An expression with an integer for its value, of at least the level that is needed."""
        view = self.view()
        return self.place("integer", self.wrapped(self.integer_form(depth), need), need, view)

    def integer_form(self, depth):
        rng = self.rng
        if depth <= 0 or self.chance(0.2):
            return self.any_of(self.number, self.read)
        less = depth - 1
        return self.any_of(
            self.number, self.read, self.read, self.element, self.call, self.call, self.nondet, self.pthread, self.from_address,
            lambda: (["(", self.integer(less), ")"], ATOM),
            lambda: ([rng.choice(["+", "-", "~", "!"]), self.integer(less, PREFIX)], PREFIX),
            lambda: (["(", self.type(rng.choice([INT, UNSIGNED])), ")", self.integer(less, PREFIX)], PREFIX),
            lambda: self.binary(less), lambda: self.binary(less), lambda: self.binary(less),
            lambda: ([self.integer(less, 2), "?", self.integer(less), ":", self.integer(less, 1)], 1),
            lambda: ([self.changed(), rng.choice(["=", "=", *sorted(ASSIGNMENTS)]), self.integer(less)], 0),
            lambda: ([self.changed(), rng.choice(["++", "--"])], PREFIX), lambda: ([rng.choice(["++", "--"]), self.changed()], PREFIX),
        )  # fmt: skip

    def binary(self, depth):
        op = self.rng.choice(list(TIGHT))
        return [self.integer(depth, TIGHT[op]), op, self.integer(depth, TIGHT[op] + 1)], TIGHT[op]

    def number(self):
        return [self.spelled(self.rng.choice(NUMBERS))], ATOM

    def read(self):
        names = self.objects_of(INT, UNSIGNED, array=False)
        return ([self.rng.choice(names)], ATOM) if names else self.element()

    def element(self):
        names = self.objects_of(INT, UNSIGNED, array=True)
        return ([self.rng.choice(names), "[", self.integer(1), "]"], ATOM) if names else self.number()

    def changed(self):
        """A target; the program is sure to have one, since there is an object to fall back on."""
        names = self.objects_of(INT, UNSIGNED)
        if not names:
            self.fallback = True
            return ["fallback"]
        name = self.rng.choice(names)
        return [name] if self.view().objects[name][1] is None else [name, "[", self.integer(1), "]"]

    def call(self, *gives):
        plans = self.callable(*(gives or (INT, UNSIGNED)))
        if not plans:
            return (["printf", "(", '"%d\\n"', ",", self.integer(1), ")"], ATOM) if self.chance(0.2) else self.number()
        plan = self.rng.choice(plans)
        args = sum([[",", self.integer(1)] for _ in plan.params], [])[1:]
        return [plan.name, "(", args, ")"], ATOM

    def nondet(self):
        return [self.rng.choice(["__VERIFIER_nondet_int", "__VERIFIER_nondet_uint"]), "(", ")"], ATOM

    def object_of(self, base):
        """The tokens of an object of a type with its index; None where none is seen."""
        names = self.objects_of(base)
        if not names:
            return None
        name = self.rng.choice(names)
        return [name] if self.view().objects[name][1] is None else [name, "[", self.integer(1), "]"]

    def pthread(self):
        rng = self.rng
        mutex, cond, thread = self.object_of(MUTEX), self.object_of(COND), self.object_of(THREAD)
        zero = lambda: rng.choice(["NULL", "0", self.spelled(0)])
        ways = []
        if mutex:
            ways += [["pthread_mutex_" + word, "(", "&", mutex, ")"] for word in ("lock", "unlock", "destroy")]
            ways.append(["pthread_mutex_init", "(", "&", mutex, ",", zero(), ")"])
        if cond:
            ways += [["pthread_cond_" + word, "(", "&", cond, ")"] for word in ("signal", "broadcast", "destroy")]
            ways.append(["pthread_cond_init", "(", "&", cond, ",", zero(), ")"])
        if mutex and cond:
            ways += [["pthread_cond_wait", "(", "&", cond, ",", "&", mutex, ")"]] * 3
        if thread and not self.plan.reached:
            routines = [plan.name for plan in self.functions if plan.gives == ADDRESS and plan.name not in self.view().objects]
            if routines and self.chance(0.6):
                ways = [["pthread_create", "(", "&", thread, ",", zero(), ",", rng.choice(routines), ",", self.address(1), ")"]]
            else:
                ways.append(["pthread_join", "(", thread, ",", zero(), ")"])
        return (rng.choice(ways), ATOM) if ways else self.number()

    def from_address(self):
        return ["(", self.type(self.rng.choice([INT, UNSIGNED])), ")", self.address(1, PREFIX, False)], PREFIX

    def address(self, depth, need=0, zero=True):
        """An expression with a `void *` for its value; the constant 0 counts as one where `zero` says so."""
        view = self.view()
        rng = self.rng
        names = self.objects_of(ADDRESS)
        made = (["NULL"], ATOM)
        if zero and self.chance(0.2):
            return self.place("address", [self.spelled(0)], need, view)
        if names and self.chance(0.4):
            made = ([rng.choice(names)], ATOM)
        elif depth > 0 and self.chance(0.3):
            made = (["(", "void", "*", ")", self.integer(depth - 1, PREFIX)], PREFIX)
        elif depth > 0 and self.chance(0.3):
            made = ([self.integer(0, 2), "?", self.address(depth - 1, 0, True), ":", self.address(depth - 1, 1, False)], 1)
        elif depth > 0 and self.chance(0.2):
            made = (["(", self.address(depth - 1, 0, False), ")"], ATOM)
        return self.place("address", self.wrapped(made, need), need, view)

    # statements

    def parts(self, depth, count):
        made = []
        for _ in range(count):
            made += [self.place("statement", []), self.statement(depth)]
        return made + [self.place("statement", [])]

    def statement(self, depth):
        rng = self.rng
        less = depth - 1
        simple = [self.evaluated, self.evaluated, self.known, self.known, self.known, lambda: [";"], self.left]
        simple += [lambda: self.objects(rng.choice([INT, UNSIGNED, INT if self.plan.reached else THREAD]), False)] * 2
        deep = [
            lambda: ["{", self.inside(self.parts, less, rng.randrange(0, 4)), "}"],
            lambda: ["if", "(", self.integer(2), ")", self.body(less)],
            lambda: ["if", "(", self.integer(2), ")", self.body(less, True), "else", self.body(less)],
            lambda: ["while", "(", self.integer(2), ")", self.looped(less)],
            lambda: ["do", self.looped(less), "while", "(", self.integer(2), ")", ";"],
            lambda: self.inside(self.counted, less),
            lambda: [self.label(), self.statement(less) if not self.plain else self.evaluated()],
        ]
        return self.any_of(*(simple + deep if depth > 0 else simple))

    def label(self):
        if not self.plain:
            return [self.rng.choice(NAMES + ["assert", "main"]), ":"]
        self.labels = getattr(self, "labels", 0) + 1
        return [f"label{self.labels}", ":"]

    def body(self, depth, closed=False):
        """The body of an `if` or a loop, in a scope of its own; a closed one may stand before an `else`."""
        if closed or self.plain or self.chance(0.6):
            return self.inside(lambda: ["{", self.parts(depth, self.rng.randrange(0, 4)), "}"])
        return self.inside(self.statement, depth)

    def looped(self, depth):
        before, self.loop = self.loop, True
        made = self.body(depth)
        self.loop = before
        return made

    def counted(self, depth):
        rng = self.rng
        first = self.any_of(lambda: [";"], lambda: self.evaluated(), lambda: self.objects(rng.choice([INT, UNSIGNED]), False))
        made = ["for", "(", first, self.integer(1) if self.chance(0.7) else [], ";"]
        return made + [self.value() if self.chance(0.7) else [], ")", self.looped(depth)]

    def value(self):
        """An expression whose value is not needed."""
        return self.any_of(
            lambda: self.integer(3), lambda: self.integer(3), lambda: self.call(VOID)[0], lambda: ["(", self.call(VOID)[0], ")"],
            lambda: self.address(2, 0, False), lambda: self.pthread()[0],
        )  # fmt: skip

    def evaluated(self):
        return [self.value(), ";"]

    def known(self):
        rng = self.rng
        one = lambda: [rng.choice(["assert", "__VERIFIER_assume"]), "(", self.integer(2), ")"]
        names = ["abort", "__VERIFIER_error", "__VERIFIER_atomic_begin", "__VERIFIER_atomic_end"]
        if "reach_error" not in self.taken and "reach_error" not in self.view().objects:
            names.append("reach_error")
        return [
            self.any_of(
                one, one, lambda: self.pthread()[0], lambda: self.pthread()[0],
                lambda: ["pthread_exit", "(", self.address(2), ")"], lambda: [rng.choice(names), "(", ")"],
                lambda: ["printf", "(", '"a\\"b /* %d"', ",", self.integer(1), ",", self.integer(1), ")"],
            ),
            ";",
        ]  # fmt: skip

    def left(self):
        """A statement that leaves a loop or the function."""
        if self.loop and self.chance(0.6):
            return [self.rng.choice(["break", "continue"]), ";"]
        if not self.chance(0.3):
            return self.evaluated()
        gives = self.plan.gives
        value = [] if gives == VOID else [self.address(2)] if gives == ADDRESS else [self.integer(2)]
        return [self.place("return", ["return", value, ";"])]

    def tokens(self, inserted=()):
        """The tokens of the program, with further externals, each put in before that of its number."""
        made = ["int", "fallback", ";"] if getattr(self, "fallback", False) else []
        for number, external in enumerate(self.externals):
            for at, row in inserted:
                if at == number:
                    made += flat(row)
            made += flat(external)
        for at, row in inserted:
            if at >= len(self.externals):
                made += flat(row)
        return made


def text_of(tokens, rng, plain=False):
    """The text of some tokens with random white space, comments, words that give no token, and defined names."""
    made, defined = [], {}
    if not plain and rng.random() < 0.3:
        constants = sorted({token for token in tokens if token[0] in "0123456789'"})
        for number, token in enumerate(rng.sample(constants, min(len(constants), 2))):
            defined[token] = f"K{number}"
            pair = rng.choice([("", ""), ("(", ")"), (" ( ", " )")]) if any(digit in token for digit in "123456789") else ("", "")
            made.append(f"#define K{number} {pair[0]}{token}{pair[1]}")
            made[-1] += rng.choice(["", " ", " // a constant", " /* a constant */"]) + "\n"
    if rng.random() < 0.3:
        made.append("#include <pthread.h>\n")
    spread = rng.choice([0.02, 0.1, 0.3])
    for token in tokens:
        made.append(defined[token] if token in defined and rng.random() < 0.7 else token)
        if token in ("{", "}", ";") and rng.random() < 0.7 or rng.random() < spread:
            made.append("\n")
        elif not plain and rng.random() < 0.01:
            made.append(rng.choice([" /* a\n b */ ", " // c\n", " const ", " volatile ", "\n#include <x.h>\n", " register\n"]))
        else:
            made.append(" ")
    return "".join(made)


# ---------------------------------------------------------------------------------------------------------------- faults

# What is spliced in, one row for each form: the rule that it is to break (0: none), where it stands, and its tokens. It stands in
# place of an integer (expr), of a `void *` (addr), as a statement (stmt), an external (ext), a list of parameters (par), a result
# (res), a length (len), an initializer at file scope (first) or a return (ret). Holes: {x} {a} an integer and an array of them, {t} {T}
# threads, {m} {M} mutexes, {c} a condition, {p} a `void *`, {f} a function, {g} one that is no start routine, {s} one that is, {v} {i}
# calls without and with a value. Names that begin with zz are declared nowhere else.
FORMS = r"""
1 expr zz1 | 1 expr zz1 [ 0 ] | 1 expr zz1 = 1 | 1 expr zz1 ++ | 1 expr {f} | 1 expr {f} [ 0 ] | 1 expr assert | 1 expr assert = 1
1 expr - \n zz1 | 1 stmt { int zz1 ; } zz1 = 1 ; | 1 stmt for ( int zz1 = 0 ; zz1 < 1 ; zz1 ++ ) ; zz1 = 0 ; | 1 expr zz1 [ \n zz2 ]
1 stmt do { int zz1 = 0 ; } while ( zz1 ) ; | 1 stmt if ( 1 ) int zz1 = 0 ; zz1 = 1 ; | 1 addr zz1 | 1 addr ( void * ) zz1
1 stmt while ( zz1 ) int zz1 = 0 ; | 1 stmt for ( ; ; zz1 ++ ) int zz1 = 0 ; | 1 stmt int zz1 = zz2 , zz2 = 1 ; | 1 expr zz1 ? {x} : zz2
0 stmt int zz1 = zz1 ; | 0 stmt for ( int zz1 = 0 ; zz1 ; zz1 ++ ) { int zz1 ; } | 0 stmt { zz1 : int zz1 = 1 ; zz1 ++ ; }
0 stmt int zz1 = 1 , zz2 = zz1 ; | 0 stmt zz1 : int zz1 ; zz1 = 0 ; | 0 stmt if ( 1 ) int zz1 ; else int zz1 ;
2 stmt int zz1 ; int zz1 ; | 2 stmt int zz1 , \n zz1 ; | 2 stmt int {here} ; | 2 stmt {here} : int {here} ; | 2 stmt int {parameter} ;
2 stmt for ( int zz1 , zz1 ; ; ) ; | 2 ext int {f} ; | 2 ext int {f} ( void ) { } | 2 ext int zz1 ; int zz1 ; | 2 par int zz1 , \n int zz1
2 ext int zz1 ( int a , int a ) ; | 2 ext int zz1 ( void ) ; int zz1 ; | 2 ext int zz1 ; int zz1 ( void ) ;
2 stmt zz1 : int zz1 ; zz2 : int zz1 ; | 2 ext int zz1 ( void ) { } unsigned zz1 ( int a ) { } | 2 ext int main ;
2 ext void main ( ) { } | 2 ext int zz1 ( int zz1 ) { int zz1 ; }
0 ext int zz1 ( void ) ; int zz1 ( ) ; int zz1 ( void ) { } int zz1 ( void ) ;
0 stmt int zz1 ; { int zz1 ; } for ( int zz1 ; ; ) int zz1 ; | 0 ext int zz1 ( int zz1 ) { return zz1 ; }
0 ext int zz1 ( int a ) { { int a ; } return a ; } | 0 stmt {x} : ; {x} : ; | 0 stmt main : ; | 0 stmt { int {here} ; }
0 ext int zz1 ( int , int ) ; | 0 ext int zz1 ( int zz1 , int ) ; | 0 ext unsigned zz1 ( ) ; void zz1 ( int a ) ; | 3 expr zz1 ( )
3 expr {x} ( ) | 3 expr zz1 ( \n zz2 ) | 3 stmt { int {f} ; {f} ( ) ; } | 3 stmt { int reach_error ; reach_error ( ) ; }
3 ext int zz1 ( void ) ; int zz2 ( void ) { return zz1 ( ) ; } | 3 addr zz1 ( ) | 3 stmt zz1 ( {t} , & {x} ) ;
3 stmt int zz1 = zz1 ( ) ; | 0 stmt int zz1 ; zz1 : reach_error ( ) ; | 0 ext int zz2 ( void ) { return zz1 ( ) ; } int zz1 ( void ) { }
4 expr {g} ( 1 , 2 , 3 , 4 , 5 ) | 4 expr __VERIFIER_nondet_int ( 1 ) | 4 expr printf ( ) | 4 stmt assert ( ) ; | 4 stmt abort ( zz1 ) ;
4 stmt pthread_mutex_lock ( ) ; | 4 stmt pthread_join ( {t} ) ; | 4 stmt pthread_create ( & {t} , 0 , {s} ) ; | 4 stmt assert ( 1 , 2 ) ;
4 stmt pthread_mutex_init ( & {m} ) ; | 4 stmt {s} ( ) ; | 4 stmt pthread_cond_wait ( & {c} ) ; | 4 addr {s} ( )
4 stmt pthread_exit ( ) ; | 5 stmt int assert ; | 5 ext int printf ; | 5 ext int assert ( int a ) { return a ; } | 5 par int abort
5 ext int zz1 ( int printf ) ; | 5 ext void abort ( void ) { } | 5 stmt for ( int pthread_join ; ; ) ; | 5 ext pthread_t pthread_exit ;
5 stmt int zz1 , \n assert ; | 0 stmt int reach_error ; | 0 stmt assert : ; | 0 ext void abort ( int a , int b ) ;
0 ext int zz1 ( int reach_error ) ; | 6 expr {v} | 6 expr assert ( 1 ) | 6 expr abort ( ) | 6 expr pthread_exit ( 0 )
6 expr ( \n abort ( ) ) | 6 expr 1 ? \n abort ( ) : \n {v} | 6 stmt 1 ? abort ( ) : abort ( ) ; | 6 addr abort ( )
6 addr ( void * ) abort ( ) | 6 expr ( int ) \n abort ( ) | 6 expr ! \n ( ( {v} ) ) | 6 expr 1 ? {x} : \n {v} | 6 expr {x} = \n {v}
6 expr {a} [ \n {v} ] | 6 stmt printf ( "%d" , \n {v} ) ; | 6 stmt if ( \n {v} ) ; | 6 ret return {v} ; | 0 stmt {v} ;
0 stmt ( ( {v} ) ) ; | 0 stmt for ( {v} ; 1 ; ( {v} ) ) break ; | 7 expr {a} | 7 expr {x} [ 0 ] | 7 expr {t} | 7 expr {m} | 7 expr {c}
7 expr {p} | 7 expr NULL | 7 expr ( void * ) 1 | 7 expr ( \n {t} ) | 7 expr {p} == NULL | 7 expr ! {p} | 7 expr {a} ++ | 7 expr {t} = 1
7 expr {m} = zz1 | 7 expr 1 ? NULL : 0 | 7 expr {p} [ 0 ] | 7 expr {p} = 0 | 7 expr ++ \n {p} | 7 expr ++ \n {p} [ 0 ]
7 expr 1 ? {p} : \n 1 | 7 expr ( \n {p} ) | 7 expr - \n {a} | 7 expr {a} [ {a} ] | 7 expr {x} = {p} | 7 stmt {t} ; | 7 stmt {a} ;
7 stmt {m} ; | 7 stmt {x} [ 0 ] = 1 ; | 7 stmt if ( {p} ) ; | 7 stmt assert ( {p} ) ; | 7 stmt void zz1 ; | 7 stmt void * zz1 ;
7 ext void zz1 ; | 7 ext void * zz1 ; | 7 ext pthread_t zz1 ( void ) ; | 7 par pthread_t zz1 | 7 ext int zz1 ( void a ) ; | 7 addr 1
7 addr ( 0 ) | 7 addr {x} | 7 addr 1 ? 0 : 0 | 7 addr 1 ? {p} : \n 1 | 7 addr 1 ? {p} : \n ( 0 ) | 7 addr {x} ++ | 7 addr - 0 | 7 addr {i}
7 addr & {x} | 7 addr "text" | 7 addr zz1 ( ) | 7 addr {p} = 0 | 7 addr ( int ) NULL | 7 addr 1 ? \n zz1 : {p} | 7 addr {s} ( 0 )
7 stmt pthread_mutex_lock ( & {m} [ 0 ] ) ; | 7 stmt pthread_mutex_lock ( & \n {M} ) ; | 7 stmt pthread_join ( {T} , 0 ) ;
7 stmt pthread_join ( {t} [ 0 ] , 0 ) ; | 7 stmt printf ( "a" , {p} ) ; | 7 stmt {g} = 1 ; | 7 stmt {f} ; | 20 stmt & {f} ;
7 stmt {x} = {t} ; | 7 stmt {p} += 1 ; | 7 stmt {t} ++ ; | 7 stmt + {p} ; | 7 ext int zz1 ( int , void ) ;
7 ext pthread_mutex_t zz1 ( ) { } | 7 ext void zz1 = zz2 ; | 7 ret return 1 ; | 7 ret return NULL ; | 7 addr ( void * ) {t}
7 stmt while ( NULL ) ; | 7 stmt for ( ; \n {p} ; ) ; | 7 stmt do ; while ( \n NULL ) ; | 7 stmt int zz1 = NULL ;
7 stmt int zz1 [ 2 ] = { 1 , {p} } ; | 7 stmt NULL + 1 ; | 7 expr {x} == {p} | 7 expr {p} && 1 | 7 expr {a} [ NULL ] | 7 expr {p} ? 1 : 2
7 stmt {f} ++ ; | 7 stmt 1 ? {t} : 1 ; | 0 addr 0u | 0 addr '\\0' | 0 addr 0x0 | 0 addr {p} | 0 addr 1 ? 0 : NULL | 0 addr 1 ? {p} : 00
0 addr ( NULL ) | 0 stmt {p} ; | 0 stmt NULL ; | 0 expr ( int ) {p} | 0 expr ( unsigned ) NULL | 0 expr ( int ) ( void * ) {x}
0 addr ( void * ) NULL | 0 addr 1 ? ( {p} ) : 1 ? 0 : {p} | 0 stmt 1 ? NULL : 0 ; | 8 len 0 | 8 len 4097 | 8 len - 1 | 8 len {x}
8 len 1 / 0 | 8 len 4294967297u | 8 len zz1 | 8 len NULL | 8 len 1 || 1 % 0 | 8 len 0 ? 1 : 2 / 0 | 8 stmt int zz1 [ zz1 ] ;
8 stmt int zz1 [ \n {x} ] = 1 ; | 8 ext int zz1 [ {i} ] ; | 8 len ( void * ) 1 | 8 len ~ 0u | 8 len 1 << 13 | 8 len ( int ) - 5u
8 stmt pthread_t zz1 [ 0 ] ; | 8 ext pthread_mutex_t zz1 [ 5000 ] ; | 8 len 2147483648 | 8 len 1 < 0u | 8 len - 1 < 1u
8 len 8 >> 33 == 5 | 0 len 4096 | 0 len 1 | 0 len 1u | 0 len '\\a' | 0 len 1 << 12 | 0 len 1 << 33 | 0 len ( int ) 3u | 0 len - - 2
0 len 1 ? 5 : 6 | 0 len - 1 < 1 | 0 len ! 0 | 0 len - 7 / 2 + 5 | 0 len ( - 8 >> 1 ) + 5 | 0 len 0 - 1 > 0u | 0 len - 7 % 2 + 3
0 len 4294967295u + 3u | 0 len 07777 | 0 len 0x1000 | 9 first {x} | 9 first {i} | 9 first NULL | 9 first 1 / 0 | 9 first "text"
9 first zz1 | 9 first ( void * ) 0 | 9 first {x} = 1 | 9 first 1 ? 2 : {x} | 9 ext int zz1 = zz1 ;
9 ext int zz1 [ 2 ] = { 1 , \n zz2 } ; | 9 ext pthread_mutex_t zz1 = zz2 ; | 9 ext int zz1 = 0 && 1 / 0 ; | 9 ext int zz1 [ 2 ] = \n zz2 ;
0 first - 1 | 0 first ( int ) 1u | 0 first ( 1 + 2 ) * 3 ? 4 : 5 | 0 first ! ~ 0 | 0 stmt int zz1 = {x} ; | 0 first 2147483647 + 1
0 first 1 >> 32 | 10 stmt int zz1 = { 1 } ; | 10 stmt int zz1 [ 2 ] = 1 ; | 10 stmt int zz1 [ 2 ] = { 1 , 2 , 3 } ;
10 ext int zz1 = { 1 } ; | 10 ext int zz1 [ 1 ] = { 1 , 2 , } ; | 10 ext int zz1 = PTHREAD_MUTEX_INITIALIZER ;
10 ext pthread_cond_t zz1 = PTHREAD_MUTEX_INITIALIZER ; | 10 ext pthread_mutex_t zz1 = PTHREAD_COND_INITIALIZER ;
10 ext pthread_mutex_t zz1 [ 2 ] = PTHREAD_MUTEX_INITIALIZER ; | 10 ext pthread_mutex_t zz1 = 0 ; | 10 ext pthread_t zz1 = 0 ;
10 ext pthread_cond_t zz1 = { 0 } ; | 10 stmt int zz1 = PTHREAD_COND_INITIALIZER ; | 10 ext pthread_t zz1 [ 2 ] = { 0 } ;
10 ext pthread_t zz1 = PTHREAD_MUTEX_INITIALIZER ; | 10 ext int zz1 [ 2 ] = zz2 ; | 10 stmt pthread_t zz1 = {x} ;
10 stmt for ( int zz1 [ 2 ] = 0 ; ; ) ; | 10 stmt int zz1 , \n zz2 = { zz3 } ; | 10 ext pthread_mutex_t zz1 [ 1 ] = { 1 } ;
0 stmt int zz1 [ 2 ] = { 1 , } ; | 0 ext int zz1 [ 4096 ] = { 1 } ; | 0 ext pthread_cond_t zz1 = PTHREAD_COND_INITIALIZER ;
0 stmt int zz1 [ 1 ] = { {x} } ; | 11 expr 2147483648 | 11 expr 4294967296u | 11 expr 0x100000000 | 11 expr 4294967295
11 expr 040000000000 | 11 len 2147483648 - 2147483647 | 11 addr ( void * ) 4294967296u | 11 first 4294967296u
11 expr {x} + \n 2147483648 | 11 expr - 2147483648 | 11 expr 0x100000000u | 11 expr 18446744073709551615u | 0 expr 2147483647
0 expr 4294967295u | 0 expr 0xFFFFFFFF | 0 expr 037777777777 | 0 first 0xFFFFFFFFu | 0 expr 2147483648u | 12 stmt break ;
12 stmt continue ; | 12 stmt if ( 1 ) \n break ; | 12 stmt while ( 1 ) ; break ; | 12 stmt zz1 : continue ;
12 stmt for ( ; ; ) ; { break ; } | 0 stmt while ( 1 ) break ; | 0 stmt do { if ( 1 ) continue ; else break ; } while ( 1 ) ;
0 stmt for ( ; ; ) zz1 : break ; | 13 stmt return ; | 13 stmt return 1 ; | 13 ret return ; | 13 ret return 1 ; | 13 stmt return \n {v} ;
13 stmt return zz1 ; | 13 ext void zz1 ( ) { return \n zz2 ; } | 13 ext int zz1 ( ) { return ; }
13 ext void * zz1 ( void * a ) { return ; } | 13 ext void zz1 ( ) { return 0 ; } | 0 ext void zz1 ( ) { return ; }
0 ext void * zz1 ( void * a ) { return 0 ; } | 0 ext void * zz1 ( void * a ) { return a ; } | 0 ext int zz1 ( ) { return ( 0 ) ; }
14 ext int zz1 ( int n ) { return zz1 ( n ) ; } | 14 ext int zz1 ( void ) { return \n zz2 ( ) ; } int zz2 ( void ) { return \n zz1 ( ) ; }
14 stmt main ( ) ; | 14 stmt {self} ; | 14 stmt {caller} ; | 14 expr {caller} | 14 expr {self} | 14 addr {self}
14 ext void * zz1 ( void * a ) { return \n zz1 ( a ) ; } | 14 addr ( void * ) {self}
14 ext void zz1 ( void ) { int zz2 ; zz2 = \n zz1 ( ) ; }
14 ext void zz1 ( void ) { zz2 ( ) ; } void zz2 ( void ) { zz3 ( ) ; } void zz3 ( void ) { zz2 ( ) ; }
14 ext void zz1 ( void ) { zz3 ( ) ; zz2 ( ) ; } void zz3 ( void ) { } void zz2 ( void ) { zz1 ( ) ; }
14 ext int zz1 ( int a ) { int b = zz1 ( b ) ; return b ; }
0 ext void zz1 ( void ) { zz2 ( ) ; zz2 ( ) ; } void zz2 ( void ) { zz3 ( ) ; } void zz3 ( void ) { }
0 ext int zz1 ( void ) { zz1 : zz1 : return 1 ; } | 0 ext void zz1 ( void ) { int zz2 ; } void zz2 ( void ) { zz1 ( ) ; }
0 ext void reach_error ( void ) ; void zz1 ( void ) { reach_error ( ) ; } | 15 name zz1 | 15 name zz1 | 15 name Main | 15 name _main
16 stmt pthread_create ( & {t} , 0 , {x} , 0 ) ; | 16 stmt pthread_create ( & {t} , 0 , NULL , 0 ) ;
16 stmt pthread_create ( & {t} , 0 , & {s} , 0 ) ; | 16 stmt pthread_create ( & {t} , 0 , ( {s} ) , 0 ) ;
16 stmt pthread_create ( & {t} , 0 , {g} , 0 ) ; | 16 stmt pthread_create ( & {t} , 0 , zz1 , 0 ) ;
16 stmt { int {s} ; pthread_create ( & {t} , 0 , {s} , 0 ) ; } | 16 stmt pthread_create ( & {t} , 0 , {s} [ 0 ] , 0 ) ;
16 stmt pthread_create ( & {t} , 0 , assert , 0 ) ; | 16 stmt pthread_create ( & {t} , zz1 , main , \n {x} ) ;
16 stmt pthread_create ( & {x} , 1 , ( void * ) {s} , \n 1 ) ; | 16 stmt pthread_create ( & {t} , 0 , {s} ( 0 ) , 0 ) ;
0 stmt pthread_create ( & {t} , 0 , {s} , 0 ) ; | 0 stmt pthread_create ( & {t} , NULL , {s} , ( void * ) {x} ) ;
0 stmt pthread_join ( {t} , '\\0' ) ; | 0 stmt { int {g} ; pthread_create ( & {T} [ 1 ] , 0x0 , {s} , NULL ) ; }
17 ext void * zz1 ( void * a ) { pthread_t b ; }
17 ext void * zz1 ( void * a ) { zz2 ( ) ; } void zz2 ( void ) { pthread_t \n b [ 2 ] ; } | 17 stmt pthread_t zz1 ;
17 ext pthread_t zz1 ; void * zz2 ( void * a ) { pthread_join ( zz1 , 0 ) ; }
17 ext pthread_t zz1 ; void zz3 ( void ) { pthread_create ( & zz1 , 0 , zz2 , 0 ) ; } void * zz2 ( void * a ) { zz3 ( ) ; }
17 stmt pthread_create ( & {t} , 0 , {s} , 0 ) ; | 17 stmt pthread_join ( {t} , 0 ) ; | 17 stmt pthread_join ( {x} , 1 ) ;
17 stmt {threaded} ;
0 ext void * zz2 ( void * a ) { zz3 ( ) ; } void zz3 ( ) { } void zz4 ( ) { zz3 ( ) ; pthread_t b ; pthread_create ( & b , 0 , zz2 , 0 ) ; }
18 ext void * zz1 ( void ) ; | 18 ext void * zz1 ( int a ) { } | 18 ext void * zz1 ( void * a , \n void * b ) { }
18 ext int zz1 ( void * a ) { } | 18 ext void zz1 ( void * ) ; | 18 ext void pthread_exit ( void * ) ; | 18 ext void * zz1 ( ) ;
18 stmt {s} ( 0 ) ; | 18 stmt main ( ) ; | 18 expr {s} ( \n zz1 ) | 18 addr {s} ( 0 ) | 18 par void * zz1 | 18 res void *
18 ext void * zz2 ( void * a ) { } void zz1 ( void ) { int a = zz2 ( 0 ) ; } | 18 par int zz1 , \n void * zz2 | 18 stmt {s} ( 1 ) ;
18 expr main ( ) | 0 ext void * zz1 ( void * ) ; | 0 ext void * zz1 ( void * a ) { return NULL ; }
0 ext static void * zz1 ( void * b ) ; void * zz1 ( void * a ) { } | 19 stmt pthread_mutex_t zz1 ; | 19 stmt pthread_cond_t zz1 [ 2 ] ;
19 par pthread_mutex_t zz1 | 19 ext int zz1 ( pthread_cond_t ) ; | 19 stmt for ( pthread_mutex_t zz1 ; ; ) ;
19 stmt pthread_mutex_t zz1 = PTHREAD_MUTEX_INITIALIZER , \n zz2 ; | 19 par int zz1 , pthread_cond_t zz2
0 ext pthread_mutex_t zz1 [ 3 ] , zz2 = PTHREAD_MUTEX_INITIALIZER ; | 20 expr & {x} | 20 expr ( & {x} ) | 20 stmt & {m} ;
20 stmt pthread_mutex_lock ( {m} ) ; | 20 stmt pthread_mutex_lock ( & {x} ) ; | 20 stmt pthread_mutex_lock ( ( & {m} ) ) ;
20 stmt pthread_mutex_lock ( & zz1 ) ; | 20 stmt pthread_mutex_lock ( 1 ) ; | 20 stmt pthread_cond_wait ( & {m} , & {c} ) ;
20 stmt pthread_join ( {x} , 0 ) ; | 20 stmt pthread_join ( ( {t} ) , 0 ) ; | 20 stmt pthread_join ( & \n {t} , 0 ) ;
20 stmt pthread_join ( zz1 , 0 ) ; | 20 stmt pthread_create ( {t} , 0 , {s} , 0 ) ; | 20 stmt pthread_create ( & {m} , 0 , {s} , 0 ) ;
20 stmt pthread_mutex_lock ( & {f} ) ; | 20 stmt pthread_mutex_init ( & {c} , \n zz1 ) ; | 20 stmt pthread_cond_signal ( & {m} ) ;
20 stmt assert ( & {x} ) ; | 20 expr {a} [ & {x} ] | 20 expr {x} + \n & {m} | 20 stmt pthread_cond_wait ( & {c} , {m} ) ;
20 stmt pthread_mutex_lock ( & {M} [ & {x} ] ) ; | 20 expr ! & {t} | 20 stmt & zz1 ; | 20 stmt pthread_mutex_lock ( NULL ) ;
20 stmt pthread_join ( 0 , zz1 ) ; | 0 stmt pthread_mutex_lock ( & {m} ) ; | 0 stmt pthread_mutex_unlock ( & {M} [ {x} ] ) ;
0 stmt pthread_cond_wait ( & {c} , & {m} ) ; | 0 stmt pthread_join ( {T} [ {x} ] , NULL ) ; | 21 stmt pthread_mutex_init ( & {m} , 1 ) ;
21 stmt pthread_mutex_init ( & {m} , ( 0 ) ) ; | 21 stmt pthread_cond_init ( & {c} , {x} ) ; | 21 stmt pthread_join ( {t} , & {x} ) ;
21 stmt pthread_join ( {t} , ( NULL ) ) ; | 21 stmt pthread_create ( & {t} , {p} , {s} , 0 ) ;
21 stmt pthread_create ( & {t} , 1 , {s} , 0 ) ; | 21 stmt pthread_join ( {t} , ( void * ) 0 ) ; | 21 stmt pthread_join ( {t} , "text" ) ;
21 stmt pthread_mutex_init ( & {m} , zz1 ) ; | 0 stmt pthread_mutex_init ( & {m} , 0 ) ; | 0 stmt pthread_cond_init ( & {c} , NULL ) ;
0 stmt pthread_mutex_init ( & {M} [ 0 ] , 0u ) ; | 0 stmt pthread_join ( {t} , 00 ) ; | 22 expr "text" | 22 stmt printf ( {x} ) ;
22 stmt printf ( ( "text" ) ) ; | 22 stmt "text" ; | 22 stmt assert ( "text" ) ; | 22 stmt printf ( "a" , \n "b" ) ; | 22 addr "text"
22 stmt printf ( 0 , "text" ) ; | 22 stmt printf ( NULL ) ; | 22 stmt printf ( zz1 ) ; | 22 expr ( "text" ) | 22 ret return "text" ;
22 stmt printf ( {i} ) ; | 22 expr "a" [ 0 ] | 0 stmt printf ( "text" ) ; | 0 expr printf ( "%d" , {x} , {x} , {x} , {x} )
0 stmt printf ( "" , - 1 ) ; | 23 ext ARRAYS int zz1 ; | 23 ext ARRAYS pthread_mutex_t zz1 ; | 23 ext ARRAYS int zz1 [ 2 ] , \n zz2 ;
23 ext ARRAYS pthread_t zz1 [ 2 ] ; | 23 ext ARRAYS pthread_cond_t zz1 = PTHREAD_COND_INITIALIZER ; | 0 ext EXACT
0 stmt int zz1 [ 4096 ] , zz2 [ 4096 ] , zz3 [ 4096 ] , zz4 [ 4096 ] ; | 24 stmt char zz1 ; | 24 stmt long int zz1 = 1 ; | 24 expr 1L
24 expr 1 + \n 2ul | 24 expr ( long ) {x} | 24 expr ( unsigned char ) {p} | 24 ext _Bool zz1 ; | 24 ext short zz1 ( void ) ;
24 ext long zz1 ( void ) { } | 24 par char zz1 | 24 res long | 24 ext int zz1 ( unsigned short ) ; | 24 first 1l | 24 len 2L
24 addr ( void * ) 1ll | 24 stmt for ( short int zz1 ; ; ) ; | 24 stmt unsigned long long zz1 , \n zz1 ; | 24 addr 0L
24 expr 99999999999L | 24 len ( short ) 3 | 24 stmt pthread_mutex_init ( & {m} , 0L ) ; | 24 expr ( char ) \n {v}
25 ext unsigned {g} ( ) ; | 25 ext void {s} ( void * ) ; | 25 ext int main ( int ) ; | 25 ext int zz1 ( int ) ; int zz1 ( unsigned a ) { }
25 ext int zz1 ( void ) ; int zz1 ( int a ) { } | 25 ext int zz1 ( int , int ) ; int zz1 ( int a ) { }
25 ext int zz1 ( int a ) { } unsigned zz1 ( ) ; | 25 ext void main ( ) ; | 0 ext int reach_error ( int ) ; void reach_error ( ) { }
25 ext int zz1 ( ) ; void zz1 ( int a ) { } | 25 ext int {g} ( int , int , int , int , int ) ; | 25 ext extern unsigned main ( void ) ;
25 ext int zz1 ( short ) ; int zz1 ( char a ) { } | 25 ext int zz1 ( long ) ; int zz1 ( int a ) { }
0 ext int zz1 ( ) ; int zz1 ( int a , int b ) { } | 0 ext signed zz1 ( unsigned , int x ) ; int zz1 ( unsigned int a , signed int b ) { }
0 ext int abort ( int ) ; | 0 ext static int zz1 ( void ) ; int zz1 ( ) { } extern int zz1 ( ) ; | 0 ext void reach_error ( int ) ;
0 ext unsigned main2 ( int ) ; | 0 ext int printf ( int , int ) ; | 26 ext HIGH | 0 ext ALMOST
"""


def forms():
    made = collections.defaultdict(list)
    for form in FORMS.strip().replace("\n", " | ").split(" | "):
        rule, kind, row = form.strip().split(" ", 2)
        made[int(rule)].append((kind, row.replace("\\n", "\n").replace("'\\\\", "'\\")))
    return made


def level_of(row):
    """The level of the grammar of an expression."""
    e = Parser(row).assign()
    if e.kind == "binary":
        return TIGHT[e.op]
    return {"assign": 0, "choose": 1, "unary": PREFIX, "cast": PREFIX, "address": PREFIX, "step": PREFIX}.get(e.kind, ATOM)


def arrays(rng, cells):
    """Declarations at file scope of so many elements."""
    made = ""
    while cells:
        length = min(cells, rng.choice([4096, 4096, 4096, 4000, 1]))
        made += f"int zza{cells} [ {length} ] ; "
        cells -= length
    return made


def high(rng, height):
    """Functions that call each other, the highest of which is as high as asked."""
    steps, left = [], height - 1
    while left >= 3:
        steps.append(rng.randrange(3, min(left, rng.choice([3, 4, 8, 150])) + 1))
        left -= steps[-1]
    made = ["void zzh0 ( int a ) { " + "{ " * left + "} " * left + "}"]
    for step in steps:
        opening, closing = rng.choice([("{ ", " }"), ("( ", " )")])
        call = f"zzh{len(made) - 1} ( 0 )" + (" ;" if closing == " }" else "")
        call = opening * (step - 3) + call + closing * (step - 3) + ("" if closing == " }" else " ;")
        made.append(f"void zzh{len(made)} ( int a ) {{ {call} }}")
    if rng.random() < 0.3:
        made.reverse()
    return " \n ".join(made)


def placed(tokens):
    """The places in a row of tokens."""
    if isinstance(tokens, Place):
        yield tokens
    if not isinstance(tokens, str):
        for token in tokens.tokens if isinstance(tokens, Place) else tokens:
            yield from placed(token)


class Mutator:
    """Splices faults into a random program."""

    def __init__(self, generator, rng):
        self.generator, self.rng = generator, rng
        self.places = [place for external in generator.externals for place in placed(external)]

    def fill(self, row, view, near=None):
        """A row with its holes filled by what can be seen; None where nothing fits."""
        rng, plans = self.rng, [plan for plan in self.generator.functions if plan.name not in view.objects]
        plan = view.plan
        wanted = {"x": (INT, UNSIGNED, False), "a": (INT, UNSIGNED, True), "t": (THREAD, None, False), "T": (THREAD, None, True),
                  "m": (MUTEX, None, False), "M": (MUTEX, None, True), "c": (COND, None, False), "p": (ADDRESS, None, False)}  # fmt: skip

        def call(which):
            return which and f"{which.name} ( {' , '.join('0' if base == ADDRESS else '1' for base, _ in which.params)} )"

        def one(names):
            names = list(names)
            return rng.choice(names) if names else None

        def found(hole):
            if hole in wanted:
                first, second, array = wanted[hole]
                return one(n for n, (base, length) in view.objects.items() if base in (first, second) and array == (length is not None))
            if hole == "here":
                return one(sorted(view.here))
            if hole == "parameter":
                return one(name for _, name in plan.params) if plan else None
            if hole in "fgs":
                return one(p.name for p in plans if {"f": True, "g": p.gives != ADDRESS, "s": p.gives == ADDRESS}[hole])
            lower = [p for p in plans if plan and p.rank < plan.rank and p.gives != ADDRESS]
            if hole in "vi":
                void = one(p for p in lower if (p.gives == VOID) == (hole == "v"))
                return call(void) or {"v": "abort ( )", "i": "__VERIFIER_nondet_int ( )"}[hole]
            if hole == "self":
                return call(plan if plan in plans else None)
            if hole == "caller":
                return call(one(p for p in plans if plan and p.rank > plan.rank))
            if hole == "threaded":
                return call(one(p for p in lower if not p.reached))
            raise KeyError(hole)

        for hole in re.findall(r"\{(\w+)\}", row):
            value = found(hole)
            if value is None:
                return None
            if hole in ("here", "parameter", "f", "s", "g", "t", "x"):
                row = row.replace("{%s}" % hole, value)  # the same one in each place
            else:
                row = row.replace("{%s}" % hole, value, 1)
        if "ARRAYS" in row:
            row = row.replace("ARRAYS", arrays(rng, 65536 - 1))
        elif row == "EXACT":
            row = arrays(rng, 65536 - near) if near is not None else None
        elif row in ("HIGH", "ALMOST"):
            row = high(rng, 1001 if row == "HIGH" else 1000)
        return row

    def splice(self, kind, row, edits):
        """Adds to the edits one that puts a row into a random place of its kind; false where there is none."""
        rng, generator = self.rng, self.generator
        if kind == "ext":
            cells = sum(length or 1 for base, length in generator.scopes[0].values()) + (getattr(generator, "fallback", False) is True)
            view = View(generator.scopes[0], set(), None, False)
            row = self.fill(row, view, cells)
            if row is not None:
                edits.append((None, rng.randrange(len(generator.externals) + 1), row.split(" ")))
            return row is not None
        names = {"expr": ["integer", "integer", "statement", "address"], "addr": ["address", "statement"], "stmt": ["statement"],
                 "par": ["params"], "res": ["result"], "len": ["length"], "first": ["first"], "ret": ["return"],
                 "name": ["name"]}[kind]  # fmt: skip
        name = rng.choice(names)
        places = [place for place in self.places if place.kind == name]
        for place in rng.sample(places, min(len(places), 8)):
            made = self.fill(row, place.view)
            if made is None:
                continue
            if name in ("integer", "address") and level_of(made) < place.need:
                made = f"( {made} )"
            if name == "statement" and kind != "stmt":
                made = f"pthread_exit ( {made} ) ;" if kind == "addr" else f"{made} ;"
            edits.append((place, None, made.split(" ")))
            return True
        return False

    def rendered(self, edits):
        """The tokens of the program with the edits made."""
        before = [(place, place.tokens) for place, _, _ in edits if place is not None]
        for place, _, row in edits:
            if place is not None:
                place.tokens = row
        tokens = self.generator.tokens([(at, row) for place, at, row in edits if place is None])
        for place, kept in reversed(before):
            place.tokens = kept
        return [token for token in tokens if token]


# --- blind changes

WILD_NAMES = "x f g zz1 main assert printf reach_error pthread_join a b".split()
WILD_TYPES = ["int", "unsigned", "void", "void *", "pthread_t", "pthread_mutex_t", "pthread_cond_t", "char", "long", "signed int"]
WILD_LEAVES = ["0", "1", "NULL", '"text"', "1L", "2147483648", "0u", "'\\0'"]


class Wild:
    """Statements and externals of any form of the grammar, made of the names of a program, without regard to rules."""

    def __init__(self, rng, names):
        self.rng, self.names = rng, names + WILD_NAMES

    def name(self):
        return self.rng.choice(self.names)

    def target(self, depth):
        return self.name() if depth <= 0 or self.rng.random() < 0.7 else f"{self.name()} [ {self.expression(depth - 1)} ]"

    def call(self, depth):
        rng = self.rng
        name = rng.choice(list(KNOWN)) if rng.random() < 0.6 else self.name()
        count = len(KNOWN[name][1]) if name in KNOWN and rng.random() < 0.8 else rng.randrange(0, 4)
        one = lambda: rng.choice([f"& {self.target(1)}", self.target(1), self.name(), "0", "NULL", self.expression(depth - 1)])
        args = [one() for _ in range(count)]
        return f"{name} ( {' , '.join(args)} )".replace("(  )", "( )")

    def expression(self, depth):
        rng = self.rng
        if depth <= 0:
            return rng.choice([rng.choice(WILD_LEAVES), self.name(), self.name(), f"& {self.name()}"])
        less = depth - 1
        leaf = lambda: rng.choice([self.name(), self.name(), rng.choice(WILD_LEAVES)])
        part = lambda: f"( {self.expression(less)} )" if rng.random() < 0.5 else leaf()
        return rng.choice([
            lambda: self.call(depth), lambda: self.call(depth), part, lambda: f"{rng.choice('+-~!')} {part()}",
            lambda: f"( {rng.choice(['int', 'unsigned', 'void *', 'char'])} ) {part()}",
            lambda: f"{part()} {rng.choice(list(TIGHT))} {part()}",
            lambda: f"{part()} ? {part()} : {part()}", lambda: f"{self.target(1)} {rng.choice(sorted(ASSIGNMENTS) + ['='])} {part()}",
            lambda: f"{self.target(1)} ++", lambda: f"-- {self.target(1)}", lambda: f"& {self.target(1)}",
        ])()  # fmt: skip

    def declaration(self):
        rng = self.rng
        made = f"{rng.choice(WILD_TYPES)} "
        rows = []
        for _ in range(rng.choice([1, 1, 2])):
            row = self.name() + (f" [ {rng.choice(['0', '2', '1 / 0', '4097', self.expression(1)])} ]" if rng.random() < 0.3 else "")
            firsts = ["", "", "= 1", "= { 1 , 2 , 3 }", "= PTHREAD_MUTEX_INITIALIZER", "= PTHREAD_COND_INITIALIZER"]
            first = rng.choice(firsts + [f"= {self.expression(1)}", f"= {{ {self.name()} }}"])
            rows.append(f"{row} {first}")
        return made + " , ".join(rows) + " ;"

    def statement(self, depth=2):
        rng = self.rng
        return rng.choice([
            lambda: f"{self.expression(3)} ;", lambda: f"{self.expression(2)} ;", self.declaration, self.declaration,
            lambda: f"return {self.expression(2) if rng.random() < 0.8 else ''} ;", lambda: rng.choice(["break ;", "continue ;"]),
            lambda: f"if ( {self.expression(1)} ) {self.statement(1)}", lambda: f"while ( {self.expression(1)} ) {{ {self.statement(1)} }}",
            lambda: f"for ( {self.declaration()} {self.expression(1)} ; {self.expression(1)} ) {self.statement(1)}",
            lambda: f"do {self.statement(1)} while ( {self.expression(1)} ) ;",
        ])()  # fmt: skip

    def external(self):
        rng = self.rng
        if rng.random() < 0.3:
            return self.declaration()
        head = f"{rng.choice(WILD_TYPES)} {self.name()}"
        bases = [rng.choice(WILD_TYPES) for _ in range(rng.choice([0, 1, 1, 2]))]
        if rng.random() < 0.4:
            rows = [base + (f" {self.name()}" if rng.random() < 0.6 else "") for base in bases]
            return f"{head} ( {' , '.join(rows) or rng.choice(['', 'void'])} ) ;"
        return f"{head} ( {' , '.join(f'{base} {self.name()}' for base in bases)} ) {{ {self.statement()} {self.statement()} }}"


def exchanged(tokens, rng):
    """The tokens with some names, constants, types or operators exchanged for others of their kind, or a piece left out or doubled."""
    tokens = list(tokens)
    names = [at for at, token in enumerate(tokens) if token[0].isalpha() and token not in KEYWORDS or token[0] == "_"]
    for _ in range(rng.choice([1, 1, 2, 3])):
        way = rng.randrange(6)
        at = rng.randrange(len(tokens))
        if way <= 2 and names:
            tokens[rng.choice(names)] = tokens[rng.choice(names)]
        elif way == 3:
            kinds = [["int", "unsigned", "void", "pthread_t", "pthread_mutex_t", "pthread_cond_t", "long", "char"], list(TIGHT),
                     ["++", "--"], ["break", "continue"],
                     ["NULL", "0", "1", "5000", '"text"', "zz1", "2147483648", "1L"]]  # fmt: skip
            fitting = [(a, kind) for a, token in enumerate(tokens) for kind in kinds if token in kind]
            if fitting:
                at, kind = rng.choice(fitting)
                tokens[at] = rng.choice(kind)
        elif way == 4:
            ends = [a for a, token in enumerate(tokens) if token in (";", "}")]
            first, last = sorted(rng.sample(ends, 2)) if len(ends) > 1 else (0, 0)
            row = tokens[first + 1 : min(last, first + 30) + 1]
            if rng.random() < 0.5:
                tokens[first + 1 : first + 1 + len(row)] = []
                names = [a for a, token in enumerate(tokens) if token[0].isalpha() and token not in KEYWORDS or token[0] == "_"]
            else:
                tokens[first + 1 : first + 1] = row
        elif way == 5:
            del tokens[at : at + rng.choice([1, 2, 3])]
            names = [a for a, token in enumerate(tokens) if token[0].isalpha() and token not in KEYWORDS or token[0] == "_"]
        if not tokens:
            return ["int"]
    return tokens


# ---------------------------------------------------------------------------------------------------------------- rows

# programs with the answer that they must have, worked out by hand from the rules; {main} is an empty main
ROWS = [
    # the list and its order
    ("rule 15 line 0", "int x;"),
    ("rule 1 line 1", "int main(void) { return y + f(); }"),
    ("rule 12 line 1", "int main(void) { break; }"),
    ("rule 24 line 1", "long x; int main(void){}"),
    ("rule 14 line 1", "int f(int n) { return f(n); } int main(void) { return f(1); }"),
    ("rule 26 line 335", "void f0(void) { }\n" + "".join(f"void f{k}(void) {{ f{k - 1}(); }}\n" for k in range(1, 335)) + "{main}"),
    ("accepted", "void f0(void) { }\n" + "".join(f"void f{k}(void) {{ f{k - 1}(); }}\n" for k in range(1, 334)) + "{main}"),
    ("rule 12 line 3", "int main(void) { if (1)\n ;\n break; return; }"),
    ("rule 13 line 1", "int main(void) { return; break; }"),
    ("rule 24 line 1", "char x; void f(void) { break; }"),
    ("rule 24 line 2", "void f(void) { }\nchar\n x,\n f; {main}"),
    # names
    ("rule 1 line 2", "int main(void) {\n f; } void f(void) { }"),
    ("rule 7 line 2", "void f(void); int main(void) {\n f; } void f(void) { }"),
    ("rule 1 line 1", "int main(void) { assert; }"),
    ("rule 7 line 1", "void assert(int); int main(void) { assert; }"),
    ("accepted", "int main(void) { pthread_t t; pthread_create(&t, 0, f, 0); } void *f(void *a) { return a; }"),
    ("rule 2 line 2", "int f(void) { return 1; }\nint f(int a) { } int main(void) { f(); }"),
    ("rule 4 line 1", "int main(void) { f(1); } int f(void) { return 1; }\nint f(int a) { }"),
    ("rule 2 line 1", "int f(int a, int a); {main}"),
    ("rule 5 line 1", "int f(int assert); {main}"),
    ("rule 2 line 1", "int f(int a) { int a; } {main}"),
    ("accepted", "int f(int a) { { int a; } for (int a;;) int a; } {main}"),
    ("accepted", "int f(int f) { return f; } {main}"),
    ("rule 3 line 1", "int f(int f) { return f(1); } {main}"),
    ("rule 3 line 1", "int main(void) { g(); } int g(void);"),
    ("accepted", "int main(void) { g(); } int g(void) { }"),
    ("rule 8 line 1", "int main(void) { int a[a]; }"),
    ("accepted", "int main(void) { int a = a; }"),
    ("accepted", "int reach_error; int main(void) { reach_error = 1; }"),
    ("rule 3 line 1", "int reach_error; int main(void) { reach_error(); }"),
    ("accepted", "int reach_error(int a) { return a; } int main(void) { return reach_error(1); }"),
    ("rule 5 line 1", "void assert(int a) { } int main(void) { assert(1, 2); }"),
    ("rule 1 line 1", "int main(void) { do int x = 0; while (x); }"),
    ("accepted", "int main(void) { l: int x = 0; x = 1; l: ; x: ; }"),
    # what counts as an integer, and order at one node
    ("rule 7 line 1", "void *f(void *a) {\n return NULL; } int main(void) { f; }".replace("\n", "")),
    ("rule 18 line 1", "void *f(void *a) { return NULL; } int main(void) { return f(0); }"),
    ("rule 14 line 1", "void f(void) { int x = f(); } {main}"),
    ("rule 7 line 2", "void *f(void *a) { return\n f(a); } {main}"),
    ("rule 7 line 1", "int x; int main(void) { pthread_exit(&x); }"),
    ("rule 7 line 1", 'int main(void) { pthread_exit("a"); }'),
    ("rule 7 line 2", "int main(void) { pthread_exit(\nx); }"),
    ("rule 3 line 2", "int main(void) { pthread_exit(\nf()); }"),
    ("rule 6 line 2", "int main(void) { int x =\n(\nabort()); }"),
    ("rule 7 line 3", "int main(void) { int x =\n(\nNULL\n+ 1); }"),
    ("rule 7 line 2", "int main(void) { int x =\n(\nNULL); }"),
    ("rule 20 line 1", "int x; int main(void) { x = (&x); }"),
    ("rule 7 line 2", "int x; void *f(void *a) { return\n(\n&x); } {main}"),
    # pointers and zero
    ("rule 7 line 1", "void *f(void *p) { p == NULL; return p; } {main}"),
    ("rule 7 line 1", "void *f(void *p) { if (p) ; return p; } {main}"),
    ("rule 7 line 1", "void *f(void *p) { !p; return p; } {main}"),
    ("rule 7 line 1", "void *f(void *p) { assert(p); return p; } {main}"),
    ("accepted", "void *f(void *p) { return '\\0'; } void *g(void *p) { return 0u; } {main}"),
    ("rule 7 line 1", "void *f(void *p) { return (0); } {main}"),
    ("accepted", "void *f(void *p) { return (NULL); } {main}"),
    ("rule 7 line 3", "void *f(void *p) { return 1 ?\n p :\n 1; } {main}"),
    ("rule 7 line 1", "void *f(void *p) { return 1 ?\n 0 :\n 0; } {main}"),
    ("rule 7 line 3", "void *f(void *p) {\n ++\na[0]; } {main}".replace("a[0]", "p[0]")),
    ("rule 7 line 2", "void *f(void *p) {\n ++\np; } {main}"),
    ("rule 7 line 2", "void *f(void *p) { int x =\n 1 ? p :\n 1; } {main}"),
    ("accepted", "void *f(void *p) { int x = (int)p; p; (p); return (void *)x; } {main}"),
    # arguments that are objects
    ("rule 20 line 1", "int main(void) { pthread_mutex_lock(&\nnope); }"),
    ("rule 7 line 2", "pthread_mutex_t m[2]; int main(void) { pthread_mutex_lock(&\nm); }"),
    ("rule 7 line 2", "pthread_mutex_t m; int main(void) { pthread_mutex_lock(&\nm[0]); }"),
    ("rule 20 line 1", "pthread_mutex_t m; int main(void) { pthread_mutex_lock(\n(&m)); }"),
    ("rule 20 line 1", "pthread_t t; int main(void) { pthread_join(\n(t), 0); }"),
    ("rule 7 line 2", "pthread_t t; int main(void) {\n t; }"),
    ("rule 7 line 2", "pthread_t t[2]; int main(void) { pthread_join(\nt, 0); }"),
    ("rule 16 line 1", "pthread_t t; int main(void) { pthread_create(\nt, 1, t, 1); }"),
    ("rule 20 line 1", "pthread_t t; void *f(void *a) { return a; } int main(void) { pthread_create(\nt, 1, f, 1); }"),
    ("rule 21 line 1", "pthread_t t; void *f(void *a) { return a; } int main(void) { pthread_create(\n&t, 1, f, 1); }"),
    ("rule 7 line 2", "pthread_t t; void *f(void *a) { return a; } int main(void) { pthread_create(&t, 0, f,\n 1); }"),
    ("rule 21 line 1", "pthread_mutex_t m; int main(void) { pthread_mutex_init(\n&m, (NULL)); }"),
    ("rule 16 line 1", "pthread_t t; void *f(void *a) { return a; } int main(void) { pthread_create(\n&t, 0, (f), 0); }"),
    ("rule 16 line 1", "pthread_t t; void *f(void *a) { return a; } int main(void) { int f; pthread_create(\n&t, 0, f, 0); }"),
    # no value
    ("accepted", "void f(void) { } int main(void) { (f()); ((f())); }"),
    ("rule 6 line 2", "void f(void) { } int main(void) { 1 ?\n f() : f(); }"),
    ("rule 6 line 1", "int main(void) { return pthread_exit(0); }"),
    ("rule 13 line 1", "void f(void) { return\nf2(); } {main}"),
    # initializers and constants
    ("rule 10 line 1", "pthread_mutex_t m[2] = PTHREAD_MUTEX_INITIALIZER; {main}"),
    ("rule 10 line 1", "int m = PTHREAD_MUTEX_INITIALIZER; {main}"),
    ("rule 10 line 1", "int main(void) { int m = PTHREAD_COND_INITIALIZER; }"),
    ("rule 9 line 1", "pthread_mutex_t m = x; {main}"),
    ("rule 9 line 1", "int x = 1 || 1 / 0; {main}"),
    ("rule 8 line 1", "int x[\n4294967297u]; {main}"),
    ("rule 8 line 1", "int x[(\n4294967297u)]; {main}"),
    ("rule 24 line 2", "void *f(void *a) { return\n0L; } {main}"),
    ("rule 7 line 2", "void *f(void *p) { int x; x =\n1 ? p : 1; } {main}"),
    ("accepted", "int f(signed); int f(int a) { return a; } {main}"),
    ("rule 24 line 2", "int f(\nshort int); int f(short a) { return a; } {main}"),
    ("rule 11 line 2", "int x =\n4294967297u; {main}"),
    ("rule 8 line 1", "int x[4097]; {main}"),
    ("accepted", "int x[4096], y['\\a'], z[-1 < 1u ? 3 : 2], u[1 << 33], v[-7 / 2 + 5]; {main}"),
    ("rule 8 line 1", "int x[-1 < 1u]; {main}"),
    ("rule 24 line 1", "int x[2L]; {main}"),
    ("rule 10 line 1", "int main(void) { int a[2] = { 1, 2, 3 }; }"),
    # types, prototypes, main
    ("rule 18 line 1", "void pthread_exit(void *); {main}"),
    ("rule 18 line 1", "void *f(); {main}"),
    ("rule 18 line 2", "int main(void) { g(0); }\nint g(void *a) { return 1; }"),
    ("rule 18 line 1", "void *f(int a) { return 0; } {main}"),
    ("rule 18 line 1", "void *f(void *a,\nvoid *b) { return 0; } {main}"),
    ("rule 18 line 2", "int f(int b,\nvoid *a) { return 0; } {main}"),
    ("rule 16 line 1", "pthread_t t; int main(void) { pthread_create(&t, 0, f, 0); }\nvoid *f(int a) { return 0; }"),
    ("rule 16 line 1", "pthread_t t; int main(void) { pthread_create(&t, 0, f, 0); }\nvoid f(void *a) { }"),
    ("rule 24 line 2", "static\nchar x; {main}"),
    ("rule 18 line 1", "static\nvoid *f(void); {main}"),
    ("accepted", "void reach_error(int); void reach_error(void) { } {main}"),
    ("accepted", "int assert(int, int); int main(void) { assert(1); }"),
    ("accepted", "int f(); int f(int a) { return a; } {main}"),
    ("rule 25 line 1", "unsigned f(); int f(int a) { return a; } {main}"),
    ("rule 25 line 1", "int f(void); int f(int a) { return a; } {main}"),
    ("rule 25 line 1", "int f(char); int f(short a) { return a; } {main}"),
    ("rule 24 line 2", "int f(\nchar); int f(signed char a) { return a; } {main}"),
    ("accepted", "signed main() { }"),
    ("rule 15 line 0", "unsigned main(void) { }"),
    ("rule 15 line 0", "int main(int a) { }"),
    ("rule 15 line 0", "int main(void);"),
    ("rule 7 line 1", "int f(pthread_t t) { } {main}"),
    ("rule 19 line 1", "int f(pthread_mutex_t m) { } {main}"),
    ("rule 7 line 1", "pthread_cond_t f(void) { } {main}"),
    ("rule 7 line 1", "int f(int, void); {main}"),
    ("rule 17 line 1", "void *f(void *a) { pthread_t t; return a; } {main}"),
    ("rule 17 line 2", "void *f(void *a) { g(); return a; } {main}\nvoid g(void) { pthread_t t; }"),
    ("accepted", "void g(void) { pthread_t t; } int main(void) { g(); }"),
    ("rule 4 line 1", "int main(void) { printf(); }"),
    ("rule 22 line 1", 'int main(void) { printf(("a")); }'),
    ("rule 22 line 2", 'int main(void) { printf("a",\n"b"); }'),
    # calls that come back
    ("rule 14 line 2", "void a(void) { c();\nb(); } void c(void) { } void b(void) { a(); } {main}"),
    ("rule 14 line 2", "void d(void) { a(); }\nvoid a(void) { a(); } {main}"),
    ("rule 14 line 1", "int main(void) { main(); }"),
    ("accepted", "void a(void) { int b; } void b(void) { a(); } {main}"),
    # elements at file scope
    ("accepted", "".join(f"int a{k}[4096]; " for k in range(15)) + "pthread_mutex_t p[4096]; {main}"),
    ("rule 23 line 2", "".join(f"int a{k}[4096]; " for k in range(15)) + "pthread_mutex_t p[4096]; pthread_cond_t\nq; {main}"),
]  # fmt: skip

def tower(head):
    """334 functions, each but the first of which calls the one before it, and one more behind them with this head."""
    calls = "".join(f"void f{k}(void) {{ f{k - 1}(); }}\n" for k in range(1, 334))
    return "void f0(void) { }\n" + calls + head + "{ f333(); } {main}"


LARGE = "".join(f"int a{k}[4096]; " for k in range(16))  # as many elements as there may be

# for each rule: a program that breaks it, with the line; one that comes near and does not; one that breaks it before other rules, or
# after one that is told first, with the answer and what is shown
RULES = [
    (1, 2, "int main(void) {\n return y; }", "int main(void) { int y = y; return y; }",
     "rule 1 line 2", "int x;\nint main(void) { x = y +\n z(); }", "operands go from left to right"),
    (2, 2, "int x;\nint x; {main}", "int x; int main(void) { int x; { int x; } for (int x; ; ) int x; }",
     "rule 2 line 2", "int x;\nint x = y; {main}", "by number before the value of a declarator"),
    (3, 2, "int main(void) {\n g(); }", "int main(void) { g(); } void g(void) { }",
     "rule 3 line 1", "int main(void) { g(\ny); }", "a call before its arguments"),
    (4, 2, "void f(int a) { } int main(void) {\n f(); }", 'int main(void) { printf("%d %d", 1, 2); }',
     "rule 4 line 1", "int main(void) { assert(\ny, 1); }", "a call before its arguments"),
    (5, 1, "int assert; {main}", "int reach_error; int f(int reach_error) { return reach_error; } void assert(int); {main}",
     "rule 5 line 2", "int x;\nvoid abort = x; {main}", "by number at one declarator"),
    (6, 2, "void f(void) { } int main(void) {\n return f(); }", "void f(void) { } int main(void) { f(); (f()); for (f(); 0; (f())) ; }",
     "rule 6 line 2", "void f(void) { } int main(void) { int x =\nf() + y; }", "operands go from left to right"),
    (7, 2, "int a[2]; int main(void) {\n return a + 1; }", "int a[2]; int main(void) { return a[1] + (int)NULL; }",
     "rule 7 line 1", "pthread_mutex_t m; int main(void) { return m +\ny; }", "operands go from left to right"),
    (8, 1, "int a[0]; {main}", "int a[1], b[4096]; {main}",
     "rule 8 line 1", "int n; int a[\nn + y]; {main}", "a declarator before its length"),
    (9, 1, "int x; int y = x; {main}", "int x; int main(void) { int y = x; return y; }",
     "rule 9 line 1", "int y =\nz; {main}", "a declarator before its value"),
    (10, 1, "int x = { 1 }; {main}", "int x[2] = { 1, }; pthread_mutex_t m = PTHREAD_MUTEX_INITIALIZER; {main}",
     "rule 10 line 1", "int x[1] = { 1,\n2147483648 }; {main}", "a declarator before its values"),
    (11, 2, "int x =\n2147483648; {main}", "unsigned x = 4294967295u; int y = 2147483647, z = 0xffffffff; {main}",
     "rule 11 line 1", "int main(void) { return 4294967296u +\ny; }", "operands go from left to right"),
    (12, 2, "int main(void) {\n break; }", "int main(void) { while (1) { if (1) continue; break; } }",
     "rule 12 line 2", "int main(void) { while (1) ;\n continue;\n return; }", "in the order of the text"),
    (13, 2, "int main(void) {\n return; }", "void f(void) { return; } int main(void) { return 0; }",
     "rule 13 line 1", "void f(void) { return\ny; } {main}", "a return before its value"),
    (14, 2, "int f(int n) {\n return f(n); } {main}", "void a(void) { } void b(void) { a(); a(); } int main(void) { b(); a(); }",
     "rule 4 line 1", "int f(int n) { return f(\ny, 1); } {main}", "by number at one call"),
    (15, 0, "int x;", "signed main() { }",
     "rule 1 line 2", "unsigned main(void) {\n return y; }", "the file comes last"),
    (16, 2, "pthread_t t; int main(void) {\n pthread_create(&t, 0, main, 0); }",
     "pthread_t t; int main(void) { pthread_create(&t, 0, f, 0); } void *f(void *a) { return a; }",
     "rule 16 line 1", "pthread_t t; int main(void) { pthread_create(\nt, y, main, 0); }", "by number at one call, before its arguments"),
    (17, 2, "void *f(void *a) { pthread_t\nt; return a; } {main}",
     "void g(void) { pthread_t t; } int main(void) { g(); }",
     "rule 17 line 1", "void *f(void *a) { pthread_join(\n1, 1); return a; } {main}", "by number at one call"),
    (18, 2, "int f(\nvoid *a) { return 0; } {main}", "void *f(void *a); void *f(void *a) { return a; } {main}",
     "rule 18 line 1", "void *f(int a,\nint a) { return 0; } {main}", "a function before its parameters"),
    (19, 2, "int main(void) { pthread_mutex_t\nm; }", "pthread_mutex_t m; pthread_cond_t c[2]; {main}",
     "rule 19 line 1", "int f(pthread_mutex_t m,\nvoid a) { } {main}", "parameters go from left to right"),
    (20, 2, "int x; int main(void) {\n return &x; }", "pthread_mutex_t m[2]; int main(void) { pthread_mutex_lock(&m[1]); }",
     "rule 20 line 1", "pthread_mutex_t m; int main(void) { pthread_mutex_init(m,\ny); }", "by number at one call, before its arguments"),
    (21, 2, "pthread_mutex_t m; int main(void) {\n pthread_mutex_init(&m, 1); }",
     "pthread_mutex_t m; pthread_t t; int main(void) { pthread_mutex_init(&m, '\\0'); pthread_join(t, NULL); }",
     "rule 21 line 1", "pthread_mutex_t m; int main(void) { pthread_mutex_init(&m,\ny); }", "a call before its arguments"),
    (22, 2, "int main(void) {\n printf(1); }", 'int main(void) { printf("a"); }',
     "rule 22 line 1", 'int main(void) { printf(\ny, "b"); }', "a call before its arguments"),
    (23, 2, LARGE + "int\nx; {main}", LARGE + "int main(void) { int x; }",
     "rule 9 line 2", LARGE + "int\nx = y; {main}", "by number at one declarator"),
    (24, 1, "long\nx; {main}", "signed int x; unsigned int y = 1u; {main}",
     "rule 24 line 1", "char\nx,\nx; {main}", "a declaration before its declarators"),
    (25, 2, "\nint f(int); int f(unsigned a) { return 0; } {main}", "int f(); int f(int a) { return a; } signed f(signed int); {main}",
     "rule 25 line 1", "int f(int,\nvoid); int f(int a) { return a; } {main}", "a prototype before its parameters"),
    (26, 335, tower("void g(int a)"), tower("").replace("{ f333(); } ", ""),
     "rule 26 line 335", tower("void g(int a,\nint a)"), "a function before its parameters"),
]  # fmt: skip

# constant expressions that give a length, and ones with the value 0, which is none; a wrong operator, kind or grouping turns them about
LENGTHS = r"""
-7 / 2 + 4; (-8 >> 1) + 5; (1 << 33) - 1; -1 < 1; 65536u * 65536u + 1; (-2147483647 - 1) / -1 + 2147483647 + 2; ~0 + 2; !5 + 1
4294967295u + 2u; 5 & 3; 5 ^ 4; (4 | 1) - 4; 1 ? 1 : 0; 0 ? 0 : 1; (1 ? -1 : 1u) > 0; (-1 >> 1u) + 2; -1 >> 31 < 0; 7 % -2
(1u < 2u) - 2 < 0; (1u && 1u) - 2 < 0; !1u - 1 < 0; -1u > 0; ~0u > 5; (unsigned)-1 > 0; (int)4294967295u < 0; 0xFFFFFFFF > 0
037777777777 > 0; 0x7FFFFFFF + 1 < 0; 2147483647 + 1 < 0; -7 % 2 + 2; 7 / -2 + 4; (-2147483647 - 1) % -1 + 1; 1 << -31 == 2; 'a' - 96
'\0' + 1; -1 / 2u - 2147483646; 3 - 1 - 1; 8 / 4 / 2; 1 + 2 * 3 == 7; (1 | 2 ^ 2 & 0) == 3; 1 << 1 + 1 == 4; 2 > 1 == 1; 1 == 1 & 1
(-1 < 0u) + 1; 1 >> 32; 256 >> 8; 4294967295u >> 31; -1 * -1; 0u - 1 == 4294967295u; 2147483648u == -2147483647 - 1; 1 ? 1 : 0 ? 2 : 3
"""
NO_LENGTHS = """
-7 % 2 + 1; -1 < 1u; 0 && 1; 0 || 0; !7; 5 & 2; 3 ^ 3; 0 | 0; 1 >> 1; 2 - 1 - 1; 7 / 8; 4096 > 4096; 1 ? 0 : 1; -7 / 2 + 3; 1 - 1u
(unsigned)-1 < 0; 65536 * 65536; 2147483648u << 1; (1 ? -1 : 1u) < 0; 1 == 2; 3 != 3; 5 <= 4; 4 >= 5; 0 ? 1 : 0; ~4294967295u; -1 - -1
(-8 >> 1) + 4; (1 << 33) - 2; (-1 >> 1) + 1; 8 - 4 - 4; 4097; -1; 1 / 0; 1 || 1 / 0; 0 ? 1 % 0 : 1; NULL; (void *)1; 4294967297u
"""

# bounds of turns and rounds, the answer, the program
BOUNDED = [
    (2, 2, "LIMIT cost 18446744073709551615 over 10000000",
     "void f0(void) { } " + "".join(f"void f{k}(void) {{ f{k - 1}(); f{k - 1}(); }}\n" for k in range(1, 61)) + "int main() { f60(); }"),
    (100, 2, "LIMIT cost 417874751488 over 10000000", "int main(void) { while (1) while (1) while (1) while (1) ; }"),
    (17, 2, "LIMIT slots 17 over 16",
     "void *f(void *a) { return NULL; } int main(void) { pthread_t t; while (1) pthread_create(&t, NULL, f, NULL); }"),
    (16, 2, None, "void *f(void *a) { return NULL; } int main(void) { pthread_t t; while (1) pthread_create(&t, NULL, f, NULL); }"),
    (2, 2, None, "int main(void) { int a[4096], b[782]; (int)0; (int)0; (int)0; }"),
    (2, 2, "LIMIT cost 10000384 over 10000000", "int main(void) { int a[4096], b[782]; (int)0; (int)0; (int)0; (int)0; }"),
    (2, 2, None, "void *f(void *a) { } pthread_t t; int main(void) { while (1) do do do pthread_create(&t, 0, f, 0); while (1);"
     " while (1); while (1); }"),
    (2, 2, "LIMIT slots 17 over 16", "void *f(void *a) { } pthread_t t; int g(void) { return pthread_create(&t, 0, f, 0); }"
     " int main(void) { while (1) do do do g(); while (1); while (1); while (1); g(); }"),
    (2, 2, "LIMIT slots 28 over 16",
     "void *f(void *a) { } int main(void) { pthread_t t; while (1) do { for (pthread_create(&t, 0, f, 0); pthread_create(&t, 0, f, 0);"
     " pthread_create(&t, 0, f, 0)) ; } while (pthread_create(&t, 0, f, 0)); }"),
]  # fmt: skip

# statements of main with two turns, and what they cost by the table, number by number; T is the number of slots and 1 more
BEFORE = """int x, a[3]; unsigned u; pthread_mutex_t m, mm[4]; pthread_cond_t c, cc[5]; pthread_t t, tt[6];
void v(void) { } int w(int i, unsigned j) { return i; } void *s(void *p) { return p; }
"""
COSTS = [
    ("1; 'a'; NULL; (1); +1; ; { } l: ; printf(\"a\");", 0), ("x;", 1024), ("a[1];", 2048 + 768), ("a[x];", 2048 + 768 + 1024),
    ("-1;", 512), ("~1;", 512), ("!1;", 512), ("(int)1;", 256), ("(void *)1;", 256), ("1 + 1;", 1024), ("1 - 1;", 1024), ("1 < 1;", 1024),
    ("1 > 1;", 1024), ("1 <= 1;", 1024), ("1 >= 1;", 1024), ("1 == 1;", 1024), ("1 != 1;", 1024), ("1 & 1;", 1024), ("1 ^ 1;", 1024),
    ("1 | 1;", 1024), ("1 << 1;", 2048), ("1 >> 1;", 2048), ("1 * 1;", 8192), ("1 / 1;", 16384), ("1 % 1;", 16384), ("1 && 1;", 2048),
    ("1 || 1;", 2048), ("1 ? 1 : 1;", 3072), ("x = 1;", 1024), ("a[1] = 1;", 2048 + 768), ("x += 1;", 2048 + 1024),
    ("x -= 1;", 2048 + 1024), ("x *= 1;", 2048 + 8192), ("x /= 1;", 2048 + 16384), ("x %= 1;", 2048 + 16384), ("x &= 1;", 3072),
    ("x |= 1;", 3072), ("x ^= 1;", 3072), ("x <<= 1;", 4096), ("x >>= 1;", 4096), ("a[1] += 1;", 4096 + 1536 + 1024),
    ("a[1] /= x;", 4096 + 1536 + 16384 + 1024), ("a[x] <<= 1;", 4096 + 1536 + 2048 + 1024), ("x++;", 3072), ("--x;", 3072),
    ("a[1]++;", 5120 + 1536), ("--a[x];", 5120 + 1536 + 1024), ("v();", 1024), ("w(1, x);", 3072 + 1024 + 2048), ("int k;", 1024),
    ("int k[7];", 7168), ("int k, l[2] = { x, 1 };", 1024 + 2048 + 1024), ("int k[1 + 1];", 2048 + 1024), ("pthread_t k[2];", 2048),
    ("if (1) ;", 2048), ("if (x) x; else x;", 2048 + 3072), ("while (1) ;", 2 * 2048 + 2048),
    ("while (x) u;", 2 * (2048 + 2048) + 2048 + 1024), ("do u; while (x);", 2 * (2048 + 2048) + 2048 + 1024), ("for (;;) ;", 3 * 2048),
    ("for (x; !x; x++) u;", 1024 + 2 * (2048 + 1536 + 3072 + 1024) + 2048 + 1536), ("for (int i = x; ; ) ;", 2048 + 3 * 2048),
    ("while (1) break;", 2 * 3072 + 2048), ("while (1) continue;", 2 * 3072 + 2048), ("return 1;", 1024), ("assert(1);", 1024),
    ("__VERIFIER_assume(x);", 2048), ("__VERIFIER_nondet_int();", 1024), ("__VERIFIER_nondet_uint();", 1024),
    ("__VERIFIER_error();", 1024), ("reach_error();", 1024), ("abort();", 1024), ("pthread_exit(0);", 1024),
    ("__VERIFIER_atomic_begin();", 2048), ("__VERIFIER_atomic_end();", 2048), ("pthread_mutex_init(&m, 0);", 2048 + 256),
    ("pthread_mutex_destroy(&m);", 2304), ("pthread_mutex_lock(&mm[1]);", 2048 + 1024),
    ("pthread_mutex_unlock(&mm[x]);", 2048 + 1024 + 1024), ("pthread_cond_init(&cc[1], NULL);", 2048 + 1280),
    ("pthread_cond_destroy(&c);", 2304), ("pthread_cond_wait(&cc[1], &mm[1]);", 8192 + 256 * 9),
    ("pthread_cond_signal(&c);", 2048 + 512 + 256), ("pthread_cond_broadcast(&cc[x]);", 2048 + 512 + 1280 + 1024),
    ("pthread_join(t, 0);", 4096 + 512 + 256), ("pthread_join(tt[x], 0);", 4096 + 512 + 1536 + 1024), ('printf("a", x, -1);', 1024 + 512),
    ("pthread_create(&t, 0, s, 0);", 8192 + 256 + 4096 + 2048),
    ("pthread_create(&tt[x], 0, s, (void *)x);", 8192 + 1536 + 1024 + 256 + 1024 + 6144),
    ("pthread_create(&t, 0, s, 0); pthread_join(t, 0);", 8448 + 6144 + 4096 + 1024 + 256),
    ("pthread_cond_signal(&c); while (1) pthread_create(&t, 0, s, 0);", 2304 + 3 * 512 + 2 * (2048 + 8448) + 2048 + 2 * 6144),
]  # fmt: skip
EMPTY = "int main(void) { }"


def two_workers():
    """Two workers that each add four times under a mutex, as a program of the form that the command makes by itself."""
    adds = "pthread_mutex_lock(&m); total = total + 7u; pthread_mutex_unlock(&m); " * 4
    workers = "".join(f"void *worker{j}(void *arg) {{ {adds} return NULL; }}\n" for j in (1, 2))
    threads = "".join(f"pthread_create(&t[{j - 1}], NULL, worker{j}, NULL); " for j in (1, 2)) + "pthread_join(t[0], NULL); " * 2
    ends = f"int main(void) {{ pthread_t t[2]; {threads} assert(total == 56u); return 0; }}"
    return f"pthread_mutex_t m = PTHREAD_MUTEX_INITIALIZER;\nunsigned int total;\n{workers}{ends}\n"


def rows_of_rules():
    """Three rows for each rule, each with the answer that it must have and with what it shows."""
    for rule, line, plain, near, answer, ordered, shows in RULES:
        yield f"rule {rule} line {line}", plain, f"rule {rule}"
        yield "accepted", near, f"near rule {rule}"
        yield answer, ordered, shows


def rows():
    """Each row as bounds, the report that it must have (None where it is accepted within the limits), and its text."""
    for answer, text in ROWS + [(answer, text) for answer, text, _ in rows_of_rules()]:
        report = None
        if answer != "accepted":
            rule, line = answer.split()[1::2]
            report = f"SOURCE line {line} rule {rule}"
        yield 2, 2, report, text.replace("{main}", EMPTY)
    for answer, table in ((None, LENGTHS), ("SOURCE line 2 rule 8", NO_LENGTHS)):
        for row in re.split("; |\n", table.strip()):
            yield 2, 2, answer, f"int main(void) {{\nint a[{row}]; }}"
    yield from BOUNDED
    for statements, number in COSTS:
        total = 2 * (4096 + 2 * 4096 * 1024 + number)
        text = BEFORE + "int main(void) { int large[4096], larger[4096]; " + statements + " }"
        yield 2, 2, f"LIMIT cost {total} over 10000000", text


# ---------------------------------------------------------------------------------------------------------------- comparison

HEADER = """typedef unsigned long pthread_t; typedef struct { int a; } pthread_mutex_t, pthread_cond_t;
#define NULL ((void *)0)
#define PTHREAD_MUTEX_INITIALIZER { 0 }
#define PTHREAD_COND_INITIALIZER { 0 }
void assert(int), __VERIFIER_assume(int), __VERIFIER_error(void), reach_error(void), abort(void), pthread_exit(void *);
void __VERIFIER_atomic_begin(void), __VERIFIER_atomic_end(void); int __VERIFIER_nondet_int(void), printf(const char *, ...);
unsigned __VERIFIER_nondet_uint(void); int pthread_create(pthread_t *, void *, void *(*)(void *), void *), pthread_join(pthread_t, void *);
int pthread_mutex_init(pthread_mutex_t *, void *), pthread_mutex_destroy(pthread_mutex_t *), pthread_mutex_lock(pthread_mutex_t *);
int pthread_mutex_unlock(pthread_mutex_t *), pthread_cond_init(pthread_cond_t *, void *), pthread_cond_destroy(pthread_cond_t *);
int pthread_cond_wait(pthread_cond_t *, pthread_mutex_t *), pthread_cond_signal(pthread_cond_t *), pthread_cond_broadcast(pthread_cond_t *);
"""
KINDS = """accepted one one one near pair pair wild wild exchanged exchanged cost slots constants""".split()


def computed(generator, rng):
    """The tokens of declarations whose lengths are 1 where constant expressions have the values that they should, or, seldom, are none."""
    made = []
    for number in range(15):
        row = " ".join(flat(generator.constant_form(3)))
        value = constant_of(Parser(row).assign())
        if value is not None:
            row = f"( {row} ) {'!=' if rng.random() < 0.02 else '=='} {value[1]}u"
        if value is not None or rng.random() < 0.05:
            made.append(f"int zz{number} [ {row} ] ;")
    return " ".join(made + [EMPTY]).replace("(void)", "( )").split()


def padded(mutator, rng, turns, rounds):
    """The tokens of an accepted program whose cost stands at the limit or one step past it; None where it has too great a cost."""
    generator = mutator.generator
    tops = [place for place in mutator.places if place.kind == "statement" and place.view.plan and place.view.plan.name == "main"]
    costs = Costs(Checker(" ".join(mutator.rendered([]))), turns, rounds)
    if costs.slots > 16 or not tops:
        return None
    if rng.random() < 0.5:
        return mutator.rendered([(rng.choice(tops), None, "int zz1 [ 4096 ] , zz2 [ 4096 ] ;".split())])
    units = 10000000 // rounds // 256 - costs.cost // rounds // 256 + rng.choice([0, 1])
    if units < 0:
        return None
    row = "( int ) 0 ; " * (units % 4)
    cells, number = units // 4, 0
    while cells:
        row += f"int zzp{number} [ {min(cells, 4096)} ] ; "
        cells, number = cells - min(cells, 4096), number + 1
    return mutator.rendered([(tops[0], None, row.split())])


def crowded(mutator, rng, turns, rounds):
    """The tokens of an accepted program with 15 to 18 slots; None where it can't be had."""
    tops = [place for place in mutator.places if place.kind == "statement" and place.view.plan and place.view.plan.name == "main"]
    routine = (None, rng.randrange(len(mutator.generator.externals) + 1), "void * zzs ( void * a ) { return a ; }".split())
    wanted, edits = rng.randrange(15, 19), {tops[0]: "pthread_t zzt , zzu [ 3 ] ;".split()}
    once = "pthread_create ( & zzt , 0 , zzs , 0 ) ;".split()

    def with_edits(made):
        tokens = mutator.rendered([routine] + [(place, None, row) for place, row in made.items()])
        return tokens, Costs(Checker(" ".join(tokens)), turns, rounds).slots

    for _ in range(4):
        place = rng.choice(tops)
        row = mutator.fill(rng.choice(["pthread_create ( & zzu [ 1 ] , 0 , zzs , 0 ) ;", "{threaded} ;"]), place.view)
        if row:
            tried = dict(edits)
            tried[place] = tried.get(place, []) + row.split(" ")
            if with_edits(tried)[1] <= wanted:
                edits = tried
    left = wanted - with_edits(edits)[1]
    edits[tops[0]] = edits[tops[0]] + once * max(left, 0)
    return with_edits(edits)[0] if left >= 0 else None


def made(kind, rng, table, turns, rounds):
    """The text of a random program of some kind, with the form that was spliced in, if any; None where none was made."""
    generator = Generator(rng)
    mutator = Mutator(generator, rng)
    form = None
    if kind == "accepted":
        tokens = mutator.rendered([])
    elif kind in ("one", "near", "pair"):
        edits = []
        for _ in range(2 if kind == "pair" else 1):
            rule = 0 if kind == "near" else rng.randrange(1, 27)
            for _ in range(20):
                form = (rule, *rng.choice(table[rule]))
                if mutator.splice(form[1], form[2], edits):
                    break
            else:
                return None
        tokens = mutator.rendered(edits)
    elif kind == "wild":
        names = sorted({token for token in mutator.rendered([]) if token[0].isalpha() and token not in KEYWORDS})
        wild, edits = Wild(rng, names), []
        for _ in range(rng.choice([1, 1, 2])):
            if rng.random() < 0.3:
                edits.append((None, rng.randrange(len(generator.externals) + 1), wild.external().split()))
            else:
                edits.append((rng.choice([place for place in mutator.places if place.kind == "statement"]), None, wild.statement().split()))
        tokens = mutator.rendered(edits)
    elif kind == "constants":
        tokens = computed(generator, rng)
    elif kind == "exchanged":
        tokens = exchanged(mutator.rendered([]), rng)
    else:
        tokens = (padded if kind == "cost" else crowded)(mutator, rng, turns, rounds)
    return tokens and (text_of(tokens, rng), form)


def answered(program, words, text, folder, seconds=20):
    """The status and the report of the program on a text."""
    path = os.path.join(folder, "a.c")
    with open(path, "w", encoding="ascii") as file:
        file.write(text)
    try:
        run = subprocess.run([program, *words, path], stdout=subprocess.PIPE, stderr=subprocess.DEVNULL, timeout=seconds, check=False)
    except subprocess.TimeoutExpired:
        return None, f"no answer in {seconds} seconds"
    return run.returncode, run.stdout.decode(errors="replace")


def agrees(report, status, printed):
    if report is None:
        return status in (0, 1, 2, 12)
    return (status, printed) == (4 if report.startswith("SOURCE") else 5, report + "\n")


def shrunk(text, disagrees, tries=3000):
    """A text with as many pieces as may be left out, on which the two still disagree."""
    pieces = re.findall(r"/\*.*?\*/|//[^\n]*|\"(?:[^\"\\\n]|\\.)*\"|\w+|\s+|.", text, re.DOTALL)
    size = len(pieces) // 2
    while size and tries:
        at, before = 0, len(pieces)
        while at < len(pieces) and tries:
            tries -= 1
            tried = pieces[:at] + pieces[at + size :]
            if disagrees("".join(tried)):
                pieces = tried
            else:
                at += size
        if len(pieces) == before or size > 1:
            size //= 2
    return "".join(pieces)


class Tally:
    """What was compared, and what disagreed."""

    def __init__(self, options):
        self.options, self.words, self.told = options, options.words.split(), 0
        self.turns, self.rounds = self.bound("--unwind"), self.bound("--rounds")
        self.rules, self.kinds = collections.Counter(), collections.Counter()

    def bound(self, word):
        return int(self.words[self.words.index(word) + 1]) if word in self.words else 2

    def tell(self, what, report, text, got=""):
        self.told += 1
        print(f"DISAGREE {what}\nexpected {report or 'accepted'}\nanswered {got}\n{text}\n")

    def one(self, kind, report, text, folder):
        self.kinds[kind] += 1
        told = re.match(r"SOURCE line \d+ (rule \d+)|LIMIT (slots|cost)", report or "")
        self.rules[(told and (told.group(1) or told.group(2))) or "accepted"] += 1
        if self.options.self:
            print(f"=== {kind}: {report or 'accepted'}\n{text}")
        elif self.options.program:
            status, printed = answered(self.options.program, self.words, text, folder)
            if not agrees(report, status, printed):
                if self.options.shrink:
                    text = shrunk(text, lambda tried: self.disagrees(tried, folder))
                    report, (status, printed) = self.mine(text)[0], answered(self.options.program, self.words, text, folder)
                self.tell(kind, report, text, f"{status} {printed.strip()}")

    def mine(self, text):
        return expected(text, self.turns, self.rounds)

    def disagrees(self, text, folder):
        """Whether a text is a program of the grammar on which the two disagree."""
        try:
            report, faults = self.mine(text)
        except Exception:  # pylint: disable=broad-except
            return False
        return faults is not None and not agrees(report, *answered(self.options.program, self.words, text, folder))


def compare_rows(tally, folder):
    costs = Costs(Checker(two_workers()), 2, 2)
    if (costs.slots, costs.cost) != (2, 223232):
        tally.tell("slots and cost of two workers", "2 223232", two_workers(), f"{costs.slots} {costs.cost}")
    for turns, rounds, report, text in rows():
        mine, faults = expected(text, turns, rounds)
        if mine != report:
            tally.tell("a row with this script's own checker", report, text, f"{mine} {faults}")
        if (turns, rounds) == (tally.turns, tally.rounds):
            tally.one("row", report, text, folder)


def compare_random(tally, folder):
    options, table = tally.options, forms()
    hits, tries = collections.Counter(), collections.Counter()
    for number in range(options.programs):
        rng = random.Random(f"{options.seed} {number}")
        kind = options.only or KINDS[number % len(KINDS)]
        found = made(kind, rng, table, tally.turns, tally.rounds)
        if not found:
            continue
        text, form = found
        report, faults = tally.mine(text)
        if faults is None:
            continue  # a change that leaves no program of the grammar
        if kind == "accepted" and faults:
            tally.tell("an accepted program with this script's own checker", None, text, f"{report} {faults}")
        if kind == "one":
            tries[form] += 1
            hits[form] += form[0] in [rule for _, rule in faults]
        if kind == "near":
            tries[form] += 1
            hits[form] += not faults
        tally.one(kind, report, text, folder)
    for form in sorted(tries):
        if not hits[form]:
            print(f"never: {form[0]} {form[1]} {form[2]!r} in {tries[form]} programs")
        elif options.verbose and hits[form] < tries[form]:
            print(f"{hits[form]} of {tries[form]}: {form[0]} {form[1]} {form[2]!r}")


def compile_with_gcc(options):
    """Compiles random accepted programs that keep to C99; returns how many failed."""
    failed = 0
    for number in range(options.programs):
        rng = random.Random(f"{options.seed} {number}")
        text = text_of(Generator(rng, plain=True).tokens(), rng, True)
        if expected(text, 2, 2)[1]:
            print("faults", text)
        command = ["gcc", "-std=c99", "-fsyntax-only", "-w", "-x", "c", "-"]
        run = subprocess.run(command, input=HEADER + text.replace("#include <pthread.h>", ""), text=True, capture_output=True, check=False)
        if run.returncode:
            failed += 1
            print(run.stderr, text)
    print(f"{options.programs} programs, {failed} that gcc refuses")
    return failed


def run(options):
    if options.cost:
        with open(options.cost, encoding="latin-1") as file:
            print(*expected(file.read(), Tally(options).turns, Tally(options).rounds))
        return 0
    if options.gcc:
        return compile_with_gcc(options)
    tally = Tally(options)
    with tempfile.TemporaryDirectory() as folder:
        if not options.only or options.only == "rows":
            compare_rows(tally, folder)
        if options.only != "rows":
            compare_random(tally, folder)
    told = ", ".join(f"{kind} {count}" for kind, count in sorted(tally.kinds.items()))
    rules = ", ".join(f"{rule}: {tally.rules[rule]}" for rule in sorted(tally.rules, key=lambda rule: f"{rule[:4]}{rule[5:]:0>5}"))
    print(f"seed {options.seed}: {told}\nexpected answers: {rules}\n{tally.told} disagreements")
    return tally.told


def main():
    parser = argparse.ArgumentParser(description="Compares the rules, slots and cost of the program with a checker written apart.")
    parser.add_argument("program", nargs="?", help="the command lazycheck")
    parser.add_argument("--seed", type=int, default=1)
    parser.add_argument("--programs", type=int, default=2000)
    parser.add_argument("--words", default="", help="words that stand before the file")
    parser.add_argument("--only", default="", help="one kind of programs: rows " + " ".join(sorted(set(KINDS))))
    parser.add_argument("--self", action="store_true", help="print each program with the expected answer")
    parser.add_argument("--gcc", action="store_true", help="compile accepted programs with gcc")
    parser.add_argument("--cost", default="", metavar="FILE", help="what this checker says of a file")
    parser.add_argument("--shrink", action="store_true", help="leave out of each disagreement what can be left out")
    parser.add_argument("--verbose", action="store_true", help="how often each form broke its rule")
    options = parser.parse_args()
    answer = []
    # trees of the greatest height, and calls in a row, need more room than the first thread has
    sys.setrecursionlimit(200000)
    threading.stack_size(512 * 1024 * 1024)
    worker = threading.Thread(target=lambda: answer.append(run(options)))
    worker.start()
    worker.join()
    return 1 if not answer or answer[0] else 0


if __name__ == "__main__":
    sys.exit(main())
