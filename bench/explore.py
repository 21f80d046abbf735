#!/usr/bin/env python3
"""Explores all runs of small programs within bounds, and compares the program's answers to schedules with a replayer of its own.
Run it from anywhere, by itself:
  bench/explore.py --self [--seed S] [--programs N]   rows worked out by hand, then random programs against a plain search
  bench/explore.py --gcc [--seed S] [--programs N]    random programs of one thread against gcc, which has to be there
  bench/explore.py --check FILE [--unwind N] [--rounds K]        what this explorer says of one file, as mode check prints it
  bench/explore.py --replay SCHEDULE FILE [--unwind N]           the answer to one schedule, as mode replay prints it
or against the command lazycheck, whose path is PROGRAM:
  bench/explore.py PROGRAM [--seed S] [--programs N] [--only replay|main|check] [--keep DIRECTORY]
`replay` compares the answers to schedules that break, that hold, and that were changed in one place; `main` those to programs of one
thread without a free choice; `check` the verdicts on programs with threads: a schedule that is printed has to break here with the kind,
line and rounds told, and a success must have no broken run here. Without --only it does the first two. Each disagreement leaves its
files in DIRECTORY.

Everything here is written from docs/LANGUAGE.md, docs/MEANING.md and docs/DECISIONS.md, apart from the program's code and specs/, and with
other forms (c_reader.py reads the text): a thread is a generator that walks the tree and yields one action at a time, the shared state is a record that an action
maps to another one, and a program is explored by an order of all its states, least rounds first. Free values are taken from a few
words, so a program that breaks only with others is not found out here. Told are each disagreement and how often each answer came."""

import argparse
import collections
import heapq
import itertools
import os
import random
import re
import subprocess
import sys
import tempfile

from c_reader import ADDRESS, COND, INT, MOST, MUTEX, Parser, Refused, THREAD, UNSIGNED, VOID, WORD, parts_of

# ---------------------------------------------------------------------------------------------------------------- words


def stands_for(kind, word):
    """The whole number that a word of a kind stands for."""
    return word - WORD if kind == INT and word >= WORD // 2 else word


def truncated(a, b):
    """The quotient of whole numbers, toward zero."""
    return abs(a) // abs(b) * (1 if (a < 0) == (b < 0) else -1)


def binary(op, kind, a, b):
    """The word of a binary operator on words of one kind; of a shift it is that of the left word."""
    x, y = stands_for(kind, a), stands_for(kind, b)
    if op in ("/", "%") and y == 0:
        return 0
    return {
        "+": lambda: x + y, "-": lambda: x - y, "*": lambda: x * y, "/": lambda: truncated(x, y), "%": lambda: x - y * truncated(x, y),
        "<<": lambda: a << b % 32, ">>": lambda: x >> b % 32, "&": lambda: a & b, "^": lambda: a ^ b, "|": lambda: a | b,
        "<": lambda: int(x < y), ">": lambda: int(x > y), "<=": lambda: int(x <= y), ">=": lambda: int(x >= y),
        "==": lambda: int(a == b), "!=": lambda: int(a != b),
    }[op]() % WORD  # fmt: skip


def unary(op, a):
    return {"+": a, "-": -a, "~": -1 - a, "!": int(a == 0)}[op] % WORD


# ---------------------------------------------------------------------------------------------------------------- names

CELL, LOCAL, HANDLE = "cell", "local", "handle"
KNOWN = {
    "__VERIFIER_nondet_int": INT, "__VERIFIER_nondet_uint": UNSIGNED, "pthread_create": INT, "pthread_join": INT,
    "pthread_mutex_init": INT, "pthread_mutex_destroy": INT, "pthread_mutex_lock": INT, "pthread_mutex_unlock": INT,
    "pthread_cond_init": INT, "pthread_cond_destroy": INT, "pthread_cond_wait": INT, "pthread_cond_signal": INT,
    "pthread_cond_broadcast": INT, "printf": INT, "assert": VOID, "__VERIFIER_assume": VOID, "__VERIFIER_error": VOID,
    "reach_error": VOID, "abort": VOID, "__VERIFIER_atomic_begin": VOID, "__VERIFIER_atomic_end": VOID, "pthread_exit": VOID,
}  # fmt: skip
Thing = collections.namedtuple("Thing", "number base where first length")  # an object: its own number, type, place, elements


class Program:
    """An accepted program: its functions by name, its opening cells, and in its tree each name with its object and each expression
    with its type (`sort`)."""

    def __init__(self, text):
        self.externals = Parser(text).program()
        self.functions = {external.name: external for external in self.externals if external.kind == "function"}
        self.cells, self.mutexes, self.conds, self.things = [], 0, 0, 0
        self.scopes = [{}]
        for external in self.externals:
            if external.kind == "objects":
                for declarator in external.of.declarators:
                    self.file_object(declarator)
            if external.kind == "function":
                self.scopes.append({param.name: None for param in external.params})
                for param in external.params:
                    param.thing = self.declare(param.name, param.base, LOCAL, 0, 1)
                for part in external.body.parts:
                    self.statement(part)
                self.scopes.pop()

    def declare(self, name, base, where, first, length):
        self.things += 1
        self.scopes[-1][name] = Thing(self.things, base, where, first, length)
        return self.scopes[-1][name]

    def length(self, declarator):
        if declarator.length is None:
            return 1
        self.expression(declarator.length)
        return constant(declarator.length)

    def file_object(self, declarator):
        length = self.length(declarator)
        values = values_of(declarator.first)
        for value in values:
            self.expression(value)
        if declarator.base in (INT, UNSIGNED):
            self.declare(declarator.name, declarator.base, CELL, len(self.cells), length)
            self.cells += [constant(value) for value in values] + [0] * (length - len(values))
        elif declarator.base == MUTEX:
            self.declare(declarator.name, MUTEX, MUTEX, self.mutexes, length)
            self.mutexes += length
        elif declarator.base == COND:
            self.declare(declarator.name, COND, COND, self.conds, length)
            self.conds += length
        else:
            self.declare(declarator.name, THREAD, HANDLE, 0, length)

    def objects(self, node):
        for declarator in node.declarators:
            length = self.length(declarator)
            where = HANDLE if declarator.base == THREAD else LOCAL
            declarator.thing = self.declare(declarator.name, declarator.base, where, 0, length)
            for value in values_of(declarator.first):
                self.expression(value)

    def scope(self, *statements):
        self.scopes.append({})
        for statement in statements:
            self.statement(statement)
        self.scopes.pop()

    def statement(self, node):
        kind = node.kind
        if kind == "declare":
            self.objects(node.of)
        elif kind == "block":
            self.scope(*node.parts)
        elif kind == "label":
            self.statement(node.of)
        elif kind == "for":
            self.scopes.append({})
            self.statement(node.first)
            for part in (node.test, node.step):
                if part is not None:
                    self.expression(part)
            self.scope(node.body)
            self.scopes.pop()
        elif kind in ("if", "while", "do"):
            self.expression(node.test)
            for part in (node.yes, node.no) if kind == "if" else (node.body,):
                if part is not None:
                    self.scope(part)
        elif kind in ("eval", "return") and node.value is not None:
            self.expression(node.value)

    def expression(self, node):
        if hasattr(node, "target"):
            node.target.thing = self.nearest(node.target.name)
        if node.kind == "call":
            node.function = self.functions.get(node.name)
        for part in parts_of(node):
            self.expression(part)
        if node.kind != "target":
            node.sort = getattr(self, "sort_" + node.kind, lambda node: INT)(node)

    def nearest(self, name):
        for scope in reversed(self.scopes):
            if name in scope:
                return scope[name]
        return None  # the name of a start routine

    # the type of each expression, told from its parts; what is not named here is an `int`

    def sort_constant(self, node):
        return UNSIGNED if node.form.unsigned or (not node.form.decimal and node.value >= WORD // 2) else INT

    def sort_null(self, node):
        return ADDRESS

    def sort_object(self, node):
        return INT if node.target.thing is None else node.target.thing.base

    sort_assign = sort_step = sort_object

    def sort_paren(self, node):
        return node.inner.sort

    def sort_unary(self, node):
        return INT if node.op == "!" else node.of.sort

    def sort_cast(self, node):
        return node.to

    def sort_binary(self, node):
        if node.op in ("<<", ">>"):
            return node.left.sort
        return common(node.left, node.right) if node.op in "+-*/%&^|" else INT

    def sort_choose(self, node):
        return common(node.yes, node.no)

    def sort_call(self, node):
        return node.function.gives if node.function is not None else KNOWN[node.name]


def common(one, other):
    sorts = (one.sort, other.sort)
    return ADDRESS if ADDRESS in sorts else UNSIGNED if UNSIGNED in sorts else INT


def values_of(first):
    if first is None or first.kind in ("mutex", "cond"):
        return []
    return [first.value] if first.kind == "value" else first.values


def constant(node):
    """The word of a constant expression: that of its evaluation, which has no action but Loc and passed checks of divisors."""
    walk = Walk(None, 1).value(node)
    try:
        while True:
            next(walk)
    except StopIteration as end:
        return end.value


# ---------------------------------------------------------------------------------------------------------------- threads

# What a thread does next. `of` holds, by name: Loc, HoldOn, HoldOff nothing; Input the type; Check the value and the kind; Assume the
# value; Rd the cell; Wr the cell and the value; Reset, Lock, Unlock the mutex; Park, Wake the condition and the mutex; Signal the
# condition and whom it wakes (None where nobody is chosen yet); Broadcast the condition; Create the number, the routine and the
# argument; Join the number; End whether it ends the process.
Action = collections.namedtuple("Action", "name line of", defaults=((),))


class Break(Exception):
    pass


class Continue(Exception):
    pass


class Return(Exception):
    def __init__(self, word):
        self.word = word


class Exit(Exception):
    """The end of a thread by pthread_exit."""


class Cut(Exception):
    """A loop past its bound: the thread does nothing more."""


class Walk:
    """The walk of one thread through the tree. Each method is a generator that yields actions and is sent what they find: the word of a
    cell for Rd, the value for Input. What it returns is the word of an expression."""

    def __init__(self, program, turns):
        self.program, self.turns = program, turns
        self.frame, self.handles, self.created, self.printed = {}, {}, 0, []

    def thread(self, name, argument):
        """The whole thread: that of `main`, which has no argument, or of a start routine."""
        function = self.program.functions[name]
        try:
            yield from self.body(function, [] if argument is None else [argument])
            whole = argument is None
        except Exit:
            whole = False
        except Cut:
            return
        yield Action("End", 0, (whole,))

    def body(self, function, words):
        """A function from its arguments, in a frame of its own, whose other objects are 0."""
        outer, self.frame = self.frame, {param.thing: [word] for param, word in zip(function.params, words)}
        word = 0
        try:
            yield from self.statement(function.body)
        except Return as returned:
            word = returned.word
        self.frame = outer
        return word

    # objects

    def index(self, target):
        return 0 if target.index is None else (yield from self.value(target.index))

    def check_index(self, target, place):
        if target.index is not None:
            yield Action("Check", target.line, (int(place < target.thing.length), "bounds"))

    def element(self, target):
        """Index and check in one go: the number of the element within its object."""
        place = yield from self.index(target)
        yield from self.check_index(target, place)
        return place

    def local(self, thing):
        kept = self.handles if thing.where == HANDLE else self.frame
        return kept.setdefault(thing, [0] * thing.length)

    def read(self, thing, place, line):
        if thing.where == CELL:
            return (yield Action("Rd", line, (thing.first + place,)))
        yield Action("Loc", line)
        return self.local(thing)[place]

    def write(self, thing, place, word, line):
        if thing.where == CELL:
            yield Action("Wr", line, (thing.first + place, word))
        else:
            yield Action("Loc", line)
            self.local(thing)[place] = word

    # expressions

    def value(self, node):
        return (yield from getattr(self, "value_" + node.kind)(node))

    def value_constant(self, node):
        return node.value
        yield

    def value_null(self, node):
        return 0
        yield

    def value_text(self, node):
        return 0
        yield

    def value_paren(self, node):
        return (yield from self.value(node.inner))

    def value_object(self, node):
        place = yield from self.element(node.target)
        return (yield from self.read(node.target.thing, place, node.line))

    def value_unary(self, node):
        return unary(node.op, (yield from self.value(node.of)))

    def value_cast(self, node):
        return (yield from self.value(node.of))

    def value_binary(self, node):
        left = yield from self.value(node.left)
        if node.op in ("&&", "||"):
            yield Action("Loc", node.line)
            if (left != 0) == (node.op == "||"):
                return int(left != 0)
            return int((yield from self.value(node.right)) != 0)
        right = yield from self.value(node.right)
        kind = node.left.sort if node.op in ("<<", ">>") else common(node.left, node.right)
        yield from self.check_divisor(node, right)
        return binary(node.op, kind, left, right)

    def check_divisor(self, node, word):
        if node.op in ("/", "%"):
            yield Action("Check", node.line, (word, "divzero"))

    def value_choose(self, node):
        test = yield from self.value(node.test)
        yield Action("Loc", node.line)
        return (yield from self.value(node.yes if test else node.no))

    def value_assign(self, node):
        target = node.target
        place = yield from self.index(target)
        if node.op is None:
            word = yield from self.value(node.value)
            yield from self.check_index(target, place)
        else:
            yield from self.check_index(target, place)
            old = yield from self.read(target.thing, place, node.line)
            right = yield from self.value(node.value)
            kind = target.thing.base
            if node.op not in ("<<", ">>") and node.value.sort == UNSIGNED:
                kind = UNSIGNED
            yield from self.check_divisor(node, right)
            word = binary(node.op, kind, old, right)
        yield from self.write(target.thing, place, word, node.line)
        return word

    def value_step(self, node):
        place = yield from self.element(node.target)
        old = yield from self.read(node.target.thing, place, node.line)
        new = (old + (1 if node.op == "++" else -1)) % WORD
        yield from self.write(node.target.thing, place, new, node.line)
        return new if node.before else old

    def value_call(self, node):
        if node.function is None:
            return (yield from self.known(node))
        words = []
        for arg in node.args:
            words.append((yield from self.value(arg)))
        for _ in node.function.params:
            yield Action("Loc", node.line)
        return (yield from self.body(node.function, words))

    # known names

    def known(self, node):
        """The objects that are handed over with their checks, then the other arguments, then what the name does."""
        places, words = [], []
        for arg in node.args:
            if is_object(arg):
                places.append((yield from self.element(arg.target)) + arg.target.thing.first)
        for number, arg in enumerate(node.args):
            if not is_object(arg) and not (node.name == "pthread_create" and number == 2):
                words.append((yield from self.value(arg)))
        if node.name in ("pthread_create", "pthread_join"):
            yield from getattr(self, node.name)(node, places[0], words)
        else:
            for name, of in self.deeds(node.name, places, words):
                found = yield Action(name, node.line, of)
                if name == "Input":
                    return found
        if node.name == "pthread_exit":
            raise Exit
        return 0

    def pthread_create(self, node, place, words):
        self.created += 1
        number = self.created
        yield Action("Create", node.line, (number, node.args[2].target.name, words[1]))
        yield Action("Loc", node.line)
        self.local(node.args[0].target.thing)[place] = number

    def pthread_join(self, node, place, words):
        yield Action("Loc", node.line)
        yield Action("Join", node.line, (self.local(node.args[0].target.thing)[place],))

    def deeds(self, name, places, words):
        """The actions of a known name but those of threads."""
        if name == "printf":
            self.printed += words[1:]
        return {
            "assert": lambda: [("Check", (words[0], "assert"))], "__VERIFIER_assume": lambda: [("Assume", (words[0],))],
            "abort": lambda: [("Assume", (0,))], "reach_error": lambda: [("Check", (0, "reached"))],
            "__VERIFIER_error": lambda: [("Check", (0, "reached"))], "__VERIFIER_nondet_int": lambda: [("Input", (INT,))],
            "__VERIFIER_nondet_uint": lambda: [("Input", (UNSIGNED,))], "__VERIFIER_atomic_begin": lambda: [("HoldOn", ())],
            "__VERIFIER_atomic_end": lambda: [("HoldOff", ())], "pthread_mutex_init": lambda: [("Reset", (places[0],))],
            "pthread_mutex_lock": lambda: [("Lock", (places[0],))], "pthread_mutex_unlock": lambda: [("Unlock", (places[0],))],
            "pthread_cond_wait": lambda: [("Park", tuple(places)), ("Wake", tuple(places))],
            "pthread_cond_signal": lambda: [("Signal", (places[0], None))], "pthread_cond_broadcast": lambda: [("Broadcast", (places[0],))],
        }.get(name, lambda: [])()  # fmt: skip

    # statements

    def statement(self, node):
        yield from getattr(self, "do_" + node.kind)(node)

    def do_empty(self, node):
        yield from ()

    def do_eval(self, node):
        yield from self.value(node.value)

    def do_block(self, node):
        for part in node.parts:
            yield from self.statement(part)

    def do_label(self, node):
        yield from self.statement(node.of)

    def do_declare(self, node):
        for declarator in node.of.declarators:
            values = values_of(declarator.first)
            for place in range(declarator.thing.length):
                word = 0
                if place < len(values):
                    word = yield from self.value(values[place])
                elif declarator.first is None and declarator.thing.where == LOCAL:
                    word = yield Action("Input", 0, (declarator.base,))
                yield from self.write(declarator.thing, place, word, declarator.line)

    def test(self, node):
        """A test with its branch."""
        word = yield from self.value(node)
        yield Action("Loc", node.line)
        return word != 0

    def do_if(self, node):
        if (yield from self.test(node.test)):
            yield from self.statement(node.yes)
        elif node.no is not None:
            yield from self.statement(node.no)

    def do_while(self, node):
        yield from self.loop(node.test, node.body, None)

    def do_for(self, node):
        yield from self.statement(node.first)
        yield from self.loop(node.test, node.body, node.step)

    def loop(self, test, body, step):
        for turn in itertools.count():
            if test is not None and not (yield from self.test(test)):
                return
            if turn == self.turns:
                raise Cut
            try:
                yield from self.statement(body)
            except Break:
                return
            except Continue:
                pass
            if step is not None:
                yield from self.value(step)

    def do_do(self, node):
        for turn in itertools.count():
            if turn == self.turns:
                raise Cut
            try:
                yield from self.statement(node.body)
            except Break:
                return
            except Continue:
                pass
            if not (yield from self.test(node.test)):
                return

    def do_break(self, node):
        raise Break
        yield

    def do_continue(self, node):
        raise Continue
        yield

    def do_return(self, node):
        raise Return(0 if node.value is None else (yield from self.value(node.value)))


def is_object(arg):
    """Whether an argument of a known name hands over an object: `&` of one, or a thread object."""
    return arg.kind == "address" or (arg.kind == "object" and arg.target.thing is not None and arg.target.thing.base == THREAD)


def without_loc(walk):
    """A walk that yields all its actions but Loc."""
    found = None
    try:
        while True:
            action = walk.send(found)
            found = None if action.name == "Loc" else (yield action)
    except StopIteration:
        return


# ---------------------------------------------------------------------------------------------------------------- shared state

# `waits` has for each thread the condition on which it waits, `runs` for each thread its function and argument; `main` is thread 0.
State = collections.namedtuple("State", "cells owners waits runs ended joined holder over")
GOES, BLOCKED, BREAKS = "goes", "blocked", "breaks"
HELD = {"Rd", "Wr", "Reset", "Lock", "Unlock", "Park", "Wake", "Signal", "Broadcast", "Create", "Join", "HoldOn"}


def opening(program):
    owners = (None,) * program.mutexes
    return State(tuple(program.cells), owners, (None,), (("main", None),), frozenset(), frozenset(), None, False)


def exchanged(row, place, item):
    return row[:place] + (item,) + row[place + 1 :]


def act(state, thread, action):
    """What an action of a thread does to the shared state: GOES with the new state, BLOCKED, or BREAKS with the kind."""
    made = len(state.runs) - 1
    if state.over or thread > made or thread in state.ended:
        return BLOCKED, None
    if action.name in HELD and state.holder not in (None, thread):
        return BLOCKED, None
    return globals()["act_" + action.name](state, thread, *action.of)


def act_Loc(state, thread):
    return GOES, state


def act_Input(state, thread, value):
    return GOES, state


def act_Check(state, thread, value, kind):
    return (GOES, state) if value != 0 else (BREAKS, kind)


def act_Assume(state, thread, value):
    return (GOES, state) if value != 0 else (BLOCKED, None)


def act_Rd(state, thread, cell):
    return GOES, state


def act_Wr(state, thread, cell, value):
    return GOES, state._replace(cells=exchanged(state.cells, cell, value))


def own(state, mutex, owner):
    return state._replace(owners=exchanged(state.owners, mutex, owner))


def act_Reset(state, thread, mutex):
    return GOES, own(state, mutex, None)


def act_Lock(state, thread, mutex):
    return (GOES, own(state, mutex, thread)) if state.owners[mutex] is None else (BLOCKED, None)


def act_Unlock(state, thread, mutex):
    return (GOES, own(state, mutex, None)) if state.owners[mutex] == thread else (BREAKS, "unlock")


def act_Park(state, thread, cond, mutex):
    if state.owners[mutex] != thread:
        return BREAKS, "wait"
    return GOES, own(state, mutex, None)._replace(waits=exchanged(state.waits, thread, cond))


def act_Wake(state, thread, cond, mutex):
    if state.waits[thread] is not None or state.owners[mutex] is not None:
        return BLOCKED, None
    return GOES, own(state, mutex, thread)


def act_Signal(state, thread, cond, woken):
    if woken is None:
        return (BLOCKED, None) if cond in state.waits else (GOES, state)
    if woken >= len(state.waits) or state.waits[woken] != cond:
        return BLOCKED, None
    return GOES, state._replace(waits=exchanged(state.waits, woken, None))


def act_Broadcast(state, thread, cond):
    return GOES, state._replace(waits=tuple(None if waits == cond else waits for waits in state.waits))


def act_Create(state, thread, number, routine, argument):
    if number != len(state.runs):
        return BLOCKED, None
    return GOES, state._replace(runs=state.runs + ((routine, argument),), waits=state.waits + (None,))


def act_Join(state, thread, number):
    if number == 0 or number >= len(state.runs) or number in state.joined:
        return BREAKS, "join"
    return (GOES, state._replace(joined=state.joined | {number})) if number in state.ended else (BLOCKED, None)


def act_HoldOn(state, thread):
    return GOES, state._replace(holder=thread)


def act_HoldOff(state, thread):
    return GOES, state._replace(holder=None) if state.holder == thread else state


def act_End(state, thread, whole):
    holder = None if state.holder == thread else state.holder
    return GOES, state._replace(ended=state.ended | {thread}, holder=holder, over=whole)


# ---------------------------------------------------------------------------------------------------------------- schedules

Broken = collections.namedtuple("Broken", "kind line rounds steps")
Answer = collections.namedtuple("Answer", "report index", defaults=(None,))


def rounds_of(threads):
    return 1 + sum(after < before for before, after in zip(threads, threads[1:]))


def steps_of(text):
    """The steps of a schedule text; raises Refused at the first line without a reading."""
    lines = text.split("\n")
    if lines[-1] == "":
        lines.pop()
    steps = []
    for number, line in enumerate(lines, 1):
        found = re.fullmatch(r"step (0|[1-9][0-9]*) (0|[1-9][0-9]*)", line)
        if found and int(found[1]) < WORD and int(found[2]) <= MOST:
            steps.append((int(found[1]), int(found[2])))
        elif line not in ("", "FAILED") and not line.startswith(("check ", "rounds ")):
            raise Refused(f"TEXT line {number}")
    return steps


def text_of(steps):
    return "".join(f"step {thread} {choice}\n" for thread, choice in steps)


def failed(broken):
    return f"FAILED\ncheck {broken.kind} line {broken.line}\nrounds {broken.rounds}\n{text_of(broken.steps)}"


class Replayer:
    """Follows a schedule: one walk for each thread, which stands before its next action that is not Loc."""

    def __init__(self, program, turns):
        self.program, self.turns, self.state = program, turns, opening(program)
        self.walks, self.nexts = [], []
        self.start(0)

    def start(self, thread):
        self.walks.append(without_loc(Walk(self.program, self.turns).thread(*self.state.runs[thread])))
        self.nexts.append(next(self.walks[thread], None))

    def step(self, thread, choice):
        """Whether the step goes; BREAKS with the kind and the line where it breaks, BLOCKED where no run has it."""
        action = self.nexts[thread] if thread < len(self.nexts) else None
        if action is None:
            return BLOCKED, None
        action, found = self.chosen(action, choice)
        if action is None:
            return BLOCKED, None
        verdict, state = act(self.state, thread, action)
        if verdict == BREAKS:
            return BREAKS, (state, action.line)
        if verdict == GOES:
            self.state = state
            if action.name == "Create":
                self.start(action.of[0])
            self.advance(thread, found)
        return verdict, None

    def chosen(self, action, choice):
        """The action with its choice, and what its thread finds; None where it cannot have this choice."""
        if action.name == "Input":
            return (action._replace(of=(choice,)), choice) if choice < WORD else (None, None)
        if action.name == "Signal":
            return action._replace(of=(action.of[0], choice - 1 if choice else None)), None
        found = self.state.cells[action.of[0]] if action.name == "Rd" else None
        return (action, found) if choice == 0 else (None, None)

    def advance(self, thread, found):
        try:
            self.nexts[thread] = self.walks[thread].send(found)
        except StopIteration:
            self.nexts[thread] = None


def replay(program, turns, steps):
    """The answer to a schedule, as mode replay prints it, with the kind, line and rounds of a break or the index of no run."""
    replayer = Replayer(program, turns)
    for number, (thread, choice) in enumerate(steps):
        verdict, found = replayer.step(thread, choice)
        if verdict == BLOCKED:
            return Answer(f"NOTARUN index {number}\n", number)
        if verdict == BREAKS and number + 1 < len(steps):
            return Answer(f"NOTARUN index {number + 1}\n", number + 1)
        if verdict == BREAKS:
            kind, line = found
            broken = Broken(kind, line, rounds_of([thread for thread, _ in steps]), steps)
            return Answer(f"BROKEN check {kind} line {line} events {len(steps)}\n", broken)
    return Answer(f"HOLDS events {len(steps)}\n")


def replay_text(program, turns, text):
    try:
        return replay(program, turns, steps_of(text))
    except Refused as refused:
        return Answer(f"{refused}\n")


# ---------------------------------------------------------------------------------------------------------------- exploring


class TooLarge(Exception):
    """More states than this script takes on."""


class Place:
    """Where a thread stands: behind what it found so far. Places of one thread form a tree, so a walk is made once for each."""

    def __init__(self, tree, parent, found, action, walk):
        self.tree, self.parent, self.found, self.action, self.walk, self.below = tree, parent, found, action, walk, {}

    def after(self, found):
        """The place behind this one's action, which found this."""
        if found not in self.below:
            walk, self.walk = self.walk or self.tree.walk_to(self), None
            try:
                action = walk.send(found)
            except StopIteration:
                action = None
            self.below[found] = Place(self.tree, self, found, action, walk)
        return self.below[found]


class Tree:
    """All places of the threads that run one function from one argument."""

    def __init__(self, program, turns, run, with_loc):
        self.make = lambda: start(program, turns, run, with_loc)
        walk = self.make()
        self.root = Place(self, None, None, next(walk, None), walk)

    def walk_to(self, place):
        found = []
        while place.parent is not None:
            found.append(place.found)
            place = place.parent
        walk = self.make()
        next(walk)
        for one in reversed(found):
            walk.send(one)
        return walk


def start(program, turns, run, with_loc):
    walk = Walk(program, turns).thread(*run)
    return walk if with_loc else without_loc(walk)


class Explorer:
    """The moves that a program has from a state and the places of its threads."""

    def __init__(self, program, turns, words, with_loc=False):
        self.program, self.turns, self.words, self.with_loc = program, turns, words, with_loc
        self.trees = {}

    def opening(self):
        state = opening(self.program)
        return state, (self.root(state.runs[0]),)

    def root(self, run):
        if run not in self.trees:
            self.trees[run] = Tree(self.program, self.turns, run, self.with_loc)
        return self.trees[run].root

    def offers(self, state, action, more=()):
        """The choices that an action may have, each with the action that it gives and with what the thread finds."""
        if action.name == "Input":
            return [(word, action._replace(of=(word,)), word) for word in dict.fromkeys([*self.words, *more]) if word < WORD]
        if action.name == "Signal":
            numbers = range(len(state.runs) + 2)
            return [(number, action._replace(of=(action.of[0], number - 1 if number else None)), None) for number in numbers]
        return [(0, action, state.cells[action.of[0]] if action.name == "Rd" else None)]

    def moves(self, state, places, thread, more=()):
        """The moves of a thread: choice, action, verdict, and where it leads, or the kind that it breaks."""
        if thread >= len(places) or places[thread].action is None:
            return
        for choice, action, found in self.offers(state, places[thread].action, more):
            verdict, after = act(state, thread, action)
            if verdict == BREAKS:
                yield choice, action, verdict, after
            if verdict == GOES:
                behind = exchanged(places, thread, places[thread].after(found))
                if action.name == "Create":
                    behind += (self.root(after.runs[-1]),)
                yield choice, action, verdict, (after, behind)


def explore(program, turns, rounds, words, most=150000):
    """A broken run of the least rounds, if one has at most so many; else None. Each state with the places of its threads is looked at
    once, where it is reached in the earliest round, and by the least thread in that round: from there all goes on that goes on later."""
    explorer, seen, count, best = Explorer(program, turns, words), set(), itertools.count(), None
    heap = [(1, 0, next(count), *explorer.opening(), None)]
    while heap:
        round_, last, _, state, places, link = heapq.heappop(heap)
        if best is not None and best[0] <= (round_, last):
            break
        if (state, places) in seen:
            continue
        seen.add((state, places))
        if len(seen) > most:
            raise TooLarge
        for thread in range(len(places)):
            now = round_ + (thread < last)
            if now > rounds:
                continue
            for choice, action, verdict, after in explorer.moves(state, places, thread):
                here = (link, (thread, choice))
                if verdict == GOES and after not in seen:
                    heapq.heappush(heap, (now, thread, next(count), *after, here))
                if verdict == BREAKS and (best is None or (now, thread) < best[0]):
                    best = ((now, thread), Broken(after, action.line, now, unlinked(here)))
    return best and best[1]


def unlinked(link):
    steps = []
    while link is not None:
        link, step = link
        steps.append(step)
    return steps[::-1]


def explore_plainly(program, turns, rounds, words, budget=100000):
    """The least rounds of a broken run, by running through all runs, Loc included, without a memory of states; None where there is none."""
    explorer, least, left = Explorer(program, turns, words, True), [rounds + 1], [budget]

    def run(state, places, last, now):
        left[0] -= 1
        if left[0] < 0:
            raise TooLarge
        for thread in range(len(places)):
            then = now + (thread < last)
            if then < least[0]:
                for _, _, verdict, after in explorer.moves(state, places, thread):
                    if verdict == BREAKS:
                        least[0] = min(least[0], then)
                        break
                    run(*after, thread, then)

    run(*explorer.opening(), 0, 1)
    return least[0] if least[0] <= rounds else None


def replay_plainly(program, turns, steps):
    """The answer to a schedule by a search through all runs with Loc: which states runs reach that follow its first steps."""
    explorer = Explorer(program, turns, (), True)
    reached = {explorer.opening()}
    for number, (thread, choice) in enumerate(steps):
        then, broken = set(), set()
        for state, places in with_locs(explorer, reached):
            if thread < len(places) and places[thread].action is not None and places[thread].action.name != "Loc":
                for its, action, verdict, after in explorer.moves(state, places, thread, (choice,)):
                    if its == choice:
                        (broken if verdict == BREAKS else then).add((after, action.line) if verdict == BREAKS else after)
        if not then and not broken:
            return f"NOTARUN index {number}\n"
        if broken and number + 1 == len(steps):
            ((kind, line),) = broken
            return f"BROKEN check {kind} line {line} events {len(steps)}\n"
        reached = then
    return f"HOLDS events {len(steps)}\n"


def with_locs(explorer, reached):
    """All that the Locs of any thread lead to."""
    todo, found = list(reached), set(reached)
    while todo:
        state, places = todo.pop()
        for thread, place in enumerate(places):
            if place.action is not None and place.action.name == "Loc":
                for _, _, _, after in explorer.moves(state, places, thread):
                    if after not in found:
                        found.add(after)
                        todo.append(after)
    return found


def wander(program, turns, words, random, most):
    """A schedule that some run follows, which stays with a thread for a while."""
    replayer, steps, thread = Replayer(program, turns), [], 0
    for _ in range(4 * most):
        if random.random() < 0.3 or thread >= len(replayer.nexts):
            thread = random.randrange(len(replayer.nexts))
        action = replayer.nexts[thread]
        choice = 0
        if action is not None and action.name == "Input":
            choice = random.choice([*words, random.randrange(WORD)])
        if action is not None and action.name == "Signal":
            choice = random.choice([number + 1 for number, waits in enumerate(replayer.state.waits) if waits == action.of[0]] or [0])
        verdict, _ = replayer.step(thread, choice)
        if verdict == BLOCKED:
            thread = random.randrange(len(replayer.nexts))
            continue
        steps.append((thread, choice))
        if verdict == BREAKS or len(steps) == most:
            break
    return steps


def words_of(text):
    """A few words that free values are taken from: those of the text and some at the ends."""
    found = [int(word) % WORD for word in re.findall(r"(?<![A-Za-z0-9_])[0-9]+", text) if not word.startswith("0x")]
    return list(dict.fromkeys([0, 1, *found, WORD // 2 - 1, WORD - 1]))[:8]


# ---------------------------------------------------------------------------------------------------------------- mode check of main


def unbuilt_line(program):
    """The line of the first call of pthread_create or of a free value, or of an integer declaration without initializer in a function."""

    def first(node):
        if node.kind == "call" and node.function is None and (node.name == "pthread_create" or "nondet" in node.name):
            return node.line
        if node.kind == "declarator" and node.base in (INT, UNSIGNED) and node.first is None:
            return node.line
        for part in parts_of(node):
            line = first(part)
            if line is not None:
                return line
        return None

    lines = [first(external) for external in program.externals if external.kind == "function"]
    return next((line for line in lines if line is not None), None)


def check_main(program, turns):
    """The report of mode check for a program of one thread without a free choice; of others that they are not built."""
    line = unbuilt_line(program)
    if line is not None:
        return f"NOTBUILT line {line}\n"
    replayer, steps = Replayer(program, turns), []
    while True:
        verdict, found = replayer.step(0, 0)
        if verdict == BLOCKED:
            return f"SUCCESSFUL unwind {turns} rounds 2\n"
        steps.append((0, 0))
        if verdict == BREAKS:
            return failed(Broken(*found, 1, steps))


# ---------------------------------------------------------------------------------------------------------------- rows

# Each row begins with what it shows; its program follows, where a backslash joins lines. Behind `:` stands a schedule as threads, with
# `:C` for a choice that is not 0 and `*N` for N steps of the kind, and its answer. Behind `?` stands a number of rounds with the break
# of least rounds, or `alone` with the answer of mode check to a program without threads and free choices.
ROWS = r"""
= an update is lost within an assignment
int x;
void *inc(void *arg) {
  x = x + 1;
  return NULL;
}
int main(void) {
  pthread_t a, b;
  pthread_create(&a, NULL, inc, NULL);
  pthread_create(&b, NULL, inc, NULL);
  pthread_join(a, NULL);
  pthread_join(b, NULL);
  assert(x == 2);
}
: 0 0 1 2 2 2 1 1 0 0 0 0 -> breaks assert 12
: 0 0 1 2 2 2 1 1 0*5 -> no run 12
: 0 0 1 2 2 -> holds
: 1 -> no run 0
: -> holds
: 0 0 1 1 1 2 2 2 0*5 -> holds
: 0 0 1 1 1 2 2 2 0*6 -> no run 13
: 0 0 0 -> no run 2
: 0 0 1 3 -> no run 3
: 0 0 1:1 -> no run 2
: 0 0 1 1 1 1 -> no run 5
? 2 rounds -> none breaks
? 3 rounds -> breaks assert 12 in 3
= a signal is lost
pthread_mutex_t m;
pthread_cond_t c;
void *f(void *a) {
  pthread_mutex_lock(&m);
  pthread_cond_wait(&c, &m);
  assert(0);
  return NULL; }
int main(void) { pthread_t t;
  pthread_cond_signal(&c);
  pthread_create(&t, NULL, f, NULL);
  pthread_join(t, NULL);
}
: 0 0 1 1 -> holds
: 0 0 1 1 1 -> no run 4
: 0:1 -> no run 0
: 0:2 -> no run 0
? 4 rounds -> none breaks
= a signal wakes
pthread_mutex_t m;
pthread_cond_t c;
void *f(void *a) {
  pthread_mutex_lock(&m);
  pthread_cond_wait(&c, &m);
  assert(0);
  return NULL; }
int main(void) { pthread_t t;
  pthread_create(&t, NULL, f, NULL);
  pthread_cond_signal(&c);
  pthread_join(t, NULL);
}
: 0 1 1 0:2 1 1 -> breaks assert 6
: 0 1 1 0 -> no run 3
: 0 1 1 0:1 -> no run 3
: 0 1 0 -> holds
: 0 1 0:2 -> no run 2
? 1 rounds -> none breaks
? 2 rounds -> breaks assert 6 in 2
= a joined thread is joined
void *f(void *a) { return NULL; } int main(void) { pthread_t t; pthread_create(&t, NULL, f, NULL); pthread_join(t, NULL); \
pthread_join(t, NULL); }
: 0 1 0 0 -> breaks join 1
: 0 0 -> no run 1
: 0 1 0 -> holds
? 1 rounds -> none breaks
? 2 rounds -> breaks join 1 in 2
= no thread is joined
int main(void) { pthread_t t;
 pthread_join(t, 0); }
: 0 -> breaks join 2
= another thread unlocks
pthread_mutex_t m; void *f(void *a) { pthread_mutex_unlock(&m); return NULL; } int main(void) { pthread_t t; \
pthread_mutex_lock(&m); pthread_create(&t, NULL, f, NULL); }
: 0 0 1 -> breaks unlock 1
: 0 0 0 1 -> no run 3
= a mutex is locked twice
pthread_mutex_t m; int main(void) { pthread_mutex_lock(&m); pthread_mutex_lock(&m); assert(0); }
: 0 -> holds
: 0 0 -> no run 1
? 2 rounds -> none breaks
= main returns
int x; void *f(void *a) { x = 1; assert(0); return NULL; } int main(void) { pthread_t t; pthread_create(&t, NULL, f, NULL); \
return 0; }
: 0 1 1 -> breaks assert 1
: 0 0 1 -> no run 2
: 0 1 0 1 -> no run 3
= pthread_exit in a called function of main
int x; void g(void) { pthread_exit(NULL); } void *f(void *a) { x = 1; assert(0); return NULL; } int main(void) { pthread_t t; \
pthread_create(&t, NULL, f, NULL); g(); assert(0); }
: 0 0 1 1 -> breaks assert 1
: 0 0 0 -> no run 2
= pthread_exit in a called function of a thread
int x; void g(void) { x = 1; pthread_exit((void *)x); } void *f(void *a) { g(); reach_error(); return a; } int main(void) { \
pthread_t t; pthread_create(&t, NULL, f, NULL); pthread_join(t, 0); }
: 0 1 1 1 0 0 -> holds
: 0 1 1 1 1 -> no run 4
= a loop is cut while a mutex is held
int x; pthread_mutex_t m; void *f(void *a) { pthread_mutex_lock(&m); while (1) x = 1; pthread_mutex_unlock(&m); return NULL; } \
int main(void) { pthread_t t; pthread_create(&t, NULL, f, NULL); pthread_mutex_lock(&m); }
: 0 1 1 1 -> holds
: 0 1 1 1 1 -> no run 4
: 0 1 1 1 0 -> no run 4
: 0 0 0 1 -> no run 3
: 0 0 1 -> no run 2
= an index is checked before the read of an operation
int a[4]; int i = 4; int e(void) { reach_error(); return 1; }
int main(void) { a[i]
 += e(); }
: 0 0 -> breaks bounds 2
= an index is checked behind the value
int a[4]; int i = 4; int e(void) { reach_error(); return 1; }
int main(void) { a[i]
 = e(); }
: 0 0 -> breaks reached 1
= an index is evaluated once, a value read before
int a[2], i, x = 1; int main(void) { a[i] += (i = 7); x += (x = 5);
assert(x == 6); a[i]; }
: 0*12 -> breaks bounds 2
: 0*10 -> holds
= a declaration without initializer has a value each time (3 turns)
int main(void) { int i = 0; while (i < 2) { int y; i++; assert(y != 5); } }
: 0 0 0:5 -> holds
: 0:5 0 -> breaks assert 1
: 0*5 -> holds
: 0 0 0:5 0 -> breaks assert 1
: 0:4294967296 -> no run 0
: 0:4294967295 -> holds
= an object keeps its word from turn to turn (3 turns)
int main(void) { int i = 0; while (i < 3) { int y = y; assert(y == i); y++; i++; } }
: 0 0 0 0 -> holds
= for without test, with continue (3 turns)
int x; int main(void) { for (;; x++) { if (x < 2) continue; break; }
assert(x != 2); }
: 0*9 -> breaks assert 2
= for without test is cut at its bound
int x; int main(void) { for (;; x++) { if (x < 2) continue; break; } assert(0); }
: 0*6 -> holds
: 0*7 -> no run 6
= the test stands behind the last turn too (3 turns)
int main(void) { int i = 0; while (i < 3) i = i + 1;
assert(i != 3); }
: 0 -> breaks assert 2
= the same loop with two turns
int main(void) { int i = 0; while (i < 3) i = i + 1; assert(i != 3); }
: 0 -> no run 0
: -> holds
? alone -> none breaks
= do evaluates its test behind continue
int x; int main(void) { do { continue; } while (x++ < 1); assert(0); }
: 0*5 -> breaks assert 1
= an atomic section holds others back
int x; void *f(void *a) { x = 1; return NULL; } int main(void) { pthread_t t; pthread_create(&t, NULL, f, NULL); \
__VERIFIER_atomic_begin(); x = 2; __VERIFIER_atomic_end(); x = 3; pthread_exit(0); }
: 0 0 1 -> no run 2
: 0 1 0 0 0 0 1 0 -> holds
: 0 1 0 1 0 0 0 0 -> holds
= the first end ends nested sections
int x; void *f(void *a) { x = 1; return NULL; } int main(void) { pthread_t t; pthread_create(&t, NULL, f, NULL); \
__VERIFIER_atomic_begin(); __VERIFIER_atomic_begin(); __VERIFIER_atomic_end(); x = 2; }
: 0 0 0 0 1 0 -> holds
: 0 0 0 1 -> no run 3
= an unlock is blocked and does not break while another holds
pthread_mutex_t m; void *f(void *a) { pthread_mutex_unlock(&m); return 0; } int main(void) { pthread_t t; pthread_create(&t, \
NULL, f, NULL); __VERIFIER_atomic_begin(); }
: 0 0 1 -> no run 2
: 0 1 -> breaks unlock 1
= a begin is blocked while another holds, and an end of a section that one does not hold goes
void *f(void *a) { __VERIFIER_atomic_end(); __VERIFIER_atomic_begin(); return 0; } int main(void) { pthread_t t; \
pthread_create(&t, NULL, f, NULL); __VERIFIER_atomic_begin(); pthread_exit(0); }
: 0 0 1 -> holds
: 0 0 1 1 -> no run 3
: 0 0 0 1 1 1 -> holds
= a wait without the mutex
pthread_mutex_t m; pthread_cond_t c; int main(void) {
pthread_cond_wait(&c,
&m); }
: 0 -> breaks wait 2
= a broadcast wakes all, a wake waits for the mutex
pthread_mutex_t m; pthread_cond_t c;
void *f(void *a) { pthread_mutex_lock(&m); pthread_cond_wait(&c, &m); pthread_mutex_unlock(&m); return 0; }
int main(void) { pthread_t t[2]; pthread_create(&t[0], 0, f, 0); pthread_create(&t[1], 0, f, 0); pthread_cond_broadcast(&c); }
: 0 0 0 0 1 1 2 2 0 1 1 1 2 2 2 -> holds
: 0 0 0 0 1 1 2 2 0 1 2 -> no run 10
: 0 0 0 0 1 1 0 2 2 2 -> no run 9
: 0 0 0 0 1 1 2 2 1 -> no run 8
= an init frees a mutex that another holds
pthread_mutex_t m; void *f(void *a) { pthread_mutex_init(&m, NULL); pthread_mutex_lock(&m); return 0; } int main(void) { \
pthread_t t; pthread_mutex_lock(&m); pthread_create(&t, NULL, f, NULL); pthread_mutex_unlock(&m); }
: 0 0 1 1 0 -> breaks unlock 1
: 0 0 1 0 -> breaks unlock 1
: 0 0 0 1 1 -> holds
= a value is free, within its type
int main(void) {
  int x = __VERIFIER_nondet_int();
  assert(x + 1 > x);
}
: 0:2147483647 0 -> breaks assert 3
: 0:5 0 -> holds
: 0:4294967296 -> no run 0
? 1 rounds -> breaks assert 3 in 1
? alone -> not built 2
= the index of a thread object is checked
@generated 39
: 0*5 1*17 2*17 0*5 -> breaks assert 41
: 0 0 0 0 1*17 2*17 0*6 -> breaks assert 41
: 0 0 0 0 1*17 2*16 3 -> no run 37
: 0*6 -> no run 5
? 1 rounds -> none breaks
? 2 rounds -> breaks assert 41 in 2
= objects of a wait are checked in order
pthread_mutex_t m[2]; pthread_cond_t c[2]; int i = 2; int main(void) { pthread_cond_wait(&c[i - 1], &m[i]); }
: 0 0 0 0 -> breaks bounds 1
= the object of a create is checked before its argument
pthread_t t[1]; int e(void) { reach_error(); return 0; }
void *f(void *a) { return a; } int main(void) { pthread_create(&t[1], 0, f, (void *)e()); }
: 0 -> breaks bounds 2
= a division evaluates both operands and then checks
int z; int e(void) { z = 0; return z; }
int main(void) { return 1 / e() + (z = 1); }
: 0 0 0 -> breaks divzero 2
= the value of an end without value is 0
int f(int a) { a; } int main(void) { assert(f(1)); }
: 0 -> breaks assert 1
= locals are 0 in each call anew
int f(int a) { int z = z + a; return z; }
int main(void) { assert(f(1) == 1); assert(f(1) == 1); }
: 0 0 0 -> holds
= the argument of a thread
void *f(void *a) { assert((int)a != -1); return a; } int main(void) { pthread_t t; pthread_create(&t, 0, f, (void *)-1); }
: 0 1 -> breaks assert 1
= arrays of functions
int main(void) { int a[3] = { 7, }; int b[2]; assert(a[1] + a[2] == 0 && a[0] == 7); assert(b[1] != 4); }
: 0 0 -> holds
: 0 0:4 0*6 -> breaks assert 1
: 0*9 -> holds
: 0 0 0:1 -> no run 2
= operators and grouping
int x; int main(void) {
  assert(65536u * 65536u == 0u);
  assert(!(-1 < 1u));
  assert((-2147483647 - 1) / -1 == -2147483647 - 1);
  assert(-7 / 2 == -3 && -7 % 2 == -1);
  assert(-8 >> 1 == -4 && 1 << 33 == 2);
  assert(7 - 3 - 2 == 2);
  if (1) if (0) x = 1; else x = 2;
  assert(x == 2);
}
: 0*13 -> holds
: 0*14 -> no run 13
= values of truth and kinds
int x = -7, y = -8; int main(void) {
 assert((2 && 4) == 1 && (0 || 7) == 1 && !5 == 0);
 assert(-1 / 2u == 2147483647u && (1 ? -1 : 1u) / 2 == 2147483647);
 x /= 2u;
 assert(x == 2147483644);
 y >>= 1u;
 assert(y == -4 && 4294967288u >> 1 == 2147483644u);
 assert((-2147483647 - 1) % -1 == 0 && 1 - 2u > 0 && 010 == 8 && '\n' == 10);
 assert(0xFFFFFFFF > 0 && ~0 < 0 && -0x80000000 == 2147483648u && (unsigned)-1 > 1);
 assert(0); }
: 0*17 -> breaks assert 10
: 0*16 -> holds
= an element is set before the next one's value
int main(void) { int a[2] = { 5, a[0] };
assert(a[1] != 5); }
: 0 0 0 -> breaks assert 2
= turns are counted for each entry
int main(void) { int i = 0; while (i < 2) { int j = 0; while (j < 2) j++; i++; } assert(0); }
: 0 -> breaks assert 1
= break leaves one loop and no step follows (1 turn)
int main(void) { int i = 0; for (;; i = 9) { while (1) break; break; } assert(i); }
: 0 -> breaks assert 1
= a division begins with its left operand
int z; int main(void) { return
1
/ z; }
: 0 0 -> breaks divzero 2
= an operation on an element checks, reads, evaluates, checks the divisor
int a[1], z; int main(void) { a[0]
%= z; }
: 0 0 0 0 -> breaks divzero 1
: 0 0 0 -> holds
= a create within the argument of a create comes first
void *f(void *a) { assert(0);
return a; } void *g(void *a) { return a; }
int main(void) { pthread_t t, u; pthread_create(&t, 0, g, (void *)pthread_create(&u, 0, f, 0)); pthread_join(u, 0); }
: 0 1 -> breaks assert 1
: 0 0 2 0 -> no run 3
= a signal wakes any one
pthread_mutex_t m;
pthread_cond_t c;
void *f(void *a) {
  pthread_mutex_lock(&m);
  pthread_cond_wait(&c, &m);
  assert(0);
  return NULL; }
int main(void) { pthread_t t;
  pthread_create(&t, NULL, f, NULL); pthread_create(&t, NULL, f, NULL);
 pthread_cond_signal(&c);
  pthread_join(t, NULL);
}
: 0 0 1 1 2 2 0:3 2 2 -> breaks assert 6
: 0 0 1 1 2 2 0:2 1 1 -> breaks assert 6
: 0 0 1 1 2 2 0:3 1 -> no run 7
: 0 0 1 1 2 2 0 -> no run 6
: 0 0 1 1 2 2 0:1 -> no run 6
: 0 0 1 1 2 2 0:4 -> no run 6
: 0 0 1 1 2 2 0:4294967299 -> no run 6
: 0 0 1 1 2 2 0:3 0 -> no run 7
= a thread object without thread after a declaration that is reached again
void *f(void *a) { return 0; } int main(void) { int i = 0; while (i < 2) { pthread_t t; if (i) pthread_join(t, 0); i++; \
pthread_create(&t, NULL, f, NULL); } }
: 0 1 0 -> breaks join 1
= an end of a thread ends its section
int x; void *f(void *a) { __VERIFIER_atomic_begin(); return 0; } int main(void) { pthread_t t; pthread_create(&t, NULL, f, \
NULL); x = 1; }
: 0 1 0 -> no run 2
: 0 1 1 0 -> holds
: 0 1 1 1 -> no run 3
= main may end while another holds the section
int x; void *f(void *a) { __VERIFIER_atomic_begin(); x = 1; return 0; } int main(void) { pthread_t t; pthread_create(&t, NULL, \
f, NULL); }
: 0 1 0 -> holds
: 0 1 0 1 -> no run 3
= a create and a join are blocked while another holds
void *f(void *a) { __VERIFIER_atomic_begin(); __VERIFIER_atomic_end(); return 0; } int main(void) { pthread_t t; \
pthread_create(&t, NULL, f, NULL); pthread_create(&t, 0, f, 0); pthread_join(t, 0); }
: 0 1 0 -> no run 2
: 0 1 1 0 2 1 0 -> no run 6
: 0 0 1 2 -> no run 3
: 0 0 1 1 1 2 2 2 0 0 -> holds
= a step in front has the line of its mark
int a[1], i = 1; int main(void) { ++
a[
i]; }
: 0 0 -> breaks bounds 2
= a write before a failed assumption counts
int x;
void *f(void *a) {
  x = 1;
  __VERIFIER_assume(0);
  return NULL;
}
int main(void) {
  pthread_t t;
  pthread_create(&t, NULL, f, NULL);
  assert(x == 0);
}
? 1 rounds -> none breaks
? 2 rounds -> breaks assert 10 in 2
= a switch behind a write
int x;
void *f(void *a) { x = 1; assert(x == 1); return NULL; }
void *g(void *a) { x = 0; return NULL; }
int main(void) {
  pthread_t t, u;
  pthread_create(&t, NULL, f, NULL);
  pthread_create(&u, NULL, g, NULL);
  pthread_join(t, NULL);
}
? 1 rounds -> none breaks
? 2 rounds -> breaks assert 2 in 2
? alone -> not built 6
= threads are numbered by creation
int x;
void *a(void *p) { x = 1; return NULL; }
void *b(void *p) { return NULL; }
void *d(void *p) { assert(x == 0); return NULL; }
int main(void) {
  pthread_t t, u;
  int c = __VERIFIER_nondet_int();
  if (c == 7) pthread_create(&t, NULL, a, NULL);
  else pthread_create(&t, NULL, b, NULL);
  pthread_create(&u, NULL, d, NULL);
  pthread_join(u, NULL);
}
? 1 rounds -> breaks assert 4 in 1
= a free object
int main(void) { int x; assert(x != 5); }
? 1 rounds -> breaks assert 1 in 1
= four loops that never end (5 turns)
int main(void) { while (1) while (1) while (1) while (1) ; }
? 2 rounds -> none breaks
= an unlock
pthread_mutex_t m; int main(void) { pthread_mutex_unlock(&m); }
? 1 rounds -> breaks unlock 1 in 1
= an index
int a[4]; int main(void) { a[4] = 1; }
? 1 rounds -> breaks bounds 1 in 1
= a divisor
int z; int main(void) { return 1 / z; }
? 1 rounds -> breaks divzero 1 in 1
= an error
int main(void) { reach_error(); }
? 1 rounds -> breaks reached 1 in 1
= the text of seed 0
@generated 0
? 2 rounds -> none breaks
= a bounded buffer
extern void abort(void);
#include <pthread.h>
#define SIZE 2 // places in the buffer
void reach_error() { assert(0); }
extern int __VERIFIER_nondet_int(void);
void __VERIFIER_assert(int cond) { if (!(cond)) { ERROR: { reach_error(); abort(); } } return; }
int buffer[SIZE], count, in, out, first, got;
pthread_mutex_t m = PTHREAD_MUTEX_INITIALIZER;
pthread_cond_t not_full = PTHREAD_COND_INITIALIZER, not_empty = PTHREAD_COND_INITIALIZER;
void *producer(void *arg) {
  pthread_mutex_lock(&m);
  while (count == SIZE) pthread_cond_wait(&not_full, &m);
  buffer[in] = first; in = in + 1; if (in == SIZE) in = 0; count++;
  pthread_cond_signal(&not_empty);
  pthread_mutex_unlock(&m);
  return NULL; }
void *consumer(void *arg) {
  pthread_mutex_lock(&m);
  while (count == 0) pthread_cond_wait(&not_empty, &m);
  got = buffer[out]; out = out + 1; count--;
  pthread_cond_signal(&not_full);
  pthread_mutex_unlock(&m);
  return NULL; }
int main(void) { pthread_t p, q; first = __VERIFIER_nondet_int();
  pthread_create(&p, 0, producer, 0); pthread_create(&q, 0, consumer, 0);
  pthread_join(p, 0); pthread_join(q, 0);
  __VERIFIER_assert(got == first); }
? 3 rounds -> none breaks
= an order of xor
void *f(void *a) { unsigned x = __VERIFIER_nondet_uint(); unsigned y = __VERIFIER_nondet_uint(); assert((x ^ y) == (y ^ x)); \
return NULL; } int main(void) { pthread_t t; pthread_create(&t, NULL, f, NULL); }
? 1 rounds -> none breaks
= an empty main
int main(void){}
? alone -> none breaks
= a loop with three turns (3 turns)
int main(void) { int i = 0; while (i < 3) i = i + 1; assert(i != 3); }
? alone -> breaks assert 1 in 1
= a function that is never called counts
void g(void) {
 int y; }
int main(void) { }
? alone -> not built 2
"""
# schedule texts for `int main(void) { }`
TEXTS = [
    ("step 0 0", "HOLDS events 1"), ("\n\nstep 0 0\n\n", "HOLDS events 1"), ("check \nFAILED\nrounds x\nstep 0 0\n", "HOLDS events 1"),
    ("", "HOLDS events 0"), ("check", "TEXT line 1"), ("step 0 0\r\n", "TEXT line 1"), ("step 00 0\n", "TEXT line 1"),
    ("step 0  0\n", "TEXT line 1"), (" step 0 0\n", "TEXT line 1"), ("step 0 0 \n", "TEXT line 1"), ("step 0\n", "TEXT line 1"),
    ("step 4294967296 0\n", "TEXT line 1"), ("step 4294967295 18446744073709551615\n", "NOTARUN index 0"),
    ("step 0 18446744073709551616\n", "TEXT line 1"), ("step 0 0\nFAILED \n", "TEXT line 2"), ("step 0 +0\n", "TEXT line 1"),
    ("\n\n\nStep 0 0\n", "TEXT line 4"), ("step 0 0\nstep 0 0\n", "NOTARUN index 1"), ("step 0 0\nstep 0 0\nx", "TEXT line 3"),
]  # fmt: skip
# what a thread does while another may hold the section, whether that holds it back, and its choice, or what breaks where none holds it
SHARED = [
    ("x;", True, 0), ("x = 1;", True, 0), ("pthread_mutex_init(&m, 0);", True, 0), ("pthread_mutex_lock(&m);", True, 0),
    ("pthread_mutex_unlock(&m);", True, "unlock"), ("pthread_cond_wait(&c, &m);", True, "wait"), ("pthread_cond_signal(&c);", True, 0),
    ("pthread_cond_broadcast(&c);", True, 0), ("__VERIFIER_atomic_begin();", True, 0), ("__VERIFIER_atomic_end();", False, 0),
    ("assert(1);", False, 0), ("__VERIFIER_assume(1);", False, 0), ("__VERIFIER_nondet_int();", False, 9), ("", False, 0),
]  # fmt: skip
BESIDE = """int x; pthread_mutex_t m; pthread_cond_t c; void *f(void *a) {{ {} return NULL; }}
int main(void) {{ pthread_t t; pthread_create(&t, NULL, f, NULL); __VERIFIER_atomic_begin(); pthread_exit(NULL); }}
"""
# what stands around an increment, so that none of two is lost
AROUND = [
    ("a mutex", "pthread_mutex_lock(&m);", "pthread_mutex_unlock(&m);"),
    ("an atomic section", "__VERIFIER_atomic_begin();", "__VERIFIER_atomic_end();"),
]
INCREMENTS = """pthread_mutex_t m; int x; void *inc(void *arg) {{ {} x = x + 1; {} return NULL; }}
int main(void) {{
  pthread_t a, b;
  pthread_create(&a, NULL, inc, NULL);
  pthread_create(&b, NULL, inc, NULL);
  pthread_join(a, NULL);
  pthread_join(b, NULL);
  assert(x == 2);
}}
"""


def generated(seed):
    """The source that mode gen makes of a seed."""
    workers, blocks, wrong = 2 + seed % 3, 4 + seed // 3 % 13, seed // 39 % 2
    adds = {(j, b): (7 * seed + 13 * j + 5 * b) % 100 for j in range(1, workers + 1) for b in range(1, blocks + 1)}
    lines = ["#include <pthread.h>", "#include <assert.h>", "pthread_mutex_t m = PTHREAD_MUTEX_INITIALIZER;", "unsigned int total;"]
    for j in range(1, workers + 1):
        lines += [f"void *worker{j}(void *arg) {{"]
        for b in range(1, blocks + 1):
            lines += ["  pthread_mutex_lock(&m);", f"  total = total + {adds[j, b]}u;", "  pthread_mutex_unlock(&m);"]
        lines += ["  return NULL;", "}"]
    lines += ["int main(void) {", f"  pthread_t t[{workers}];"]
    lines += [f"  pthread_create(&t[{j - 1}], NULL, worker{j}, NULL);" for j in range(1, workers + 1)]
    lines += [f"  pthread_join(t[{j - 1}], NULL);" for j in range(1, workers + 1)]
    lines += [f"  assert(total == {sum(adds.values()) + wrong}u);", "  return 0;", "}"]
    return "\n".join(lines) + "\n"


class Row:
    """A program with schedules and verdicts that were worked out."""

    def __init__(self, shows, turns, text, schedules, verdicts):
        self.shows, self.turns, self.text, self.schedules, self.verdicts = shows, turns, text, schedules, verdicts


def rows():
    """The rows above, and those of SHARED and AROUND."""
    made = []
    for line in ROWS.replace("\\\n", "").strip("\n").split("\n"):
        if line.startswith("= "):
            turns = re.search(r" \(([0-9]+) turns?\)$", line)
            made.append(Row(line[2:], int(turns[1]) if turns else 2, "", [], []))
        elif line.startswith(": "):
            schedule, answer = line[1:].split("-> ")
            steps = [step for word in schedule.split() for step in steps_of_word(word)]
            made[-1].schedules.append((steps, answer_of(answer, len(steps))))
        elif line.startswith("? "):
            made[-1].verdicts.append(tuple(line[2:].split(" -> ")))
        else:
            made[-1].text += generated(int(line.split()[1])) if line.startswith("@") else line + "\n"
    for body, held, choice in SHARED:
        steps = [(0, 0), (1, choice if isinstance(choice, int) else 0)]
        free = holds(2) if isinstance(choice, int) else f"BROKEN check {choice} line 1 events 2\n"
        behind = [*steps[:1], *steps], no_run(2) if held else holds(3)
        made.append(Row(f"beside a section: {body or 'the end'}", 2, BESIDE.format(body), [(steps, free), behind], []))
    for shows, before, after in AROUND:
        made.append(Row(f"{shows} keeps an increment", 2, INCREMENTS.format(before, after), [], [("4 rounds", "none breaks")]))
    return made


def steps_of_word(word):
    thread, choice, count = re.fullmatch(r"([0-9]+)(?::([0-9]+))?(?:\*([0-9]+))?", word).groups()
    return [(int(thread), int(choice or 0))] * int(count or 1)


def answer_of(words, events):
    """The report of a row's answer to a schedule."""
    name, *numbers = words.split()
    if name == "no":
        return no_run(int(numbers[1]))
    return holds(events) if name == "holds" else f"BROKEN check {numbers[0]} line {numbers[1]} events {events}\n"


def holds(events):
    return f"HOLDS events {events}\n"


def no_run(index):
    return f"NOTARUN index {index}\n"


def verdict(row, bounds):
    """The verdict on a row's program, in the words of the rows."""
    program = Program(row.text)
    if bounds == "alone":
        report = check_main(program, row.turns).split()
        if report[0] == "FAILED":
            return f"breaks {report[2]} {report[4]} in {report[6]}"
        return f"not built {report[2]}" if report[0] == "NOTBUILT" else "none breaks"
    broken = explore(program, row.turns, int(bounds.split()[0]), words_of(row.text))
    return f"breaks {broken.kind} {broken.line} in {broken.rounds}" if broken else "none breaks"


def compared_rows():
    """Whether each row has its answers; told where one has not."""
    compared = []
    for row in rows():
        program = Program(row.text)
        for steps, expected in row.schedules:
            compared.append((row.shows, steps, expected, replay(program, row.turns, steps).report))
            compared.append((row.shows + " (plain search)", steps, expected, replay_plainly(program, row.turns, steps)))
        for bounds, expected in row.verdicts:
            compared.append((row.shows, bounds, expected, verdict(row, bounds)))
    for text, expected in TEXTS:
        compared.append(("texts of schedules", text, expected + "\n", replay_text(Program("int main(void) { }"), 2, text).report))
    wrong = [of for of in compared if of[2] != of[3]]
    for shows, of, expected, got in wrong:
        print(f"row '{shows}', {of!r}: {expected!r} was worked out, {got!r} is found")
    print(f"rows: {len(compared) - len(wrong)} of {len(compared)} answers agree")
    return not wrong


# ---------------------------------------------------------------------------------------------------------------- random programs

COMPARISONS, SUMS, OTHERS = ["<", ">", "<=", ">=", "==", "!="], ["+", "-", "*", "&", "|", "^"], ["<<", ">>", "&&", "||"]
ASSIGNS = ["+=", "-=", "*=", "&=", "|=", "^=", "<<=", ">>="]
OBJECTS = ["x", "y", "u", "a[0]", "a[1]", "b[0]", "b[1]", "b[2]"]
GLOBALS = "int x, y = 1;\nunsigned u = 4294967294u;\nint a[2], b[3] = { 1, 2, };\npthread_mutex_t m, k[2];\npthread_cond_t c, d[2];\n"


class Maker:
    """A random accepted program. `threads` is the number of start routines; without threads and free values (`plain`) mode check is
    built for it; `defined` leaves out what C99 leaves undefined, for gcc."""

    def __init__(self, random, threads, plain=False, defined=False):
        self.random, self.threads, self.plain, self.defined = random, threads, plain, defined
        self.count, self.loops, self.gives, self.section = 0, 0, None, 0
        self.scopes, self.functions = [["x", "y", "u"]], []
        self.meets = threads > 0 and self.chance(0.4)  # whether threads wait for each other on `c` with `m`

    def program(self):
        parts = [GLOBALS]
        for _ in range(self.random.randrange(3)):
            parts.append(self.function())
        parts += [self.routine(number) for number in range(1, self.threads + 1)]
        if self.threads and self.random.random() < 0.2:
            parts.append("pthread_t t[2];\nvoid spawn(int i, int v) { pthread_create(&t[i], 0, w1, (void *)v); }\n")
        parts.append(self.main("spawn" in parts[-1]))
        return self.spread("".join(parts))

    def spread(self, text):
        """Some blanks become newlines, so that the lines of actions differ."""
        return re.sub(" ", lambda _: "\n" if self.random.random() < 0.05 else " ", text)

    def chance(self, share):
        return self.random.random() < share

    def one(self, *of):
        return self.random.choice(of)

    def name(self):
        self.count += 1
        return f"v{self.count}"

    # functions

    def inside(self, names, make):
        """What `make` writes in a scope of its own."""
        self.scopes.append(list(names))
        made = make()
        self.scopes.pop()
        return made

    def function(self):
        gives = self.one("int", "int", "unsigned", "void")
        name, params = f"f{len(self.functions)}", [self.name() for _ in range(self.random.randrange(3))]
        self.gives = gives
        ending = "" if gives == "void" or self.chance(0.2) and not self.defined else "return {};"
        body = self.inside(params, lambda: self.statements(1, 2) + ending.format(self.value(1)))
        self.functions.append((name, gives, len(params)))
        return f"{gives} {name}({', '.join(f'{self.one(*INTS)} {param}' for param in params) or 'void'}) {{ {body} }}\n"

    def routine(self, number):
        self.gives = "void *"
        body = self.inside([], lambda: self.meeting() + self.statements(0, 1) if self.meets else self.statements(1, 4))
        back = self.one("return NULL;", "return p;", "pthread_exit(NULL);", "return (void *)x;")
        return f"void *w{number}(void *p) {{ {body}{back} }}\n"

    def meeting(self):
        """A wait, or what ends one, under the mutex."""
        if self.chance(0.6):
            waits = self.one("", "while (x == 0) ", "if (y) ") + "pthread_cond_wait(&c, &m);"
            return f"pthread_mutex_lock(&m); {waits} {self.write_assigned(0)} pthread_mutex_unlock(&m); "
        wakes = f"pthread_cond_{self.one('signal', 'signal', 'broadcast')}(&c); "
        return self.one(f"pthread_mutex_lock(&m); x = 1; {wakes}pthread_mutex_unlock(&m); ", f"x = 2; {wakes}", wakes + wakes)

    def main(self, spawns):
        self.gives = "int"
        body = self.inside([], lambda: self.creating(spawns) if self.threads else self.statements(3, 7) + self.last())
        return f"int main(void) {{ {body} }}\n"

    def creating(self, spawns):
        """The body of a `main` that creates one to three threads and joins some."""
        made = self.random.randint(1, 3 if self.threads > 2 and not spawns else 2)
        parts = ["" if spawns else f"pthread_t t[{made}]; "]
        if self.chance(0.1):
            parts.append(f"for (int i = 0; i < {made}; i++) pthread_create(&t[i], NULL, w1, (void *)i); ")
        else:
            for number in range(made):
                parts.append(self.statements(0, 1) + (f"spawn({number}, {self.value(0)}); " if spawns else self.create(number)))
        parts.append(self.meeting() * self.random.randint(1, 2) if self.meets else self.statements(0, 2))
        for number in range(made):
            if self.chance(0.6):
                parts.append(f"pthread_join(t[{number if self.chance(0.85) else self.one(0, made)}], NULL); ")
        return "".join(parts) + self.last()

    def create(self, number):
        routine, value = f"w{self.random.randrange(1, self.threads + 1)}", self.one("NULL", "0", "(void *)1", "(void *)x")
        return f"pthread_create(&t[{number}], {self.one('NULL', '0')}, {routine}, {value}); "

    def last(self):
        if self.defined:
            return self.one("", "return 0;")
        checks = [f"assert({one} {self.one(*COMPARISONS)} {other});" for one, other in ((self.value(1), self.value(0)), ("x", "y"))]
        return self.one(*checks, "return 0;", "", "pthread_exit(NULL);")

    # statements

    def statements(self, least, most):
        return "".join(self.statement(2) + " " for _ in range(self.random.randint(least, most)))

    def statement(self, depth, alone=False):
        """A statement, or a few in a row where it need not stand alone."""
        kinds = ["assigned"] * 6 + ["called", "step"]
        if not alone:
            kinds += ["declared"] * 2
        if depth:
            kinds += ["chosen"] * 2 + ["loop"] * 2 + ["block"]
        if self.loops:
            kinds += ["leave"] * 2
        if not self.defined:
            kinds += ["ended", "asserted"] + ["checked"] * 2
        if self.threads and not alone:
            kinds += ["locked"] * 5 + ["waited"] * 3 + ["signalled"] * 3 + ["atomic"] * 3 + ["odd"] * 2
        return getattr(self, "write_" + self.one(*kinds))(depth)

    def body(self, depth):
        """The part of a statement that stands there without a block."""
        bare = not self.defined and self.chance(0.1)
        return self.inside([], lambda: f"int {self.name()} = {self.value(1)};" if bare else self.statement(depth - 1, True))

    def block(self, depth, most=2):
        return self.inside([], lambda: "{ " + "".join(self.statement(depth - 1) + " " for _ in range(self.random.randint(0, most))) + "}")

    def write_assigned(self, depth):
        op = "=" if self.chance(0.6) else self.one(*ASSIGNS)
        value = self.value(1 if self.threads else 2)
        if self.defined and op in ("<<=", ">>="):
            value = f"({value} & 31)"
        return f"{self.target()} {op} {value};"

    def write_step(self, depth):
        return self.stepped() + ";"

    def write_declared(self, depth):
        base, name = self.one(*INTS), self.name()
        if self.chance(0.1) and "x" not in self.scopes[-1]:
            name = "x"
        value = self.value(1)
        self.scopes[-1].append(name)
        if not self.plain and not self.defined and self.chance(0.3):
            return f"{base} {name};"
        if self.chance(0.1) and not self.defined:
            return f"{base} {name} = {name};"
        if self.chance(0.15):
            array = self.name()
            return f"int {name} = {value}, {array}[3] = {{ {self.value(0)}, {name} }}; {name} = {array}[{self.one(0, 1, 2)}];"
        return f"{base} {name} = {value};"

    def write_asserted(self, depth):
        return f"assert({self.value(1)} {self.one('!=', '!=', '<', '==')} {self.value(0)});"

    def write_called(self, depth):
        return self.call() + ";" if self.functions else ";"

    def write_chosen(self, depth):
        if self.chance(0.5):
            return f"if ({self.value(1)}) {self.block(depth)} else {self.body(depth)}"
        return f"if ({self.value(1)}) {self.block(depth) if self.chance(0.7) else self.body(depth)}"

    def write_block(self, depth):
        return self.one("", f"{self.name()}: ") + self.block(depth)

    def write_loop(self, depth):
        if self.defined:
            return self.bounded_loop(depth)
        self.loops += 1
        test, kind = self.value(1), self.one("while", "while", "do", "for", "for")
        body = self.block(depth) if self.chance(0.8) else self.body(depth)
        self.loops -= 1
        if kind == "while":
            return f"while ({test}) {body}"
        if kind == "do":
            return f"do {body} while ({test});"
        first = self.one(";", f"int {self.name()} = 0;", f"{self.target()} = {self.value(0)};")
        return f"for ({first} {self.one('', test, test)}; {self.one('', self.stepped(), self.target() + ' = ' + self.value(0))}) {body}"

    def bounded_loop(self, depth):
        name = self.name()
        body = self.block(depth)
        turns = self.one(0, 1, 2, 3)
        return self.one(
            f"for (int {name} = 0; {name} < {turns}; {name}++) {body}", f"{{ int {name} = {turns}; while ({name}--) {body} }}",
            f"{{ int {name} = {turns}; do {body} while (--{name} > 0); }}",
            f"for (int {name} = 0; ; {name} += 1) {{ if ({name} >= {turns}) break; if ({self.value(0)}) continue; {body} }}")  # fmt: skip

    def write_leave(self, depth):
        leave = self.one("break;", "continue;")
        return leave if self.chance(0.3) else f"if ({self.value(0)}) {leave}"

    def write_ended(self, depth):
        if self.chance(0.4):
            return f"__VERIFIER_assume({self.value(1)});"
        back = {"void": "return;", "void *": "return (void *)1;"}.get(self.gives, f"return {self.value(0)};")
        end = self.one(back, back, "pthread_exit(NULL);", "abort();", "reach_error();", "__VERIFIER_error();")
        return f"if ({self.value(1)} {self.one(*COMPARISONS)} {self.value(0)}) {end}"

    def write_checked(self, depth):
        return self.one(
            f"{self.target()} = {self.value(0)} {self.one('/', '%')} {self.value(0)};", f"{self.target()} /= {self.value(0)};",
            f"a[{self.value(0)}] {self.one('=', '+=', '%=')} {self.value(0)};", f"b[{self.value(1)}]++;",
            f'printf("%d\\n", {self.value(1)}, b[{self.value(0)}]);')  # fmt: skip

    # threads

    def mutex(self):
        return self.one("m", "m", "m", "m", "m", "k[0]", "k[1]", f"k[{self.one('x', 'y', 1)}]" if self.chance(0.3) else "m")

    def cond(self):
        return self.one("c", "c", "c", "d[0]", f"d[{self.one('x', 'y', 1)}]" if self.chance(0.3) else "c")

    def write_locked(self, depth):
        mutex = self.mutex()
        inner = "".join(self.statement(min(depth, 1)) + " " for _ in range(self.random.randint(1, 2))) if depth else self.write_assigned(0)
        return f"pthread_mutex_lock(&{mutex}); {inner}pthread_mutex_unlock(&{mutex});"

    def write_waited(self, depth):
        mutex, cond = self.mutex(), self.cond()
        head = self.one("", f"while ({self.value(0)}) ", f"if ({self.value(0)} == {self.value(0)}) ")
        return f"pthread_mutex_lock(&{mutex}); {head}pthread_cond_wait(&{cond}, &{mutex}); pthread_mutex_unlock(&{mutex});"

    def write_signalled(self, depth):
        return f"pthread_cond_{self.one('signal', 'signal', 'broadcast')}(&{self.cond()});"

    def write_atomic(self, depth):
        return f"__VERIFIER_atomic_begin(); {self.write_assigned(0)} {self.one('', self.write_assigned(0))} __VERIFIER_atomic_end();"

    def write_odd(self, depth):
        """One call alone, which mostly stands in a wrong place."""
        return self.one(
            f"pthread_mutex_unlock(&{self.mutex()});", f"pthread_mutex_lock(&{self.mutex()});",
            f"pthread_mutex_init(&{self.mutex()}, NULL);", f"pthread_mutex_destroy(&{self.mutex()});",
            f"pthread_cond_wait(&{self.cond()}, &{self.mutex()});", f"x = pthread_mutex_lock(&{self.mutex()});",
            f"pthread_cond_init(&{self.cond()}, 0);", f"pthread_cond_destroy(&{self.cond()});", "__VERIFIER_atomic_begin();",
            "__VERIFIER_atomic_end();", f"y += pthread_cond_signal(&{self.cond()}) + 1;")  # fmt: skip

    # expressions

    def scalar(self):
        return self.one(*[name for scope in self.scopes for name in scope], "x", "y")

    def target(self):
        return self.scalar() if self.chance(0.75) else self.element()

    def element(self):
        return self.one("a[0]", "a[1]", "b[2]", "b[1]", *([] if self.defined else [f"a[{self.scalar()}]", "b[y]"]))

    def stepped(self):
        return self.one("{}++", "{}--", "++{}", "--{}").format(self.target())

    def call(self):
        name, gives, params = self.one(*self.functions)
        return f"{name}({', '.join(self.value(0) for _ in range(params))})"

    def value(self, depth):
        if depth <= 0 or self.chance(0.35):
            odd = self.one("7", "-1", "4294967295u", "'a'", "010", "0x80000000")
            return self.one("0", "1", "2", "3", odd, self.scalar(), self.scalar(), self.scalar(), self.element())
        one, other = self.value(depth - 1), self.value(depth - 1)
        kinds = ["sum"] * 4 + ["comparison"] * 3 + ["other"] * 2 + ["unary"] * 2 + ["choice", "cast"]
        if not self.defined:
            kinds += ["assign", "step", "step"]
        if any(gives != "void" for _, gives, _ in self.functions) and not self.defined:
            kinds.append("call")
        if not self.plain and not self.defined:
            kinds.append("free")
        return getattr(self, "value_" + self.one(*kinds))(one, other)

    def value_sum(self, one, other):
        return f"({one} {self.one(*SUMS)} {other})"

    def value_comparison(self, one, other):
        return f"({one} {self.one(*COMPARISONS)} {other})"

    def value_other(self, one, other):
        op = self.one(*OTHERS, *(["/", "%"] if self.defined else []))
        if self.defined and op in ("<<", ">>", "/", "%"):
            other = f"({other} & 31)" if op in ("<<", ">>") else f"(({other} & 7) + 1)"
        return f"({one} {op} {other})"

    def value_unary(self, one, other):
        return f"({self.one('-', '~', '!', '+')} {one})"

    def value_choice(self, one, other):
        return f"({one} ? {other} : {self.scalar()})"

    def value_cast(self, one, other):
        return f"({self.one('int', 'unsigned', 'unsigned int')}){one}"

    def value_assign(self, one, other):
        return f"({self.target()} {self.one('=', '+=', '^=')} {one})"

    def value_step(self, one, other):
        return f"({self.stepped()})"

    def value_call(self, one, other):
        name, _, params = self.one(*[function for function in self.functions if function[1] != "void"])
        return f"{name}({', '.join([one, other][:params])})"

    def value_free(self, one, other):
        return self.one("__VERIFIER_nondet_int()", "__VERIFIER_nondet_uint()")


INTS = ["int", "int", "unsigned"]


def mutated(random, steps, threads):
    """A schedule that differs in one place, or ends there with another step."""
    steps = list(steps)
    kind = random.choice(["thread", "choice", "out", "double", "exchange", "more", "far", "end", "end", "end"])
    if not steps:
        return [(random.randrange(threads + 1), 0)]
    at = random.randrange(len(steps))
    if kind == "end":
        return [*steps[:at], (random.randrange(threads), random.choice([0, 0, 1, 2, 3]))]
    thread, choice = steps[at]
    if kind == "thread":
        steps[at] = (random.randrange(threads + 1), choice)
    elif kind == "choice":
        steps[at] = (thread, random.choice([0, 1, 2, 3, choice + 1, WORD - 1, WORD, WORD + choice, MOST]))
    elif kind == "out":
        del steps[at]
    elif kind == "double":
        steps.insert(at, steps[at])
    elif kind == "exchange" and at:
        steps[at - 1], steps[at] = steps[at], steps[at - 1]
    elif kind == "far":
        steps[at] = (random.choice([WORD - 1, 17, 16]), choice)
    else:
        steps.append((random.randrange(threads + 1), 0))
    return steps


# ---------------------------------------------------------------------------------------------------------------- comparing


class Case:
    """A random program with its bounds, what the explorer finds, and schedules that break, hold, or were changed."""

    def __init__(self, random, most_rounds=3):
        self.random = random
        self.text = Maker(random, random.choice([1, 2, 2, 2, 3])).program()
        self.program, self.turns, self.rounds = Program(self.text), random.choice([1, 2, 2, 3]), random.randint(1, most_rounds)
        self.words = random.sample(words_of(self.text), 2)
        try:
            self.broken = explore(self.program, self.turns, self.rounds, self.words, 20000)
            self.known = True
        except TooLarge:
            self.broken, self.known = None, False

    def schedules(self):
        found = [self.broken.steps] if self.broken else []
        found += [wander(self.program, self.turns, self.words, self.random, self.random.choice([5, 20, 60])) for _ in range(3)]
        threads = 1 + max((thread for steps in found for thread, _ in steps), default=0)
        return found + [mutated(self.random, steps, threads) for steps in found for _ in range(3)]


def differs(about, case, expected, got, text=None):
    print(f"{about}: {expected!r} is expected, {got!r} is found; turns {case.turns}")
    print(case.text + ("" if text is None else text), flush=True)
    return 1


def self_compared(random, programs):
    """The explorer, the replayer and the plain searches against each other on random programs; the number of differences."""
    wrong, tally = 0, collections.Counter()
    for _ in range(programs):
        case = Case(random)
        tally["verdict: " + ("too large" if not case.known else case.broken.kind if case.broken else "none breaks")] += 1
        if case.broken:
            wrong += self_broken(case)
        wrong += self_least(case, tally)
        for steps in case.schedules():
            answer, plain = replay(case.program, case.turns, steps).report, replay_plainly(case.program, case.turns, steps)
            tally["answer: " + (" ".join(answer.split()[:3]) if answer[0] == "B" else answer.split()[0])] += 1
            if answer != plain:
                wrong += differs("plain search", case, plain, answer, text_of(steps))
    for name, count in sorted(tally.items()):
        print(f"{count:7} {name}")
    print(f"{programs} random programs, {wrong} differences")
    return wrong


def self_broken(case):
    """Whether the schedule of a broken run breaks in the replayer with its kind, line and rounds, and each front of it holds."""
    broken, wrong = case.broken, 0
    answer = replay(case.program, case.turns, broken.steps)
    if answer.index != broken:
        wrong += differs("replay of a broken run", case, broken, answer, text_of(broken.steps))
    for length in range(len(broken.steps)):
        got = replay(case.program, case.turns, broken.steps[:length]).report
        if got != holds(length):
            wrong += differs("front of a broken run", case, holds(length), got, text_of(broken.steps[:length]))
    more = [*broken.steps, broken.steps[-1]]
    if replay(case.program, case.turns, more).report != no_run(len(broken.steps)):
        wrong += differs("a step behind a break", case, no_run(len(broken.steps)), replay(case.program, case.turns, more).report)
    return wrong


def self_least(case, tally):
    """Whether running through all runs with Loc has the same least rounds, where these are few enough."""
    if not case.known:
        return 0
    try:
        least = explore_plainly(case.program, case.turns, min(case.rounds, 2), case.words, 4000)
    except TooLarge:
        tally["all runs: too many"] += 1
        return 0
    tally["all runs: run through"] += 1
    found = case.broken.rounds if case.broken and case.broken.rounds <= 2 else None
    return differs("all runs", case, least, found) if found != least else 0


def behind(text, statements):
    """A program whose `main` does what the given one's does, and then these statements."""
    return re.sub(r"main(?=\s*\(void\))", "body", text) + f"int main(void) {{ body(); {statements} }}\n"


def watched(random, text, turns):
    """A program of one thread that also asserts what all objects hold at its end, mostly the truth."""
    replayer, text = Replayer(Program(behind(text, "")), turns), behind(text, "")
    while replayer.step(0, 0)[0] == GOES:
        pass
    cells = list(replayer.state.cells)
    if random.random() < 0.5:
        cells[random.randrange(8)] ^= 1
    return text[:-3] + f"assert({' && '.join(f'{name} == {word}u' for name, word in zip(OBJECTS, cells))}); }}\n"


def gcc_compared(random, programs):
    """Programs of one thread without undefined behaviour against gcc: all that is at file scope at the end."""
    wrong = 0
    with tempfile.TemporaryDirectory() as directory:
        for number in range(programs):
            prints = f'printf("{" ".join(["%u"] * 8)}", {", ".join(OBJECTS)}); return 0;'
            text = behind(Maker(random, 0, True, True).program(), prints)
            expected = printed(Program(text))
            path = os.path.join(directory, "a.c")
            with open(path, "w") as file:
                file.write("#include <pthread.h>\n#include <stdio.h>\n" + text)
            built = subprocess.run(["gcc", "-w", "-fwrapv", "-pthread", "-o", path[:-2], path], capture_output=True, text=True)
            got = subprocess.run([path[:-2]], capture_output=True, text=True).stdout if built.returncode == 0 else built.stderr
            if got != expected:
                wrong += 1
                print(f"gcc prints {got!r}, expected is {expected!r}\n{text}", flush=True)
    print(f"{programs} programs compared with gcc, {wrong} differences")
    return wrong


def printed(program):
    """What the calls of printf print, where the text is a row of `%u`."""
    walk = Walk(program, 1000)
    actions, found = walk.thread("main", None), None
    state = opening(program)
    try:
        while True:
            action = actions.send(found)
            found = state.cells[action.of[0]] if action.name == "Rd" else None
            _, state = act(state, 0, action) if action.name != "Check" else (GOES, state)
    except StopIteration:
        return " ".join(map(str, walk.printed))


class Command:
    """The command that is compared, in a directory for its files."""

    def __init__(self, program, directory, keep):
        self.program, self.directory, self.keep, self.kept = program, directory, keep, 0

    def file(self, name, text):
        path = os.path.join(self.directory, name)
        with open(path, "w", newline="") as file:
            file.write(text)
        return path

    def run(self, *words):
        done = subprocess.run([self.program, *words], capture_output=True, text=True, timeout=600)
        return done.returncode, done.stdout

    def replay(self, case, schedule):
        source, name = self.file("a.c", case.text), self.file("s", schedule)
        return self.run("--mode", "replay", "--unwind", str(case.turns), "--schedule", name, source)

    def differs(self, about, case, expected, got, schedule=None):
        if self.keep:
            self.kept += 1
            os.makedirs(self.keep, exist_ok=True)
            for name, text in (("c", case.text), ("schedule", schedule)):
                if text is not None:
                    with open(os.path.join(self.keep, f"{self.kept}.{name}"), "w") as file:
                        file.write(text)
        return differs(about, case, expected, got, schedule)


STATUS = {"H": 0, "S": 0, "B": 1, "F": 1, "N": 9, "T": 10}
Written = collections.namedtuple("Written", "text turns")


def command_rows(command):
    """The rows worked out by hand, in the program."""
    wrong = 0
    listed = [(row, text_of(steps), expected) for row in rows() for steps, expected in row.schedules]
    listed += [(Written("int main(void) { }", 2), text, expected + "\n") for text, expected in TEXTS]
    for case, schedule, expected in listed:
        got = command.replay(case, schedule)
        if got != (STATUS[expected[0]], expected):
            wrong += command.differs("row", case, expected, got, schedule)
    return wrong


def command_replays(command, random, programs, tally):
    """Random programs and schedules in mode replay."""
    wrong = 0
    for _ in range(programs):
        case = Case(random)
        for steps in case.schedules():
            schedule = text_of(steps)
            expected = replay(case.program, case.turns, steps).report
            got = command.replay(case, schedule)
            tally[f"replay: {expected.split()[0]}"] += 1
            if got != (STATUS[expected[0]], expected):
                wrong += command.differs("replay", case, expected, got, schedule)
    return wrong


def command_mains(command, random, programs, tally):
    """Random programs of one thread in mode check."""
    wrong = 0
    cases = [row for row in rows() if any(bounds == "alone" for bounds, _ in row.verdicts)]
    for _ in range(programs):
        text, turns = Maker(random, 0, random.random() < 0.9, random.random() < 0.5).program(), random.choice([1, 2, 2, 3, 3, 10])
        cases.append(Written(watched(random, text, turns), turns))
    for case in cases:
        expected = check_main(Program(case.text), case.turns)
        status = 12 if expected.startswith("NOTBUILT") else STATUS[expected[0]]
        got = command.run("--unwind", str(case.turns), command.file("a.c", case.text))
        tally[f"check of main: {' '.join(expected.split()[: 3 if status == 1 else 1])}"] += 1
        if got != (status, expected):
            wrong += command.differs("check of main", case, expected, got)
    return wrong


def command_checks(command, random, programs, tally):
    """Random programs with threads in mode check, for the verdict."""
    wrong = 0
    for _ in range(programs):
        case = Case(random)
        if case.known:
            got = command.run("--unwind", str(case.turns), "--rounds", str(case.rounds), command.file("a.c", case.text))
            expected = failed(case.broken) if case.broken else f"SUCCESSFUL unwind {case.turns} rounds {case.rounds}\n"
            tally[f"check: {got[1].split()[0]}, here {expected.split()[0]}"] += 1
            if not fits(case, *got):
                wrong += command.differs("check", case, expected, got)
    return wrong


def fits(case, status, report):
    """Whether a verdict of the program is right as far as the explorer can tell."""
    if status == 2:
        return re.fullmatch(r"UNKNOWN conflicts [0-9]+\n", report) is not None
    if status == 0:
        return case.broken is None and report == f"SUCCESSFUL unwind {case.turns} rounds {case.rounds}\n"
    found = re.match(r"FAILED\ncheck ([a-z]+) line ([0-9]+)\nrounds ([0-9]+)\n", report)
    if status != 1 or not found:
        return False
    broken = replay(case.program, case.turns, steps_of(report)).index
    same = isinstance(broken, Broken) and broken[:3] == (found[1], int(found[2]), int(found[3])) and broken.rounds <= case.rounds
    return same and report == failed(broken)


def main():
    parser = argparse.ArgumentParser(description="see the top of the file")
    parser.add_argument("program", nargs="?")
    for option in ("--self", "--gcc"):
        parser.add_argument(option, action="store_true")
    parser.add_argument("--check", metavar="FILE")
    parser.add_argument("--replay", nargs=2, metavar=("SCHEDULE", "FILE"))
    for option, plain in (("--seed", 1), ("--programs", 300), ("--unwind", 2), ("--rounds", 2)):
        parser.add_argument(option, type=int, default=plain)
    parser.add_argument("--only", choices=["replay", "main", "check"])
    parser.add_argument("--keep")
    asked = parser.parse_args()
    sys.setrecursionlimit(20000)
    chosen = random.Random(asked.seed)
    if asked.check:
        text = open(asked.check).read()
        broken = explore(Program(text), asked.unwind, asked.rounds, words_of(text))
        print(failed(broken) if broken else f"SUCCESSFUL unwind {asked.unwind} rounds {asked.rounds}\n", end="")
        return 0
    if asked.replay:
        schedule, file = (open(name).read() for name in asked.replay)
        print(replay_text(Program(file), asked.unwind, schedule).report, end="")
        return 0
    if not compared_rows():
        return 1
    if asked.self:
        return int(self_compared(chosen, asked.programs) > 0)
    if asked.gcc:
        return int(gcc_compared(chosen, asked.programs) > 0)
    if not asked.program:
        parser.error("the path of the program is missing, or --self, --gcc, --check or --replay")
    return int(command_compared(asked, chosen) > 0)


def command_compared(asked, chosen):
    wrong, tally = 0, collections.Counter()
    with tempfile.TemporaryDirectory() as directory:
        command = Command(os.path.abspath(asked.program), directory, asked.keep)
        if asked.only in (None, "replay"):
            wrong += command_rows(command) + command_replays(command, chosen, asked.programs, tally)
        if asked.only in (None, "main"):
            wrong += command_mains(command, chosen, asked.programs, tally)
        if asked.only == "check":
            wrong += command_checks(command, chosen, asked.programs, tally)
    for name, count in sorted(tally.items()):
        print(f"{count:7} {name}")
    print(f"{wrong} differences")
    return wrong


if __name__ == "__main__":
    sys.exit(main())
