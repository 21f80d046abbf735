#!/usr/bin/env python3
"""Makes random trees of the whole grammar, prints them, reads them back with the product's reader, and compares the trees.
Run it from the top of the repository, after (cd crates/lz_show && rt run): bench/trees_read_back.py [SEED [TREES]]

A tree is made with all kinds of nodes and parts, within the conditions of docs/LANGUAGE.md: operands as tight as their operator wants
them, or in parentheses, which are nodes; no `if` without an `else` before an `else`; now and then of a height up to the limit of 200.
Its tokens are written twice, each time with other spellings of its constants and with random white space, comments, directives, words
without a token, and names that directives define in place of constants, or with no more blanks than keep the tokens apart. The program
of crates/lz_show reads each text and prints the tree that it found, every node with its names, numbers and line. That has to be the
script's own text of the tree, with the line of each node's first token; so the two differ in lines alone, which is looked at too. Each
tree of height 201 has to be refused at one of its tokens. Ends with status 1 and both texts at the first difference."""

import collections
import os
import random
import re
import subprocess
import sys
import tempfile

TOP = os.path.dirname(os.path.dirname(os.path.abspath(__file__)))
PROGRAM = os.path.join(TOP, "crates", "lz_show", "out", "lz_show")
LIMIT = 200

# ---- trees: a node has parts in the order of their printed form; a part is a node, a word or a number, or `-` for what is left out

LINED = set(
    """constant null text address paren unary cast binary choose assign step call target objects declarator param if while do for break
    continue return prototype function""".split()
)
LEVELS = ["* / %", "+ -", "<< >>", "< > <= >=", "== !=", "&", "^", "|", "&&", "||"]
LOOSENESS = {op: level for level, ops in enumerate(LEVELS, 1) for op in ops.split()}
CHOICE, ASSIGNMENT = 11, 12
ASSIGNING = "= * / % + - << >> & ^ |".split()
LONG_TYPES = [head + tail for head in ("short", "long", "long long") for tail in ("", " int")]
CAST_TYPES = ["int", "signed", "signed int", "unsigned", "unsigned int", "_Bool", "char", "signed char", "unsigned char", "void *"]
CAST_TYPES += LONG_TYPES + ["unsigned " + words for words in LONG_TYPES]
TYPES = CAST_TYPES + ["void", "pthread_t", "pthread_mutex_t", "pthread_cond_t"]
NAMES = "x y main assert _ __ _z9 If intx u L ll x0 define include defined voidx NULLx pthread_join reach_error a_rather_long_name".split()
ESCAPES = {10: "n", 9: "t", 13: "r", 0: "0", 7: "a", 8: "b", 12: "f", 11: "v", 92: "\\", 39: "'", 34: '"'}
EDGES = [0, 1, 7, 8, 9, 10, 34, 39, 48, 65, 92, 126, 127, 255, 2**31 - 1, 2**31, 2**32 - 1, 2**32, 2**63, 2**64 - 1]


class Node:
    def __init__(self, kind, *parts):
        self.kind, self.parts, self.first = kind, parts, None  # first: the number of its first token


def height(part):
    """As docs/LANGUAGE.md counts: an index is part of its node, a declaration and a declarator are none."""
    if not isinstance(part, Node):
        return 0
    highest = max(map(height, part.parts), default=0)
    return highest + (part.kind not in ("target", "objects", "declarator", "global", "prototype", "function", "params", "param"))


class Maker:
    """Random trees. Each function is told the height that there is room for, and whether the tree has to have it (`high`)."""

    def __init__(self, rng):
        self.rng = rng
        self.names = NAMES + ["v" + "".join(rng.choices("abcXYZ_019", k=rng.randrange(1, 9))) for _ in range(6)]

    def rooms(self, room, count, high):
        """The room of each of so many parts, and which has to be high."""
        if room == 0 or count == 0:
            return [(0, False)] * count
        most = min(room, 3) if high else room
        rooms = [(max(self.rng.randint(1, most), self.rng.randint(1, most)), False) for _ in range(count)]
        if high:
            rooms[self.rng.randrange(count)] = (room, True)
        return rooms

    def may(self, chance):
        return self.rng.random() < chance

    def name(self):
        return self.rng.choice(self.names)

    def constant(self):
        rng = self.rng
        way = rng.randrange(3)
        value = rng.choice(EDGES) if self.may(0.5) else rng.getrandbits(rng.randrange(1, 65))
        if way == 0:  # a character
            value = rng.choice([*ESCAPES, *range(32, 127)])
            return Node("constant", value, "decimal", "signed", 0)
        form = "other" if way == 1 or value == 0 else "decimal"
        return Node("constant", value, form, rng.choice(["unsigned", "signed"]), rng.randrange(3))

    def target(self, room, high):
        index = room > 0 and (high or self.may(0.4))
        return Node("target", self.name(), *([self.expression(room, ASSIGNMENT, high)] if index else []))

    def expression(self, room, loosest, high=False):
        rng, room = self.rng, room - 1
        kinds = ["object", "address", "step", "call"]
        kinds += ["constant", "constant", "null", "text"] if not high else []
        kinds += ["paren", "unary", "cast", "choose", "assign"] * 2 + ["binary"] * 6 if room else []
        kind, op = rng.choice(kinds), rng.choice(rng.choice(LEVELS).split())
        if {"binary": LOOSENESS[op], "choose": CHOICE, "assign": ASSIGNMENT}.get(kind, 0) > loosest:
            kind = "paren"
        [(first, is_high)] = self.rooms(room, 1, high)
        if kind == "constant":
            return self.constant()
        if kind in ("null", "text"):
            return Node(kind)
        if kind in ("object", "address"):
            return Node(kind, self.target(first, is_high))
        if kind == "step":
            return Node(kind, rng.choice(["up", "down"]), rng.choice(["before", "behind"]), self.target(first, is_high))
        if kind == "call":
            rooms = self.rooms(room, rng.randint(1 if high else 0, 3) if room else 0, high)
            return Node(kind, self.name(), *[self.expression(r, ASSIGNMENT, h) for r, h in rooms])
        if kind == "paren":
            return Node(kind, self.expression(first, ASSIGNMENT, is_high))
        if kind == "unary":
            return Node(kind, rng.choice("+-~!"), self.expression(first, 0, is_high))
        if kind == "cast":
            return Node(kind, rng.choice(CAST_TYPES), self.expression(first, 0, is_high))
        if kind == "binary":
            (r, h), (s, g) = self.rooms(room, 2, high)
            return Node(kind, op, self.expression(r, LOOSENESS[op], h), self.expression(s, LOOSENESS[op] - 1, g))
        if kind == "choose":
            (r, h), (s, g), (t, f) = self.rooms(room, 3, high)
            test, yes = self.expression(r, CHOICE - 1, h), self.expression(s, ASSIGNMENT, g)
            return Node(kind, test, yes, self.expression(t, CHOICE, f))
        (r, h), (s, g) = self.rooms(room, 2, high)
        return Node("assign", rng.choice(ASSIGNING), self.target(r, h), self.expression(s, ASSIGNMENT, g))

    def optional(self, room, loosest, high=False):
        return self.expression(room, loosest, high) if room and (high or self.may(0.5)) else "-"

    def initializer(self, room, high):
        way = self.rng.randrange(5)
        if room and (high or way < 2):
            if room == 1 or way % 2:
                return self.expression(room, ASSIGNMENT, high)
            values = [self.expression(r, ASSIGNMENT, h) for r, h in self.rooms(room - 1, self.rng.randint(1, 3), high)]
            return Node("list", self.rng.choice(["comma", "-"]), *values)
        return ["-", "mutex", "cond"][way % 3]

    def objects(self, room, high):
        """A declaration, whose expressions have the room."""
        made = []
        for r, h in self.rooms(room, self.rng.randint(1, 3), high):
            (s, g), (t, f) = self.rooms(r, 2, h)
            made.append(Node("declarator", self.name(), self.optional(s, CHOICE, g), self.initializer(t, f)))
        return Node("objects", self.rng.choice(TYPES), *made)

    def statement(self, room, closed=False, high=False):
        """A statement, which ends in no `if` without `else` where it has to be closed."""
        rng, room = self.rng, room - 1
        kinds = ["block", "declare", "return", *(["empty", "break", "continue"] if not high else [])]
        kinds += ["eval", "eval", "eval", "if", "if", "if", "while", "do", "for", "label", "label", "block"] if room else []
        kind = rng.choice(kinds)
        [(first, is_high)] = self.rooms(room, 1, high)
        if kind in ("empty", "break", "continue"):
            return Node(kind)
        if kind == "eval":
            return Node(kind, self.expression(first, ASSIGNMENT, is_high))
        if kind == "block":
            return self.block(room + 1, high)
        if kind == "declare":
            return Node(kind, self.objects(first, is_high))
        if kind == "return":
            return Node(kind, self.optional(first, ASSIGNMENT, is_high))
        if kind == "label":
            return Node(kind, self.name(), self.statement(first, closed, is_high))
        if kind == "if":
            (r, h), (s, g), (t, f) = self.rooms(room, 3, high)
            alone = not closed and not f and self.may(0.5)
            test, yes = self.expression(r, ASSIGNMENT, h), self.statement(s, not alone, g)
            return Node(kind, test, yes, "-" if alone else self.statement(t, closed, f))
        if kind == "for":
            return self.for_loop(room, closed, high)
        (r, h), (s, g) = self.rooms(room, 2, high)
        test, body = self.expression(r, ASSIGNMENT, h), self.statement(s, closed and kind == "while", g)
        return Node(kind, test, body) if kind == "while" else Node(kind, body, test)

    def for_loop(self, room, closed, high):
        (r, h), (s, g), (t, f), (u, e) = self.rooms(room, 4, high)
        way = self.rng.randrange(3)
        if way == 0 and not h:
            first = Node("empty")
        elif way == 1 and r > 1:
            first = Node("eval", self.expression(r - 1, ASSIGNMENT, h))
        else:
            first = Node("declare", self.objects(r - 1, h))
        test, step = self.optional(s, ASSIGNMENT, g), self.optional(t, ASSIGNMENT, f)
        return Node("for", first, test, step, self.statement(u, closed, e))

    def block(self, room, high):
        rooms = self.rooms(room - 1, self.rng.randint(1 if high else 0, 6) if room > 1 else 0, high)
        return Node("block", *[self.statement(r, False, h) for r, h in rooms])

    def params(self, all_named):
        rng = self.rng
        count = rng.choice([0, 0, 1, 1, 2, 3])
        params = [Node("param", rng.choice(TYPES), self.name() if all_named or self.may(0.5) else "-") for _ in range(count)]
        if len(params) == 1 and params[0].parts == ("void", "-"):
            params = []
        return Node("params", "void" if not params and self.may(0.5) else "-", *params)

    def external(self, room, high):
        rng, hidden = self.rng, self.rng.choice(["static", "-"])
        way = rng.randrange(4)
        if way == 0:
            return Node("global", hidden, self.objects(room, high))
        if way == 1 and not high:
            return Node("prototype", rng.choice(["static", "extern", "-"]), rng.choice(TYPES), self.name(), self.params(False))
        return Node("function", hidden, rng.choice(TYPES), self.name(), self.params(True), self.block(room, high))

    def program(self, highest):
        """External declarations of small height, and one of this height where it is told."""
        made = [self.external(self.rng.randint(1, 10), False) for _ in range(self.rng.randint(1, 4))]
        if highest:
            made[self.rng.randrange(len(made))] = self.external(highest, True)
        return made


# ---- tokens: pairs of what a token is and its words, or the constant's node


def spell(part, row):
    """Adds the tokens of a tree, and notes in each node the number of its first one."""
    if part == "-":
        return
    part.first = len(row)

    def add(*parts):
        for each in parts:
            if isinstance(each, Node):
                spell(each, row)
            elif each != "-":
                row.extend(("word", word) for word in each.split())

    def name(text):
        row.append(("name", text))

    def listed(items):
        for number, item in enumerate(items):
            add(", " if number else "-", item)

    p = part.parts
    match part.kind:
        case "constant":
            row.append(("constant", part))
        case "null":
            add("NULL")
        case "text":
            row.append(("text", ""))
        case "object" | "declare":
            add(p[0])
        case "address":
            add("&", p[0])
        case "target":
            name(p[0])
            for index in p[1:]:
                add("[", index, "]")
        case "paren":
            add("(", p[0], ")")
        case "unary":
            row.append(("word", p[0]))
            add(p[1])
        case "cast":
            add("( " + p[0] + " )", p[1])
        case "binary":
            add(p[1])
            row.append(("word", p[0]))
            add(p[2])
        case "choose":
            add(p[0], "?", p[1], ":", p[2])
        case "assign":
            add(p[1], p[0].replace("=", "") + "=", p[2])
        case "step":
            sign = "++" if p[0] == "up" else "--"
            add(*[sign, p[2]] if p[1] == "before" else [p[2], sign])
        case "call":
            name(p[0])
            add("(")
            listed(p[1:])
            add(")")
        case "list":
            add("= {")
            listed(p[1:])
            add(", }" if p[0] == "comma" else "}")
        case "declarator":
            name(p[0])
            if p[1] != "-":
                add("[", p[1], "]")
            if p[2] in ("mutex", "cond"):
                add(f"= PTHREAD_{p[2].upper()}_INITIALIZER")
            else:
                add("=" if isinstance(p[2], Node) and p[2].kind != "list" else "-", p[2])
        case "objects":
            add(p[0])
            listed(p[1:])
            add(";")
        case "empty" | "break" | "continue":
            add("-" if part.kind == "empty" else part.kind, ";")
        case "eval":
            add(p[0], ";")
        case "block":
            add("{", *p, "}")
        case "if":
            add("if (", p[0], ")", p[1])
            if p[2] != "-":
                add("else", p[2])
        case "while":
            add("while (", p[0], ")", p[1])
        case "do":
            add("do", p[0], "while (", p[1], ") ;")
        case "for":
            add("for (", p[0], p[1], ";", p[2], ")", p[3])
        case "return":
            add("return", p[0], ";")
        case "label":
            name(p[0])
            add(":", p[1])
        case "param":
            add(p[0])
            if p[1] != "-":
                name(p[1])
        case "params":
            add("(", p[0])
            listed(p[1:])
            add(")")
        case "global":
            add(*p)
        case "prototype" | "function":
            add(p[0], p[1])
            name(p[2])
            add(p[3], p[4] if part.kind == "function" else ";")


def shown(part, lines):
    """The text of a tree, as the program prints it."""
    if not isinstance(part, Node):
        return " " + str(part).replace(" ", "_")
    line = f" {lines[part.first]}" if part.kind in LINED else ""
    return f" ({part.kind}{line}" + "".join(shown(each, lines) for each in part.parts) + ")"


def wanted(tree, row, lines):
    names = dict.fromkeys(text for kind, text in row if kind == "name")
    return " names" + "".join(" " + name for name in names) + "\n" + "".join(shown(each, lines) + "\n" for each in tree)


# ---- bytes

MARKS = "( ) { } [ ] ; , : ? = += -= *= /= %= &= |= ^= <<= >>= || && | ^ & == != < > <= >= << >> + - * / % ! ~ ++ --".split()
MARKS = [mark.encode() for mark in MARKS]
LONGER = MARKS + [b"//", b"/*"]
WORD_BYTES = b"abcdefghijklmnopqrstuvwxyzABCDEFGHIJKLMNOPQRSTUVWXYZ0123456789_"
ANY_BYTES = bytes(range(10)) + bytes(range(11, 256)) + b"\\\\\\**//##\"\"'' \t" * 9


class Printer:
    """Writes a row of tokens. How much stands between two of them is one chance for a whole text."""

    def __init__(self, rng):
        self.rng = rng
        self.made, self.line, self.fresh, self.last = [], 1, True, b""
        self.lines, self.defined = [], {}
        self.chance = rng.choice([0, 0, 0.1, 0.3, 0.6])
        self.replaced = rng.choice([0, 0.3]) if self.chance else 0

    def put(self, piece):
        """Adds a piece, behind a blank where it would else be one with the last piece."""
        word = self.last != b"" and self.last[-1] in WORD_BYTES and piece[0] in WORD_BYTES
        mark = self.last in MARKS and any(longer.startswith(self.last + piece[:1]) for longer in LONGER)
        if word or mark:
            self.made.append(b" ")
        self.made.append(piece)
        self.line += piece.count(b"\n")
        self.fresh = piece == b"\n" or (self.fresh and piece in (b" ", b"\t"))
        self.last = piece

    def some(self, choices, most, least=0):
        return b"".join(self.rng.choice(choices) for _ in range(self.rng.randint(least, most)))

    def any_bytes(self):
        return bytes(self.rng.choices(ANY_BYTES, k=self.rng.randrange(12)))

    def comment(self):
        return b"/*" + (self.any_bytes() + b"*").replace(b"*/", b"* /") + b"/"

    def blanks(self, least=0):
        return self.some([b" ", b"\t"], 2, least)

    def tail(self):
        """What may stand behind a directive that defines a name."""
        return self.blanks() + self.rng.choice([b"", b"", self.comment() + self.blanks(), b"//" + self.any_bytes()])

    def directive(self, content):
        if not self.fresh:
            self.put(b"\n")
        for blank in self.blanks():
            self.put(bytes([blank]))
        self.put(b"#" + self.blanks() + content)

    def define(self, row):
        """Defines a name that stands for the tokens, and gives it."""
        name = b"D_%d" % len(self.defined)
        content = b"".join(self.blanks(not number) + self.word_of(each) for number, each in enumerate(row))
        self.directive(b"define" + self.blanks(1) + name + content + self.tail())
        self.put(b"\n")
        self.defined[name] = [written(each) for each in row]
        return name

    def filler(self):
        """Something that gives no token."""
        way = self.rng.randrange(12)
        if way < 6:
            self.put(self.rng.choice([b" ", b"\t", b"\n", b"\n", b"\r", b"\v", b"\f"]))
        elif way == 6:
            self.put(self.comment().replace(b"#", self.rng.choice([b"#", b"\n#"])))
        elif way == 7:
            self.put(b"//" + self.any_bytes())
            self.put(b"\n")
        elif way == 8:
            self.put(self.rng.choice([b"const", b"volatile", b"inline", b"register"]))
        elif way == 9:
            self.directive(b"include" + self.any_bytes())
            self.put(b"\n")
        elif way == 10:
            self.define(self.rng.choice([[], [("constant", Node("constant", 7, "decimal", "signed", 0))]]))
        else:
            self.put(self.rng.choice([name for name, row in self.defined.items() if not row] or [b" "]))

    def gap(self):
        while self.rng.random() < self.chance:
            self.filler()

    def constant(self, value, form, sign, longs):
        rng = self.rng
        suffix = rng.choice(["u", "U"] if sign == "unsigned" else [""]), rng.choice(["l", "L"]) * longs
        end = "".join(rng.sample(suffix, 2))
        if form == "other":
            made = "0" * rng.randint(value > 0, 3) + f"{value:o}"
            if rng.randrange(2):
                digits = "0" * rng.choice([0, 0, 0, 30]) + f"{value:x}"
                made = rng.choice(["0x", "0X"]) + "".join(rng.choice([digit, digit.upper()]) for digit in digits)
            return (made + end).encode()
        plain = chr(value) if 32 <= value <= 126 and value not in (39, 92) else None
        ways = [str(value) + end] if value else []
        if not end:
            ways += [f"'{plain}'"] if plain else []
            ways += [f"'\\{ESCAPES[value]}'"] if value in ESCAPES else []
        return rng.choice(ways).encode()

    def word_of(self, token):
        kind, what = token
        if kind == "constant":
            return self.constant(*what.parts)
        if kind == "text":
            return b'"' + self.some([b"a", b"'", b"/*", b"//", b"#", b"\\\\", b'\\"', b"\\0", b"\t", b"\xff", b"%d"], 4) + b'"'
        return what.encode()

    def replaceable(self, row, at):
        """How many tokens from here on a defined name may stand for: a constant, `-` before it or not, in parentheses or not."""
        marks = "".join("c" if kind == "constant" else what if what in ("(", "-", ")") else "." for kind, what in row[at : at + 4])
        found = re.match(r"\(-?c\)|-?c", marks)
        return found.end() if found and self.rng.random() < self.replaced else 0

    def text(self, row):
        at = 0
        while at < len(row):
            self.gap()
            count = self.replaceable(row, at)
            if count:
                tokens = row[at : at + count]
                same = [name for name, body in self.defined.items() if body == [written(each) for each in tokens]]
                word = same[0] if same and self.rng.randrange(2) else self.define(tokens)
            else:
                count, word = 1, self.word_of(row[at])
            self.put(word)
            self.lines += [self.line] * count
            at += count
        self.gap()
        self.made.append(self.rng.choice([b"", b"", b"\n", b" //", b" /**/", b"\n#include", b"\n #define D_"]))
        return b"".join(self.made), self.lines


def written(token):
    return token[1].parts if token[0] == "constant" else token[1]


# ---- the comparison


def answer(content, folder):
    path = os.path.join(folder, "a.c")
    with open(path, "wb") as file:
        file.write(content)
    run = subprocess.run([PROGRAM, path], stdout=subprocess.PIPE, check=False)
    return run.stdout.decode() if run.returncode == 0 else f"status {run.returncode}"


def without_lines(text):
    return re.sub(r"\((" + "|".join(sorted(LINED)) + r") [0-9]+", r"(\1", text)


def tokens_of(tree):
    row = []
    for each in tree:
        spell(each, row)
    return row


def differs(content, right, found):
    print("DIFFERS", content, "WANTED", right, "FOUND", found, sep="\n")
    sys.exit(1)


def count_kinds(part, counts):
    if isinstance(part, Node):
        counts[part.kind] += 1
        for each in part.parts:
            count_kinds(each, counts)


def main():
    if not os.access(PROGRAM, os.X_OK):
        sys.exit("build the program first: (cd crates/lz_show && rt run)")
    seed = int(sys.argv[1]) if len(sys.argv) > 1 else 1
    trees = int(sys.argv[2]) if len(sys.argv) > 2 else 3000
    rng = random.Random(seed)
    counts, tokens, limits, refused = collections.Counter(), 0, 0, 0
    with tempfile.TemporaryDirectory() as folder:
        for number in range(trees):
            high = {0: LIMIT, 1: rng.randint(11, LIMIT), 2: LIMIT + 1}.get(number % 20, 0)
            tree = Maker(rng).program(high)
            top = max(map(height, tree))
            assert not high or top == high, (top, high)
            row = tokens_of(tree)
            answers = []
            for _ in range(2):
                content, lines = Printer(rng).text(row)
                found = answer(content, folder)
                answers.append(without_lines(found))
                if high <= LIMIT:
                    right = wanted(tree, row, lines)
                    if found != right:
                        differs(content, right, found)
                else:
                    place = re.fullmatch(r" token ([0-9]+) line ([0-9]+)\n", found)
                    if not place or int(place[1]) >= len(row) or int(place[2]) != lines[int(place[1])]:
                        differs(content, "a token that is refused", found)
            if high <= LIMIT and answers[0] != answers[1]:
                differs(content, *answers)
            tokens += len(row)
            limits += top == LIMIT
            refused += high > LIMIT
            for each in tree:
                count_kinds(each, counts)
    kind, least = min(counts.items(), key=lambda pair: pair[1])
    print(f"seed {seed}: {trees} trees of {tokens} tokens and {sum(counts.values())} nodes, each in two texts: no difference")
    print(f"{len(counts)} kinds of nodes, the rarest, {kind}, {least} times")
    print(f"{limits} trees of height {LIMIT}; {refused} higher ones refused")
    return 0


if __name__ == "__main__":
    sys.exit(main())
