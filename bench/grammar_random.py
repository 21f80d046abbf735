#!/usr/bin/env python3
"""Compares the reader of programs with a recognizer of its own, on random programs and on mutated rows of tokens.
Run it from the top of the repository, with the program built: bench/grammar_random.py [SEED [PROGRAMS]]

Random programs are derived from the grammar below, which is that of docs/LANGUAGE.md written as rules, and printed with random white
space, comments, directives and words that give no token. Each has to be read: status 0, 1 or 12, a limit or a broken rule. Then tokens are left out, doubled,
exchanged or replaced, or the row is cut off, and the answer has to be the one that an Earley recognizer over the same rules gives:
the number and the line of the first token up to and with which no program begins, or that the row is a program. The recognizer keeps
every derivation and knows nothing of the parser's order, its tables of operators or its choices. Heights are kept small."""

import os
import random
import subprocess
import sys
import tempfile

TOP = os.path.dirname(os.path.dirname(os.path.abspath(__file__)))
PROGRAM = os.path.join(TOP, "crates", "lazycheck", "out", "lazycheck")

INTEGER_TYPES = """int|signed|signed int|unsigned|unsigned int|_Bool|char|signed char|unsigned char|short|short int|unsigned short
|unsigned short int|long|long int|unsigned long|unsigned long int|long long|long long int|unsigned long long
|unsigned long long int"""
BINARY = [["*", "/", "%"], ["+", "-"], ["<<", ">>"], ["<", ">", "<=", ">="], ["==", "!="], ["&"], ["^"], ["|"], ["&&"], ["||"]]
GRAMMAR = f"""
program : external | program external
external : objects | static objects | head ( params ) block | static head ( params ) block
  | head ( protos ) ; | static head ( protos ) ; | extern head ( protos ) ;
head : type NAME
type : inttype | void | void * | pthread_t | pthread_mutex_t | pthread_cond_t
inttype : {INTEGER_TYPES.replace(chr(10), "").replace("|", " | ")}
params : | void | param | params_more param
params_more : param , | params_more param ,
param : type NAME
protos : | void | proto | protos_more proto
protos_more : proto , | protos_more proto ,
proto : type NAME | type
objects : type declarators ;
declarators : declarator | declarators , declarator
declarator : NAME | NAME [ choose ] | NAME = first | NAME [ choose ] = first
first : assign | {{ values }} | {{ values , }} | PTHREAD_MUTEX_INITIALIZER | PTHREAD_COND_INITIALIZER
values : assign | values , assign
block : {{ stmts }}
stmts : | stmts stmt
stmt : ; | assign ; | block | objects | if ( assign ) stmt | if ( assign ) stmt else stmt | while ( assign ) stmt
  | do stmt while ( assign ) ; | for ( start opt ; opt ) stmt | break ; | continue ; | return opt ; | NAME : stmt
start : ; | assign ; | objects
opt : | assign
assign : choose | target aop assign
aop : = | += | -= | *= | /= | %= | &= | PIPE= | ^= | <<= | >>=
choose : b9 | b9 ? assign : choose
unary : primary | target ++ | target -- | ++ target | -- target | + unary | - unary | ~ unary | ! unary | & target
  | ( inttype ) unary | ( void * ) unary
primary : CONSTANT | NULL | TEXT | target | ( assign ) | NAME ( args )
args : | values
target : NAME | NAME [ assign ]
"""
KEYWORDS = set(
    """void static extern pthread_t pthread_mutex_t pthread_cond_t int signed unsigned _Bool char short long if else while do for
    break continue return NULL PTHREAD_MUTEX_INITIALIZER PTHREAD_COND_INITIALIZER""".split()
)
OTHER_KEYWORDS = "auto case default double enum float goto restrict sizeof struct switch typedef union _Complex _Imaginary".split()


def rules():
    made = {}
    for line in GRAMMAR.replace("\n  |", " |").replace("\n|", " |").strip().split("\n"):
        head, body = line.split(" : ", 1) if " : " in line else (line.split(" :")[0], line.split(" :", 1)[1])
        made[head.strip()] = [
            tuple(word.replace("PIPE", "|") for word in part.split()) for part in (" " + body + " ").split(" | ")
        ]
    below = "unary"
    for level, signs in enumerate(BINARY):
        made[f"b{level}"] = [(below,)] + [(f"b{level}", sign, below) for sign in signs]
        below = f"b{level}"
    return made


RULES = rules()
TERMINALS = {s for parts in RULES.values() for part in parts for s in part if s not in RULES}


def nullable():
    found, grew = set(), True
    while grew:
        grew = False
        for head, parts in RULES.items():
            if head not in found and any(all(s in found for s in part) for part in parts):
                found.add(head)
                grew = True
    return found


NULLABLE = nullable()


def first_refused(kinds):
    """The number of the first token up to and with which no program begins; None where the kinds are a program."""
    chart = [set()]  # of items: head, number of the part, how far, where it begins

    def close(items, at):
        todo = list(items)
        while todo:
            head, part, dot, origin = todo.pop()
            body = RULES[head][part]
            if dot == len(body):
                for other in list(chart[origin]):
                    o_body = RULES[other[0]][other[1]]
                    if other[2] < len(o_body) and o_body[other[2]] == head:
                        add(items, todo, (other[0], other[1], other[2] + 1, other[3]))
            elif body[dot] in RULES:
                for number in range(len(RULES[body[dot]])):
                    add(items, todo, (body[dot], number, 0, at))
                if body[dot] in NULLABLE:
                    add(items, todo, (head, part, dot + 1, origin))

    def add(items, todo, item):
        if item not in items:
            items.add(item)
            todo.append(item)

    for number in range(len(RULES["program"])):
        chart[0].add(("program", number, 0, 0))
    close(chart[0], 0)
    for at, kind in enumerate(kinds):
        following = set()
        for head, part, dot, origin in chart[at]:
            body = RULES[head][part]
            if dot < len(body) and body[dot] == kind:
                following.add((head, part, dot + 1, origin))
        if not following:
            return at
        chart.append(following)
        close(following, at + 1)
    done = any(h == "program" and o == 0 and d == len(RULES[h][p]) for h, p, d, o in chart[len(kinds)])
    return None if done else len(kinds)


def shortest():
    """For each symbol the least number of levels in which it derives something."""
    depth = {s: 0 for s in TERMINALS}
    grew = True
    while grew:
        grew = False
        for head, parts in RULES.items():
            best = min((1 + max((depth.get(s, 1000) for s in part), default=0) for part in parts), default=1000)
            if best < depth.get(head, 1000):
                depth[head] = best
                grew = True
    return depth


DEPTH = shortest()


def derive(symbol, room, rng):
    if symbol not in RULES:
        return [symbol]
    parts = RULES[symbol]
    fitting = [p for p in parts if 1 + max((DEPTH[s] for s in p), default=0) <= room]
    if not fitting:
        fitting = [min(parts, key=lambda p: max((DEPTH[s] for s in p), default=0))]
    part = rng.choice(fitting)
    return [token for s in part for token in derive(s, room - 1, rng)]


NAMES = ["x", "y", "main", "assert", "_z9", "If", "intx", "u", "pthread_join"]
CONSTANTS = ["0", "7", "0x1F", "017", "4294967295u", "12ull", "'a'", "'\\n'", "18446744073709551615", "1L"]


def spelled(kind, rng):
    if kind == "NAME":
        return rng.choice(NAMES)
    if kind == "CONSTANT":
        return rng.choice(CONSTANTS)
    if kind == "TEXT":
        return rng.choice(['""', '"a"', '"\\""', '"/*"'])
    return kind


def gap(rng, apart):
    """White space, comments and words without a token; at least one byte where the tokens would else be one piece."""
    made = ""
    while rng.random() < 0.3:
        made += rng.choice([" ", "\t", "\n", "\r", "/* a */", "// b\n", " const ", " volatile ", "\n#include <x.h>\n", "\n # define D_%d 1\n"])
    return made or (" " if apart else "")


def text_of(kinds, rng):
    """The bytes of a row of tokens, and the line of each, with the last line."""
    made, lines, defined = "", [], 0
    for kind in kinds:
        word = spelled(kind, rng)
        space = gap(rng, True)
        if made.endswith("/") and space.startswith("/"):
            space = " " + space  # or the division sign would begin a comment
        while "%d" in space:
            space = space.replace("%d", str(defined), 1)
            defined += 1
        made += space
        lines.append(1 + made.count("\n"))
        made += word
    made += rng.choice(["", "\n", " // end", "/**/"])
    return made.encode(), lines + [1 + made.count("\n")]


def mutated(kinds, rng):
    kinds = list(kinds)
    for _ in range(rng.choice([1, 1, 1, 2])):
        if not kinds:
            break
        at = rng.randrange(len(kinds))
        way = rng.randrange(5)
        if way == 0:
            del kinds[at]
        elif way == 1:
            kinds.insert(at, kinds[at])
        elif way == 2:
            other = rng.randrange(len(kinds))
            kinds[at], kinds[other] = kinds[other], kinds[at]
        elif way == 3:
            kinds[at] = rng.choice(sorted(TERMINALS) + OTHER_KEYWORDS)
        else:
            del kinds[at:]
    return kinds


def answer(content, folder):
    path = os.path.join(folder, "a.c")
    with open(path, "wb") as file:
        file.write(content)
    run = subprocess.run([PROGRAM, path], stdout=subprocess.PIPE, check=False)
    return run.returncode, run.stdout.decode()


def main():
    seed = int(sys.argv[1]) if len(sys.argv) > 1 else 1
    programs = int(sys.argv[2]) if len(sys.argv) > 2 else 500
    rng = random.Random(seed)
    whole = refused = told = 0
    with tempfile.TemporaryDirectory() as folder:
        for _ in range(programs):
            kinds = derive("program", rng.randrange(9, 30), rng)
            if len(kinds) > 400:
                continue
            for row in [kinds] + [mutated(kinds, rng) for _ in range(4)]:
                content, lines = text_of(row, rng)
                wanted = first_refused(row)
                status, report = answer(content, folder)
                if wanted is None:
                    whole += 1
                    good = status in (0, 1, 12) or report.startswith("LIMIT ") or " rule " in report
                else:
                    refused += 1
                    good = (status, report) == (4, f"SOURCE line {lines[wanted]} token {wanted}: not a program\n")
                if not good:
                    told += 1
                    print("DISAGREE", wanted, status, report, " ".join(row), content, sep="\n")
    print(f"seed {seed}: {whole} programs, {refused} rows refused, {told} disagreements")
    return 1 if told else 0


if __name__ == "__main__":
    sys.exit(main())
