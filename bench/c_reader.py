"""Reads programs for the scripts beside it: a lexer and a parser of the language, written from docs/LANGUAGE.md, apart from the
program's code and specs/. explore.py and rules_random.py read with it; what they make of a tree is their own.

`Parser(text).program()` gives the external declarations of a text, or raises Refused with the report of a text that has no tokens or is
no program. Heights are not looked at. A node has its kind, the line of its first token, and its parts by name."""

import collections
import re

MOST = 2**64 - 1
WORD = 2**32

# ---------------------------------------------------------------------------------------------------------------- tokens

KEYWORDS = set(
    """auto break case char const continue default do double else enum extern float for goto if inline int long register restrict
    return short signed sizeof static struct switch typedef union unsigned void volatile while _Bool _Complex _Imaginary pthread_t
    pthread_mutex_t pthread_cond_t NULL PTHREAD_MUTEX_INITIALIZER PTHREAD_COND_INITIALIZER""".split()
)
PASSED = {"const", "volatile", "inline", "register"}
INTEGER = r"(?:0[xX][0-9a-fA-F]+|0[0-7]*|[1-9][0-9]*)(?:[uU](?:ll|LL|l|L)?|(?:ll|LL|l|L)[uU]?)?(?![A-Za-z0-9_])"
CHARACTER = r"'(?:[ -&(-\[\]-~]|\\[ntr0abfv\\'\"])'"
PIECE = re.compile(
    rf"""(?P<space>[ \t\n\r\v\f]+)|(?P<comment>/\*.*?\*/|//[^\n]*)|(?P<bad>/\*)|(?P<hash>\#)|(?P<name>[A-Za-z_][A-Za-z0-9_]*)
    |(?P<integer>{INTEGER})|(?P<character>{CHARACTER})|(?P<text>"(?:[^"\\\n]|\\[^\n])*")
    |(?P<mark><<=|>>=|\|\||&&|\+\+|--|<<|>>|[-+*/%&|^=!<>]=|[][(){{}};,:?=|^&<>+*/%!~-])""",
    re.VERBOSE | re.DOTALL,
)
BODY = rf"(?:\([ \t]*-?[ \t]*(?:{INTEGER}|{CHARACTER})[ \t]*\)|-?[ \t]*(?:{INTEGER}|{CHARACTER}))"
BEHIND = r"[ \t]*(?://[^\n]*|/\*(?:(?!\*/)[^\n])*\*/[ \t]*)?"
DIRECTIVE = re.compile(
    rf"\#[ \t]*(?:include[^\n]*|define[ \t]+(?P<name>[A-Za-z_][A-Za-z0-9_]*)(?:[ \t]+(?P<body>{BODY}))?{BEHIND})(?=\n|\Z)"
)
ESCAPES = {"n": 10, "t": 9, "r": 13, "0": 0, "a": 7, "b": 8, "f": 12, "v": 11, "\\": 92, "'": 39, '"': 34}
Token = collections.namedtuple("Token", "kind line value form", defaults=(None, None))
Form = collections.namedtuple("Form", "decimal unsigned longs")


class Refused(Exception):
    """The report of a text that has no tokens or is no program."""


def integer_of(word):
    digits = word.rstrip("uUlL")
    suffix = word[len(digits) :].lower()
    if word[:2] in ("0x", "0X"):
        value = int(digits, 16)
    else:
        value = int(digits, 8) if digits[0] == "0" else int(digits)
    return value, Form(digits[0] != "0", "u" in suffix, suffix.count("l"))


def tokens_of(text):
    """The tokens of a text, with the line past its last token."""
    made, defined, at, line = [], {}, 0, 1

    def add(kind, word):
        if kind == "name" and word in KEYWORDS:
            if word not in PASSED:
                made.append(Token(word, line))
        elif kind == "name" and word in defined:
            made.extend(token._replace(line=line) for token in defined[word])
        elif kind == "name":
            made.append(Token("NAME", line, word))
        elif kind == "integer":
            value, form = integer_of(word)
            if value > MOST:
                raise Refused(f"SOURCE line {line} byte {at}: not a token")
            made.append(Token("CONSTANT", line, value, form))
        elif kind == "character":
            made.append(Token("CONSTANT", line, ESCAPES[word[2]] if word[1] == "\\" else ord(word[1]), Form(True, False, 0)))
        else:
            made.append(Token("TEXT" if kind == "text" else word, line))

    while at < len(text):
        found = PIECE.match(text, at)
        if found is None or found.lastgroup == "bad":
            raise Refused(f"SOURCE line {line} byte {at}: not a token")
        kind, word = found.lastgroup, found.group()
        if kind == "hash":
            found = DIRECTIVE.match(text, at)
            name = found and found.group("name")
            if not found or text[text.rfind("\n", 0, at) + 1 : at].strip(" \t") or name in defined or name in KEYWORDS:
                raise Refused(f"SOURCE line {line} byte {at}: not a token")
            if name:
                before, made = made, []
                for part in re.finditer(rf"(?P<mark>[()-])|(?P<integer>{INTEGER})|(?P<character>{CHARACTER})", found.group("body") or ""):
                    add(part.lastgroup, part.group())
                defined[name], made = made, before
            word = found.group()
        elif kind not in ("space", "comment"):
            add(kind, word)
        line += word.count("\n")
        at += len(word)
    return made, line


# ---------------------------------------------------------------------------------------------------------------- grammar


class Node:
    """A node of the tree: its kind, the line of its first token, and its parts by name."""

    def __init__(self, kind, line, **parts):
        self.kind, self.line = kind, line
        self.__dict__.update(parts)


INT, UNSIGNED, ADDRESS, VOID, THREAD, MUTEX, COND = "int", "unsigned", "void *", "void", "pthread_t", "pthread_mutex_t", "pthread_cond_t"
SPELLED = {
    "int": INT, "signed": INT, "signed int": INT, "unsigned": UNSIGNED, "unsigned int": UNSIGNED,
    "_Bool": "bool", "char": "char", "signed char": "char", "unsigned char": "uchar",
    "short": "short", "short int": "short", "unsigned short": "ushort", "unsigned short int": "ushort",
    "long": "long", "long int": "long", "unsigned long": "ulong", "unsigned long int": "ulong",
    "long long": "llong", "long long int": "llong", "unsigned long long": "ullong", "unsigned long long int": "ullong",
}  # fmt: skip
INTEGER_WORDS = {word for words in SPELLED for word in words.split()}
OTHER_TYPES = {VOID, THREAD, MUTEX, COND}
ASSIGNMENTS = {"=", "+=", "-=", "*=", "/=", "%=", "&=", "|=", "^=", "<<=", ">>="}
TIGHT = {}
for level, signs in enumerate(["||", "&&", "|", "^", "&", "== !=", "< > <= >=", "<< >>", "+ -", "* / %"]):
    TIGHT.update({sign: level + 2 for sign in signs.split()})


class Parser:
    def __init__(self, text):
        self.list, self.end_line = tokens_of(text)
        self.at = 0

    def kind(self, ahead=0):
        return self.list[self.at + ahead].kind if self.at + ahead < len(self.list) else "END"

    def line(self):
        return self.list[self.at].line if self.at < len(self.list) else self.end_line

    def refuse(self):
        raise Refused(f"SOURCE line {self.line()} token {self.at}: not a program")

    def take(self, kind):
        if self.kind() != kind:
            self.refuse()
        self.at += 1
        return self.list[self.at - 1]

    def has(self, kind):
        if self.kind() == kind:
            self.at += 1
            return True
        return False

    def program(self):
        externals = [self.external()]
        while self.kind() != "END":
            externals.append(self.external())
        return externals

    def at_type(self, ahead=0):
        return self.kind(ahead) in INTEGER_WORDS or self.kind(ahead) in OTHER_TYPES

    def type(self):
        if self.has(VOID):
            return ADDRESS if self.has("*") else VOID
        if self.kind() in OTHER_TYPES:
            return self.take(self.kind()).kind
        words = []
        while self.kind() in INTEGER_WORDS and any((known + " ").startswith(" ".join(words + [self.kind()]) + " ") for known in SPELLED):
            words.append(self.take(self.kind()).kind)
        if " ".join(words) not in SPELLED:
            self.refuse()
        return SPELLED[" ".join(words)]

    def external(self):
        line, start = self.line(), self.at
        lead = "extern" if self.has("extern") else "static" if self.has("static") else None
        type_line = self.line()
        base = self.type()
        if self.kind(1) != "(" and lead != "extern":
            return Node("objects", line, of=self.objects(type_line, base))
        name = self.take("NAME").value
        self.take("(")
        params, named = [], True
        if self.kind() == VOID and self.kind(1) == ")":
            self.at += 1
        elif self.kind() != ")":
            while True:
                param = Node("param", self.line(), base=self.type(), name=None)
                if self.kind() == "NAME":
                    param.name = self.take("NAME").value
                else:
                    named = False
                params.append(param)
                if not self.has(","):
                    break
        empty_word = self.list[self.at - 1].kind == VOID and not params
        self.take(")")
        if named and lead != "extern" and self.kind() == "{":
            return Node("function", line, gives=base, name=name, params=params, body=self.block(), first=start)
        self.take(";")
        return Node("prototype", line, gives=base, name=name, params=params, void_word=empty_word)

    def objects(self, line, base):
        declarators = []
        while True:
            made = Node("declarator", self.line(), base=base, name=self.take("NAME").value, length=None, first=None)
            if self.has("["):
                made.length = self.choose()
                self.take("]")
            if self.has("="):
                made.first = self.first()
            declarators.append(made)
            if not self.has(","):
                break
        self.take(";")
        return Node("objects", line, base=base, declarators=declarators)

    def first(self):
        line = self.line()
        if self.has("PTHREAD_MUTEX_INITIALIZER"):
            return Node("mutex", line)
        if self.has("PTHREAD_COND_INITIALIZER"):
            return Node("cond", line)
        if not self.has("{"):
            return Node("value", line, value=self.assign())
        values = [self.assign()]
        while self.has(",") and self.kind() != "}":
            values.append(self.assign())
        self.take("}")
        return Node("listed", line, values=values)

    def block(self):
        line, parts = self.line(), []
        self.take("{")
        while not self.has("}"):
            parts.append(self.statement())
        return Node("block", line, parts=parts)

    def statement(self):
        line, kind = self.line(), self.kind()
        if kind == "{":
            return self.block()
        if self.at_type():
            return Node("declare", line, of=self.objects(line, self.type()))
        if kind == "NAME" and self.kind(1) == ":":
            self.at += 2
            return Node("label", line, of=self.statement())
        if kind not in ("if", "while", "do", "for", "break", "continue", "return", ";"):
            return self.evaluated()
        self.at += 1
        if kind == "if":
            test = self.test()
            yes = self.statement()
            return Node("if", line, test=test, yes=yes, no=self.statement() if self.has("else") else None)
        if kind == "while":
            return Node("while", line, test=self.test(), body=self.statement())
        if kind == "do":
            body = self.statement()
            self.take("while")
            made = Node("do", line, body=body, test=self.test())
            self.take(";")
            return made
        if kind == "for":
            self.take("(")
            first = Node("declare", self.line(), of=self.objects(self.line(), self.type())) if self.at_type() else None
            if first is None:
                first = Node("empty", self.line()) if self.has(";") else self.evaluated()
            test = None if self.kind() == ";" else self.assign()
            self.take(";")
            step = None if self.kind() == ")" else self.assign()
            self.take(")")
            return Node("for", line, first=first, test=test, step=step, body=self.statement())
        if kind == "return":
            made = Node("return", line, value=None if self.kind() == ";" else self.assign())
        else:
            made = Node("empty" if kind == ";" else kind, line)
        if kind != ";":
            self.take(";")
        return made

    def evaluated(self):
        made = Node("eval", self.line(), value=self.assign())
        self.take(";")
        return made

    def test(self):
        self.take("(")
        made = self.assign()
        self.take(")")
        return made

    def assign(self):
        made = self.choose()
        if made.kind == "object" and self.kind() in ASSIGNMENTS:
            op = self.take(self.kind()).kind[:-1]
            return Node("assign", made.line, op=op or None, target=made.target, value=self.assign())
        return made

    def choose(self):
        test = self.binary(2)
        if not self.has("?"):
            return test
        yes = self.assign()
        self.take(":")
        return Node("choose", test.line, test=test, yes=yes, no=self.choose())

    def binary(self, least):
        left = self.unary()
        while TIGHT.get(self.kind(), 0) >= least:
            op = self.take(self.kind()).kind
            left = Node("binary", left.line, op=op, left=left, right=self.binary(TIGHT[op] + 1))
        return left

    def unary(self):
        line, kind = self.line(), self.kind()
        if kind in ("+", "-", "~", "!"):
            self.at += 1
            return Node("unary", line, op=kind, of=self.unary())
        if kind in ("++", "--"):
            self.at += 1
            return Node("step", line, op=kind, before=True, target=self.target())
        if kind == "&":
            self.at += 1
            return Node("address", line, target=self.target())
        if kind == "(" and self.at_type(1):
            self.at += 1
            to = self.type()
            if to == VOID or to in (THREAD, MUTEX, COND):
                self.at -= to != VOID
                self.refuse()
            self.take(")")
            return Node("cast", line, to=to, of=self.unary())
        return self.primary()

    def primary(self):
        line, kind = self.line(), self.kind()
        if kind == "CONSTANT":
            token = self.take(kind)
            return Node("constant", line, value=token.value, form=token.form)
        if kind in ("NULL", "TEXT"):
            self.at += 1
            return Node(kind.lower(), line)
        if kind == "(":
            return Node("paren", line, inner=self.test())
        if kind == "NAME" and self.kind(1) == "(":
            name, args = self.take("NAME").value, []
            self.at += 1
            if self.kind() != ")":
                args.append(self.assign())
                while self.has(","):
                    args.append(self.assign())
            self.take(")")
            return Node("call", line, name=name, args=args)
        target = self.target()
        if self.kind() in ("++", "--"):
            return Node("step", line, op=self.take(self.kind()).kind, before=False, target=target)
        return Node("object", line, target=target)

    def target(self):
        made = Node("target", self.line(), name=self.take("NAME").value, index=None)
        if self.has("["):
            made.index = self.assign()
            self.take("]")
        return made


PARTS = {
    "unary": "of", "cast": "of", "paren": "inner", "binary": "left right", "choose": "test yes no", "call": "args", "eval": "value",
    "object": "target", "address": "target", "step": "target", "assign": "target value", "target": "index", "if": "test yes no",
    "while": "test body", "do": "body test", "for": "first test step body", "return": "value", "label": "of", "block": "parts",
    "declare": "of", "objects": "declarators", "declarator": "length first", "value": "value", "listed": "values", "function": "body",
}  # fmt: skip


def parts_of(node):
    """The nodes directly below a node, in the order of the text."""
    made = []
    for name in PARTS.get(node.kind, "").split():
        part = getattr(node, name)
        made += part if isinstance(part, list) else [part]
    return [part for part in made if part is not None]
