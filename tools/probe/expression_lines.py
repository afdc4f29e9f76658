"""What ask.py asks about expressions: whether texts are such, their kinds and paths over the models of the probe, their values.

The machine tells no offsets, so they are found here: the first token with which no expression goes on by asking its parser
whether what stands before can be ended, the first wrong part by where its checker stops.
"""
import re
import sys

from random_texts import HAS, KINDS, MODELS, Maker, any_kind, escaped, scope, text_of
from stockd_oracle import expr, jsonio
from stockd_oracle.values import DAY_MAX, DAY_MIN, I64_MAX, I64_MIN, ID_MAX

# Each parenthesis takes some frames.
sys.setrecursionlimit(1000000)

TEXT_BYTES, DEPTH = 4096, 24
INTEGERS = (0, 0, 0, 1, 1, -1, 2, 7, -7, 10, I64_MIN, I64_MIN + 1, I64_MAX, I64_MAX - 1, 2 ** 62, -2 ** 62, 2 ** 32, 3037000499, 3037000500)
TEXTS = (None, "", "", "a", "b", "A", "ab", "é", "\U0001f529", "\u0000", " ", ":", "\\", "\n", '"', "'", "draft", "a\rb")


class Parser(expr._Parser):
    """The machine's parser over tokens; it tells of each node which token is its first."""

    def __init__(self, tokens):
        self.tokens = [(kind, word) for kind, word, _ in tokens] + [("end", "")]
        self.at = 0

    def whole(self):
        node = self.expr()
        if self.tokens[self.at][0] != "end":
            raise expr.ExprFault()
        return node

    def chain(self, symbols, below):
        return self.numbered(0, lambda: super(Parser, self).chain(symbols, below))

    def prefixed(self, symbol, op, below):
        return self.numbered(1, lambda: super(Parser, self).prefixed(symbol, op, below))

    def cmp(self):
        return self.numbered(0, super().cmp)

    def atom(self):
        return self.numbered(0, super().atom)

    def numbered(self, step, make):
        """What a method makes, whose new nodes stand one in the other from the left."""
        first = self.at
        made = node = make()
        while isinstance(node, expr.Node) and not hasattr(node, "first"):
            node.first = first
            first += step
            node = node.parts[0] if node.parts else None
        return made


class Checker(expr.Checker):
    """The machine's checker; a fault has the part in which it comes."""

    def check(self, node, model, prefix=()):
        try:
            return super().check(node, model, prefix)
        except expr.TypeFault as fault:
            if not hasattr(fault, "node"):
                fault.node = node
            raise


class NoValue(Exception):
    """A cell has no value."""


class Evaluator(expr.Evaluator):
    """The machine's evaluator; the id of the row is read from nothing."""

    def path(self, node, model, id_):
        return id_ if is_row_id(node.steps) else super().path(node, model, id_)


def is_row_id(steps):
    return [step.name for step in steps] == ["id"]


def tokens_of(text):
    """The tokens of a text up to the first that is none, each with its offset in bytes."""
    found, at = [], 0
    while True:
        match = expr._TOKEN.match(text, at)
        if match and match.lastgroup == "end":
            return found
        start = match.start(match.lastgroup) if match else re.compile(r"[ \t\n]*").match(text, at).end()
        offset = len(text[:start].encode())
        if not match or match.lastgroup == "digits" and int(match[match.lastgroup]) > I64_MAX:
            return [*found, ("other", "", offset)]
        word = match[match.lastgroup]
        found.append(("symbol" if match.lastgroup == "name" and word in expr._WORDS else match.lastgroup, word, offset))
        at = match.end()


def least_depth(tokens):
    """How deep the least expression nests that begins with these tokens; None where none does."""
    words = [word for kind, word, _ in tokens if kind == "symbol"]
    ends = [("symbol", ")", 0)] * max(0, words.count("(") - words.count(")"))
    for operand in ([], [("name", "a", 0)]):
        try:
            return expr.depth(Parser([*tokens, *operand, *ends]).whole())
        except expr.ExprFault:
            pass
    return None


def parsed(text):
    """The tree and None, or None and the fault as the probe tells it."""
    try:
        read = expr.parse(text)
    except expr.ExprFault:
        read = None
    tokens = tokens_of(text)
    try:
        tree = Parser(tokens).whole()
    except expr.ExprFault:
        tree = None
    if tree and expr.depth(tree) <= DEPTH:
        assert repr(tree) == repr(read), text
        tree.offsets = [offset for _, _, offset in tokens]
        return tree, None
    assert read is None, text
    good, bad = 0, len(tokens) + 1
    while bad - good > 1:
        middle = (good + bad) // 2
        least = least_depth(tokens[:middle])
        good, bad = (middle, bad) if least is not None and least <= DEPTH else (good, middle)
    if good == len(tokens):
        return None, "unexpected token at byte %d" % len(text.encode())
    word = "unexpected token" if least_depth(tokens[:bad]) is None else "too deep"
    return None, "%s at byte %d" % (word, tokens[good][2])


def checked(text, model):
    """The tree with its checker, or the fault as the probe tells it."""
    tree, fault = parsed(text)
    if fault:
        return None, None, fault
    checker = Checker(scope)
    try:
        kind, node = checker.check(tree, MODELS[model]), tree
    except expr.TypeFault as found:
        word = "no such name" if found.name else "wrong kind"
        return None, None, "%s at byte %d" % (word, tree.offsets[found.node.first])
    if kind == expr.UNSET:
        return None, None, "wrong kind at byte %d" % tree.offsets[node.first]
    return tree, checker, None


def told_kind(kind):
    return kind if isinstance(kind, str) else ":".join(kind)


def shown(kind, value):
    """A value as the probe writes it."""
    if value is None:
        return "unset"
    if kind == "Bool":
        return "true" if value else "false"
    if kind == "Word":
        return jsonio.write_text(value)
    if kind[0] == "Refs":
        return "ids:" + ",".join(map(str, value))
    return {"Day": "day:", "Moment": "moment:", "Int": ""}.get(kind, "id:") + str(value)


def expression(rng, _model):
    """Whether a text is an expression."""
    text = text_of(rng, rng.choice(list(HAS)), any_kind(rng))
    fault = "too long" if len(text.encode()) > TEXT_BYTES else parsed(text)[1]
    return "expression " + escaped(text), fault or "read"


def kinds(rng, _model):
    """The kind of an expression, and the paths that it reads."""
    model = rng.choice(list(HAS))
    text = text_of(rng, model, any_kind(rng))
    asked = "kinds %s %s" % (model, escaped(text))
    if len(text.encode()) > TEXT_BYTES:
        return asked, "too long"
    tree, checker, fault = checked(text, model)
    if fault:
        return asked, fault
    return asked, " ".join([told_kind(tree.kind), *(".".join(step.name for step in path) for path in checker.reads)])


def cell_value(rng, field):
    """A random value of a field, and how a line gives it."""
    kind = KINDS[field]
    if kind == "Bool":
        value = rng.random() < 0.5
        return value, "yes" if value else "no"
    if kind == "Int":
        value = rng.choice(INTEGERS) if rng.random() < 0.8 else rng.randint(-99, 99)
        return value, str(value)
    if kind == "Word":
        text = rng.choice(TEXTS)
        if text is None:
            return None, "-"
        size = len(text.encode()) or 1
        count = 1 if rng.random() < 0.985 else rng.choice((65536, 65535, 65534, 32768, 32767, 65536 - 19)) // size
        return text * count, "%d*%s" % (count, escaped(text).replace(" ", "\\s").replace(":", "\\c"))
    if kind[0] == "Refs":
        ids = tuple(sorted(rng.sample((1, 2, 3, 4, ID_MAX), rng.choice((0, 0, 1, 2, 2, 3)))))
        return ids, ",".join(map(str, ids))
    if rng.random() < 0.25:
        return None, "-"
    if kind[0] == "Ref":
        value = rng.choice((1, 2, 3, ID_MAX))
    elif kind == "Day":
        value = rng.choice((DAY_MIN, DAY_MAX, 0, 1, -1, rng.randint(-3, 3)))
    else:
        value = rng.choice((DAY_MIN * 86400, DAY_MAX * 86400 + 86399, 0, 1, -1, rng.randint(-3, 3)))
    return value, str(value)


class Cells:
    """Cells that get their values when they are read first, some of them none."""

    def __init__(self, rng, lacks):
        self.rng, self.lacks = rng, lacks
        self.values, self.given, self.reads = {}, [], []

    def read(self, model, id_, field):
        cell = (model.name, id_, field.name)
        self.reads.append("%s:%d:%s" % cell)
        if cell not in self.values:
            self.give(cell)
        if self.values[cell] is NoValue:
            raise NoValue()
        return self.values[cell]

    def give(self, cell):
        if self.rng.random() < self.lacks:
            self.values[cell] = NoValue
            return
        self.values[cell], text = cell_value(self.rng, cell[2])
        self.given.append("%s:%d:%s:%s" % (*cell, text))


def evaluate(rng, _model):
    """The value of an expression, and which cells are read for it."""
    model, id_ = rng.choice(list(HAS)), rng.choice((1, 2, 7, ID_MAX))
    text = text_of(rng, model, any_kind(rng)) if rng.random() < 0.1 else Maker(rng).at(any_kind(rng), model, rng.choice((2, 2, 3, 3, 4, 5, 6)))
    cells = Cells(rng, rng.choice((0, 0, 0, 0.05)))
    told = "too long" if len(text.encode()) > TEXT_BYTES else outcome(text, model, id_, cells)
    for _ in range(rng.choice((0, 0, 3))):
        # Some more, that aren't read.
        cell = (rng.choice(list(HAS)), rng.choice((1, 2, 7)), rng.choice(list(KINDS)))
        if cell not in cells.values:
            cells.give(cell)
    rng.shuffle(cells.given)
    given = " with " + " ".join(cells.given) if cells.given else ""
    return "evaluate %s %d%s | %s" % (model, id_, given, escaped(text)), told


def outcome(text, model, id_, cells):
    """What the probe tells of a text in a row over such cells."""
    tree, _, fault = checked(text, model)
    if fault:
        return fault
    try:
        told = shown(tree.kind, Evaluator(cells.read).at(tree, MODELS[model], id_))
    except expr.EvalFault as found:
        told = {"Overflow": "overflow", "TooLong": "too long", "ZeroDivisor": "zero divisor"}[found.kind]
    except NoValue:
        told = "no value"
    return " ".join(["%s %s ticks:1" % (told_kind(tree.kind), told), *cells.reads])


MAKERS = {"expression": expression, "kinds": kinds, "evaluate": evaluate}
