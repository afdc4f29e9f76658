"""Random expressions over the models of the probe: mostly such as have a kind, deep ones, long ones, and such as are broken."""
import re
from types import SimpleNamespace

from stockd_oracle import expr
from stockd_oracle.values import I64_MAX

TYPES = {"Bool": "boolean", "Int": "integer", "Word": "char", "Day": "date", "Moment": "datetime", "Ref": "many2one", "Refs": "one2many"}
KINDS = {"done": "Bool", "active": "Bool", "id": "Int", "qty": "Int", "age": "Int", "price": "Int", "hidden": "Int", "name": "Word", "city": "Word",
         "key": "Word", "day": "Day", "born": "Day", "at": "Moment", "seen": "Moment", "order": ("Ref", "order"), "owner": ("Ref", "person"),
         "boss": ("Ref", "person"), "part": ("Ref", "line"), "orders": ("Refs", "order"), "people": ("Refs", "person"), "lines": ("Refs", "line"),
         "parts": ("Refs", "line")}
HAS = {"order": "done id qty hidden name day at order owner part people lines", "person": "active id age name city key born seen order boss part orders",
       "line": "done id qty price name day at order owner part parts"}
UNUSABLE = ("hidden", "key")
MODELS = {name: SimpleNamespace(name=name) for name in HAS}


def field_of(name):
    """A field as the machine has it."""
    kind = KINDS[name]
    word, target = kind if isinstance(kind, tuple) else (kind, None)
    return SimpleNamespace(name=name, type=TYPES[word], relation=MODELS.get(target))


FIELDS = {name: field_of(name) for name in KINDS}


def scope(model, name):
    """What a name stands for in a model: its own field, or for an order its owner's."""
    if name in UNUSABLE:
        return None
    if name in HAS[model.name].split():
        return [FIELDS[name]]
    if model.name == "order" and name in HAS["person"].split():
        return [FIELDS["owner"], FIELDS[name]]
    return None


DIGITS = ("0", "1", "2", "3", "7", "10", "007", str(I64_MAX), str(I64_MAX - 1), str(2 ** 62), "4294967296", "3037000500", "0" * 30 + "1")
PAST = (str(I64_MAX + 1), "0" + str(I64_MAX + 1), str(2 ** 64), "9" * 40)
WORDS = ("", "a", "b", "A", "ab", "a b", "é", "z", "ſ", "\U0001f529", "or", "x.y", "(", "\\", "\\n", "\t", "\r", "%", "0", "\u0000", "|", " | ", " with ", ":")
MARKS = "abz_09AÉé.,()=!<>+-*\"' \t\n\\/%&|;#\u0000\u00a0"
TOKENS = ("or", "and", "not", "div", "mod", "true", "false", "unset", "=", "!=", "<", "<=", ">", ">=", "+", "-", "*", "(", ")", ",", ".", "id", "qty",
          "owner", "lines", "name", "done", "key", "hidden", "nope", "if", "cat", "text", "min2", "max2", "count", "any", "all", "sum", "min", "max",
          '"a"', "'a'", "'\"'", "\"'\"", *DIGITS[:4], "5th", "!", "é", PAST[0])
COMPARE = ("=", "!=", "<", "<=", ">", ">=")
ORDERED = ("Int", "Word", "Day", "Moment")


def all_paths():
    """The paths of up to three names from each model, by kind."""
    found = {}
    for model in HAS:
        reach = [((), MODELS[model])]
        for _ in range(3):
            further = []
            for names, at in reach:
                for name in KINDS:
                    steps = scope(at, name)
                    if steps:
                        path = (*names, name)
                        found.setdefault((model, expr.kind_of(steps[-1])), {}).setdefault(len(path), []).append(".".join(path))
                        if steps[-1].type == "many2one":
                            further.append((path, steps[-1].relation))
            reach = further
    return found


PATHS = all_paths()


def quoted(rng):
    text = rng.choice(WORDS)
    return rng.choice(("\"%s\"", "'%s'")) % text


class Maker:
    """Random expressions, each with how tightly it binds."""

    def __init__(self, rng):
        self.rng = rng

    def at(self, kind, model, depth, level=0):
        """An expression of a kind, seldom of another, that stands where an operand binds as tightly as a level."""
        kind = kind if self.rng.random() < 0.99 else any_kind(self.rng)
        binds, text = self.form(kind, model, depth)
        if binds < level or self.rng.random() < 0.05:
            return self.rng.choice(("(%s)", "(%s)", "( %s )", "((%s))")) % text
        return text

    def path(self, kind, model):
        found = PATHS.get((model, kind))
        return self.rng.choice(found[self.rng.choice([n for n in (1, 1, 1, 2, 2, 3) if n in found])]) if found else None

    def form(self, kind, model, depth):
        rng = self.rng
        if depth <= 1 or rng.random() < 0.15:
            return 7, self.leaf(kind, model)
        if rng.random() < 0.12:
            return 7, self.chosen(kind, model, depth - 1)
        name = kind if isinstance(kind, str) else "Row"
        return getattr(self, name.lower())(model, depth - 1, kind)

    def leaf(self, kind, model):
        rng = self.rng
        if kind == "Int" and rng.random() < 0.5:
            return rng.choice(DIGITS)
        if kind == "Int" and rng.random() < 0.2:
            return "id"
        if kind == "Bool" and rng.random() < 0.4:
            return rng.choice(("true", "false"))
        if kind == "Word" and rng.random() < 0.5:
            return quoted(rng)
        return self.path(kind, model) or "unset"

    def chosen(self, kind, model, depth):
        parts = [self.at(kind, model, depth), self.at(kind, model, depth)]
        if self.rng.random() < 0.15:
            parts[self.rng.randrange(2)] = "unset"
        return self.call("if", self.at("Bool", model, depth), *parts)

    def call(self, name, *parts):
        return "%s(%s)" % (name, self.rng.choice((", ", ",", " , ")).join(parts))

    def over(self, names, kind, depth, model):
        """A function over targets."""
        rng = self.rng
        target = rng.choice(list(HAS))
        path = self.path(("Refs", target), model)
        return self.call(rng.choice(names), path, self.at(kind, target, depth)) if path else self.leaf(kind, model)

    def binary(self, ops, kind, model, depth, level, left=None):
        sides = [self.at(kind, model, depth, level if left is None else left), self.at(kind, model, depth, level + 1)]
        between = self.rng.choice((" %s ", " %s ", "\t%s\n"))
        return level, (between % self.rng.choice(ops)).join(sides)

    def int(self, model, depth, _kind):
        way = self.rng.randrange(10)
        if way < 3:
            return self.binary(("+", "-"), "Int", model, depth, 4)
        if way < 5:
            return self.binary(("*", "div", "mod", "div", "mod"), "Int", model, depth, 5)
        if way == 5:
            return 6, "-" + self.at("Int", model, depth, 6)
        if way == 6:
            return 7, self.call(self.rng.choice(("min2", "max2")), self.at("Int", model, depth), self.at("Int", model, depth))
        if way == 7:
            path = self.path(("Refs", self.rng.choice(list(HAS))), model)
            return 7, self.call("count", path) if path else "id"
        return 7, self.over(("sum", "min", "max"), "Int", depth, model) if way == 8 else self.over(("count",), "Bool", depth, model)

    def bool(self, model, depth, _kind):
        rng, way = self.rng, self.rng.randrange(8)
        if way < 2:
            return self.binary(("and",), "Bool", model, depth, 1)
        if way < 4:
            return self.binary(("or",), "Bool", model, depth, 0)
        if way == 4:
            return 2, "not " + self.at("Bool", model, depth, 2)
        if way == 5:
            return 7, self.over(("any", "all"), "Bool", depth, model)
        kind = rng.choice((*ORDERED, *ORDERED, "Bool", *((word, target) for word in ("Ref", "Refs") for target in HAS)))
        ops = COMPARE if kind in ORDERED and rng.random() < 0.9 else COMPARE[:2]
        if kind not in ("Int", "Bool") and kind[0] != "Refs" and rng.random() < 0.2:
            sides = [self.at(kind, model, depth, 4), "unset"]
            rng.shuffle(sides)
            return 3, (" %s " % rng.choice(COMPARE[:2])).join(sides)
        return self.binary(ops, kind, model, depth, 3, left=4)

    def word(self, model, depth, _kind):
        if self.rng.random() < 0.3:
            return 7, self.call("text", self.at("Int", model, depth))
        return 7, self.call("cat", *(self.at("Word", model, depth) for _ in range(self.rng.choice((1, 2, 2, 3, 5)))))

    def day(self, model, depth, kind):
        return 7, self.over(("min", "max"), kind, depth, model)

    moment = day

    def row(self, model, _depth, kind):
        return 7, self.leaf(kind, model)


def any_kind(rng):
    """A kind, seldom one of rows."""
    rows = rng.choice(("Ref", "Refs")), rng.choice(list(HAS))
    return rng.choice(("Int", "Bool", "Word") * 5 + ("Day", "Moment") * 2 + (rows,))


def deep(rng, model):
    """A text that nests about as deep as may be."""
    text, depth, wanted = rng.choice(("qty", "id", "1")), 1, rng.choice((22, 23, 24, 24, 25, 25, 26, 30))
    while depth < wanted:
        way = rng.randrange(9)
        if way < 2:
            text = "-" + text
        elif way < 4:
            text = rng.choice(("(%s) + 1", "1 + (%s)", "(%s) * 2", "2 mod (%s)", "(%s) - id")) % text
        elif way == 4:
            text = rng.choice(("min2(%s, 1)", "max2(2, %s)", "if(true, %s, 3)", "if(false, 4, %s)")) % text
        elif way == 5 and wanted - depth > 1:
            text, depth = rng.choice(("count(lines, (%s) = 1)", "if(not true, 0, %s)", "if(done = (1 < (%s)), 0, 1)")) % text, depth + 1
        elif way == 6:
            count = rng.randint(1, 5)
            text, depth = "(" * count + text + ")" * count, depth - 1
        elif way == 7:
            count = min(rng.randint(1, 24), wanted - depth)
            text, depth = text + rng.choice((" + 1", " * id", " - qty", " div 2")) * count, depth + count - 1
        else:
            text = rng.choice(("sum(lines, %s)", "- - %s", "text(%s)")) % text
        depth += 1
    return text


def long(rng, model):
    """A text of about as many bytes as there may be."""
    size = rng.choice((4094, 4095, 4096, 4096, 4097, 4200, rng.randint(500, 4096)))
    way = rng.randrange(5)
    if way == 0:
        part = rng.choice(("qty", '"%s"' % ("é" * rng.randint(0, 9)), "sum(lines,qty*price)", "name", "-1"))
        text = "cat(" + ",".join([part] * (size // (len(part.encode()) + 1) - 2))
        text += "," + '"%s")' % ("x" * max(0, size - len(text.encode()) - 4))
    elif way == 1:
        text = "(" * ((size - 3) // 2) + "qty" + ")" * ((size - 3) // 2)
    elif way == 2:
        text = "qty" + " " * (size - 6) + "+ 1"
    elif way == 3:
        text = "cat(" + 'cat("a"),' * ((size - 8) // 9) + "'b')"
    else:
        text = rng.choice(("owner.boss.", "part.")) * (size // 11) + "name"
    return text[:size] if rng.random() < 0.3 else text


def broken(rng, text):
    """A text with a character or a token changed, or cut."""
    way = rng.randrange(6)
    at = rng.randrange(len(text) + 1)
    if way == 0:
        return text[:at]
    if way == 1:
        return text[:at] + rng.choice(MARKS) + text[at + rng.randrange(2):]
    if way == 2:
        return text[:at] + text[at + 1:]
    parts = re.findall(r"\s+|[a-z0-9_]+|\"[^\"]*\"|'[^']*'|!=|<=|>=|.", text, re.DOTALL) or [""]
    at = rng.randrange(len(parts))
    if way == 3:
        parts[at] = rng.choice(TOKENS)
    elif way == 4:
        parts[at:at] = [" ", rng.choice(TOKENS), " "]
    else:
        del parts[at]
    return "".join(parts)


def text_of(rng, model, kind):
    """A text: mostly an expression, or one that is broken, or tokens at random."""
    way = rng.random()
    if way < 0.06:
        text = deep(rng, model)
    elif way < 0.07:
        text = long(rng, model)
    elif way < 0.17:
        text = rng.choice((" ", "", "\n")).join(rng.choice(TOKENS) for _ in range(rng.randint(0, 9)))
    else:
        text = Maker(rng).at(kind, model, rng.choice((1, 2, 2, 3, 3, 4, 5)))
    while rng.random() < 0.5:
        text = broken(rng, text)
    return text.replace(rng.choice(DIGITS[:3]), rng.choice(PAST)) if rng.random() < 0.02 else text


def escaped(text):
    return text.replace("\\", "\\\\").replace("\n", "\\n").replace("\r", "\\r")
