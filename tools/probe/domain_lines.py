"""What ask.py asks about domains: which rows meet them, or where they are wrong.

The machine tells where a domain is wrong and not how, so the kind of a fault is found here, from the criterion at its place.
"""
import json

from stockd_oracle import domain, jsonio, schema
from stockd_oracle.refusals import Request
from stockd_oracle.values import DOMAIN_TERMS_MAX, read_date, read_datetime

OPERATORS = ("=", "!=", "=?", "in", "not in", "<", "<=", ">", ">=", "=like", "=ilike", "like", "ilike", "not like", "not ilike",
             "any", "not any", "child_of", "parent_of")
ORDERS, LIKES, TREES = OPERATORS[5:9], OPERATORS[9:15], OPERATORS[17:]
TEXTS = ("", "a", "b", "A", "ab", "aB", "abab", "é", "É", "ß", "ss", "SS", "İ", "i\u0307", "ς", "Σ", "\u212a", "k", "%", "_", "a%", "a\nb", "draft", "done")
PATTERNS = ("", "a", "A", "%", "_", "%%", "a%", "%b", "_b", "a_", "a%b", "%a%b%", "s_", "ss", "SS", "i_", "K", "k", "\u03c3", "É", "%_%", "ab%ab", "a_a%")
DAYS = ("2024-02-28", "2024-02-29", "2024-03-01", "0001-01-01", "9999-12-31")
MOMENTS = ("2024-02-29 00:00:00", "2024-02-29 12:00:00", "2024-02-29 23:59:59", "2024-03-01 00:00:00")
NUMBERS = (0, 1, -1, 2, 3, 5, 2 ** 63 - 1, -2 ** 63, 2 ** 63, 2 ** 64 - 1, 2 ** 32)


def models():
    """The models of the probe, as probe_access declares them."""
    field = schema.FieldDef
    to_row, to_place = {"relation": "probe.row"}, {"relation": "probe.place"}
    row = {"at": field(type="datetime"), "day": field(type="date"), "done": field(type="boolean"), "name": field(type="char"),
           "note": field(type="text"), "qty": field(type="integer"),
           "state": field(type="selection", selection=[["draft", "draft"], ["done", "done"]]),
           "square": field(type="integer", compute="qty * qty", depends=["qty"], store=True),
           "owner": field(type="many2one", **to_row), "tags": field(type="many2many", **to_row),
           "lines": field(type="one2many", inverse="owner", **to_row)}
    place = {"name": field(type="char"), "size": field(type="integer"), "twice": field(type="integer", compute="size + size", depends=["size"]),
             "up": field(type="many2one", **to_place), "near": field(type="many2many", **to_place),
             "row": field(type="many2one", **to_row), "rows": field(type="many2many", **to_row)}
    made = schema.build([schema.ModelDef(name="probe.row", fields=row), schema.ModelDef(name="probe.place", fields=place, parent="up"),
                         schema.ModelDef(name="res.users")], 4)
    return [made.model("probe.row"), made.model("probe.place"), made.model("res.users")]


MODELS = models()


# ---- facts

class Facts:
    """Rows by model and id, each with its values by name."""

    def __init__(self):
        self.rows = {}

    def known(self, model, id_):
        return (model.name, id_) in self.rows

    def value(self, model, id_, field):
        return id_ if field.kind == "id" else self.rows[model.name, id_][field.name]


def id_(rng):
    return rng.choice((1, 2, 3, 4, 5, 11, 12))


def value(rng, field):
    """A random value of a field, as JSON and as the machine holds it."""
    kind = field.type
    if kind == "boolean":
        it = rng.random() < 0.5
        return it, it
    if kind == "integer":
        it = rng.choice((0, 1, 2, 3, 5, -1, 2 ** 63 - 1, -2 ** 63))
        return it, it
    if kind in ("one2many", "many2many"):
        it = sorted({id_(rng) for _ in range(rng.randint(0, 3))})
        return it, it
    if rng.random() < 0.25:
        return False, None
    if kind == "many2one":
        it = id_(rng)
        return it, it
    if kind == "date":
        it = rng.choice(DAYS)
        return it, read_date(it)
    if kind == "datetime":
        it = rng.choice(MOMENTS)
        return it, read_datetime(it)
    it = rng.choice(("draft", "done")) if kind == "selection" else rng.choice(TEXTS) * rng.choice((1, 1, 1, 3))
    return it, it


def path(rng, own):
    """The path of a row, below any others."""
    above = [it for it in (1, 2, 3, 4, 5, 11, 12) if it != own and rng.random() < 0.3]
    rng.shuffle(above)
    return "".join("%d/" % it for it in above + [own])


def rows(rng):
    facts, listed = Facts(), []
    for model in MODELS:
        for own in sorted({id_(rng) for _ in range(rng.randint(1, 4))}):
            given = {}
            facts.rows[model.name, own] = held = {}
            for field in model.fields.values():
                if field.kind == "id":
                    continue
                given[field.name], held[field.name] = value(rng, field)
            if model.parent is not None:
                given["parent_path"] = held["parent_path"] = path(rng, own)
            listed.append([model.name, own, given])
    return facts, listed


# ---- domains

def scalar(rng, field):
    """An operand that may fit a field."""
    kind = field.type
    if kind == "boolean":
        return rng.random() < 0.5
    if kind == "integer" or field.kind == "id":
        return rng.choice(NUMBERS[:8] + ({"user": "id"},)) if rng.random() < 0.4 else id_(rng)
    if kind == "date":
        return rng.choice(DAYS)
    if kind == "datetime":
        return rng.choice(DAYS + MOMENTS)
    if kind in domain.RELATIONS:
        return rng.choice((1, 2, 3, 4, 5, 11, 99, -1, {"user": "id"}))
    return rng.choice(TEXTS)


def anything(rng):
    return rng.choice((None, True, False, 0, 1, 1.5, "x", "", [], {}, {"user": "id"}, {"user": 1}, {"user": "id", "a": 1}, [[]], [1], [False],
                       [{"user": "id"}], 2 ** 63, "2024-02-30", "2024-02-29"))


def name(rng, model, depth=0):
    """A field of a model, often through others."""
    fields = sorted(model.fields.values(), key=lambda f: f.name)
    field = rng.choice([it for it in fields if it.is_stored or rng.random() < 0.1])
    if field.type in domain.RELATIONS and rng.random() < (0.5 if depth < 3 else 0.1):
        inner, last = name(rng, field.relation, depth + 1)
        return "%s.%s" % (field.name, inner), last
    return field.name, field


def criterion(rng, model, depth, broken):
    text, field = name(rng, model)
    fitting = ["=", "!=", "=?", "in", "not in"]
    if field.type in domain.RELATIONS:
        fitting += ["any", "not any"] * 3
    elif field.type != "boolean":
        fitting += ORDERS
    if field.type in domain.TEXTS:
        fitting += LIKES
    if (field.model if field.kind == "id" else field.relation) is not None and (field.model if field.kind == "id" else field.relation).parent is not None:
        fitting += TREES * 3
    op = rng.choice(fitting)
    if op in ("any", "not any"):
        operand = terms(rng, field.relation, depth + 1, broken) if depth < 3 else []
    elif op in LIKES:
        operand = rng.choice(PATTERNS)
    elif op in TREES:
        operand = rng.choice((False, id_(rng), [id_(rng), id_(rng)], [], {"user": "id"}))
    elif op in ("in", "not in"):
        operand = [it for it in (rng.choice((False, None, scalar(rng, field))) for _ in range(rng.randint(0, 3))) if not isinstance(it, dict)]
    else:
        operand = rng.choice((False, None, scalar(rng, field), scalar(rng, field), scalar(rng, field)))
    if broken and rng.random() < 0.3:
        change = rng.randrange(3)
        if change == 0:
            text = rng.choice(("nme", "", text + ".", "." + text, text + ".id", "twice", "up." * 16 + "name", "up." * 15 + "name", "row..name"))
        elif change == 1:
            op = rng.choice(OPERATORS + ("==", "", "LIKE", "not =", "not child_of"))
        else:
            operand = anything(rng)
    return [text, op, operand]


def term(rng, model, depth, broken):
    kind = rng.randrange(20)
    if kind == 0:
        return [rng.choice((0, 1)), "=", 1]
    if broken and kind == 1:
        return rng.choice((5, None, True, "?", [], ["name"], ["name", "="], ["name", "=", 1, 1], [2, "=", 1], [1, "!=", 1], [1, "=", 0], [1.0, "=", 1], [True, "=", 1], [1, "=", True],
                           ["name", 1, 1], {}, "&&"))
    return criterion(rng, model, depth, broken)


def prefix(rng, model, depth, broken, size):
    """The terms of one tree in prefix form."""
    if size <= 1:
        return [term(rng, model, depth, broken)]
    if rng.random() < 0.3:
        return ["!"] + prefix(rng, model, depth, broken, size - 1)
    left = rng.randint(1, size - 1)
    return [rng.choice("&|")] + prefix(rng, model, depth, broken, left) + prefix(rng, model, depth, broken, size - left)


def terms(rng, model, depth=0, broken=False):
    found = []
    for _ in range(rng.choice((0, 1, 1, 1, 2, 3))):
        found += prefix(rng, model, depth, broken, rng.randint(1, 4 if depth == 0 else 2))
    if broken and rng.random() < 0.2:
        found.insert(rng.randint(0, len(found)), rng.choice(("&", "|", "!")))
    if broken and depth == 0 and rng.random() < 0.03:
        return anything(rng)
    if broken and depth == 0 and rng.random() < 0.02:
        found = ["!"] * rng.randint(DOMAIN_TERMS_MAX - 8, DOMAIN_TERMS_MAX + 1) + found
    return found


# ---- the kind of a fault

def last_field(model, text):
    for step in text.split("."):
        field = model.fields[step]
        model = field.relation
    return field


def criterion_kind(model, text, op):
    steps = text.split(".")
    if len(steps) > 16:
        return "unknown field"
    at = model
    for n, step in enumerate(steps):
        field = at.fields.get(step)
        if field is None:
            return "unknown field"
        if not field.is_stored:
            return "field without stored values"
        if n + 1 < len(steps):
            if field.type not in domain.RELATIONS:
                return "wrong operator"
            at = field.relation
    if op not in OPERATORS or op in ("any", "not any"):
        return "wrong operator"
    if op in ORDERS and field.type not in ("integer", "date", "datetime") + domain.TEXTS or op in LIKES and field.type not in domain.TEXTS:
        return "wrong operator"
    tree = field.model if field.kind == "id" else field.relation
    if op in TREES and (tree is None or tree.parent is None):
        return "no tree"
    return "wrong operand"


def fault_kind(model, listed, below):
    """What is wrong at a place: it goes by the numbers of criteria, each followed by 2 for its operand."""
    if not below:
        return "no domain"
    text, op, operand = listed[below[0]]
    if len(below) == 1:
        return criterion_kind(model, text, op)
    return fault_kind(last_field(model, text).relation, operand, below[2:])


def domain_case(rng, _model):
    model = rng.choice(MODELS)
    facts, listed = rows(rng)
    user = rng.choice((1, 2, 3, 5))
    listed_terms = terms(rng, model, broken=rng.random() < 0.5)
    asked = "domain " + json.dumps({"model": model.name, "user": user, "rows": listed, "domain": listed_terms})
    try:
        read = domain.read(jsonio.read(json.dumps(listed_terms).encode()), model, ())
    except Request as fault:
        return asked, "%s at %s" % (fault_kind(model, listed_terms, fault.place), ".".join(map(str, fault.place)))
    met = [it for name_, it in sorted(facts.rows) if name_ == model.name and domain.holds(read, user, it, facts)]
    return asked, " ".join(map(str, met)) or "none"


MAKERS = {"domain": domain_case}
