"""What ask.py asks about tables: the first that edits break, or that they are sound, and what stands in the tables after them."""
import atexit
import collections
import random
import sys

from random_edits import Judge, Maker, line, misfit, tame, told_edit, told_value, wild
from random_models import family, registry, wide
from random_definitions import STAGE, with_users
import schema_lines
from stockd_oracle import jsonio, schema
from stockd_oracle.tables import Fault

KINDS = ("Required", "MissingRef", "Unique", "Tree", "Depth", "Check", "Overflow", "TooLong", "ZeroDivisor", "Limit", "Mixed")
FORMULA_KINDS = ("Check", "Overflow", "TooLong", "ZeroDivisor")
UNTIED = ("MissingRef", "Tree", "Depth")
FAULTS = {"Overflow": "overflow", "TooLong": "too long", "ZeroDivisor": "division by zero"}
# So many cases are asked over one registry.
CASES_OF_ONE = 10
COUNTS = collections.Counter()
sys.setrecursionlimit(20000)


def made(rng, schema):
    """Edits: half of them with sound tables, the others meant to break them in one of the ways."""
    maker = Maker(rng, schema)
    maker.rows()
    maker.more()
    if rng.random() < 0.02:
        maker.tower(rng.choice((63, 64)), tame)
    if rng.random() < 0.85:
        maker.mend()
    if rng.random() < 0.55:
        kind = rng.choice(KINDS)
        maker.break_as(kind)
        for _ in range(3):
            if maker.tables.broken():
                break
            maker.break_as(kind)
    return maker


def towering(rng, schema):
    """Edits that make trees as deep as they may be, or deeper."""
    maker = Maker(rng, schema)
    maker.rows()
    maker.mend()
    maker.tower(rng.choice((63, 64, 64, 64, 65, 66)), wild if rng.random() < 0.4 else tame)
    if rng.random() < 0.5:
        maker.mend()
    return maker


def question(rng, tables):
    """A question about tables."""
    model = rng.choice(list(tables.schema.models.values()))
    sort = rng.random()
    if sort < 0.1:
        return ["ids", model]
    if sort < 0.2:
        return ["next", model]
    there = tables.ids(model)
    id_ = rng.choice(there) if there and rng.random() < 0.97 else rng.choice((0, 1, 9, 2 ** 64 - 1))
    if sort < 0.4:
        return ["plain", model, id_, rng.choice(model.all_fields())]
    return ["value", model, id_, rng.choice([*model.all_fields(), *(model.computed() * 3)])]


def without_value(rng, tables):
    """Questions about cells that have no value."""
    broken = tables.broken()
    if not broken or broken[0].kind not in FORMULA_KINDS:
        return []
    found = [["value", m, i, f] for m in tables.schema.models.values() for i in tables.ids(m) for f in m.all_fields() if isinstance(tables.val(m, i, f), Fault)]
    return rng.sample(found, min(len(found), rng.randint(0, 4)))


def shown(field, value):
    """A value as the probe tells it."""
    if isinstance(value, Fault):
        return [FAULTS[value.kind]]
    if isinstance(value, tuple):
        return {"ids": list(value)}
    return value if isinstance(value, str) else told_value(field, value)


def told(tables, asked, is_tied):
    """The answer to a question."""
    word, model, *cell = asked
    if word == "ids":
        return tables.ids(model)
    if word == "next":
        return tables.next[model]
    id_, field = cell
    if word == "plain" and field.kind not in ("id", "plain") or word == "value" and not is_tied:
        return ["not asked"]
    if not tables.has(model, id_):
        return ["missing"]
    COUNTS["asked " + word] += 1
    value = tables.plain(model, id_, field) if word == "plain" else tables.val(model, id_, field)
    if isinstance(value, Fault):
        COUNTS["%s fault" % ("own" if value.own else "read")] += 1
    return shown(field, value)


def told_question(asked):
    return [it if isinstance(it, (str, int)) else it.name for it in asked]


def answer(tables, questions):
    """What edits that fit are answered."""
    broken = tables.broken()
    COUNTS[broken[0].kind if broken else "sound"] += 1
    is_tied = not broken or broken[0].kind in FORMULA_KINDS
    first = [broken[0].kind, broken[0].model.name, broken[0].id, broken[0].field] if broken else "sound"
    return line({"apply": first, "told": [told(tables, it, is_tied) for it in questions]})


def case(rng, maker):
    """A case of such edits, and what it is answered."""
    edits = maker.edits
    cut = rng.randint(0, len(edits)) if rng.random() < 0.5 else 0
    lists = [[told_edit(it) for it in part] for part in (edits[:cut], edits[cut:])]
    questions = [question(rng, maker.tables) for _ in range(rng.randint(2, 5))] + without_value(rng, maker.tables)
    is_spoilt = edits and all(it[0] != "makes" for it in edits) and rng.random() < 0.05
    wanted = spoilt(rng, maker, lists) if is_spoilt else None
    told = {"before": lists[0], "edits": lists[1], "ask": [told_question(it) for it in questions]}
    return line(told), wanted or answer(maker.tables, questions)


def over(entries, cases):
    """Cases over one registry, and what they are answered."""
    asked = 'tables {"definitions":%s,"cases":[%s]}' % (jsonio.write_text(schema_lines.line(entries)), ",".join(it for it, _ in cases))
    return asked, "[%s]" % ",".join(wanted for _, wanted in cases)


def spoilt(rng, maker, lists):
    """Puts an edit of any sort behind some: which don't fit, unless all do."""
    wrong = [[], []]
    for n, part in enumerate(lists):
        if part and rng.random() < 0.7:
            at = rng.randrange(len(part) + 1)
            edit, fits = misfit(rng, maker.schema, rng.choice(maker.edits))
            if not fits:
                part.insert(at, edit)
                wrong[n].append(at)
                COUNTS["misfit"] += 1
    if not any(wrong):
        return None
    return '{"before":%s,"edits":%s}' % (line(wrong[0]), line(wrong[1]))


def asked(rng, _model):
    """Edits over a registry, and what is answered."""
    entries, built = registry(rng)
    return over(entries, [case(rng, made(rng, built)) for _ in range(CASES_OF_ONE)])


def flood(rng):
    """Edits that give a row as many targets as it may have, or one more."""
    entries = wide()
    maker = Maker(rng, schema.build(with_users(entries), STAGE))
    maker.flood()
    return over(entries, [case(rng, maker)])


def towers(rng):
    """Cases of trees about as deep as they may be, over a chain of formulas."""
    while True:
        entries = family(rng, rng.choice((1, 4, 8, 9)))
        try:
            built = schema.build(with_users(entries), STAGE)
        except schema.SchemaFault:
            continue
        return over(entries, [case(rng, towering(rng, built)) for _ in range(CASES_OF_ONE)])


def deep():
    """Trees about as deep as they may be, over chains of formulas of every length; and some of many targets."""
    rng = random.Random(1)
    return [flood(rng) for _ in range(4)] + [towers(rng) for _ in range(30)]


def tell_counts():
    """Prints how often each kind was told first."""
    if COUNTS:
        print("tables: " + ", ".join("%s %d" % it for it in sorted(COUNTS.items())))


atexit.register(tell_counts)
MAKERS = {"tables": asked}
RUNS = {"tables_deep": deep}
