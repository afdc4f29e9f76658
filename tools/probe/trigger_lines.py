"""What ask.py asks about closures: changes between tables whose rows can be followed. Of each the cells that it edits are wanted, and
of those that it reaches a set that holds each computed cell which it changes and lies within those which it can reach."""
import atexit
import collections
import json

import schema_lines
from random_edits import Judge, Maker, line, tame, told_edit, wild
from random_models import registry
from tables_lines import FORMULA_KINDS, UNTIED
from stockd_oracle import bounds, jsonio
from stockd_oracle.tables import Fault
from stockd_oracle.values import ID_MAX

# So many changes are asked over one registry.
CASES_OF_ONE = 10
COUNTS = collections.Counter()


# ---- changes

def put_value(maker):
    """Another value of a field that leads to no row."""
    rng = maker.rng
    maker.set_some(lambda f: f.relation is None, lambda f: (tame if rng.random() < 0.9 else wild)(rng, f, maker.ids))


def put_target(maker):
    """Other rows to which a row leads, its parent in a tree among them."""
    maker.set_some(lambda f: f.relation is not None, lambda f: tame(maker.rng, f, maker.ids))


def put_targets(maker):
    """Other targets of a many2many."""
    maker.set_some(lambda f: f.type == "many2many", lambda f: tame(maker.rng, f, maker.ids))


def move(maker):
    """Another parent of a row in a tree."""
    maker.set_some(lambda f: f is f.model.parent, lambda f: tame(maker.rng, f, maker.ids))


def make(maker):
    """A row that is new, or that is made anew."""
    rng = maker.rng
    model = rng.choice(maker.models)
    id_ = rng.choice((*range(1, 12), ID_MAX))
    maker.do("make", model, id_, maker.values(model, len(maker.ids[model])))


def take_away(maker):
    row = maker.row()
    if row:
        maker.do("gone", *row)


def make_faulty(maker):
    """Values with which formulas may have none."""
    maker.break_as(maker.rng.choice(FORMULA_KINDS))


WAYS = (put_value, put_value, put_target, put_target, put_targets, move, make, take_away, make_faulty)


def tie(maker):
    """Takes away what keeps rows from being followed; whether they can be, then."""
    for _ in range(60):
        untied = [it for it in maker.tables.broken() if it.kind in UNTIED]
        if not untied:
            maker.ids = {m: maker.tables.ids(m) for m in maker.models}
            return True
        maker.mend_first(untied[0])
    return False


def begun(rng, schema):
    """Tables whose rows can be followed."""
    while True:
        maker = Maker(rng, schema)
        maker.rows()
        maker.more()
        if rng.random() < 0.02:
            maker.tower(rng.choice((20, 63)), tame)
        if tie(maker):
            return maker


def change(rng, schema):
    """Edits that make tables, and those of a change of them."""
    while True:
        maker = begun(rng, schema)
        before, rows = maker.edits, maker.tables.copy().rows
        maker.edits = []
        for _ in range(rng.choice((1, 1, 2, 2, 3, 6))):
            rng.choice(WAYS)(maker)
        # Few change nothing.
        if tie(maker) and (maker.tables.rows != rows or rng.random() < 0.1):
            return before, maker.edits


# ---- what is wanted

def after(schema, edits):
    tables = Judge(schema)
    for edit in edits:
        tables.do(edit)
    return tables


def field_of(model, name):
    return model.fields.get(name) or model.hidden[name]


def in_order(cells):
    """Cells by the numbers of their models, their ids and the numbers of their fields, as the probe tells them."""
    found = sorted((m.number, i, field_of(m, name).number, m.name, name) for m, i, name in cells)
    return [(model, id_, name) for _, id_, _, model, name in found]


class Bounds:
    """What a change edits, and two sets of cells between which lies what it reaches."""

    def __init__(self, before, behind):
        found = bounds.edited(before, behind)
        self.edited = in_order(found)
        self.changed, self.affected = in_order(bounds.changed(before, behind)), in_order(bounds.affected(before, behind))
        old, new = ({(m, i) for m, rows in it.rows.items() for i in rows} for it in (before, behind))
        kinds = [field_of(m, name) for m, i, name in found if (m, i) in old & new]
        sorts = {"that edit nothing": not found, "with rows that are gone": old - new, "with new rows": new - old,
                 "with rows moved in a tree": any(f is f.model.parent for f in kinds),
                 "with other many2ones": any(f.type == "many2one" and f is not f.model.parent for f in kinds),
                 "with other many2manys": any(f.type == "many2many" and f.is_plain_kept for f in kinds),
                 "that change cells": self.changed, "with more affected than changed": len(self.affected) > len(self.changed),
                 "with cells that have no value": any(isinstance(it, Fault) for it in (*before.vals.values(), *behind.vals.values()))}
        self.sorts = [sort for sort, holds in sorts.items() if holds]

    def holds(self, answer):
        """Whether an answer keeps to that; what it says is counted."""
        edited, given = ([tuple(it) for it in answer[key]] for key in ("edited", "closed"))
        COUNTS.update({"cases": 1, "cells edited": len(edited), "cells changed": len(self.changed), "cells given": len(given), "cells affected": len(self.affected)})
        COUNTS.update("cases " + sort for sort in self.sorts)
        COUNTS["cases with more given than changed"] += len(given) > len(self.changed)
        COUNTS["cases with fewer given than affected"] += len(given) < len(self.affected)
        there = set(given)
        # Those that are given stand in the order of those that may be, each once.
        return edited == self.edited and given == [it for it in self.affected if it in there] and there.issuperset(self.changed)

    def __str__(self):
        return line({key: [list(it) for it in getattr(self, key)] for key in ("edited", "affected", "changed")})


class AllBounds:
    """What is wanted of a line: it is equal to each answer that keeps to the bounds of its cases."""

    def __init__(self, cases):
        self.cases = cases

    def __eq__(self, answer):
        try:
            told = json.loads(answer)
            return len(told) == len(self.cases) and all([it.holds(case) for it, case in zip(self.cases, told)])
        except (ValueError, TypeError, KeyError):
            return False

    def __str__(self):
        return "[%s]" % ",".join(map(str, self.cases))


def asked(rng, _model):
    """Changes over a registry, and what each may reach."""
    entries, schema = registry(rng)
    cases, wanted = [], []
    for _ in range(CASES_OF_ONE):
        before, edits = change(rng, schema)
        cases.append(line({"before": [told_edit(it) for it in before], "edits": [told_edit(it) for it in edits]}))
        wanted.append(Bounds(after(schema, before), after(schema, before + edits)))
    return 'closes {"definitions":%s,"cases":[%s]}' % (jsonio.write_text(schema_lines.line(entries)), ",".join(cases)), AllBounds(wanted)


def tell_counts():
    """Prints how many cells and cases there were of each sort."""
    if COUNTS:
        print("closes: " + ", ".join("%s %d" % it for it in sorted(COUNTS.items())))


atexit.register(tell_counts)
MAKERS = {"closes": asked}
