"""Random edits over the models of a registry: rows, what mends them, and what breaks them in a given way.

An edit is a tuple: `make`, the model, the id and the values by field; `makes`, the model, the first and the last id and the
values; `set`, the model, the id, the field and the value; `gone`, the model and the id. A value is as the machine holds it.
"""
from stockd_oracle import jsonio, tables
from stockd_oracle.tables import Fault
from stockd_oracle.values import CHAR_MAX, DAY_MAX, DAY_MIN, HAS_UNSET, I64_MAX, I64_MIN, ID_MAX, TARGETS_MAX, TEXT_MAX, X2MANY

MOMENT_MIN, MOMENT_MAX = DAY_MIN * 86400, DAY_MAX * 86400 + 86399
TAME = (1, 1, 2, 2, 3, 5, 12, -1, -5, 8, 9)
WILD = (0, 0, 7, 1000, 46341, 3037000499, 3037000500, 3000000000, 10 ** 10, 9 * 10 ** 18, I64_MAX, I64_MAX - 1, I64_MIN, I64_MIN + 1, -(10 ** 10), 2 ** 62, 2 ** 32)
TEXTS = ("", "a", "b", "c", "ab", "é", "\U0001f529", "a/b", "x y")
LONG = (("a", CHAR_MAX), ("a", CHAR_MAX - 1), ("a", CHAR_MAX // 2), ("a", CHAR_MAX // 2 + 1), ("é", CHAR_MAX // 2), ("b", CHAR_MAX - 3), ("a", 4095), ("\U0001f529", 2048))
LONGER = (("a", TEXT_MAX - 1), ("a", 32768), ("a", 32769), ("é", 16384), ("b", 65000), ("a", 8192), ("a", 8190), ("\U0001f529", 16383), ("a", 22000))


class Judge(tables.Tables):
    """The machine's tables, which tell of a cell that reads one without a value what that one lacks. An id past the greatest integer reads as that."""

    def plain(self, model, id_, field):
        value = super().plain(model, id_, field)
        return min(value, I64_MAX) if field.kind == "id" else value

    def val(self, model, id_, field):
        value = super().val(model, id_, field)
        if isinstance(value, Fault) and value.kind == "read":
            value = self.vals[model, id_, field.name] = Fault(self.lack, False)
        return value

    def read(self, model, id_, field):
        value = self.val(model, id_, field)
        if isinstance(value, Fault):
            self.lack = value.kind
            raise tables.ReadFault()
        return value

    def do(self, edit):
        kind, model, *parts = edit
        if kind == "make":
            self.make(model, parts[0], {f.name: v for f, v in parts[1].items()})
        elif kind == "makes":
            for id_ in range(parts[0], parts[1] + 1):
                self.make(model, id_, {f.name: v for f, v in parts[2].items()})
        elif kind == "set":
            self.set(model, parts[0], parts[1].name, parts[2])
        else:
            self.gone(model, parts[0])


# ---- as the probe reads them

def text(value):
    """A text, or how often what it consists of stands in it."""
    piece = value[:1]
    if len(value) > 20 and value == piece * len(value) and len(value) < 65536:
        return {"word": [len(value), piece]}
    return value


def told_value(field, value):
    """A value as JSON."""
    if value is None or field.type in ("boolean", "integer"):
        return value
    if field.type in X2MANY:
        if len(value) > 100:
            return {"range": [value[0], value[-1]]}
        return {"ids": list(value)}
    sort = {"many2one": "id", "date": "day", "datetime": "moment"}.get(field.type)
    return {sort: value} if sort else text(value)


def told_edit(edit):
    """An edit as JSON."""
    kind, model, *parts = edit
    told = [kind, model.name]
    for part in parts:
        if isinstance(part, dict):
            told.append([[f.name, told_value(f, v)] for f, v in part.items()])
        elif isinstance(part, int) and len(told) < 4:
            told.append(part)
        elif part is parts[-1] and kind == "set":
            told.append(told_value(parts[1], part))
        else:
            told.append(part.name)
    return told


def line(words):
    return jsonio.write_text(words)


# ---- values

def plain_fields(model):
    return [f for f in model.fields.values() if f.is_plain_kept]


def tame(rng, field, ids):
    """A value that may well be sound, where these ids of each model are there."""
    kind = field.type
    if kind == "boolean":
        return rng.random() < 0.5
    if kind == "integer":
        return rng.choice(TAME)
    if kind == "many2many":
        targets = ids[field.relation]
        return tuple(sorted(rng.sample(targets, rng.randint(0, min(4, len(targets))))))
    if rng.random() < 0.12:
        return None
    if kind == "many2one":
        return rng.choice(ids[field.relation]) if ids[field.relation] else None
    if kind == "date":
        return rng.choice((0, 1, 2, 19000, 19001, DAY_MIN, DAY_MAX))
    if kind == "datetime":
        return rng.choice((0, 1, 1700000000, MOMENT_MIN, MOMENT_MAX))
    if kind == "selection":
        return rng.choice(field.selection)[0] if field.selection else None
    return rng.choice(TEXTS) * rng.choice((1, 1, 1, 3))


def given(rng, field, ids):
    """A value that a required field may have, if there is one."""
    for _ in range(20):
        value = tame(rng, field, ids)
        if value is not None:
            return value
    return None


def wild(rng, field, ids):
    """A value that fits, and may break much."""
    kind = field.type
    if kind == "integer":
        return rng.choice(WILD)
    if kind == "char" and rng.random() < 0.5:
        piece, count = rng.choice(LONG)
        return piece * count
    if kind == "text" and rng.random() < 0.5:
        piece, count = rng.choice(LONGER)
        return piece * count
    if kind == "many2one" and rng.random() < 0.3:
        return rng.choice((0, 9, 10, ID_MAX + 1, 2 ** 64 - 1))
    if kind == "many2many" and rng.random() < 0.3:
        return tuple(sorted({*tame(rng, field, ids), rng.choice((0, 9, 77, 2 ** 64 - 1))}))
    return None if kind not in ("boolean", "many2many") and rng.random() < 0.2 else tame(rng, field, ids)


class Maker:
    """Edits as they are made, with the tables after them."""

    def __init__(self, rng, schema):
        self.rng, self.schema = rng, schema
        self.models = list(schema.models.values())
        self.tables = Judge(schema)
        self.edits = []
        self.ids = {m: [] for m in self.models}

    def do(self, *edit):
        self.edits.append(edit)
        self.tables.do(edit)

    # ---- rows

    def rows(self):
        """Some rows of each model, which name one another."""
        rng, made = self.rng, []
        for model in self.models:
            self.ids[model] = rng.sample((1, 2, 3, 4, 5, 6, 7, 8, ID_MAX), rng.choice((0, 1, 2, 3, 4)))
            made += [(model, n) for n in range(len(self.ids[model]))]
        if rng.random() < 0.7:
            rng.shuffle(made)
        for model, n in made:
            self.do("make", model, self.ids[model][n], self.values(model, n))

    def values(self, model, n=None):
        """Values of some fields of a row; of a tree's row of this place one before it as its parent."""
        rng, found = self.rng, {}
        for field in plain_fields(model):
            if field is model.parent:
                before = self.ids[model][:n]
                if before and rng.random() < 0.75:
                    found[field] = rng.choice(before)
            elif rng.random() < (0.95 if field.required or field.type == "integer" else 0.2 if field.auto else 0.6):
                found[field] = tame(rng, field, self.ids)
        return found

    def row(self, models=None):
        """A row that is there."""
        found = [(m, i) for m in models or self.models for i in self.tables.ids(m)]
        return self.rng.choice(found) if found else None

    # ---- what mends

    def mend(self):
        """Takes away what is broken first, for some rounds."""
        for _ in range(14):
            broken = self.tables.broken()
            if not broken:
                return
            self.mend_first(broken[0])

    def mend_first(self, b):
        rng, model = self.rng, b.model
        field = model.fields.get(b.field)
        if b.kind == "MissingRef" and not field.required:
            self.do("set", model, b.id, field, () if field.type == "many2many" else None)
        elif b.kind in ("Required", "MissingRef") and (field.relation is None or self.tables.ids(field.relation)):
            value = given(rng, field, {m: self.tables.ids(m) for m in self.models})
            if value is not None:
                self.do("set", model, b.id, field, value)
            else:
                self.do("gone", model, b.id)
        elif b.kind in ("Tree", "Depth"):
            self.do("set", model, b.id, field, None)
        elif b.kind in ("Limit", "Required", "MissingRef") or rng.random() < 0.4:
            self.do("gone", model, b.id)
        else:
            self.renew(model, b.id)

    def renew(self, model, id_):
        """Gives a row's fields other values."""
        there = {m: self.tables.ids(m) for m in self.models}
        for field in plain_fields(model):
            if field is not model.parent and field.type in ("integer", "char", "boolean", "date") and self.rng.random() < 0.6:
                self.do("set", model, id_, field, tame(self.rng, field, there))

    # ---- what else is done

    def more(self):
        """Edits of rows that are there, and of some that aren't; rows that are made twice."""
        rng = self.rng
        for _ in range(rng.choice((0, 0, 1, 2, 4))):
            model = rng.choice(self.models)
            fields = plain_fields(model)
            id_ = rng.choice([*self.ids[model], rng.randint(1, 9)])
            sort = rng.random()
            if sort < 0.5 and fields:
                field = rng.choice(fields)
                if field is not model.parent:
                    self.do("set", model, id_, field, tame(rng, field, self.ids))
            elif sort < 0.7:
                self.do("make", model, id_, self.values(model, 0))
                self.ids[model] = sorted({*self.ids[model], id_})
            else:
                self.do("gone", model, id_)

    # ---- what breaks

    def pick(self, holds):
        """A row and a field of it of which this holds, if there is one."""
        found = [(m, i, f) for m in self.models for f in plain_fields(m) if holds(f) for i in self.tables.ids(m)]
        return self.rng.choice(found) if found else None

    def set_some(self, holds, value):
        found = self.pick(holds)
        if found:
            model, id_, field = found
            self.do("set", model, id_, field, value(field))

    def break_as(self, kind):
        getattr(self, "break_" + kind.lower())()

    def break_required(self):
        self.set_some(lambda f: f.required and f.type in HAS_UNSET, lambda f: None)

    def break_missingref(self):
        rng = self.rng
        if rng.random() < 0.4:
            row = self.row()
            if row:
                self.do("gone", *row)
        else:
            self.set_some(lambda f: f.type in ("many2one", "many2many"), lambda f: rng.choice((0, 9, 10, ID_MAX + 1)) if f.type == "many2one" else tuple(sorted({*tame(rng, f, self.ids), rng.choice((0, 9, 2 ** 40))})))

    def break_unique(self):
        rng = self.rng
        found = [(m, fields) for m in self.models for fields in m.unique if len(self.tables.ids(m)) > 1]
        if found:
            model, fields = rng.choice(found)
            one, two = rng.sample(self.tables.ids(model), 2)
            for field in fields:
                value = self.tables.rows[model][one][field.name]
                if value is None and rng.random() < 0.8:
                    value = tame(rng, field, self.ids)
                    self.do("set", model, one, field, value)
                self.do("set", model, two, field, value)

    def break_tree(self):
        rng = self.rng
        found = [m for m in self.models if m.parent is not None and self.tables.ids(m)]
        if found:
            model = rng.choice(found)
            circle = rng.sample(self.tables.ids(model), rng.randint(1, min(3, len(self.tables.ids(model)))))
            for one, other in zip(circle, circle[1:] + circle[:1]):
                self.do("set", model, one, model.parent, other)

    def break_depth(self):
        self.tower(self.rng.choice((65, 65, 66, 67, 70)), tame)

    def break_limit(self):
        rng, model = self.rng, self.rng.choice(self.models)
        id_ = rng.choice((0, 0, ID_MAX + 1, ID_MAX + 2, 2 ** 64 - 2))
        self.ids[model].append(id_)
        self.do("make", model, id_, self.values(model, 0))

    def break_overflow(self):
        rng = self.rng
        for _ in range(rng.choice((1, 1, 2, 3))):
            self.set_some(lambda f: f.type == "integer", lambda f: rng.choice(WILD))

    def break_zerodivisor(self):
        rng = self.rng
        for _ in range(rng.choice((1, 1, 2, 3))):
            self.set_some(lambda f: f.type == "integer", lambda f: rng.choice((0, 0, 1, 2, 7)))

    def break_toolong(self):
        rng = self.rng
        for _ in range(rng.choice((1, 2))):
            self.set_some(lambda f: f.type in ("char", "text"), lambda f: "".join(piece * count for piece, count in [rng.choice(LONG if f.type == "char" else LONGER)]))

    def break_check(self):
        rng = self.rng
        for _ in range(rng.choice((1, 2, 4))):
            self.set_some(lambda f: f.type in ("integer", "boolean", "date", "char"), lambda f: rng.choice((1000, 50, 9, 101, 3, 2)) if f.type == "integer" else tame(rng, f, self.ids))

    def break_mixed(self):
        rng = self.rng
        for _ in range(rng.randint(1, 5)):
            self.set_some(lambda f: True, lambda f: wild(rng, f, self.ids))

    # ---- towers

    def tower(self, height, value):
        """A tree's rows, each below another one, so many in all; and a few rows beside them."""
        rng = self.rng
        found = [m for m in self.models if m.parent is not None]
        if not found:
            return
        model, share = rng.choice(found), rng.choice((0.02, 0.1))
        order = list(range(11, 11 + height))
        if rng.random() < 0.6:
            order.sort(key=lambda it: rng.random() if rng.random() < 0.3 else -it)
        made = []
        for below, own in zip([None, *order], order):
            values = self.values(model, 0)
            values.update({f: given(rng, f, self.ids) for f in plain_fields(model) if f.required})
            values.update({f: value(rng, f, self.ids) for f in plain_fields(model) if f.type == "integer" and rng.random() < share})
            values[model.parent] = below
            made.append((own, values))
        if rng.random() < 0.5:
            rng.shuffle(made)
        for own, values in made:
            self.do("make", model, own, values)

    def flood(self):
        """A row with as many targets as there may be, or one more."""
        found = [(m, f) for m in self.models for f in plain_fields(m) if f.type == "many2many"]
        if found:
            model, field = self.rng.choice(found)
            last = self.rng.choice((TARGETS_MAX, TARGETS_MAX + 1))
            self.do("makes", field.relation, 1, last, {})
            self.do("make", model, last + 1 if model is field.relation else 1, {field: tuple(range(1, last + 1))})


# ---- which edits fit

def misfit(rng, schema, edit):
    """An edit near another one, as JSON, and whether it fits."""
    model, told = edit[1], told_edit(edit)
    field, value, fits = field_value(rng, model)
    ways = [(["set", model.name, rng.choice((1, 2)), field, value], fits), (["set", model.name, 2 ** 64 - 1, field, value], False),
            (["make", model.name, 1, [[field, value]]], fits), (["make", model.name, 1, [[field, value], [field, value]]], False)]
    if told[0] in ("make", "gone"):
        values = [[]] if told[0] == "make" else []
        ways += [([*told[:2], 2 ** 64 - 1, *told[3:]], False), ([*told[:2], 2 ** 64 - 2, *told[3:]], True),
                 ([told[0], rng.choice((0, len(schema.models) + 1, 65535)), told[2], *values], False)]
    return rng.choice(ways)


def field_value(rng, model):
    """A field of a model or none, a value of some sort, and whether rows keep such a value for the field."""
    field = rng.choice([*model.all_fields(), *plain_fields(model), *plain_fields(model)])
    value, kinds = rng.choice((
        (None, ("char", "text", "selection", "date", "datetime", "many2one")), (True, ("boolean",)), (5, ("integer",)), ({"id": 0}, ("many2one",)), ({"id": 2 ** 64 - 1}, ("many2one",)),
        ({"ids": []}, ("many2many",)), ({"ids": [0, 2 ** 64 - 1]}, ("many2many",)), ({"range": [1, 70000]}, ("many2many",)) if rng.random() < 0.05 else ({"range": [1, 3]}, ("many2many",)),
        ({"day": DAY_MAX}, ("date",)), ({"day": DAY_MAX + 1}, ()), ({"day": DAY_MIN}, ("date",)), ({"day": DAY_MIN - 1}, ()), ({"moment": MOMENT_MAX}, ("datetime",)), ({"moment": MOMENT_MAX + 1}, ()),
        ({"moment": MOMENT_MIN}, ("datetime",)), ({"moment": MOMENT_MIN - 1}, ()), ("x", ("char", "text", "selection")), ("X", ("char", "text")), ("", ("char", "text", "selection")),
        ({"word": [CHAR_MAX, "a"]}, ("char", "text")), ({"word": [CHAR_MAX + 1, "a"]}, ("text",)), ({"word": [CHAR_MAX // 2, "é"]}, ("char", "text")), ({"word": [CHAR_MAX // 2 + 1, "é"]}, ("text",)),
        ({"word": [16384, "\U0001f529"]}, ("text",)), ({"word": [16385, "\U0001f529"]}, ())))
    fits = field.is_plain_kept and field.type in kinds
    if field.type == "selection" and isinstance(value, str):
        fits = fits and any(value == key for key, _ in field.selection)
    if rng.random() < 0.05:
        return rng.choice((0, len(model.all_fields()) + 1, 65535)), value, False
    return rng.choice((field.name, field.number)), value, fits
