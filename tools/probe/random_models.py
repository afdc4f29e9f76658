"""Random definitions without a fault whose tables may break in every way: a tree, rows with unique sets, checks and chains of formulas, tags that mirror them, heirs, lines."""
from random_definitions import STAGE, definitions, with_users
from stockd_oracle import schema
from stockd_oracle.schema import FieldDef, ModelDef

# Such as any of random_definitions makes are taken only where they are as small as this.
MODELS_MAX, FIELDS_MAX = 6, 60


def some(rng, items, share=0.5):
    """Some of the items, in their order."""
    return [it for it in items if rng.random() < share]


def formula(type_, text, depends, recursive=None, store=True):
    return FieldDef(type=type_, compute=text, depends=list(depends), recursive=recursive, store=store)


def relation(type_, model, **keys):
    return FieldDef(type=type_, relation=model, **keys)


UPWARDS = {
    "depth": ("integer", "up.depth + 1", ["up.depth"]),
    "power": ("integer", "if(up = unset, weight, weight * up.power)", ["weight", "up.power"]),
    "ratio": ("integer", "if(up = unset, 5, 100 div up.ratio - weight)", ["weight", "up.ratio"]),
    "full": ("char", "cat(up.full, name, '/')", ["name", "up.full"]),
    "paper": ("text", "cat(up.paper, note, text(weight))", ["note", "weight", "up.paper"]),
    "odd": ("boolean", "up = unset or not up.odd", ["up.odd"]),
    "since": ("date", "if(on = unset, up.since, on)", ["on", "up.since"]),
}
DOWNWARDS = {
    "total": ("integer", "weight + sum(kids, total)", ["weight", "kids.total"]),
    "most": ("integer", "max2(weight, max(kids, most))", ["weight", "kids.most"]),
    "whole": ("boolean", "all(kids, whole) and weight mod 3 != 0", ["weight", "kids.whole"]),
    "below": ("integer", "count(kids) + sum(kids, below)", ["kids.below"]),
    "share": ("integer", "60 div (weight - count(kids, share > 0))", ["weight", "kids.share"]),
    "last": ("date", "if(on = unset, max(kids, last), on)", ["on", "kids.last"]),
    "deep": ("integer", "min2(1000, 1 + max(kids, deep * deep))", ["kids.deep"]),
}


def tree(rng):
    """A tree with formulas along it, upwards and downwards."""
    fields = {"name": FieldDef(type="char", required=rng.random() < 0.4), "up": relation("many2one", "m.t"), "kids": relation("one2many", "m.t", inverse="up"),
              "weight": FieldDef(type="integer"), "note": FieldDef(type="text"), "on": FieldDef(type="date")}
    found = some(rng, [*UPWARDS.items(), *DOWNWARDS.items()], 0.25)
    fields.update({name: formula(*it, recursive=True) for name, it in found})
    if {"depth", "total"} <= set(fields):
        fields["mix"] = formula("integer", "depth * total", ["depth", "total"])
        fields["above"] = formula("integer", "up.mix - mix", ["up.mix", "mix"], store=rng.choice((True, None)))
    checks = {"light": ("weight < 1000"), "named": "name != '' or up = unset", "rooted": "up = unset or up.weight >= weight"}
    return ModelDef(name="m.t", parent="up" if rng.random() < 0.95 or found else None, fields=fields,
                    unique=some(rng, [["name"], ["name", "up"], ["up", "weight"]], 0.15), checks=dict(some(rng, checks.items(), 0.12)))


def step(rng, last, known):
    """A formula over the last one of a chain, with its paths."""
    ways = [(f"{last} + 1", [last]), (f"{last} * {last}", [last]), (f"{last} * qty", [last, "qty"]), (f"{last} - price", [last, "price"]), (f"120 div {last}", [last]),
            (f"{last} mod qty", [last, "qty"]), (f"-{last}", [last]), (f"if(done, {last}, 0 - {last})", ["done", last]), (f"min2({last}, qty)", [last, "qty"]),
            (f"max2({last}, price) + tree.weight", [last, "price", "tree.weight"]), (f"next.{last} + {last}", [f"next.{last}", last]),
            (f"sum(tags, rank) + {last}", ["tags.rank", last]), (f"{last} + count(next.tags, rank > {last[1:]})", [last, "next.tags.rank"]),
            (f"next.next.{last} - tree.up.weight + {last}", [f"next.next.{last}", "tree.up.weight", last]), (f"sum(lines, amount * 2) + {last}", ["lines.amount", last])]
    if "depth" in known and last == "c0":
        ways += [(f"tree.depth * {last}", ["tree.depth", last])] * 3
    if "total" in known and last == "c0":
        ways += [(f"tree.total + {last}", ["tree.total", last])] * 3
    return rng.choice(ways)


def chain(rng, count, known):
    """Formulas each over the one before, in whatever order their names have."""
    found = {"c0": formula("integer", *rng.choice((("qty * qty", ["qty"]), ("qty * price", ["qty", "price"]), ("qty + price", ["qty", "price"]), ("100 div qty", ["qty"]))))}
    for n in range(1, count):
        found["c%d" % n] = formula("integer", *step(rng, "c%d" % (n - 1), known))
    return found


TEXTS = {
    "label": ("char", "cat(code, tree.name, code)", ["code", "tree.name"]),
    "double": ("text", "cat(note, note)", ["note"]),
    "told": ("char", "cat(text(c0), '-', kind, note)", ["c0", "kind", "note"]),
    "early": ("date", "if(on < due, on, due)", ["on", "due"]),
    "at_last": ("datetime", "if(done, at, unset)", ["done", "at"]),
    "parts": ("integer", "sum(lines, part)", ["lines.part"]),
    "first": ("date", "min(tags, on)", ["tags.on"]),
    "is_late": ("boolean", "any(tags, on = unset) and due > on", ["tags.on", "due", "on"]),
    "name_of": ("char", None, "tree.name"),
    "rate": ("integer", "qty mod price", ["qty", "price"]),
}
CHECKS = {"few": "qty < 1000 or c0 = 0", "coded": "not done or code != unset", "order": "on = unset or due = unset or on <= due", "tagged": "count(tags) < 3",
          "even": "qty mod 2 = 0 or price mod (qty - 7) != 1", "light": "tree.weight < 100", "alone": "next != unset or count(lines) < 2", "A z": "min2(qty, price) > -100"}
UNIQUE = (["code"], ["code", "tree"], ["kind", "on"], ["tags"], ["qty", "done", "code"], ["at"], ["next"], ["note"], ["price", "kind", "tree"])


def items(rng, known, count):
    fields = {"code": FieldDef(type="char", required=rng.random() < 0.2), "note": FieldDef(type="text"), "kind": FieldDef(type="selection", selection=[["x", "X"], ["y", "Y"], ["", "none"]]),
              "on": FieldDef(type="date"), "due": FieldDef(type="date", required=rng.random() < 0.1), "at": FieldDef(type="datetime"), "done": FieldDef(type="boolean"), "qty": FieldDef(type="integer"),
              "price": FieldDef(type="integer"), "tree": relation("many2one", "m.t", required=rng.random() < 0.1), "tags": relation("many2many", "m.g"), "next": relation("many2one", "m.i"),
              "lines": relation("one2many", "m.l", inverse="order")}
    fields.update(chain(rng, count, known))
    for name, (type_, text, depends) in some(rng, TEXTS.items(), 0.35):
        fields[name] = formula(type_, text, depends) if text else FieldDef(type=type_, related=depends, store=True)
    return ModelDef(name="m.i", fields=fields, unique=some(rng, UNIQUE, 0.15), checks=dict(some(rng, CHECKS.items(), 0.2)), locked=rng.choice((None, None, "qty mod (price - 7) = 1", "tree.up = unset and done")))


def tags(rng, last):
    fields = {"name": FieldDef(type="char"), "rank": FieldDef(type="integer"), "on": FieldDef(type="date"), "items": relation("many2many", "m.i", mirror="tags")}
    ways = {"worths": ("integer", f"sum(items, {last})", [f"items.{last}"]), "count": ("integer", "count(items, qty > 5)", ["items.qty"]), "some": ("boolean", "any(items, done) and rank > 0", ["items.done", "rank"]),
            "least": ("integer", "100 div min(items, qty)", ["items.qty"]), "latest": ("datetime", "max(items, at)", ["items.at"]), "others": ("integer", "sum(items, count(tags))", ["items.tags"])}
    fields.update({name: formula(*it) for name, it in some(rng, ways.items(), 0.35)})
    return ModelDef(name="m.g", fields=fields, unique=some(rng, [["name"], ["rank", "on"]], 0.2))


def lines(rng, count):
    fields = {"order": relation("many2one", "m.i", required=rng.random() < 0.5), "amount": FieldDef(type="integer"),
              "part": formula("integer", "amount * order.price", ["amount", "order.price"])}
    if rng.random() < 0.3:
        fields["over"] = formula("integer", f"amount * 1000000 + order.c{count - 1}", ["amount", f"order.c{count - 1}"])
    return ModelDef(name="m.l", fields=fields, checks={"some": "amount != 9"} if rng.random() < 0.2 else None)


def heirs(rng, count):
    """A model that has the fields of a row's item, and perhaps of its place in the tree."""
    fields = {"more": FieldDef(type="char"), "extra": FieldDef(type="integer")}
    last = "c%d" % (count - 1)
    ways = {"twice": ("integer", f"{last} + {last} + extra", [last, "extra"]), "both": ("char", "cat(code, more)", ["code", "more"]), "near": ("integer", "extra div tree.weight", ["extra", "tree.weight"]),
            "marks": ("integer", "count(tags, rank > 1) - extra", ["tags.rank", "extra"])}
    fields.update({name: formula(*it) for name, it in some(rng, ways.items(), 0.4)})
    inherits = [["m.i", "item"]] + ([["m.t", "place"]] if rng.random() < 0.3 else [])
    checks = {"bound": "extra < qty or extra = 0", "known": "code != unset or more != unset"}
    return ModelDef(name="m.h", inherits=inherits, fields=fields, unique=some(rng, [["more", "item"], ["item"]], 0.2), checks=dict(some(rng, checks.items(), 0.2)))


def extended(rng):
    """An entry that adds to the items."""
    return ModelDef(inherit="m.i", fields={"side": FieldDef(type="integer"), "square": formula("integer", "side * side", ["side"])}, unique=some(rng, [["side", "code"]]), checks=dict(some(rng, {"side": "side < 50 or done"}.items())))


def family(rng, count=None):
    """Models that name one another."""
    count = count or rng.choice((1, 2, 3, 4, 8))
    first = tree(rng)
    found = [first, items(rng, first.fields, count), tags(rng, "c%d" % (count - 1)), lines(rng, count)]
    if rng.random() < 0.6:
        found.append(heirs(rng, count))
    if rng.random() < 0.3:
        found.append(extended(rng))
    if rng.random() < 0.2:
        found.append(ModelDef(name="m.u", inherit="m.l"))
    return found


def wide():
    """Rows that may name many others, with few formulas over them."""
    rows = {"tags": relation("many2many", "m.g"), "all": formula("integer", "sum(tags, rank)", ["tags.rank"])}
    named = {"rank": FieldDef(type="integer"), "rows": relation("many2many", "m.i", mirror="tags"), "many": formula("integer", "count(rows)", ["rows"])}
    return [ModelDef(name="m.i", fields=rows), ModelDef(name="m.g", fields=named)]


def small(rng):
    """Any definitions that aren't large."""
    while True:
        found = definitions(rng)
        if len(found) <= MODELS_MAX and sum(len(it.fields) for it in found) <= FIELDS_MAX:
            return found


def registry(rng):
    """Definitions without a fault, and what they make."""
    while True:
        found = family(rng) if rng.random() < 0.8 else small(rng)
        try:
            made = schema.build(with_users(found), STAGE)
        except schema.SchemaFault:
            continue
        if made.models:
            return found, made
