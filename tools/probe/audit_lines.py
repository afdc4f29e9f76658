"""What ask.py asks about audits: the report on kept rows, of which some were altered as nobody but a test alters them."""
import atexit
import collections

from random_edits import line, tame, wild
from random_models import registry, relation
from random_definitions import STAGE, with_users
import schema_lines
from stockd_oracle import audit, codec, jsonio, schema
from stockd_oracle.machine import Kept, KeptRow
from stockd_oracle.schema import FieldDef, ModelDef
from stockd_oracle.tables import Fault
from tables_lines import UNTIED, made

COUNTS = collections.Counter()
# The numbers below this one fit a keeper.
END = 2 ** 63
PRODUCTS = (1, 1, 2, 3, 5)
QUANTITIES = (1, -1, 7, -7, 10 ** 9, 2 ** 63 - 1, -2 ** 63)


def quants():
    """Models by which the goods of products are told."""
    fields = {"product_id": relation("many2one", "product.product", required=True), "quantity": FieldDef(type="integer")}
    return [ModelDef(name="product.product", fields={"name": FieldDef(type="char")}), ModelDef(name="stock.quant", fields=fields)]


def stocked(rng):
    """Definitions with models of quants, and what they make."""
    entries, built = registry(rng)
    if rng.random() < 0.3 and built.model("stock.quant") is None and built.model("product.product") is None:
        entries = [*entries, *quants()]
        built = schema.build(with_users(entries), STAGE)
    return entries, built


def stock(rng, maker):
    """Rows of quants."""
    product, quant = maker.schema.model("product.product"), maker.schema.model("stock.quant")
    for id_ in sorted({*PRODUCTS}):
        maker.do("make", product, id_, {})
    field = {f.name: f for f in quant.fields.values()}
    held = [(rng.choice(PRODUCTS), rng.choice(QUANTITIES)) for _ in range(rng.randint(0, 6))]
    if rng.random() < 0.5:
        held += [(p, -q) for p, q in held if q != -2 ** 63]
    for id_, (p, q) in enumerate(held, 1):
        maker.do("make", quant, id_, {field["product_id"]: p, field["quantity"]: q})


def value_of(tables, is_tied, model, id_, field):
    """What is kept for a field: of a computed one without a value any."""
    found = tables.val(model, id_, field) if is_tied or field.kind != "computed" else None
    if found is None or isinstance(found, Fault):
        return {"boolean": False, "integer": 0}.get(field.type)
    return found


def kept_of(tables):
    """The rows that are kept, each as its values."""
    is_tied = not any(b.kind in UNTIED for b in tables.broken())
    return {(m, i): {f.name: value_of(tables, is_tied, m, i, f) for f in m.kept()} for m in tables.schema.models.values() for i in tables.ids(m)}


def altered_values(rng, tables, rows):
    """Gives some cells other values."""
    ids = {m: tables.ids(m) for m in tables.schema.models.values()}
    for _ in range(rng.choice((0, 1, 1, 2, 4))):
        (model, id_), values = rng.choice(list(rows.items()))
        stored = [f for f in model.kept() if f.kind == "computed"]
        field = rng.choice(stored if stored and rng.random() < 0.8 else model.kept())
        give = tame if rng.random() < 0.7 else wild
        values[field.name] = give(rng, field, ids)
        COUNTS["stored" if field.kind == "computed" else "plain"] += 1


def altered_row(rng, row):
    """Alters a row's bytes or its links."""
    body, links = bytearray(row.body), list(row.links)
    sort = rng.random()
    if sort < 0.2:
        body = body[:-1]
    elif sort < 0.35:
        body += bytes([rng.choice((0, 1, 255))])
    elif sort < 0.7 and body:
        body[rng.randrange(len(body))] ^= 1 << rng.randrange(8)
    elif sort < 0.8 and links:
        links.pop(rng.randrange(len(links)))
    elif sort < 0.9 and links:
        at = rng.randrange(len(links))
        links[at] = (links[at][0], links[at][1] + 1)
    else:
        links.append((rng.randint(1, 6), rng.randint(1, 3)))
    COUNTS["bytes"] += 1
    return KeptRow(bytes(body), sorted(set(links)))


def body_of(model, values):
    """A row as it is kept; none where a value has no form."""
    try:
        return KeptRow(codec.row_bytes(model, values, 1), codec.links(model, values))
    except (codec.Bad, OverflowError, ValueError, TypeError, AttributeError, KeyError):
        return None


def store_of(rng, tables):
    """Kept rows, of which some may be altered; none where no keeper takes them."""
    rows = kept_of(tables)
    if any(i >= END for _, i in rows):
        return None
    if rows and rng.random() < 0.6:
        altered_values(rng, tables, rows)
    kept = Kept({}, {})
    for (model, id_), values in rows.items():
        row = body_of(model, values)
        if row is None or any(target >= END for _, target in row.links):
            return None
        kept.rows[model.number, id_] = row
    for model in tables.schema.models.values():
        kept.next[model.number] = min(tables.next[model], END - 1)
    for _ in range(rng.choice((0, 0, 0, 1, 1, 2))):
        alter(rng, tables.schema, kept)
    return kept


def alter(rng, built, kept):
    """Alters a row or a next id, or takes a row away."""
    sort = rng.random()
    if kept.rows and sort < 0.5:
        key = rng.choice(list(kept.rows))
        kept.rows[key] = altered_row(rng, kept.rows[key])
    elif kept.rows and sort < 0.8:
        del kept.rows[rng.choice(list(kept.rows))]
        COUNTS["gone"] += 1
    else:
        number = rng.choice(list(built.models.values())).number
        kept.next[number] = rng.choice((0, 1, 2, 3, kept.next[number] + 1))
        COUNTS["next"] += 1


def told_links(model, links):
    names = {f.number: f.name for f in model.fields.values()}
    return [[names[n], target] for n, target in links] if all(n in names for n, _ in links) else None


def parts_of(built, kept):
    """The changes that make a store; none where a link's field has no name."""
    models = {m.number: m for m in built.models.values()}
    parts = []
    for (number, id_), row in kept.rows.items():
        links = told_links(models[number], row.links)
        if links is None:
            return None
        parts.append(["put", models[number].name, id_, row.body.hex(), links])
    return parts + [["next", models[n].name, v] for n, v in kept.next.items()]


def asked(rng, _model):
    """Kept rows of a registry, and the report on them."""
    while True:
        entries, built = stocked(rng)
        maker = made(rng, built)
        if built.model("stock.quant") is not None:
            stock(rng, maker)
        kept = store_of(rng, maker.tables)
        parts = None if kept is None else parts_of(built, kept)
        if parts is None:
            continue
        lines, equal = audit.report(kept, built)
        COUNTS["equal" if equal else lines[0].split(" ")[0] if len(lines) == 2 else "differs"] += 1
        told = 'engine {"definitions":%s,"fails":[],"parts":%s}' % (jsonio.write_text(schema_lines.line(entries)), line([*parts, ["audit"]]))
        return told, line(["done"] * len(parts) + [[equal, *lines]])


def tell_counts():
    """Prints how often each alteration was made and each report told."""
    if COUNTS:
        print("audit: " + ", ".join("%s %d" % it for it in sorted(COUNTS.items())))


atexit.register(tell_counts)
MAKERS = {"audit": asked}
