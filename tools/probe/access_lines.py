"""What ask.py asks about access: groups, rights, field rights and admitted rows of random policies.

The machine lets user 1 write every secret field; here he goes by its groups, as everybody does (docs/DECISIONS.md). Ids that are
no group's the machine leaves out, so callers are stated to be in groups that there are; and an empty list of groups it takes for
nobody, where here it names none.
"""
import json

from stockd_oracle import access, domain, jsonio, schema

OPS = ("read", "create", "write", "unlink")
KINDS = ("a", "b", "c")
STAGE = 16


def some(rng, items, most):
    """Some of these, in their order."""
    return [it for it in items if rng.random() < most / max(len(items), 1)]


def models(rng, names):
    """Two models whose fields name groups, and their definitions as the probe reads them."""
    texts, defs = [], []
    for name in ("m.a", "m.b"):
        words, fields = ["name=" + name], {}
        for field, kind in (("kind", "char"), ("owner", "integer"), ("x", "char"), ("y", "char"), ("z", "integer")):
            groups = rng.choice((None, None, [], some(rng, names + ["g.none"], 1.5)))
            secret = rng.choice((None, None, True))
            fields[field] = schema.FieldDef(type=kind, groups=groups or None, secret=secret)
            keys = "" if groups is None else " groups" if not groups else " groups=" + ":".join(groups)
            words.append("%s %s%s%s" % (field, kind, keys, " secret=yes" if secret else ""))
        texts.append(" | ".join(words))
        defs.append(schema.ModelDef(name=name, fields=fields))
    return " || ".join(texts), schema.build([*defs, schema.ModelDef(name="res.users")], 4)


def criterion(rng):
    return rng.choice((["kind", "=", rng.choice(KINDS)], ["kind", "!=", rng.choice(KINDS)], ["kind", "in", some(rng, KINDS, 2)],
                       ["owner", "=", {"user": "id"}], ["id", rng.choice(("<", ">", "=")), rng.randint(1, 4)], [1, "=", 1], [0, "=", 1]))


def terms(rng):
    found = [criterion(rng) for _ in range(rng.choice((0, 1, 1, 2)))]
    return ["|"] + found if len(found) == 2 and rng.random() < 0.5 else found


class Facts:
    """Rows by model and id, each with its values by name."""

    def __init__(self, rows):
        self.rows = rows

    def known(self, model, id_):
        return (model.name, id_) in self.rows

    def value(self, model, id_, field):
        return id_ if field.kind == "id" else self.rows[model.name, id_].get(field.name)


def policy(rng, made, names):
    """A random policy, as the probe reads it and as the machine holds it."""
    numbers = range(1, len(names) + 1)
    implies = [some(rng, numbers, 1.2) for _ in names]
    accesses = [[rng.choice(("m.a", "m.b")), rng.choice([None, *numbers]), some(rng, OPS, 1.5)] for _ in range(rng.randint(0, 5))]
    rules = [["m.r%d" % n, rng.choice(("m.a", "m.b")), rng.choice((None, some(rng, numbers, 1.2))), some(rng, OPS, 2.5), terms(rng)] for n in range(rng.randint(0, 6))]
    name = lambda id_: None if id_ is None else names[id_ - 1]  # noqa: E731
    machine = access.Policy(
        names, [[name(it) for it in ids] for ids in implies],
        [access.Access(made.model(model), name(group), ops) for model, group, ops in accesses],
        [access.Rule(full, made.model(model), None if groups is None else {name(it) for it in groups}, ops,
                     domain.read(jsonio.read(json.dumps(listed).encode()), made.model(model), ())) for full, model, groups, ops, listed in rules], STAGE)
    told = {"groups": [[full, ids] for full, ids in zip(names, implies)], "accesses": accesses, "rules": rules}
    return told, machine


def rows(rng):
    listed, held = [], {}
    for model in ("m.a", "m.b"):
        for id_ in some(rng, range(1, 5), 3):
            values = {"kind": rng.choice(KINDS + (False,)), "owner": rng.randint(0, 3)}
            listed.append([model, id_, values])
            held[model, id_] = {"kind": values["kind"] or None, "owner": values["owner"], "x": None, "y": None, "z": 0}
    return listed, held


def question(rng, machine, made, names, held):
    """A question of a caller, and the machine's answer."""
    user, member = rng.choice((1, 2, 3)), some(rng, range(1, len(names) + 1), 1.2)
    groups = machine.groups_of(member)
    model = made.model(rng.choice(("m.a", "m.b")))
    op = rng.choice(OPS)
    kind = rng.randrange(5)
    if kind == 0:
        return [user, member], sorted(names.index(it) + 1 for it in groups)
    if kind == 1:
        return [user, member, model.name, op], machine.right(groups, user, model, op)
    if kind == 2:
        field, writing = model.fields[rng.choice(("kind", "x", "y", "z", "id"))], rng.random() < 0.5
        as_user = 2 if field.secret and writing else user
        return [user, member, model.name, field.name, writing], machine.field_right(groups, as_user, field, writing)
    known = [id_ for name, id_ in held if name == model.name]
    if not known:
        return [user, member, model.name, op], machine.right(groups, user, model, op)
    id_ = rng.choice(known)
    denier = machine.denier(groups, user, op, model, id_, Facts(held))
    return [user, member, model.name, id_, op, "row"], [denier is None, denier]


def access_case(rng, _model):
    names = ["g.%s" % it for it in "abcdef"[:rng.randint(0, 6)]]
    text, made = models(rng, names)
    told, machine = policy(rng, made, names)
    listed, held = rows(rng)
    asked, wanted = zip(*[question(rng, machine, made, names, held) for _ in range(10)])
    told.update({"models": text, "rows": listed, "asked": list(asked)})
    return "access " + json.dumps(told), json.dumps(list(wanted), separators=(",", ":"))


MAKERS = {"access": access_case}
