"""What ask.py asks about the policy of modules: groups, rights, field rights and admitted rows by it, and about the rows that they bring;
or what stands against the modules first.

The machine's forms and texts are those of the request that brings access, without the rows of base and stock, which these don't have yet;
its registry is that of load_lines. Of user 1 and secret fields, and of empty lists of a field's groups, it differs as access_lines says.
"""
import json

import fuzz_modules
from load_lines import graph, place
from schema_lines import Judge
from stockd_oracle import jsonio, load, schema

FORMS = 6
MODELS = 3
FOLDER = "m"
OPS = ("read", "create", "write", "unlink")
TABLES = ('[[group]]\nname = "%(a)s"\n', '[[group]]\nname = "%(a)s"\nimplies = ["%(g)s"]\n', '[[access]]\nmodel = "%(m)s"\ngroup = "%(g)s"\nread = true\n',
          '[[access]]\nmodel = "%(m)s"\nwrite = true\n', '[[rule]]\nname = "%(a)s"\nmodel = "%(m)s"\ngroups = ["%(g)s"]\ndomain = \'[["id","<",%(n)d]]\'\n',
          '[[rule]]\nname = "%(a)s"\nmodel = "%(m)s"\nops = ["read"]\ndomain = \'[["id","!=",%(n)d]]\'\n', '[[rule]]\nname = "%(a)s"\nmodel = "%(m)s"\ndomain = "%(d)s"\n')


def inside(name, _stage):
    """The text of a module inside the program, without its preset rows."""
    text = INSIDE(name, FORMS)
    return None if text is None else text.split("[[row]]")[0]


INSIDE = load.inside


def meant(names, files):
    """What modules mean to the machine."""
    loader = load._Loader(lambda path: files.get(path[len(FOLDER) + 1:-len(".toml")], None), FOLDER, FORMS)
    order = ["base", "stock", *names]
    build, load.inside = schema.build, inside
    schema.build = lambda definitions, _stage: Judge(definitions, MODELS).build()
    try:
        for name in order:
            loader.read(name)
        loader.cycle()
        modules = loader.ordered(order)
        return load._Meaning(modules, load._schema(modules, MODELS), FORMS).loaded()
    finally:
        schema.build, load.inside = build, INSIDE


class Facts:
    """Rows by model and id, each with its values by name."""

    def __init__(self, rows):
        self.rows = rows

    def known(self, model, id_):
        return (model.name, id_) in self.rows

    def value(self, model, id_, field):
        if field.kind == "id":
            return id_
        nothing = {"boolean": False, "integer": 0, "one2many": (), "many2many": ()}.get(field.type)
        return self.rows[model.name, id_].get(field.name, nothing)


def values(rng, model):
    """Values of some fields of a row."""
    makers = {"integer": lambda: rng.randint(0, 9), "char": lambda: rng.choice(("x", "One", "ax")), "boolean": lambda: rng.random() < 0.5}
    return {name: makers[field.type]() for name, field in model.fields.items() if name != "id" and field.type in makers and rng.random() < 0.6}


def question(rng, loaded, held):
    """A question of a caller, and the machine's answer."""
    policy, numbers = loaded.policy, range(1, len(loaded.policy.groups) + 1)
    user, member = rng.choice((1, 2, 3)), [it for it in numbers if rng.random() < 1.2 / len(numbers)]
    groups = policy.groups_of(member)
    model = rng.choice(list(loaded.schema.models.values()))
    op, kind = rng.choice(OPS), rng.randrange(5)
    if kind == 0:
        return [user, member], sorted(policy.groups.index(it) + 1 for it in groups)
    if kind == 1:
        return [user, member, model.name, op], policy.right(groups, user, model, op)
    if kind == 2:
        field, writing = rng.choice([it for it in model.fields.values()]), rng.random() < 0.5
        if field.groups == []:
            return [user, member, model.name, op], policy.right(groups, user, model, op)
        as_user = 2 if field.secret and writing else user
        return [user, member, model.name, field.name, writing], policy.field_right(groups, as_user, field, writing)
    ruled = [it.model.name for it in policy.rules]
    name, id_ = rng.choice([it for it in held if it[0] in ruled] or list(held))
    model = loaded.schema.model(name)
    denier = policy.denier(groups, user, op, model, id_, Facts(held))
    return [user, member, name, id_, op, "row"], [denier is None, denier]


def tables(rng, name, names):
    """Some groups, access lines and rules of a module."""
    text = ""
    for _ in range(rng.choice((0, 1, 2, 4))):
        other = rng.choice(names)
        text += rng.choice(TABLES) % {"a": rng.choice("ghk"), "g": rng.choice((other + ".g", name + ".h", "base.group_user")), "n": rng.randint(1, 4),
                                      "m": rng.choice(("res.users", "res.groups", "m.%s0" % other)), "d": rng.choice(("[]", "[", "[['id','=',1]]"))}
    return text


def member(rng, name, names):
    """A value of a row under a name, most of its field's form."""
    row = '{ ref = "%s.%s" }' % (rng.choice(names), rng.choice("ghkrst"))
    given = rng.choice((("n", "%d" % rng.randint(-3, 9)), ("n", "true"), ("n", "9223372036854775807"), ("name", '"A"'), ("name", "false"), ("name", "1"),
                        ("login", '"a\u00e9"'), ("key", '"k"'), ("active", "false"), ("active", '"x"'), ("id", "7"), ("id", '"7"'), ("create_date", '"2024-02-29 13:00:00"'),
                        ("create_date", '"2023-02-29 13:00:00"'), ("create_date", "2024-02-29"), ("create_uid", row), ("write_uid", "false"), ("p", row), ("p", row),
                        ("p", "{ ref = 1 }"), ("p", "{ ref = \"base.group_user\" }"), ("groups_id", "[]"), ("groups_id", '[{ ref = "base.group_system" }, { ref = "base.group_user" }]'),
                        ("groups_id", '[{ ref = "base.group_user" }, { ref = "base.group_user" }]'), ("groups_id", "[%s]" % row), ("groups_id", row),
                        ("groups_id", "[{ ref = \"base.group_user\", x = 1 }]"), ("x%s0" % name, '"c"'), ("nope", "1")))
    return given


def table(rng, name, names):
    """A row of a module."""
    values = dict(member(rng, name, names) for _ in range(rng.choice((0, 1, 1, 2, 3))))
    model = rng.choice(("res.users", "res.users", "res.groups", "m.%s0" % rng.choice(names), "m.%s0" % name, "m.%s1" % name))
    text = '[[row]]\nmodel = "%s"\nref = "%s"\nvalues = { %s }\n' % (model, rng.choice("ghkrst"), ", ".join("%s = %s" % it for it in values.items()))
    return text if rng.random() < 0.96 else text.replace("values", rng.choice(("value", "ref2")))


# A model with a field of each kind, for rows.
WORLD = """[[model]]
name = "w.note"
parent = "up"
[model.field.up]
type = "many2one"
relation = "w.note"
[model.field.kids]
type = "one2many"
relation = "w.note"
inverse = "up"
[model.field.to]
type = "many2many"
relation = "w.note"
[model.field.back]
type = "many2many"
relation = "w.note"
mirror = "to"
[model.field.owner]
type = "many2one"
relation = "res.users"
[model.field.teams]
type = "many2many"
relation = "res.groups"
[model.field.day]
type = "date"
[model.field.at]
type = "datetime"
[model.field.kind]
type = "selection"
selection = [["a", "A"], ["b", "B"]]
[model.field.memo]
type = "text"
[model.field.flag]
type = "boolean"
default = true
[model.field.n]
type = "integer"
default = 7
[model.field.twice]
type = "integer"
compute = "n + n"
depends = ["n"]
[model.check]
low = "n < 9"
[[model]]
name = "w.part"
inherits = [["w.note", "note_id"]]
[model.field.size]
type = "integer"
"""
PLAIN = {"day": ('"2024-02-29"', '"2023-02-29"', "false", "1", "2024-02-29"), "at": ('"2024-02-29 13:00:00"', '"2024-02-29"', "false"), "kind": ('"a"', '"c"', "false", "1"),
         "memo": ('"x"', '""', "false", "[]"), "flag": ("true", "false", "1", '"true"'), "n": ("5", "-9223372036854775808", "false", "true", "1.5", '"5"'), "twice": ("4", '"4"'),
         "id": ("7", "false", '"7"'), "create_date": ('"2024-02-29 13:00:00"', "1"), "parent_path": ('"1/"', "1"), "size": ("1", "{}"), "low": ("true",), "nope": ("1",)}


def reference(rng, refs, others):
    """What names a row, most of the time an earlier one."""
    name = rng.choice(refs) if refs and rng.random() < 0.8 else rng.choice(others)
    return rng.choice(('{ ref = "%s" }',) * 14 + ('{ ref = "%s", x = 1 }', '"%s"', '{ reff = "%s" }')) % name


def worldly(rng, notes, users, groups):
    """A value of a row of the model with a field of each kind."""
    kind, others = rng.randrange(8), notes + users + groups + ["w.later", "w.g"]
    if kind < 3:
        name = rng.choice([*PLAIN] if rng.random() < 0.5 else ["day", "at", "kind", "memo", "flag", "n"])
        return name, PLAIN[name][0] if rng.random() < 0.8 else rng.choice(PLAIN[name])
    if kind < 5:
        return rng.choice((("up", reference(rng, notes, others)), ("owner", reference(rng, users, others)), ("note_id", reference(rng, notes, others))))
    if kind < 7:
        name, refs = rng.choice((("to", notes), ("teams", groups)))
        return name, "[%s]" % ", ".join(reference(rng, refs, others) for _ in range(rng.choice((0, 1, 2, 3))))
    return rng.choice((("back", "[]"), ("kids", "[]"), ("to", "false"), ("up", "false"), ("owner", "1"), ("to", reference(rng, notes, others)))) if rng.random() < 0.3 else ("flag", "true")


def world(rng):
    """Two modules with rows over a model with a field of each kind."""
    files, notes, users, groups, count = {}, [], [], ["base.group_user", "stock.group_stock_user"], 0
    for module in ("w", "v"):
        text = 'name = "%s"\n' % module + (WORLD if module == "w" else "")
        for name in rng.sample("gh", rng.choice((0, 1, 2))):
            text += '[[group]]\nname = "%s"\n' % name
            groups.append("%s.%s" % (module, name))
        for _ in range(rng.choice((1, 2, 4))):
            count += 1
            ref, model = "r%d" % count if rng.random() < 0.97 else rng.choice(("g", "r1")), rng.choice(("w.note", "w.note", "w.part", "res.users"))
            values = dict(worldly(rng, notes, users, groups) for _ in range(rng.choice((0, 1, 2, 3)))) if model != "res.users" else {"name": '"A"'}
            text += '[[row]]\nmodel = "%s"\nref = "%s"\nvalues = { %s }\n' % (model, ref, ", ".join("%s = %s" % it for it in values.items()))
            {"w.note": notes, "res.users": users}.get(model, []).append("%s.%s" % (module, ref))
        files[module] = text
    return ["w", "v"], files


def modules(rng, are_rows=False):
    """Names and files: the machine's own module, or several that depend on one another."""
    if are_rows and rng.random() < 0.6:
        return world(rng)
    if rng.random() < 0.6:
        doc = fuzz_modules.base(FORMS)
        for _ in range(rng.choice((0, 0, 1, 1, 1, 2, 3))):
            fuzz_modules.mutate(doc, rng)
        return ["m"], {"m": fuzz_modules.text_of(doc)}
    names, files = graph(rng)
    more = (0, 1, 2, 4, 6) if are_rows else (0, 0, 1)
    return names, {name: text + tables(rng, name, sorted(files)) + "".join(table(rng, name, sorted(files)) for _ in range(rng.choice(more)))
                   for name, text in files.items()}


def given(field, value):
    """A value of a row as the probe tells it."""
    kind, what = value
    if kind == "row":
        return "row:%d" % what
    if kind == "rows":
        return "rows:" + ",".join(map(str, sorted(set(what))))
    return shown(field, what)


def shown(field, value):
    """A plain value as the probe tells it."""
    if value is None:
        return "unset"
    word = {"date": "day:", "datetime": "moment:"}.get(field.type)
    return word + str(value) if word else jsonio.write_text(value)


def preset(rng, _model):
    names, files = modules(rng, True)
    line = "preset " + json.dumps({"modules": names, "files": [[name, text] for name, text in files.items()]})
    try:
        loaded = meant(names, {name: text.encode() for name, text in files.items()})
    except load.LoadFault as fault:
        return line, "module %s: %s %s" % (fault.module, fault.kind, place(fault, {name: text.encode() for name, text in files.items()}))
    rows = ["[%s,%s,%s,{%s}]" % (*map(jsonio.write_text, (row.module, row.place, row.model.name)),
                                 ",".join("%s:%s" % (jsonio.write_text(field.name), given(field, value)) for field, value in row.values.items())) for row in loaded.preset]
    return line, "[%s]" % ",".join(rows)


def declared(rng, _model):
    names, files = modules(rng)
    told = {"modules": names, "files": [[name, text] for name, text in files.items()], "rows": [], "asked": []}
    try:
        loaded = meant(names, {name: text.encode() for name, text in files.items()})
    except load.LoadFault as fault:
        where = place(fault, {name: text.encode() for name, text in files.items()})
        return "declared " + json.dumps(told), "module %s: %s %s" % (fault.module, fault.kind, where)
    held = {(model.name, id_): values(rng, model) for model in loaded.schema.models.values() for id_ in (1, 2, 3)}
    asked, wanted = zip(*[question(rng, loaded, held) for _ in range(12)])
    told.update({"rows": [[name, id_, row] for (name, id_), row in held.items()], "asked": list(asked)})
    return "declared " + json.dumps(told), json.dumps(list(wanted), separators=(",", ":"))


MAKERS = {"declared": declared, "preset": preset}
