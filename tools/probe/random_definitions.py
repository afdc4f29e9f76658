"""Random definitions: faultless ones, such as have one fault and such as have several, families of models, chains and circles of computed fields, limits, the program's own."""
import copy
import re

import fuzz_modules
from stockd_oracle import load, modules_text, schema, tomlio
from stockd_oracle.schema import FieldDef, ModelDef

# The rules of inheritance, delegation, trees, chains and automatic fields.
STAGE = 4
USERS = "res.users"
NAMES = ["a", "b", "c", "d", "e", "name", "up_id", "kids", "l_id", "k_id", "id", "create_date", "write_uid", "parent_path", "locked"]
MODELS = ["m.a", "m.b", "m.c", "m.d", "m.e"]
ORDERS = ("name", "a desc", "a,b", "a x", "", "id DESC , name", "kids", "nope", "\ta\tasc", "a  desc,,b")
DEFAULTS = (True, 3, "t", "2024-02-29", "2024-02-29 00:00:00")
FUNCTIONS = {"sum", "if", "count", "cat", "text", "unset", "any", "not", "true", "min"}


def with_users(entries):
    """Definitions with the model of the users behind them, where none makes it, as the probe reads a line."""
    return entries if any(entry.name == USERS for entry in entries) else [*entries, ModelDef(name=USERS)]


def of_tables(doc):
    """The definitions of a module's tables, or None where they aren't of their form."""
    try:
        tables = load.keyed(load.top_forms(STAGE))(doc)["model"]
    except load.FormFault:
        return None
    return [ModelDef(t.get("name"), t.get("inherit"), t.get("inherits", ()), t.get("order"), t.get("parent"), t.get("unique", ()), t.get("check"),
                     t.get("locked"), t.get("managed"), {name: FieldDef(**f) for name, f in t.get("field", {}).items()}) for t in tables]


def changed(rng, tables, counts):
    """The definitions of tables with some places changed."""
    while True:
        found = copy.deepcopy(tables)
        for _ in range(rng.choice(counts)):
            fuzz_modules.mutate(found, rng)
        found = of_tables({"name": "m", "model": found})
        if found is not None:
            return found


def small(rng):
    """A module with every kind of key, with a few changes."""
    return changed(rng, fuzz_modules.base(STAGE)["model"], (0, 1, 1, 1, 2, 2, 3, 4, 6))


def whole(rng):
    """The modules of the whole program, with some changes or none."""
    tables = [table for name in ("base", "stock") for table in tomlio.read(modules_text.inside(name, 20).encode()).get("model", [])]
    return changed(rng, tables, (0, 1, 1, 2, 3))


# ---- from nothing

def path(rng):
    return ".".join(rng.choice(NAMES) for _ in range(rng.choice((1, 1, 1, 2, 2, 3, 4, 7))))


def expression(rng, type_, depends):
    """An expression of about this type over some of these paths."""
    def a_path():
        return rng.choice(depends) if depends and rng.random() < 0.9 else path(rng)
    one, two, name = a_path(), a_path(), rng.choice(NAMES)
    if rng.random() < 0.35:
        return one
    if type_ == "integer":
        return rng.choice((f"{one} + 1", f"{one} * {two}", f"count({one})", f"sum(kids, {name})", f"if({one} = unset, 1, 2)", f"-{one}", f"sum(kids, up_id.{name})", "7", "a +"))
    if type_ in ("char", "text"):
        return rng.choice((f"cat({one}, '/', {two})", f"text({one})", "'x'", f"if(a = b, {one}, unset)"))
    if type_ == "boolean":
        return rng.choice((f"{one} = {two}", f"{one} = unset", f"any(kids, {name})", f"not {one}", "true"))
    return rng.choice((one, "unset", f"min(kids, {name})", f"if(a > 1, {one}, unset)"))


def computed(rng, field):
    field.depends = [path(rng) for _ in range(rng.choice((0, 1, 1, 2, 3)))]
    field.store = rng.choice((True, True, True, True, None, False))
    field.recursive = rng.choice((None, True))
    if rng.random() < 0.2:
        field.related, field.depends = rng.choice(field.depends or ["a", "a + 1"]), None
    else:
        field.compute = expression(rng, field.type, field.depends)


def related(rng, field):
    field.relation = rng.choice(MODELS if rng.random() < 0.97 else ["m.none"])
    if field.type == "one2many":
        field.inverse = rng.choice(NAMES)
    elif field.type == "many2many" and rng.random() < 0.2:
        field.mirror = rng.choice(NAMES)
    elif field.type == "many2one" and rng.random() < 0.3:
        field.ondelete = rng.choice(("cascade", "restrict", "set null"))


def a_field(rng):
    field = FieldDef(type=rng.choice((*schema.TYPES, "integer", "integer", "char", "many2one", "many2one")))
    if field.type in schema.RELATIONS:
        related(rng, field)
    elif field.type == "selection":
        field.selection = [["x", "X"], ["y", "Y: y"]]
        field.default = rng.choice((None, None, None, "x", "z"))
    elif rng.random() < 0.55:
        computed(rng, field)
    elif rng.random() < 0.3:
        field.default = rng.choice(DEFAULTS)
    for key in ("required", "managed", "fixed", "secret"):
        if rng.random() < 0.05:
            setattr(field, key, rng.random() < 0.8)
    if rng.random() < 0.05:
        field.groups = ["g.a", "g.b"]
    if rng.random() < 0.05:
        field.string = "The label"
    return field


def tree(rng, d):
    """Makes a model a tree, with a field that reads itself along it."""
    d.fields["up_id"] = FieldDef(type="many2one", relation=d.name)
    d.fields["kids"] = FieldDef(type="one2many", relation=d.name, inverse="up_id")
    d.parent = rng.choice(("up_id", "up_id", "up_id", "up_id", None))
    if rng.random() < 0.6:
        way = rng.choice(("up_id.e", "kids.e", "up_id.up_id.e", "e"))
        d.fields["e"] = FieldDef(type="integer", store=True, recursive=rng.choice((True, True, None)), depends=[way], compute="sum(kids, e)" if way == "kids.e" else way + " + 1")


def named(rng, made):
    """An entry that makes a model, extends or copies one."""
    sort = rng.random()
    if sort < 0.7 or not made:
        return ModelDef(name=rng.choice([m for m in MODELS if m not in made] or MODELS))
    if sort < 0.85:
        return ModelDef(inherit=rng.choice(made))
    return ModelDef(name=rng.choice(MODELS), inherit=rng.choice([*made, "m.e"]))


def entry(rng, made):
    d = named(rng, made)
    d.fields = {name: a_field(rng) for name in rng.sample(NAMES[:10], rng.choice((1, 2, 3, 4, 5)))}
    if rng.random() < 0.05:
        d.fields[rng.choice((*NAMES, "x" * 64))] = a_field(rng)
    if d.name and rng.random() < 0.35:
        tree(rng, d)
    elif rng.random() < 0.05:
        d.parent = rng.choice(NAMES)
    if d.name and made and rng.random() < 0.4:
        parents = MODELS[:4] if rng.random() < 0.1 else made
        d.inherits = [[rng.choice(parents), link] for link in rng.sample(("l_id", "k_id", "a"), rng.choice((1, 1, 2)))]
    if rng.random() < 0.15:
        d.order = rng.choice(ORDERS)
    if rng.random() < 0.15:
        d.unique = [rng.sample(NAMES, rng.choice((0, 1, 2)))]
    if rng.random() < 0.2:
        d.checks = {name: expression(rng, "boolean", [path(rng)]) for name in rng.sample(("x", "y", "Z z"), rng.choice((1, 2)))}
    if rng.random() < 0.1:
        d.locked = expression(rng, "boolean", [path(rng)])
    if rng.random() < 0.05:
        d.managed = rng.random() < 0.5
    return d


def from_nothing(rng):
    found = []
    for _ in range(rng.choice((1, 2, 3, 4, 5, 6))):
        found.append(entry(rng, [d.name for d in found if d.name]))
    return found


# ---- with fewer faults

def tamed(rng):
    """Definitions from nothing, from which the first fault is taken for some rounds."""
    found = from_nothing(rng)
    for _ in range(rng.choice((0, 2, 5, 20, 60, 60, 60))):
        try:
            schema.build(found, STAGE)
            break
        except schema.SchemaFault as fault:
            mend(rng, found, fault)
        if not found:
            return from_nothing(rng)
    return found


def mend(rng, found, fault):
    """Takes away what a fault is about."""
    d, name, variant = found[fault.entry], fault.field, fault.variant
    if name in d.fields:
        mend_field(rng, d.fields, name, variant)
    elif name.startswith("check:"):
        del d.checks[name[6:]]
    elif name == "locked":
        d.locked = None
    elif name == "parent_path":
        d.parent = None
    elif variant in ("Inherits", "Model", "Twice") and d.inherits:
        d.inherits = []
    elif variant in ("Twice", "Model"):
        found.remove(d)
    elif d.order is not None and variant in ("Kind", "Field") and rng.random() < 0.5:
        d.order = None
    elif d.unique and rng.random() < 0.5:
        d.unique = ()
    else:
        d.parent = None
        if d.name is None:
            d.locked, d.managed, d.inherits = None, None, ()


def mend_field(rng, fields, name, variant):
    field = fields[name]
    if variant == "Recursion":
        field.recursive = True
    elif variant != "Path" or field.depends is None or rng.random() < 0.5:
        del fields[name]
    elif field.compute:
        list_ = re.search(r"(?:sum|any|min|max|all|count)\(([a-z_.]+), *([a-z_.]+)\)", field.compute)
        read = set(re.findall(r"[a-z_]+(?:\.[a-z_]+)*", field.compute)) - FUNCTIONS
        field.depends = [list_[1] + "." + list_[2]] if list_ else sorted(set(field.depends) | read)


# ---- chains and circles

def chain(rng):
    """A chain of computed fields, perhaps closed or too long, whose names may stand in any order."""
    count = rng.choice((2, 7, 8, 9, 10, 11))
    fields = {"a": FieldDef(type="integer"), "up_id": FieldDef(type="many2one", relation="m.t"), "kids": FieldDef(type="one2many", relation="m.t", inverse="up_id")}
    last = "a"
    for k in range(count):
        fields["c%02d" % k] = FieldDef(type="integer", compute=last + " + 1", depends=[last], store=True)
        last = rng.choice(["c%02d"] * 16 + ["up_id.c%02d"]) % k
    if rng.random() < 0.4:
        close(rng, fields, count)
    if rng.random() < 0.5:
        fields = renamed(rng, fields)
    d = ModelDef(name="m.t", parent=rng.choice(("up_id", None)), fields=fields)
    if rng.random() < 0.3:
        d.checks = {"k": rng.choice(sorted(fields)) + " > 0"}
    return [d] + ([ModelDef(name="m.u", inherit="m.t")] if rng.random() < 0.3 else [])


def close(rng, fields, count):
    """Lets a field read another one of the chain too, or itself."""
    name = rng.choice(sorted(fields))
    field = fields[name]
    if field.compute:
        other = rng.choice(("c%02d" % rng.randrange(count), "kids." + name, "up_id." + name, "up_id.kids." + name, name))
        field.depends = [*field.depends, other]
        field.recursive = rng.choice((True, None))


def renamed(rng, fields):
    new = {name: rng.choice("pqrstuvwz") + "%d" % i if name.startswith("c") else name for i, name in enumerate(fields)}
    found = {new[name]: field for name, field in fields.items()}
    for field in found.values():
        if field.compute:
            field.compute, *field.depends = (re.sub(r"c\d\d", lambda match: new[match[0]], it) for it in (field.compute, *field.depends))
    return found


# ---- families

class Family:
    """Entries of plain models that extend, copy and delegate to one another, mostly without a fault."""

    def __init__(self, rng):
        self.rng = rng
        self.entries = []
        self.names = {}           # the names of the fields of each model
        self.links = {}           # its links, each with the parent

    def grow(self):
        """Adds an entry, with a fault now and then."""
        rng, made = self.rng, list(self.names)
        sort = rng.random() if made else 0
        d = ModelDef(name=MODELS[len(made) % 5]) if sort < 0.6 else ModelDef(inherit=rng.choice(made))
        if sort > 0.8:
            d.name = MODELS[len(made) % 5]
        model = d.name or d.inherit
        names = self.names.setdefault(model, set(self.names.get(d.inherit, ())))
        links = self.links.setdefault(model, {})
        free = [name for name in "abcdefgh" if name not in names or rng.random() < 0.02]
        d.fields = {name: FieldDef(type=rng.choice(("integer", "integer", "char"))) for name in rng.sample(free, min(len(free), rng.choice((0, 1, 2, 3))))}
        names.update(d.fields)
        if d.name and made and rng.random() < 0.7:
            self.delegate(d, names, links, made)
        self.compute(d, names, links)
        self.state(d, sorted(names))
        self.entries.append(d)

    def delegate(self, d, names, links, made):
        alone = [model for model in made if model != d.name and not self.links[model]]
        for link in self.rng.sample(("l_id", "k_id", "j_id"), self.rng.choice((1, 1, 2, 3))):
            parents = alone if alone and self.rng.random() < 0.95 else [*made, d.name]
            links[link] = self.rng.choice(parents)
        d.inherits = [[parent, self.rng.choice(("a", "id", "l_id")) if self.rng.random() < 0.03 else link] for link, parent in links.items()]
        for parent in links.values():
            names.update(self.names[parent])

    def compute(self, d, names, links):
        """Fields that read one of the model, of its parents or of themselves."""
        rng = self.rng
        for name in rng.sample(("v", "w", "x", "y", "z"), rng.choice((0, 1, 1, 2))):
            if name in names and rng.random() < 0.95:
                continue
            ways = sorted(names) + [link + "." + it for link, parent in links.items() for it in sorted(self.names[parent])]
            way = rng.choice(ways) if ways and rng.random() < 0.97 else name
            d.fields[name] = FieldDef(type="integer", compute="if(%s = %s, 1, 2)" % (way, way), depends=[way], store=True if rng.random() < 0.95 else None)
            names.add(name)

    def state(self, d, names):
        """Keys of the entry over fields of the model, delegated ones among them."""
        rng, name = self.rng, self.rng.choice(names or ["a"])
        if rng.random() < 0.2:
            d.order = rng.choice((name, name + " desc", "id,%s asc" % name))
        if rng.random() < 0.05:
            d.unique = [[name]]
        if rng.random() < 0.2:
            d.checks = {rng.choice("pq"): "%s = %s" % (name, rng.choice((name, name, name, "unset")))}
        if d.name and rng.random() < 0.1:
            d.locked = "%s = %s" % (name, name)


def family(rng):
    grown = Family(rng)
    for _ in range(rng.choice((2, 3, 4, 5, 6))):
        grown.grow()
    return grown.entries


# ---- limits

def integers(count):
    return {"f%d" % i: FieldDef(type="integer") for i in range(count)}


def many_fields(rng):
    return [ModelDef(name="m.a", fields=integers(rng.choice((250, 251, 252))))]


def many_delegated(rng):
    return [ModelDef(name="m.a", fields=integers(rng.choice((248, 249, 250, 251)))), ModelDef(name="m.b", inherits=[["m.a", "a_id"]], fields={"f0": FieldDef(type="char")}),
            ModelDef(inherit=rng.choice(("m.a", "m.b")), fields={"g": FieldDef(type="char")})]


def many_models(rng):
    return [ModelDef(name="m.a%d" % i) for i in range(rng.choice((510, 511, 512, 513)))]


def many_checks(rng):
    checks = {"c%d" % i: "true" for i in range(rng.choice((255, 256, 257)))}
    return [ModelDef(name="m.a", checks=checks), ModelDef(name="m.b", inherit="m.a", checks=rng.choice(({}, {"d": "true"})))]


def long_text(rng):
    blanks = " " * (rng.choice((4089, 4096, 4097)) - 1)
    return [ModelDef(name="m.a", fields={"a": FieldDef(type="integer"), "b": FieldDef(type="integer", compute="a" + blanks, depends=["a"])})]


def long_path(rng):
    way = ".".join(["up_id"] * (rng.choice((5, 6, 7)) - 1) + ["a"])
    reads = rng.choice((FieldDef(type="integer", compute=way, depends=[way]), FieldDef(type="integer", related=way)))
    fields = {"a": FieldDef(type="integer"), "up_id": FieldDef(type="many2one", relation="m.a"), "b": reads}
    return [ModelDef(name="m.a", fields=fields, checks=rng.choice((None, None, {"c": way + " > 1"})))]


def through_link(rng):
    """Paths through a delegated many2one, each of whose steps counts."""
    ways = (".".join(["k_id", "up_id"] * rng.choice((1, 2)) + ["a"]), "up_id.up_id.a", "up_id.k_id.up_id.a", "a", "k_id.a")
    reads = FieldDef(type="integer", compute=rng.choice(ways), depends=[rng.choice(ways)], store=True)
    return [ModelDef(name="m.p", fields={"a": FieldDef(type="integer"), "up_id": FieldDef(type="many2one", relation="m.k")}),
            ModelDef(name="m.k", inherits=[["m.p", "k_id"]], fields={"b": reads})]


def long_name(rng):
    """The names of the longest form; whether a name is of its form the machine tells elsewhere."""
    name, model = "p" * rng.choice((60, 63, 64)), rng.choice(("m.p", "m" * 64))
    return [ModelDef(name=model, parent=name, fields={name: FieldDef(type="many2one", relation=model, secret=rng.choice((None, True)))})]


LIMITS = (many_fields, many_delegated, many_models, many_checks, long_text, long_path, through_link, long_name)


def limits(rng):
    return rng.choice(LIMITS)(rng)


SORTS = (chain, chain, family, family, family, family, small, small, small, tamed, tamed, tamed, tamed, from_nothing, limits, whole)


def definitions(rng):
    return rng.choice(SORTS)(rng)
