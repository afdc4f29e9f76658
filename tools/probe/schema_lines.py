"""What ask.py asks about definitions: the registry that they make, or their first fault."""
from random_definitions import STAGE, definitions, with_users
from expression_lines import parsed
from random_texts import escaped
from stockd_oracle import expr, jsonio, schema
from stockd_oracle.schema import FieldDef, SchemaFault
from stockd_oracle.values import read_date, read_datetime

FAULTS = {"Model": "unknown model", "Field": "unknown field", "Kind": "wrong kind", "Twice": "declared twice", "Cycle": "cycle", "Recursion": "not marked recursive",
          "Path": "wrong path", "Inverse": "wrong inverse", "Inherits": "wrong parent", "Limit": "past a limit", "Text": "wrong expression"}
FLAGS = ("required", "is_stored", "recursive", "managed", "fixed", "secret", "is_kept", "is_plain_kept")
TOLD_FLAGS = {"is_stored": "store", "is_kept": "kept", "is_plain_kept": "plain_kept"}


# ---- definitions on a line

def part(text):
    """A name or a text as a part of a word."""
    return escaped(text).replace(" ", "\\s").replace(":", "\\c").replace("|", "\\|")


def key(name, parts):
    """A key of an entry or a field; without parts it is an empty list."""
    return "%s=%s" % (name, ":".join(map(part, parts))) if parts else name


def flag(value):
    return "yes" if value else "no"


def default(field):
    value = field.default
    if isinstance(value, bool):
        return "bool", flag(value)
    if isinstance(value, int):
        return "int", str(value)
    if field.type == "date" and read_date(value) is not None:
        return "day", str(read_date(value))
    if field.type == "datetime" and read_datetime(value) is not None:
        return "moment", str(read_datetime(value))
    return "word", value


def field_parts(field, name):
    """The parts of the value that a field's key has."""
    value = getattr(field, name)
    if name == "default":
        return default(field)
    if name == "ondelete":
        return [value.replace(" ", "_")]
    if name == "selection":
        return [it for pair in value for it in pair]
    if isinstance(value, bool):
        return [flag(value)]
    return [value] if isinstance(value, str) else value


def field_words(name, field):
    keys = [key(it, field_parts(field, it)) for it in FieldDef.KEYS[1:] if getattr(field, it) is not None]
    return " ".join([part(name), field.type, *keys])


def entry_words(d):
    keys = [key(it, [getattr(d, it)]) for it in ("name", "inherit", "order", "parent", "locked") if getattr(d, it) is not None]
    keys += [key("inherits", parent) for parent in d.inherits] + [key("unique", names) for names in d.unique] + [key("check", check) for check in d.checks.items()]
    if d.managed is not None:
        keys.append(key("managed", [flag(d.managed)]))
    return " | ".join([" ".join(keys), *(field_words(*it) for it in d.fields.items())])


NO_USERS = "no users"


def line(entries):
    """Definitions as the probe reads them, which adds the model of the users; a space tells an entry without keys from none."""
    return " || ".join(map(entry_words, entries)) or " " * len(entries)


# ---- what they make, as the probe writes it

def text_fault(builder, fault):
    """Why the expression at a spot can't be read: of two at one spot the first is told."""
    for model in builder.models.values():
        for field in model.computed():
            if (field.entry, field.name) == (fault.entry, fault.field):
                d = field.definition
                tree, why = parsed(d.compute if d.compute is not None else d.related)
                if why:
                    return why
                if d.related is not None and tree.op != "path":
                    return "unexpected token at byte %d" % tree.offsets[tree.first]
    raise AssertionError(fault)


def told_fault(builder, fault):
    told = "%s at %d" % (FAULTS[fault.variant], fault.entry)
    if fault.field:
        told += " " + jsonio.write_text(fault.field)
    return told + ": " + text_fault(builder, fault) if fault.variant == "Text" else told


def told_default(field):
    value = (field.target if field.kind == "delegated" else field).default
    if value is None:
        return []
    if field.type == "boolean":
        return ["default=" + ("true" if value else "false")]
    if field.type in ("integer", "date", "datetime"):
        return ["default=" + {"integer": "", "date": "day:", "datetime": "moment:"}[field.type] + str(value)]
    return ["default=" + jsonio.write_text(value)]


def told_formula(builder, field):
    kind = expr.kind_of(field)
    checker = expr.Checker(builder.scope)
    d = field.definition
    checker.check(expr.parse(d.compute if d.compute is not None else d.related), field.model)
    depends = ["depends=" + ".".join("%d:%d" % (step.model.number, step.number) for step in path) for path in field.paths]
    reads = ["reads=" + ".".join("%d" % step.number for step in path) for path in checker.reads]
    return ["computed=%s:%d" % (kind, field.stratum), *depends, *reads]


def told_origin(builder, field):
    if field.kind in ("id", "plain"):
        return [field.kind]
    if field.kind == "delegated":
        return ["through=%d:%d:%d" % (field.via.number, field.target.model.number, field.target.number)]
    return told_formula(builder, field)


def told_field(builder, field):
    words = ["hidden"] if field.kind == "hidden" else []
    words += [field.name, field.type.capitalize(), jsonio.write_text(field.string), *told_origin(builder, field)]
    words += [TOLD_FLAGS.get(name, name) for name in FLAGS if getattr(field, name)]
    words += ["%s=%d" % (name, getattr(field, name).number) for name in ("relation", "inverse", "mirror") if getattr(field, name) is not None]
    if field.ondelete != "set null":
        words.append("ondelete=" + field.ondelete)
    words += ["choice=" + ":".join(map(jsonio.write_text, pair)) for pair in field.selection or ()]
    words += ["group=" + jsonio.write_text(group) for group in field.groups or ()]
    return " ".join(words + told_default(field))


def told_model(builder, model):
    words = [model.name] + (["managed"] if model.managed else [])
    if model.parent is not None:
        words.append("parent=%d" % model.parent.number)
    words += ["inherits=%d:%d" % (link.number, parent.number) for parent, link in model.inherits]
    words += ["unique=" + ",".join("%d" % field.number for field in fields) for fields in model.unique]
    words += ["order=%d:%s" % (field.number, "desc" if down else "asc") for field, down in model.order or ()]
    return " | ".join([" ".join(words), *(told_field(builder, field) for field in model.all_fields())])


class Judge(schema._Builder):
    """The machine's judge, where docs/DECISIONS.md reads the rules otherwise than it does: a field's
    paths are judged whatever its expression is, and a stratum is told of a field that meets no circle."""

    def expression(self, m, f):
        super().expression(m, f)
        if f.tree is None and f.kind != "hidden":
            f.paths = [path for path in (self.path(m, f, text) for text in declared(f)) if path is not None]
            if any(len(path) > schema.PATH_STEPS_MAX for path in f.paths):
                self.fault(f.entry, f.name, "Limit")

    def strata(self):
        super().strata()
        circled = [f for f in self.edges if self.on_cycle(f)]
        for f in self.edges:
            if not any(self.meets(f, g) for g in circled) and self.stratum(f, {}) > schema.STRATUM_MAX:
                self.fault(f.entry, f.name, "Limit")

    def meets(self, f, g):
        """Whether a field is another, or reads it in turn."""
        seen, todo = set(), [f]
        while todo:
            h = todo.pop()
            if h is g:
                return True
            if h not in seen:
                seen.add(h)
                todo += list(self.edges.get(h, ()))
        return False


def declared(field):
    """The texts of the paths that a field declares: of a related field the one that its text spells."""
    keys = field.definition
    if keys.related is None:
        return keys.depends or []
    text = keys.compute if keys.compute is not None else keys.related
    if schema.size(text) > schema.EXPR_BYTES_MAX:
        return []
    try:
        tree = expr.parse(text)
    except expr.ExprFault:
        return []
    return [keys.related.strip(" \t\n")] if tree.op == "path" else []


def answer(entries):
    """The registry that definitions make, or their first fault."""
    builder = Judge(entries, STAGE)
    try:
        made = builder.build()
    except SchemaFault as fault:
        return told_fault(builder, fault)
    return " || ".join(told_model(builder, model) for model in made.models.values()) or "none"


def asked(rng, _model):
    """Definitions, and what they make; now and then without the model of the users."""
    entries = definitions(rng)
    if rng.random() < 0.03:
        return "schema " + " || ".join([*map(entry_words, entries), NO_USERS]), answer(entries)
    return "schema " + line(entries), answer(with_users(entries))


MAKERS = {"schema": asked}
