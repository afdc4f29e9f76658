"""What ask.py asks about modules: the registry that their texts mean, or what stands against them first."""
import os
import sys

# The machine's own random modules stand beside its libraries.
sys.path.insert(0, os.path.join(sys.argv[1]))
import fuzz_modules  # noqa: E402
from schema_lines import Judge, part, told_model  # noqa: E402
from stockd_oracle import load, schema, tomlio  # noqa: E402

STAGE = 4
FOLDER = "m"
# The modules of the repository, which are asked too.
OWN = {name: os.path.join(os.path.dirname(__file__), "..", "..", "modules", name + ".toml") for name in ("demo",)}
ENTRIES = ('name = "{own}"\n[model.field.n]\ntype = "integer"\n',
           'name = "{own}"\n[model.field.n]\ntype = "integer"\n',
           'name = "{own}"\n[model.field.p]\ntype = "many2one"\nrelation = "m.{other}0"\n',
           'inherit = "m.{other}0"\n[model.field.x{own_field}]\ntype = "char"\n',
           'name = "{own}"\ninherit = "m.{other}0"\n',
           'name = "{own}"\nbad = 1\n')


def models(rng, name, names):
    """The models of a module: new ones, some with a key too many, some that stand on those of other modules."""
    text = ""
    for count in range(rng.choice((0, 1, 1, 2))):
        entry = rng.choice(ENTRIES)
        text += "[[model]]\n" + entry.format(own="m.%s%d" % (name, count), other=rng.choice(names), own_field="%s%d" % (name, count))
    return text


def document(rng, name, behind, names):
    """The text of a module, now and then under another name or with a sign left out."""
    depends = [rng.choice([*behind, "base", "stock"]) for _ in range(rng.choice((0, 1, 1, 2, 3)))]
    if rng.random() < 0.05:
        depends.append("nowhere")
    text = 'name = "%s"\n' % (name if rng.random() < 0.97 else "other")
    if depends or rng.random() < 0.2:
        text += "depends = [%s]\n" % ", ".join('"%s"' % it for it in depends)
    text += models(rng, name, names)
    return text.replace("=", "", 1) if rng.random() < 0.04 else text


def graph(rng):
    """Some modules that depend on one another, in circles too, and those that are loaded."""
    names = list("abcdef")[:rng.choice((2, 3, 4, 5, 6))]
    is_forward = rng.random() < 0.7
    files = {}
    for place, name in enumerate(names):
        if rng.random() < 0.94:
            files[name] = document(rng, name, names[place + 1:] if is_forward else names, names)
    return [rng.choice([*names, "base", "stock"]) for _ in range(rng.choice((1, 1, 2, 3)))], files


def many(rng):
    """As many modules as there may be, or one more, each behind the one before."""
    count = rng.choice((61, 62, 63))
    files = {"m%d" % it: 'name = "m%d"\ndepends = ["m%d"]\n' % (it, it + 1) for it in range(count)}
    files["m%d" % count] = 'name = "m%d"\n' % count
    return ["m0"], files


def own(rng):
    """A module of the repository, beside others now and then."""
    name = rng.choice(sorted(OWN))
    names, files = graph(rng) if rng.random() < 0.3 else ([], {})
    with open(OWN[name], encoding="utf-8") as text:
        return [name, *names], {**files, name: text.read()}


def place(fault, files):
    """The place of a fault. The machine tells a missing name of an entry after every other key; it counts where it would stand, as docs/DECISIONS.md has it."""
    steps = fault.place.split(".")
    if fault.kind == "Form" and fault.module in files and steps[0] == "model" and len(steps) > 2:
        entry = tomlio.read(files[fault.module])["model"][int(steps[1])]
        if not {"name", "inherit"} & set(entry) and steps[2].encode() > b"name":
            return "model.%s.name" % steps[1]
    return fault.place


def wanted(names, files):
    """The registry, model by model, or the line of the first fault; by a judge who reads definitions as docs/DECISIONS.md does."""
    judges, build = [], schema.build

    def judged(definitions, stage):
        judges.append(Judge(definitions, stage))
        return judges[-1].build()

    schema.build = judged
    try:
        loaded = load.load(lambda path: files.get(path[len(FOLDER) + 1:-len(".toml")], None), FOLDER, names, STAGE)
    except load.LoadFault as fault:
        return "module %s: %s %s" % (fault.module, fault.kind, place(fault, files))
    finally:
        schema.build = build
    return " || ".join(told_model(judges[-1], model) for model in loaded.schema.models.values()) or "none"


def asked(rng, _model):
    kind = rng.random()
    if kind < 0.35:
        names, files = ["m"], {"m": fuzz_modules.module(rng.randrange(10 ** 9), STAGE)}
    elif kind > 0.96:
        names, files = many(rng) if kind > 0.98 else own(rng)
    else:
        names, files = graph(rng)
    line = "load %s %s" % (":".join(map(part, names)), " ".join("%s=%s" % (part(name), part(text)) for name, text in files.items()))
    return line, wanted(names, {name: text.encode() for name, text in files.items()})


MAKERS = {"load": asked}
