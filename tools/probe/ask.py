"""Asks the probe and the libraries of an independent machine the same, over random values.

usage: ask.py ORACLE SEED COUNT [WORD]. Without the word all words are asked, by turns at
random. Of a word whose lines are always the same all are asked, whatever the count. Ends
with 1 where an answer differs.
"""
import importlib
import random
import subprocess
import sys

sys.path.insert(0, sys.argv[1])
from stockd_oracle import codec, jsonio, schema  # noqa: E402
from stockd_oracle.values import (DAY_MAX, DAY_MIN, I64_MAX, I64_MIN, ID_MAX, read_date, read_datetime,  # noqa: E402
                                  write_date, write_datetime)

MODEL = "probe.row"
FAULTS = {"Shape": "wrong shape", "Range": "out of range", "Unknown": "unknown key"}
NAMES = ("create", "update", "delete", "unlink", "link", "clear", "set")
TEXTS = ("", "bolt", "a b", "é", "\u0000", '"', "\\", "\n", "\U0001f529", "draft", "done", "2024-02-29",
         "2023-02-29", "0001-01-01", "9999-12-31", "10000-01-01", "2023-11-14 22:13:20", "2023-11-14 22:13:60")
# The files that make lines of further words, where the machine has their functions.
PARTS = (("expression_lines", "expression, kinds and evaluate"),
         ("schema_lines", "schema"),
         ("load_lines", "load"),
         ("declared_lines", "declared and preset"),
         ("domain_lines", "domain"),
         ("access_lines", "access"),
         ("tables_lines", "tables and tables_deep"),
         ("audit_lines", "audit"),
         ("trigger_lines", "closes"),
         ("settle_lines", "settles"),
         ("stock_lines", "takes, lines, state, split, chain and push"),
         ("http_lines", "http and http_cuts"))
# The bytes that are asked for at once.
OUTPUT_MAX = 1000000
NUMBERS = (0, 1, -1, 7, 75, ID_MAX, ID_MAX + 1, I64_MAX, I64_MAX + 1, I64_MIN, I64_MIN - 1, 2 ** 64 - 1, 2 ** 64)


def declared():
    """The model of the probe, as crates/probe_values/src/registry.rt declares it."""
    field = schema.FieldDef
    row = {"relation": MODEL}
    fields = {"at": field(type="datetime"), "day": field(type="date"), "done": field(type="boolean"),
              "name": field(type="char"), "note": field(type="text"), "qty": field(type="integer"),
              "state": field(type="selection", selection=[["draft", "draft"], ["done", "done"]]),
              "square": field(type="integer", compute="qty * qty", depends=["qty"], store=True),
              "owner": field(type="many2one", **row), "tags": field(type="many2many", **row),
              "lines": field(type="one2many", inverse="owner", **row)}
    return schema.build([schema.ModelDef(name=MODEL, fields=fields), schema.ModelDef(name="res.users")], 4).model(MODEL)


def held(rng, field):
    """A random value that the field may hold."""
    kind = field.type
    if kind == "boolean":
        return rng.random() < 0.5
    if kind == "integer":
        return rng.choice((0, 1, -1, I64_MIN, I64_MAX, rng.randint(I64_MIN, I64_MAX)))
    if kind == "many2many":
        return tuple(sorted(rng.sample(range(1, ID_MAX), rng.randint(0, 4))))
    if rng.random() < 0.2:
        return None
    if kind == "date":
        return rng.choice((DAY_MIN, DAY_MAX, rng.randint(DAY_MIN, DAY_MAX)))
    if kind == "datetime":
        return rng.randint(DAY_MIN * 86400, DAY_MAX * 86400 + 86399)
    if kind == "many2one":
        return rng.choice((1, ID_MAX, rng.randint(1, ID_MAX)))
    if kind == "selection":
        return rng.choice(("draft", "done"))
    return rng.choice(TEXTS) * rng.choice((1, 1, 40))


def shown(field, value):
    """A value as the probe writes it."""
    if value is None:
        return "unset"
    if field.type == "many2many":
        return "ids:" + ",".join(map(str, value))
    word = {"date": "day:", "datetime": "moment:", "many2one": "id:"}.get(field.type)
    return word + str(value) if word else jsonio.write_text(value)


def row(rng, model):
    """A row's body, whole or with a byte changed, added or left out."""
    body = bytearray(codec.row_bytes(model, {f.name: held(rng, f) for f in model.kept()}, 1))
    for _ in range(rng.choice((0, 0, 1, 2))):
        at = rng.randrange(len(body))
        change = rng.randrange(3)
        body[at:at + (change != 1)] = b"" if change == 2 else bytes([rng.choice((0, 1, 255, rng.randrange(256)))])
    word = rng.choice(("row", "body"))
    try:
        values = codec.row_of(model, bytes(body), 1)
    except codec.Bad:
        return "%s %s" % (word, body.hex()), "bad"
    told = " ".join(shown(f, values[f.name]) for f in model.kept())
    return "%s %s" % (word, body.hex()), told if word == "row" else codec.row_bytes(model, values, 1).hex()


def json(rng, depth=0):
    """A random text of JSON, not always well formed."""
    kind = rng.randrange(12 if depth < 3 else 7)
    if kind < 2:
        return rng.choice(("null", "true", "false"))
    if kind < 5:
        return rng.choice((str(rng.choice(NUMBERS)), str(rng.randint(-9, 9)), "1.0", "1e3", "-0", "01", "1e999"))
    if kind < 7:
        return jsonio.write_text(rng.choice(TEXTS)) if rng.random() < 0.9 else rng.choice(('"\\u00e9"', '"\\ud800"', '"'))
    if kind < 9:
        return "[%s]" % rng.choice((",", " , ")).join(json(rng, depth + 1) for _ in range(rng.randint(0, 3)))
    if kind < 10:
        return '{"qty":%d}' % rng.randint(0, 9)
    return command(rng) if depth else "[%s]" % ",".join(command(rng) for _ in range(rng.randint(0, 3)))


def command(rng):
    code = rng.randint(-1, 7)
    ids = "[%s]" % ",".join(str(rng.choice((1, 5, 0, ID_MAX))) for _ in range(rng.randint(0, 3)))
    parts = [str(code), rng.choice(("0", "7", str(ID_MAX), str(ID_MAX + 1), "false")), rng.choice(("{}", '{"qty":1}', ids, "0"))]
    return "[%s]" % ",".join(parts[:rng.choice((1, 2, 3, 3, 3))])


def ordered(command):
    """A command as the probe writes it."""
    parts = [jsonio.write_text(it) if isinstance(it, dict) else ",".join(map(str, it)) if isinstance(it, list) else str(it)
             for it in command[1:]]
    return ":".join([NAMES[command[0]], *parts]) if command[0] != 6 else "set:" + parts[0]


def faulty(fault, json):
    """A fault as the libraries name it: a number that is no command's is out of range."""
    below = fault.below
    is_code = len(below) == 2 and below[1] == 0 and json[below[0]] and jsonio.is_int(json[below[0]][0])
    return "%s at %s" % (FAULTS["Range" if is_code else fault.kind], ".".join(map(str, below)))


def value(rng, model):
    field = model.fields[rng.choice(sorted(model.fields))]
    text = json(rng)
    asked = "value %s %s" % (field.name, text)
    try:
        read = jsonio.read(text.encode())
    except jsonio.JsonFault:
        return asked, "no JSON"
    try:
        kind, given = codec.from_json(field, read)
    except codec.CodecFault as fault:
        return asked, faulty(fault, read)
    if kind == "commands":
        return asked, " ".join(map(ordered, given))
    return asked, jsonio.write_text(codec.to_json(field, given))


def order(rng, model):
    """The order of two values; unset comes before all others."""
    plain = [f for f in model.fields.values() if f.type not in ("one2many", "many2many", "datetime")]
    field = rng.choice(sorted(plain, key=lambda f: f.name))
    pair = [codec.to_json(field, held(rng, field) if field.name != "id" else rng.randint(1, 9)) for _ in range(2)]
    a, b = (codec.from_json(field, it)[1] for it in pair)
    key = lambda it: (0,) if it is None else (1, it.encode() if isinstance(it, str) else it)  # noqa: E731
    told = "Less" if key(a) < key(b) else "Greater" if key(a) > key(b) else "Equal"
    return "order %s %s" % (field.name, jsonio.write_text(pair)), told


def digits(rng, text):
    """A text with a character changed, now and then."""
    if rng.random() < 0.5:
        at = rng.randrange(len(text))
        text = text[:at] + rng.choice("0123456789-: x") + text[at + 1:]
    return text


def day(rng, _model):
    text = digits(rng, write_date(rng.randint(DAY_MIN, DAY_MAX)))
    found = read_date(text)
    return "day " + text, "none" if found is None else "%d %s" % (found, text)


def moment(rng, _model):
    text = digits(rng, write_datetime(rng.randint(DAY_MIN * 86400, DAY_MAX * 86400)))
    found = read_datetime(text)
    return "moment " + text, "none" if found is None else "%d %s" % (found, text)


def makers():
    """What makes lines of each word, and all lines of some: of expressions, definitions, modules, stock and connections only where the machine has their functions."""
    runs, found = {}, {"row": row, "value": value, "order": order, "day": day, "moment": moment}
    for part, words in PARTS:
        try:
            module = importlib.import_module(part)
            found.update(module.MAKERS)
            runs.update(getattr(module, "RUNS", {}))
        except ImportError:
            print("no functions of %s to compare with in %s: skipped" % (words, sys.argv[1]))
    return found, runs


def pairs_of(made):
    """A line with the answer that is wanted, or several in their order."""
    return made if isinstance(made, list) else [made]


def asked_and_wanted():
    """So many lines with the answers that are wanted, of one word or of all; or all lines of a word of a run."""
    rng, model = random.Random(int(sys.argv[2])), declared()
    found, runs = makers()
    # Rows and values have more forms than the others.
    words = sys.argv[4:] or [*found, "row", "value", "value"]
    if words[0] in runs:
        return runs[words[0]]()
    if words[0] not in found:
        print("nothing to compare with for %s: skipped" % words[0])
        return []
    return [pair for _ in range(int(sys.argv[3])) for pair in pairs_of(found[rng.choice(words)](rng, model))]


def portions(pairs):
    """The lines by turns, as many at once as an unproved build may answer (tools/build.sh run)."""
    portion, size = [], 0
    for line, want in pairs:
        length = len(str(want).encode()) + 1
        if portion and size + length > OUTPUT_MAX:
            yield portion
            portion, size = [], 0
        portion.append((line, want))
        size += length
    if portion:
        yield portion


def answered(pairs):
    """The probe's answers to such lines, or None where it doesn't answer each."""
    asked = "".join(line + "\n" for line, _ in pairs)
    ran = subprocess.run(["tools/build.sh", "run", "probe"], input=asked.encode(), stdout=subprocess.PIPE)
    answers = ran.stdout.decode().split("\n")[:-1]
    if ran.returncode or len(answers) != len(pairs):
        print("the probe ended with status %d after %d of %d answers" % (ran.returncode, len(answers), len(pairs)))
        return None
    return answers


def main():
    wrong, count = [], 0
    for pairs in portions(asked_and_wanted()):
        answers = answered(pairs)
        if answers is None:
            return 1
        wrong += [(line, want, got) for (line, want), got in zip(pairs, answers) if got != want]
        count += len(pairs)
    for line, want, got in wrong[:5]:
        print("asked: %s\n  wanted: %s\n  answered: %s" % (line, want, got))
    if count:
        print("%d answers, %d differ" % (count, len(wrong)))
    return 1 if wrong else 0


sys.exit(main())
