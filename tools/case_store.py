"""The store of a case, in a file: rows, links and next ids that are put there before a run and looked at behind
one, by Python's SQLite. docs/STORE.md has the tables, docs/MODULES.md how models are numbered."""
import contextlib
import os
import re
import sqlite3

from process import TOP

TABLES = """CREATE TABLE IF NOT EXISTS kept(model INTEGER, id INTEGER, body BLOB, PRIMARY KEY(model, id)) STRICT;
CREATE TABLE IF NOT EXISTS link(model INTEGER, field INTEGER, target INTEGER, id INTEGER, PRIMARY KEY(model, field, target, id)) STRICT;
CREATE TABLE IF NOT EXISTS counter(model INTEGER PRIMARY KEY, next INTEGER) STRICT;
CREATE INDEX IF NOT EXISTS link_row ON link(model, id);"""
INSIDE = f"{TOP}/crates/ob_module/src/inside"


class Unplayed(Exception):
    """A line that can't be played: it names no model, say."""


def texts_inside():
    """The texts of the modules inside the program."""
    found = {}
    for name in ("base", "stock"):
        with open(f"{INSIDE}/{name}.rt", encoding="utf-8") as it:
            found[name] = re.search(r'r#"\n(.*?)"#', it.read(), re.S)[1]
    return found


def models_of(words, texts):
    """The names of the models that words load, in the order of their numbers."""
    texts, taken = {**texts, **texts_inside()}, []

    def take(name):
        """Takes a module behind those on which it depends."""
        if name in texts and name not in taken:
            depends = re.search(r"^\s*depends = \[(.*)\]", texts[name], re.M)
            for below in re.findall(r'"([^"]*)"', depends[1] if depends else ""):
                take(below)
            taken.append(name)

    for name in ["base", "stock", *loaded(words)]:
        take(name)
    return [model for name in taken for model in declared(texts[name])]


def loaded(words):
    """The modules that words name."""
    return [word if before == "--load" else word[7:] for before, word in zip(["", *words], words) if before == "--load" or word.startswith("--load=")]


def declared(text):
    """The new models of a module, in their order."""
    entries = (re.split(r"^\s*\[", entry, maxsplit=1, flags=re.M)[0] for entry in text.split("[[model]]")[1:])
    return [found[1] for found in (re.search(r'^\s*name = "([^"]*)"', entry, re.M) for entry in entries) if found]


def number_of(model, words, texts):
    models = models_of(words, texts)
    if model not in models:
        raise Unplayed(f"no model {model}")
    return models.index(model) + 1


@contextlib.contextmanager
def opened(path):
    """The tables of a file, which are made where they aren't there."""
    rows = sqlite3.connect(path)
    try:
        rows.execute("PRAGMA synchronous = OFF")
        rows.executescript(TABLES)
        yield rows
        rows.commit()
    finally:
        rows.close()


def body_and_links(text):
    """The bytes of a body in hex, and the links behind it, each a field's number and an id."""
    body, *links = text.split(" > ")
    return bytes.fromhex(body), sorted(tuple(map(int, link.split())) for link in links)


def hold(path, model, text):
    """Puts a next id, as `next 8`, or a row, as `7 01 0000 > 3 1`, of the model of this number; `none` takes away what
    is there, and `null` puts a row that has no body."""
    what, _, text = text.partition(" ")
    with opened(path) as rows:
        if what == "next":
            rows.execute("DELETE FROM counter WHERE model = ?", (model,))
            if text != "none":
                rows.execute("INSERT INTO counter VALUES(?, ?)", (model, int(text)))
            return
        rows.execute("DELETE FROM kept WHERE model = ? AND id = ?", (model, int(what)))
        rows.execute("DELETE FROM link WHERE model = ? AND id = ?", (model, int(what)))
        if text != "none":
            body, links = (None, []) if text == "null" else body_and_links(text)
            rows.execute("INSERT INTO kept VALUES(?, ?, ?)", (model, int(what), body))
            rows.executemany("INSERT INTO link VALUES(?, ?, ?, ?)", [(model, field, target, int(what)) for field, target in links])


def kept(path, model, text):
    """What such a text wants to be kept of the model of this number, and what is kept in its place."""
    what, _, want = text.partition(" ")
    if not os.path.exists(path):
        return want, {"next": "1", "ids": ""}.get(what, "none")
    with opened(path) as rows:
        if what == "next":
            found = rows.execute("SELECT next FROM counter WHERE model = ?", (model,)).fetchone()
            return want, str(found[0] if found else 1)
        if what == "ids":
            found = rows.execute("SELECT id FROM kept WHERE model = ? ORDER BY id", (model,))
            return want, ",".join(str(row) for row, in found)
        found = rows.execute("SELECT body FROM kept WHERE model = ? AND id = ?", (model, int(what))).fetchone()
        links = rows.execute("SELECT field, target FROM link WHERE model = ? AND id = ? ORDER BY field, target", (model, int(what))).fetchall()
    return want if want == "none" else told(*body_and_links(want)), told(found[0], links) if found else "none"


def told(body, links):
    """A row as a page has it, without blanks in its body."""
    return " > ".join([body.hex(), *(f"{field} {target}" for field, target in links)])
