"""What ask.py asks about settles: random streams of edits to the plain program, which tests all rows and evaluates each cell
anew, and the same to an engine. The plain program's answer is to be the machine's. The engine's is to be the plain one's: sound
or not, what is broken any of what the machine finds broken, and each computed cell, id and next id behind each settle and each
opening. It evaluates no fewer cells than the machine finds changed, and no more than those that the edits can reach."""
import atexit
import collections
import json

import schema_lines
import tables_lines
from random_edits import Maker, line, tame, told_edit
from random_models import registry
from trigger_lines import WAYS, after
from stockd_oracle import bounds, jsonio

# So often a stream settles. One with a longer answer is left out, as texts of the greatest length may make it.
SETTLES = 12
ANSWER_MAX = 300000
ID_END = 2 ** 63 - 1
ALL = 2 ** 32 - 1
COUNTS = collections.Counter()


# ---- what is wanted

class Plain:
    """The machine's answers to the cases of the plain program, and what this told, for the engine's line."""

    def __init__(self):
        self.cases, self.told = [], None

    def __eq__(self, answer):
        if answer == str(self):
            self.told = json.loads(answer)
        return self.told is not None

    def __str__(self):
        return "[%s]" % ",".join(self.cases)


class Done:
    """Of a step that gives nothing."""

    def is_right(self, answer):
        return answer == "done"

    def __str__(self):
        return "done"


class Settle:
    """Of a settle of edits, the one of this place, between two tables."""

    def __init__(self, plain, place, before, behind):
        found = behind.broken()
        self.plain, self.place = plain, place
        self.broken = [[it.kind, it.model.name, it.id, it.field] for it in found]
        # Where rows can't be followed no formula is evaluated.
        is_tied = not any(it.kind in tables_lines.UNTIED for it in found)
        self.least = 0 if found else len(bounds.changed(before, behind))
        self.most = len(bounds.affected(before, behind)) if is_tied else 0
        COUNTS.update({"settles": 1, "sound": not found})
        COUNTS["cells there"] += sum(len(m.computed()) * len(rows) for m, rows in behind.rows.items())

    def is_right(self, answer):
        first = self.plain.told[self.place]["apply"]
        if not self.broken:
            return first == "sound" and answer == "done"
        COUNTS["another broken one than the first"] += answer != first
        return first in self.broken and answer in self.broken

    def __str__(self):
        return "any of %s" % line(self.broken) if self.broken else "done"


class Count:
    """Of the number of cells that a settle evaluates."""

    def __init__(self, settle):
        self.settle = settle

    def is_right(self, answer):
        COUNTS.update({"cells changed": self.settle.least, "cells evaluated": answer, "cells affected": self.settle.most})
        return self.settle.least <= answer <= self.settle.most

    def __str__(self):
        return "%d to %d" % (self.settle.least, self.settle.most)


class Told:
    """Of a question: what the plain program is told behind the settle of this place."""

    def __init__(self, plain, place, number):
        self.plain, self.place, self.number = plain, place, number

    def is_right(self, answer):
        COUNTS["answers compared"] += 1
        return answer == self.plain.told[self.place]["told"][self.number]

    def __str__(self):
        return line(self.plain.told[self.place]["told"][self.number])


class Runs:
    """Of an engine's runs: equal to their answer where each is right. Told is the first that isn't."""

    def __init__(self, plain, runs):
        self.plain, self.runs, self.wrong = plain, runs, None

    def __eq__(self, answer):
        try:
            told = json.loads(answer)
            if self.plain.told is None or [len(it) for it in told] != [len(it) for it in self.runs]:
                return False
            return all([self.is_right(*it) for n, run in enumerate(self.runs) for it in zip(run, told[n])])
        except (ValueError, TypeError, KeyError, IndexError):
            return False

    def is_right(self, one, answer):
        if one.is_right(answer):
            return True
        self.wrong = self.wrong or "%s, where %s was told" % (one, line(answer))
        return False

    def __str__(self):
        return self.wrong or "what the plain program tells: %s" % self.plain


# ---- what is asked

class Stream:
    """The runs of an engine with what is wanted of each step, and the cases of the plain program."""

    def __init__(self, rng, schema):
        self.rng, self.schema = rng, schema
        self.plain, self.cases = Plain(), []
        self.parts, self.runs = [], []
        # The edits behind what is kept, and behind what is settled; and by which questions cells are asked there.
        self.kept = self.settled = ((), ())
        self.begin()

    def step(self, step, *wanted):
        self.parts[-1].append(step)
        self.runs[-1].extend(wanted)

    def begin(self):
        """Another run: an engine opens what is kept."""
        self.parts.append(["run"])
        self.runs.append([])
        self.settled = self.kept
        self.ask()

    def ask(self):
        """Asks the engine what the plain program is asked behind the edits that are settled."""
        for asked, wanted in self.settled[1]:
            self.step(asked, wanted)

    def change(self):
        """The edits of a change of what is settled."""
        rng, maker = self.rng, Maker(self.rng, self.schema)
        maker.tables = after(self.schema, self.settled[0])
        maker.ids = {m: maker.tables.ids(m) for m in maker.models}
        if not self.settled[0]:
            maker.rows()
            if rng.random() < 0.05:
                maker.tower(rng.choice((20, 63)), tame)
        for _ in range(rng.choice((1, 1, 2, 2, 3, 6))):
            rng.choice(WAYS)(maker)
        if rng.random() < 0.25:
            maker.break_as(rng.choice(tables_lines.KINDS))
        elif rng.random() < 0.8:
            maker.mend()
        # No keeper keeps a greater id.
        return tuple(it for it in maker.edits if it[0] != "make" or it[2] < ID_END)

    def settle(self):
        """A change that is settled."""
        edits, begun = self.change(), self.settled[0]
        before, behind = after(self.schema, begun), after(self.schema, begun + edits)
        wanted = Settle(self.plain, len(self.cases), before, behind)
        asked = [] if wanted.broken else questions(behind)
        self.cases.append(line({"before": list(map(told_edit, begun)), "edits": list(map(told_edit, edits)),
                                "ask": [tables_lines.told_question(it) for it in asked]}))
        self.plain.cases.append(tables_lines.answer(behind, asked))
        for piece in pieces(self.rng, edits):
            self.step(["stage", *map(told_edit, piece)], Done())
        self.step(["count"], wanted, Count(wanted))
        COUNTS["edits"] += len(edits)
        told = tuple((of_engine(it), Told(self.plain, wanted.place, n)) for n, it in enumerate(asked))
        self.settled = self.kept if wanted.broken else (begun + edits, told)
        self.ask()

    def go_on(self):
        """What stands between two settles: what is settled is kept or given up, and an engine may be closed."""
        if self.rng.random() < 0.5:
            self.step(["flush"], Done())
            self.kept = self.settled
        elif self.rng.random() < 0.1:
            self.step(["forget"], Done())
            self.settled = self.kept
        if self.rng.random() < 0.15:
            self.begin()


def questions(tables):
    """Each computed cell, and the ids and the next id of each model, of the plain program."""
    models = list(tables.schema.models.values())
    cells = [["value", m, i, f] for m in models for i in tables.ids(m) for f in m.computed()]
    return cells + [[word, m] for word in ("ids", "next") for m in models]


def of_engine(question):
    """The same question to an engine."""
    word, *parts = tables_lines.told_question(question)
    return ["page", *parts, 0, ALL] if word == "ids" else [{"value": "read"}.get(word, word), *parts]


def pieces(rng, edits):
    """The edits in one to three pieces."""
    cuts = sorted(rng.randint(0, len(edits)) for _ in range(rng.choice((0, 0, 1, 2))))
    return [edits[first:last] for first, last in zip([0, *cuts], [*cuts, len(edits)])]


def streamed(rng):
    """A stream over a registry."""
    while True:
        entries, schema = registry(rng)
        stream = Stream(rng, schema)
        for _ in range(SETTLES):
            stream.settle()
            stream.go_on()
        if len(str(stream.plain)) <= ANSWER_MAX:
            return entries, stream


def asked(rng, _model):
    """A stream for the plain program, and the same for an engine."""
    entries, stream = streamed(rng)
    definitions = jsonio.write_text(schema_lines.line(entries))
    return [('tables {"definitions":%s,"cases":[%s]}' % (definitions, ",".join(stream.cases)), stream.plain),
            ('engine {"definitions":%s,"fails":[],"parts":%s}' % (definitions, line(stream.parts)), Runs(stream.plain, stream.runs))]


def tell_counts():
    """Prints how many settles there were, and of how many cells."""
    if COUNTS:
        print("settles: " + ", ".join("%s %d" % it for it in sorted(COUNTS.items())))


atexit.register(tell_counts)
MAKERS = {"settles": asked}
