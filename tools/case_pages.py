"""The reader of pages of cases, for tools/cases.py: a page is text, and docs/CASES.md has its lines. Nothing is
played here. A further kind of line gets its method in Case and its row in that document."""
import copy
import re
import shlex

import messages as m
from process import TOP

# What a run is given where no line says otherwise, and the objects of which calls may fail.
WORDS, START, STEP, CUT, ROOM = "call --load demo", 1_700_000_000, 0, 64, 65_536
OBJECTS = ("files", "source", "sink", "door", "opening", "keeping")
# The rows of the users of a new store, as lines of a page.
USERS = f"{TOP}/cases/users.held"


class Unread(Exception):
    """A line that has no form."""


class Given:
    """What a run is given beside its input: this holds for the next run and those after it."""

    def __init__(self):
        self.words, self.texts, self.fails = WORDS.split(), {}, {}
        self.start, self.step, self.cut, self.room, self.models = START, STEP, CUT, ROOM, []


class Peer:
    """A connection of a run: what it sends, and what it must be answered."""

    def __init__(self):
        self.sent, self.wanted = bytearray(), bytearray()


class Run:
    """What one run sends, and what it must write and end with."""

    def __init__(self):
        self.given, self.sent, self.wanted, self.peers = None, bytearray(), bytearray(), []
        self.requests, self.status = 0, None

    def peer(self):
        if not self.peers:
            raise Unread
        return self.peers[-1]


class Case:
    """A case as far as it was read: its steps in order, each a name and what it is about."""

    def __init__(self, page, name):
        self.page, self.name, self.steps, self.unread = page, name, [], []
        self.given, self.run, self.is_open = Given(), Run(), True

    def take(self, line):
        """Takes the next line."""
        word, _, rest = line.partition(" ")
        try:
            if word[:1].isdigit():
                self.call(word, rest)
            elif word[:1] in ("=", "!"):
                self.reply(word[0], word[1:], rest)
            else:
                LINES[word](self, rest)
        except (Unread, KeyError, ValueError):
            self.unread.append(line)

    def has_rows(self):
        """Whether its rows stand in a file: it puts some or looks at them, has several runs, or has calls of the file fail."""
        runs = [about for what, about in self.steps if what == "run"]
        return len(self.steps) > 1 or any({"opening", "keeping"} & run.given.fails.keys() for run in runs)

    # What is sent.

    def send(self, text):
        self.is_open = True
        self.run.sent += text

    def send_line(self, text):
        self.run.requests += 1
        self.send(f"{text}\n".encode())

    def send_times(self, rest):
        count, text = two(rest)
        self.send(text.encode() * number(count))

    def call(self, user, rest):
        model, rest = two(rest)
        method, args = two(rest)
        self.send_line(m.called(self.run.requests + 1, model, method, args.replace("] {", "],{"), user).decode())

    # What must be written.

    def want(self, text):
        self.is_open = True
        self.run.wanted += text

    def reply(self, sign, given, rest):
        of = given or self.run.requests
        if sign == "=":
            self.want(m.told(of, rest) + b"\n")
        else:
            self.want(m.refused(of, *two(rest)) + b"\n")

    # Connections.

    def connect(self, rest):
        none_of(rest)
        self.is_open = True
        self.run.peers.append(Peer())

    def send_head(self, rest):
        self.run.peer().sent += m.head(*rest.split("|"))

    def post(self, body):
        self.run.peer().sent += m.message(body.encode(), fields=())

    def send_text(self, text):
        self.run.peer().sent += text.encode()

    def answer(self, body, keep=True):
        self.run.peer().wanted += m.reply(body.encode(), keep)

    def fault(self, rest):
        status, phrase = two(rest)
        if m.PHRASES.get(number(status)) != phrase:
            raise Unread
        self.run.peer().wanted += m.fault(number(status))

    def interim(self, rest):
        none_of(rest)
        self.run.peer().wanted += m.INTERIM

    # What a run is given.

    def set_words(self, rest):
        self.given.words = shlex.split(rest)

    def set_text(self, rest):
        name, text = two(rest)
        if text.startswith("* "):
            text = f"name = '{name}'\n#".ljust(number(text[2:]), "x")
        self.given.texts[name] = text.replace("|", "\n")

    def set_clock(self, rest):
        start, step = two(rest)
        self.given.start, self.given.step = number(start), number(step)

    def set_cut(self, rest):
        self.given.cut = number(rest)

    def set_room(self, rest):
        self.given.room = number(rest)

    def set_fails(self, rest):
        name, _, numbers = rest.partition(" ")
        if name not in OBJECTS:
            raise Unread
        self.given.fails[name] = [number(each) for each in numbers.split()]

    def set_models(self, rest):
        self.given.models = rest.split()

    # The run, and the store.

    def end(self, rest):
        self.run.status, self.run.given, self.is_open = number(rest), copy.deepcopy(self.given), False
        self.steps.append(("run", self.run))
        self.run = Run()

    def store(self, what, rest):
        model, rest = two(rest)
        self.steps.append((what, (copy.deepcopy(self.given), model, rest)))

    def hold(self, rest):
        self.store("hold", rest)

    def kept(self, rest):
        self.store("kept", rest)

    def hold_users(self, rest):
        none_of(rest)
        for line in lines_of(USERS):
            if line:
                self.take(line)


# The lines by their first words; those that begin with a digit or with = or ! are calls and replies.
LINES = {
    ">": Case.send_line, ">-": lambda case, rest: case.send(rest.encode()), "bytes": lambda case, rest: case.send(bytes.fromhex(rest)),
    "times": Case.send_times, "<": lambda case, rest: case.want(f"{rest}\n".encode()), "<-": lambda case, rest: case.want(rest.encode()),
    "connection": Case.connect, "head": Case.send_head, "post": Case.post, "sent": Case.send_text, "answer": Case.answer,
    "last": lambda case, rest: case.answer(rest, False), "fault": Case.fault, "interim": Case.interim,
    "words": Case.set_words, "module": Case.set_text, "clock": Case.set_clock, "cut": Case.set_cut, "room": Case.set_room,
    "fail": Case.set_fails, "only": Case.set_models, "status": Case.end, "hold": Case.hold, "kept": Case.kept, "users": Case.hold_users,
}


def two(text):
    """The first word of a text, and what stands behind it."""
    first, blank, rest = text.partition(" ")
    if not blank:
        raise Unread
    return first, rest


def number(text):
    """A number in digits; it may be below 0."""
    if not re.fullmatch("-?[0-9]+", text):
        raise Unread
    return int(text)


def none_of(rest):
    if rest:
        raise Unread


def lines_of(path):
    """The lines of a text; one that begins with two blanks goes on the one before, and a remark is an empty line."""
    with open(path, encoding="utf-8", newline="") as it:
        lines = it.read().replace("\n  ", " ").split("\n")
    return ["" if line.partition(" ")[0] == "#" else line for line in lines]


def read_page(path):
    """The cases of a page, and its lines before the first that have no form."""
    cases, stray = [], []
    for line in lines_of(path):
        if line.startswith("== "):
            cases.append(Case(path, line[3:]))
        elif line:
            cases[-1].take(line) if cases else stray.append(line)
    return cases, stray
