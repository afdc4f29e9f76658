"""Plays cases, for tools/cases.py: each run is a process of the program over a folder of its case, with host.c
below it, and what it wrote and kept is compared with what the page wants."""
import itertools
import os
import shutil
import sqlite3
import subprocess
import threading

import case_store as store
from process import connected, exchanged, free_port

# The file of a case's rows, in its folder.
ROWS = "rows"
# So no two servers are told of one port.
SERVING = threading.Lock()


class Played:
    """A case that is played in this folder, by this program over this library, with so many seconds for a run, and where
    it differed so far."""

    def __init__(self, case, program, library, own_texts, seconds, folder):
        self.case, self.program, self.library, self.own_texts = case, program, library, own_texts
        self.seconds, self.folder, self.told = seconds, folder, []

    def play(self):
        for what, about in self.case.steps:
            try:
                getattr(self, what)(about)
            except (store.Unplayed, ValueError, sqlite3.Error) as why:
                self.told.append(f"can't be played: {why}")
            except subprocess.TimeoutExpired:
                self.told.append(f"no end within {self.seconds} seconds")

    def differ(self, what, wanted, found):
        """Tells the first line in which two texts differ, where they do."""
        for line, other in itertools.zip_longest(wanted.split(b"\n"), found.split(b"\n"), fillvalue=b"no line"):
            if line != other:
                self.told.append(f"{what}\nwanted: {shown(line)}\nfound:  {shown(other)}")
                return

    # The store.

    def model(self, given, name):
        return store.number_of(name, given.words, {**self.own_texts, **given.texts})

    def hold(self, about):
        given, model, text = about
        store.hold(f"{self.folder}/{ROWS}", self.model(given, model), text)

    def kept(self, about):
        given, model, text = about
        wanted, found = store.kept(f"{self.folder}/{ROWS}", self.model(given, model), text)
        self.differ(f"kept {model} {text}", wanted.encode(), found.encode())

    # A run.

    def run(self, run):
        self.put_texts({**self.own_texts, **run.given.texts})
        words = [self.program, *self.words(run)]
        with open(f"{self.folder}/input", "w+b") as sent, open(f"{self.folder}/output", "w+b") as written:
            sent.write(run.sent)
            sent.seek(0)
            how = {"stdin": sent, "stdout": written, "stderr": subprocess.PIPE, "cwd": self.folder, "env": self.environment(run.given)}
            if "serve" in words:
                errors, status = self.served(words, run, how)
            else:
                ended = subprocess.run(words, timeout=self.seconds, **how)
                errors, status = ended.stderr, ended.returncode
            written.seek(0)
            found = written.read()
        self.differ("output", bytes(run.wanted), looked_at(found, run.given.models))
        self.differ("status", b"%d" % run.status, b"%d" % status)
        self.differ("standard error", b"", errors)

    def words(self, run):
        """The words of a run: those of the page, and where rows are kept, where any are looked at. Words that are none stay alone."""
        words = run.given.words
        if run.status == 2 or not self.case.has_rows() or any(word.startswith("--store") for word in words):
            return words
        return [*words, "--store", ROWS]

    def put_texts(self, texts):
        shutil.rmtree(f"{self.folder}/modules", ignore_errors=True)
        os.mkdir(f"{self.folder}/modules")
        for name, text in texts.items():
            with open(f"{self.folder}/modules/{name}.toml", "w", encoding="utf-8") as it:
                it.write(text)

    def environment(self, given):
        """What host.c is told."""
        fails = {f"HOST_FAIL_{name.upper()}": " ".join(map(str, numbers)) for name, numbers in given.fails.items()}
        return {"LD_PRELOAD": self.library, "HOST_START": str(given.start), "HOST_STEP": str(given.step), "HOST_CUT": str(given.cut),
                "HOST_ROOM": str(given.room), "HOST_ROWS": f"{self.folder}/{ROWS}", **fails}

    def served(self, words, run, how):
        """What a server writes on its standard error, and its status, behind the connections of a run in turn."""
        with SERVING:
            words = [*words, "--listen", f"127.0.0.1:{(port := free_port())}"]
            if "--connections" not in words:
                words += ["--connections", str(len(run.peers))]
            with subprocess.Popen(words, **how) as server:
                for number, peer in enumerate(run.peers, 1):
                    there = connected(port, lambda: server.poll() is None)
                    found = exchanged(there, [bytes(peer.sent)]) if there else b""
                    self.differ(f"connection {number}", bytes(peer.wanted), found)
                try:
                    return server.communicate(timeout=self.seconds)[1], server.returncode
                finally:
                    server.kill()


def looked_at(text, models):
    """The lines of a report without those of other models' fields that are equal, where a case names the models that it looks at."""
    def is_other(line):
        words = line.split(b" ")
        return len(words) == 3 and words[2] == b"equal" and words[0].rpartition(b".")[0].decode() not in models
    if not models:
        return text
    return b"\n".join(line for line in text.split(b"\n") if not is_other(line))


def shown(line):
    """A line as it is printed: its first part, with what isn't text told by number."""
    return line[:1000].decode(errors="backslashreplace")
