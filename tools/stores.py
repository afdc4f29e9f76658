#!/usr/bin/env python3
"""What the proved program makes of a store in a file, as a process:

    tools/stores.py [KILLS [PROGRAM]]

Runs over files in a folder of its own: what one run keeps the next one reads, and an audit tells; a
second process is refused, and so are files that hold no store, and a full disk, where this user may
mount one; a stream of creates is killed at a random moment, KILLS times (by default 10), and what
was acknowledged must be there. With more kills than that a file of 100,000 rows gets one more, too. Where
the shell `sqlite3` is there it looks at the tables. Prints each case that is left out, and each that
differs; the status is 1 where one does. The gate runs it with few kills. PROGRAM is by default the
proved one.
"""
import json
import os
import random
import shutil
import sqlite3
import subprocess
import sys
import tempfile
import time

import messages as m
from process import TOP, program

FAULT = ("keeper fault\n", 6)
# The lines of an audit behind those of demo.line, where there are no other rows than those of a new store.
OTHERS = "".join(f"{field} {count} equal\n" for field, count in (
    ("demo.order.total", 0), ("demo.place.parent_path", 0), ("product.category.complete_name", 1), ("product.category.parent_path", 1),
    ("stock.location.complete_name", 7), ("stock.location.parent_path", 7), ("stock.move.quantity", 0), ("stock.move.line.done", 0),
    ("stock.picking.name", 0), ("stock.picking.state", 0)))
TABLES = [
    "CREATE TABLE kept(model INTEGER, id INTEGER, body BLOB, PRIMARY KEY(model, id)) STRICT",
    "CREATE TABLE link(model INTEGER, field INTEGER, target INTEGER, id INTEGER, PRIMARY KEY(model, field, target, id)) STRICT",
    "CREATE TABLE counter(model INTEGER PRIMARY KEY, next INTEGER) STRICT",
    "CREATE INDEX link_row ON link(model, id)",
]
# The body of a line named Al with 3 pieces at 25 and no order, made and changed at one moment by the user 2.
LINE = ("010009" "0b6372656174655f6461746505{0}" "0a6372656174655f756964060000000000000002" "046e616d650300000002416c" "086f726465725f696400" "057072696365020000000000000019" "03717479020000000000000003"
        "08737562746f74616c02000000000000004b" "0a77726974655f6461746505{0}" "0977726974655f756964060000000000000002")
LINES = "instr(body, CAST('subtotal' AS BLOB)) > 0"
SHIPS = "instr(body, CAST('line_id' AS BLOB)) > 0"
FEW_KILLS = 10
MANY = 100_000


class Cases:
    """The cases so far, and a folder for their files."""

    def __init__(self, program, folder):
        self.program, self.folder, self.failed = program, folder, 0

    def differ(self, name, found, wanted):
        """Tells a case whose answer is another than the one that is wanted."""
        if found != wanted:
            self.failed += 1
            print(f"{name}:\n  found  {found!r}\n  wanted {wanted!r}", flush=True)

    def words(self, action, path):
        return [self.program, action, "--modules", f"{TOP}/modules", "--load", "demo", "--store", path]

    def run(self, action, path, requests=()):
        """What a run writes, and its status."""
        ran = subprocess.run(self.words(action, path), input="".join(requests), stdout=subprocess.PIPE, text=True, timeout=300)
        return ran.stdout, ran.returncode

    def start(self, path):
        """A run whose input stays open."""
        return subprocess.Popen(self.words("call", path), stdin=subprocess.PIPE, stdout=subprocess.PIPE, text=True, bufsize=1)


def written(value):
    """A value as JSON without blanks."""
    return json.dumps(value, separators=(",", ":"))


def line(body):
    return f"{body.decode()}\n"


def request(number, model, method, *args):
    return line(m.asked(number, method, *map(written, args), model=model))


def create(number, **vals):
    return request(number, "demo.line", "create", vals or {"name": f"bolt {number}", "qty": number, "price": 3})


def created(number, result):
    return line(m.told(number, written(result)))


def refused(number):
    return line(m.refused(number, "Keeper", "keeper fault"))


def equal(rows):
    """What an audit tells of so many lines."""
    return f"demo.line.subtotal {rows} equal\n{OTHERS}audit equal\n", 0


def what_stands(folder):
    """The files of a folder with their bytes; those that are empty are passed over."""
    found = {}
    for name in sorted(os.listdir(folder)):
        with open(f"{folder}/{name}", "rb") as it:
            found[name] = it.read()
    return {name: text for name, text in found.items() if text}


def alter(path, statement, *values):
    """Alters what is kept, by SQLite itself."""
    other = sqlite3.connect(path)
    with other:
        other.execute(statement, values)
    other.close()


def kept_rows(cases):
    """What one run keeps is read by the next, and audited."""
    path = f"{cases.folder}/rows"
    cases.differ("a create", cases.run("call", path, [create(1, name="Al", qty=3, price=25)]), (created(1, 1), 0))
    read = request(1, "demo.line", "read", [1], ["name", "subtotal"])
    cases.differ("a read in a second run", cases.run("call", path, [read]), (created(1, [{"id": 1, "name": "Al", "subtotal": 75}]), 0))
    ship = request(1, "demo.ship", "create", {"line_id": 1})
    cases.differ("a row with a link", cases.run("call", path, [ship]), (created(1, 1), 0))
    cases.differ("an audit", cases.run("audit", path), equal(1))
    alone = f"{cases.folder}/alone"
    shutil.copy(path, alone)
    cases.differ("an audit of the file without its log", cases.run("audit", alone), equal(1))
    look_inside(cases, path)
    altered_rows(cases, path)


def altered_rows(cases, path):
    """The line of such a store altered, and then gone: an audit tells each."""
    rows = sqlite3.connect(path)
    body = rows.execute(f"SELECT body FROM kept WHERE {LINES}").fetchone()[0]
    rows.close()
    at = body.index(b"subtotal") + 9
    for name, text, wanted in [
        ("another subtotal", body[:at] + (76).to_bytes(8, "big") + body[at + 8:], (f"demo.line.subtotal 1 differs at 1: kept 76 scratch 75\n{OTHERS}audit differs\n", 1)),
        ("a row without its last byte", body[:-1], ("unreadable demo.line 1\naudit differs\n", 1)),
        ("a row with a byte more", body + b"\0", ("unreadable demo.line 1\naudit differs\n", 1)),
        ("the row again", body, equal(1)),
    ]:
        alter(path, f"UPDATE kept SET body = ? WHERE {LINES}", text)
        cases.differ(f"an audit of {name}", cases.run("audit", path), wanted)
    alter(path, f"DELETE FROM link WHERE model = (SELECT model FROM kept WHERE {LINES})")
    alter(path, f"DELETE FROM kept WHERE {LINES}")
    cases.differ("an audit of a reference that dangles", cases.run("audit", path), ("broken MissingRef demo.ship 1 line_id\naudit differs\n", 1))
    cases.differ("a call over it", cases.run("call", path), ("store demo.ship 1 line_id\n", 8))


def look_inside(cases, path):
    """The tables of a store with a line and a ship that names it, by SQLite's own shell."""
    if shutil.which("sqlite3") is None:
        print("sqlite3 isn't there: nothing looks at the tables with it", flush=True)
        return

    def ask(text):
        return subprocess.run(["sqlite3", path, text], stdout=subprocess.PIPE, text=True).stdout.splitlines()

    cases.differ("PRAGMA integrity_check", ask("PRAGMA integrity_check"), ["ok"])
    cases.differ("the tables", [text for text in ask("SELECT replace(sql, 'IF NOT EXISTS ', '') FROM sqlite_schema") if text], TABLES)
    moments = ask(f"SELECT lower(hex(substr(body, 17, 8))) FROM kept WHERE {LINES}")
    bodies = ask(f"SELECT lower(hex(body)) FROM kept WHERE {LINES}")
    cases.differ("the body of a line", bodies[:1], [LINE.format(moments[0])])
    model, ship = (ask(f"SELECT model FROM kept WHERE {of}")[0] for of in (LINES, SHIPS))
    cases.differ("next ids", ask(f"SELECT model, next FROM counter WHERE model IN ({model}, {ship}) ORDER BY model = {ship}"), [f"{model}|2", f"{ship}|2"])
    cases.differ("links", ask(f"SELECT target, id FROM link WHERE model = {ship} ORDER BY field"), ["2|1", "1|1", "2|1"])


def two_processes(cases):
    """The second process on a file is refused, and the first goes on."""
    path = f"{cases.folder}/two"
    first = cases.start(path)
    for number in (1, 2):
        first.stdin.write(create(number))
        cases.differ("the first process", first.stdout.readline(), created(number, number))
        for action in ("call", "audit"):
            cases.differ(f"a second process, {action}", cases.run(action, path, [create(1)] if action == "call" else ()), FAULT)
    first.stdin.close()
    cases.differ("the first process at its end", (first.stdout.read(), first.wait()), ("", 0))
    first.stdout.close()
    cases.differ("an audit behind both", cases.run("audit", path), equal(2))


def no_stores(cases):
    """What is no store is refused, and stays."""
    folder = f"{cases.folder}/other"
    os.mkdir(folder)
    with open(f"{folder}/text", "w") as it:
        it.write("no database, but a text that somebody wrote\n" * 400)
    with open(f"{folder}/cut", "wb") as it:
        it.write(b"SQLite format 3\0" + bytes(50))
    before = what_stands(folder)
    for path in ("text", "cut", "none/rows"):
        for action in ("call", "audit"):
            cases.differ(f"{action} of {path}", cases.run(action, f"{folder}/{path}", [create(1)]), FAULT)
    for path in (folder, ":memory:", f"file:{folder}/new"):
        cases.differ(f"a call of {path}", cases.run("call", path, [create(1)]), FAULT)
    cases.differ("what stood there", what_stands(folder), before)


def full_disk(cases):
    """A disk that is full: at the opening nothing is made of it, and later what is acknowledged stays."""
    disk = f"{cases.folder}/disk"
    os.mkdir(disk)
    if subprocess.run(["mount", "-t", "tmpfs", "-o", "size=4m", "none", disk], stderr=subprocess.DEVNULL).returncode:
        print("no disk can be mounted here: a full one isn't tried", flush=True)
        return
    try:
        over_full_disk(cases, disk)
    finally:
        subprocess.run(["umount", disk])


def fill(disk, spare):
    """Fills a disk but for so many bytes."""
    with open(f"{disk}/rest", "wb") as it:
        free = os.statvfs(disk).f_bavail * os.statvfs(disk).f_frsize
        it.write(bytes(max(0, free - spare)))


def over_full_disk(cases, disk):
    path = f"{disk}/rows"
    fill(disk, 0)
    cases.differ("a new store on a full disk", cases.run("call", path, [create(1)]), FAULT)
    os.remove(f"{disk}/rest")
    cases.differ("the same with room", cases.run("call", path, [create(1)]), (created(1, 1), 0))
    # The log grows by some hundred kilobytes at once.
    fill(disk, 600_000)
    replies, status = cases.run("call", path, [create(number) for number in range(1, 150)])
    rows, wanted = 1, []
    for number, reply in enumerate(replies.splitlines(keepends=True), 1):
        is_kept = reply == created(number, rows + 1)
        rows += is_kept
        wanted.append(reply if is_kept else refused(number))
    cases.differ("creates on a disk that fills", (replies, status), ("".join(wanted), 0))
    cases.differ("some of them are refused", refused(len(wanted)) in wanted, True)
    os.remove(f"{disk}/rest")
    cases.differ("what is kept behind them", cases.run("audit", path), equal(rows))


def many_rows(cases):
    """A file of many rows, copies of one, is opened, gets one row, and is closed."""
    path = f"{cases.folder}/many"
    cases.differ("the first of many rows", cases.run("call", path, [create(1, name="Al", qty=3, price=25)]), (created(1, 1), 0))
    alter(path, "WITH RECURSIVE more(id) AS (SELECT 2 UNION ALL SELECT id + 1 FROM more WHERE id < ?) "
          f"INSERT INTO kept SELECT model, more.id, body FROM kept, more WHERE {LINES}", MANY)
    alter(path, f"INSERT INTO link SELECT link.model, field, target, kept.id FROM link, kept WHERE link.model = kept.model AND link.id = 1 AND kept.id > 1 AND {LINES}")
    alter(path, f"UPDATE counter SET next = ? WHERE model = (SELECT model FROM kept WHERE {LINES} LIMIT 1)", MANY + 1)
    cases.differ("one row more", cases.run("call", path, [create(1, name="Bo", qty=2, price=7)]), (created(1, MANY + 1), 0))
    rows = [{"id": 1, "name": "Al", "subtotal": 75}, {"id": MANY, "name": "Al", "subtotal": 75}, {"id": MANY + 1, "name": "Bo", "subtotal": 14}]
    read = request(2, "demo.line", "read", [1, MANY, MANY + 1], ["name", "subtotal"])
    cases.differ("a read of some of many rows", cases.run("call", path, [read]), (created(2, rows), 0))
    cases.differ("an audit of many rows", cases.run("audit", path), equal(MANY + 1))


def killed(cases, times):
    """A stream of creates that is killed: what was acknowledged is there, and at most one row more."""
    path, rng, whole = "", random.Random(7), None
    for turn in range(times):
        if turn % 20 == 0:
            path, rows = f"{cases.folder}/killed{turn}", []
        names = [f"{turn}.{number}" for number in range(40)]
        began = time.monotonic()
        run = subprocess.Popen(cases.words("call", path), stdin=subprocess.PIPE, stdout=subprocess.PIPE)
        run.stdin.write("".join(create(number, name=name, qty=number, price=turn) for number, name in enumerate(names)).encode())
        run.stdin.flush()
        if whole is None:
            run.stdin.close()
            run.wait()
            whole = time.monotonic() - began
        else:
            time.sleep(rng.uniform(0, 1.2 * whole))
            run.kill()
            run.wait()
            run.stdin.close()
        replies = run.stdout.read().decode().splitlines(keepends=True)
        run.stdout.close()
        replied = [reply for reply in replies if reply.endswith("\n")]
        cases.differ(f"the replies of run {turn}", replied, [created(number, len(rows) + number + 1) for number in range(len(replied))])
        rows += names[:len(replied)]
        found = rows_of(cases, path, len(rows) + 1)
        if len(found) == len(rows) + 1:
            rows.append(names[len(replied)] if len(replied) < len(names) else "a row too many")
        cases.differ(f"the rows behind run {turn}", found, rows)
        cases.differ(f"an audit behind run {turn}", cases.run("audit", path), equal(len(rows)))


def rows_of(cases, path, most):
    """The names of the lines that are kept, which are one fewer than so many, or as many."""
    for count in (most, most - 1):
        out, status = cases.run("call", path, [request(1, "demo.line", "read", list(range(1, count + 1)), ["name"])])
        answer = json.loads(out) if status == 0 else {}
        if "result" in answer:
            return [row["name"] for row in answer["result"]]
    return [out, str(status)]


def main():
    kills, path = int(sys.argv[1]) if len(sys.argv) > 1 else FEW_KILLS, program(*sys.argv[2:3])
    with tempfile.TemporaryDirectory(prefix="stores-") as folder:
        cases = Cases(path, folder)
        kept_rows(cases)
        two_processes(cases)
        no_stores(cases)
        full_disk(cases)
        killed(cases, kills)
        if kills > FEW_KILLS:
            many_rows(cases)
    sys.exit(1 if cases.failed else 0)


if __name__ == "__main__":
    main()
