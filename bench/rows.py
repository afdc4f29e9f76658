"""Files of rows by python's sqlite3, for `run.sh store` and `run.sh search`: rows.py upserts PATH N
keeps N rows of the length of a line's, a transaction each, in a new file; rows.py fill PATH N makes
N of the one line that a store has; rows.py vary PATH N does so too, each with a quantity and a price
of its own; rows.py ask N CALL TIMES asks SQLite, in memory, of so many such rows what a search of
bench/lines.py asks, and prints the seconds of one."""
import re
import sqlite3
import struct
import sys
import time

UPSERT = "INSERT INTO kept(model, id, body) VALUES(?1, ?2, ?3) ON CONFLICT(model, id) DO UPDATE SET body = excluded.body"
LINK = "INSERT OR IGNORE INTO link(model, field, target, id) VALUES(?1, ?2, ?3, ?4)"
NEXT = "INSERT INTO counter(model, next) VALUES(?1, ?2) ON CONFLICT(model) DO UPDATE SET next = excluded.next"


def upserts(path, count):
    rows = sqlite3.connect(path, isolation_level=None)
    rows.execute("PRAGMA journal_mode = WAL")
    rows.execute("PRAGMA synchronous = FULL")
    rows.execute("CREATE TABLE kept(model INTEGER, id INTEGER, body BLOB, PRIMARY KEY(model, id)) STRICT")
    rows.execute("CREATE TABLE counter(model INTEGER PRIMARY KEY, next INTEGER) STRICT")
    for number in range(1, count + 1):
        rows.execute("BEGIN")
        rows.execute(UPSERT, (3, number, bytes(104)))
        rows.execute(NEXT, (3, number + 1))
        rows.execute("COMMIT")
    rows.close()


def fill(path, count, told=lambda body, number: body):
    """Makes so many rows of the one line of a store, with links as it has them."""
    with sqlite3.connect(path) as rows:
        model, line, body = rows.execute("SELECT model, id, body FROM kept WHERE instr(body, CAST('subtotal' AS BLOB)) > 0").fetchone()
        links = rows.execute("SELECT field, target FROM link WHERE model = ? AND id = ?", (model, line)).fetchall()
        rows.executemany(UPSERT, ((model, number, told(body, number)) for number in range(1, count + 1)))
        rows.executemany(LINK, ((model, field, target, number) for field, target in links for number in range(1, count + 1)))
        rows.execute(NEXT, (model, count + 1))
    rows.close()


def figures(number):
    """The quantity and the price of the line of this number."""
    return number * 7919 % 1000, number * 104729 % 1000003


def with_figures(body, number):
    """The kept row of a line with them, and with the subtotal that they come to."""
    qty, price = figures(number)
    for name, value in ((b"qty", qty), (b"price", price), (b"subtotal", qty * price)):
        field = bytes([len(name)]) + name + b"\x02"
        body = re.sub(re.escape(field) + b"(?s:.{8})", lambda found: field + struct.pack(">q", value), body, count=1)
    return body


def vary(path, count):
    fill(path, count, with_figures)


# What SQLite is asked for each search of lines.py.
QUERIES = {"found": "SELECT id FROM line WHERE qty >= 990 ORDER BY id",
           "ordered": "SELECT id FROM line ORDER BY price DESC, id LIMIT 10",
           "counted": "SELECT count(*) FROM line WHERE qty >= 500 AND price < 250000"}


def ask(count, call, times):
    rows = sqlite3.connect(":memory:")
    rows.execute("CREATE TABLE line(id INTEGER PRIMARY KEY, qty INTEGER, price INTEGER) STRICT")
    rows.executemany("INSERT INTO line VALUES(?1, ?2, ?3)", ((number, *figures(number)) for number in range(1, count + 1)))
    began = time.perf_counter()
    for _ in range(times):
        rows.execute(QUERIES[call]).fetchall()
    print((time.perf_counter() - began) / times)


if sys.argv[1] == "ask":
    ask(int(sys.argv[2]), sys.argv[3], int(sys.argv[4]))
else:
    {"upserts": upserts, "fill": fill, "vary": vary}[sys.argv[1]](sys.argv[2], int(sys.argv[3]))
