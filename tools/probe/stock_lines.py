"""Random lines for the probe's words about stock, each with the answer of the independent machine.

The numbers are small and the places, dates and lots a handful, so that much of it ties.
"""
from stockd_oracle import stock

ORDERS = ("fifo", "lifo", "fefo", "closest")
PLACES = ("WH", "WH/A", "WH/B", "WH/b", "WH/é")
GUARDED = {8: True, 9: True, 2: False, 3: False}
LOTS = (None, None, 4, 5)


def part(it):
    """A part of an item, as the probe reads and writes it."""
    return "-" if it is None else {True: "yes", False: "no"}[it] if isinstance(it, bool) else str(it)


def items(rows):
    return "".join(" " + ":".join(map(part, row)) for row in rows)


def listed(rows):
    """The answer that has these items."""
    return items(rows)[1:] or "none"


def takes(rng, _model):
    ids = rng.sample(range(1, 7), rng.randint(0, 6))
    stocks = [(i, rng.randint(-2, 5), rng.randint(10, 12), rng.choice((None, 400, 500)), rng.choice(PLACES)) for i in ids]
    there = sum(max(s[1], 0) for s in stocks)
    want = rng.choice((0, -1, 1, there, there + 1, 99, *(rng.randint(0, there + 1) for _ in range(8))))
    order = rng.choice(ORDERS)
    return "takes %s %d%s" % (order, want, items(stocks)), listed(stock.takes(stocks, want, order))


def guarded(rng, place):
    """Whether a place is guarded; now and then a quant or a line tells otherwise than the others."""
    return GUARDED[place] != (rng.random() < 0.03)


def quant(rng, id_):
    place = rng.choice(sorted(GUARDED))
    is_guarded = guarded(rng, place)
    quantity = rng.randint(0, 6) if is_guarded else rng.randint(-6, 6)
    reserved = rng.randint(0, quantity) if is_guarded else rng.choice((0, 0, 0, rng.randint(-2, 2)))
    lot = rng.choice(LOTS)
    return id_, rng.choice((1, 1, 2)), place, lot, quantity, reserved, rng.randint(10, 13), is_guarded


def line(rng, quants):
    """A line, mostly one that takes what is reserved somewhere, or what no guarded place has."""
    full = [q for q in quants if q[5] > 0 or not q[7]]
    source = rng.choice(full) if full and rng.random() < 0.9 else quant(rng, 0)
    amount = rng.choice((source[5], rng.randint(1, source[5]))) if source[5] > 0 and rng.random() < 0.9 else rng.randint(1, 4)
    to = source[2] if rng.random() < 0.1 else rng.choice(sorted(GUARDED))
    return source[1], source[2], to, source[3], amount, guarded(rng, source[2]), guarded(rng, to)


def lines(rng, _model):
    """Quants and lines of amounts above 0, since no line of an amount of 0 is kept."""
    quants = [quant(rng, i) for i in rng.sample(range(1, 7), rng.randint(0, 6))]
    moving = [line(rng, quants) for _ in range(rng.choice((0, 1, 1, 2, 3, 4, 6)))]
    greatest = max([q[0] for q in quants], default=0)
    now, next_ = rng.randint(9, 14), greatest + rng.choice((0, *[1] * 12, 3))
    asked = "lines %d %d%s |%s" % (now, next_, items(quants), items(moving))
    if quants and next_ <= greatest:
        return asked, "not asked"
    try:
        moved = stock.move_lines([stock.Quant(*q) for q in quants], [stock.Line(*it) for it in moving], now, next_)
    except stock.LineShort as short:
        return asked, "short at %d of %d" % (short.i, short.quant)
    except stock.LineOverflow as over:
        return asked, "overflow at %d of %d" % (over.i, over.quant)
    return asked, listed([(q.id, q.product, q.place, q.lot, q.quantity, q.reserved, q.in_date, q.guarded) for q in moved])


def state(rng, _model):
    demand = rng.randint(0, 6)
    reserved, waits = rng.choice((0, demand, rng.randint(-1, demand + 1))), rng.random() < 0.5
    is_asked = 0 <= reserved <= demand and demand >= 1
    told = stock.next_state(reserved, demand, waits) if is_asked else "not asked"
    return "state %d %d %s" % (reserved, demand, part(waits)), told


def split(rng, _model):
    """What is done and what a backorder asks for, which together are the demand."""
    demand = rng.choice((rng.randint(-1, 6), rng.randint(0, 2 ** 63 - 1)))
    done = rng.choice((0, demand, rng.randint(-2, 8)))
    told = "%d %d" % (done, demand - done) if 0 <= done <= demand else "not asked"
    return "split %d %d" % (demand, done), told


def rules(rng):
    """Few places, so that circles are frequent, or a long row of rules with others between them."""
    places = range(8, rng.choice((10, 12, 14, 20)))
    found = [(rng.choice(("pull", "push")), rng.choice(places), rng.choice(places)) for _ in range(rng.choice((0, 1, 2, 4, 8)))]
    if rng.random() < 0.4:
        found += [("pull", k + 1, k) for k in range(8, 8 + rng.randint(1, 10))]
    ids = rng.sample(range(1, 21), len(found))
    rng.shuffle(found)
    return [(i, *rule) for i, rule in zip(ids, found)]


def plain(found):
    """Rules as the independent machine has them."""
    return [(i, action == "pull", src, dest) for i, action, src, dest in found]


def chain(rng, _model):
    found = rules(rng)
    place = rng.choice((8, 9, *(dest for _, action, _, dest in found if action == "pull")))
    try:
        told = listed([(i,) for i in stock.pull_chain(plain(found), place)])
    except stock.TooDeep:
        told = "too deep"
    return "chain %d%s" % (place, items(found)), told


def push(rng, _model):
    found = rules(rng)
    place = rng.choice((8, 9, *(src for _, action, src, _ in found if action == "push")))
    told = stock.push_next(plain(found), place)
    return "push %d%s" % (place, items(found)), "none" if told is None else str(told)


MAKERS = {"takes": takes, "lines": lines, "state": state, "split": split, "chain": chain, "push": push}
