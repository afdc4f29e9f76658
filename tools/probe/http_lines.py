"""What ask.py asks about connections: their items, what is written at each, and how much of them is read."""
import re

import compare_http
from stockd_oracle import http

ITEM = re.compile(r'(post:(?:keep|close):(?:"(?:[^"\\]|\\.)*"|\d+:\d+)|bad:\d+|ended|cut|failed) "((?:[^"\\]|\\.)*)" "((?:[^"\\]|\\.)*)" ')
HEAD = re.compile(rb"(?:\r?\n)*(?!\r?\n)[^\n]*\n(?:(?!\r?\n)[^\n]*\n)*\r?\n")
CUTS = ("1", "7", "64", "whole")
# The most that one read asks for while a head comes in.
READ = 4096
# The longest body that is told byte by byte.
LONGEST_TOLD = 256
# Bytes that mean something in a head.
MARKS = b"\r\n\t :,?/\0\x7f\x80\xff015AZaz"
LENGTHS = ("%d", "0%d", "000%d", "+%d", "-%d", " %d ", "\t%d\t", "%d,%d", "%d, %d", "%d %d", "%d.", "%dx", "0x%d", "", " ", "0", "00",
           "8388608", "8388609", "08388608", "9999999", "10000000", "4294967296", "18446744073709551616", "9" * 30, "0" * 30 + "%d")
FIELDS = ("Host: x", "A:", "A: ", "a:\t b \t") * 3 + ("Expect: 100-continue", "Connection: close") * 6 + ("A : b", ": b", "A\tb: c", "A: \x01", "A: \x7f", "A: \xe9", "\xe9: a", "no colon", " folded: x",
          "Transfer-Encoding: chunked", "transfer-encoding:", "Transfer-Encodin: x", "Expect: 100-continue", "eXPECT: 100-CONTINUE", "Expect: 100-continue,",
          "Expect: x", "Expect:", "Connection: close", "CONNECTION:CLOSE", "Connection: a, \tclose\t ,b", "Connection: closed", "Connection: close;a",
          "Connection: keep-alive", "Connection: ,,close", "Connection:", "Connection: c lose")
LINES = ("POST /jsonrpc HTTP/1.1",) * 100 + ("POST /jsonrpc HTTP/1.0", "POST /jsonrpc?a=b HTTP/1.1") * 5 + (
    "POST /jsonrpc HTTP/1.0", "POST /jsonrpc? HTTP/1.1", "POST /jsonrpc?a?b HTTP/1.1", "POST /jsonrpc/ HTTP/1.1", "POST /JSONRPC HTTP/1.1", "POST ? HTTP/1.1",
    "POST http://x/jsonrpc HTTP/1.1", "GET /jsonrpc HTTP/1.1", "post /jsonrpc HTTP/1.1", "POSTS /jsonrpc HTTP/1.1", "GET / HTTP/3.0", "POST /web HTTP/1.1",
    "P@ST /jsonrpc HTTP/1.1", "POST /jsonrp\xe9 HTTP/1.1", "POST /jsonrpc HTTP/2.0", "POST /jsonrpc HTTP/0.9", "POST /jsonrpc HTTP/1.2", "POST /jsonrpc HTTP/01.1",
    "POST /jsonrpc HTTP/1.1 ", " POST /jsonrpc HTTP/1.1", "POST  /jsonrpc HTTP/1.1", "POST /jsonrpc  HTTP/2.0", "POST /jsonrpc http/2.0", "POST /jsonrpc HTTP/1",
    "POST /jsonrpc\tHTTP/1.1", "\xe9 /jsonrpc HTTP/2.0", "POST", "POST /jsonrpc", "\r", "\r\r", "POST /jsonrpc HTTP/1.1\r", "POST /jsonrpc HTTP/2.0\r")
# The worked request of a login, its body, and what is changed in its head.
BODY = (b'{"jsonrpc":"2.0","method":"call","params":{"service":"common","method":"login",'
        b'"args":["stock","admin","admin"]},"id":1}')
LOGIN = (b"POST /jsonrpc HTTP/1.1\r\nHost: 127.0.0.1:8069\r\nContent-Type: application/json\r\n"
         b"Content-Length: 120\r\n\r\n" + BODY)
CHANGES = ((b"", b""), (b"Host: 127.0.0.1:8069", b"Expect: 100-continue"), (b"Length: 120", b"Length: 8388609"),
           (b"Content-Length: 120\r\n", b""), (b"POST", b"GET"), (b"/jsonrpc ", b"/web "), (b"HTTP/1.1", b"HTTP/2.0"))
coming, traffic = [], []


def escaped(data):
    """Bytes as the probe writes them."""
    short = {9: "\\t", 10: "\\n", 13: "\\r", 34: '\\"', 39: "\\'", 92: "\\\\"}
    return "".join(short.get(b) or (chr(b) if 32 <= b < 127 else "\\x%02x" % b) for b in data)


class Items:
    """The answers that a connection's bytes allow, where the calls of the door may fail."""

    def __init__(self, data, cut, fails):
        self.data, self.fails = data, fails
        self.read = READ if cut == "whole" else min(int(cut), READ)

    def __eq__(self, answer):
        return self.why(answer) is None

    def __str__(self):
        found, at = [], 0
        while at is not None:
            item = http.item(self.data, at)
            found.append("%s%s" % ("interim line, " if item.interim else "", told(item)[0]))
            at = item.end if isinstance(item, http.Post) and item.keep else None
        return "; ".join(found)

    def why(self, answer):
        """What is wrong with an answer, or None."""
        found, end = [], 0
        for match in ITEM.finditer(answer):
            if match.start() != end:
                return "no item at %d" % end
            found.append(match.groups())
            end = match.end()
        taken = re.fullmatch(r"taken:(\d+)", answer[end:])
        return self.first_wrong(found, int(taken[1])) if found and taken else "no items"

    def first_wrong(self, found, taken):
        at = 0
        for number, (word, before, reply) in enumerate(found):
            is_last = number + 1 == len(found)
            if word == "failed":
                return self.wrong_failure(at, taken, before, reply) if is_last and self.fails else "failed too early"
            item = http.item(self.data, at)
            wanted, whole = told(item)
            if word != wanted or before != escaped(http.INTERIM if item.interim else b""):
                return "item %d: %s" % (number, wanted)
            if reply != escaped(whole) and not (is_last and self.fails and escaped(whole).startswith(reply)):
                return "reply %d" % number
            if is_last and reply == escaped(whole) and isinstance(item, http.Post) and item.keep:
                return "no more items after %d" % number
            if is_last:
                return None if self.may_take(item, at, taken) else "taken"
            if not isinstance(item, http.Post) or not item.keep:
                return "items after the last"
            at = item.end
        return "no last item"

    def wrong_failure(self, at, taken, before, reply):
        """Had the bytes ended where a call failed, there would be no whole message and no fault."""
        item = http.item(self.data[:taken], at)
        if isinstance(item, http.Post) and not (item.interim and before == "") or getattr(item, "kind", "Cut") == "Bad":
            return "failed after a whole item"
        fits = before in ("", escaped(http.INTERIM)) if item.interim else before == ""
        return None if fits and reply == "" and taken <= len(self.data) else "failed, but wrote"

    def may_take(self, item, at, taken):
        """All, up to an end; up to a head's limit; else no more than one read past the head, or the body's end."""
        if isinstance(item, http.End) and item.kind != "Bad":
            return taken == len(self.data)
        head = HEAD.match(self.data[:at + http.HTTP_HEAD_MAX], at)
        if head is None:
            return taken == at + http.HTTP_HEAD_MAX
        least = item.end if isinstance(item, http.Post) else head.end()
        return least <= taken <= min(len(self.data), max(least, head.end() - 1 + self.read))


def body_told(body):
    """A body as the probe tells it: a long one by its length and a sum in which each byte counts by its place."""
    if len(body) <= LONGEST_TOLD:
        return '"%s"' % escaped(body)
    total = 0
    for byte in body:
        total = (total * 1000003 + byte) % 2 ** 64
    return "%d:%d" % (len(body), total)


def told(item):
    """An item as the probe tells it, and its reply."""
    if isinstance(item, http.Post):
        return "post:%s:%s" % ("keep" if item.keep else "close", body_told(item.body)), http.reply(200, b"{}", item.keep)
    if item.kind == "Bad":
        return "bad:%d" % item.status, http.reply(item.status, b"", False)
    return item.kind.lower(), b""


def head(rng, length):
    """A head with odd fields, now and then about as long as a head may be, or with about as many fields."""
    fields = rng.sample(FIELDS, rng.choice((0, 0, 0, 1, 1, 2)))
    for _ in range(rng.choice((1,) * 20 + (2, 2, 0))):
        form = rng.choice(("%d",) * 8 + ("0%d", rng.choice(LENGTHS)))
        name = rng.choice(("Content-Length", "content-length", "CONTENT-LENGTH") * 5 + ("Content-Lengt", "Content_Length"))
        value = form % tuple(length + (rng.random() < 0.05) for _ in range(form.count("%d")))
        fields.append(name + rng.choice((":", ": ", ":\t ")) + value)
    if rng.random() < 0.04:
        fields += ["N: v"] * (rng.randint(62, 66) - len(fields))
    rng.shuffle(fields)
    end = rng.choice(("\r\n", "\r\n", "\n"))
    lines = [""] * rng.choice((0, 0, 0, 0, 1, 4)) + [rng.choice(LINES), *fields, "", ""]
    if rng.random() < 0.04:
        size = sum(len(line) + len(end) for line in lines) + 2
        lines.insert(-2, "X:" + "y" * (rng.randint(16380, 16388) - size))
    return end.join(lines).encode("latin-1")


def made(rng):
    """A connection of such heads, with bytes changed now and then."""
    data = bytearray()
    for _ in range(rng.choice((1, 1, 1, 2, 3))):
        body = rng.choice((b"", b"{}", b"\r\n\r\n", bytes(range(256)), b'{"id":1}' * rng.randint(1, 700)))
        data += head(rng, len(body)) + body
    for _ in range(rng.choice((0, 0, 0, 0, 1, 2))):
        at = rng.randrange(len(data) + 1)
        data[at:at + rng.randrange(2)] = bytes(rng.choice(MARKS) for _ in range(rng.randrange(3)))
    return bytes(data)


def connection(rng, _model):
    """A connection whole or cut at a place; now and then one after another those that a short one is when cut at each place."""
    if not coming:
        if not traffic:
            traffic.append(compare_http.Traffic(rng.random(), 20))
        data = traffic[0].connection() if rng.random() < 0.4 else made(rng)
        if len(data) < 500 and rng.random() < 0.02:
            coming.extend(data[:end] for end in range(len(data)))
        coming.append(data[:rng.randrange(len(data) + 1)] if rng.random() < 0.1 else data)
    data, cut = coming.pop(), rng.choice(CUTS)
    fails = 0 if rng.random() < 0.8 else rng.randint(2, 2 + len(data) // (READ if cut == "whole" else int(cut)) + 12)
    return asked(data, cut, fails)


def asked(data, cut, fails=0):
    """A line of the probe about a connection, with its answers."""
    return "http %s %d %s" % (cut, fails, data.hex()), Items(data, cut, fails)


def every_cut():
    """The worked request and those with a change in the head, ended at each place; the whole in pieces of each length."""
    changed = [LOGIN.replace(old, new, 1) if old else LOGIN for old, new in CHANGES]
    lines = dict(asked(data[:end], cut) for data in changed for end in range(len(data) + 1) for cut in CUTS)
    lines.update(asked(data, str(cut)) for data in changed for cut in range(1, len(data)))
    return list(lines.items())


MAKERS = {"http": connection}
# The words whose lines are always the same.
RUNS = {"http_cuts": every_cut}
