#!/usr/bin/env python3
"""What the proved program answers over connections, as a process:

    tools/connections.py [PROGRAM]         the cases of the gate, in under a minute
    tools/connections.py PROGRAM long      those that take minutes: peers that drip, 10,000 connections one
                                           after another and 100,000 requests on one, with the process's memory

Serves on a port of loopback that is free. What is sent and must come back by one connection stands in
messages.py; here are the peers that cut, go away, stall and drip, how serving ends, and a port that is
taken. Prints each case that differs; the status is 1 where one does. PROGRAM is by default the proved one.
"""
import concurrent.futures
import random
import re
import socket
import struct
import subprocess
import sys
import time

import messages as m
import process
from process import TOP, read_out

# How many seconds a read or a write may wait, with the one behind it at the close, and room for other work beside.
PATIENCE, CLOSING, ROOM = 5, 1, 6
# A count that grows by less isn't told from the allocator's own.
MEMORY_ROOM = 256


class Cases:
    """The program, and how many cases differed."""

    def __init__(self, program):
        self.program, self.bad, self.count = program, 0, 0

    def differ(self, name, found, wanted):
        """Tells a case whose answer is another than the one that is wanted."""
        self.count += 1
        if found != wanted:
            self.bad += 1
            print(f"{name}:\n  found  {found!r:.600}\n  wanted {wanted!r:.600}", flush=True)

    def words(self, action, *more):
        return [self.program, action, "--modules", f"{TOP}/modules", "--load", "demo", *more]

    def served(self, name, connections):
        """A server of so many connections over a new store."""
        return Server(self, name, connections)


class Server:
    """A server that must end by itself with status 0, behind its last connection."""

    def __init__(self, cases, name, connections):
        self.cases, self.name, self.port = cases, name, process.free_port()
        self.words = cases.words("serve", f"--listen=127.0.0.1:{self.port}", "--connections", str(connections))

    def __enter__(self):
        self.process = subprocess.Popen(self.words, stdout=subprocess.PIPE)
        return self

    def __exit__(self, kind, *_):
        try:
            if kind is None:
                out = self.process.communicate(timeout=30)[0]
                self.cases.differ(f"{self.name}, at its end", (out, self.process.returncode), (b"", 0))
        finally:
            self.process.kill()
            self.process.wait()
            self.process.stdout.close()

    def connected(self, room=None):
        """A new connection; with a room for so many bytes that come back."""
        return process.connected(self.port, room=room) or sys.exit("the server doesn't listen")

    def exchanged(self, *pieces, pause=0):
        """Sends these pieces, with a pause between, and gives what came back."""
        return process.exchanged(self.connected(), pieces, pause)

    def memory(self):
        """The kilobytes of the process that are in memory."""
        with open(f"/proc/{self.process.pid}/status") as it:
            return int(re.search(r"VmRSS:\s*(\d+)", it.read())[1])


def read_bytes(peer, count):
    """So many bytes, or those that came before the other side ended."""
    got = b""
    while len(got) < count and (piece := peer.recv(count - len(got))):
        got += piece
    return got


def go_away(peer, at_once):
    """Closes a connection; at once means that what wasn't read or sent is lost, and the other side is told so."""
    if at_once:
        peer.setsockopt(socket.SOL_SOCKET, socket.SO_LINGER, struct.pack("ii", 1, 0))
    peer.close()


def one_connection(cases):
    """Each case by itself, over a new store, in pieces of several lengths."""
    for name, sent, wanted in [*m.of_login(), *m.of_one_connection()]:
        for size in (1 << 24,) if len(sent) > 65536 else (1, 7, 65536):
            name_here = f"{name}, in pieces of {size}"
            with cases.served(name_here, 1) as server:
                pieces = [sent[at:at + size] for at in range(0, len(sent), size)]
                cases.differ(name_here, server.exchanged(*pieces), wanted)


def cut(cases):
    """The worked request, cut into two at every place, and ended at every place, by itself and behind another."""
    plain, expects = m.worked(), m.worked(further=["Expect: 100-continue"])
    answer = m.reply(m.LOGGED_IN)
    streams = [("a login", b"", plain, b"", b""), ("a second login", plain, plain, answer, b""), ("one that expects", b"", expects, b"", m.INTERIM)]
    count = sum(2 * len(sent) + 1 for _, _, sent, _, _ in streams)
    with cases.served("requests that are cut", count) as server:
        for name, before, sent, replied, interim in streams:
            body_at = sent.index(b"\r\n\r\n") + 4
            for at in range(len(sent) + 1):
                behind = answer if at == len(sent) else b""
                wanted = replied + (interim if at >= body_at else b"") + behind
                cases.differ(f"{name} that ends behind {at} bytes", server.exchanged(before + sent[:at]), wanted)
            for at in range(len(sent)):
                found = server.exchanged(before + sent[:at], sent[at:], pause=0.001)
                cases.differ(f"{name} in two pieces, of which the first has {at} bytes", found, replied + interim + answer)


def go_away_asking(cases):
    """A peer that goes away at each byte of a request: nothing is made of it, but of a whole one."""
    create = m.message(m.CREATE)
    with cases.served("peers that go away within a request", 2 * len(create) + 2) as server:
        for at_once in (False, True):
            for at in range(len(create)):
                peer = server.connected()
                peer.sendall(create[:at])
                go_away(peer, at_once)
        peer = server.connected()
        peer.sendall(create)
        go_away(peer, False)
        count = m.message(m.asked(2, "search", "[]"))
        cases.differ("the rows behind peers that went away", server.exchanged(count), m.reply(m.told(2, "[1]")))


def go_away_reading(cases):
    """A peer that goes away at each byte of a reply, with nothing behind its request and with many more."""
    read, wanted = m.message(m.READ), m.reply(m.IS_READ)
    ways = [(read, False), (read, True), (read * 60, False), (read * 60, True)]
    with cases.served("peers that go away within a reply", len(ways) * (len(wanted) + 1) + 2) as server:
        cases.differ("a create before them", server.exchanged(m.message(m.CREATE)), m.reply(m.CREATED))
        for sent, at_once in ways:
            for at in range(len(wanted) + 1):
                peer = server.connected()
                peer.sendall(sent)
                cases.differ(f"the first {at} bytes of a reply", read_bytes(peer, at), wanted[:at])
                go_away(peer, at_once)
        cases.differ("a read behind them", server.exchanged(read), wanted)


def go_away_creating(cases):
    """A peer that goes away within the replies of 50 messages: what was acknowledged is there, and maybe more."""
    turns, count, rng, rows = 6, 50, random.Random(11), 0
    with cases.served("peers that go away within many replies", 2 * turns) as server:
        for turn in range(turns):
            replies = [m.reply(m.told(number, rows + number)) for number in range(1, count + 1)]
            at = rng.randrange(sum(map(len, replies)))
            peer = server.connected()
            peer.sendall(b"".join(m.message(m.asked(number, "create", "{}")) for number in range(1, count + 1)))
            cases.differ(f"the first {at} bytes of many replies", read_bytes(peer, at), b"".join(replies)[:at])
            go_away(peer, turn % 2)
            acknowledged = sum(sum(map(len, replies[:number + 1])) <= at for number in range(count))
            found = server.exchanged(m.message(m.asked(7, "search_count", "[]")))
            may_be = {m.reply(m.told(7, rows + more)): rows + more for more in range(acknowledged, count + 1)}
            cases.differ(f"rows behind {at} bytes of many replies", found if found not in may_be else "some", "some")
            rows = may_be.get(found, rows)


def stalled(cases, name, sent, wanted, room=None):
    """A peer that sends this and waits, while ten others do: it is ended, and they are answered in turn."""
    with cases.served(name, 11) as server:
        peer = server.connected(room)
        try:
            peer.sendall(sent)
        except OSError:
            pass
        began = time.monotonic()
        others = [server.connected() for _ in range(10)]
        for other in others:
            other.sendall(m.worked())
            other.shutdown(socket.SHUT_WR)
        for number, other in enumerate(others):
            cases.differ(f"{name}, the {number + 1}. of ten others", read_out(other), m.reply(m.LOGGED_IN))
            other.close()
        took = time.monotonic() - began
        # One that doesn't read stalls only once the host holds as many bytes as it may.
        most = PATIENCE + CLOSING + ROOM if room is None else 60
        cases.differ(f"{name}, the seconds until all others were answered", PATIENCE - 0.5 < took < most or took, True)
        found = read_out(peer)
        cases.differ(f"{name}, what it was answered", found if room is None else wanted.startswith(found), wanted if room is None else True)
        peer.close()


def stalls():
    """The peers that stall: what each sends, and what it is answered."""
    login, answer = m.worked(), m.reply(m.LOGGED_IN)
    long_name = "n" * 8000
    create = m.message(m.asked(1, "create", f'{{"name":"{long_name}"}}'))
    read = m.message(m.asked(2, "read", "[1]", '["name"]'))
    many = m.reply(m.told(1, 1)) + m.reply(m.told(2, f'[{{"id":1,"name":"{long_name}"}}]')) * 2000
    yield "a peer that sends nothing", b"", b""
    yield "a peer that stalls within a head", login[:30], b""
    yield "a peer that stalls within a body", login[:-1], b""
    yield "a peer that stalls behind a reply", login, answer
    yield "a peer that stalls within its second message", login + login[:50], answer
    yield "a peer that doesn't read its replies", create + read * 2000, many, 4096


def many_at_once(cases):
    """200 messages that follow one another without a wait, in pieces of several lengths."""
    sent, wanted = m.pipelined(200)
    for size in (13, 1400, 1 << 20):
        whole = b"".join(sent)
        with cases.served(f"200 messages in pieces of {size}", 1) as server:
            pieces = [whole[at:at + size] for at in range(0, len(whole), size)]
            cases.differ(f"200 messages in pieces of {size}", server.exchanged(*pieces), b"".join(wanted))


def words(cases):
    """What words make the program write, and its status."""
    for given, out, status in m.WORDS:
        ran = subprocess.run([cases.program, *given], stdin=subprocess.DEVNULL, stdout=subprocess.PIPE, timeout=60)
        cases.differ(f"the words {given}", (ran.stdout, ran.returncode), (out, status))


def in_turn(cases):
    """Two connections over one store, and no third; meanwhile the port is taken."""
    with cases.served("two connections", 2) as server:
        cases.differ("the first of two connections", server.exchanged(m.message(m.CREATE)), m.reply(m.CREATED))
        taken = subprocess.run(server.words, stdout=subprocess.PIPE, timeout=60)
        cases.differ("a port that is taken", (taken.stdout, taken.returncode), (b"read fault\n", 4))
        cases.differ("the second of two connections", server.exchanged(m.message(m.READ)), m.reply(m.IS_READ))


def dripping(cases, rate, wanted):
    """A peer that sends its message at so many bytes a second, for up to 45 seconds, and one behind it."""
    name = f"a peer that sends {rate} bytes a second"
    sent = m.worked(length=["Content-Length: 620"], body=m.LOGIN + b" " * 500)
    with cases.served(name, 2) as server:
        with server.connected() as peer:
            try:
                for at in range(0, min(len(sent), 45 * rate), rate):
                    peer.sendall(sent[at:at + rate])
                    time.sleep(1)
                peer.shutdown(socket.SHUT_WR)
            except OSError:
                pass
            cases.differ(f"{name}, what it was answered", read_out(peer), wanted)
        cases.differ(f"{name}, the one behind it", server.exchanged(m.worked()), m.reply(m.LOGGED_IN))


def one_after_another(cases, count):
    """So many connections one after another; its memory is looked at behind a tenth of them and behind nearly all."""
    before = same = 0
    with cases.served(f"{count} connections", count) as server:
        for number in range(count):
            before = server.memory() if number == count // 10 else before
            if number == count - 1:
                told_memory(cases, f"{count} connections", before, server.memory())
            same += server.exchanged(m.worked()) == m.reply(m.LOGGED_IN)
    cases.differ(f"answers on {count} connections", same, count)


def on_one_connection(cases, count):
    """So many requests on one connection, each behind the last one's reply."""
    sent, wanted, before, same = m.message(m.READ), m.reply(m.IS_READ), 0, 0
    with cases.served(f"{count} requests", 2) as server:
        cases.differ("a create before them", server.exchanged(m.message(m.CREATE)), m.reply(m.CREATED))
        with server.connected() as peer:
            for number in range(count):
                before = server.memory() if number == count // 10 else before
                peer.sendall(sent)
                same += read_bytes(peer, len(wanted)) == wanted
            told_memory(cases, f"{count} requests", before, server.memory())
    cases.differ(f"answers to {count} requests on one connection", same, count)


def told_memory(cases, name, before, after):
    """Tells the memory of a process, which must be the same but for the allocator's own."""
    print(f"{name}: {before} kB in memory before, {after} kB after", flush=True)
    cases.differ(f"the memory behind {name}", after - before < MEMORY_ROOM, True)


def gate(cases):
    """The cases of the gate. Peers that stall are waited for beside the others."""
    with concurrent.futures.ThreadPoolExecutor(8) as pool:
        waiting = [pool.submit(stalled, cases, *stall) for stall in stalls()]
        for part in (words, in_turn, one_connection, many_at_once, cut, go_away_asking, go_away_reading, go_away_creating):
            part(cases)
        for each in waiting:
            each.result()


def long(cases):
    """The cases that take minutes."""
    with concurrent.futures.ThreadPoolExecutor(2) as pool:
        waiting = [pool.submit(dripping, cases, rate, wanted) for rate, wanted in ((4, b""), (20, m.reply(m.LOGGED_IN)))]
        one_after_another(cases, 10_000)
        on_one_connection(cases, 100_000)
        for each in waiting:
            each.result()


def main():
    cases = Cases(process.program(*sys.argv[1:2]))
    (long if sys.argv[2:] == ["long"] else gate)(cases)
    print(f"{cases.bad} differ; {cases.count} cases")
    return 1 if cases.bad else 0


if __name__ == "__main__":
    sys.exit(main())
