"""The program as a process, for the tools that look at it from outside: where it is, a port of loopback
that is free, and a connection to one."""
import os
import socket
import subprocess
import sys
import time

TOP = os.path.dirname(os.path.dirname(os.path.abspath(__file__)))
# How often, and how many seconds apart, a connection is tried until something listens.
TRIES, PAUSE = 3000, 0.02


def program(given=None):
    """The path of the program: the given one, else the proved one; where that isn't there the tool ends with 1."""
    if given:
        return os.path.abspath(given)
    told = subprocess.run([f"{TOP}/tools/build.sh", "proved", "stockd"], stdout=subprocess.PIPE, text=True)
    if told.returncode:
        sys.exit(1)
    return told.stdout.strip()


def free_port():
    with socket.socket() as listener:
        listener.bind(("127.0.0.1", 0))
        return listener.getsockname()[1]


def connected(port, is_there=lambda: True, room=None):
    """A connection to this port, with a room for so many bytes that come back; None where nothing listens, and
    is_there says that nothing will."""
    for _ in range(TRIES):
        peer = socket.socket()
        if room:
            peer.setsockopt(socket.SOL_SOCKET, socket.SO_RCVBUF, room)
        peer.setsockopt(socket.IPPROTO_TCP, socket.TCP_NODELAY, 1)
        peer.settimeout(60)
        try:
            peer.connect(("127.0.0.1", port))
            return peer
        except OSError:
            peer.close()
            if not is_there():
                return None
            time.sleep(PAUSE)
    return None


def exchanged(peer, pieces, pause=0):
    """Sends these pieces, with a pause between, and gives what came back until the other side ended."""
    with peer:
        try:
            for number, piece in enumerate(pieces):
                time.sleep(pause if number else 0)
                peer.sendall(piece)
            peer.shutdown(socket.SHUT_WR)
        except OSError:
            pass
        return read_out(peer)


def read_out(peer):
    """What comes back until the other side ends."""
    got = b""
    try:
        while piece := peer.recv(1 << 20):
            got += piece
    except OSError:
        pass
    return got
