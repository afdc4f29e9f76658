#!/usr/bin/env python3
"""The proved program as seen by a client that nobody here wrote: OdooRPC, Debian's python3-odoorpc, by
its JSON-RPC connector and its proxy on `/jsonrpc`:

    tools/odoorpc_client.py [PROGRAM]

Serves on a port of loopback that is free, asks for the version, logs in, and makes, finds, reads,
changes and deletes lines; then what is refused. Installs the package where it isn't there (by apt-get,
so as root). Prints each answer that differs from what is stated; the status is 1 where one does.
PROGRAM is by default the proved one. Of OdooRPC's own start-up, `ODOO(..)` and `ODOO.login`, the calls
of `/web` are refused with 404: docs/SERVE.md says what serves instead.
"""
import os
import socket
import subprocess
import sys
import time
import urllib.error

TOP = os.path.dirname(os.path.dirname(os.path.abspath(__file__)))
SYSTEM = "/usr/bin/python3"


def connector_class():
    """OdooRPC's connector; where this python doesn't have it, Debian's python goes on."""
    try:
        from odoorpc.rpc import ConnectorJSONRPC
    except ImportError:
        if os.path.realpath(sys.executable) == os.path.realpath(SYSTEM):
            subprocess.run(["apt-get", "install", "-y", "-q", "python3-odoorpc"], stdout=subprocess.DEVNULL, check=True)
        os.execv(SYSTEM, [SYSTEM, *sys.argv])
    return ConnectorJSONRPC


def free_port():
    with socket.socket() as held:
        held.bind(("127.0.0.1", 0))
        return held.getsockname()[1]


def wait_for(port):
    for _ in range(100):
        with socket.socket() as tried:
            if tried.connect_ex(("127.0.0.1", port)) == 0:
                return
        time.sleep(0.1)
    sys.exit("the program does not listen")


def asked(connector, service, method, *args):
    """The answer, or how it is refused."""
    answer = connector.proxy_json.jsonrpc(service=service, method=method, args=list(args))
    return answer["result"] if "result" in answer else answer["error"]["data"]


def status_of(connector, path):
    """The status of a path that the profile has not."""
    try:
        connector.proxy_json(path)
    except urllib.error.HTTPError as refused:
        return refused.code
    return 200


def refused(name, message):
    return {"message": message, "name": name}


def cases(connector):
    """What is asked, the answer, and what it must be."""
    def line(method, *args):
        return asked(connector, "object", "execute_kw", "stock", 2, "admin", "demo.line", method, list(args))

    yield "version", asked(connector, "common", "version")["server_version"], "17.0"
    yield "login", asked(connector, "common", "login", "stock", "admin", "admin"), 2
    yield "authenticate", asked(connector, "common", "authenticate", "stock", "admin", "admin", {}), 2
    yield "a wrong key", asked(connector, "common", "login", "stock", "admin", "secret"), False
    yield "create", line("create", {"name": "bolt", "qty": 3, "price": 25}), 1
    yield "create of a list", line("create", [{"name": "nut"}, {"name": "écrou", "qty": 7}]), [2, 3]
    yield "search", line("search", [["qty", ">", 0]], 0, 10, "qty desc"), [3, 1]
    yield "search_count", line("search_count", []), 3
    yield "read", line("read", [1, 3], ["name", "subtotal"]), [{"id": 1, "name": "bolt", "subtotal": 75}, {"id": 3, "name": "écrou", "subtotal": 0}]
    yield "write", line("write", [3], {"price": 2}), True
    yield "search_read", line("search_read", [["subtotal", "<", 50], ["qty", "!=", 0]], ["subtotal"]), [{"id": 3, "subtotal": 14}]
    yield "unlink", line("unlink", [2]), True
    yield "a row that is gone", line("read", [2], ["name"]), refused("Missing", "demo.line 2 does not exist")
    yield "an unknown field", line("create", {"nam": "screw"}), refused("Request", "malformed at params.args.5.0.nam")
    yield "execute", asked(connector, "object", "execute", "stock", 2, "admin", "demo.line", "read", [1], ["qty"]), [{"id": 1, "qty": 3}]
    yield "another key", asked(connector, "object", "execute", "stock", 2, "secret", "demo.line", "read", [1]), refused("Request", "malformed at params.args.1")
    for path in ("/web/webclient/version_info", "/web/session/authenticate"):
        yield path, status_of(connector, path), 404


def main():
    connector = connector_class()
    program = sys.argv[1] if len(sys.argv) > 1 else subprocess.run([f"{TOP}/tools/build.sh", "proved", "stockd"], stdout=subprocess.PIPE, text=True, check=True).stdout.strip()
    port = free_port()
    server = subprocess.Popen([program, "serve", "--modules", f"{TOP}/modules", "--load", "demo", f"--listen=127.0.0.1:{port}"])
    try:
        wait_for(port)
        wrong = [it for it in cases(connector("127.0.0.1", port, version="17.0")) if it[1] != it[2]]
    finally:
        server.kill()
    for name, found, wanted in wrong:
        print(f"{name}: {found!r}, wanted {wanted!r}")
    print(f"{len(wrong)} answers to OdooRPC differ")
    sys.exit(1 if wrong else 0)


if __name__ == "__main__":
    main()
