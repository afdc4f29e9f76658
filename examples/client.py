#!/usr/bin/env python3
"""A login, two rows, a search and a refusal over HTTP, of a server that runs with
`./stockd serve --load demo`:

    examples/client.py [PORT]
"""
import json
import sys
import urllib.request

URL = f"http://127.0.0.1:{sys.argv[1] if len(sys.argv) > 1 else 8069}/jsonrpc"


def ask(service, method, *args):
    """What the method of the service answers these elements."""
    params = {"service": service, "method": method, "args": args}
    body = json.dumps({"jsonrpc": "2.0", "method": "call", "params": params, "id": 1}).encode()
    request = urllib.request.Request(URL, body, {"Content-Type": "application/json"})
    with urllib.request.urlopen(request, timeout=10) as reply:
        answer = json.load(reply)
    if "error" in answer:
        raise RuntimeError("{name}: {message}".format(**answer["error"]["data"]))
    return answer["result"]


user = ask("common", "login", "stock", "admin", "admin")


def call(model, method, *args):
    """What the method of the model answers these arguments."""
    return ask("object", "execute_kw", "stock", user, "admin", model, method, args)


call("demo.line", "create", [{"name": "bolt", "qty": 3, "price": 25}, {"name": "nut", "qty": 4, "price": 2}])
print(call("demo.line", "search_read", [["subtotal", ">", 50]], ["name", "subtotal"]))
try:
    call("demo.line", "create", {"nam": "screw"})
except RuntimeError as refusal:
    print(refusal)
