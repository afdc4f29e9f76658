"""Messages over HTTP and what they must be answered, for tools/connections.py. What is wanted is
stated here from the rules (docs/SERVE.md, docs/CALL.md), never taken from output."""

INTERIM = b"HTTP/1.1 100 Continue\r\n\r\n"
PHRASES = {400: "Bad Request", 404: "Not Found", 405: "Method Not Allowed", 411: "Length Required", 413: "Payload Too Large",
           431: "Request Header Fields Too Large", 505: "HTTP Version Not Supported"}
BODY_MOST = 8_388_608
# The worked request of a login, 120 bytes, and its reply, 35 bytes.
LOGIN = b'{"jsonrpc":"2.0","method":"call","params":{"service":"common","method":"login","args":["stock","admin","admin"]},"id":1}'
LOGGED_IN = b'{"id":1,"jsonrpc":"2.0","result":2}'
WRONG_KEY = LOGIN.replace(b'"admin"]', b'"nimda"]')
NOT_LOGGED_IN = b'{"id":1,"jsonrpc":"2.0","result":false}'
POST = "POST /jsonrpc HTTP/1.1"
WORKED = ("Host: 127.0.0.1:8069", "Content-Type: application/json")


def called(number, model, method, elements, user="2"):
    """The body of a call of this method; what stands behind it is JSON."""
    return (f'{{"jsonrpc":"2.0","method":"call","params":{{"service":"object","method":"execute_kw","args":["stock",{user},"admin","{model}","{method}",'
            f'{elements}]}},"id":{number}}}').encode()


def asked(number, method, *args, model="demo.line"):
    """The body of a call of this method; each argument is JSON."""
    return called(number, model, method, f"[{','.join(args)}]")


def told(number, result):
    """The reply's body with this result, which is JSON."""
    return f'{{"id":{number},"jsonrpc":"2.0","result":{result}}}'.encode()


def refused(number, name, text):
    """The reply's body with this refusal."""
    return f'{{"error":{{"code":200,"data":{{"message":"{text}","name":"{name}"}},"message":"Odoo Server Error"}},"id":{number},"jsonrpc":"2.0"}}'.encode()


CREATE = asked(1, "create", '{"name":"bolt","qty":3,"price":25}')
CREATED = told(1, 1)
READ = asked(2, "read", "[1]", '["name","subtotal"]')
IS_READ = told(2, '[{"id":1,"name":"bolt","subtotal":75}]')
IS_MISSING = refused(2, "Missing", "demo.line 1 does not exist")
MALFORMED = b"[1"
IS_MALFORMED = refused("null", "Request", "malformed at ")


def head(*lines, end="\r\n"):
    """A head of these lines."""
    return end.join([*lines, "", ""]).encode()


def message(body, first=POST, fields=("Host: x",), end="\r\n"):
    """A message with this body."""
    return head(first, *fields, f"Content-Length: {len(body)}", end=end) + body


def reply(body, keep=True):
    """The reply with this body."""
    close = "" if keep else "Connection: close\r\n"
    return f"HTTP/1.1 200 OK\r\nContent-Type: application/json\r\nContent-Length: {len(body)}\r\n{close}\r\n".encode() + body


def fault(status):
    """The reply of this status, behind which the connection is shut."""
    allow = "Allow: POST\r\n" if status == 405 else ""
    return f"HTTP/1.1 {status} {PHRASES[status]}\r\nContent-Type: application/json\r\nContent-Length: 0\r\n{allow}Connection: close\r\n\r\n".encode()


def worked(first=POST, length=("Content-Length: 120",), body=LOGIN, further=()):
    """The worked request of a login, or one near it."""
    return head(first, *WORKED, *length, *further) + body


def of_login():
    """The worked request and those near it: a name, what is sent, and what must come back."""
    padded = LOGIN + b" " * (BODY_MOST - len(LOGIN))
    greatest, more = [f"Content-Length: {BODY_MOST}"], [f"Content-Length: {BODY_MOST + 1}"]
    yield "a login", worked(), reply(LOGGED_IN)
    yield "a login with a wrong key", worked(body=WRONG_KEY), reply(NOT_LOGGED_IN)
    yield "a login behind the interim line", worked(further=["Expect: 100-continue"]), INTERIM + reply(LOGGED_IN)
    yield "a login of the greatest length", worked(length=greatest, body=padded), reply(LOGGED_IN)
    yield "the same twice", worked(length=greatest, body=padded) * 2, reply(LOGGED_IN) * 2
    yield "a login that is a byte longer, without its body", worked(length=more, body=b""), fault(413)
    yield "a login that is a byte longer", worked(length=more, body=padded + b" "), fault(413)
    yield "a login without a length", worked(length=()), fault(411)
    yield "a login by GET", worked("GET /jsonrpc HTTP/1.1"), fault(405)
    yield "a login at /web", worked("POST /web HTTP/1.1"), fault(404)
    yield "a login by HTTP/2.0", worked("POST /jsonrpc HTTP/2.0"), fault(505)


def of_one_connection():
    """What one connection over a new store sends, by name, and what must come back."""
    good, read = message(CREATE), message(READ)
    expects = message(CREATE, fields=["Expect: 100-continue"])
    created = reply(CREATED)
    yield "one message", good, created
    yield "lines that end with a line feed alone", message(CREATE, end="\n"), created
    yield "three messages", good + read + message(MALFORMED), created + reply(IS_READ) + reply(IS_MALFORMED)
    yield "empty lines between messages", b"\r\n\n" + good + b"\r\n" + read + b"\r\n", created + reply(IS_READ)
    yield "a connection that isn't kept", message(CREATE, fields=["Connection: x, Close"]) + read, reply(CREATED, False)
    yield "a message of HTTP/1.0", message(CREATE, "POST /jsonrpc HTTP/1.0") + read, reply(CREATED, False)
    yield "a query", message(READ, "POST /jsonrpc?db=stock HTTP/1.1"), reply(IS_MISSING)
    yield "the interim line", expects + read, INTERIM + created + reply(IS_READ)
    yield "the interim line, and no body", expects[:-1], INTERIM
    yield "an end inside a body", good + read[:-1], created
    yield "an end inside a head", good + b"POST /jsonrpc HTTP/1.1\r\nHost", created
    yield "no bytes", b"", b""
    yield "a body that is longer than may be", good + head(POST, f"Content-Length: {BODY_MOST + 1}"), created + fault(413)
    yield "chunks", head(POST, "Content-Length: 1", "Transfer-Encoding: chunked"), fault(411)
    yield "two lengths", head(POST, "Content-Length: 1", "Content-Length: 2"), fault(400)
    yield "no head", head("POST"), fault(400)
    yield "a head without its end", b"POST /jsonrpc HTTP/1.1\r\nX: " + b"y" * 16_384, fault(431)
    yield "too many fields", head(POST, *["X: y"] * 65), fault(431)


def pipelined(count):
    """So many messages at once, over a new store, and their replies: rows that are made, each behind the last one's reading."""
    sent, wanted = [], []
    for number in range(1, count + 1):
        row = (number + 1) // 2
        if number % 2:
            sent.append(message(asked(number, "create", f'{{"name":"bolt {row}","qty":{row},"price":3}}')))
            wanted.append(reply(told(number, row)))
        else:
            sent.append(message(asked(number, "read", f"[{row}]", '["name","subtotal"]')))
            wanted.append(reply(told(number, f'[{{"id":{row},"name":"bolt {row}","subtotal":{3 * row}}}]')))
    return sent, wanted


# Words, what they make the program write, and its status.
USAGE = b"usage: stockd call|serve|audit|gen [options]\n"
WORDS = [
    *((given, USAGE, 2) for given in (
        ["call", "--cache", "15"], ["call", "call"], ["call", "--", "x"], ["serve", "--listen", "0.0.0.0:1"],
        ["serve", "--listen=127.0.0.1:"], ["serve", "--listen=127.0.0.1:65536"], ["serve", "--listen=127.0.0.1:000001"],
        ["serve", "--listen=127.0.0.1:+1"], ["serve", "--connections=0"], ["serve", "--connections=4294967296"],
        ["serve", "--connections=00000000001"], ["serve", "--connections="], ["serve", "serve"], ["serve", "--listen"], [], [""])),
    (["call", "--listen=127.0.0.1:65535", "--connections", "4294967295"], b"", 0),
]
