"""The lines that the benches ask: lines.py CALL SIZE writes the line of a call at a size, for one of
the probes, or so many requests to stockd. run.sh says what is measured with them."""
import json
import sys


def listed(items):
    return ",".join(items)


def policy(others, groups, question):
    """A policy with so many rules and lines on other models, and 100 questions about one row."""
    models = "name=m.a | kind char" + "".join(" || name=m.b%d | kind char" % i for i in range(1, others + 1))
    lines = ['["m.a",1,["create"]]', '["m.a",2,["write"]]', '["m.a",3,["read"]]', '["m.a",4,["read"]]']
    lines += ['["m.b%d",1,["read"]]' % i for i in range(1, others + 1)]
    rules = ['["m.r","m.a",null,["read"],[["kind","!=","c"]]]', '["m.s","m.a",[1],["read"],[["kind","=","b"]]]', '["m.t","m.a",[4],["read"],[["kind","=","a"]]]']
    rules += ['["m.q%d","m.b%d",null,["read"],[["kind","=","b"]]]' % (i, i) for i in range(1, others + 1)]
    return 'access {"models":"%s","groups":[%s],"accesses":[%s],"rules":[%s],"rows":[["m.a",1,{"kind":"a"}]],"asked":[%s]}' % (
        models, listed(groups), listed(lines), listed(rules), listed([question] * 100))


def four(others, question):
    return policy(others, ['["g.n%d",[]]' % i for i in range(1, 5)], question)


def chain(n):
    """The groups of a user in a chain of so many."""
    return policy(n, ['["g.n%d",[%s]]' % (i, i + 1 if i < n else "") for i in range(1, n + 1)], "[2,[1]]")


def places(n, criteria, criterion):
    """A domain that is asked of so many rows; the first criterion of each keeps most rows out, so that little is told."""
    rows = []
    for i in range(1, n + 1):
        up = i % 16 + 1 if i > 16 else 0
        rows.append('["probe.place",%d,{"name":"Place %d","size":%d,"up":%s,"parent_path":"%s%d/"}]' % (
            i, i, i * 7919 % 1000, up or "false", "%d/" % up if up else "", i))
    return 'domain {"model":"probe.place","user":2,"rows":[%s],"domain":[%s]}' % (listed(rows), listed([criterion] * criteria))


def checked(n):
    """So many groups of nine nodes in one call; 162 of them are 4,054 bytes."""
    return "kinds line cat(%s)" % listed(['text(-qty*2+1),name,"ab"'] * n)


def chosen(n):
    """So many choices of ten nodes, of which six or seven are evaluated, by turns."""
    parts = ['if(%s,text(qty*price),cat(name,":",name))' % ("done" if i % 2 else "not done") for i in range(1, n + 1)]
    return "evaluate line 1 with line:1:done:yes line:1:qty:12345 line:1:price:678 line:1:name:1*bolt | cat(%s)" % listed(parts)


def summed(n):
    """A product in each of so many rows."""
    cells = "".join(" line:%d:qty:%d line:%d:price:%d" % (i, i, i, i * 7919 % 1000) for i in range(1, n + 1))
    return "evaluate order 1 with%s order:1:lines:%s | sum(lines, qty * price)" % (cells, listed(map(str, range(1, n + 1))))


def posts(count, body):
    """A connection that sends so many requests, whole and in pieces of a byte."""
    head = "POST /jsonrpc HTTP/1.1\r\nHost: 127.0.0.1:8069\r\nContent-Type: application/json\r\nContent-Length: %d\r\n\r\n" % len(body)
    return (head + body).encode() * count


def small(cut):
    """A hundred requests of the usual length."""
    return "http %s 0 %s" % (cut, posts(100, "{}".ljust(120)).hex())


def large(cut):
    """A request with a body of 1 MiB."""
    return "http %s 0 %s" % (cut, posts(1, " " * 1048576).hex())


def module(k):
    """A module that depends on the three before it, with four models of sixteen fields, and one that extends a model of the module before."""
    text = ['name = "m%d"' % k, "depends = [%s]" % ", ".join('"m%d"' % d for d in range(max(0, k - 3), k))]

    def field(name, type_, *more):
        text.extend(["[model.field.%s]" % name, 'type = "%s"' % type_, 'string = "The %s"' % name, *more])

    if k:
        text.extend(["[[model]]", 'inherit = "m%d.model0"' % (k - 1)])
        field("more%d" % k, "char", "required = true")
    for j in range(4):
        text.extend(["[[model]]", 'name = "m%d.model%d"' % (k, j), 'order = "name, qty desc"', "[model.check]", 'some = "qty >= 0"'])
        field("name", "char", "required = true")
        field("qty", "integer", "default = 1")
        field("price", "integer")
        field("total", "integer", 'compute = "qty * price"', 'depends = ["qty", "price"]')
        for i in range(12):
            field("field%d" % i, "integer" if i % 2 else "text")
    return "".join(line + "\n" for line in text)


def modules(n):
    texts = (module(k).replace(" ", "\\s").replace(":", "\\c").replace("\n", "\\n") for k in range(n))
    return "load m%d%s" % (n - 1, "".join(" m%d=%s" % it for it in enumerate(texts)))


def registry(n):
    """So many models in a ring, the users among them, each of whose rows has an owner in the one before; five of the 256 fields are automatic. The names of a model's fields stand in no order."""
    def model(k):
        return "m.%d" % (k % n) if k % n else "res.users"

    def name(i):
        return "f%03d" % (i * 89 % 247)

    def entry(k):
        parts = ["name=%s order=name,qty\\sdesc check=some:qty\\s>=\\s0" % model(k), "qty integer default=int:1", "name char required=yes string=Name",
                 "owner many2one relation=%s ondelete=cascade" % model(k - 1), "rows one2many relation=%s inverse=owner" % model(k + 1)]
        for i in range(247):
            of = name(i - 1) if i else ""
            parts.append(name(i) + (" integer store=yes compute=%s\\s*\\sowner.qty depends=%s:owner.qty" % (of, of) if i % 8 == 2 else
                                    " integer store=yes compute=%s\\s+\\ssum(rows,\\sqty) depends=%s:rows.qty" % (of, of) if i % 8 == 3 else
                                    " many2one relation=" + model(k * 7 + i) if i % 8 == 4 else " integer"))
        return " | ".join(parts)

    return "schema " + " || ".join(map(entry, range(n)))


def takes(n):
    """The first to be removed first, with ties and unset dates, where all is wanted."""
    stocks = ("%d:%d:%d:%s:WH/%d" % (i, i % 7 + 1, i * 7919 % 1000, i * 31 % 500 if i % 3 else "-", i % 9) for i in range(1, n + 1))
    return "takes fefo %d %s" % (8 * n, " ".join(stocks))


def move_lines(n):
    """A line for each quant, from its place to one where there is nothing yet."""
    quants = ("%d:%d:8:-:5:5:50:yes" % (i, i * 7919 % 1000003) for i in range(1, n + 1))
    lines = ("%d:8:9:-:3:yes:yes" % (i * 7919 % 1000003) for i in range(n, 0, -1))
    return "lines 900 %d %s | %s" % (n + 1, " ".join(quants), " ".join(lines))


def pull_chain(n):
    """A chain of eight behind rules of other places."""
    rules = ["%d:pull:%d:%d" % (i + 8, i % 99 + 100, i % 99 + 200) for i in range(1, n - 7)]
    return "chain 8 " + " ".join(rules + ["%d:pull:%d:%d" % (i, 8 + i, 7 + i) for i in range(1, 9)])


def closes(models, before, edits):
    """What a change reaches between two tables."""
    return 'closes {"definitions":"%s","cases":[{"before":[%s],"edits":[%s]}]}' % (models.replace("\\", "\\\\"), listed(before), listed(edits))


def chains(n):
    """A change of so many rows, each with a chain of eight fields over the one that is changed."""
    fields = "".join(" | c%d integer store=yes compute=%s\\s+\\s1 depends=%s" % (i, of, of) for i, of in enumerate(["qty"] + ["c%d" % i for i in range(1, 8)], 1))
    return closes("name=m.a | qty integer" + fields, ['["makes","m.a",1,%d,[]]' % n], ['["set","m.a",%d,"qty",1]' % i for i in range(1, n + 1)])


def tree(n):
    """A root gets a parent: a tree becomes one of 64 levels, of whose rows so many stand in the lowest."""
    below = ['["make","m.a",%d,[["up",{"id":%d}]]]' % (i, i - 1) for i in range(2, 63)]
    return closes("name=m.a parent=up | up many2one relation=m.a", ['["makes","m.a",1,1,[]]', *below, '["makes","m.a",64,%d,[["up",{"id":62}]]]' % (n + 63), '["make","m.a",63,[]]'],
                  ['["set","m.a",1,"up",{"id":63}]'])


def priced(n, others):
    """The price changes of one of two products: so many lines have that one, and so many the other. Each order sums the lines of one."""
    models = ("name=m.p | price integer || name=m.o | lines one2many relation=m.l inverse=order | total integer store=yes compute=sum(lines,\\svalue) depends=lines.value || "
              "name=m.l | of many2one relation=m.p | order many2one relation=m.o | qty integer | value integer store=yes compute=qty\\s*\\sof.price depends=qty:of.price")
    lines = ['["makes","m.l",%d,%d,[["of",{"id":%d}],["order",{"id":%d}]]]' % (first, last, of, of) for of, first, last in ((1, 1, n), (2, n + 1, n + others))]
    return closes(models, ['["makes","m.p",1,2,[]]', '["makes","m.o",1,2,[]]', *lines], ['["set","m.p",1,"price",5]'])


def call(model, method, arguments, number):
    """A request to stockd."""
    return '{"jsonrpc":"2.0","method":"call","params":{"service":"object","method":"execute_kw","args":["stock",2,"admin","%s","%s",%s]},"id":%d}' % (
        model, method, arguments, number)


def line_of(k):
    """The values of a line of this number."""
    return '{"name":"line %d","qty":%d,"price":%d}' % (k, k % 97, k % 89)


def requests(n):
    """So many creates, with one read after each hundred."""
    lines = []
    for k in range(1, n + 1):
        lines.append(call("demo.line", "create", "[%s]" % line_of(k), k))
        if k % 100 == 0:
            lines.append(call("demo.line", "read", '[[%d],["name","subtotal"]]' % (k - k % 7), n + k))
    return "\n".join(lines)


def asked_first(calls):
    """A read, and calls behind it."""
    return "\n".join([call("demo.line", "read", '[[],["qty"]]', 0), *calls])


def creates(n):
    return asked_first(call("demo.line", "create", "[%s]" % line_of(k), k) for k in range(1, n + 1))


def changes(n):
    """So many writes of one row."""
    return asked_first(call("demo.line", "write", '[[1],{"qty":%d}]' % (k % 97), k) for k in range(1, n + 1))


def objects(n):
    """A create of so many rows in one call."""
    return asked_first([call("demo.line", "create", "[[%s]]" % listed(map(line_of, range(1, n + 1))), 1)])


def moves(n, rows=1000):
    """A tree, of which two rows are roots and so many stand below one of them, two below each; and moves of
    these from one root to the other, in turn."""
    ups = ["false", "false", "1", *(str(k // 2 + 2) for k in range(2, rows + 1))]
    made = call("demo.place", "create", "[[%s]]" % listed('{"name":"a","parent_id":%s}' % up for up in ups), 0)
    return "\n".join([made, *(call("demo.place", "write", '[[3],{"parent_id":%d}]' % (k % 2 + 1), k) for k in range(1, n + 1))])


def writes(n, rows=2000):
    """So many rows made by one call, of which one is written so many times."""
    made = call("demo.line", "create", "[[%s]]" % listed(['{"name":"bolt","qty":3,"price":25}'] * rows), 0)
    return "\n".join([made, *(call("demo.line", "write", '[[%d],{"qty":%d}]' % (k % rows + 1, k % 97), k) for k in range(1, n + 1))])


def settles(n, rows=2000):
    """The same of an engine alone."""
    models = "name=line | name char required=yes | qty integer | price integer | subtotal integer store=yes compute=qty\\\\s*\\\\sprice depends=qty:price"
    steps = ['["stage",["makes","line",1,%d,[["name","bolt"],["qty",3],["price",25]]]]' % rows]
    steps += ['["stage",["set","line",%d,"qty",%d]]' % (k % rows + 1, k % 97) for k in range(1, n + 1)]
    return 'engine {"definitions":"%s","fails":[],"parts":[["run",%s]]}' % (models, listed(step + ',["settle"],["flush"]' for step in steps))


def searches(n, method, arguments):
    """The same search so many times."""
    return "\n".join(call("demo.line", method, arguments, k) for k in range(1, n + 1))


def told(n):
    """Python's own reading and writing of the JSON values that the codec is given, so often each."""
    for text in TEXTS:
        for _ in range(n):
            json.dumps(json.loads(text))


# A row of twelve fields.
ROW = "01000c026174000b6372656174655f6461746505000000006553f100036461790400004d4604646f6e650101046e616d650300000004626f6c74046e6f746500056f776e65720600000000000000070371747902fffffffffffffffd067371756172650200000000000000090573746174650300000004646f6e6504746167730700000002000000000000000100000000ffffffff0a77726974655f6461746505000000006553f100"
TEXTS = ('"2024-02-29"', '"a bolt of the usual length"', "1234567")
CALLS = {"admissions": lambda n: four(n, '[2,[1,4],"m.a",1,"read","row"]'), "rights": lambda n: four(n, '[2,[1,4],"m.a","read"]'), "groups": chain,
         "equality": lambda n: places(n, 1, '["name","=","Place 77"]'), "range": lambda n: places(n, 1, '["size",">=",990]'),
         "pattern": lambda n: places(n, 1, '["name","ilike","PLACE %77"]'), "dotted": lambda n: places(n, 1, '["up.name","=","Place 3"]'),
         "child_of": lambda n: places(n, 1, '["id","child_of",3]'), "criteria": lambda n: places(0, n, '["up.up.name","not ilike","a%b"]'),
         "checked": checked, "chosen": chosen, "summed": summed, "small": small, "large": large, "modules": modules, "registry": registry,
         "takes": takes, "move_lines": move_lines, "pull_chain": pull_chain, "requests": requests, "writes": writes, "settles": settles,
         "creates": creates, "changes": changes, "objects": objects, "moves": moves,
         "chains": chains, "tree": tree, "fan": lambda n: priced(n, 1), "others": lambda n: priced(1000, n),
         "found": lambda n: searches(n, "search", '[[["qty",">=",990]],0,false,"id"]'),
         "ordered": lambda n: searches(n, "search", '[[],0,10,"price desc"]'),
         "counted": lambda n: searches(n, "search_count", '[[["qty",">=",500],["price","<",250000]]]'),
         "row": lambda n: "times %d row %s" % (n, ROW), "body": lambda n: "times %d body %s" % (n, ROW),
         "json": lambda n: "\n".join("times %d value %s %s" % (n, *it) for it in zip(("day", "name", "qty"), TEXTS)),
         "bytes": lambda n: str(len("".join(map(module, range(n)))))}

if sys.argv[1] == "told":
    told(int(sys.argv[2]))
else:
    size = sys.argv[2]
    print(CALLS[sys.argv[1]](int(size) if sys.argv[1] not in ("small", "large") else size))
