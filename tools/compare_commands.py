"""Random creates and writes with commands on lists to the program and to the independent machine:

    compare_commands.py ORACLE PROGRAM SEEDS COUNT [print]

SEEDS is A-B or one number. Each seed gives a stream of so many requests, on the models of
cases/modules/commands.toml, which have lists of each kind, cascades, parents with lists, fixed, managed
and locked rows, rules for each operation and groups; callers are the first two users and such that the
stream makes. Behind each stream the first user reads all rows. With `print` the stream of the first seed
is printed, and nothing compared. Prints what differs, how many streams do, and how often which answers
came; the status is 1 where one differs.
"""
import collections
import json
import os
import subprocess
import sys
import tempfile

STAGE = 8
MODULES = os.path.join(os.path.dirname(os.path.abspath(__file__)), "..", "cases", "modules")
WEIGHTS = {"c.order": 8, "c.item": 7, "c.client": 6, "c.person": 3, "c.box": 4, "c.tag": 4, "c.slot": 3, "c.note": 2, "c.firm": 2, "c.pin": 2,
           "c.sys": 0.3, "res.users": 0.4}
FIRST = ("c.tag", "c.item", "c.box", "c.slot", "c.order", "c.person", "c.firm", "c.pin", "c.note")


def made(oracle, seed, count):
    """The lines of a stream, and how often which answers came."""
    sys.path.insert(0, oracle)
    import fuzz
    from stockd_oracle import jsonio

    def files(name):
        with open(os.path.join(MODULES, os.path.basename(name)), "rb") as it:
            return it.read()

    class Commands(fuzz.Fuzz):
        def __init__(self):
            modules, fuzz.modules = fuzz.modules, lambda stage: ["commands"]
            self.share = 1.0
            super().__init__(seed, STAGE, "orm", files)
            fuzz.modules = modules
            # Of three streams two have little that is malformed.
            self.share = 1.0 if seed % 3 == 0 else 0.08
            self.script = [(name, "create", [[self.first_values(name) for _ in range(4)]], {}) for name in FIRST]

        def chance(self, p):
            return super().chance(p * self.share if p <= 0.1 else p)

        def first_values(self, name):
            """A row with which a stream begins."""
            found = {"name": self.text()} if name != "c.firm" else {}
            if name == "c.note":
                found["person_id"] = self.pick([1, 2, 3])
            if name == "c.pin":
                found["item_id"] = self.pick([1, 2, False])
            return found

        def id_of(self, model, p_bad=0.06):
            if not self.ids(model) and self.share < 1:
                return self.pick([1, 2])
            return super().id_of(model, p_bad)

        def any_model(self):
            return self.model(self.rng.choices(list(WEIGHTS), list(WEIGHTS.values()))[0])

        def text(self):
            return self.pick(["a", "b", "c", "zz", "d", "e"]) if self.chance(0.9) else super().text()

        def number(self):
            return self.rng.randrange(0, 60) if self.chance(0.95) else super().number()

        def value(self, field, depth=0):
            if field.name == "code":
                return "k%d" % self.rng.randrange(400)
            if field.name in ("shut", "state") and self.chance(0.7):
                return False if field.name == "shut" else "draft"
            return super().value(field, depth)

        def vals(self, model, depth=0, wanted=None):
            found = super().vals(model, depth, wanted)
            if depth == 0 and self.chance(0.6):
                lists = [f for f in model.fields.values() if f.is_x2many and f.name != "watch_ids"]
                for f in self.rng.sample(lists, min(len(lists), self.pick([1, 1, 2]))):
                    found[f.name] = self.commands(f, 0)
            return found

        def orm_call(self):
            model = self.any_model()
            # (rows are deleted by commands alone: the machine's own streams have unlinks)
            method = self.rng.choices(["create", "write", "read"], [26, 30, 2])[0]
            if method == "create":
                n = self.pick([1, 1, 1, 2])
                vals = [self.vals(model) for _ in range(n)]
                return (model.name, method) + self.named([vals if n > 1 else vals[0]], ["vals"])
            if method == "write":
                return (model.name, method) + self.named([self.ids_arg(model), self.vals(model)], ["ids", "vals"])
            return self.read_call(model, method)

    it = Commands()
    lines, answers = [], collections.Counter()
    for _ in range(count):
        line, answer = it.next()
        lines.append(line)
        reply = json.loads(answer.reply)
        error = reply.get("error")
        answers[error["data"]["name"] + " " + error["data"]["message"].split(" ")[0] if error else "ok"] += 1
    return lines, answers


def differs(oracle, program, seed, count, totals):
    """Whether the two answer the stream of a seed differently."""
    lines, answers = made(oracle, seed, count)
    totals.update(answers)
    with tempfile.NamedTemporaryFile() as stream:
        stream.writelines(line + b"\n" for line in lines)
        stream.flush()
        words = ["--stage", str(STAGE), "--dir", MODULES, "--load", "commands", "--whole", "--stream", stream.name]
        ran = subprocess.run([sys.executable, f"{oracle}/compare.py", *words, "--", program], stdout=subprocess.PIPE, stderr=subprocess.DEVNULL)
    if ran.returncode:
        print(f"seed {seed}", flush=True)
        sys.stdout.buffer.write(ran.stdout)
        sys.stdout.flush()
    return ran.returncode != 0


def main():
    oracle, program, seeds, count, *words = sys.argv[1:]
    first, _, last = seeds.partition("-")
    if words:
        sys.stdout.buffer.writelines(line + b"\n" for line in made(oracle, int(first), int(count))[0])
        return
    totals = collections.Counter()
    results = [differs(oracle, program, seed, int(count), totals) for seed in range(int(first), int(last or first) + 1)]
    print(f"{sum(results)} of {len(results)} streams differ, of {sum(totals.values())} requests")
    for answer, times in totals.most_common():
        print(f"{times:8} {answer}")
    sys.exit(1 if any(results) else 0)


if __name__ == "__main__":
    main()
