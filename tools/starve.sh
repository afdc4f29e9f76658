#!/bin/sh
# Refuses memory to a run of a module of one model and four requests on it: the first
# allocation that the run asks for, then in a further run the second, and so on, until a run
# asks for fewer. Each run must answer as it does with ample memory, but for one reply that
# says `no memory` and what follows from a request that wasn't carried out; or end with
# `no memory` as its last line.
# Outside the gate; takes some ten minutes. Prints a line for each kind of answer, and the
# last line `starve equal` with status 0, or what differed with status 1.
set -eu
cd "$(dirname "$0")/.."
place=$(mktemp -d)
trap 'rm -rf "$place"' EXIT INT TERM
# More allocations than the run asks for. Each case makes some of them beforehand, so that
# one build tries every number: the Nth of all fails, and the run comes to it sooner or later.
most=960

tar -cf - --exclude=out crates crates.txt HANDLES | (cd "$place" && tar -xf -)
mkdir "$place/cases"
n=0
while [ "$n" -le "$most" ]; do
    echo "$n" >"$place/cases/$(printf '%04d' "$n")"
    n=$((n + 1))
done

# The program over objects in memory, in place of the host's: the same `run`.
python3 - "$place" <<'PROGRAM'
import re
import sys

main = sys.argv[1] + "/crates/stockd/src/main.rt"
text = open(main).read()
head = text[: re.search(r"^(ghost use|use|pub use) ", text, re.M).start()]
request = (
    '{"jsonrpc":"2.0","method":"call","params":{"service":"object","method":"execute_kw",'
    '"args":["stock",2,"admin","demo.line",%s]},"id":%d}\\n'
)
calls = [
    '"create",[{"name":"bolt","qty":3,"price":25}]',
    '"create",[{"qty":9223372036854775807,"price":2}]',
    '"create",[{"name":"nut","qty":4,"price":10}]',
    '"read",[[1,2],["name","subtotal"]]',
]
lines = "".join(request % (call, n + 1) for n, call in enumerate(calls)).replace('"', '\\"')
body = """
use ob_base::{NoMemory, Word};
use ob_io::{MemClock, Source, StdSource, SureDoor, SureFiles, SureKeeper, SureSink, SureSource};
pub use run::run;
use std::alloc::Global;
use std::io::Input;
use std::process::ExitCode;
use std::rt::{Clock, Env};
use std::str;

const LINES: &str = "@LINES@";

const MODULE: &str = "name = 'demo'\\n[[model]]\\nname = 'demo.line'\\n[model.field]\\nname = { type = 'char' }\\nqty = { type = 'integer' }\\nprice = { type = 'integer' }\\nsubtotal = { type = 'integer', store = true, compute = 'qty * price', depends = ['qty', 'price'] }\\n";

fn main(rt: HostRuntime) -> ExitCode {
    match starved(&rt) {
        Ok(status) => ExitCode::from(status),
        Err(NoMemory) => {
            let _ = println!(rt; "before the run");
            ExitCode::from(3)
        }
    }
}

fn starved<R: Alloc<A = Global> + Env + Input + Print + Clock>(rt: &R) -> Result<u8, NoMemory> {
    let alloc = rt.alloc();
    let mut room = [0; 8];
    let len = StdSource::new(rt)?.read(&mut room).unwrap_or(0);
    let before = str::from_utf8(&room[..len]).ok().and_then(|t| t.trim().parse().ok());
    for _ in 0..before.unwrap_or(0u32) {
        Vec::from_array(alloc, [0u8; 16])?;
    }
    let mut words = Vec::new(alloc);
    for word in ["call", "--load", "demo"] {
        words.push(String::from_str(alloc, word)?)?;
    }
    let mut texts = Vec::new(alloc);
    texts.push((Word::from_text(alloc, "modules/demo.toml")?, MODULE.as_bytes().to_vec(alloc)?))?;
    let mut files = SureFiles::new(alloc, texts)?;
    let mut keeper = SureKeeper::new(alloc, Vec::new(alloc), Vec::new(alloc))?;
    let mut input = SureSource::new(LINES.as_bytes().to_vec(alloc)?, 64)?;
    let mut output = SureSink::new(alloc, 4096)?;
    let mut door = SureDoor::new(alloc, Vec::new(alloc), 1, 0)?;
    let mut clock = MemClock::new(1700000000, 0)?;
    let status = run(
        alloc, &words, &mut files, &mut keeper, &mut input, &mut output, &mut door, &mut clock,
    );
    let _ = print!(rt; "{}", str::from_utf8(output.written()).unwrap_or("?"));
    Ok(status)
}
"""
open(main, "w").write(head + body.replace("@LINES@", lines))
PROGRAM

(cd "$place/crates/stockd" && rt try --fail-alloc "$most" --cases "$place/cases") >"$place/answers" 2>&1 || true

python3 - "$place/answers" "$most" <<'CHECK'
import re, sys

def error(name, message, request):
    return ('{"error":{"code":200,"data":{"message":"%s","name":"%s"},"message":"Odoo Server Error"},'
            '"id":%s,"jsonrpc":"2.0"}' % (message, name, request))

def result(value, request):
    return '{"id":%d,"jsonrpc":"2.0","result":%s}' % (request, value)

BOLT, NUT = '{"id":1,"name":"bolt","subtotal":75}', '{"id":2,"name":"nut","subtotal":40}'
WANT = error("NoMemory", "no memory", "null")
FULL = [result(1, 1), error("Constraint.Overflow", "demo.line 2 subtotal", 2), result(2, 3),
        result("[%s,%s]" % (BOLT, NUT), 4)]
MISSING = error("Missing", "demo.line 2 does not exist", 4)
# The answers where one request was refused its memory.
ONE = [[WANT, error("Constraint.Overflow", "demo.line 1 subtotal", 2), result(1, 3), MISSING],
       [FULL[0], WANT] + FULL[2:], FULL[:2] + [WANT, MISSING], FULL[:3] + [WANT]]

def kind(lines, status):
    if status == 3 and lines == ["before the run"]:
        return "before the run"
    if status == 0 and lines == FULL:
        return "none met"
    if status == 0 and lines in ONE:
        return "no memory as a reply"
    # Outside a request the run ends: the replies so far, and the last line.
    if status == 7 and lines[-1] == "no memory" and lines[:-1] == FULL[:len(lines) - 1]:
        return "no memory as the last line"
    return "differs"

text = open(sys.argv[1]).read()
seen, differing = {}, []
for case, body, status in re.findall(r"== (\d+)\n(.*?)allocations: .*?\ncase=\d+ run=ended status=(\d+) ", text, re.S):
    k = kind(body.splitlines(), int(status))
    seen[int(case)] = k
    if k == "differs":
        differing.append((case, status, body))
whole = sorted(seen) == list(range(int(sys.argv[2]) + 1))
for k in sorted(set(seen.values())):
    print("%s: %d runs" % (k, sum(v == k for v in seen.values())))
for case, status, body in differing:
    print("differs with %s before, status %s:\n%s" % (case, status, body))
# Case 0 makes none beforehand: there the run must end before the allocation that fails.
good = whole and not differing and seen[0] == "none met" and seen[int(sys.argv[2])] == "before the run"
print("starve equal" if good else "starve differs" if whole else "starve incomplete\n" + text[-2000:])
sys.exit(0 if good else 1)
CHECK
