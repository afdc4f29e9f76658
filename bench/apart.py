"""What calls of `stockd call` take once those before them are answered: apart.py INPUT BATCHES PROGRAM
[WORD..]. The first line of the file INPUT is asked alone, and what goes before its reply (a store is
opened, say) is left out; then the others in so many batches, each once the last one is answered.
Prints of the cheapest batch how many seconds a call took of a processor, the host's part included,
and by the clock, and how many kilobytes the program held behind the first reply and at most up to
then. It ends with 1 where a call is refused."""
import subprocess
import sys
import threading
import time


class Asked:
    """A program that is asked."""

    def __init__(self, words):
        self.program = subprocess.Popen(words, stdin=subprocess.PIPE, stdout=subprocess.PIPE)

    def ask(self, lines):
        """Has these answered; the seconds of a processor and of the clock that it took."""
        began = self.spent(), time.perf_counter()
        writing = threading.Thread(target=self.write, args=(lines,))
        writing.start()
        for _ in lines:
            reply = self.program.stdout.readline()
            if b'"result"' not in reply:
                sys.exit("refused: " + reply.decode())
        writing.join()
        return self.spent() - began[0], time.perf_counter() - began[1]

    def write(self, lines):
        self.program.stdin.write(b"".join(lines))
        self.program.stdin.flush()

    def told(self, name):
        """What the host tells of the process."""
        with open("/proc/%d/%s" % (self.program.pid, name), encoding="ascii") as file:
            return file.read()

    def spent(self):
        """Seconds of a processor, which the host counts to the nanosecond."""
        return int(self.told("schedstat").split()[0]) / 1e9

    def kilobytes(self, name):
        return next(int(line.split()[1]) for line in self.told("status").split("\n") if line.startswith(name + ":"))


def batches(lines, count):
    size = max(1, len(lines) // count)
    return [lines[first:first + size] for first in range(0, len(lines), size)]


def main():
    with open(sys.argv[1], "rb") as file:
        first, *others = [line.rstrip(b"\n") + b"\n" for line in file]
    asked = Asked(sys.argv[3:])
    asked.ask([first])
    memory = asked.kilobytes("VmRSS"), asked.kilobytes("VmHWM")
    took = []
    for batch in batches(others, int(sys.argv[2])):
        processor, clock = asked.ask(batch)
        took.append((processor / len(batch), clock / len(batch)))
    asked.program.stdin.close()
    asked.program.wait()
    print(*(min(it) for it in zip(*took)), *memory)


main()
