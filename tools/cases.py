#!/usr/bin/env python3
"""Plays pages of cases against the proved program:

    tools/cases.py [--program PROGRAM] [--seconds N] [PAGE..]

A page is a text of cases (docs/CASES.md has its lines); by default each of cases/. Each run of a case is a
process, with the library of host.c below it, which is what the page says of the clock, the input, the output,
connections and files. Cases are played side by side. Prints each that differs, by page and name, with what was
wanted and what was found, each line that has no form, each case without a status and each page without a
case; the status is 1 where there is one. PROGRAM is by default the proved one. The gate runs it.
"""
import argparse
import concurrent.futures
import glob
import os
import shlex
import subprocess
import sys
import tempfile

from case_pages import read_page
from case_runs import Played
from process import TOP, program

PLACES = 4


def library_in(folder):
    """Builds host.c, and gives its path."""
    path = f"{folder}/host.so"
    compiler = shlex.split(os.environ.get("CC") or "gcc")
    subprocess.run([*compiler, "-O2", "-Wall", "-shared", "-fPIC", "-o", path, f"{TOP}/tools/host.c"], check=True)
    return path


def own_texts():
    """The texts of the modules that every case has."""
    texts = {}
    for path in glob.glob(f"{TOP}/cases/modules/*.toml"):
        with open(path, encoding="utf-8") as it:
            texts[os.path.basename(path)[:-5]] = it.read()
    return texts


def differences(case, *how):
    """Where a case differs, in the order of its lines."""
    told = [f"can't be read: {line}" for line in case.unread]
    if case.is_open:
        told.append("no status at its end")
    with tempfile.TemporaryDirectory(prefix="case-") as folder:
        played = Played(case, *how, folder)
        played.play()
    return told + played.told


def main():
    parser = argparse.ArgumentParser(description="Plays pages of cases against the proved program.")
    parser.add_argument("--program", help="another one, as an unproved build")
    parser.add_argument("--seconds", type=int, default=60, help="how long a run may take")
    parser.add_argument("pages", metavar="PAGE", nargs="*")
    words = parser.parse_args()
    path = program(words.program)
    cases, bad = [], 0
    for page in words.pages or sorted(glob.glob(f"{TOP}/cases/*.txt")):
        read, stray = read_page(page)
        told = [f"{page}: can't be read: {line}" for line in stray] + [f"{page}: a page without a case"] * (not read)
        cases += read
        bad += len(told)
        print(*told, sep="\n", end="\n" * bool(told))
    with tempfile.TemporaryDirectory(prefix="host-") as folder, concurrent.futures.ThreadPoolExecutor(PLACES) as pool:
        how = path, library_in(folder), own_texts(), words.seconds
        for case, told in zip(cases, pool.map(lambda case: differences(case, *how), cases)):
            if told:
                bad += 1
                print(f"{os.path.relpath(case.page)}: {case.name}", *told, sep="\n", end="\n\n", flush=True)
    print(f"{bad} differ; {len(cases)} cases")
    return 1 if bad else 0


if __name__ == "__main__":
    sys.exit(main())
