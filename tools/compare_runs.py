#!/usr/bin/env python3
"""Compares whole runs of the program with a model of the tool that was written independently.

    tools/compare_runs.py MODEL [--sets N] [--changed N] [--first N] [--ways WAYS] [--jobs N,N..] [--demos N,N..] [--workers N] [PROGRAM]

MODEL is the folder of the model: it has dwzref/ (the whole tool, over files in memory) and tests/random_files.py (making
files). N sets of one to five random files are taken, and as many changed ones as are asked for: after some bytes of one of their
files were changed, or its machine, or the file was left out. Each set is run in the ways that are asked for: `alone`, with `-o`
where there is one file and in place where there are more; and `common`, with `-m` and, for every third set, `-M`. The program runs
over each set in a folder of its own, once for each number of workers (`-j`, of --jobs). What has to be the same as in the model: the
status, the text on the console, and each file afterwards, byte for byte, the common file too. So has `--demo` for each number of
--demos.

The last lines count how runs of each way ended, how many put a common file, and those that differ; the status is 1 where one does.
It belongs to no gate. Where the model isn't there, it says so and ends with status 0.
"""

import argparse
import os
import random
import subprocess
import sys
import tempfile
from multiprocessing import Pool

from compare_walk import changed

NAMES = [b"one", b"two", b"three", b"four", b"five"]

COMMON = b"common"

STATUSES = ["done", "refused", "usage", "read fault", "write fault", "no memory", "console fault"]

# the status that is told of a program that doesn't end
NO_END = 124

WAYS = ["alone", "common"]

# a machine that no random file is for
OTHER_MACHINE = b"\x28\x00"


def set_of(random_files, seed, change):
    """The files of a set by their names; with a number of a change, after that change. A file that is left out isn't held."""
    rng = random.Random(seed)
    files = random_files(seed, rng.choice([1, 1, 2, 2, 2, 3, 3, 4, 5]))
    held = dict(zip(NAMES, files))
    if change is not None:
        rng = random.Random("%d %d" % (seed, change))
        name = rng.choice(NAMES[:len(files)])
        kind = rng.random()
        if kind < 0.02:
            held[name] = None
        elif kind < 0.05:
            held[name] = held[name][:18] + OTHER_MACHINE + held[name][20:]
        else:
            held[name] = changed(rng, held[name])
    return held


def words_of(way, names, seed):
    """The words of a run over files with these names."""
    if way == "alone":
        return [b"-o", b"out", b"one"] if len(names) == 1 else list(names)
    other = [b"-M", b"/usr/lib/debug/common.debug"] if seed % 3 == 0 else []
    return [b"-m", COMMON] + other + list(names)


def run_program(program, words, held, folder):
    """Status, text and files after a run of the program in that folder."""
    folder = os.fsencode(folder)
    for name, data in held.items():
        with open(os.path.join(folder, name), "wb") as file:
            file.write(data)
    try:
        done = subprocess.run([program] + words, cwd=folder, stdout=subprocess.PIPE, stderr=subprocess.DEVNULL, timeout=600)
        status, text = done.returncode, done.stdout
    except subprocess.TimeoutExpired:
        status, text = NO_END, b""
    after = {}
    for name in os.listdir(folder):
        with open(os.path.join(folder, name), "rb") as file:
            after[name] = file.read()
    return status, text, after


# by this number the model knows all words, and else just those of shrinking files
ALL_WORDS = 20


def run_model(model, words, held, stage=None):
    """The same of the model, over files in memory."""
    outside, run = model
    files, console = outside.MemFiles(held), outside.MemConsole()
    status = run.run(words, files, console, stage or run.SPACES_STAGE)
    return status, console.text, files.held


def differences(got, want):
    """What of two runs isn't the same."""
    found = []
    if got[0] != want[0]:
        found.append("status %d, not %d" % (got[0], want[0]))
    if got[1] != want[1]:
        found.append("text %r, not %r" % (got[1], want[1]))
    for name in sorted(set(got[2]) | set(want[2])):
        new, old = got[2].get(name), want[2].get(name)
        if new is None or old is None:
            found.append("file %r is %sthere" % (name, "not " if new is None else ""))
        elif new != old:
            at = next((n for n, (a, b) in enumerate(zip(new, old)) if a != b), min(len(new), len(old)))
            found.append("file %r differs at %d (%d bytes, not %d)" % (name, at, len(new), len(old)))
    return found


class Comparer:
    """What the processes that compare need to know."""

    def __init__(self, options):
        self.program = os.path.abspath(options.program)
        self.jobs = options.jobs
        self.folder = options.model

    def load(self):
        sys.path[:0] = [self.folder, os.path.join(self.folder, "tests")]
        sys.dont_write_bytecode = True
        from random_files import random_files
        from dwzref import outside, run
        self.random_files, self.model = random_files, (outside, run)

    def compare(self, words, held):
        """The model's status, whether a common file is there after it, and what is different with which number of workers."""
        want = run_model(self.model, words, dict(held))
        found = []
        for job in self.jobs:
            with tempfile.TemporaryDirectory() as folder:
                got = run_program(self.program, [b"-j", b"%d" % job] + words, held, folder)
            found += ["-j %d: %s" % (job, one) for one in differences(got, want)]
        return want[0], COMMON in want[2], found

    def case(self, case):
        """The same of a case, with the words, and with its own words for it."""
        way, seed, change = case
        if way == "demo":
            words, held, name = [b"--demo", b"%d" % seed], {}, "demo %d" % seed
        else:
            held = set_of(self.random_files, seed, change)
            words = words_of(way, list(held), seed)
            held = {name: data for name, data in held.items() if data is not None}
            name = "set %d" % seed + ("" if change is None else ", change %d" % change)
        return (way, name, words, *self.compare(words, held))


def load(comparer):
    global COMPARER
    COMPARER = comparer
    COMPARER.load()


def compared(case):
    return COMPARER.case(case)


def cases_of(options):
    """Each case: its way, its set, and the number of the change."""
    for seed in range(options.first, options.first + options.sets):
        for way in options.ways:
            yield way, seed, None
    for number in range(options.changed):
        for way in options.ways:
            yield way, options.first + number % max(options.sets, 1), number // max(options.sets, 1)
    for number in options.demos:
        yield "demo", number, None


def numbers(text):
    return [int(one) for one in text.split(",") if one]


def main():
    parser = argparse.ArgumentParser(description=__doc__, formatter_class=argparse.RawDescriptionHelpFormatter)
    parser.add_argument("model")
    parser.add_argument("program", nargs="?", default=os.path.join(os.path.dirname(__file__), "../crates/dwz/out/dwz"))
    parser.add_argument("--sets", type=int, default=2000)
    parser.add_argument("--changed", type=int, default=5000)
    parser.add_argument("--first", type=int, default=0)
    parser.add_argument("--ways", type=lambda text: text.split(","), default=WAYS, help="alone,common")
    parser.add_argument("--jobs", type=numbers, default=[1, 3, 7, 64])
    parser.add_argument("--demos", type=numbers, default=[2, 3, 50, 200])
    parser.add_argument("--workers", type=int, default=os.cpu_count(), help="how many runs at a time")
    options = parser.parse_intermixed_args()
    if not set(options.ways) <= set(WAYS):
        parser.error("ways are %s" % ", ".join(WAYS))
    if not os.path.isdir(os.path.join(options.model, "dwzref")):
        print("no model in %s: nothing was compared" % options.model)
        return 0
    ends, common, wrong = {}, 0, 0
    with Pool(options.workers, load, (Comparer(options),)) as pool:
        for way, name, words, status, is_common, found in pool.imap(compared, cases_of(options), 8):
            ends.setdefault(way, {}).setdefault(status, 0)
            ends[way][status] += 1
            common += is_common
            if found:
                wrong += 1
                print("%s: %s: %s" % (name, b" ".join(words).decode(), "; ".join(found)), flush=True)
    for way, counts in ends.items():
        print("%s: %s" % (way, ", ".join("%s %d" % (STATUSES[status], count) for status, count in sorted(counts.items()))))
    print("with a common file %d, wrong %d" % (common, wrong))
    return 1 if wrong else 0


if __name__ == "__main__":
    sys.exit(main())
