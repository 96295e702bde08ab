#!/usr/bin/env python3
"""Compares what the program says of two files (--check) with a model of the tool that was written independently.

    tools/compare_check.py MODEL [--sets N] [--changed N] [--first N] [--jobs N,N..] [--workers N] [PROGRAM]

MODEL is the folder of the model: it has dwzref/ (the whole tool) and tests/random_files.py (making files). Of each of N sets of one to three
random files the program makes new ones, each by itself (`-o`) or all together (`-m`). Then it compares each old file with its new one, each
with itself, and with another of the set; and as many sets as --changed says have bytes of one old or new file changed before. Where a common
file was made, it is given with --sup; sometimes it is left out, or given where none is needed. The program runs over each pair by each number
of workers (`-j`, of --jobs) in turn. Status and text have to be the model's, and no file may change. Where nothing was changed, an old file
and its new one have to be the same.

The last lines count what was said, and what is wrong; the status is 1 where something is. It belongs to no gate. Where the model isn't there,
it says so and ends with status 0.
"""

import argparse
import os
import random
import subprocess
import sys
import tempfile
from multiprocessing import Pool

from compare_walk import changed

NAMES = [b"one", b"two", b"three"]


def load(folder, program, jobs):
    global MODEL, PROGRAM, JOBS
    sys.path[:0] = [folder, os.path.join(folder, "tests")]
    sys.dont_write_bytecode = True
    from random_files import random_files
    from dwzref import outside, run
    MODEL, PROGRAM, JOBS = (random_files, outside, run), program, jobs


def held_in(folder):
    """What each file of a folder holds."""
    held = {}
    for name in os.listdir(os.fsencode(folder)):
        with open(os.path.join(os.fsencode(folder), name), "rb") as file:
            held[name] = file.read()
    return held


def write_all(folder, held):
    for name, data in held.items():
        with open(os.path.join(os.fsencode(folder), name), "wb") as file:
            file.write(data)


def made_of(old, together, folder):
    """Old files beside the new ones that the program makes of them (`NAME.new`), and the common file where there is one."""
    write_all(folder, {name + b".new": data for name, data in old.items()})
    new = [name + b".new" for name in old]
    if together:
        subprocess.run([PROGRAM, b"-q", b"-m", b"common"] + new, cwd=folder, stdout=subprocess.DEVNULL, check=False)
    else:
        for name in new:
            subprocess.run([PROGRAM, b"-q", b"-o", name, name], cwd=folder, stdout=subprocess.DEVNULL, check=False)
    write_all(folder, old)
    return held_in(folder)


def asked(held, words, job, folder):
    """The outcome of the program, and of the model."""
    done = subprocess.run([PROGRAM, b"-j", b"%d" % job] + words, cwd=folder, stdout=subprocess.PIPE, stderr=subprocess.DEVNULL, timeout=600)
    outside, run = MODEL[1], MODEL[2]
    files, console = outside.MemFiles(held), outside.MemConsole()
    return (done.returncode, done.stdout), (run.run(words, files, console, 20), bytes(console.text))


def pairs_of(rng, names, held):
    """Pairs of names, each with whether they have to be the same where nothing was changed."""
    pairs = [(name, name + b".new", True) for name in names] + [(name + b".new", name, True) for name in names]
    some = rng.choice(sorted(held))
    if some != b"common":
        pairs.append((some, rng.choice([n for n in sorted(held) if n not in (some, b"common")]), False))
    return pairs


def compare(case):
    """How often each kind of thing was said of the pairs of a set, and what is wrong."""
    seed, change = case
    rng = random.Random("check %d %r" % (seed, change))
    old = dict(zip(NAMES, MODEL[0](seed, rng.choice([1, 1, 2, 3]))))
    ends, wrong = {}, []
    with tempfile.TemporaryDirectory() as folder:
        held = made_of(old, rng.random() < 0.5, folder)
        if change is not None:
            name = rng.choice(sorted(held))
            held[name] = changed(rng, held[name])
            write_all(folder, held)
        for number, (first, second, same) in enumerate(pairs_of(rng, list(old), held)):
            words = [b"--check", first, second]
            given = b"common" in held and rng.random() < 0.9
            if given:
                words += [b"--sup", b"common"]
            got, want = asked(held, words, JOBS[number % len(JOBS)], folder)
            kind = want[1].split()[0].decode() if want[0] in (0, 8) else "status %d" % want[0]
            ends[kind] = ends.get(kind, 0) + 1
            if got != want:
                wrong.append("set %d %s: %s: %r, not %r" % (seed, change, b" ".join(words).decode(), got, want))
            if same and change is None and got[0] not in (0, 1):
                wrong.append("set %d: %s: %r" % (seed, b" ".join(words).decode(), got))
        if held_in(folder) != held:
            wrong.append("set %d %s: a file was changed" % (seed, change))
    return ends, wrong


def main():
    parser = argparse.ArgumentParser(description=__doc__, formatter_class=argparse.RawDescriptionHelpFormatter)
    parser.add_argument("model")
    parser.add_argument("program", nargs="?", default=os.path.join(os.path.dirname(__file__), "../crates/dwz/out/dwz"))
    parser.add_argument("--sets", type=int, default=2000)
    parser.add_argument("--changed", type=int, default=2000)
    parser.add_argument("--first", type=int, default=0)
    parser.add_argument("--jobs", type=lambda text: [int(one) for one in text.split(",")], default=[1, 3])
    parser.add_argument("--workers", type=int, default=os.cpu_count(), help="how many sets at a time")
    options = parser.parse_intermixed_args()
    if not os.path.isdir(os.path.join(options.model, "dwzref")):
        print("no model in %s: nothing was compared" % options.model)
        return 0
    cases = [(seed, None) for seed in range(options.first, options.first + options.sets)]
    cases += [(options.first + n % max(options.sets, 1), n // max(options.sets, 1)) for n in range(options.changed)]
    ends, count, wrong = {}, 0, 0
    with Pool(options.workers, load, (options.model, os.path.abspath(options.program), options.jobs)) as pool:
        for said, found in pool.imap(compare, cases, 8):
            for end, times in said.items():
                ends[end] = ends.get(end, 0) + times
                count += times
            for one in found:
                print(one, flush=True)
            wrong += len(found)
    print(", ".join("%s %d" % end for end in sorted(ends.items())))
    print("pairs %d, wrong %d" % (count, wrong))
    return 1 if wrong else 0


if __name__ == "__main__":
    sys.exit(main())
