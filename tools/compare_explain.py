#!/usr/bin/env python3
"""Compares what the program says of two entries (--explain) with a model of the tool that was written independently.

    tools/compare_explain.py MODEL [--sets N] [--changed N] [--first N] [--pairs N] [--jobs N,N..] [--workers N] [PROGRAM]

MODEL is the folder of the model: it has dwzref/ (the whole tool) and tests/random_files.py (making files). Of each of N sets of one to three
random files pairs of tops that may move are taken: every pair of a set that has at most --pairs of them, and else as many by chance, of one
file and of two. Beside them stand places at which no such top begins: a top that may not move, a place behind one, the end of a file. As many sets are
taken as --changed says after some bytes of one of their files were changed: where they aren't refused, pairs by chance. The program runs over each pair in a
folder of its own, by each number of workers (`-j`, of --jobs) in turn. Status and text have to be the model's, and no file may change.

The last lines count what was said, by what differs, and what is wrong; the status is 1 where something is.
It belongs to no gate. Where the model isn't there, it says so and ends with status 0.
"""

import argparse
import os
import random
import subprocess
import sys
import tempfile
from multiprocessing import Pool

from compare_walk import changed

NAMES = [b"one", b"two", b"three"]


def load(folder, program, jobs, pairs):
    global MODEL, PROGRAM, JOBS, PAIRS
    sys.path[:0] = [folder, os.path.join(folder, "tests")]
    sys.dont_write_bytecode = True
    from random_files import random_files
    from dwzref import explain, looks, outside, reading, run
    MODEL, PROGRAM, JOBS, PAIRS = (random_files, explain, looks, outside, reading, run), program, jobs, pairs


def places_of(files):
    """The places of tops that may move, and some at which none begins."""
    looks = MODEL[2]
    tops = looks.collect_tops(files, True)
    looks.mark_movable(files, tops)
    good = [(top.unit.file, top.entry.at) for top in tops if top.movable]
    bad = [(top.unit.file, top.entry.at) for top in tops if not top.movable][:2]
    bad += [(file, at + 1) for file, at in good[:1]] + [(len(files) - 1, 0xffffffff)]
    return good, bad


def pairs_of(rng, contents, limit):
    """Pairs of places to be asked for."""
    reading, tables = MODEL[4], sys.modules["dwzref.tables"]
    try:
        good, bad = places_of(reading.read_files(contents))
    except tables.Refusal:
        return [((0, 0x0c), (0, 0x0d))]
    every = [(a, b) for a in good for b in good]
    if len(every) > limit:
        every = [(rng.choice(good), rng.choice(good)) for _ in range(limit)]
    return every + [(bad[0], bad[-1]), (bad[-1], bad[0])] + [(a, rng.choice(bad)) for a in good[:2]]


def kind_of(status, text):
    """What differs, or that nothing does, or the status of a run that says neither."""
    if status != 0:
        return "status %d" % status
    return text.decode().splitlines()[-1].rpartition(": ")[2].split(" ")[0]


def asked(held, pair, job, folder):
    """The words for a pair, the outcome of the program, and of the model."""
    names = list(held)
    (one, at), (two, behind) = pair
    words = [b"--explain", names[one], b"0x%x" % at, names[two], b"0x%x" % behind]
    done = subprocess.run([PROGRAM, b"-j", b"%d" % job] + words, cwd=folder, stdout=subprocess.PIPE, stderr=subprocess.DEVNULL, timeout=600)
    outside, run = MODEL[3], MODEL[5]
    files, console = outside.MemFiles(held), outside.MemConsole()
    status = run.run(words, files, console, 20)
    return words, (done.returncode, done.stdout), (status, bytes(console.text))


def compare(case):
    """How often each kind of thing was said of the pairs of a set, and what is wrong."""
    seed, change = case
    rng = random.Random("explain %d %r" % (seed, change))
    files = MODEL[0](seed, rng.choice([1, 1, 2, 2, 3]))
    held = dict(zip(NAMES, files))
    if change is not None:
        name = rng.choice(list(held))
        held[name] = changed(rng, held[name])
    ends, wrong = {}, []
    with tempfile.TemporaryDirectory() as folder:
        for name, data in held.items():
            with open(os.path.join(os.fsencode(folder), name), "wb") as file:
                file.write(data)
        for number, pair in enumerate(pairs_of(rng, list(held.values()), PAIRS if change is None else 4)):
            words, got, want = asked(held, pair, JOBS[number % len(JOBS)], folder)
            kind = kind_of(*want)
            ends[kind] = ends.get(kind, 0) + 1
            if got != want:
                wrong.append("set %d %s: %s: %r, not %r" % (seed, change, b" ".join(words).decode(), got, want))
        for name, data in held.items():
            with open(os.path.join(os.fsencode(folder), name), "rb") as file:
                if file.read() != data:
                    wrong.append("set %d %s: %s was changed" % (seed, change, name.decode()))
        if len(os.listdir(folder)) != len(held):
            wrong.append("set %d %s: a file was made" % (seed, change))
    return ends, wrong


def main():
    parser = argparse.ArgumentParser(description=__doc__, formatter_class=argparse.RawDescriptionHelpFormatter)
    parser.add_argument("model")
    parser.add_argument("program", nargs="?", default=os.path.join(os.path.dirname(__file__), "../crates/dwz/out/dwz"))
    parser.add_argument("--sets", type=int, default=2000)
    parser.add_argument("--changed", type=int, default=1000)
    parser.add_argument("--first", type=int, default=0)
    parser.add_argument("--pairs", type=int, default=64, help="of a set")
    parser.add_argument("--jobs", type=lambda text: [int(one) for one in text.split(",")], default=[1, 3])
    parser.add_argument("--workers", type=int, default=os.cpu_count(), help="how many sets at a time")
    options = parser.parse_intermixed_args()
    if not os.path.isdir(os.path.join(options.model, "dwzref")):
        print("no model in %s: nothing was compared" % options.model)
        return 0
    cases = [(seed, None) for seed in range(options.first, options.first + options.sets)]
    cases += [(options.first + n % max(options.sets, 1), n // max(options.sets, 1)) for n in range(options.changed)]
    ends, count, wrong = {}, 0, 0
    with Pool(options.workers, load, (options.model, os.path.abspath(options.program), options.jobs, options.pairs)) as pool:
        for said, found in pool.imap(compare, cases, 8):
            for end, times in said.items():
                ends[end] = ends.get(end, 0) + times
                count += times
            for one in found:
                print(one, flush=True)
            wrong += len(found)
    print(", ".join("%s %d" % end for end in sorted(ends.items())))
    print("pairs %d, wrong %d" % (count, wrong))
    return 1 if wrong else 0


if __name__ == "__main__":
    sys.exit(main())
