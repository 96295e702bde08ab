#!/usr/bin/env python3
"""Times whole runs of the program, beside those of the dwz that a distribution has.

    tools/bench_runs.py [--times N] [--program PROGRAM] [--together] FILE...

Each FILE is written elsewhere (`-o`), N times by each of: the program with one worker, the program with four, and dwz (with limits
that no FILE reaches), where it is at hand. With --together all FILEs are one run, over copies of them, with a common file (`-m`). Of each are told the least time by the clock and the least processor time, how many entries
a second each makes, how many times those of dwz that is, and the most memory that it took, beside dwz's. Entries are counted by
readelf. Other programs on the machine make times longer, those by the clock more: what several workers save shows in the time by
the clock alone, and only where processors are free. It belongs to no gate.
"""

import argparse
import os
import shutil
import subprocess
import tempfile
import time
from collections import namedtuple


def entries_of(path):
    """How many entries `.debug_info` has, or None where readelf isn't at hand."""
    if shutil.which("readelf") is None:
        return None
    reader = subprocess.Popen(["readelf", "--debug-dump=info", path], stdout=subprocess.PIPE, stderr=subprocess.DEVNULL)
    count = sum(b"Abbrev Number: " in line and not line.rstrip().endswith(b"Abbrev Number: 0") for line in reader.stdout)
    reader.wait()
    return count


Run = namedtuple("Run", "wall cpu memory")  # seconds, seconds of all processors together, kilobytes


def run_once(words, folder):
    """A run, or None where it is refused."""
    child = os.fork()
    if child == 0:
        os.chdir(folder)
        null = os.open(os.devnull, os.O_WRONLY)
        os.dup2(null, 1)
        os.dup2(null, 2)
        os.execvp(words[0], words)
    start = time.monotonic()
    _, status, used = os.wait4(child, 0)
    if status:
        return None
    return Run(time.monotonic() - start, used.ru_utime + used.ru_stime, used.ru_maxrss)


def best_of(times, words, copied=()):
    """The least times and the most memory of several runs, each in a new folder, over copies of files there, if it is to have some."""
    runs = []
    for _ in range(times):
        with tempfile.TemporaryDirectory() as folder:
            names = ["%d" % number for number in range(len(copied))]
            for name, path in zip(names, copied):
                shutil.copy(path, os.path.join(folder, name))
            runs.append(run_once(words + names, folder))
    if None in runs:
        return None
    return Run(min(run.wall for run in runs), min(run.cpu for run in runs), max(run.memory for run in runs))


def row_of(name, run, entries, dwz):
    """A line about a way, beside dwz."""
    def times(mine, other):
        return "" if dwz is None else " (%.2f)" % (mine / other)
    if run is None:
        return "  %-12s refused" % name
    rates = ["%.2f" % (entries / seconds / 1e6) if entries else "?" for seconds in (run.wall, run.cpu)]
    return "  %-12s wall %.3f s, %s million a second%s; cpu %.3f s, %s million a second%s; %d MB%s" % (
        name, run.wall, rates[0], times(dwz.wall if dwz else 0, run.wall), run.cpu, rates[1], times(dwz.cpu if dwz else 0, run.cpu),
        run.memory // 1024, times(run.memory, dwz.memory if dwz else 1))


def main():
    parser = argparse.ArgumentParser(description=__doc__, formatter_class=argparse.RawDescriptionHelpFormatter)
    parser.add_argument("files", nargs="+")
    parser.add_argument("--times", type=int, default=5)
    parser.add_argument("--together", action="store_true")
    parser.add_argument("--program", default=os.path.join(os.path.dirname(__file__), "../crates/dwz/out/dwz"))
    options = parser.parse_args()
    program = os.path.abspath(options.program)
    where = ["-m", "common"] if options.together else ["-o", "out"]
    ways = [(name, [program, "-j", workers, *where]) for name, workers in (("one worker", "1"), ("four workers", "4"))]
    if shutil.which("dwz"):
        ways.append(("dwz", ["dwz", "-l", "none", "-L", "none", *(["--dwarf-5"] if options.together else []), *where]))
    else:
        print("no dwz: the program is timed alone")
    for paths in [options.files] if options.together else [[path] for path in options.files]:
        counts = [entries_of(path) for path in paths]
        entries = None if None in counts else sum(counts)
        size = sum(os.path.getsize(path) for path in paths)
        print("%s: %d bytes, %s entries" % (paths[0] if len(paths) == 1 else "%d files" % len(paths), size, "?" if entries is None else entries))
        paths = [os.path.abspath(path) for path in paths]
        timed = lambda words: best_of(options.times, words, paths) if options.together else best_of(options.times, words + paths)
        runs = {name: timed(words) for name, words in ways}
        for name, run in runs.items():
            print(row_of(name, run, entries, runs.get("dwz")), flush=True)


if __name__ == "__main__":
    main()
