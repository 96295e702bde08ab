#!/usr/bin/env python3
"""Tries what runs do to files on a disk that others write at the same time, or that stand in their way.

    tools/disk_runs.py [--program PROGRAM] [--times N]

N times two runs at once write to one OUT, each another file: afterwards OUT is as one of them writes it, nothing else is there, and each run ended with
status 0, or with 4 where the other's temporary file was in its way. Then a file, and a link to a file, stand at the name of the temporary file: the run
ends with status 4, and both are untouched. So it is where COMMON is a FILE by another name, and where OUT is no plain file. A name may be so long that the
temporary file's is cut. Runs whose words, files or console are wrong end with the status of that. A new OUT has the mode of its FILE, a
new COMMON the mode of any new file, and a FILE keeps its own. The last line is `wrong N`, and the status is 1 where N isn't 0. It belongs to no gate.
"""

import argparse
import os
import stat
import subprocess
import sys
import tempfile
from collections import Counter

from hard_inputs import many_shapes


def content_of(path):
    with open(path, "rb") as file:
        return file.read()


def put(path, content):
    with open(path, "wb") as file:
        file.write(content)


def started(program, folder, name):
    return subprocess.Popen([program, "-q", "-o", "out", name], cwd=folder, stdout=subprocess.DEVNULL, stderr=subprocess.DEVNULL)


def written(program, folder, name):
    """What a run by itself writes of a file."""
    if started(program, folder, name).wait():
        sys.exit("%s is refused" % name)
    content = content_of(os.path.join(folder, "out"))
    os.remove(os.path.join(folder, "out"))
    return content


def at_once(program, folder, expected, times):
    """How often which statuses came, and how often what was there afterwards was wrong."""
    seen, wrong = Counter(), 0
    for _ in range(times):
        runs = [started(program, folder, name) for name in expected]
        statuses = tuple(sorted(run.wait() for run in runs))
        seen[statuses] += 1
        is_whole = content_of(os.path.join(folder, "out")) in expected.values()
        wrong += not is_whole or statuses not in ((0, 0), (0, 4)) or sorted(os.listdir(folder)) != sorted([*expected, "out"])
        os.remove(os.path.join(folder, "out"))
    return seen, wrong


def in_the_way(program, folder, place_it):
    """Whether a run leaves alone what stands at the name of its temporary file."""
    way = os.path.join(folder, "out.dwz-tmp")
    other = os.path.join(folder, "other")
    put(other, b"another file")
    place_it(other, way)
    status = started(program, folder, "one").wait()
    is_well = status == 4 and content_of(other) == b"another file" and content_of(way) == b"another file"
    is_well = is_well and not os.path.exists(os.path.join(folder, "out"))
    os.remove(way)
    os.remove(other)
    return is_well


def untouched(program, folder):
    """For each run that would take a file's place whether that file is as it was, and the status is 4."""
    pipe = os.path.join(folder, "pipe")
    os.mkfifo(pipe)
    before = {name: content_of(os.path.join(folder, name)) for name in ("one", "two")}
    for what, words in (("COMMON that is a FILE by another name", ["-m", "./one", "one", "two"]), ("OUT that is no plain file", ["-o", "pipe", "one"])):
        status = subprocess.run([program, "-q", *words], cwd=folder, stdout=subprocess.DEVNULL, check=False).returncode
        same = all(content_of(os.path.join(folder, name)) == content for name, content in before.items())
        yield what, status == 4 and same and stat.S_ISFIFO(os.stat(pipe).st_mode)
    os.remove(pipe)


def long_names(program, folder):
    """Whether files whose names are as long as may be are written, and nothing else."""
    name = "n" * 255
    status = subprocess.run([program, "-q", "-o", name, "one"], cwd=folder, stdout=subprocess.DEVNULL, check=False).returncode
    is_well = status == 0 and sorted(os.listdir(folder)) == sorted([name, "one", "two"])
    os.remove(os.path.join(folder, name))
    return is_well


def statuses(program, folder):
    """For each run what it is, the status that it has to end with, and that with which it ended."""
    put(os.path.join(folder, "text"), b"no ELF file")
    runs = (
        ("a demonstration", ["--demo", "2"], os.devnull, 0),
        ("a file that isn't handled", ["text"], os.devnull, 1),
        ("no words", [], os.devnull, 2),
        ("a file that isn't there", ["three"], os.devnull, 3),
        ("OUT in no folder", ["-o", "none/out", "one"], os.devnull, 4),
        ("a console that is full", ["--demo", "2"], "/dev/full", 6),
    )
    for what, words, console, expected in runs:
        with open(console, "wb") as out:
            yield what, expected, subprocess.run([program, *words], cwd=folder, stdout=out, check=False).returncode
    os.remove(os.path.join(folder, "text"))


def modes(program, folder):
    """For each file that is written what it is, the mode that it has to have, and its mode."""
    def mode_of(name):
        return os.stat(os.path.join(folder, name)).st_mode & 0o777

    put(os.path.join(folder, "any"), b"")
    for name in ("one", "two"):
        os.chmod(os.path.join(folder, name), 0o751)
    for words in (["-o", "new", "one"], ["-m", "common", "one", "two"]):
        subprocess.run([program, "-q", *words], cwd=folder, check=True)
    return (
        ("a new OUT", 0o751, mode_of("new")),
        ("a new COMMON", mode_of("any"), mode_of("common")),
        ("a FILE with COMMON", 0o751, mode_of("one")),
    )


def main():
    parser = argparse.ArgumentParser(description=__doc__, formatter_class=argparse.RawDescriptionHelpFormatter)
    parser.add_argument("--program", default=os.path.join(os.path.dirname(__file__), "../crates/dwz/out/dwz"))
    parser.add_argument("--times", type=int, default=500)
    options = parser.parse_args()
    program = os.path.abspath(options.program)
    with tempfile.TemporaryDirectory() as folder:
        put(os.path.join(folder, "one"), many_shapes(200, False))
        put(os.path.join(folder, "two"), many_shapes(30000, False))
        expected = {name: written(program, folder, name) for name in ("one", "two")}
        seen, wrong = at_once(program, folder, expected, options.times)
        print("two runs at once: %s" % ", ".join("statuses %d and %d: %d times" % (*statuses, count) for statuses, count in sorted(seen.items())))
        for what, place_it in (("a file", os.link), ("a link", os.symlink)):
            is_well = in_the_way(program, folder, place_it)
            print("%s at the name of the temporary file: %s" % (what, "untouched, status 4" if is_well else "WRONG"))
            wrong += not is_well
        for what, is_well in (*untouched(program, folder), ("a name of 255 bytes", long_names(program, folder))):
            print("%s: %s" % (what, "well" if is_well else "WRONG"))
            wrong += not is_well
        for what, expected, status in statuses(program, folder):
            print("%s: status %d%s" % (what, status, "" if status == expected else ", WRONG"))
            wrong += status != expected
        for what, expected, mode in modes(program, folder):
            print("%s: mode %o%s" % (what, mode, "" if mode == expected else ", WRONG"))
            wrong += mode != expected
    print("wrong %d" % wrong)
    return 1 if wrong else 0


if __name__ == "__main__":
    sys.exit(main())
