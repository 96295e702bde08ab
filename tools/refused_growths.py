#!/usr/bin/env python3
"""Refuses memory to runs, one growth after the other.

    tools/refused_growths.py [--program PROGRAM] [--workers N ...]

Small files are made (by gcc), and each kind of run goes over them: each FILE by itself, with `-o`, with `-m`, a demonstration, the answers of `--explain` and
`--check`, a file that is expanded, FILEs over a finished common file, together and each as if it were alone, a FILE that is refused, and words that are wrong. Of each run the first growth is refused (malloc, calloc or realloc answers null), then the second, and so on
up to the last; and each time also all that come behind it. Whatever is refused, the run ends with status 5, all files are as they were, and nothing else is there; or it ends as it does where
nothing is refused, with the same files and the same text. The last line is `wrong N`, and the status is 1 where N isn't 0. It belongs to no gate.
"""

import argparse
import os
import shutil
import subprocess
import sys
import tempfile

# Counts the growths of the program, and refuses the one with that number, or those from there on. It notes that it did on a file descriptor.
REFUSING = r"""
#define _GNU_SOURCE
#include <errno.h>
#include <stddef.h>
#include <stdlib.h>
#include <unistd.h>
extern void *__libc_malloc(size_t), *__libc_calloc(size_t, size_t), *__libc_realloc(void *, size_t);
static long first, last, count;
static int ready;
__attribute__((constructor)) static void begin(void) {
    first = atol(getenv("REFUSE_FIRST"));
    last = atol(getenv("REFUSE_LAST"));
    ready = 1;
}
static int refused(void) {
    if (!ready) return 0;
    long number = __atomic_add_fetch(&count, 1, __ATOMIC_SEQ_CST);
    if (number < first || number > last) return 0;
    if (number == first && write(9, "r", 1) != 1) _exit(99);
    errno = ENOMEM;
    return 1;
}
void *malloc(size_t n) { return refused() ? NULL : __libc_malloc(n); }
void *calloc(size_t n, size_t m) { return refused() ? NULL : __libc_calloc(n, m); }
void *realloc(void *p, size_t n) { return refused() ? NULL : __libc_realloc(p, n); }
"""

HEADER = """
struct item { int key; long value; struct item *next; };
struct list { struct item *first; int count; enum { EMPTY, FULL } state; };
typedef int (*less)(const struct item *, const struct item *);
"""

UNITS = {
    "one": ["struct list a; less f; int main(void) { return a.count; }", "struct list b; less g; int more(int n) { int twice = n * 2; return twice + b.count; }"],
    "two": ["struct list c; less h; int main(void) { return c.count + 1; }", "struct item i; int k(struct item *p) { return p->key; }"],
}


def made(folder):
    """Two programs of two units each, of which one entry of each stands twice, and a file without debug information."""
    with open(os.path.join(folder, "list.h"), "w", encoding="utf-8") as file:
        file.write(HEADER)
    for name, units in UNITS.items():
        sources = []
        for number, text in enumerate(units):
            sources.append("%s%d.c" % (name, number))
            with open(os.path.join(folder, sources[-1]), "w", encoding="utf-8") as file:
                file.write('#include "list.h"\n' + text + "\n")
        subprocess.run(["gcc", "-g", "-gdwarf-5", "-O1", "-o", name, *sources], cwd=folder, check=True)
        for source in sources:
            os.remove(os.path.join(folder, source))
    os.remove(os.path.join(folder, "list.h"))
    subprocess.run(["strip", "-o", "bare", "one"], cwd=folder, check=True)


def content_of(folder):
    """All files of a folder."""
    files = {}
    for name in sorted(os.listdir(folder)):
        with open(os.path.join(folder, name), "rb") as file:
            files[name] = file.read()
    return files


def lay(folder, files):
    """Makes the folder hold just these files."""
    shutil.rmtree(folder, ignore_errors=True)
    os.mkdir(folder)
    for name, content in files.items():
        with open(os.path.join(folder, name), "wb") as file:
            file.write(content)


def ended(program, refusing, folder, words, first, last):
    """The status and the text of a run, and whether a growth was refused."""
    mark, end = os.pipe()
    environment = {"LD_PRELOAD": refusing, "REFUSE_FIRST": str(first), "REFUSE_LAST": str(last), "PATH": os.environ["PATH"]}
    os.dup2(end, 9)
    run = subprocess.run([program, *words], cwd=folder, env=environment, pass_fds=(9,), stdout=subprocess.PIPE, stderr=subprocess.STDOUT, timeout=60, check=False)
    os.close(9)
    os.close(end)
    was_refused = os.read(mark, 1) == b"r"
    os.close(mark)
    return run.returncode, run.stdout, was_refused


def offset_of(folder, name, entry):
    """Where an entry with a name stands, as `--explain` takes it."""
    listing = subprocess.run(["readelf", "--debug-dump=info", name], cwd=folder, stdout=subprocess.PIPE, check=True).stdout.decode()
    place = None
    for line in listing.splitlines():
        if "Abbrev Number" in line:
            place = line.split("<")[2].split(">")[0]
        if "DW_AT_name" in line and line.rsplit(": ", 1)[-1].strip() == entry:
            return "0x" + place
    return sys.exit("%s has no %s" % (name, entry))


def runs_of(folder, workers):
    """Each kind of run: its words."""
    item, other = offset_of(folder, "one", "list"), offset_of(folder, "two", "item")
    for count in workers:
        many = ["-j", str(count)]
        yield "each by itself", [*many, "one", "two"]
        yield "-o", [*many, "-o", "out", "one"]
        yield "-m", [*many, "-m", "common", "one", "two"]
        yield "--demo", [*many, "--demo", "2"]
        yield "--explain", [*many, "--explain", "one", item, "two", other]
        yield "--check, the same", [*many, "--check", "old", "new", "--sup", "sup"]
        yield "--check, others", [*many, "--check", "old", "two"]
        yield "--expand", [*many, "--expand", "new", "--sup", "sup", "-o", "out"]
        yield "--reuse", [*many, "--reuse", "sup", "one", "two"]
        yield "--batch", [*many, "--batch", "sup", "one", "bare", "two"]
    yield "a FILE that is refused", ["one", "bare"]
    yield "words that are wrong", ["-m", "one"]


def wrong_of(program, refusing, folder, files, words):
    """How many growths a run has, and what is wrong where they are refused."""
    lay(folder, files)
    whole = ended(program, refusing, folder, words, 0, -1)[:2] + (content_of(folder),)
    wrong, number = [], 1
    while True:
        for last in (number, sys.maxsize):
            lay(folder, files)
            status, text, was_refused = ended(program, refusing, folder, words, number, last)
            after = content_of(folder)
            if not was_refused and (status, text, after) == whole:
                return number - 1, wrong
            if (status, text, after) != whole and (status != 5 or after != files):
                wrong.append("growth %d%s: status %d, %r, %s" % (number, "" if last == number else " and all behind it", status, text[-80:], sorted(after)))
        number += 1


def main():
    parser = argparse.ArgumentParser(description=__doc__, formatter_class=argparse.RawDescriptionHelpFormatter)
    parser.add_argument("--program", default="crates/dwz/out/dwz")
    parser.add_argument("--workers", type=int, nargs="+", default=[1, 3])
    given = parser.parse_args()
    program, wrong = os.path.abspath(given.program), 0
    with tempfile.TemporaryDirectory() as top:
        refusing, folder = os.path.join(top, "refusing.so"), os.path.join(top, "files")
        with open(os.path.join(top, "refusing.c"), "w", encoding="utf-8") as file:
            file.write(REFUSING)
        subprocess.run(["gcc", "-O1", "-shared", "-fPIC", "-o", refusing, os.path.join(top, "refusing.c")], check=True)
        os.mkdir(folder)
        made(folder)
        files = content_of(folder)
        subprocess.run([program, "-q", "-m", "common", "one", "two"], cwd=folder, check=True)
        slimmed = content_of(folder)
        files.update({"old": files["one"], "new": slimmed["one"], "sup": slimmed["common"]})
        lay(folder, files)
        for kind, words in runs_of(folder, given.workers):
            growths, what = wrong_of(program, refusing, folder, files, words)
            print("%s (%s): %d growths, wrong %d" % (kind, " ".join(words), growths, len(what)), flush=True)
            for line in what[:5]:
                print("  " + line)
            wrong += len(what)
    print("wrong %d" % wrong)
    sys.exit(wrong != 0)


if __name__ == "__main__":
    main()
