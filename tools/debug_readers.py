"""Readers of debug data, and what of a file they no longer say of another that is to mean the same.

gdb is asked of each name that it lists, and of each line of code, in one run for each file (`ask_gdb.py`): what a type is, with sizes and
offsets, where functions and variables are, which variables are in scope where, of which types. Each answer has to be the same, word for
word, but for the offsets of entries, which gdb shows in some expressions, and for the order of lines about functions of one name. What gdb
lists has to be the same too, but for headings and numbers of lines: what stands in partial units has no file, and of equal names under
one heading gdb shows one.

readelf, eu-readelf and llvm-dwarfdump have to end with the same status, and no warning and no error may come that didn't come before,
or more often.

The files have one name, in several folders, since readers print it.
"""

import json
import os
import re
import shutil
import subprocess
import tempfile
from collections import Counter

SECONDS = 600

DUMPS = {
    "readelf": ["--debug-dump=info,abbrev,aranges,loc,Ranges,str-offsets,addr"],
    "eu-readelf": ["--debug-dump=info", "--debug-dump=abbrev", "--debug-dump=loc", "--debug-dump=aranges", "--debug-dump=ranges"],
    "llvm-dwarfdump": ["--debug-info", "--debug-abbrev", "--debug-loclists", "--debug-aranges", "--debug-rnglists", "--debug-str-offsets"],
}


class Crash(Exception):
    """A reader that was ended by a signal, or that didn't end."""


def said_by(words, path, **more):
    """The status of a reader, and its lines."""
    folder, name = os.path.split(path)
    try:
        done = subprocess.run(words + [name], cwd=folder, stdout=subprocess.PIPE, stderr=subprocess.STDOUT, timeout=SECONDS, **more)
    except subprocess.TimeoutExpired:
        raise Crash("doesn't end")
    if done.returncode < 0 or done.returncode > 128:
        raise Crash("crashes")
    return done.returncode, done.stdout.decode(errors="replace").splitlines()


class Dump:
    """A reader that prints all it reads."""

    def __init__(self, name):
        self.name = name

    def says(self, path, of):
        """Status and warnings, without numbers; what can't be decoded, and readelf's word of a wrong size, are followed by what stands behind them."""
        status, lines = said_by([self.name] + DUMPS[self.name], path)
        lines = [re.sub(r"(decoding error|address size \([0-9a-f]+\) is wrong).*", r"\1", line) for line in lines if self.warns(line)]
        return status, Counter(re.sub("0x[0-9a-f]+|[0-9]+", "N", line) for line in lines)

    def warns(self, line):
        return line.startswith(self.name + ":") or re.search("warning:|error:|<decoding error>", line, re.IGNORECASE)

    def lost(self, before, after):
        lost = ["status %d, not %d" % (after[0], before[0])] if before[0] != after[0] else []
        return lost + ["%d more: %s" % (count, line) for line, count in (after[1] - before[1]).items()]

    def about(self, before):
        return "%d warnings" % sum(before[1].values())


class Gdb:
    """gdb, asked of names and places. What it says of a file is an answer for each question, and its lists."""

    name = "gdb"

    def says(self, path, of):
        """What it says of a file, when it is asked all that can be asked of the file `of`."""
        with tempfile.TemporaryDirectory() as folder:
            asked = os.path.join(folder, "asked")
            with open(asked, "w") as file:
                json.dump(self.ask(of, "LIST", folder), file)
            said = self.ask(path, asked, folder)
            with open(asked) as file:
                return dict(zip(json.load(file), said["told"])), said["lists"]

    def ask(self, path, asked, folder):
        said, script = os.path.join(folder, "said"), os.path.join(os.path.dirname(os.path.abspath(__file__)), "ask_gdb.py")
        words = ["gdb", "-nx", "-batch", "-ex", "set width 0", "-ex", "set pagination off", "-x", script]
        lines = said_by(words, path, env={**os.environ, "ASKED": asked, "SAID": said})[1]
        try:
            with open(said) as file:
                return json.load(file)
        except (OSError, ValueError):
            raise Crash("doesn't answer: %s" % "; ".join(lines[-3:]))

    def lost(self, before, after):
        lost = []
        for kind, names in before[1].items():
            less, more = set(names) - set(after[1][kind]), set(after[1][kind]) - set(names)
            lost += ["%s aren't listed: %s" % (kind, ", ".join(sorted(less)))] if less else []
            lost += ["%s are listed that weren't: %s" % (kind, ", ".join(sorted(more)))] if more else []
        for question, answer in before[0].items():
            if answer is not None and self.words(question, answer) != self.words(question, after[0][question]):
                lost.append("%s: %r, not %r" % (question, after[0][question], answer))
        return lost

    def words(self, question, answer):
        answer = re.sub(r"\b(DIE|DW_OP_GNU_parameter_ref offset) [0-9a-f]+", r"\1", answer or "")
        return sorted(answer.splitlines()) if question.startswith("info line") else answer

    def about(self, before):
        answered = sum(answer is not None for answer in before[0].values())
        return "%d names, %d answers" % (sum(map(len, before[1].values())), answered)


def at_hand():
    """The readers that are at hand."""
    found = []
    for reader in [Gdb()] + [Dump(name) for name in DUMPS]:
        if shutil.which(reader.name) is None:
            print("no %s: it isn't asked" % reader.name)
        else:
            found.append(reader)
    return found
