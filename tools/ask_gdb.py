"""What gdb knows of a file: gdb runs this, with its own Python, for `debug_readers.py`. It writes JSON into the file SAID.

With ASKED=LIST in the environment it is the questions that can be asked of the file: of each type, function and variable that gdb lists,
and of each place in the code of functions where a line begins. With ASKED=FILE, where FILE holds such questions, it is the answers, and
what gdb lists after them. No answer is null. Where a name stands for several things, gdb takes the one that it meets first: such a name
isn't asked where only one is answered. A place in the code stands for one thing alone. gdb reads units as they are asked for, and tells of a
variable what a declaration says where it hasn't read the unit that has more: so it reads all of them first.
"""

import json
import os

import gdb

KINDS = ["types", "functions", "variables"]


def answer_of(question):
    try:
        return gdb.execute(question, to_string=True)
    except gdb.error:
        return None


def blocks_at(place):
    """The symbols of the blocks round a place, from the innermost to that of the function, with their lines and types."""
    said, block = [], gdb.block_for_pc(place)
    while block is not None and not block.is_global and not block.is_static:
        said.append("%s from %#x to %#x" % (block.function or "block", block.start, block.end))
        said += ["  %s, line %d: %s" % (one.print_name, one.line, one.type) for one in block]
        block = block.superblock
    return "\n".join(said)


def lines_of(name):
    """The lines at which a name is declared. (In which files gdb doesn't say of what stands in partial units.)"""
    found = set()
    for domain in (gdb.SYMBOL_VAR_DOMAIN, gdb.SYMBOL_STRUCT_DOMAIN):
        found |= {one.line for one in gdb.lookup_static_symbols(name, domain)}
    return " ".join(map(str, sorted(found)))


class Asked(gdb.Command):
    """A command of gdb that prints what a function here says of its word."""

    def __init__(self, name, says):
        super().__init__(name, gdb.COMMAND_USER)
        self.says = says

    def invoke(self, word, from_tty):
        print(self.says(word))


def fields_of(text):
    """The fields NAME="TEXT" of an answer for programs, in order."""
    at = 0
    while (at := text.find('="', at)) >= 0:
        begin, end, value = at, at + 2, []
        while text[begin - 1].isalnum() or text[begin - 1] == "_":
            begin -= 1
        while text[end] != '"':
            end += text[end] == "\\"
            value.append(text[end])
            end += 1
        yield text[begin:at], "".join(value)
        at = end + 1


def listed(kind):
    """The names that gdb lists of a kind, each with the lines that it lists."""
    found, line = {}, None
    for field, value in fields_of(answer_of('interpreter-exec mi "-symbol-info-%s"' % kind) or ""):
        if field == "line":
            line = value
        elif field == "name":
            found.setdefault(value, set()).add(line)
            line = None
    return found


def begins_of(name):
    """The places at which functions of a name begin."""
    try:
        return {at.pc for at in gdb.decode_line("'%s'" % name)[1] or ()}
    except gdb.error:
        return set()


def lines_round(code):
    """The places where lines begin, in the tables of lines that some places are in."""
    tables = [table for table in (gdb.find_pc_line(place).symtab for place in code) if table]
    return {row.pc for table in {one.fullname(): one for one in tables}.values() for row in table.linetable() if row.line}


def questions():
    types, functions, variables = map(listed, KINDS)
    asked, code = [], set()
    for name in types:
        asked += ["ptype /o %s%s" % (word, name) for word in ("", "struct ", "union ", "enum ")] + ["whatis %s" % name]
    for name in functions:
        asked += ["ptype '%s'" % name, "info line '%s'" % name]
        begins = begins_of(name)
        code |= begins
        if len(begins) == 1:
            asked += ["info scope '%s'" % name, "info address %s" % name]
    for name in variables:
        asked += ["whatis '%s'" % name, "ptype /o '%s'" % name, "info address %s" % name]
    for place in sorted(one for one in code | lines_round(code) if blocks_at(one)):
        asked += ["%s %#x" % (words, place) for words in ("info symbol", "info line *", "info scope *", "blocks-at")]
    asked += ["lines-of %s" % name for name, lines in types.items() if len(lines) == 1 and None not in lines]
    return asked


def answers(asked):
    told = [answer_of(question) for question in asked]
    return {"told": told, "lists": {kind: sorted(listed(kind)) for kind in KINDS}}


Asked("blocks-at", lambda word: blocks_at(int(word, 0)))
Asked("lines-of", lines_of)
gdb.execute("maintenance expand-symtabs", to_string=True)
with open(os.environ["SAID"], "w") as said:
    if os.environ["ASKED"] == "LIST":
        json.dump(questions(), said)
    else:
        with open(os.environ["ASKED"]) as file:
            json.dump(answers(json.load(file)), said)
