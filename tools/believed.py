#!/usr/bin/env python3
"""Says which definitions a reader of the proved program has to believe: those that the contract of `run` and its laws rest on, and the laws
on files that are read beside a common one.

    tools/believed.py               fails, with a line for each file of definitions that says otherwise than it is
    tools/believed.py --list        the believed files in reading order, each with the first sentence of its first comment
    tools/believed.py --homonyms    the names that have two meanings among believed definitions

It follows imports from the contracts of the roots below to each definition that these rest on. In the crates `dwz_def_*`, and in those
of BELIEVED, each file of `specs/` is believed but for those whose first line begins `-- Inner:`. In all other crates none is.
"""

import os
import re
import sys
from collections import defaultdict

TOP = os.path.normpath(os.path.join(os.path.dirname(os.path.abspath(__file__)), ".."))
# Crate, file, and the functions whose contracts are read.
ROOTS = [
    ("dwz_run", "src/running.rt", ["run"]),
    ("dwz_run", "src/laws.rt", ["done_laws", "cause_laws", "answer_laws", "second_call_laws", "stop_laws", "demo_laws"]),
    ("dwz_def_output", "src/written.rt", ["written_laws"]),
    ("dwz_def_run", "src/outcome.rt", ["out_laws"]),
    ("dwz_def_reading", "src/finished.rt", ["finished_laws", "beside_laws"]),
    ("dwz_def_reading", "src/places.rt", ["place_laws", "bound_laws"]),
    ("dwz_def_cross", "src/laws.rt", ["cross_laws"]),
    ("dwz_def_limits", "src/laws.rt", ["limit_laws"]),
    ("dwz_def_check", "src/laws.rt", ["answer_laws"]),
    ("dwz_def_expand", "src/laws.rt", ["expand_laws", "refusal_laws"]),
    ("dwz_def_taken", "src/taken.rt", ["taken_laws", "over_laws"]),
    ("dwz_def_over", "src/over.rt", ["read_laws", "refused_laws", "over_laws"]),
    ("dwz_def_run", "src/reuses.rt", ["reuses_laws"]),
    ("dwz_def_run", "src/batches.rt", ["alone_laws", "batches_laws", "yields_laws"]),
]
BELIEVED = ["model", "bytes", "codes", "outside", "words", "text", "report", "gen", "run_course", "run"]
MARK = "-- Inner:"
# A word is a run of what may stand in a name; a word between « and » is the same word.
SIGNATURE = re.compile(r"^(?:(?:pattern|unfoldable|abbrev|axiom|opaque|pub)\s+)*(record|data)?\s*(«?)([^\s(){}.;,@\"«»:]+)»?\s*(.*)$", re.S)
MARKS = {"pattern", "unfoldable", "abbrev", "axiom", "opaque", "pub"}
OTHER_HEADS = {"use", "mod", "infix", "infixl", "infixr", "open", "package", "module", "unfold", "syntax", "ruleset"}


def is_believed_crate(crate):
    return crate.startswith("dwz_def_") or crate.removeprefix("dwz_") in BELIEVED


def read(path):
    with open(os.path.join(TOP, path), encoding="utf-8") as file:
        return file.read()


def blank(match):
    """The same number of characters and lines, without what stands there."""
    return re.sub(r"[^\n]", " ", match[0])


def without_comments(text):
    """An .antt text in which comments are blank; places stay."""
    return re.sub(r"\"(?:\\.|[^\"\\\n])*\"|\{-.*?-\}|(?<![^\s(){};,])--[^\n]*", lambda m: m[0] if m[0][0] == '"' else blank(m), text, flags=re.S)


def without_rust_comments(text):
    return re.sub(r"\"(?:\\.|[^\"\\])*\"|//[^\n]*", blank, text)


def names_in(braces):
    """The items of a list of imports: (name, name here)."""
    found = []
    for item in braces.split(","):
        words = item.replace("«", "").replace("»", "").split()
        if words:
            found.append((words[0], words[2] if len(words) == 3 and words[1] == "as" else words[0]))
    return found


class Definition:
    """One definition: of an .antt file, or a type or trait of an .rt file."""

    def __init__(self, crate, file, name, line, text):
        self.crate, self.file, self.name, self.line, self.text = crate, file, name, line, text
        self.cases = []  # (name, line) of the cases of a `data` or an enum
        self.fields = set()

    def where(self):
        return f"crates/{self.crate}/{self.file}:{self.line}"


class Source:
    """A file: its imports by their names here, the modules that it names, what it hands on, and its definitions."""

    def __init__(self, crate, file):
        self.crate, self.file = crate, file
        self.text = read(f"crates/{crate}/{file}")
        self.rust = file.endswith(".rt")
        self.code = without_rust_comments(self.text) if self.rust else without_comments(self.text)
        self.names, self.modules, self.handed = {}, {}, {}
        self.definitions, self.cases = {}, {}
        for m in re.finditer(r"^[ ]*(?:unfoldable )?(pub )?(?:ghost )?use\s+(Rattle(?:\.[^\s.{};]+)+)(?:\.\{([^}]*)\}|[ ]+as[ ]+([^\s;]+))?", self.code, re.M):
            public, path, braces, alias = m[1], m[2].split("."), m[3], m[4]
            if braces is None:
                self.modules[alias or path[-1]] = path
                if public:
                    self.handed[alias or path[-1]] = (path, None)
                continue
            for name, here in names_in(braces):
                self.names[here] = (path, name)
                if public:
                    self.handed[here] = (path, name)
        if self.rust:
            self.read_rust()
        else:
            self.read_antt()
        # The parts of operators, as `or` of `◌or◌`.
        self.parts = {part: name for name in [*self.names, *self.definitions] for part in name.split("◌") if "◌" in name and part}

    def line_of(self, at):
        return self.text.count("\n", 0, at) + 1

    def add(self, definition):
        self.definitions.setdefault(definition.name, definition)
        for case, _ in definition.cases:
            self.cases.setdefault(case, definition)

    def read_antt(self):
        """Each line that isn't indented and closes nothing begins a signature, a clause of the last one, or something else."""
        starts = [m.start() for m in re.finditer(r"^(?=[^\s)}\]])", self.code, re.M)]
        if re.search(r"^mutual\b", self.code, re.M):
            starts = sorted(set(starts) | {m.start() + 2 for m in re.finditer(r"^  (?=[^\s)}\]])", self.code, re.M) if "mutual" in self.code[:m.start()]})
        last = None
        for begin, end in zip(starts, starts[1:] + [len(self.code)]):
            piece = self.code[begin:end]
            words = piece.split(None, 3)
            heads = [w for w in words if w not in MARKS]
            if not heads or heads[0] in OTHER_HEADS or heads[0] == "mutual":
                continue
            m = SIGNATURE.match(piece)
            marked = words[0] in MARKS
            if m and (m[1] or marked) or re.match(r"«?[^\s(){}.;,@\"«»]+»?(?:\s*\{[^}]*\})?\s*:\s", piece):
                last = Definition(self.crate, self.file, m[3] if m else "", self.line_of(begin), piece)
                if m and m[1]:
                    body = re.search(r"\bwhere\b", piece)
                    for case in re.finditer(r"^\s+(?:pub\s+)?«?([^\s(){}.;,@\"«»]+)»?\s+:", piece[body.end():] if body else "", re.M):
                        if m[1] == "data":
                            last.cases.append((case[1], self.line_of(begin + body.end() + case.start(1))))
                        else:
                            last.fields.add(case[1])
                self.add(last)
            elif last:
                last.text += piece

    def read_rust(self):
        """Types and traits, each with what it is seen as (`impl Model`), and functions up to their bodies."""
        imports = r"^(?:pub(?:\(crate\))? )?use ([^;]*);"
        for m in re.finditer(imports, self.code, re.M):
            path = re.sub(r"\s+", "", m[1].replace(" as ", "@"))
            head, brace, rest = path.partition("{")
            for item in rest.rstrip("}").split(",") if brace else [path.split("::")[-1]]:
                if item:
                    name, _, here = item.partition("@")
                    self.handed[here or name] = ((head if brace else path.rpartition("::")[0]).rstrip(":").split("::"), name)
        for m in re.finditer(r"^(?:pub(?:\(\w+\))? )?(struct|enum|trait|const) (\w+)", self.code, re.M):
            item = Definition(self.crate, self.file, m[2], self.line_of(m.start()), self.block(m.start()))
            if m[1] == "enum":
                inner = item.text.partition("{")[2]
                for case in re.finditer(r"^\s{4}(\w+)", inner, re.M):
                    item.cases.append((case[1], self.line_of(m.start() + len(item.text) - len(inner) + case.start(1))))
            self.add(item)
        for m in re.finditer(r"^impl\b[^{;]*?\bModel for (\w+)", self.code, re.M):
            if m[1] in self.definitions:
                self.definitions[m[1]].text += "\n" + self.block(m.start())
        for m in re.finditer(r"^(?:pub(?:\(\w+\))? )?fn (\w+)", self.code, re.M):
            end = re.compile(r"^\{", re.M).search(self.code, m.start())
            self.add(Definition(self.crate, self.file, "fn " + m[1], self.line_of(m.start()), self.code[m.start():end.start() if end else len(self.code)]))

    def block(self, at):
        """From a place to the end of the item that begins there."""
        depth = 0
        for m in re.compile(r"[{}();]").finditer(self.code, at):
            depth += {"{": 1, "(": 1, "}": -1, ")": -1}.get(m[0], 0)
            if depth == 0 and m[0] in "};":
                return self.code[at:m.end()]
        return self.code[at:]


class House:
    def __init__(self):
        self.sources, self.missing = {}, set()
        self.crates = [line.split(":")[0].split()[0] for line in read("crates.txt").splitlines() if line.strip() and not line.startswith("#")]

    def source(self, crate, file):
        if (crate, file) not in self.sources:
            there = os.path.exists(os.path.join(TOP, "crates", crate, file))
            self.sources[crate, file] = Source(crate, file) if there else None
        return self.sources[crate, file]

    def spec_files(self, crate):
        """The files of `specs/`, in the order of its root."""
        root = self.source(crate, "specs/Lib.antt")
        return [f"specs/{name}.antt" for name in re.findall(r"^(?:pub )?mod (\w+)", root.code, re.M)] if root else []

    def find(self, path, name, seen=()):
        """The definition with a name in a module, wherever it is handed on from, or None."""
        if path[0] != "Rattle" or path[1] not in self.crates or len(path) < 4 or path[2] != "specs":
            return None
        crate, rest = path[1], path[3:]
        if rest[0] == "declared":
            return self.find_item(crate, rest[1:], name)
        source = self.source(crate, f"specs/{rest[0]}.antt")
        if source:
            found = source.definitions.get(name) or source.cases.get(name)
            if not found and name in source.handed and (crate, rest[0], name) not in seen:
                found = self.find(*source.handed[name], seen=(*seen, (crate, rest[0], name)))
            if not found:
                self.missing.add(f"{'.'.join(path)}: {name}")
            return found
        root = self.source(crate, "specs/Lib.antt")
        if root and rest[0] in root.handed:
            return self.find(root.handed[rest[0]][0] + rest[1:], name, seen)
        self.missing.add(".".join(path))
        return None

    def find_item(self, crate, path, name):
        """A type or trait of code by its modules."""
        path = [p for p in path if p != "TheVariants"]
        item = path[-1]
        for file in ["src/" + "/".join(path[:n]) + ".rt" for n in range(len(path) - 1, 0, -1)] + ["src/lib.rt"]:
            source = self.source(crate, file)
            if source and item in source.definitions:
                return source.definitions[item]
        return self.exported(crate, item)

    def exported(self, crate, name, seen=()):
        """What the root of a crate hands on under a name."""
        source = self.source(crate, "src/lib.rt")
        if not source or (crate, name) in seen:
            return None
        if name in source.definitions:
            return source.definitions[name]
        return self.imported(source, name, (*seen, (crate, name)))

    def imported(self, source, name, seen=()):
        if name not in source.handed:
            return None
        path, real = source.handed[name]
        if path[0] in self.crates and path[0] != source.crate:
            return self.exported(path[0], real, seen)
        path = [p for p in path if p not in ("crate", "self", "super")]
        there = self.source(source.crate, "src/" + "/".join(path) + ".rt") if path else None
        if there:
            return there.definitions.get(real) or self.imported(there, real, (*seen, (source.file, name)))
        return self.exported(source.crate, real, seen)

    def meaning(self, source, word):
        """What a word of a file stands for, or None where it is a word of the file's own, or of the library."""
        if word in source.definitions:
            return source.definitions[word]
        if word in source.cases and not source.rust:
            return source.cases[word]
        if word in source.names:
            return self.find(*source.names[word])
        if word in source.parts:
            return self.meaning(source, source.parts[word])
        return self.imported(source, word) if source.rust else None

    def rests_on(self, definition):
        """The definitions that the text of one names."""
        source = self.source(definition.crate, definition.file)
        found = {}
        text = definition.text
        for m in re.finditer(r"(?<![\w.])([^\s(){}.;,@\"«»]+)\.([^\s(){}.;,@\"«»]+)", text):
            if m[1] in source.modules:
                other = self.find(source.modules[m[1]], m[2])
                if other:
                    found[id(other)] = other
        words = re.findall(r"(?<![^\s(){};,@\"«»])[^\s(){}.;,@\"«»]+", text) + (re.findall(r"(?<![\w.])\w+", text) if source.rust else [])
        for word in words:
            if word == definition.name or word in definition.fields:
                continue
            other = self.meaning(source, word)
            if other and other is not definition:
                found[id(other)] = other
        return list(found.values())

    def roots(self):
        for crate, file, functions in ROOTS:
            source = self.source(crate, file)
            for function in functions:
                yield source.definitions["fn " + function]

    def believed(self):
        """All definitions that the roots rest on. Of the types that a contract is generic in, those whose members its clauses name."""
        reached, waiting = {}, []
        for root in self.roots():
            clauses = root.text[root.text.find("ensures"):]
            named = set(re.findall(r"\((\w+)\.\w", clauses))
            bounds = "\n".join(m[0] for m in re.finditer(r"\b(\w+): [\w +]+", root.text[:root.text.find("(")]) if m[1] in named)
            waiting += self.rests_on(Definition(root.crate, root.file, root.name, root.line, bounds + "\n" + clauses))
        while waiting:
            one = waiting.pop()
            if id(one) not in reached:
                reached[id(one)] = one
                waiting += self.rests_on(one)
        return list(reached.values())


def first_comment(text):
    """The first sentence of the comment that a file begins with."""
    lines = []
    for line in text.split("\n"):
        if not line.startswith("--"):
            break
        lines.append(line[2:].strip())
    return re.split(r"(?<=\.) ", " ".join(lines))[0]


def reading_order(house, files):
    """What a file rests on comes before it; else the order of crates.txt and of the roots of `specs/`."""
    order, seen = [], set()

    def put(crate, file):
        if (crate, file) in seen:
            return
        seen.add((crate, file))
        source = house.source(crate, file)
        for name in source.names:
            other = house.find(*source.names[name])
            if other and not other.file.endswith(".rt"):
                put(other.crate, other.file)
        if (crate, file) in files:
            order.append((crate, file))

    for crate in house.crates:
        for file in house.spec_files(crate):
            if (crate, file) in files:
                put(crate, file)
    return order


def homonyms(house, files, reached):
    """Names with two meanings: of definitions in believed files, and of types of code that they rest on."""
    places = defaultdict(list)
    items = [d for key in files for d in house.source(*key).definitions.values()] + [d for d in reached if d.file.endswith(".rt")]
    for one in items:
        places[one.name].append(one)
    return {name: found for name, found in sorted(places.items()) if len(found) > 1}


def main():
    words = sys.argv[1:]
    if set(words) - {"--list", "--homonyms"}:
        sys.exit(__doc__)
    house = House()
    reached = house.believed()
    files = {(d.crate, d.file) for d in reached if d.file.startswith("specs/")}
    if "--list" in words:
        for crate, file in reading_order(house, files):
            print(f"{crate}/{file}: {first_comment(house.source(crate, file).text)}")
    if "--homonyms" in words:
        found = homonyms(house, files, reached)
        for name, ones in found.items():
            print(f"{name}: {', '.join(one.where() for one in ones)}")
        print(f"{len(found)} names have two meanings")
        if found:
            sys.exit(1)
    if words:
        return
    wrong = []
    for crate in house.crates:
        for file in house.spec_files(crate):
            inner = house.source(crate, file).text.startswith(MARK)
            is_in = (crate, file) in files
            where = f"crates/{crate}/{file}"
            if is_in and not is_believed_crate(crate):
                names = sorted(d.name for d in reached if (d.crate, d.file) == (crate, file))
                wrong.append(f"{where}: believed, in a crate whose definitions are inner ({', '.join(names)})")
            elif is_in and inner:
                wrong.append(f"{where}: believed, and marked as inner")
            elif not is_in and is_believed_crate(crate) and not inner and house.source(crate, file).definitions:
                wrong.append(f"{where}: nothing that is believed rests on it, and it isn't marked")
    wrong += [f"{name}: not found" for name in sorted(house.missing)]
    for line in wrong:
        print(line)
    print(f"{len(reached)} definitions in {len(files)} files are believed; {len(wrong)} lines are wrong")
    sys.exit(1 if wrong else 0)


if __name__ == "__main__":
    main()
