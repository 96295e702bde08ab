"""Small programs in C and C++ of several units, three of each language that share headers, and the sets of files that the compilers at
hand (gcc, clang) make of them: with -O0 to -O3, with link-time optimization, with type units, as shared objects, and as separate debug
files (`objcopy --only-keep-debug`). `compare_real.py` takes them."""

import os
import shutil
import subprocess

from compare_runs import COMMON, NAMES

HEADER_C = """
#ifndef SHAPES_H
#define SHAPES_H
#include <stddef.h>
typedef unsigned long number;
enum kind { POINT, LINE, RING = 40 };
struct point { int x, y; };
struct shape { enum kind kind; union { struct point at; double length; } u; struct shape *next; const char *name; };
struct list { struct shape *first; number count; int (*less)(const struct shape *, const struct shape *); char spare[16]; };
static inline number twice(number n) { return n * 2; }
number put(struct list *l, struct shape *s);
number measure(const struct list *l);
#endif
"""

UNITS_C = {
    "main.c": """
#include "shapes.h"
static int less(const struct shape *a, const struct shape *b) { return a->kind < b->kind; }
int main(int argc, char **argv) {
    struct shape ring = { RING, { .length = 2.5 }, NULL, "ring" };
    struct list l = { NULL, 0, less, "" };
    for (int i = 0; i < argc; i++) { number n = put(&l, &ring); if (n > twice(l.count)) return 1; }
    return (int) measure(&l) + (argv == NULL);
}
""",
    "list.c": """
#include "shapes.h"
number put(struct list *l, struct shape *s) {
    struct shape **at = &l->first;
    while (*at && *at != s && l->less(*at, s)) at = &(*at)->next;
    if (*at == s) return l->count;
    s->next = *at; *at = s;
    return ++l->count;
}
""",
    "sum.c": """
#include "shapes.h"
static double part(const struct shape *s) { switch (s->kind) { case POINT: return s->u.at.x; case LINE: return s->u.length; default: return 1; } }
number measure(const struct list *l) {
    double all = 0;
    for (const struct shape *s = l->first; s; s = s->next) all += part(s);
    return twice((number) all);
}
""",
}

HEADER_CC = """
#pragma once
#include <string>
#include <vector>
namespace shapes {
namespace detail { struct base { virtual ~base(); virtual double area() const = 0; int id = 0; }; }
enum class kind : unsigned char { ring, square };
template <class T> struct box { T inside; T *begin() { return &inside; } const T &get() const { return inside; } };
struct ring : detail::base { explicit ring(double r); double area() const override; double radius; static int made; };
struct square : detail::base { double area() const override; double side = 1; box<kind> k; };
double sum(const std::vector<detail::base *> &all);
std::string name(const ring &);
}
"""

UNITS_CC = {
    "main.cc": """
#include "shapes.h"
int main(int argc, char **) {
    shapes::ring r(argc); shapes::square s; s.k.inside = shapes::kind::square;
    std::vector<shapes::detail::base *> all { &r, &s };
    auto more = [&all](int n) { return shapes::sum(all) * n; };
    return int(more(argc)) + int(shapes::name(r).size());
}
""",
    "ring.cc": """
#include "shapes.h"
namespace shapes {
detail::base::~base() {}
int ring::made = 0;
ring::ring(double r) : radius(r) { id = ++made; }
double ring::area() const { return 3.14 * radius * radius; }
double square::area() const { return side * side; }
}
""",
    "sum.cc": """
#include "shapes.h"
namespace shapes {
double sum(const std::vector<detail::base *> &all) { double n = 0; for (auto *one : all) n += one->area(); return n; }
std::string name(const ring &r) { return "ring " + std::to_string(r.id); }
}
""",
}

# three programs of the same headers: which of the units above each has, and what it has beside them
PROGRAMS_C = [
    (["main.c", "list.c", "sum.c"], {}),
    (["list.c", "sum.c"], {"fill.c": """
#include "shapes.h"
static struct shape spare[4];
static int never(const struct shape *a, const struct shape *b) { return a->next == b; }
int main(void) {
    struct list l = { NULL, 0, never, "full" };
    for (int i = 0; i < 4; i++) { spare[i].kind = POINT; spare[i].u.at = (struct point) { i, -i }; put(&l, spare + i); }
    return (int) (measure(&l) - l.count);
}
"""}),
    (["list.c"], {"own.c": """
#include "shapes.h"
struct own { struct list inside; struct own *parent; unsigned char bits; };
static int by_name(const struct shape *a, const struct shape *b) { return a->name[0] < b->name[0]; }
int main(void) {
    struct own o = { { NULL, 0, by_name, "" }, &o, 3 };
    struct shape s = { LINE, { .length = 1 }, NULL, "line" };
    return (int) twice(put(&o.inside, &s)) - (o.parent == &o);
}
"""}),
]

PROGRAMS_CC = [
    (["main.cc", "ring.cc", "sum.cc"], {}),
    (["ring.cc"], {"count.cc": """
#include "shapes.h"
namespace shapes { static double twice(const detail::base &b) { return 2 * b.area(); } }
int main() { shapes::square s; shapes::box<int> n { 3 }; return int(shapes::twice(s)) + n.get(); }
"""}),
    (["ring.cc", "sum.cc"], {"names.cc": """
#include "shapes.h"
namespace shapes { struct named : ring { using ring::ring; std::string text; }; }
int main() { shapes::named n(2); n.text = shapes::name(n); return int(n.text.size()); }
"""}),
]

# name of a variant, and the options that it is built with
VARIANTS = [
    ("O0", ["-O0"]), ("O1", ["-O1"]), ("O2", ["-O2"]), ("O3", ["-O3"]), ("lto", ["-O2", "-flto"]),
    ("types", ["-O2", "-fdebug-types-section"]), ("shared", ["-O2", "-fPIC", "-shared"]), ("static-pie-less", ["-O2", "-no-pie"]),
]

COMPILERS = [("gcc", "c"), ("clang", "c"), ("g++", "cc"), ("clang++", "cc")]

SOURCES = {"c": (HEADER_C, UNITS_C, PROGRAMS_C), "cc": (HEADER_CC, UNITS_CC, PROGRAMS_CC)}


def quiet(words, folder=None):
    return subprocess.run(words, cwd=folder, stdout=subprocess.PIPE, stderr=subprocess.STDOUT, timeout=600)


def build(compiler, language, options, folder, number):
    """Builds a program of a language, in a folder; None where the compiler fails."""
    header, all_units, programs = SOURCES[language]
    names, own = programs[number]
    units = {**{name: all_units[name] for name in names}, **own}
    os.makedirs(folder, exist_ok=True)
    for name, text in [("shapes.h", header), *units.items()]:
        with open(os.path.join(folder, name), "w") as file:
            file.write(text)
    made = quiet([compiler, "-g", "-gdwarf-5", *options, "-o", "file", *units], folder)
    return None if made.returncode else os.path.join(folder, "file")


def read(path):
    with open(path, "rb") as file:
        return file.read()


def debug_of(path):
    """The separate debug file, or None."""
    debug = path + ".debug"
    return debug if quiet(["objcopy", "--only-keep-debug", path, debug]).returncode == 0 else None


def sets_of(folder, ways):
    """Each set of files that the compilers make: its name, the words of its run, and the files by their names."""
    several = {}
    for compiler, language in COMPILERS:
        if shutil.which(compiler) is None:
            print("no %s: nothing is built with it" % compiler)
            continue
        for variant, options in VARIANTS:
            name = "%s-%s" % (compiler, variant)
            count = len(SOURCES[language][2]) if "common" in ways else 1
            made = [build(compiler, language, options, os.path.join(folder, name, str(n)), n) for n in range(count)]
            if None in made:
                print("%s doesn't build" % name)
                continue
            debug = variant == "O2" and shutil.which("objcopy") is not None
            for kind, paths in (("", made), ("-debug", [debug_of(path) for path in made] if debug else [None])):
                if None in paths:
                    continue
                files = [read(path) for path in paths]
                if "alone" in ways:
                    yield name + kind, [b"-o", b"out", b"one"], {b"one": files[0]}
                if "common" in ways:
                    held = dict(zip(NAMES, files))
                    yield name + kind + "-common", [b"-m", COMMON, *held], held
            if variant == "O2" and "common" in ways:
                several.setdefault(language, []).append((made[0], made[-1]))
    for language, made in several.items():
        held = dict(zip(NAMES, (read(path) for pair in made for path in pair)))
        if len(made) > 1:
            yield "all-%s-common" % language, [b"-m", COMMON, *held], held
