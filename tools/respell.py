#!/usr/bin/env python3
"""Brings the repository's own definitions and lemmas to today's spelling: words in snake case.

usage: python3 tools/respell.py        at the top of the repository, once, after the toolchain's port.py

A name that specs/ or proofs/ define, or that they bind as a field or a constructor, is turned where it begins with a small letter:
keptRank to kept_rank, sum-more to sum_more. Types, facts and what begins with a capital stay; so do functions of src/, exported names,
strings, and what Rattle itself makes. Where a lemma would get the name of a definition it gets `_lem` (LEMMAS). It turns .antt files,
the clauses of .rt files, must-fail edits, and what README.md and docs/ set in backticks.
"""

import collections
import glob
import re

# A lemma that would have a definition's name, and is not found to by its dashes.
LEMMAS = {
    "absolute-cut", "at-bond", "boundary-edges", "fresh-edges", "mode-edges", "replaced-edges", "columns-finite", "cut-from", "digits_of",
    "evolve-over", "step-over", "first-from", "further-bond", "left-rows", "right-rows", "shape-in", "start-ok", "sum_rows", "units-at",
    "units_of", "view-of", "is-nan", "of-bits", "in-float", "core_at",
}
# Names that the rule alone would spell otherwise.
ODD = {"leavesNothing": "LeavesNothing", "getD-tab": "get_or_tab", "getD-grid": "get_or_grid", "getD-slot": "get_or_slot", "getD-joined": "get_or_joined"}
# A name in one file that would fall together with a definition's: (file, name, what it becomes first).
FIRST = [
    ("crates/cuts/proofs/Stands.antt", "left-of", "answer-left"), ("crates/cuts/proofs/Stands.antt", "right_of", "answer-right"),
    ("crates/one_end/proofs/Calls.antt", "step_call", "step-call"), ("crates/one_end/proofs/Faces.antt", "step_call", "step-call"),
    ("crates/view/proofs/entry_of/Proof.antt", " as view_of", " as view_of-call"), ("crates/view/proofs/entry_of/Proof.antt", "𝓛 view_of.", "𝓛 view_of-call."),
    ("crates/view/proofs/entry_of/Proof.antt", "(view_of.", "(view_of-call."),
]
DEFINES = re.compile(r"^ *(?:(?:abbrev|unfoldable|pub)\s+)*([^\s:(){},;.]+) : ")
KIND = re.compile(r"^(?:pub )?(record|data) ([^\s:(){},;.]+)")
WORD = re.compile(r"[^\s(){}.,;@\"«»`\[\]\\:]+")
USE = re.compile(r"^(?:pub )?(?:open )?use ([^\s{;]+)\.\{([^}]*)\}", re.M)
LAMBDA = re.compile(r"^ *(?:λ|let |in |→|\()")


def function_file(path):
    return path.endswith(("/Proof.antt", "/Answers.antt", "/Invariants.antt"))


def own(path):
    return path.startswith("Rattle.") and not path.startswith(("Rattle.std", "Rattle.core", "Rattle.io", "Rattle.libc"))


def snake(name):
    if name in ODD:
        return ODD[name]
    turned = re.sub(r"(?<=[a-z0-9'])([A-Z])", lambda m: "_" + m.group(1).lower(), name.replace("-", "_"))
    return turned + "_lem" if name in LEMMAS else turned


def defined(files):
    names = set()
    for path in files:
        for line in open(path):
            if line.lstrip().startswith("--") or line.startswith(("use ", "open ", "pub use ")) or LAMBDA.match(line):
                continue
            m = DEFINES.match(line) or None
            if m and not (function_file(path) and "-" in m.group(1)):
                names.add(m.group(1))
    return names


def renames(files):
    table = {}
    names = defined(files) | LEMMAS | set(ODD)
    for name in sorted(names):
        if re.match(r"[a-z]", name) and snake(name) != name:
            table[name] = snake(name)
    definitions = {table[n] for n in table if re.search(r"[a-z'][A-Z]", n)}
    for name, to in table.items():
        if "-" in name and to in definitions:
            table[name] = to + "_lem"
    return table


def from_libraries(text):
    """Names that a file takes from a library: there they mean the library's."""
    names = set()
    for path, items in USE.findall(text):
        if not own(path):
            for item in items.split(","):
                names.add(item.split(" as ")[0].strip())
    return names


def turn(text, table, path):
    kept = from_libraries(text)
    of_a_function = function_file(path)

    def word(m):
        name = m.group(0)
        if name not in table or name in kept:
            return name
        before = text[m.start() - 1] if m.start() else ""
        if before == "." and "-" in name:
            head = re.search(r"([^\s(){},;@\"]+)\.$", text[max(0, m.start() - 200):m.start()])
            if of_a_function and not (head and re.match(r"[A-Z]", head.group(1))):
                return name
        return table[name]

    return WORD.sub(word, text)


def turn_source(text, table):
    """A source: its strings stay, and only names with a capital inside are antt's."""
    camel = {n: t for n, t in table.items() if "-" not in n and re.search(r"[a-z'][A-Z]", n)}
    parts = re.split(r"(b?\"(?:[^\"\\]|\\.)*\")", text)
    return "".join(p if i % 2 else WORD.sub(lambda m: camel.get(m.group(0), m.group(0)), p) for i, p in enumerate(parts))


def older(name, table, spelled):
    """What a page or an edit calls by its old name: in the table, or turned before by port.py."""
    if name in table:
        return table[name]
    return snake(name) if re.match(r"[a-z]+[A-Z]", name) and snake(name) in spelled else name


def turn_edit(text, table, spelled):
    """An edit: its names, and a projection written tight, as the files have it."""
    text = re.sub(r"\((\w+'?(?: \.\w+)+)\)", lambda m: m.group(1).replace(" .", "."), text)
    return WORD.sub(lambda m: m.group(0) if "-" in m.group(0) else older(m.group(0), table, spelled), text)


def turn_page(text, table, spelled):
    parts = re.split(r"(`[^`\n]+`)", text)
    return "".join(WORD.sub(lambda m: older(m.group(0), table, spelled), p) if i % 2 else p for i, p in enumerate(parts))


def write(path, text, old):
    if text != old:
        open(path, "w").write(text)


def main():
    files = sorted(glob.glob("crates/*/specs/**/*.antt", recursive=True) + glob.glob("crates/*/proofs/**/*.antt", recursive=True))
    for path, name, first in FIRST:
        text = open(path).read()
        open(path, "w").write(re.sub(r"(?<![\w-])%s(?![\w-])" % re.escape(name) if name[0].isalpha() and not name.endswith(".") else re.escape(name), first, text))
    table = renames(files)
    fallen = collections.defaultdict(list)
    for name, to in table.items():
        fallen[to].append(name)
    for to, names in sorted(fallen.items()):
        if len(names) > 1:
            print("falls together:", to, names)
    spelled = defined(files) | set(table.values())
    for path in files:
        old = open(path).read()
        write(path, turn(old, table, path), old)
    for path in glob.glob("crates/*/src/**/*.rt", recursive=True):
        old = open(path).read()
        write(path, turn_source(old, table), old)
    for path in glob.glob("crates/*/must-fail/*.edit"):
        old = open(path).read()
        write(path, turn_edit(old, table, spelled), old)
    for path in ["README.md"] + glob.glob("docs/*.md"):
        if not path.startswith("docs/PORT"):
            old = open(path).read()
            write(path, turn_page(old, table, spelled), old)
    print(len(table), "names")


main()
