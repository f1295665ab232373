#!/usr/bin/env python3
"""Writes the parts of the documents that follow from the files: the tree and the tables of crates in
docs/ARCHITECTURE.md, and the index in docs/DEFINITIONS.md.

    tools/write_documents.py            writes them
    tools/write_documents.py --check    writes nothing; names the documents that aren't what it would write, and
                                        then ends with status 1

It reads crates.txt with the comments above its groups of lines, the first paragraph of `//!` of each crate, each
definition of crates/NAME/specs with the comment above it, and which files of crates/NAME/src name the definition.
"""
import re
import sys
from collections import defaultdict
from dataclasses import dataclass, field
from pathlib import Path

TOP = Path(__file__).resolve().parent.parent
DEFINITION = re.compile(r"( *)(?:abbrev pub|unfoldable pub|pub data|pub record) (\S+)|pub (\S+) :")
CITATION = re.compile(r"ghost use Rattle\.(\w+)\.specs\.(\w+)\.\{(.*)\};")
FILES_SHOWN = 3


@dataclass
class Section:
    """A group of lines of crates.txt, with the comment above it."""

    title: str
    crates: list = field(default_factory=list)


@dataclass
class Definition:
    """A definition of a file of specs, with the comment above it."""

    name: str
    meaning: str


def read(path):
    return path.read_text(encoding="utf-8")


# ---- what the files say


def read_crates():
    """The sections of crates.txt, and on which libraries each crate stands."""
    sections, below, comment = [], {}, []
    for line in read(TOP / "crates.txt").splitlines():
        if line.startswith("#"):
            comment.append(line.lstrip("# "))
        elif ":" in line:
            if comment or not sections:
                sections.append(Section(" ".join(comment)))
            comment = []
            name, libraries = line.split(":")
            sections[-1].crates.append(name.split()[0])
            below[name.split()[0]] = libraries.split()
        else:
            comment = []
    return sections, below


def is_tests(crate):
    """Whether a crate has nothing but tests of others."""
    return crate.endswith("_tests")


def head_of(crate):
    """The first paragraph of `//!` of a crate."""
    source = TOP / "crates" / crate / "src"
    root = source / "lib.rt"
    lines = []
    for line in read(root if root.exists() else source / "main.rt").splitlines():
        if not line.startswith("//! "):
            break
        lines.append(line[4:].strip())
    return re.sub(r"\[(`[^`]*`)\](\([^)]*\))?", r"\1", " ".join(lines))


def files_of_specs(crate):
    return [path for path in sorted((TOP / "crates" / crate / "specs").glob("*.antt")) if path.name != "Lib.antt"]


def comment_above(lines, number):
    """The comment that ends just above a line, apart from lines that belong to the definition or its module."""
    while number > 0 and re.match(r" *(infix|module )", lines[number - 1]):
        number -= 1
    comment = []
    while number > 0 and lines[number - 1].lstrip().startswith("-- "):
        number -= 1
        comment.insert(0, lines[number].lstrip()[3:].strip())
    return " ".join(comment)


def definitions_of(path):
    """What a file of specs is about, and its definitions."""
    lines = read(path).splitlines()
    first = next(n for n, line in enumerate(lines) if not line.startswith("--"))
    about = " ".join(line[3:].strip() for line in lines[:first])
    found = []
    for number, line in enumerate(lines):
        match = DEFINITION.match(line)
        if match:
            found.append(Definition(match[2] or match[3], comment_above(lines, number)))
    return about, found


def read_citations(crates):
    """Which files of code name a definition, by its crate, file and name."""
    citing = defaultdict(list)
    for crate in crates:
        source = TOP / "crates" / crate / "src"
        for path in sorted(source.rglob("*.rt")):
            parts = path.relative_to(source).with_suffix("").parts
            if "tests" in parts:
                continue
            module = "::".join([crate] + [part for part in parts if part not in ("lib", "main")])
            for owner, file, names in CITATION.findall(read(path)):
                for name in names.split(","):
                    key = owner, file, name.split(" as ")[0].strip()
                    if module not in citing[key]:
                        citing[key].append(module)
    return citing


# ---- the tree and the tables of crates


def nearest(crate, below):
    """The libraries that a crate stands on, without those that another of them stands on."""

    def reached(name):
        found = set()
        for library in below.get(name, []):
            found |= {library} | reached(library)
        return found

    libraries = below[crate]
    return [name for name in libraries if not any(name in reached(other) for other in libraries)]


def in_a_few_words(crate):
    """The front of a crate's head: up to its first colon or full stop."""
    head = re.sub(r" \([^)]*\)", "", head_of(crate))
    front = re.split(r"[:.](?: |$)", head)[0]
    return front[0].lower() + front[1:] if front[1:2].islower() or front[1:2] == " " else front


def crate_tree(sections, below):
    """Each crate below one that stands on it; in brackets those that it stands on and that the tree has above."""
    crates = [crate for section in sections for crate in section.crates if not is_tests(crate)]
    used = {library for crate in crates for library in below[crate]}
    tops = [crate for crate in reversed(crates) if crate not in used]
    rows, shown = [], set()

    def show(crate, mark, indent):
        libraries = [name for name in crates if name in nearest(crate, below)]
        above = [name for name in libraries if name in shown]
        shown.add(crate)
        rows.append((mark + crate, in_a_few_words(crate) + (" [%s]" % ", ".join(above) if above else "")))
        fresh = [name for name in libraries if name not in above]
        for name in fresh:
            last = name == fresh[-1]
            show(name, indent + ("└─ " if last else "├─ "), indent + ("   " if last else "│  "))

    for crate in tops:
        show(crate, "", "")
    width = max(len(name) for name, _ in rows) + 2
    return "\n".join("    " + name.ljust(width) + words for name, words in rows)


def cell(text):
    return text.replace("|", "\\|")


def crate_tables(sections, below):
    lines = []
    for section in sections:
        lines += ["### " + section.title, "", "| crate | stands on | what it is |", "|---|---|---|"]
        for crate in section.crates:
            named = below[crate] if is_tests(crate) else nearest(crate, below)
            libraries = ", ".join("`%s`" % name for name in named)
            lines.append("| [`%s`](../crates/%s) | %s | %s |" % (crate, crate, libraries, cell(head_of(crate))))
        lines.append("")
    return "\n".join(lines).rstrip()


# ---- the index of definitions


def shown_files(modules):
    names = ["`%s`" % module for module in modules[:FILES_SHOWN]]
    more = len(modules) - len(names)
    return ", ".join(names) + (" and %d more" % more if more else "")


def file_index(crate, path, citing):
    about, found = definitions_of(path)
    lines = ["#### [%s](../crates/%s/specs/%s): %s" % (path.stem, crate, path.name, about), ""]
    said = [definition for definition in found if definition.meaning]
    if said:
        lines += ["| definition | meaning | named in |", "|---|---|---|"]
    for definition in said:
        files = shown_files(citing[crate, path.stem, definition.name])
        lines.append("| `%s` | %s | %s |" % (cell(definition.name), cell(definition.meaning), files))
    unsaid = ["`%s`" % definition.name for definition in found if not definition.meaning]
    if unsaid:
        lines += [""] * bool(said) + ["Without a comment of their own: " + ", ".join(unsaid) + "."]
    return lines + [""] if found else []


def index(sections):
    crates = [crate for section in sections for crate in section.crates if not is_tests(crate)]
    citing = read_citations(crates)
    lines = [" · ".join("[`%s`](#%s)" % (crate, crate) for crate in crates if files_of_specs(crate)), ""]
    for crate in crates:
        files = files_of_specs(crate)
        lines += ["### `%s`" % crate, ""] if files else []
        for path in files:
            lines += file_index(crate, path, citing)
    return "\n".join(lines).rstrip()


# ---- the documents


def with_part(text, name, part):
    """A document with what stands between the marks of a part replaced."""
    begin, end = "<!-- begin %s: tools/write_documents.py writes it -->" % name, "<!-- end %s -->" % name
    if begin not in text or end not in text:
        sys.exit("no marks of the part: %s" % name)
    front, rest = text.split(begin)
    return front + begin + "\n\n" + part + "\n\n" + end + rest.split(end)[1]


def documents():
    """Each document that has parts to be written, as it should be."""
    sections, below = read_crates()
    architecture = TOP / "docs" / "ARCHITECTURE.md"
    definitions = TOP / "docs" / "DEFINITIONS.md"
    text = with_part(read(architecture), "tree of crates", crate_tree(sections, below))
    yield architecture, with_part(text, "tables of crates", crate_tables(sections, below))
    yield definitions, with_part(read(definitions), "index", index(sections))


def main():
    stale = [(path, text) for path, text in documents() if read(path) != text]
    if sys.argv[1:] == ["--check"]:
        for path, _ in stale:
            print("%s isn't what tools/write_documents.py writes" % path.relative_to(TOP), file=sys.stderr)
        sys.exit(1 if stale else 0)
    if sys.argv[1:]:
        sys.exit(__doc__)
    for path, text in stale:
        path.write_text(text, encoding="utf-8")


main()
