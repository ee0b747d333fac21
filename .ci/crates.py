#!/usr/bin/env python3
"""Checks that what is said of the crates agrees, and fails with a message for each place where it does not.

The comment above a crate's line in crates.txt is the documentation that its root file begins with, the line names those
libraries alone that the crate uses, and each crate has a row in the tables of docs/ARCHITECTURE.md and docs/PROVED.md. The row
of the first says what the crate stands on: crates of its line, and among them each that no other one of the line stands on. Each
crate that is no crate of tests has a page, README.md in its folder, which begins with its name and the same line, says where its
tests are, and names files that are there.
"""

import pathlib
import re
import sys

TOP = pathlib.Path(__file__).resolve().parent.parent
# Crates of tests alone have no contracts, so the page on what is proved names them together.
OF_TESTS = re.compile(r"\w+_tests$")

# A file that a page names, in the crate or in the repository.
FILE = re.compile(r"`((?:specs|proofs|src|must-fail|crates|tests|docs)/[\w./-]*)`")


def crates():
    """Each crate of crates.txt, with the comment above its line, and the libraries that the line names."""
    comment = ""
    for line in (TOP / "crates.txt").read_text().splitlines():
        if line.startswith("# "):
            comment = line[2:]
        elif ":" in line:
            name, _, libraries = line.partition(":")
            yield name, comment, libraries.split()


def promise(crate):
    """The documentation that a crate's root file begins with, in one line."""
    source = next(path for path in (crate / "src/lib.rt", crate / "src/main.rt") if path.is_file())
    lines = re.match(r"(?://![^\n]*\n)*", source.read_text()).group(0).splitlines()
    return " ".join(line[3:].strip() for line in lines)


def uses(crate, library):
    """Whether a file of the crate names the library: its code in a path, or what is stated or proved in a module's name."""
    paths = [path for folder in ("src", "specs", "proofs") for path in (crate / folder).rglob("*") if path.is_file()]
    named = re.compile(rf"\b{library}::|\bRattle\.{library}\b")
    return any(named.search(path.read_text()) for path in paths)


def page_faults(name, crate):
    """What is wrong with the page of a crate."""
    page = crate / "README.md"
    if not page.is_file():
        yield "has no page"
        return
    text = page.read_text()
    title, first, *rest = text.split("\n\n")
    if title != f"# {name}" or " ".join(first.split()) != promise(crate):
        yield "has a page that does not begin with its name and what its documentation says"
    if "**Tests**" not in rest[-1]:
        yield "has a page that does not say where its tests are"
    for file in FILE.findall(text):
        if not (crate / file).exists() and not (TOP / file).exists():
            yield f"has a page that names {file}, which is not there"


def below(name, lines):
    """All crates that a crate stands on, by those that each line names."""
    return set(lines[name]).union(*(below(library, lines) for library in lines[name]))


def row_faults(name, table, lines):
    """What is wrong with what the row of a crate says that it stands on."""
    row = re.search(rf"^\| `{name}` \| .* \| (.*) \|$", table, re.M)
    said = set(re.findall(r"`(\w+)`", row[1])) if row else set()
    least = {it for it in lines[name] if not any(it in below(other, lines) for other in lines[name])}
    yield from (f"docs/ARCHITECTURE.md: {name} stands on {it} too" for it in sorted(least - said))
    yield from (f"docs/ARCHITECTURE.md: {name} does not stand on {it}" for it in sorted(said - {*lines[name]}))


def faults():
    lines = {name: libraries for name, _, libraries in crates()}
    lines = {name: [it for it in libraries if it in lines] for name, libraries in lines.items()}
    tables = {name: (TOP / "docs" / name).read_text() for name in ("ARCHITECTURE.md", "PROVED.md")}
    for name, comment, libraries in crates():
        crate = TOP / "crates" / name
        for library in libraries:
            if not uses(crate, library):
                yield f"crates.txt: {name} does not use {library}"
        if comment != promise(crate):
            yield f"crates.txt: {name} is not said to be what its documentation says: {promise(crate)}"
        if not OF_TESTS.match(name):
            yield from (f"{name} {fault}" for fault in page_faults(name, crate))
        if f"| `{name}` |" in tables["ARCHITECTURE.md"]:
            yield from row_faults(name, tables["ARCHITECTURE.md"], lines)
        for page, table in tables.items():
            if f"| `{name}` |" not in table and not (page == "PROVED.md" and OF_TESTS.match(name)):
                yield f"docs/{page}: {name} has no row"


def main():
    found = list(faults())
    for fault in found:
        print(fault)
    print(f"what is said of the crates: {'not as it should be' if found else 'ok'}")
    return 1 if found else 0


if __name__ == "__main__":
    sys.exit(main())
