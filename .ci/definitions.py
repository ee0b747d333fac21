#!/usr/bin/env python3
"""Compares docs/DEFINITIONS.md with the definitions that stand behind the contract of `run`, and with those that the
contracts of public functions name.

The definitions behind `run` are those of specs/ that its clauses name, and those that these name in turn. The first part
of the document names each of them at the head of an item, and no others; the second part names inner words, each a
definition of specs/ that is not behind `run`, and among them all that a clause of a public function names, but for laws. An
item begins with `- `, and the words in backticks before its first colon are the names, but for those of files.

    definitions.py [--list]     with --list it prints the definitions behind `run`, file by file
"""

import pathlib
import re
import sys

TOP = pathlib.Path(__file__).resolve().parent.parent
DOCUMENT = TOP / "docs" / "DEFINITIONS.md"
WORD = re.compile(r"[A-Za-z_][A-Za-z0-9_'-]*")
USE = re.compile(r"^\s*(?:ghost )?use Rattle\.(\w+)\.specs\.([\w.]+)\.\{([^}]*)\};?$")
USE_MODULE = re.compile(r"^\s*(?:ghost )?use Rattle\.(\w+)\.specs\.([\w.]+?)(?: as (\w+))?;?$")
PUBLIC = re.compile(r"^(?:    )?pub (?:unsafe )?fn (\w+)|^    fn (\w+)")
FUNCTION = re.compile(r" *(?:pub(?:\(crate\))? )?(?:unsafe )?fn ")
SCOPE = re.compile(r"^(?:pub )?(?:unsafe )?(?:trait\b|impl\b.* for )")
CLAUSE = re.compile(r"^ +(?:requires|ensures)\b")
HEAD = re.compile(r"^(?:(?:abbrev|unfoldable|pub|record|data) )+([A-Za-z_][\w'-]*)")


class Module:
    """A file of specs/: the text of each definition, and where the names that it uses come from."""

    def __init__(self, path):
        self.bodies = {}
        self.names, self.modules = imports(path.read_text().split("\n"))
        current = None
        for line in path.read_text().split("\n"):
            head = HEAD.match(line)
            if head:
                current = head.group(1)
            if not line.strip() or line.startswith(("--", "use ", "open ")):
                current = current if line.strip() else None
                continue
            if current:
                self.bodies.setdefault(current, []).append(line)


def imports(lines):
    """The names and the modules that `use` lines bring, each with its crate and its module."""
    names, modules = {}, {}
    for line in lines:
        found = USE.match(line)
        if found:
            for name in found.group(3).split(","):
                original, _, other = name.strip().partition(" as ")
                names[other or original] = (found.group(1), found.group(2), original)
            continue
        found = USE_MODULE.match(line)
        if found:
            modules[found.group(3) or found.group(2).split(".")[-1]] = (found.group(1), found.group(2))
    return names, modules


def all_modules():
    """Each file of specs/ by its crate and name."""
    found = {}
    for path in sorted(TOP.glob("crates/*/specs/*.antt")):
        if path.stem != "Lib":
            found[(path.parts[-3], path.stem)] = Module(path)
    return found


def meant(name, modules, names, own):
    """The definition that a word stands for, if it is one of specs/."""
    if own is not None and name in modules[own].bodies:
        return (*own, name)
    key = names.get(name)
    if key and key[:2] in modules and key[2] in modules[key[:2]].bodies:
        return key
    return None


def named(text, modules, names, opened, own):
    """The definitions that a text names, by themselves or after their module's name."""
    found = set()
    for word in set(WORD.findall(text)):
        key = meant(word, modules, names, own)
        if key:
            found.add(key)
    for module, word in set(re.findall(r"\b([A-Za-z_]\w*)\.([A-Za-z_][\w'-]*)", text)):
        home = opened.get(module)
        if home in modules and word in modules[home].bodies:
            found.add((*home, word))
    return found


def behind_run(modules):
    """The definitions behind the contract of `run`, each with the number of its lines."""
    source = (TOP / "crates/interp_run/src/top.rt").read_text()
    contract = re.search(r"pub fn run<.*?\n\{", source, re.S).group(0)
    todo = list(named(contract, modules, *imports(source.split("\n")), None))
    found = {}
    while todo:
        key = todo.pop()
        if key not in found:
            home = modules[key[:2]]
            found[key] = len(home.bodies[key[2]])
            todo += named("\n".join(home.bodies[key[2]]), modules, home.names, home.modules, key[:2])
    return found


def public_clauses(lines):
    """The lines of the clauses of a source's public functions, which are those that are `pub` and the methods of traits."""
    of_trait = is_public = False
    depth = 0
    for line in lines:
        if not line.startswith((" ", "}")):
            of_trait = bool(SCOPE.match(line))
        if FUNCTION.match(line):
            found = PUBLIC.match(line)
            is_public = bool(found) and (found.group(1) is not None or of_trait)
        if is_public and (depth or CLAUSE.match(line)):
            depth += line.count("{") - line.count("}")
            yield line


def named_by_contracts(modules):
    """The definitions that clauses of public functions name, without laws."""
    found = set()
    for path in sorted(TOP.glob("crates/*/src/**/*.rt")):
        lines = path.read_text().split("\n")
        found |= named("\n".join(public_clauses(lines)), modules, *imports(lines), None)
    return {key for key in found if not key[1].endswith("Laws")}


def listed(part):
    """The names at the heads of the items of a part of the document."""
    heads = re.findall(r"^- (.*?):", part, re.M)
    names = {name for head in heads for name in re.findall(r"`([^`]+)`", head)}
    return {name for name in names if not name.endswith(".antt")}


def print_list(found):
    """Prints the definitions behind `run`, file by file."""
    for home in sorted({key[:2] for key in found}):
        names = sorted(key[2] for key in found if key[:2] == home)
        print(f"{home[0]}/specs/{home[1]}.antt: {' '.join(names)}")


def main():
    modules = all_modules()
    found = behind_run(modules)
    behind = {key[2] for key in found}
    if "--list" in sys.argv:
        print_list(found)
    first, _, second = DOCUMENT.read_text().partition("\n# Inner words\n")
    inner = {name for module in modules.values() for name in module.bodies}
    inner -= behind
    faults = [f"{name} stands behind `run`, and the first part does not name it" for name in sorted(behind - listed(first))]
    faults += [f"{name} is named in the first part, and does not stand behind `run`" for name in sorted(listed(first) - behind)]
    faults += [f"{name} is named among the inner words, and is none" for name in sorted(listed(second) - inner)]
    unnamed = {key[2] for key in named_by_contracts(modules)} - listed(first) - listed(second)
    faults += [f"{name} is named by a clause of a public function, and by no item" for name in sorted(unnamed)]
    lines = sum(found.values())
    for fault in faults:
        print(f"docs/DEFINITIONS.md: {fault}")
    print(f"definitions behind run: {len(found)}, of {lines} lines: {'not as the document says' if faults else 'ok'}")
    return 1 if faults else 0


if __name__ == "__main__":
    sys.exit(main())
