#!/usr/bin/env python3
"""Lists the edits that must fail, `crates/*/must-fail/*.edit`, and fails with a message for each rule that is broken.

A line of the list is a crate, an edit, the function that it changes, and the clause that refuses it. Behind a function
that other crates cannot name stands, in brackets, one that they can, by whose call it is reached.

The clause is the one that the function ensures (`ensures`, where it has no name). Where a function ensures several
things, or none beside what its trait says, and where no function is changed, the edit names the clause:
`# clause: NAME`, or `# clause: FUNCTION NAME` for one of another function, which may be what that function requires.

The rules: each old text stands exactly once in its file; each edit has a clause, and there is a clause of this name;
and there are few edits, as each costs a check of its crate. `rt ci` tries them: this script does not.

    edits.py [--list]     with --list it prints the list
"""

import pathlib
import re
import sys

TOP = pathlib.Path(__file__).resolve().parent.parent
MOST = 360
MOST_OF_A_CRATE = 16
HEAD = re.compile(r"^( *)((?:pub(?:\(crate\))? |final |unsafe )*)fn (\w+)", re.M)
CLAUSE = re.compile(r"^ *(requires|ensures) (?:(\w+) )?\{", re.M)
GHOST = re.compile(r"^    ghost (?!use )(\w+)", re.M)
IMPL = re.compile(r"^(?:impl\b(?:<.*?>)? (?:(.*) for )?(?:&mut |&)?(\w+).*|(?:pub )?trait (\w+).*)\{$", re.M)
NAMES = re.compile(r"^pub use [^{;]*?(?:\{([^}]*)\}|(\w+));", re.M)


class Function:
    """A function of a crate: where its text stands, its clauses, and whether other crates can name it."""

    def __init__(self, text, head, owner, public_names):
        indent, marks, self.name = head.groups()
        body = re.compile(rf"^{indent}{{$|^[^\n]* {{$|{{}}$|;$", re.M).search(text, head.start())
        self.start = head.start()
        is_empty = body.group(0) in ("{}", ";")
        self.end = body.end() if is_empty else text.find(f"\n{indent}}}", body.end())
        self.body = text[body.end() : self.end]
        contract = text[head.start() : body.end()]
        self.clauses = [match.groups() for match in CLAUSE.finditer(contract)]
        self.ghosts = owner.ghosts if owner else []
        self.is_of_trait = owner is not None and owner.declares
        self.path = f"{owner.name}::{self.name}" if owner else self.name
        self.is_public = owner.is_public(marks) if owner else self.name in public_names or self.name == "main"

    def ensured(self):
        """The names of what it ensures; a clause without a name is called `ensures`."""
        return [name or kind for kind, name in self.clauses if kind == "ensures"]

    def has(self, clause):
        """Whether it has a clause of this name, or its `impl` a ghost member, which stands for one."""
        return clause in [*(name or kind for kind, name in self.clauses), *self.ghosts]


class Owner:
    """The type or the trait that a function belongs to, and the ghost members beside it."""

    def __init__(self, match, text, public_names):
        trait, type_name, declared = match.groups()
        self.ghosts = GHOST.findall(text[match.end() : text.find("\n}", match.end())])
        self.name, self.declares = declared or type_name, declared is not None
        self.is_of_trait = trait is not None or self.declares
        self.is_named = self.name in public_names

    def is_public(self, marks):
        return self.is_named and (self.is_of_trait or "pub " in marks)


class Edit:
    """What an edit says: its pairs of texts with their files, and its clause."""

    def __init__(self, path):
        self.crate, self.name = path.parts[-3], path.stem
        self.pairs, self.clause, file, old = [], [], None, None
        for line in path.read_text().splitlines():
            key, _, value = line.partition(": ")
            if key == "file":
                file = value.strip()
            elif key == "old":
                old = value
            elif key == "new":
                self.pairs.append((file, old, value))
            elif key == "# clause":
                self.clause = value.split()


# ---- the functions


def functions_of(text, public_names):
    """The functions of a file, in order."""
    owners = [(match.start(), Owner(match, text, public_names)) for match in IMPL.finditer(text)]
    found = []
    for head in HEAD.finditer(text):
        before = [owner for start, owner in owners if start < head.start()] if head.group(1) else []
        found.append(Function(text, head, before[-1] if before else None, public_names))
    return found


def public_names_of(crate):
    """The names that other crates can use of a crate: those that its root file declares or passes on."""
    root = TOP / "crates" / crate / "src" / "lib.rt"
    text = root.read_text() if root.exists() else ""
    lists = [match[1] or match[2] for match in NAMES.finditer(text)]
    passed_on = [name.split()[-1] for names in lists for name in names.split(",") if name.strip()]
    return {*passed_on, *re.findall(r"^pub (?:fn|struct|enum|trait) (\w+)", text, re.M)}


def functions_of_all():
    """The functions of all crates, by crate and file."""
    found = {}
    for path in sorted(TOP.glob("crates/*/src/*.rt")):
        if path.stem != "tests":
            crate = path.parts[-3]
            found.setdefault(crate, {})[f"src/{path.name}"] = functions_of(path.read_text(), public_names_of(crate))
    return found


def public_caller(function, functions):
    """A function that other crates can name, and that calls this one, at once or by others, if there is one."""
    seen, todo = {function.name}, [function]
    while todo:
        name = todo.pop(0).name
        for other in functions:
            if other.name not in seen and re.search(rf"\b{name}(?:::<[^()]*>)?\(", other.body):
                if other.is_public:
                    return other
                seen.add(other.name)
                todo.append(other)
    return None


# ---- the edits


def place_of(edit):
    """The file and the place of the first text that the edit changes, or a fault."""
    texts, first = {}, None
    for file, old, new in edit.pairs:
        path = TOP / "crates" / edit.crate / file
        if file not in texts and not path.exists():
            return None, f"there is no file {file}"
        text = texts.get(file) or path.read_text()
        if text.count(old) != 1:
            return None, f"its old text stands in {file} {text.count(old)} times: {old.strip()[:60]}"
        first = first or (file, text.find(old))
        texts[file] = text.replace(old, new)
    return (first, None) if first else (None, "it changes nothing")


def those_named(edit, function, functions):
    """The functions of which one has the clause that an edit names."""
    every = [it for files in functions.values() for its in files.values() for it in its]
    if len(edit.clause) == 2:
        return [it for it in every if it.name == edit.clause[0]]
    if function is None or function.ensured():
        return [function] if function else []
    return [function, *(it for it in every if it.name == function.name and it.is_of_trait)]


def clause_of(edit, function, functions):
    """The function that the list names, and the clause that refuses the edit, or a fault."""
    if not edit.clause:
        own = function.ensured() if function else []
        return (function, own[0], None) if len(own) == 1 else (None, None, "it names no clause, and needs to")
    having = [it for it in those_named(edit, function, functions) if it.has(edit.clause[-1])]
    if not having:
        return None, None, f"it names a clause that is none: {' '.join(edit.clause)}"
    return function or having[0], " ".join(edit.clause if function else edit.clause[-1:]), None


def looked_at(edit, functions):
    """The line of the list for an edit, or a fault."""
    place, fault = place_of(edit)
    if fault:
        return None, fault
    file, at = place
    around = [it for it in functions[edit.crate].get(file, []) if it.start <= at < it.end]
    function, clause, fault = clause_of(edit, around[-1] if around else None, functions)
    if fault:
        return None, fault
    own = [it for its in functions[edit.crate].values() for it in its]
    caller = None if function.is_public or function not in own else public_caller(function, own)
    by = f" ({caller.path})" if caller else ""
    return f"{edit.crate} {edit.name}: {function.path}{by}, {clause}", None


def main():
    edits = [Edit(path) for path in sorted(TOP.glob("crates/*/must-fail/*.edit"))]
    functions = functions_of_all()
    lines, faults = [], []
    for edit in edits:
        line, fault = looked_at(edit, functions)
        lines += [line] if line else []
        faults += [f"crates/{edit.crate}/must-fail/{edit.name}.edit: {fault}"] if fault else []
    for crate in sorted({edit.crate for edit in edits}):
        count = sum(edit.crate == crate for edit in edits)
        if count > MOST_OF_A_CRATE:
            faults.append(f"{crate} has {count} edits, more than {MOST_OF_A_CRATE}")
    if len(edits) > MOST:
        faults.append(f"there are {len(edits)} edits, more than {MOST}")
    if "--list" in sys.argv:
        print("\n".join(lines))
    for fault in faults:
        print(fault)
    print(f"edits that must fail: {len(edits)}: {'not as they should be' if faults else 'ok'}")
    return 1 if faults else 0


if __name__ == "__main__":
    sys.exit(main())
