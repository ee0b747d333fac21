#!/usr/bin/env python3
"""Checks the shape of the repository's proofs, and fails with a message for each rule that is broken.

usage: shape.py [TOP]

The rules: a crate gives its lemmas to other crates by two modules at most, where each lemma has a comment, as it has where it is
declared; no statement is proved in two crates; lines of proof and of code are short; each lemma is used; and no crate's proofs are
long beside its code and specs. `rt ci` proves the repository: this script says nothing about that.
"""
import collections
import os
import re
import sys

COLUMNS = 140
SOURCE_COLUMNS = 100
PUBLIC_MODULES = 2
# The most lines of proof for each line of code and of specs: in a crate, in one on diagrams, and in the crates that need more yet,
# with the reason. This last list may shrink and is not to grow.
RATIO = 2
DIAGRAM_RATIO = 4
ON_DIAGRAMS = ("set_algebra", "diagram_measures", "cube_build", "bool_poly", "std_monomials", "gate_build", "interp_lex", "vanish_basis")
EXCEPTIONS = {
    "cli_words": (2.3, "what clap finds for each of six arguments is proved argument by argument"),
    "cube_sets": (2.4, "the search by buckets is shown to find what comparing all pairs finds"),
}
# A line that is one text, or an attribute, which the toolchain's formatter sets in one line.
UNBROKEN = re.compile(r'\s*(b?"([^"\\]|\\.)*"[,;]?|#\[.*\])$')
# Modules whose lemmas nothing need use: examples, and what the words of kept results are made of.
EXAMPLES = re.compile(r"Examples|Worked|WordParts")

MARKS = r"((?:(?:pattern|unfoldable|abbrev|pub|axiom) )*)"
NAME = r"([^\s(){}.,;:]+)"
SIGNATURE = re.compile(rf"^( *){MARKS}{NAME} : (.*)$")
TYPE = re.compile(rf"^( *){MARKS}(?:record|data|ruleset) {NAME}")
PASSED_ON = re.compile(r"^(?:unfoldable )?pub use ([\w.+]+)\.\{([^}]*)\}")
IMPORT = re.compile(r"^\s*(?:ghost |unfoldable |pub )*use (?:package\.)?([\w.+]+)\.\{([^}]*)\}", re.M)
TOKEN = re.compile(r"[(){}]|\.(?=\S)|[.,;]|[^\s(){}.,;]+")

Lemma = collections.namedtuple("Lemma", "crate path line name statement plain")
Block = collections.namedtuple("Block", "indent parameters names")


# ---- the files


def read_lines(path):
    with open(path, encoding="utf8") as file:
        return file.read().splitlines()


def files_of(top, crate, folder, ending):
    """The files of one folder of a crate, at any depth, in order."""
    found = []
    for place, _, names in os.walk(os.path.join(top, "crates", crate, folder)):
        found += [os.path.join(place, name) for name in names if name.endswith(ending)]
    return sorted(found)


def crates_of(top):
    return sorted(name for name in os.listdir(os.path.join(top, "crates")) if os.path.isdir(os.path.join(top, "crates", name)))


def proofs_of(top, crate):
    return files_of(top, crate, "proofs", ".antt")


def sources_of(top):
    """All files of proofs/, specs/ and src/, each with its crate."""
    for crate in crates_of(top):
        for folder, ending in (("proofs", ".antt"), ("specs", ".antt"), ("src", ".rt")):
            for path in files_of(top, crate, folder, ending):
                yield crate, path


def module_of(top, crate, path):
    """The name that `use` lines give the module of a file of proofs/."""
    inside = os.path.relpath(path, os.path.join(top, "crates", crate))
    return f"Rattle.{crate}." + inside[: -len(".antt")].replace(os.sep, ".")


def imported(text):
    """(module, name, name here) for each name of the `use` lines of a file."""
    for match in IMPORT.finditer(text):
        for part in match.group(2).split(","):
            words = part.split()
            if words:
                yield match.group(1), words[0], words[-1]


# ---- the public modules of a crate


def public_modules(top, crate):
    """The modules that proofs/Lib.antt declares `pub`."""
    lib = os.path.join(top, "crates", crate, "proofs", "Lib.antt")
    lines = read_lines(lib) if os.path.exists(lib) else []
    return [match.group(1) for match in (re.match(r"pub mod (\w+)", line) for line in lines) if match]


def is_public_line(line):
    """Whether a line passes a lemma on or declares one that other crates can name."""
    if PASSED_ON.match(line):
        return True
    match = SIGNATURE.match(line) or TYPE.match(line)
    return match is not None and "pub" in match.group(2).split()


def fields_of_records(lines):
    """The numbers of the lines that stand in the body of a record or of a data type, declared or written as a term."""
    inside, depth, braces = set(), None, 0
    for number, line in enumerate(lines):
        indent = len(line) - len(line.lstrip())
        if depth is not None and line.strip() and indent <= depth:
            depth = None
        if depth is not None or braces > 0:
            inside.add(number)
        elif TYPE.match(line):
            depth = indent
        if not line.lstrip().startswith("--"):
            braces += line.count("{") - line.count("}")
    return inside


def check_public_modules(top):
    """Each crate has two public lemma modules at most, and each lemma of these has a comment directly above it."""
    for crate in crates_of(top):
        modules = public_modules(top, crate)
        if len(modules) > PUBLIC_MODULES:
            yield f"{crate}: {len(modules)} public modules of lemmas, more than {PUBLIC_MODULES}: {', '.join(modules)}"
        for module in modules:
            path = os.path.join(top, "crates", crate, "proofs", module + ".antt")
            lines = read_lines(path)
            fields = fields_of_records(lines)
            for number, line in enumerate(lines):
                above = lines[number - 1].lstrip() if number else ""
                if is_public_line(line) and number not in fields and not above.startswith("--"):
                    yield f"{os.path.relpath(path, top)}:{number + 1}: no comment above this public lemma: {line.strip()[:80]}"


def passed_on(top, crate, module):
    """(path, name) for each lemma that a public module passes on: the file that declares it, and its name there."""
    for line in read_lines(os.path.join(top, "crates", crate, "proofs", module + ".antt")):
        match = PASSED_ON.match(line)
        parts = match.group(1).split(".") if match else []
        path = os.path.join(top, "crates", *parts[1:]) + ".antt"
        for name in match.group(2).split(",") if match and os.path.exists(path) else []:
            yield path, name.split()[0]


def check_comments(top):
    """Each lemma that a public module passes on has a comment directly above it where it is declared."""
    for crate in crates_of(top):
        for module in public_modules(top, crate):
            for path, name in passed_on(top, crate, module):
                lines = read_lines(path)
                heads = [SIGNATURE.match(line) or TYPE.match(line) for line in lines]
                number = next(number for number, head in enumerate(heads) if head and head.group(3) == name)
                if not lines[number - 1].lstrip().startswith("--"):
                    yield f"{os.path.relpath(path, top)}:{number + 1}: no comment above {name}, which {module} passes on"


# ---- lemmas and their statements


def blocks_above(stack, indent):
    """Takes the blocks that end before a line with this indent from the stack."""
    while stack and indent <= stack[-1].indent:
        stack.pop()


def module_header(lines, number):
    """The parameters of the module that begins at this line, which may go on over several lines, and the number of its last line."""
    last = number
    while last + 1 < len(lines) and not lines[last].rstrip().endswith("where"):
        last += 1
    header = " ".join(line.strip() for line in lines[number : last + 1])
    return header[len("module _") : -len("where")].strip(), last


def lemmas_of(crate, path):
    """The lemmas of a file, with the parameters of their modules that they use in front of their statements."""
    lines = read_lines(path)
    fields, stack, found, header_end = fields_of_records(lines), [], [], -1
    for number, line in enumerate(lines):
        text = line.strip()
        indent = len(line) - len(line.lstrip())
        if not text or text.startswith("--") or number in fields or number <= header_end:
            continue
        blocks_above(stack, indent)
        if text.startswith("module _"):
            parameters, header_end = module_header(lines, number)
            stack.append(Block(indent, parameters, []))
            continue
        if text == "where" or (text.endswith(" where") and not TYPE.match(line)):
            stack.append(Block(indent, "", []))
            continue
        match = SIGNATURE.match(line)
        if match:
            plain = not {"abbrev", "unfoldable", "axiom"} & set(match.group(2).split())
            lemma = Lemma(crate, path, number + 1, match.group(3), statement_at(lines, number, match), plain)
            found.append(lemma._replace(statement=with_parameters(lines, lemma, stack)))
            for block in stack:
                block.names.append(lemma.name)
    return found


def with_parameters(lines, lemma, stack):
    """The statement of a lemma behind the parameters of its modules: all of them where its proof names another lemma of these modules,
    which has them too, and else those that the lemma names."""
    binders = [binder for block in stack for binder in binders_in(block.parameters)]
    words = {word for number in own_lines(lines, lemma) for word in TOKEN.findall(lines[number])}
    if not words & {name for block in stack for name in block.names} - {lemma.name}:
        binders = binders_named(binders, words)
    return " → ".join([" ".join(binders), lemma.statement] if binders else [lemma.statement])


def binders_in(parameters):
    """The parameters of a module, one by one: what stands in the outer brackets."""
    found, depth = [], 0
    for character in parameters:
        if depth == 0 and character in "({":
            found.append("")
        depth += {"(": 1, "{": 1, ")": -1, "}": -1}.get(character, 0)
        if depth or character in ")}":
            found[-1] += character
    return found


def binders_named(binders, words):
    """The binders whose names stand among the words or in the types of such binders, each with these names alone."""
    kept = []
    for binder in reversed(binders):
        names, kind = binder[1:-1].split(":", 1)
        used = [name for name in names.split() if name in words]
        if used:
            words = words | set(TOKEN.findall(kind))
            kept.append(f"{binder[0]}{' '.join(used)} :{kind}{binder[-1]}")
    return kept[::-1]


def statement_at(lines, number, match):
    """The type of a signature, with the lines that go on with it."""
    parts = [match.group(4)]
    for line in lines[number + 1 :]:
        if len(line) - len(line.lstrip()) < len(match.group(1)) + 4 or line.lstrip().startswith("--"):
            break
        parts.append(line.strip())
    return " ".join(parts)


class Statement:
    """A statement in one form, so that statements that say the same have the same form where they differ in the names and the order of
    what they are about, in what is implicit, in abbreviations, in how a number is written, and in brackets: names of the crates stand
    by their origin, facts in an order of their own, and behind them what the variables are."""

    def __init__(self, text, origins, abbreviations):
        self.origins = origins
        self.abbreviations = abbreviations
        tokens = TOKEN.findall(text)
        bound = {name for at, token in enumerate(tokens) if token in "({" for name in names_bound(tokens, at)}
        self.tokens = plain_numbers(self.unfolded(tokens, bound))

    def form(self):
        """The form, and whether the statement says something of its variables."""
        numbers = {}
        form = self.arranged(self.tokens, [numbers])
        return form, bool(numbers) or "≡" in self.tokens

    def arranged(self, tokens, layers):
        """The form of a statement or of a premise: what it comes to, its facts in an order of their own, and what its variables are.
        Each of the layers has the numbers of variables that are bound around it, the innermost last, which is the one of its own."""
        parts, conclusion = premises_of(tokens)
        if not parts:
            return self.rendered(tokens, layers)
        variables = {name for name, _ in parts if name and (name in conclusion or any(name in kind for _, kind in parts))}
        numbers = layers[-1]
        numbers.update({name: None for name in variables})
        out = [self.arranged(conclusion, layers)]
        facts = [kind for name, kind in parts if name not in variables]
        while facts:
            first = min(facts, key=lambda kind: self.inner(kind, [dict(layer) for layer in layers]))
            facts.remove(first)
            out.append(self.inner(first, layers))
        kinds = [(numbers[name], kind) for name, kind in parts if name in variables and numbers[name]]
        out += [f"{number} : {self.inner(kind, layers)}" for number, kind in sorted(kinds, key=lambda it: int(it[0].split("v")[1]))]
        return " | ".join(out)

    def inner(self, tokens, layers):
        """The form of a premise, in brackets."""
        while len(tokens) > 1 and tokens[0] == "(" and group_end(tokens, 0) == len(tokens):
            tokens = tokens[1:-1]
        return f"[{self.arranged(tokens, [*layers, {}])}]"

    def unfolded(self, tokens, bound, depth=0):
        """The tokens with the abbreviations of the crates written out, where they are given all that they take."""
        out, at = [], 0
        while at < len(tokens):
            token = tokens[at]
            field = at > 0 and tokens[at - 1] == "."
            known = None if token in bound or field else self.abbreviations.get(self.origins.get(token, token))
            ends = arguments_at(tokens, at + 1, len(known[0])) if known and depth < 5 else None
            if ends is None:
                out.append(token)
                at += 1
                continue
            given = dict(zip(known[0], [tokens[start:end] for start, end in zip([at + 1, *ends], ends)]))
            body = [part for word in known[1] for part in (["(", *given[word], ")"] if word in given else [word])]
            out += ["(", *self.unfolded(body, bound, depth + 1), ")"]
            at = ends[-1] if ends else at + 1
        return out

    def rendered(self, tokens, layers):
        """The tokens without brackets, with variables and bound names by numbers and other names by their origin."""
        out, bound = [], {}
        for at, token in enumerate(tokens):
            new = names_bound(tokens, at) if token in "({" else lambda_names(tokens, at) if token == "λ" else []
            bound.update({name: f"b{len(bound) + number}" for number, name in enumerate(new)})
            field = at > 1 and tokens[at - 1] == "." and re.match(r"[\w']", token) and tokens[at - 2] not in ".,"
            if token not in "(){}":
                out.append(token if field else bound.get(token) or self.number(token, layers) or self.origins.get(token, token))
        return " ".join(out)

    def number(self, token, layers):
        """The number of a variable, which it gets where it is met first, or None where the token is no variable."""
        for depth, numbers in reversed(list(enumerate(layers))):
            if token in numbers:
                numbers[token] = numbers[token] or f"{depth}v{sum(number is not None for number in numbers.values())}"
                return numbers[token]
        return None


def names_bound(tokens, at):
    """The names of the binder that begins with the bracket at this place, or none."""
    names, ahead = [], at + 1
    while ahead < len(tokens) and tokens[ahead] not in ("(", ")", "{", "}", ".", ",", ";", ":", "→", "≡"):
        names.append(tokens[ahead])
        ahead += 1
    return names if names and ahead < len(tokens) and tokens[ahead] == ":" else []


def lambda_names(tokens, at):
    """The names that a λ at this place binds without their types."""
    names, ahead = [], at + 1
    while ahead < len(tokens) and tokens[ahead] != ".":
        names += [] if tokens[ahead] in "({):}" else [tokens[ahead]]
        ahead += 1
    return names


def group_end(tokens, at):
    """Where what begins at this place ends: a group in brackets or a single token, with the fields that follow it."""
    depth = 0
    while at < len(tokens):
        depth += {"(": 1, "{": 1, ")": -1, "}": -1}.get(tokens[at], 0)
        at += 1
        if depth == 0:
            break
    while at + 1 < len(tokens) and tokens[at] == "." and re.match(r"[\w']", tokens[at + 1]):
        at += 2
    return at


def arguments_at(tokens, at, count):
    """Where each of so many arguments from this place on ends, or None where there are not so many."""
    ends = []
    for _ in range(count):
        if at >= len(tokens) or not (tokens[at] == "(" or re.match(r"\w", tokens[at])):
            return None
        at = group_end(tokens, at)
        ends.append(at)
    return ends


def premises_of(tokens):
    """The premises of a statement, each with its name or None and its tokens, and the tokens of its conclusion."""
    pieces, depth, piece = [], 0, []
    for token in tokens:
        depth += {"(": 1, "{": 1, ")": -1, "}": -1}.get(token, 0)
        if token == "→" and depth == 0:
            pieces.append(piece)
            piece = []
        else:
            piece.append(token)
    parts = []
    for number, one in enumerate([*pieces, piece]):
        at, found = 0, []
        while at < len(one) and names_bound(one, at):
            end = group_end(one, at)
            names = names_bound(one, at)
            found += [(name, one[at + len(names) + 2 : end - 1]) for name in names]
            at = end
        if number == len(pieces):
            return parts + (found if at < len(one) else []), one[at:] if found and at < len(one) else one
        parts += found if found and at == len(one) else [(None, one)]
    return parts, piece


def plain_numbers(tokens):
    """The tokens with `suc x` as `x + 1`, and each power of two that is written out as a power."""
    out, at = [], 0
    while at < len(tokens):
        token = tokens[at]
        if token == "suc" and at + 1 < len(tokens) and tokens[at + 1] not in (")", "}", "."):
            end = group_end(tokens, at + 1)
            out += [*plain_numbers(tokens[at + 1 : end]), "+", "1"]
            at = end
            continue
        number = int(token) if token.isdigit() else 0
        out += ["2", "^", str(number.bit_length() - 1)] if number > 255 and number & (number - 1) == 0 else [token]
        at += 1
    return out


def abbreviations_of(top, crates):
    """{origin: (parameters, tokens of the body)} for each abbreviation with one clause and plain parameters."""
    found = {}
    for crate in sorted(crates):
        for path in [*proofs_of(top, crate), *files_of(top, crate, "specs", ".antt")]:
            lines = read_lines(path)
            text = "\n".join(lines)
            origins = origins_of(crates, crate, text, declared_in(text))
            for number, line in enumerate(lines):
                match = re.match(rf"abbrev (?:pub )?{NAME} : ", line)
                clauses = clauses_at(lines, number, match.group(1)) if match else []
                if len(clauses) == 1:
                    parameters, body = clauses[0]
                    names = set(TOKEN.findall(body)) & set(parameters)
                    tokens = [word if word in names else origins.get(word, word) for word in TOKEN.findall(body)]
                    if all(re.fullmatch(r"[\w']+", name) for name in parameters) and not {"λ", "let", "elim", "record"} & set(tokens):
                        found[f"{crate}:{match.group(1)}"] = (parameters, tokens)
    return found


def clauses_at(lines, number, name):
    """The clauses of the definition whose signature stands at this line: the parameters and the body of each."""
    found = []
    for at in range(number + 1, len(lines)):
        line = lines[at]
        if line.startswith("    ") and found:
            found[-1] = (found[-1][0], found[-1][1] + " " + line.strip())
        elif re.match(rf"{re.escape(name)}(?![^\s=])", line) and "=" in line:
            head, body = line.split("=", 1)
            found.append((head.split()[1:], body.strip()))
        elif line.strip() and not line.startswith("    "):
            break
    return found


def origins_of(crates, crate, text, names):
    """Where the names that a file uses come from: another crate of the repository, or this one."""
    origins = {name: f"{crate}:{name}" for name in names}
    for module, name, here in imported(text):
        parts = module.split(".")
        if parts[0] == "Rattle" and len(parts) > 1 and parts[1] in crates:
            origins[here] = f"{parts[1]}:{name}"
        elif name != here:
            origins[here] = name
    return origins


def declared_in(text):
    return {match.group(3) for line in text.splitlines() for match in [SIGNATURE.match(line) or TYPE.match(line)] if match}


def forms_of(crates, crate, path, abbreviations):
    """(form, lemma) for each lemma of a file whose statement says something of its variables or is an equation."""
    text = "\n".join(read_lines(path))
    origins = origins_of(crates, crate, text, declared_in(text))
    for lemma in lemmas_of(crate, path):
        form, dependent = Statement(lemma.statement, origins, abbreviations).form()
        if lemma.plain and dependent and not lemma.statement.startswith("goal."):
            yield form, lemma


def check_statements(top):
    """No statement is proved in two crates."""
    crates, by_form = set(crates_of(top)), collections.defaultdict(list)
    abbreviations = abbreviations_of(top, crates)
    for crate in sorted(crates):
        for path in [*proofs_of(top, crate), *files_of(top, crate, "specs", ".antt")]:
            for form, lemma in forms_of(crates, crate, path, abbreviations):
                by_form[form].append(lemma)
    for lemmas in by_form.values():
        if len({lemma.crate for lemma in lemmas}) > 1:
            places = ", ".join(f"{lemma.name} ({os.path.relpath(lemma.path, top)}:{lemma.line})" for lemma in lemmas)
            yield f"one statement in several crates: {places}"


# ---- lines


def check_columns(top):
    """No line of proofs/ is longer than 140 columns, and none of src/ than 100, but a text or an attribute alone."""
    for crate in crates_of(top):
        for paths, most in ((proofs_of(top, crate), COLUMNS), (files_of(top, crate, "src", ".rt"), SOURCE_COLUMNS)):
            for path in paths:
                for number, line in enumerate(read_lines(path)):
                    if len(line) > most and not UNBROKEN.match(line):
                        yield f"{os.path.relpath(path, top)}:{number + 1}: {len(line)} columns, more than {most}"


def count_lines(paths):
    return sum(len(read_lines(path)) for path in paths)


def check_ratios(top):
    """No crate has more lines of proof for its code and specs than the bound."""
    for crate in crates_of(top):
        proofs = count_lines(proofs_of(top, crate))
        others = count_lines(files_of(top, crate, "src", ".rt") + files_of(top, crate, "specs", ".antt"))
        bound = DIAGRAM_RATIO if crate in ON_DIAGRAMS else RATIO
        most = EXCEPTIONS.get(crate, (bound, ""))[0]
        if proofs > most * others:
            yield f"{crate}: {proofs} lines of proof for {others} of code and specs, more than {most} for each"
        elif crate in EXCEPTIONS and proofs <= bound * others:
            yield f"{crate}: it needs no exception any more"


# ---- uses


def indent_of(line):
    return len(line) - len(line.lstrip())


def own_lines(lines, lemma):
    """The numbers of the lines of the lemma: its signature and its clauses, with what belongs to them."""
    start = lemma.line - 1
    indent = indent_of(lines[start])
    head = re.compile(rf" *{re.escape(lemma.name)}(?![^\s(){{}}.,;:])")
    own, number = {start}, start + 1
    while number < len(lines):
        line = lines[number]
        if line.strip() and indent_of(line) <= indent and not head.match(line) and not re.match(r" *(?:unfolding|[|\])}\]])", line):
            break
        own.add(number)
        number += 1
    return own


def is_code(line):
    return not re.match(r"\s*(?:--|//|(?:ghost |unfoldable |pub )*(?:use|mod) )", line)


def is_used_here(lines, words, lemma):
    """Whether another lemma or an answer of the file names the lemma."""
    places = [number for number, line in enumerate(lines) if lemma.name in words[number] and is_code(line)]
    return bool(set(places) - own_lines(lines, lemma))


def is_asked_for(lemma):
    """Whether the toolchain asks for this name: an answer to a goal, or a whole proof of a function or of what a type may be sent over."""
    folder, file = os.path.split(lemma.path)
    whole = file == "Proof.antt" and lemma.name == os.path.basename(folder) + "_spec"
    return whole or lemma.statement.startswith("goal.") or file in ("Send.antt", "Sync.antt")


def doors_of(top, crates):
    """{(module, name): public modules that pass the name on}, over all crates."""
    doors = collections.defaultdict(set)
    for crate in crates:
        for path in proofs_of(top, crate):
            for line in read_lines(path):
                match = PASSED_ON.match(line)
                for part in match.group(2).split(",") if match else []:
                    doors[(match.group(1), part.split()[0])].add((module_of(top, crate, path), part.split()[-1]))
    return doors


def names_imported(top):
    """The (module, name) pairs that files other than the public modules import, or name by a path."""
    names = set()
    for _, path in sources_of(top):
        text = "\n".join(line for line in read_lines(path) if not PASSED_ON.match(line))
        names |= {(module, name) for module, name, _ in imported(text)}
        names |= {(f".{module}", name) for module, name in re.findall(r"\b(?=(\w+)(?:\.|::)([^\s(){}.,;:]+))", text)}
    return names


def is_imported(lemma, module, doors, names):
    places = {(module, lemma.name)} | doors[(module, lemma.name)]
    return any((place, name) in names or ("." + place.split(".")[-1], name) in names for place, name in places)


def check_uses(top):
    """Each lemma is used by another one or by an answer; examples are left out."""
    crates = crates_of(top)
    doors, names = doors_of(top, crates), names_imported(top)
    for crate in crates:
        for path in proofs_of(top, crate):
            if EXAMPLES.search(os.path.relpath(path, top)):
                continue
            lines = read_lines(path)
            words = [set(TOKEN.findall(line)) for line in lines]
            module = module_of(top, crate, path)
            for lemma in lemmas_of(crate, path):
                used = is_asked_for(lemma) or is_used_here(lines, words, lemma) or is_imported(lemma, module, doors, names)
                if not used:
                    yield f"{os.path.relpath(path, top)}:{lemma.line}: nothing uses {lemma.name}"


CHECKS = (check_public_modules, check_comments, check_statements, check_columns, check_uses, check_ratios)


def main():
    top = sys.argv[1] if len(sys.argv) > 1 else "."
    broken = [message for check in CHECKS for message in check(top)]
    for message in broken:
        print(message)
    print(f"{len(broken)} faults in the shape of the proofs" if broken else "the proofs are in shape")
    return 1 if broken else 0


if __name__ == "__main__":
    sys.exit(main())
