#!/usr/bin/env python3
"""Tells the definitions that a reader must believe from those that serve private functions only.

usage: definitions.py

A reader must believe what the contracts of public functions and the statements of theorems cite, and every definition that these
use, in whatever crate. The definitions in crates/*/specs/*.antt are told apart by the names of their files:

  - none that must be believed stands in a file named Private*.antt;
  - each one in any other file must be believed: what serves private functions goes to a file named Private*.antt, what serves
    proofs goes to proofs/, what serves nothing goes;
  - each one in a file named Private*.antt is cited by a contract, or used by a definition that is;
  - none stands in proofs/ that a contract, a definition or a theorem's statement cites.

A function is public if it can be called from outside its crate; a ghost field or member is if its type can be named there. A theorem is a public name of proofs/XHolds.antt, or XHold.antt, that
concludes with a claim of specs/X.antt: a definition into Type 0.

Prints what it counted; or each definition that is in the wrong place, and whatever it can't read, and ends with 1.
"""

import re
import sys
from itertools import takewhile
from pathlib import Path
from typing import NamedTuple

ROOT = Path(__file__).resolve().parents[1]


class Definition(NamedTuple):
    """Its text is without comments. claim: it is into Type 0. A constructor of its data is a name of the definition too."""
    crate: str
    file: str
    name: str
    text: str
    claim: bool
    constructors: tuple

    @property
    def private(self):
        return self.file.rpartition(".")[2].startswith("Private")

    @property
    def lines(self):
        return self.text.count("\n") + 1

    @property
    def words(self):
        """The words by which it is used: an operator such as ◌over◌ by those between its places."""
        between = [word for word in self.name.split("◌") if word]
        return {self.name, *between}

    def __str__(self):
        return f"crates/{self.crate}/specs/{self.file.replace('.', '/')}.antt: {self.name}"


class Statement(NamedTuple):
    """A contract or a theorem, and the definitions that it cites. public: a reader must believe it."""
    name: str
    public: bool
    cites: set


# ---------------------------------------------------------------------------
# Names in a text
# ---------------------------------------------------------------------------

TOKEN = re.compile(r"λ|[(){};,]|[^\s(){};,λ]+")
MARKS = set("λ(){};,:=→.")


def without_comments(text, mark):
    """The lines that say something."""
    lines = (re.sub(rf"(^|\s){mark}.*", "", line).rstrip() for line in text.split("\n"))
    return "\n".join(line for line in lines if line)


def bound_in(tokens):
    """The names that a text binds: (a b : T), {a : T}, λ a b., let a, and a record's field, pub a."""
    for i, token in enumerate(tokens):
        rest = tokens[i + 1:]
        if token in ("(", "{"):
            names = list(takewhile(lambda t: t not in MARKS, rest))
            if rest[len(names):len(names) + 1] == [":"]:
                yield from names
        elif token == "λ" and rest[0] != "(":
            last = next(k for k, t in enumerate(rest) if t.endswith("."))
            yield from (name.rstrip(".") for name in rest[:last + 1])
        elif token in ("let", "pub"):
            yield rest[0]


def used_in(tokens):
    """The names that a text uses: not those after a record (r.a, ( .. ).a), nor the fields that a record is given (a = ..)."""
    for i, token in enumerate(tokens):
        given = i > 0 and tokens[i - 1] in ("{", ";") and tokens[i + 1:i + 2] == ["="]
        if token not in MARKS and not token.startswith(".") and not given:
            yield token if token.startswith("Rattle.") else token.partition(".")[0]


def cited_in(where, text, scope, unread, bound=()):
    """The definitions that a text uses. A definition's name that is bound again can't be told from it."""
    tokens = TOKEN.findall(text)
    for name in sorted({*bound_in(tokens), *bound} & scope.keys()):
        unread.append(f"{where}: {name} is bound again")
    unread += [f"{where}: {token} is named by its path" for token in tokens if token.startswith("Rattle.")]
    return {scope[name] for name in used_in(tokens) if name in scope}


# ---------------------------------------------------------------------------
# Definitions
# ---------------------------------------------------------------------------

NO_DEFINITION = re.compile(r"(?:pub )?(?:use|mod) |infix[lr]? ")
DECLARED = re.compile(r"(?:(?:abbrev|unfoldable) )?(?:pub )?(?:(record|data) (\S+)|(\S+) :(?= |$))")


def items_of(text):
    """What begins at the start of a line, together with a definition's further lines and clauses."""
    items = []
    for line in without_comments(text, "--").split("\n"):
        if not items or NO_DEFINITION.match(line) or DECLARED.match(line):
            items.append(line)
        else:
            items[-1] += "\n" + line
    return items


def clauses_of(definition):
    """What stands before the = of each clause."""
    return [line.partition(" =")[0] for line in definition.text.split("\n")[1:] if line[0] not in " })"]


def definitions_of(crate, file, text, unread):
    found = []
    for item in items_of(text):
        declared = DECLARED.match(item)
        if declared and not NO_DEFINITION.match(item):
            kind, name = declared[1], declared[2] or declared[3]
            lines = item.split("\n")
            head = item.partition(" where")[0] if kind else "\n".join([lines[0], *takewhile(lambda l: l[0] == " ", lines[1:])])
            constructors = re.findall(r"^  (\S+) :", item, re.M) if kind == "data" else ()
            definition = Definition(crate, file, name, item, head.endswith("Type 0"), tuple(constructors))
            for clause in clauses_of(definition):
                if not definition.words & set(TOKEN.findall(clause)):
                    unread.append(f"{definition} goes on with what couldn't be read: {clause}")
            found.append(definition)
        elif item and not NO_DEFINITION.match(item):
            unread.append(f"crates/{crate}/specs/{file}.antt: {item.splitlines()[0]} couldn't be read")
    return found


USE = re.compile(r"^(?:(pub|ghost) )?use (Rattle\.(?!std\.)[^\s{;]+?)(?:\.\{([^}]*)\})?(?: as \S+)?;?$", re.M)
SPECS = re.compile(r"Rattle\.(\w+)\.specs\.(?!declared\.)(.+)")


def imported_in(where, text, unread):
    """Of each import from specs/: whether it is passed on, the crate and the file, the name there and the name here."""
    if len(USE.findall(text)) != len(re.findall(r"\buse Rattle\.(?!std\.)", text)):
        unread.append(f"{where}: an import that couldn't be read")
    for how, path, names in USE.findall(text):
        module = SPECS.fullmatch(path)
        if module and not names:
            unread.append(f"{where}: the whole of {path} is imported")
        elif module:
            for name in names.split(","):
                there, _, here = name.strip().partition(" as ")
                yield how == "pub", (module[1], module[2]), there, here or there


def from_proofs(text):
    """The paths and the names that a file imports from proofs/."""
    return [(path, names) for _, path, names in USE.findall(text) if "proofs" in path.split(".")]


class Definitions:
    """By crate and file: own, a file's definitions by their words and constructors; scopes, those that it imports too."""

    def __init__(self, files, unread):
        self.own, self.passed_on, self.scopes = {}, {}, {}
        places = {path: re.fullmatch(r"crates/(\w+)/specs/(.+)\.antt", path) for path in files}
        places = {path: (place[1], place[2].replace("/", ".")) for path, place in places.items() if place}
        for path, place in places.items():
            self.own[place] = {word: definition for definition in definitions_of(*place, files[path], unread)
                               for word in (*definition.words, *definition.constructors)}
            for passed_on, source, there, here in imported_in(path, files[path], []):
                if passed_on:
                    self.passed_on[place, here] = source, there
        for path, place in places.items():
            unread += [f"{path}: {module} is imported" for module, _ in from_proofs(files[path])]
            self.scopes[place] = {**self.scope_of(path, files[path], unread), **self.own[place]}
        self.all = {definition for own in self.own.values() for definition in own.values()}

    def named(self, source, name):
        """The definition that a file, or the one from which it passes the name on, has by a name."""
        while (source, name) in self.passed_on:
            source, name = self.passed_on[source, name]
        return self.own.get(source, {}).get(name)

    def scope_of(self, where, text, unread):
        """The definitions that a file imports, by the names that they have in it."""
        scope = {}
        for _, source, there, here in imported_in(where, text, unread):
            definition = self.named(source, there)
            if definition is None:
                unread.append(f"{where}: {there} isn't defined in {'/specs/'.join(source)}")
            elif here == definition.name:
                scope.update({word: definition for word in definition.words})
            else:
                scope[here] = definition
        return scope

    def used_by(self, definition, unread):
        scope = self.scopes[definition.crate, definition.file]
        constructors = {name for name, of in scope.items() if name in of.constructors}
        arguments = {name for clause in clauses_of(definition) for name in TOKEN.findall(clause)} - definition.words - constructors
        declared = DECLARED.match(definition.text)
        return cited_in(definition, definition.text[max(declared.end(2), declared.end(3)):], scope, unread, arguments) - {definition}


# ---------------------------------------------------------------------------
# Contracts
# ---------------------------------------------------------------------------

FUNCTION = re.compile(r'^( *)(pub(?:\([^)]*\))? )?(?:extern "C" )?fn (\w+)(?=[(<])', re.M)
CLAUSE = re.compile(r"[^{]*?\b(?:requires|ensures)(?: \w+)?\s*(?=\{)")
TYPE = re.compile(r"^(?:pub(?:\([^)]*\))? )?(?:struct|enum) (\w+)", re.M)
IMPL = re.compile(r"^impl\b([^{]*) \{$", re.M)
GHOST = re.compile(r"^ +(?:pub )?ghost (\w+)(?:: | = )(?=\{)", re.M)
PASSED_ON = re.compile(r"^pub use (?:crate::)?((?:\w+::)*)(?:(\w+)|\{(\w+(?:, \w+)*)\});$", re.M)


def closed(text, start):
    """The place after the bracket that closes the one at a place. The > of an arrow closes nothing."""
    opening, closing = text[start], {"(": ")", "{": "}", "<": ">"}[text[start]]
    depth = 0
    for place in range(start, len(text)):
        depth += (text[place] == opening) - (text[place] == closing and text[place - 1:place + 1] != "->")
        if depth == 0:
            return place + 1
    raise ValueError(f"nothing closes {text[start:start + 60]}")


class Owner(NamedTuple):
    """A type and, where an impl is one of a trait, the trait; what it holds begins at the place."""
    place: int
    name: str
    trait: str


def owners_of(text):
    """The types and impls of a file, in their order."""
    found = [Owner(match.start(), match[1], "") for match in TYPE.finditer(text)]
    for match in IMPL.finditer(text):
        head = match[1]
        trait, _, name = (head[closed(head, 0):] if head.startswith("<") else head).strip().rpartition(" for ")
        found.append(Owner(match.start(), re.match(r"\w*", name)[0], trait))
    return sorted(found)


class Function(NamedTuple):
    """owner: the type whose method, or whose ghost field or member, it is. contract: the text of its requires and ensures."""
    name: str
    owner: str
    pub: bool
    parameters: list
    contract: str


def functions_of(where, text, unread):
    """The functions of a file, and the ghost fields and members of its types: facts that hold of each of their values, and what a
    trait's functions answer."""
    found, clauses, owners = [], 0, owners_of(text)
    for match in FUNCTION.finditer(text):
        start = match.end()
        if text[start] == "<":
            start = closed(text, start)
        end = closed(text, start)
        parameters = re.findall(r"(\w+)\s*:", text[start:end])
        owner = [owner for owner in owners if owner.place < match.start()][-1:] if match[1] else [Owner(0, "", "")]
        contract = []
        while clause := CLAUSE.match(text, end):
            begin, end = clause.end(), closed(text, clause.end())
            contract.append(text[begin + 1:end - 1])
        clauses += len(contract)
        for of in owner:
            found.append(Function(match[3], of.name, match[2] == "pub " or of.trait != "", parameters, "\n".join(contract)))
    functions = len(found)
    for match in GHOST.finditer(text):
        for of in [owner for owner in owners if owner.place < match.start()][-1:]:
            found.append(Function(match[1], of.name, True, [], text[match.end() + 1:closed(text, match.end()) - 1]))
    counted = [functions, len(found) - functions, clauses, len(IMPL.findall(text))]
    words = r"\bfn \w", r"\bghost (?!use\b)\w", r"\b(?:requires|ensures)\b", r"^(?:pub )?(?:impl|trait)\b"
    if counted != [len(re.findall(word, text, re.M)) for word in words]:
        unread.append(f"{where}: a function, a contract, a ghost member or an impl that couldn't be read")
    return found


def passed_on_from(crate, sources, unread):
    """The (module, name) that a crate's lib passes on, its own or another crate's. No module but lib can be named from outside."""
    text = sources.get("lib", "")
    lines = PASSED_ON.findall(text)
    found = {(path.strip(":").replace("::", "/"), name) for path, one, several in lines for name in (several or one).split(", ")}
    if len(lines) != len(re.findall(r"\bpub (?:use|mod)\b", text)):
        unread.append(f"crates/{crate}/src/lib.rt: a name or a module is passed on in a way that couldn't be read")
    here = {module.split("/")[0] for module in sources} | {"self", "super"}
    for module, name in found:
        if module.split("/")[0] in here and not re.search(rf"^pub (?!use )[^(]*\b{name}\b", sources.get(module, ""), re.M):
            unread.append(f"crates/{crate}/src/lib.rt: {name} is passed on from {module}, where it couldn't be found")
    return found


def contracts_of(crate, sources, definitions, unread):
    """A statement for each function of a crate, whose files are given by their names in src/."""
    passed_on = passed_on_from(crate, sources, unread)
    types = {name for module, text in sources.items() for name in re.findall(r"^pub (?:struct|enum) (\w+)", text, re.M)
             if module == "lib" or (module, name) in passed_on}
    # an impl for a type of another crate is reached by that type
    foreign = {owner.name for text in sources.values() for owner in owners_of(text)} - {
        match[1] for text in sources.values() for match in TYPE.finditer(text)}
    for module, text in sources.items():
        where = f"crates/{crate}/src/{module}.rt"
        unread += [f"{where}: {path} is imported" for path, _ in from_proofs(text)]
        scope = definitions.scope_of(where, text, unread)
        for f in functions_of(where, text, unread):
            public = f.pub and (f.owner in types | foreign if f.owner else module == "lib" or (module, f.name) in passed_on)
            name = f"the contract of {f'{f.owner}::' * bool(f.owner)}{f.name} in {where}"
            yield Statement(name, public, cited_in(name, f.contract, scope, unread, f.parameters))


# ---------------------------------------------------------------------------
# Theorems
# ---------------------------------------------------------------------------

def concluded_in(statement):
    """What stands after the last arrow that is in no bracket."""
    depth = last = 0
    for place, sign in enumerate(statement):
        depth += (sign in "({") - (sign in ")}")
        if sign == "→" and depth == 0:
            last = place + 1
    return statement[last:]


def up_to_where(lines):
    before = list(takewhile(lambda l: not l.endswith(" where"), lines))
    return " ".join(lines[:len(before) + 1])


def public_names_of(text):
    """The public names of a file of proofs/, each with its type and the hypotheses of the modules around it."""
    lines = text.split("\n")
    around = []
    for i, line in enumerate(lines):
        indent = len(line) - len(line.lstrip())
        around = [outer for outer in around if outer[0] < indent]
        named = re.match(r" *(?:abbrev |unfoldable )?pub (\S+) : ", line + " ")
        further = list(takewhile(lambda l: len(l) - len(l.lstrip()) > indent, lines[i + 1:]))
        if re.match(r" *(?:pub )?(?:module|record) ", line):
            around.append((indent, up_to_where(lines[i:])))
        elif named and not any(re.match(" *(?:pub )?record ", outer[1]) for outer in around):
            yield named[1], " ".join([line[named.end() - 1:], *further]), " ".join(outer[1] for outer in around)


def theorems_of(crate, file, text, definitions, unread):
    """A statement for each theorem of proofs/XHolds.antt."""
    where, text = f"crates/{crate}/proofs/{file}.antt", without_comments(text, "--")
    claims = {d for d in definitions.all if (d.crate, d.file) == (crate, re.sub("Holds?$", "", file)) and d.claim and not d.private}
    scope = definitions.scope_of(where, text, unread)
    proofs = {name.strip() for _, names in from_proofs(text) for name in names.split(",")}
    proofs |= {declared[2] or declared[3] for declared in re.finditer("^ *" + DECLARED.pattern, text, re.M)}
    for name, statement, around in public_names_of(text):
        if claims & cited_in(where, concluded_in(statement), scope, []):
            label, whole = f"the theorem {name} in {where}", f"{around} {statement}"
            tokens = TOKEN.findall(whole)
            defined_there = {*used_in(tokens)} & proofs - {*bound_in(tokens)} - scope.keys()
            unread += [f"{label} cites {cited} of proofs/" for cited in sorted(defined_there)]
            yield Statement(label, True, cited_in(label, whole, scope, unread))


# ---------------------------------------------------------------------------
# All of it
# ---------------------------------------------------------------------------

def sources():
    """The text of every file that is read, by its path."""
    return {path.relative_to(ROOT).as_posix(): path.read_text(encoding="utf-8")
            for pattern in ("specs/**/*.antt", "proofs/*.antt", "src/**/*.rt") for path in sorted(ROOT.glob(f"crates/*/{pattern}"))}


def statements_of(files, definitions, unread):
    crates = {}
    for path, text in files.items():
        source = re.fullmatch(r"crates/(\w+)/src/(.+)\.rt", path)
        proofs = re.fullmatch(r"crates/(\w+)/proofs/(\w+Holds?)\.antt", path)
        if source:
            crates.setdefault(source[1], {})[source[2]] = without_comments(text, "//")
        elif proofs:
            yield from theorems_of(proofs[1], proofs[2], text, definitions, unread)
    for crate, modules in crates.items():
        yield from contracts_of(crate, modules, definitions, unread)


def reached(statements, uses):
    """Every definition that statements cite or that these use, with what it was reached from."""
    reached_from = {}
    todo = [(definition, statement.name) for statement in statements for definition in sorted(statement.cites)]
    while todo:
        definition, origin = todo.pop()
        if definition not in reached_from:
            reached_from[definition] = origin
            todo += [(used, definition) for used in sorted(uses[definition])]
    return reached_from


def judge(files):
    """What is wrong, and what was counted."""
    wrong = []
    definitions = Definitions(files, wrong)
    uses = {definition: definitions.used_by(definition, wrong) for definition in sorted(definitions.all)}
    statements = list(statements_of(files, definitions, wrong))
    believed = reached([statement for statement in statements if statement.public], uses)
    cited = reached(statements, uses)
    for definition in uses:
        if definition.private and definition in believed:
            wrong.append(f"{definition} is for private functions, and must be believed: {believed[definition]} uses it")
        elif definition.private and definition not in cited:
            wrong.append(f"{definition} serves no contract: it belongs in proofs/, or nowhere")
        elif not definition.private and definition not in believed:
            wrong.append(f"{definition} serves no public function's contract and no theorem: it belongs in a file Private*.antt, in "
                         "proofs/, or nowhere")
    private = [definition for definition in uses if definition.private]
    return wrong, (f"{len(believed)} definitions to be believed, {sum(d.lines for d in believed)} lines; "
                   f"{len(private)} for private functions only, {sum(d.lines for d in private)} lines")


def main():
    wrong, counted = judge(sources())
    print("\n".join(wrong) or counted)
    sys.exit(bool(wrong))


if __name__ == "__main__":
    main()
