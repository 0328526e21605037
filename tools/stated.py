"""Reads what the crates promise: the named clauses of their functions, and the fields of the records that these
cite, by themselves or through other definitions.

A clause is `ensures NAME { .. }` in crates/CRATE/src, or one without a name. A record is one of crates/CRATE/specs,
and a field of it is a sentence where its type is more than numbers, lists and other data, and no later field is
made of it. What a clause cites is told by the words of its text, by the imports of its file, and by the words of
the definitions that these name. A function without a body, `{}`, is a law.
"""

import re
from functools import cache
from pathlib import Path
from typing import NamedTuple


ROOT = Path(__file__).resolve().parent.parent
WORD = re.compile(r"[^\W\d][\w-]*")
IMPORT = re.compile(r"^ *(?:ghost )?(?:pub )?use Rattle\.(\w+)\.specs\.([\w.]+)\.\{([^}]*)\}", re.M)
DEFINED = re.compile(r"^ *(?:(?:abbrev|unfoldable) pub (\w[\w-]*)|pub (?:record|data) (\w+))(?![\w-])", re.M)
FUNCTION = re.compile(
    r'^( *)(?:pub(?:\([a-z ]+\))? )?(?:final )?(?:const )?(?:unsafe )?(?:extern "C" )?fn (\w+)')
CLAUSE = re.compile(r"\bensures(?: (\w+))? \{")
IMPL = re.compile(
    r"^(?:unsafe )?impl\b(?:<.*?>)? (?:(?P<trait>\w+)(?:<.*?>)? for )?(?P<type>\w+)"
    r"|^(?:pub(?:\([a-z ]+\))? )?trait (?P<own>\w+)")
# The types that say nothing, beside those of code and the variables of types.
DATA = {*"ℕ Bool List Option Vec String Global Bor MutBor Result Unit Type HashMap".split()}
VARIABLE = re.compile(r"[A-Z][a-z]?$")


class Field(NamedTuple):
    """A field of a record, and where its type begins and ends in the file of that."""

    crate: str
    file: str
    record: str
    name: str
    start: int
    end: int

    def told(self):
        return f"field {Path(self.file).stem}.{self.record}.{self.name}"


class Clause(NamedTuple):
    """A clause of a function, whose name is that of `rt check` below the crate, as far as the code tells it."""

    crate: str
    function: str
    name: str
    text: str
    cites: frozenset
    is_law: bool

    def told(self):
        return f"clause {self.function} {self.name}".rstrip()

    def owner(self):
        """The type or the trait that has the function, or an empty name."""
        name = self.function.split("::")[-2:][0]
        return name if name[0].isupper() else ""


# ---- definitions


class Definitions:
    """The definitions of a file of specs/, by their names, and what its imports name."""

    def __init__(self, crate, path):
        self.crate, self.file = crate, str(path.relative_to(ROOT / "crates" / crate))
        self.module = ".".join(path.relative_to(ROOT / "crates" / crate / "specs").with_suffix("").parts)
        self.text = re.sub(r"^ *--.*$", lambda it: " " * len(it[0]), path.read_text(), flags=re.M)
        heads = list(DEFINED.finditer(self.text))
        ends = [head.start() for head in heads[1:]] + [len(self.text)]
        self.places = {head[1] or head[2]: (head.start(), end) for head, end in zip(heads, ends)}
        self.imports = imports_of(self.text)

    def body(self, name):
        start, end = self.places[name]
        return self.text[start:end]

    def named(self, word):
        """What a word of this file names: a crate, a file of its specs/ and a name there, or None."""
        return (self.crate, self.module, word) if word in self.places else self.imports.get(word)

    def cited(self, name):
        """What a definition cites."""
        return [it for it in map(self.named, WORD.findall(self.body(name))) if it]


def imports_of(text):
    """What the words name that a file imports from specs/."""
    found = {}
    for crate, module, names in IMPORT.findall(text):
        for name in names.split(","):
            first, _, other = name.strip().partition(" as ")
            found[other.strip() or first] = (crate, module, first)
    return found


@cache
def specs_of(crate):
    """The files of a crate's specs/, by their modules."""
    files = [Definitions(crate, path) for path in sorted((ROOT / "crates" / crate / "specs").rglob("*.antt"))]
    return {it.module: it for it in files}


def file_of(node):
    """The file that defines something, or None where it is none of this repository."""
    crate, module, name = node
    file = specs_of(crate).get(module)
    if file is None or name in file.places:
        return file
    # (An import may name a file that hands on what another one defines.)
    return file_of(file.imports[name]) if name in file.imports else None


@cache
def reached(nodes):
    """All definitions that these cite, by themselves or through others, and themselves."""
    found, rest = set(), list(nodes)
    while rest:
        node = rest.pop()
        file = file_of(node)
        own = file and (file.crate, file.module, node[2])
        if own and own not in found:
            found.add(own)
            rest += file.cited(node[2])
    return frozenset(found)


# ---- fields


def lines_of_record(file, name):
    """The fields of a record: of each its name, and where its type begins and ends."""
    start, end = file.places[name]
    head = re.compile(r"(?P<indent> *)pub record (?:.*\n)*?.*\bwhere\n").match(file.text, start, end)
    lines = rf"^ {{{len(head['indent']) + 2}}}pub (\w[\w-]*) : ((?:.*\n)(?:^ {{{len(head['indent']) + 3},}}.*\n)*)"
    for found in re.compile(lines, re.M).finditer(file.text, head.end(), end):
        yield found[1], found.start(2), found.start(2) + len(found[2].rstrip())


def is_record(file, name):
    return re.match(r" *pub record ", file.body(name)) is not None


@cache
def fields_of(crate):
    """The fields of a crate's records that are sentences."""
    return [it for file in specs_of(crate).values() for name in file.places for it in sentences_of(file, name)]


def sentences_of(file, name):
    lines = list(lines_of_record(file, name)) if is_record(file, name) else []
    for at, (field, start, end) in enumerate(lines):
        behind = " ".join(file.text[other:last] for _, other, last in lines[at + 1 :])
        is_used = re.search(rf"(?<![.\w-]){field}(?![\w-])(?! =)", behind)
        if not is_used and not is_data(file, file.text[start:end]):
            yield Field(file.crate, file.file, name, field, start, end)


def is_data(file, text, seen=()):
    """Whether a type is one of data."""
    if re.search(r"[≡≢≤<↔⊥¬⊤]", text):
        return False
    return all(is_word_of_data(file, word, seen) for word in WORD.findall(text))


def is_word_of_data(file, word, seen):
    node = file.named(word)
    if word in DATA or node is None and VARIABLE.match(word) or node and node[1].startswith("declared."):
        return True
    own = node and file_of(node)
    if own is None or node in seen:
        return own is not None
    seen = (*seen, node)
    if is_record(own, node[2]):
        return all(is_data(own, own.text[start:end], seen) for _, start, end in lines_of_record(own, node[2]))
    kind, _, body = own.body(node[2]).partition("=")
    if re.match(r" *pub data ", kind):
        return not re.search(r"[≡≢≤<↔⊥¬⊤]", kind)
    return re.search(r": Type 0\s", kind) is not None and is_data(own, body, seen)


# ---- clauses


@cache
def clauses_of(crate):
    """The clauses of a crate's functions, but for those of tests."""
    source = ROOT / "crates" / crate / "src"
    return [it for path in sorted(source.rglob("*.rt")) for it in clauses_in(crate, source, path)]


def clauses_of_function(crate, by):
    """The clauses of the function that `rt check` names so. At a method it names the module of the type, and of
    that of a trait the types too, so the clauses may stand at the trait."""
    owner, _, function = by.rpartition("::")
    same = [it for it in clauses_of(crate) if it.function.rpartition("::")[2] == function]
    exact = [it for it in same if it.function == by]
    kind = owner.rpartition("::")[2]
    of_type = [it for it in same if it.owner() == kind] if kind[:1].isupper() else []
    return exact or of_type or [it for it in same if it.owner() and it.owner() in kind]


def clauses_in(crate, source, path):
    text = path.read_text()
    module = [it for it in path.relative_to(source).with_suffix("").parts if it not in ("lib", "main")]
    lines, imports, owner = text.split("\n"), imports_of(text), []
    for at, line in enumerate(lines):
        # (The parameters of an `impl` may take lines of their own.)
        whole = line if line != "impl<" else "impl<" + next(it for it in lines[at:] if it.startswith(">"))
        impl, head = IMPL.match(whole), FUNCTION.match(line)
        if line and not line.startswith((" ", "}", ">", "#", "/")):
            owner = []
        if impl:
            owner = [impl["own"] or impl["type"] + (impl["trait"] or "")]
        if head and "#[test]" not in lines[at - 1]:
            end = end_of_head(lines, at, head[1])
            stated = "\n".join(re.sub(r"//.*", "", it) for it in lines[at:end])
            function = "::".join([*module, *(owner if head[1] else []), head[2]])
            for name, words in texts_of_clauses(stated):
                cites = frozenset(imports[it] for it in WORD.findall(words) if it in imports)
                yield Clause(crate, function, name, words, cites, lines[end] == head[1] + "{}")


def end_of_head(lines, at, indent):
    """The line behind the clauses of a function, where its body begins, or what stands behind it."""
    if lines[at].endswith("{"):
        return at
    for end in range(at + 1, len(lines)):
        is_inner = lines[end].startswith(f"{indent} ") or not lines[end]
        if not is_inner and not re.match(rf"{indent}(where$|\).*[^{{;]$)", lines[end]):
            return end
    return len(lines) - 1


def texts_of_clauses(stated):
    """The clauses of a function, by the lines above its body: each with its name and its text."""
    for found in CLAUSE.finditer(stated):
        depth, end = 1, found.end()
        while depth:
            depth += (stated[end] == "{") - (stated[end] == "}")
            end += 1
        yield found[1] or "", stated[found.end() : end - 1].strip()


# ---- records as terms


def literals(text):
    """The records that a proof writes, `record { FIELD = TERM; .. }`: of each the places of its terms, by fields."""
    for head in re.finditer(r"\brecord \{", text):
        depth, at, found, name, start = 0, head.end(), {}, None, head.end()
        while at < len(text) and depth >= 0:
            sign = text[at]
            depth += (sign in "({[") - (sign in ")}]")
            if depth == 0 and sign == "=" and name is None and text[at - 1] == " " and text[at + 1] in " \n":
                name, start = text[start:at].split(";")[-1].strip(), at + 1
            if (depth == 0 and sign == ";" or depth < 0) and name is not None:
                found[name], name, start = (start, at), None, at + 1
            at += 1
        yield found


def fields_at(text, line, column):
    """The fields in whose terms this place of a proof stands: of each record its fields, and that one."""
    place = len("".join(f"{it}\n" for it in text.split("\n")[: line - 1])) + column - 1
    for found in literals(text):
        for name, (start, end) in found.items():
            if start <= place < end:
                yield frozenset(found), name
