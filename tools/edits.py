"""Edits of a crate's code that the prover has to refuse, and copies of a crate in which they are made.

An edit is a file in the form that `rt` reads, with one line more or two, which it passes over:

    # by: MODULE::TYPE::FUNCTION   the function whose proof refuses it, as the prover names it below the crate
    # with: FUNCTION ..            functions that it calls, without whose bodies its goals are not tried; or no line
    file: src/lines.rt
    old: column.saturating_add(1)  stands once in that file, in the body of this function or outside of all bodies
    new: column

A function is proved from its own body and from the contracts of what it calls. So a copy has the bodies of
the functions alone that its edits name, and the proof of the others is not paid for. Nor has it their proof files,
which name steps of these bodies: a proof file is read only where those of the functions that it calls can be.
"""

import re
import shutil
from typing import NamedTuple

LINE = re.compile(r"^(# by|# with|file|old|new): ?(.*)$", re.M)
FUNCTION = re.compile(r'^( *)(?:pub(?:\([a-z ]+\))? )?(?:final )?(?:const )?(?:unsafe )?(?:extern "C" )?fn (\w+)')
TRAIT = re.compile(r"(?:pub(?:\([a-z ]+\))? )?trait (\w+)")
IMPL = re.compile(r"(?:unsafe )?impl\b")
HEAD = 12  # lines that the head of an impl may take
LEFT_OUT = "unreachable!()"  # stands for a body that a copy doesn't have, whatever the function returns
PARTS = ("src", "specs", "proofs")
PROOFS = ("Answers.antt", "Invariants.antt", "Proof.antt")  # of a function, in a folder of its name


class BadEdit(ValueError):
    """An edit that can't be made, which the words say why."""


class Edit(NamedTuple):
    """A wrong belief, the function that refuses it, what it changes: a file, its text and a new one, each, and the
    functions that keep their bodies beside that one."""

    name: str
    by: str
    pairs: tuple
    beside: tuple

    def function(self):
        """The name of the function alone."""
        return self.by.rpartition("::")[2]

    def key(self):
        """The function as `functions` tells it: its type, or nothing, and its name."""
        owner = self.by.split("::")[-2:-1]
        return owner[0] if owner and owner[0][0].isupper() else "", self.function()

    def keys(self):
        """The functions that have a body for it, each as `key`; those beside of any type."""
        return {self.key(), *((None, name) for name in self.beside)}


def read_edit(name, text):
    """The edit of this name and text. It may be cut short, which `made` tells."""
    by, file, old, pairs, beside = "", "", "", [], ()
    for word, rest in LINE.findall(text):
        if word == "# by":
            by = rest
        elif word == "# with":
            beside = tuple(rest.split())
        elif word == "file":
            file = rest
        elif word == "old":
            old = rest
        else:
            pairs.append((file, old, rest))
    return Edit(name, by, tuple(pairs), beside)


def edits_in(folder):
    """The edits in a folder, by their names."""
    return [read_edit(path.stem, path.read_text()) for path in sorted(folder.glob("*.edit"))]


def sources(folder):
    """The texts of a crate's code, by their paths in its folder."""
    return {str(path.relative_to(folder)): path.read_text() for path in sorted((folder / "src").rglob("*.rt"))}


def made(edit, texts):
    """The texts with the edit made."""
    texts, before = dict(texts), texts
    for file, old, new in edit.pairs:
        count = texts.get(file, "").count(old) if old else 0
        if count != 1:
            raise BadEdit(f"its text stands {count} times in {file or 'no file'}, and not once: {old}")
        texts[file] = texts[file].replace(old, new)
    if not edit.by or texts == before:
        raise BadEdit("it names no function" if not edit.by else "it changes nothing")
    return texts


# ---- bodies


def without_bodies(text, kept=frozenset()):
    """A text in which the functions have no body but those that are among these keys. (It has to be laid out as
    `rt fmt` does: a body ends at the indentation of its function.)"""
    lines, left, behind = text.split("\n"), [], 0
    for owner, head, at, opening, end in functions(lines):
        if opening < end and not is_kept(owner, head[2], kept):
            left += [*lines[behind : opening + 1], f"{head[1]}    {LEFT_OUT}", lines[end]]
            behind = end + 1
    return "\n".join(left + lines[behind:])


def functions(lines):
    """The functions of a text: the type that each is of, or nothing; its head; and the lines of its head, and where
    its body begins and ends. What is of a trait has the type's name and the trait's behind it."""
    owner, at = "", 0
    while at < len(lines):
        head = FUNCTION.match(lines[at])
        if IMPL.match(lines[at]) or TRAIT.match(lines[at]):
            owner = owner_of(" ".join(lines[at : at + HEAD]).partition("{")[0])
        elif lines[at] == "}":
            owner = ""
        elif head:
            opening, end = body_of(lines, at, head[1])
            yield owner if head[1] else "", head, at, opening, end
            at = end
        at += 1


def owner_of(head):
    """The name by which the prover tells the functions of an impl, or of a trait, as far as its head says it."""
    if TRAIT.match(head):
        return TRAIT.match(head)[1]
    plain = re.sub(r"'\w+ |&|->", "", head.partition("impl")[2])
    while plain != (plain := re.sub(r"<[^<>]*>", "", plain)):
        pass
    trait, is_of_trait, name = plain.partition(" where ")[0].rpartition(" for ")
    name, trait = (it.strip().rpartition("::")[2] for it in (name, trait))
    return (name if len(name) > 1 else "Any") + trait if is_of_trait else name


def is_kept(owner, name, kept):
    """Whether a function is among these keys. (The prover tells some arguments of a trait behind its name.)"""
    return any(name == other and (of is None or of == owner or owner and of.startswith(owner)) for of, other in kept)


def body_of(lines, at, indent):
    """The lines in which the body of a function begins and ends, or twice its last where it has none, or an
    empty one."""
    depth = 0
    for opening in range(at, len(lines)):
        line = lines[opening]
        is_outer = opening == at or re.match(rf"{indent}\S", line)
        depth += line.count("{") - line.count("}")
        if is_outer and line.endswith("{"):
            return opening, lines.index(indent + "}", opening)
        if depth == 0 and (line.endswith(";") or is_outer and line.endswith("}")):
            return opening, opening
    return at, at


def is_in_a_body(edit, texts):
    """Whether the edit changes bodies alone."""
    changed = made(edit, texts)
    return all(without_bodies(changed[file]) == without_bodies(texts[file]) for file, _, _ in edit.pairs)


# ---- copies


def copies_of(edits, texts):
    """The edits of a crate, as lists whose edits one copy can have: each is refused by another function. What
    is no body may be read by any function, so an edit of that has a copy of its own."""
    shared, single = [], []
    for edit in edits:
        if not is_in_a_body(edit, texts):
            single.append([edit])
            continue
        copy = next((it for it in shared if go_together([*it, edit], texts)), None)
        if copy is None:
            shared.append([edit])
        else:
            copy.append(edit)
    return shared + single


def go_together(edits, texts):
    """Whether one copy can have these edits: each is of another function, and none writes what another one replaces."""
    if len({edit.by for edit in edits}) < len(edits):
        return False
    try:
        for edit in edits:
            texts = made(edit, texts)
    except BadEdit:
        return False
    return True


def copied(edits, texts, are_made=True):
    """The texts of a copy that has these edits, of which each has to be seen there, or of the copy without them."""
    kept = {edit.key() for edit in edits}
    for edit in edits:
        changed = made(edit, texts)
        if all(without_bodies(changed[file], kept) == without_bodies(texts[file], kept) for file in texts):
            raise BadEdit(f"it stands in the body of another function than {edit.by}")
    for edit in edits if are_made else []:
        texts = made(edit, texts)
    kept.update(*(edit.keys() for edit in edits))
    return {file: without_bodies(text, kept) for file, text in texts.items()}


def copy_crate(folder, place, texts, edits):
    """Makes the copy of a crate with these texts of its code, and the proof files of what these edits name."""
    for part in PARTS:
        if (folder / part).is_dir():
            shutil.copytree(folder / part, place / part)
    for file, text in texts.items():
        (place / file).write_text(text)
    own = {edit.by.replace("::", "/") for edit in edits}
    beside = {name for edit in edits for name in edit.beside}
    for path in [it for it in (place / "proofs").rglob("*.antt") if it.name in PROOFS]:
        name = path.parent.name
        # (the file of functions that call one another has a name of its own)
        if not (name in beside or name.startswith("+") or str(path.parent.relative_to(place / "proofs")) in own):
            path.unlink()
