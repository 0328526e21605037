#!/usr/bin/env python3
"""Reads the pages, for all tools: the code of a page, the commands with their pictures and the example of
README.md and of --help, and the pictures of docs/GALLERY.md. Python tools import it. Others write a page
to it, and get a part: tools/pages.py input|picture|example|commands < README.md

`input` is what the page's first command hands to its program, and `picture` the rows that stand below
it. `example` is the page's code in Rust, and `commands` each command and its picture, with a NUL behind
each of both. The status is 0, or 2 where the words are not understood, and 1 where a page has no such part.
"""

import re
import shlex
import sys
from pathlib import Path
from typing import NamedTuple

sys.dont_write_bytecode = True
from helping import tell_help

ROOT = Path(__file__).resolve().parent.parent
README = ROOT / "README.md"
GALLERY = ROOT / "docs/GALLERY.md"

# A command, an empty line, and the picture that it draws, which all stand as far from the left.
COMMAND = re.compile(r"^( +)(printf '(.*)' \| (\S+) (.*))\n\n((?:\1.*\n)+)", re.M)
CODE = r"^```(?:{})\n(.*?)^```\n"
INDENTED = re.compile(r"(?:^    .*\n)+", re.M)
# A picture of the gallery: its name, the call that draws it, and its rows.
PICTURE = re.compile(r"^\*\*(.*?)\*\*\n\n(?:```rust\n(.*?)\n```\n\n)?```text\n(.*?)\n```\n", re.S | re.M)


def trimmed(rows):
    """Rows without the blanks at their ends."""
    return [row.rstrip(" ") for row in rows]


def rows_of(text):
    """The rows of a text, without the blanks at their ends. One that ends in a line feed has an empty
    row behind it."""
    return trimmed(text.split("\n"))


class Command(NamedTuple):
    """A command of a page: its line, what it hands to its program, its words, and its picture."""

    line: str
    input: bytes
    words: list
    rows: list


def commands_of(page):
    """The commands of a page that have a picture below them."""
    commands = []
    for indent, line, text, _, words, picture in COMMAND.findall(page):
        handed = text.encode().decode("unicode_escape").encode("latin-1")
        rows = [row.removeprefix(indent) for row in picture.removesuffix("\n").split("\n")]
        commands.append(Command(line, handed, shlex.split(words), trimmed(rows)))
    return commands


def codes_of(page, *languages):
    """All code of a page in these languages, in its order."""
    return re.findall(CODE.format("|".join(languages)), page, re.M | re.S)


def code_of(page, language):
    """The first code of a page in a language, or None."""
    return next(iter(codes_of(page, language)), None)


def indented_of(page):
    """The indented blocks of a page: their rows."""
    for found in INDENTED.finditer(page):
        yield rows_of(re.sub("^    ", "", found[0], flags=re.M).rstrip("\n"))


def is_run(rows, whole):
    """Whether rows stand side by side among others."""
    return any(whole[at : at + len(rows)] == rows for at in range(len(whole)))


def section_of(page, heading):
    """What stands below a heading of the second level, up to the next one."""
    return page.partition(f"\n## {heading}\n")[2].partition("\n## ")[0]


def dependency_of(page):
    """The line of README.md that names the library in crates.txt."""
    (line,) = re.findall(r"^    (\w+: ariadne)$", section_of(page, "Rattle"), re.M)
    return line


def table_of(page, *headings):
    """The rows of the page's first table whose headings begin so, each as its cells by the headings."""
    start = "\n| " + " | ".join(headings) + " |"
    lines = (start + page.partition(start)[2]).strip("\n").partition("\n\n")[0].split("\n")
    named, _, *rows = [[cell.strip() for cell in line.strip("|").split("|")] for line in lines]
    return [dict(zip(named, row)) for row in rows]


def pictures_of(page):
    """The pictures of a page: the name above each, the call that draws it, and its rows."""
    return [(name, call, rows_of(picture)) for name, call, picture in PICTURE.findall(page)]


def with_calls(page, call_of):
    """The page with the call above each picture that the function gives for its name."""
    def whole(found):
        return f"**{found[1]}**\n\n```rust\n{call_of(found[1])}\n```\n\n```text\n{found[3]}\n```\n"

    return PICTURE.sub(whole, page)


def part_of(page, name):
    """A part of a page, as it is written for a shell, or None where it has no such part."""
    if name == "example":
        example = code_of(page, "rust")
        return example and example.encode()
    commands = commands_of(page)
    if not commands:
        return None
    if name == "input":
        return commands[0].input
    if name == "picture":
        return "".join(row + "\n" for row in commands[0].rows).encode()
    pairs = ((it.line, "".join(row + "\n" for row in it.rows)) for it in commands)
    return "".join(f"{line}\0{picture}\0" for line, picture in pairs).encode()


def main(words):
    if len(words) != 1 or words[0] not in ("input", "picture", "example", "commands"):
        print("usage: tools/pages.py input|picture|example|commands < PAGE", file=sys.stderr)
        return 2
    part = part_of(sys.stdin.buffer.read().decode(), words[0])
    if part is None:
        print(f"pages: the page has no {words[0]}", file=sys.stderr)
        return 1
    sys.stdout.buffer.write(part)
    return 0


if __name__ == "__main__":
    tell_help(__doc__)
    sys.exit(main(sys.argv[1:]))
