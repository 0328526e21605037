"""Texts that misuse a terminal, and the signs that stand for their hidden characters, for all tools; and the lines
that ariadne-show lets through, with such texts in them.

An attack stands in each line that is no diagnostic, in a quoted line that is another than the file's, and in a
diagnostic whose file is gone. Behind each stands a row that has to be seen. What is shown is judged by the
terminal of terminal.py: it does nothing but show rows, with colours alone where these are asked for, and a row
of a text stays in one row.
"""

import terminal

# The controls, and the marks that turn a text or are not seen.
FEW = 48  # of the many tags and selectors
HIDDEN = (
    *map(chr, (*range(32), *range(0x7F, 0xA0))), *terminal.DIRECTION_MARKS,
    *(chr(code) for first, behind in terminal.UNSEEN for code in range(first, min(behind, first + FEW))),
    "\U000e0041", "\U000e0100", "\U000e0fff",
)  # fmt: skip
ATTACKS = {
    "cursor up, erased, then hidden": "\x1b[3A\x1b[1G\x1b[J0 errors, 0 warnings\x1b[8m",
    "screen erased": "\x1b[2J\x1b[H",
    "row erased": "\x1b[2K\x1b[1G",
    "hidden": "\x1b[8m",
    "reset": "\x1bc",
    "title": "\x1b]0;all is well\x07",
    "clipboard": "\x1b]52;c;cm0gLXJmIH4=\x07",
    "link": "\x1b]8;;http://a.example\x1b\\here\x1b]8;;\x1b\\",
    "a string that swallows": "\x1bP",
    "second page": "\x9b3A\x9b1G\x9bJ",
    "next line of the second page": "\x8d\x84",
    "backspaces": "\b\b\b\b\b\bok",
    "a bell": "\x07",
    "DEL": "\x7f",
    "override": "\u202e } \u2066if admin\u2069 \u2066",
    "marks": "a\u200eb\u200fc\u061cd",
    "unseen": "a\u200bb\u2060c\ufeffd\u180be\ufff9f\U000e0100",
    "two names that look alike": "pass\u00adword pass\u3164 pass\u2800 pass\ufe00\ufe01 pass\U0001d159",
    "each of them": "".join(HIDDEN),
}
BLACK = "\x1b[38;2;0;0;0m"
# What only a line that goes through could do: a text in a picture ends before the next one is painted.
LINE_ATTACKS = {
    "a colour that isn't taken back": BLACK,
    "a colour among others": "\x1b[1;38;2;0;0;0;4m",
    "a hidden text among others": "\x1b[0;1;8;31m",
    "colons": "\x1b[38:2::0:0:0m",
    "a private mark": "\x1b[?25l",
    "blanks in a sequence": "\x1b[2 q",
    "a link that bells end": "\x1b]8;;http://a.example\x07here\x1b]8;;\x07",
    "a link without an end": "\x1b]8;;http://a.example",
    "a link that no link ends": "\x1b]8;;http://a.example\x1b\\",
    "a title without an end": "\x1b]0;all is well",
    "a string of the second page without an end": "\x9d0;all is well",
    "an escape at the end": "\x1b",
    "a sequence at the end": "\x1b[",
    "a sequence that is cut by another": "\x1b[3\x1b[2J",
    "a stop of all output": "\x13",
    "shifted out": "\x0e",
}
# Where a row shows a text whole, these misuse it too. (In a source they end its lines, or are blanks.)
ROW_ATTACKS = {"carriage return": "evil\rgood", "form feed": "a\x0cb", "tab": "a\tb", "next line": "a\x85b"}

# ---- signs

RANGES = (
    (0, 0x1F), (0x7F, 0x9F), (0xAD, 0xAD), (0x34F, 0x34F), (0x61C, 0x61C), (0x115F, 0x1160), (0x17B4, 0x17B5),
    (0x180B, 0x180F), (0x200B, 0x200F), (0x2028, 0x202E), (0x2060, 0x206F), (0x2800, 0x2800), (0x3164, 0x3164),
    (0xFE00, 0xFE0D), (0xFEFF, 0xFEFF), (0xFFA0, 0xFFA0), (0xFFF0, 0xFFFB), (0x13430, 0x1345F),
    (0x16FE4, 0x16FE4), (0x1BCA0, 0x1BCA3), (0x1D159, 0x1D159), (0x1D173, 0x1D17A), (0xE0000, 0xE0FFF),
)  # fmt: skip


def is_hidden(character):
    """Whether a character is one of those that have a sign."""
    code = ord(character)
    return any(low <= code <= high for low, high in RANGES)


def sign(character):
    """What stands for a hidden character."""
    code = ord(character)
    return chr(0x2400 + code) if code < 32 else {0x7F: "\u2421", 0x85: "\u2424"}.get(code, "\ufffd")


# ---- lines that go through

# What is no text: bytes of the second page, and those of cut characters before an escape.
BYTES = {"a byte of the second page": b"\x9b2J", "a cut character": b"\xe6\xbc\x1b[2J", "overlong": b"\xc0\x9b[2J"}
# Each line that goes through; the attack stands for `{}`.
LINES = (
    "{}",
    "make: nothing to be done{} for it",
    "gone.c:1:2: error: no such file{} [-Wgone]",
    "gone{}.c:1:2: warning: no such file",
    "    1 | int gone; {}",
    "      |     ^~~~ {}",
    "gone.c: In function `f{}`:",
    "In file included from gone{}.h:1,",
    "corpus/c/01_plain.c:2:13: warning: quotes another line\n    2 |     int y = {};\n      |             ^~~",
    "corpus/c/01_plain.c:2:13: warning: has another row below\n    2 |     int x = \"a\";\n      |             ^~~ {}",
    "In file included from corpus/c/07_include.c:1:\nno head{} behind a front",
    "2 errors generated.{}",
    '{"reason": "no message", "text": "{}"}',
    '[{"kind": "error", "{}": 1}]',
    "error[E0425]: no arrow{} follows\n  |\n",
    "************* Module {}",
)
SEEN = "this row is seen"
# What this terminal doesn't obey, or may stay.
NOT_SEEN = ("tab", "colons", *BYTES)


def line_attacks():
    """All attacks, by their names, in bytes."""
    texts = ATTACKS | ROW_ATTACKS | LINE_ATTACKS
    yield from ((name, text.encode()) for name, text in texts.items())
    yield from BYTES.items()


def harmless():
    """The attacks that do nothing on a terminal of UTF-8 though nothing is done against them."""
    for name, attack in line_attacks():
        if name not in NOT_SEEN and not list(faults_of(attacked(attack))):
            yield name


def attacked(*attacks):
    """The lines that go through, with each attack in each of them, and a row behind each."""
    pairs = ((attack, line.encode()) for attack in attacks for line in LINES)
    return b"".join(b"%s\n%s\n" % (line.replace(b"{}", attack), SEEN.encode()) for attack, line in pairs)


def faults_of(output, count=1):
    """What an output of so many attacks did to a terminal beside showing rows. Tabs stay."""
    text = output.decode("utf-8", "replace")
    screen = terminal.shown(text.replace("\t", " "))
    yield from screen.misused
    for kind in (terminal.Terminal(), terminal.Terminal(background=(0, 0, 0))):
        seen = terminal.shown(text.replace("\t", " "), kind).text()
        missed = count * len(LINES) - seen.count(SEEN)
        if missed:
            yield f"{missed} rows behind it are not seen"
