"""Pictures in colours, for all tools that show them: the escapes of a picture become runs of one colour,
as a terminal shows them on a dark ground."""

import re

TEXT, PAPER = "#d4d4d4", "#1e1e1e"
# What sets a colour, or takes it back; else a piece of text.
COLOR_OR_TEXT = re.compile(r"\x1b\[(0|[39][0-7]|38;5;[0-9]+)m|([^\x1b]+|\x1b)")
# The first eight colours of a terminal, and the same bright.
NAMED = ["#000000", "#cd3131", "#0dbc79", "#e5e510", "#2472c8", "#bc3fbc", "#11a8cd", "#e5e5e5"]
BRIGHT = ["#666666", "#f14c4c", "#23d18b", "#f5f543", "#3b8eea", "#d670d6", "#29b8db", "#ffffff"]


def fixed(number):
    """The colour of this number of 256: sixteen named ones, a cube, and greys."""
    if number < 16:
        return (NAMED + BRIGHT)[number]
    if number >= 232:
        return "#" + 3 * f"{8 + 10 * (number - 232):02x}"
    steps = [0, 95, 135, 175, 215, 255]
    places = (number - 16) // 36, (number - 16) // 6 % 6, (number - 16) % 6
    return "#" + "".join(f"{steps[place]:02x}" for place in places)


def color_of(words):
    """The colour that the numbers of an escape set."""
    if words == [0]:
        return TEXT
    if words[:2] == [38, 5]:
        return fixed(words[2])
    (number,) = words
    return NAMED[number - 30] if number < 90 else BRIGHT[number - 90]


def runs_of(picture):
    """The rows of a picture, each as runs of a colour and a text. An escape that is no colour's stands as
    it is written."""
    color = TEXT
    for row in picture.removesuffix("\n").split("\n"):
        runs = []
        for words, text in COLOR_OR_TEXT.findall(row):
            text = text.replace("\x1b", r"\x1b")
            if words:
                color = color_of([int(word) for word in words.split(";")])
            elif runs and runs[-1][0] == color:
                runs[-1][1] += text
            else:
                runs.append([color, text])
        yield runs
