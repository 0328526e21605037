"""Draws a workload of docs/dev/SPEED.md again and again: bench.py two|nested|two-safe|nested-safe|edits-LINES N,
which prints NAME N BYTES CHECKSUM NANOSECONDS. Texts are drawn as they are, or safely. Each call hands in the
report and the source anew, and finds the lines. The last workload suggests an edit in each of so many lines.
"""

import sys
import time

from sewarqo import Config, Edit, Label, Report

LINES, DEEP = 50, 20
ENDS = [(14, 19), (22, 26), (29, 34), (37, 42)]  # the words of a line


def two():
    """Two labels in one line."""
    labels = [Label(None, 0, 5, "This is an apple"), Label(None, 9, 15, "This is an orange")]
    return "apple == orange;", Report("error", "can't compare apples with oranges", labels=labels)


def nested():
    """Four labels in each of 50 lines, and 20 over several lines, of which each lies inside the next."""
    labels = []
    for line in range(LINES):
        at = 50 * line
        labels += (Label(None, at + start, at + end, f"inline {line} {word}") for word, (start, end) in enumerate(ENDS))
        first = LINES - 1 - line
        if first < DEEP:
            labels.append(Label(None, 50 * first + 4, at + 48, f"nested {first}"))
    return lines(LINES), Report("error", "nested", labels=labels)


def lines(count):
    """So many lines of 50 bytes, which are numbered from 0."""
    return "".join(f"let v{line:06} = alpha + beta * gamma - delta (eps);\n" for line in range(count))


def rendering(name):
    """A call that draws a report."""
    source, report = {"two": two, "nested": nested}[name.replace("-safe", "")]()
    config = Config(color=False, ascii=True, safe=name.endswith("-safe"))
    return lambda: report.render(source, config)


def suggesting(count):
    """A call that suggests another word in each of so many lines."""
    source = lines(count)
    edits = [Edit(50 * line + 14, 50 * line + 19, "omega") for line in range(count)]
    return lambda: Report.suggest(source, edits)


def checksum(text):
    value = 0xCBF29CE484222325
    for byte in text.encode():
        value = (value ^ byte) * 0x100000001B3 % 2**64
    return value


name, turns = sys.argv[1:]
call = suggesting(int(name[len("edits-") :])) if name.startswith("edits-") else rendering(name)
picture = call()  # (which loads the library)
start = time.perf_counter_ns()
for _ in range(int(turns)):
    picture = call()
spent = time.perf_counter_ns() - start
print(name, turns, len(picture.encode()), f"{checksum(picture):016x}", spent)
