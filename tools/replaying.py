"""Reports that are drawn by ariadne_replay: how the program is had, and how it is asked."""

import json
import subprocess
import sys

from cases import case_of
from started import started

# Each report of such a number is told whole, and those between without what a case has that tells none: an unproved
# build reads a short case as long as it draws it.
WHOLE = 8


def program():
    """The file that starts the program, which is built first where that was not done."""
    return started("ariadne_replay")


def ask(cases, folder=None):
    """The status with which the program ends, and what it says of each of these cases, by name. The
    files that they name lie in a folder."""
    ran = subprocess.run([program()], input=cases.encode(), stdout=subprocess.PIPE, cwd=folder)
    lines = (it for it in ran.stdout.split(b"\n") if it.startswith(b'{"answer": ') and it.endswith(b"}"))
    return ran.returncode, {answer.pop("answer"): answer for answer in map(json.loads, lines)}


def answers_to(cases, folder=None):
    """What the program says of each of these cases, by name. A run that fails ends this one."""
    status, answers = ask(cases, folder)
    if status:
        sys.exit(f"ariadne_replay ended with status {status}")
    return answers


def draw(reports):
    """What the program says of each report: None where it says nothing. One that fails though it has said
    something of each stopped at the last one."""
    cases = (case_of(str(number), report, number % WHOLE == 0) for number, report in enumerate(reports))
    status, answers = ask("".join(cases))
    drawn = [answers.get(str(number)) for number in range(len(reports))]
    if status and drawn and None not in drawn:
        drawn[-1] = None
    return drawn
