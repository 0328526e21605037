"""Which file starts a program of this repository: it is asked for once, since the commands of bin/ look over all
sources in each run."""

import functools
import subprocess
import sys
from pathlib import Path

BUILT = Path(__file__).resolve().parent / "built"


@functools.lru_cache
def started(*words):
    """The file that starts the program of these words, which is built first where that was not done: see
    tools/built."""
    ran = subprocess.run([BUILT, *words], stdin=subprocess.DEVNULL, stdout=subprocess.PIPE)
    if ran.returncode:
        sys.exit(ran.returncode)
    return ran.stdout.decode().removesuffix("\n")


def shown_by():
    """The file that starts ariadne-show."""
    return started("--either", "ariadne_show_program")
