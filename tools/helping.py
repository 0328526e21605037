"""What a tool says to --help: the text at its head."""

import sys


def tell_help(text):
    """Prints the text at the head of a tool and ends with status 0, where --help is its only word."""
    if sys.argv[1:] == ["--help"]:
        print(text.strip())
        sys.exit()
