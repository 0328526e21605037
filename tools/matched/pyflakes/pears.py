import os


def weigh(pear):
    unused = 1
    """é"""; return pears
