"""Pears."""
import os


def weigh(pear):
    """Weighs."""
    if pear == None:
        return 1
    "é"; return pears


LIGHT = "é"  # TODO: apples
def light(one, two, three, four, five, six):
    """Tells the light ones."""
    return one, two, three, four, five, six
