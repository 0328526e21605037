import os


def weigh(pear=[]):
    "é"; return pears
