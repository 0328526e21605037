"""The settings of a picture, as tools/settings.toml has them, for all tools.

A table has the setting's `name` in `Config` and in cases, its `default`, and with `in_cases` what a case has that names
none. A choice has its `values`; any other setting is a switch or a number, as its default is, and a number has the
`least` one. `other` is a value with other pictures, which no language may take for the case's own.

In C a switch is a flag: a `bit` by the name of `flag`, which is set if the value is `flagged`. `field` is the name in C,
C++ and Python, if it isn't that of `Config`. `about` and `flag_about` are the comments there. `counts` says what a
number of Python counts, `python` is a type that isn't the usual one. `rust` is the default of the Rust crate, if it
isn't the usual one. `added` are those that the original crate lacks.
"""

import tomllib
from pathlib import Path
from typing import NamedTuple

TABLE = tomllib.loads((Path(__file__).resolve().parent / "settings.toml").read_text())


class Setting(NamedTuple):
    """A setting, as its table has it."""

    name: str
    default: object
    in_cases: object = None
    other: object = None
    values: tuple = ()
    least: int = 0
    field: str = ""
    bit: int = 0
    flag: str = ""
    flagged: object = None
    flag_about: str = ""
    about: str = ""
    counts: str = ""
    python: str = ""
    rust: object = None
    added: bool = False

    @property
    def is_number(self):
        return type(self.default) is int

    @property
    def is_switch(self):
        return type(self.default) is bool

    @property
    def is_choice(self):
        """Whether it has names for its values, in other languages too. (Where a flag tells one of two, it is a
        switch there.)"""
        return bool(self.values) and not self.bit


def setting_of(table):
    """The setting of a table, whose names are those of `Config` where it has no others."""
    whole = Setting(**table)
    in_cases = whole.default if whole.in_cases is None else whole.in_cases
    return whole._replace(in_cases=in_cases, field=whole.field or whole.name)


SETTINGS = [setting_of(it) for it in TABLE["setting"]]  # those of `Config`
CALLS = [setting_of(it) for it in TABLE["call"]]  # what other languages set besides
FLAGS = sorted((it for it in SETTINGS + CALLS if it.bit), key=lambda it: it.bit)
ALL_FLAGS = sum(it.bit for it in FLAGS)
BY_FIELD = {it.field: it for it in SETTINGS + CALLS}
FIELDS = [BY_FIELD[name] for name in TABLE["fields"]]  # of `Config` in C++ and Python
OF_PYTHON = [it for it in FIELDS if it.name != "index_type"]  # where bytes or characters are told by the sources
NUMBERS = [it for it in FIELDS if it.is_number]


def flags_of(values):
    """The flags of C for values by the names of settings; those that are not named are the default ones."""
    return sum(it.bit for it in FLAGS if values.get(it.name, it.default) == it.flagged)


def fields_of(values):
    """The fields of `Config` in Python for values by the names of settings, but for those that only other languages
    set."""
    return {it.field: in_field(it, values[it.name]) for it in OF_PYTHON if it in SETTINGS}


def in_field(it, value):
    """The value of a setting as a field of C++ and Python has it."""
    if it.is_choice:
        return value.lower()
    if it.values:
        return value == it.flagged
    return int(value) if it.is_number else value
