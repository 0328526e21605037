import os
import nothing_there
from typing import List, Optional


def half(number: int) -> str:
    """Half of it."""
    return number / 2


class Base:
    def show(self, it: int) -> None: ...


class Derived(Base):
    def show(self, it: str) -> None: ...


def first(names: Optional[List[str]], 漢字: int = "漢"):
    grüße = names[0]; x: int = grüße
	
    print("漢字", half("3"), half(
        "three",
        4,
    ))
    return undefined_name + grüße.nothing


half(1, 2, wrong=3) + first(None, 1) + {"a": 1}["b"].upper() + "a_very_long_line_" + half("that goes past one hundred columns") + 1
reveal_type(half(1))
