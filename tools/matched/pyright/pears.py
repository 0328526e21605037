import os


def weigh(pear: str) -> int:
    "🍐 é"; return pear


print(wieght)
