from typing import List


def weigh(pear: str) -> int:
    """é"""; return pear + "one"


class Basket(object):
    def first(self, pears: List[int]) -> str:
        return pears[0].weight + weigh(1, 2) + self.none_of_these


reveal_type(weigh("a"))
"é"; wide: int = weigh([1111111111, 2222222222, 3333333333, 4444444444, 5555555555, 6666666666])
