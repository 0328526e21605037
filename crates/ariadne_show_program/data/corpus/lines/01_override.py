from typing import List, Callable, Generic, TypeVar
T = TypeVar("T", bound=int)
class Box(Generic[T]):
    def __init__(self, t: T) -> None: self.t = t
    def get(self) -> T: return self.t
b: Box[str] = Box("x")
def apply(f: Callable[[int], str], xs: List[int]) -> List[str]:
    return [
        f(x)
        for x in
        xs + ["a"]
    ]
apply(
    lambda x: x,
    {
        "a": 1
    },
)
class C(Box[int]):
    def get(self, extra) -> str:
        return 1
async def co() -> int: return 1
def un(x: int) -> str:
    if isinstance(x, int): return co()
reveal_type(apply)
x = 1 # type: ignore[nothing]
for q in 5: q.foo()
