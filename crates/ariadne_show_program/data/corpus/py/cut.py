from typing import Callable, Dict

print(a_name_that_nobody_has_given_i)
print(fifteen_letters)
table: Callable[[int, str, Dict[str, int]], Dict[str, Dict[str, int]]] = 1
