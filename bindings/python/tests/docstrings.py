"""Tries the examples in the docstrings of the package. The last line is 'N examples, M fail', and the status 1
where M > 0.
"""

import doctest
import sys

import sewarqo

finder, runner = doctest.DocTestFinder(), doctest.DocTestRunner()
for found in finder.find(sewarqo, "sewarqo", module=False, globs={**vars(sewarqo), "sys": sys}):
    runner.run(found)
print(f"{runner.tries} examples, {runner.failures} fail")
raise SystemExit(bool(runner.failures) or runner.tries < 5)
