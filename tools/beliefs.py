"""tools/try-wrong as a module, for tools that try edits."""

import importlib.machinery
import importlib.util
from pathlib import Path

LOADER = importlib.machinery.SourceFileLoader("try_wrong", str(Path(__file__).with_name("try-wrong")))
WRONG = importlib.util.module_from_spec(importlib.util.spec_from_loader("try_wrong", LOADER))
LOADER.exec_module(WRONG)
