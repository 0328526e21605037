"""tools/try-many as a module, for tools that take its random reports."""

import importlib.machinery
import importlib.util
from pathlib import Path

LOADER = importlib.machinery.SourceFileLoader("try_many", str(Path(__file__).with_name("try-many")))
MANY = importlib.util.module_from_spec(importlib.util.spec_from_loader("try_many", LOADER))
LOADER.exec_module(MANY)
