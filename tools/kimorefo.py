"""The Python package of bindings/python, as these scripts import it from a checkout, where it is not installed."""

import importlib.util
import os
import sys

TOP = os.path.dirname(os.path.dirname(os.path.abspath(__file__)))
FOLDER = f"{TOP}/bindings/python/kimorefo"

spec = importlib.util.spec_from_file_location("kimorefo", f"{FOLDER}/__init__.py", submodule_search_locations=[FOLDER])
package = importlib.util.module_from_spec(spec)
sys.modules["kimorefo"] = package  # what an import of this module gives
spec.loader.exec_module(package)
