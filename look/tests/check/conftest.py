"""The package, and what its own tests have besides, on the path of these tests."""

import pathlib
import sys

PYTHON = pathlib.Path(__file__).absolute().parents[3] / "bindings" / "python"
sys.path.insert(0, str(PYTHON))
sys.path.append(str(PYTHON / "tests"))
