"""The wheel is for one platform, since it contains the library, and for every Python 3.

`pip install bindings/python` needs what bindings/build left, or MAKHLOEUM_LIBRARY with the path of a library. The version is
that of the library: 1.0.0+without.proofs for one that ./try made.
"""

from __future__ import annotations

import ctypes
import os
import re
import shutil
import sys
from pathlib import Path

from setuptools import setup
from setuptools.command.build_py import build_py
from wheel.bdist_wheel import bdist_wheel

HERE = Path(__file__).resolve().parent
NAME = re.findall('^_NAME = "(.*)"$', (HERE / "makhloeum" / "_library.py").read_text(), re.MULTILINE)[0]


def library() -> Path:
    """Beside the modules, as in a source archive; else where the environment says, or where bindings/build leaves it."""
    given = os.environ.get("MAKHLOEUM_LIBRARY")
    places = [HERE / "makhloeum" / NAME, Path(given) if given else HERE.parent / "out" / NAME]
    for place in places:
        if place.is_file():
            return place.resolve()
    sys.exit(
        f"makhloeum: {places[-1]} is missing: run bindings/build first, or set MAKHLOEUM_LIBRARY to the path of {NAME}"
    )


def version() -> str:
    call = ctypes.CDLL(str(library())).mk_version
    call.restype = ctypes.c_char_p
    number, _, made = str(call().decode()).partition(" ")
    return f"{number}+{made.replace(' ', '.')}" if made else number


class Build(build_py):
    """Adds the library, and the traces that `makhloeum check` plays."""

    def run(self) -> None:
        found = library()
        super().run()
        if getattr(self, "editable_mode", False):
            return
        to = Path(self.build_lib) / "makhloeum"
        shutil.copyfile(found, to / NAME)
        for name in ("rows.recorded", "text.recorded"):
            worked = HERE.parent.parent / "evidence" / "linux-6.12" / name
            if worked.is_file():
                (to / "check" / "worked").mkdir(parents=True, exist_ok=True)
                shutil.copyfile(worked, to / "check" / "worked" / name)


class Wheel(bdist_wheel):
    def finalize_options(self) -> None:
        super().finalize_options()
        self.root_is_pure = False

    def get_tag(self) -> tuple[str, str, str]:
        # bindings/wheel checks that the library needs no newer glibc
        return "py3", "none", super().get_tag()[2].replace("linux_", "manylinux_2_36_", 1)


# In a checkout the sources of the page and of the check are in look, in a wheel's folder beside the modules.
IN_LOOK = {
    f"makhloeum.{name}": f"../../look/{name}" for name in ("page", "check") if not (HERE / "makhloeum" / name).is_dir()
}

setup(version=version(), package_dir=IN_LOOK, cmdclass={"build_py": Build, "bdist_wheel": Wheel})
