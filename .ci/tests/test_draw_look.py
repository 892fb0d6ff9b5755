"""Tests of docs/draw-look with a browser that notes what it is asked: at which moment and in which form each picture is made."""
import io
import os
import re
import sys
import types
import unittest
from contextlib import redirect_stderr
from unittest import mock

from scripts import TOP, load

HAS = {"is_there": True}


class Browser:
    """It has one page. `pictures` has the form of the page at each picture, of all browsers."""

    all: list = []
    pictures: dict = {}

    def __init__(self, width, height, letters=16):
        self.letters, self.is_open, self.form, self.notes = letters, True, {"size": (width, height)}, []
        self.asked = 0
        self.all.append(self)

    def open(self, address):
        file, _, moment = address.removeprefix("file://").partition("#")
        if moment:
            with open(file, encoding="utf-8") as it:
                self.form.update(text=it.read(), line=moment)
            self.notes.clear()
        else:
            assert address == "about:blank"
            self.form.pop("line", None)

    def run(self, script):
        self.notes.append(script)
        if "activeElement.id" in script:
            self.asked += 1
            return "tree" if self.asked == 3 else "list"
        return f"{self.letters}px" if "fontSize" in script else None

    def until(self, what):
        assert what()

    def press(self, *keys):
        self.notes.extend(keys)

    def type(self, selector, text):
        self.notes.append(f"{selector} {text}")

    def dark(self, is_dark):
        self.form["dark"] = is_dark

    def size(self, width, height):
        self.form["size"] = (width, height)

    def cdp(self, method, media, features):
        assert method == "Emulation.setEmulatedMedia"
        self.form.update(media=media, features={it["name"]: it["value"] for it in features})

    def picture(self, file):
        assert os.path.dirname(file) == f"{TOP}/docs"
        self.pictures[os.path.basename(file)] = {**self.form, "letters": self.letters, "notes": [*self.notes]}

    def close(self):
        self.is_open = False


def loaded():
    """The program with made-up parts of the page's tests."""
    parts = {
        "demo": {"demo": lambda: "mkdir /a\n"},
        "support": {"page_of": lambda trace, name: f"{name}: {trace}"},
        "webdriver": {"Browser": Browser, "is_there": lambda: HAS["is_there"]},
    }
    modules = {name: types.ModuleType(name) for name in parts}
    for name, has in parts.items():
        vars(modules[name]).update(has)
    with mock.patch.dict(sys.modules, modules), mock.patch.object(sys, "path", [*sys.path]):
        return load("docs/draw-look")


class Pictures(unittest.TestCase):
    def setUp(self):
        Browser.all, Browser.pictures, HAS["is_there"] = [], {}, True

    def test_each_picture_of_the_page_has_its_moment_and_form(self):
        self.assertEqual(loaded().main(), 0)
        self.assertEqual([it.is_open for it in Browser.all], [False, False])
        with open(f"{TOP}/docs/LOOK.md", encoding="utf-8") as it:
            named = re.findall(r"!\[[^]]*\]\((look-\w+\.png)\)", it.read())
        self.assertEqual(sorted(Browser.pictures), sorted(named))
        forms = {name.removeprefix("look-").removesuffix(".png"): form for name, form in Browser.pictures.items()}
        self.assertEqual({form["text"] for form in forms.values()}, {"run.trace: mkdir /a\n"})
        lines = {"run": "line=22", "limit": "line=22", "kill": "line=42"}
        self.assertEqual(
            {name: form["line"] for name, form in forms.items()}, {**dict.fromkeys(forms, "line=32"), **lines}
        )
        self.assertEqual({name for name, form in forms.items() if form.get("dark")}, {"kill", "forced", "print"})
        self.assertEqual(
            {name: form["letters"] for name, form in forms.items()}, {**dict.fromkeys(forms, 16), "large": 24}
        )
        # A4 at 96 pixels for an inch, without margins of 10 mm
        sizes = {**dict.fromkeys(forms, (1280, 960)), "print": (718, 1640)}
        self.assertEqual({name: form["size"] for name, form in forms.items()}, sizes)
        self.assertEqual(round((210 - 20) / 25.4 * 96), 718)
        self.assertEqual(forms["forced"]["features"], {"forced-colors": "active", "prefers-color-scheme": "dark"})
        self.assertEqual(
            (forms["forced"]["media"], forms["print"]["media"], forms["print"]["features"]), ("", "print", {})
        )
        self.assertEqual(forms["print"]["notes"], ["dispatchEvent(new Event('beforeprint'))"])
        self.assertEqual(forms["run"]["notes"], [])
        keys = [it for it in forms["limit"]["notes"] if "activeElement" not in it]
        # the search for `pidsmax`, then tab until the tree has the focus, and up in it
        self.assertEqual(keys, ["/", *"pidsmax", *["enter"] * 3, *["tab"] * 3, *["up"] * 4])
        kill = " ".join(forms["kill"]["notes"])
        for part in (
            "#tree .row:nth-child(2)').click()",
            "#query 31",
            "slider.value = 42",
            "new Event('input')",
            "blur()",
        ):
            self.assertIn(part, kill)

    def test_a_browser_is_closed_after_a_failure(self):
        with mock.patch.object(Browser, "dark", side_effect=OSError), self.assertRaises(OSError):
            loaded().main()
        self.assertEqual([it.is_open for it in Browser.all], [False])

    def test_without_a_browser_nothing_is_drawn(self):
        HAS["is_there"] = False
        said = io.StringIO()
        with redirect_stderr(said):
            self.assertEqual(loaded().main(), 2)
        self.assertIn("apt-get install chromium chromium-driver", said.getvalue())
        self.assertEqual((Browser.all, Browser.pictures), ([], {}))


if __name__ == "__main__":
    unittest.main()
