"""The page of a run: one HTML file that loads nothing."""

from __future__ import annotations

import base64
import hashlib
import html
import json
import os
import re
from typing import List

from .history import History

HERE = os.path.dirname(os.path.abspath(__file__))
SCRIPTS = ("state.mjs", "search.mjs", "plot.mjs", "parts.mjs", "figure.mjs", "groups.mjs", "widths.mjs", "page.mjs")
_JOINS = re.compile(r"^import .*;\n|^export ", re.M)


def _file(name: str) -> str:
    with open(os.path.join(HERE, name), encoding="utf-8") as file:
        return file.read()


def script() -> str:
    """The modules as one, without the lines that join them."""
    return "\n".join(_JOINS.sub("", _file(name)) for name in SCRIPTS)


def data(history: History) -> str:
    """The run as JSON. A script element ends at its end tag, so no `<` is in it."""
    steps: List[int] = []
    for step in history.steps:
        steps.append(len(step))
        steps.extend(step)
    before, times = 0, []
    for now in history.times:
        times.append(now - before)
        before = now
    run = {
        "lines": "\n".join(history.lines),
        "answers": history.answers,
        "answer": history.answer,
        "names": history.copy.names,
        "parents": history.copy.parents,
        "steps": steps,
        "times": times or None,
        "notes": history.notes,
    }
    return json.dumps(run, ensure_ascii=False, separators=(",", ":")).replace("<", "\\u003c")


def _hash(text: str) -> str:
    return "'sha256-" + base64.b64encode(hashlib.sha256(text.encode()).digest()).decode() + "'"


def page(history: History, title: str) -> str:
    """The whole page. Its policy allows it to run only this script and to load nothing."""
    parts = {"STYLE": _file("page.css"), "SCRIPT": script(), "DATA": data(history), "TITLE": html.escape(title)}
    parts["POLICY"] = f"default-src 'none'; script-src {_hash(parts['SCRIPT'])}; style-src {_hash(parts['STYLE'])}"
    return re.sub("@([A-Z]+)@", lambda found: parts[found.group(1)], _file("page.html"))
