"""The table of words, and how its rows are read."""
import os

ROOT = os.path.dirname(os.path.dirname(os.path.realpath(__file__)))
TABLE = "crates/word_tables/stdout"
COLUMNS = {
    "file": ("name", "on_root", "readable", "written", "notified", "text"),
    "command": ("example", "arguments", "meaning"),
    "refusal": ("code", "name", "c", "answer", "errno", "message", "meaning"),
    "fault": ("code", "name", "c", "answer", "errno", "message", "meaning"),
    "path": ("number", "name", "c", "position", "errno", "message", "meaning"),
    "status": ("number", "c", "errno", "message", "meaning"),
    "number": ("name", "value", "meaning"),
}


class Row:
    """A row of the table: `yes` and `no` are truth values, `-` is None."""

    WORDS = {"yes": True, "no": False, "-": None}

    def __init__(self, columns, values):
        for column, value in zip(columns, values, strict=True):
            setattr(self, column, self.WORDS.get(value, value))

    @property
    def words(self):
        """The words of an example of the answer, without `1 refused`."""
        return self.answer.split()[2:]


def rows_of(text):
    tables = {kind: [] for kind in COLUMNS}
    for line in text.splitlines():
        if not line.startswith("#"):
            kind, *values = line.split("\t")
            tables[kind].append(Row(COLUMNS[kind], values))
    return tables


def read(path):
    with open(os.path.join(ROOT, path), encoding="utf-8") as it:
        return it.read()


TABLES = rows_of(read(TABLE))
FILES, REFUSALS, FAULTS, PATHS, STATUSES = (TABLES[kind] for kind in ("file", "refusal", "fault", "path", "status"))
# Limits that the table does not have: each row moves to crates/word_tables with the next proof of that crate.
NOT_IN_THE_TABLE = (("SESSIONS_MAX", "8", "sessions of a desk"), ("WORKERS_MAX", "8", "workers of a replay"))
TABLES["number"] += [Row(COLUMNS["number"], values) for values in NOT_IN_THE_TABLE]
NUMBERS = {row.name: row.value for row in TABLES["number"]}


def shows_limit(file):
    return "limit" in (file.written or "")


def quoted(text):
    return '"' + text.replace("\\", "\\\\").replace('"', '\\"') + '"'


def sentence(text):
    return text[0].upper() + text[1:] + "."


def plain(text):
    return text.replace("`", "")
