"""The calls of C: their types in Python, the synopses of the manual, what the soname stands for, and the lists of tests.

The types are those of bindings/c/makhloeum.h. The calls of the soname are those that .ci/promised stored, so that a call that
changes doesn't change what it is compared with. NUMBERS has the calls that return a number of a group; a new one is a row there.
"""
import re

from .table import read

HEADER, STORED = "bindings/c/makhloeum.h", ".ci/state/promised"
WIDTH, TAB, MANUAL_WIDTH = 120, 4, 66
# Each call that returns a number of the group at a path: its name, in C behind mk_; what it returns; the file that shows the number;
# and its weight among the random calls of bindings/models. A count and a limit are a uint64_t, and a limit may be MK_NO_LIMIT; a
# truth is a bool. The root has no such number.
NUMBERS = (
    ("current", "count", "pids.current", 3),
    ("peak", "count", "pids.peak", 2),
    ("limit", "limit", "pids.max", 2),
    ("populated", "truth", "cgroup.events", 2),
)
NAMES = [name for name, *_ in NUMBERS]
KINDS = [(name, kind) for name, kind, *_ in NUMBERS]


class Call:
    """A call with its result and its parameters, each with a type and a name."""

    def __init__(self, declared):
        result, self.name, parameters = re.fullmatch(r"(.*?\W)(mk_\w+)\((.*)\)", " ".join(declared.split())).groups()
        self.result = result.strip()
        parts = [] if parameters == "void" else parameters.split(", ")
        self.parameters = [re.fullmatch(r"(.*?)(\w+)", part).groups() for part in parts]
        self.types = [kind.strip() for kind, _ in self.parameters]


def declared():
    """The functions of the header by their names, without those that are inline."""
    text = re.sub(r"/\*.*?\*/", "", read(HEADER), flags=re.S)
    found = map(Call, re.findall(r"^([a-z][\w ]*[ *]+mk_\w+\([^;{]*\));", text, re.M))
    return {call.name: call for call in found}


def stored():
    """The functions that a release promises to keep, without those that are inline."""
    lines = re.search(r"(?m)^== calls of C\n((?:.+\n)*)", read(STORED))[1].splitlines()
    return [Call(line) for line in lines if "(" in line and not line.startswith(("static ", "MK_"))]


def rows(parts, width, between):
    """The parts one after another, in rows of at most that width; a row that isn't the first begins with `between`."""
    row = parts[0]
    for part in parts[1:]:
        if len((row + " " + part).expandtabs(TAB)) > width:
            yield row
            row = between + part
        else:
            row += " " + part
    yield row


# ---- Python

# What `_declare` of _library.py calls the types. Lengths are passed as packed bytes.
PYTHON_TYPES = {
    "void": "None",
    "int": "ctypes.c_int",
    "uint32_t": "number",
    "int32_t": "ctypes.c_int32",
    "int64_t": "ctypes.c_int64",
    "uint64_t": "ctypes.c_uint64",
    "size_t": "size",
    "mk_handle *": "handle",
    "const mk_handle *": "handle",
    "mk_info *": "info",
    "mk_text *": "ctypes.POINTER(Text)",
    "const mk_file *": "ctypes.POINTER(File)",
    "const char *": "text",
    "const uint8_t *": "text",
    "const size_t *": "text",
    "char *": "buffer",
    "uint8_t *": "buffer",
    "bool *": "ctypes.POINTER(ctypes.c_bool)",
    "uint32_t *": "ctypes.POINTER(ctypes.c_uint32)",
    "uint64_t *": "count",
    "size_t *": "ctypes.POINTER(size)",
}


def python_type(call, kind):
    if kind not in PYTHON_TYPES:
        raise SystemExit(f"{HEADER}: {call.name} has a `{kind}`, for which generating/calls.py has no type of Python")
    return PYTHON_TYPES[kind]


def python_calls():
    for call in declared().values():
        types = ", ".join(python_type(call, kind) for kind in call.types)
        yield f'        "{call.name}": ({python_type(call, call.result)}, [{types}]),'


# ---- the soname


def kept_calls():
    for call in stored():
        parts = [f"\tCALL({call.name},", f"{call.result},", *(f"{kind}," for kind in call.types or ["void"])]
        yield from rows([*parts[:-1], parts[-1][:-1] + ");"], WIDTH, "\t\t")


# ---- the manual

PAGES = {
    f"man/{name}.3": name
    for name in (
        *("mk_current", "mk_errno", "mk_fail", "mk_groups", "mk_line", "mk_mkdir", "mk_open", "mk_put", "mk_read"),
        *("mk_undo", "mk_wait"),
    )
}


def inline():
    """The functions of the header that are inline, by their names."""
    text = re.sub(r"/\*.*?\*/", "", read(HEADER), flags=re.S)
    return {
        call.name: call for call in map(Call, re.findall(r"^static inline ([a-z][\w ]*[ *]+mk_\w+\(.*\))$", text, re.M))
    }


def synopsis(page):
    """The prototypes of the calls that the page's NAME lists: types in bold, names of parameters in italics."""
    names = re.search(r"(?s)^\.SH NAME\n(.*?)\s*\\- ", read(page), re.M)[1].replace("\n", " ")
    calls = {**declared(), **inline()}
    for name in names.split(", "):
        if name not in calls:
            raise SystemExit(f"{page} names {name}, which {HEADER} doesn't declare")
        yield from prototype(calls[name])


def prototype(call):
    begin = f"{call.result}{'' if call.result.endswith('*') else ' '}{call.name}("
    if not call.parameters:
        yield f".B {begin}void);"
        return
    parts = [f"{kind}{name}," for kind, name in call.parameters]
    parts = [begin + parts[0], *parts[1:]]
    for row in rows([*parts[:-1], parts[-1][:-1] + ");"], MANUAL_WIDTH, "    "):
        yield ".BI " + in_fonts(row)


def in_fonts(row):
    """The row as arguments of .BI: in turn what is bold and what is in italics."""
    bold, *rest = re.split(r"(\w+)(?=,|\))", row)
    words = [f'"{bold}"']
    for name, behind in zip(rest[::2], rest[1::2]):
        words += [name, f'"{behind}"' if " " in behind or behind == "," else behind]
    return " ".join(words)


# ---- the numbers of a group in tests


def number_rows():
    """The comments keep clang-format from putting several into a line."""
    for name, kind, file, _ in NUMBERS:
        yield f'\t{{ "{name}", .{"truth" if kind == "truth" else "count"} = mk_{name} }}, /* {file} */'


def driver_rows():
    for name, kind in KINDS:
        value = f"h.{name}(path)"
        shown = {"count": value, "limit": f"limit({value})", "truth": f"int({value})"}[kind]
        yield f'    "{name}": lambda h, path: {shown},'


def go_functions():
    """A function for each, by name, that returns only the error."""
    width = max(map(len, NAMES)) + 3
    for name, kind in KINDS:
        values = "_, _, err" if kind == "limit" else "_, err"
        key = f'"{name}":'.ljust(width)
        yield f"\t{key} func(h *Hierarchy, path string) error {{ {values} := h.{name.title()}(path); return err }},"


def go_cases():
    for name, kind in KINDS:
        yield f'\tcase "{name}":'
        if kind == "count":
            yield f"\t\tvalue, err := h.{name.title()}(w[0])"
            yield "\t\treturn result(value, err)"
        else:
            yield f"\t\treturn {kind}(h.{name.title()}(w[0]))"


def operations():
    for name in NAMES:
        yield f'    ("{name}", ("/x",), "{name} /x", makhloeum.NoGroup, "nogroup /x"),'
        yield f'    ("{name}", ("/",), "{name} /", makhloeum.NoFile, "nofile"),'


PARTS = {
    "calls in Python": python_calls,
    "calls of the soname": kept_calls,
    **{f"synopsis of {name}": lambda page=page: synopsis(page) for page, name in PAGES.items()},
    "numbers of a group in C": number_rows,
    "numbers of a group in Go": go_functions,
    "numbers of a group for the driver in Go": go_cases,
    "numbers of a group for the driver in Python": driver_rows,
    "weights of numbers of a group": lambda: (f'    "{name}": {weight},' for name, _, _, weight in NUMBERS),
    "names of numbers of a group": lambda: [f"    *({', '.join(f'{chr(34)}{name}{chr(34)}' for name in NAMES)}),"],
    "numbers of a group that raise": lambda: (
        f'    "{name}": [(("/c",), "NoGroup"), (("/",), "NoFile")],' for name in NAMES
    ),
    "numbers of a group that are refused": operations,
    "calls of numbers of a group": lambda: (
        f'    "mk_{name}": (lambda h: h.{name}("/a"), "{name} /a"),' for name in NAMES
    ),
}
