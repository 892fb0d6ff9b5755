"""A copy of the crates for `rt try`: its programs say that they were made without proofs, and one more program, c_try, calls each
function that c_library exports, so that `rt try` compiles them all."""
import os
import re
import shutil

SAYS = "without proofs"  # install, .ci/proved and bindings/build look for these words
# The source of what each program says of itself; a text there, and what the copy has in its place.
SAID = {
    "crates/shell_main/src/arguments.rt": (r'(const VERSION: &str = "[\d.]+)"', rf'\1 {SAYS}"'),
    "crates/replay_main/src/arguments.rt": (
        r'Command::new\(alloc, "cgreplay"\)',
        rf'Command::new(alloc, "cgreplay").about("Made {SAYS}")',
    ),
}
EXPORT = re.compile(r'pub extern "C" fn (mk0_\w+)\s*\(([^)]*)\)')
# An argument for each type of a parameter.
ARGUMENTS = {
    "Global": "alloc",
    "&mut Handle": "&mut first",
    "&Handle": "&first",
    "&[u8]": 'b"/a"',
    "&mut [u8]": "&mut out",
    "&mut Info": "&mut info",
    "&mut usize": "&mut depth",
    "&mut u64": "&mut value",
    "u8": "1",
    "u32": "1",
    "u64": "0",
    "usize": "0",
}
MAIN = """
use crate::handle::Handle;
use crate::info::Info;
use std::alloc::Global;
%s
fn main(rt: HostRuntime) {
    let alloc: Global = rt.alloc();
    let mut first = Handle::of(alloc, None);
    let mut second = Handle::of(alloc, None);
    let mut info = Info { len: 0, count: 0, needed: 0, code: 0 };
    let mut out = [0u8; 64];
    let mut depth = 0usize;
    let mut value = 0u64;
%s}
"""


class Unknown(Exception):
    """The crates have a form that ./try doesn't know."""


def read(path):
    with open(path, encoding="utf-8") as it:
        return it.read()


def write(path, text):
    with open(path, "w", encoding="utf-8") as it:
        it.write(text)


def change(path, pattern, new):
    text, count = re.subn(pattern, new, read(path), flags=re.MULTILINE)
    if count != 1:
        raise Unknown(f"{path} has {count} places like {pattern}, not one")
    write(path, text)


def arguments(name, parameters):
    """The arguments of a call, by the types of its parameters. A second handle is another one."""
    found = []
    for parameter in re.split(r",\s*(?![^\[]*\])", parameters.strip().rstrip(",")):
        kind = re.sub(r"Handle<[^>]*>", "Handle", parameter.partition(":")[2].strip().removeprefix("mut "))
        if kind not in ARGUMENTS:
            raise Unknown(f"{name}: ./try has no argument for a parameter `{parameter}`: add one to trying/crates.py")
        is_second = kind == "&mut Handle" and ARGUMENTS[kind] in found
        found.append("&mut second" if is_second else ARGUMENTS[kind])
    return found


def exports(source):
    """The functions that the files of a folder export: the name and module of each, and the arguments of a call."""
    return [
        (name, file.removesuffix(".rt"), arguments(name, parameters))
        for file in sorted(os.listdir(source))
        for name, parameters in EXPORT.findall(read(f"{source}/{file}"))
    ]


def copy(top, to):
    """Copies the crates of a repository, and makes c_try."""
    shutil.copytree(f"{top}/crates", f"{to}/crates", ignore=shutil.ignore_patterns("out"))
    for name in ("crates.txt", "HANDLES"):
        shutil.copy(f"{top}/{name}", to)
    for path, (pattern, new) in SAID.items():
        change(f"{to}/{path}", pattern, new)
    add_c_try(to)


def add_c_try(tree):
    """Adds to a copy the program c_try, which has the modules of c_library."""
    listed = re.search(r"^c_library staticlib:(.*)$", read(f"{tree}/crates.txt"), re.MULTILINE)
    if not listed:
        raise Unknown("crates.txt has no static library c_library")
    uses = " ".join(name for name in listed[1].split() if name not in ("std_alloc", "std_heap"))
    change(f"{tree}/crates.txt", r"^(c_library .*)$", rf"\1\nc_try: {uses}")
    at = f"{tree}/crates/c_try"
    shutil.copytree(f"{tree}/crates/c_library", at)
    for folder, _, names in os.walk(at):
        for path in (os.path.join(folder, name) for name in names if name.endswith((".rt", ".antt"))):
            write(path, read(path).replace("Rattle.c_library", "Rattle.c_try"))
    source = f"{at}/src"
    found = exports(source)
    change(f"{source}/handle.rt", r"^    fn of\(", "    pub(crate) fn of(")
    uses = "".join(f"use crate::{module}::{name};\n" for name, module, _ in found)
    calls = "".join(f"    let _ = {name}({', '.join(words)});\n" for name, _, words in found)
    write(f"{source}/main.rt", read(f"{source}/lib.rt") + MAIN % (uses, calls))
    os.remove(f"{source}/lib.rt")
