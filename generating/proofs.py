"""Proofs and laws that have a line for each file, and say the same of each."""

from .table import FILES, shows_limit


def variant(file):
    """The file's variant in interface_files: cgroup.max.depth is MaxDepth, pids.max PidsMax."""
    kind, *names = file.name.split(".")
    words = names if kind == "cgroup" else [kind, *names]
    return "KillFile" if file.name == "cgroup.kill" else "".join(word.capitalize() for word in words)


def in_model(file, of=""):
    """The file in flat_model, where the files of limits are one constructor."""
    return f"({of}LimitOf {of}{variant(file)})" if shows_limit(file) else of + variant(file)


VARIANTS = list(map(variant, FILES))
OTHERS = [file for file in FILES if not shows_limit(file)]
LIMITS = [variant(file) for file in FILES if shows_limit(file)]
# The constructors of the model's type, with that of all limits in the place of the first.
CONSTRUCTORS = [variant(file) for file in OTHERS]
CONSTRUCTORS.insert(next(at for at, file in enumerate(FILES) if shows_limit(file)), "LimitOf")


def use_model(*more, before=()):
    names = [*before, "File", *CONSTRUCTORS, *more]
    return [f"use Rattle.flat_model.specs.File.{{{', '.join(names)}}}"]


def use_variants():
    return [f"use Rattle.interface_files.specs.declared.file.File.TheVariants.{{{', '.join(VARIANTS)}}}"]


def last(lines):
    """The last lines of a definition or a lemma: rt fmt wants an empty line behind them."""
    yield from lines
    yield ""


def each(lemma, proof):
    """A lemma whose proof is the same for each file of the model."""
    return last(f"{lemma} {in_model(file)} = {proof}" for file in FILES)


def unwritten(head, proof):
    """The last lines of a lemma, for the files that can't be written."""
    return last(f"{head.format(variant(file))} = {proof}" for file in FILES if file.written is None)


def meanings():
    return last(f"file_of {variant(file)} = {in_model(file, 'model_file.').strip('()')}" for file in FILES)


def meant():
    return last(f"file_for {in_model(file, 'model_file.')} = ({variant(file)}, refl)" for file in FILES)


def law_of_names():
    """A clause with the name of each file."""
    for file in FILES:
        begin = "    ensures names { " if file is FILES[0] else "        × "
        end = " }" if file is FILES[-1] else ""
        yield f'{begin}(file_name (file_of {variant(file)}) ≡ codes "{file.name}"){end}'


def use_variants_in_code():
    yield "ghost use Rattle.interface_files.specs.declared.file.File.TheVariants.{"
    yield from (f"  {name}," for name in VARIANTS)
    yield "};"


PARTS = {
    "files that are named": lambda: use_model("file_name", "file_named", before=LIMITS),
    "files are found by their names": lambda: each("file_named-file_name", "refl"),
    "files that are words": lambda: use_model("file_name", before=["LimitFile", *LIMITS]),
    "names of files are words": lambda: each("file_is_word", "refl"),
    "names of files are short": lambda: each("file_length", "omega arith"),
    "files that are read and written": lambda: use_model("readable", "writable"),
    "files that are not written": lambda: unwritten("direction_written p {} w", "(λ e. refl, λ e. refl)"),
    "files that are said": lambda: use_model("file_name", "all_files", "file_named", "readable", before=["LimitFile"]),
    "files that no write says": lambda: unwritten("said_write p {} w h", "said_fault BadDirection"),
    "variants of files": use_variants,
    "all variants of files": lambda: last([f"every_file = {' ∷ '.join(VARIANTS)} ∷ []"]),
    "files of the model": meanings,
    "variants for the model": meant,
    "variants of files in code": use_variants_in_code,
    "law of names": law_of_names,
}
