"""Programs and the library for C from modules of `rt try`, by the kit's compiler and linker."""
import os
import re
import shutil
import subprocess

from .crates import SAYS

# As the kit compiles programs, but without its own optimizations and without checks.
FLAGS = "-march=x86-64-v2 -mllvm -trap-unreachable -ffunction-sections -fdata-sections -O2 -c -x ir"
LINK = (
    "-m elf_x86_64 -pie --dynamic-linker /lib64/ld-linux-x86-64.so.2 --as-needed -z relro -z now -z noexecstack "
    "--eh-frame-hdr --gc-sections"
)
# What says in the library and in each program how it was made. bindings/build looks for the name of the library's member.
MARK = "without_proofs"


class Kit:
    """The kit that has a program `rt`."""

    def __init__(self, rt):
        self.at = os.path.dirname(os.path.dirname(os.path.realpath(rt)))
        self.tools = f"{self.at}/toolchain"

    def clang(self, *words, cwd):
        tools = [f"{self.tools}/bin/clang", "--target=x86_64-unknown-linux-gnu", f"--sysroot={self.tools}"]
        subprocess.run([*tools, "--no-default-config", "-Wno-override-module", *words], cwd=cwd, check=True)

    def compile(self, source, made, *flags, cwd):
        self.clang(*FLAGS.split(), *flags, source, "-o", made, cwd=cwd)

    def mark(self, flag, work):
        """Makes the object that says how its program or library was made."""
        with open(f"{work}/{MARK}.ll", "w", encoding="utf-8") as it:
            it.write(f'@mk0_{MARK} = constant [{len(SAYS) + 1} x i8] c"{SAYS}\\00"\n')
        self.compile(f"{MARK}.ll", f"{MARK}.o", flag, cwd=work)

    def program(self, module, made):
        """Makes the program `made`, a path, from a module of it."""
        work = os.path.dirname(module)
        self.compile("module.bc", "program.o", "-fPIE", cwd=work)
        self.mark("-fPIE", work)
        first = [f"{self.tools}/lib/{name}" for name in ("Scrt1.o", "crti.o", "crtbeginS.o")]
        names = "libm.so.6 libc.so.6 libc_nonshared.a ld-linux-x86-64.so.2 libgcc.a libgcc_s.so.1 crtendS.o crtn.o"
        last = [f"{self.tools}/lib/{name}" for name in names.split()]
        own = [f"{self.at}/c/libos_c.a", f"{self.at}/c/liblibc_c.a"]
        parts = ["program.o", f"--undefined=mk0_{MARK}", f"{MARK}.o"]  # the linker leaves out what nothing refers to
        words = [f"{self.tools}/bin/ld.lld", *LINK.split(), "-o", "program", *first, *parts, *own, *last]
        subprocess.run(words, cwd=work, check=True)
        put(f"{work}/program", made)

    def library(self, module, exports, made):
        """Makes the static library `made` from a module of c_try, with these exports."""
        work = os.path.dirname(module)
        self.clang("-x", "ir", "-S", "-emit-llvm", "module.bc", "-o", "module.ll", cwd=work)
        with open(f"{work}/module.ll", encoding="utf-8") as it:
            text = public(it.read(), exports)
        with open(f"{work}/library.ll", "w", encoding="utf-8") as it:
            it.write(text)
        self.compile("library.ll", "library.o", "-fPIC", cwd=work)
        self.mark("-fPIC", work)
        archiver = [f"{self.tools}/bin/llvm-ar", "rcs", "library.a", "library.o", f"{MARK}.o"]
        subprocess.run(archiver, cwd=work, check=True)
        put(f"{work}/library.a", made)


def public(text, exports):
    """The text of a module of c_try in which these functions, each a name and its module, have their own names and can be linked,
    and main can't."""
    for name, home in exports:
        long = f'@"c_try::{home}::{name}"'
        text = re.sub(rf"define internal ([^@\n]*){re.escape(long)}", rf"define \1@{name}", text)
        text = text.replace(long, f"@{name}")
    return re.sub(r"define (?!internal)([^@\n]*)@main\(", r"define internal \1@mk0_unused_main(", text)


def put(file, made):
    """Puts a file where it belongs, in one step. A program that runs keeps the file that it has."""
    os.makedirs(os.path.dirname(made), exist_ok=True)
    shutil.copy(file, f"{made}.new")
    os.replace(f"{made}.new", made)
