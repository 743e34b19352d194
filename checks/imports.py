#!/usr/bin/env python3
"""Checks that what files import from other crates exists: `checks/imports.py`.

It reads each `use Rattle.CRATE.specs.FILE` and `use Rattle.CRATE.proofs.FILE` of a crate of this
repository, and each `CRATE::proofs::FILE::name`. It ends with 1 if a crate isn't among the
libraries of crates.txt, if there is no such file, or if an imported name doesn't occur in it; so
this needs no prover. Names that the prover makes are left to it.
"""
import re
import sys
from functools import cache

from crates import HOME, libraries, sources

USE = re.compile(
    r"use Rattle\.(\w+)\.(specs|proofs)\.([\w.-]+?)(?:\.\{([^}]*)\}| as \w+|;|$)", re.M
)
CITED = re.compile(r"\b(\w+)::(proofs)::(\w+)::(\w+)")
MADE = {"Goals", "Given", "Args", "contracts"}  # parts of modules that the prover makes
BESIDE = {"TheVariants", "TheInside", "TheConstants"}  # what it declares beside a type or a file


@cache
def words_of(crate, kind, module):
    """The words of a file of definitions or proofs; none where it isn't there."""
    path = HOME / "crates" / crate / kind / f"{module.replace('.', '/')}.antt"
    return set(re.findall(r"[^\s(){},;:.]+", path.read_text() if path.is_file() else ""))


@cache
def declares(crate, module):
    """Whether `declared.FILE.TYPE` stands for a type of a file of src/, or for the file."""
    parts = [part for part in module.split(".")[1:] if part not in BESIDE]
    name = parts.pop() if parts[-1][0].isupper() else ""
    path = HOME / "crates" / crate / "src" / f"{'/'.join(parts) or 'lib'}.rt"
    if not path.is_file():
        return False
    types = re.findall(r"\b(?:struct|enum|trait|type) (\w+)", path.read_text())
    return not name or name in types


def is_made(module):
    parts = module.split(".")
    return bool(MADE & set(parts)) or any(part.startswith("After") for part in parts)


def faults(crate, used, kind, module, names):
    """What isn't there of one import of a crate."""
    if used not in [crate, *libraries()[crate]]:
        yield f"{used} is not among the libraries of {crate}"
    elif module.startswith("declared."):
        if not declares(used, module):
            yield f"{used} declares no {module}"
    elif not is_made(module):
        words = words_of(used, kind, module)
        if not words:
            yield f"{used} has no file {kind}/{module}.antt"
        for name in names if words else ():
            if name not in words:
                yield f"{used} has no {name} in {kind}/{module}.antt"


def imports(crate, text):
    """The imports of a file of the crate, from crates of this repository."""
    for used, kind, module, listed in USE.findall(text):
        names = [name.split(" as ")[0].strip() for name in listed.split(",")]
        yield used, kind, module, [name for name in names if name and "◌" not in name]
    for used, kind, module, name in CITED.findall(text):
        yield crate if used == "crate" else used, kind, module, [name]


def main():
    count, wrong = 0, 0
    for crate in libraries():
        for path in sources(crate, "src/**/*.rt", "specs/**/*.antt", "proofs/**/*.antt"):
            for used, *rest in imports(crate, path.read_text()):
                if used in libraries():
                    count += 1
                    for fault in faults(crate, used, *rest):
                        print(f"{path.relative_to(HOME)}: {fault}")
                        wrong += 1
    print(f"{count} imports, {wrong} wrong")
    sys.exit(wrong > 0)


main()
