"""What the kit has of the crates that are linked into the program: their names, and the texts of their licences.

A crate of the kit is linked in where `genedit`, or a crate below it, names it in crates.txt, or where one that is
linked in names it. The licences lie beside the sources that the kit keeps.
"""

import os
import pathlib
import re
import shutil
import subprocess

ROOT = pathlib.Path(__file__).resolve().parent.parent.parent
PROGRAM = "genedit"
# how files of licences begin
LICENCES = ("LICEN", "NOTICE", "COPYING")
# what each program stands on, named or not
BASE = {"core", "std"}


class NoKit(Exception):
    """There is no kit: `rt` is not on the PATH."""


def folder():
    rt = shutil.which("rt")
    if not rt:
        raise NoKit("there is no kit: `rt` is not on the PATH")
    return pathlib.Path(rt).resolve().parent.parent


def version():
    """The line that `rt version` prints."""
    folder()
    return subprocess.run(["rt", "version"], capture_output=True, text=True, check=True).stdout.strip()


def lines_of_crates():
    """What each crate of crates.txt stands on."""
    lines = (ROOT / "crates.txt").read_text(encoding="utf-8").splitlines()
    of = (it.partition(":") for it in lines if ":" in it and not it.startswith("#"))
    return {re.split(r"[ :]", head)[0]: below.split() for head, _, below in of}


def reached(pending, below):
    """What is reached from these by what each stands on."""
    found, pending = set(), list(pending)
    while pending:
        crate = pending.pop()
        if crate not in found:
            found.add(crate)
            pending += below(crate)
    return found


def named_crates():
    """The crates of the kit that the program and its libraries name."""
    lines = lines_of_crates()
    return reached([PROGRAM], lambda it: lines.get(it, [])) - set(lines)


def below_in(kit):
    """What a crate of the kit names itself."""

    def below(crate):
        told = (kit / "rlibs" / f"{crate}.rlib" / "format").read_text(encoding="utf-8", errors="replace")
        return re.findall(r"^dep (\w+)$", told, re.M)

    return below


def linked_crates():
    """The crates of the kit that are linked in, sorted."""
    return sorted(reached(named_crates() | BASE, below_in(folder())))


def licences(crate):
    """The names and the texts of a crate's licences."""
    at = folder() / "rattle" / crate
    names = sorted(it for it in os.listdir(at) if it.upper().startswith(LICENCES)) if at.is_dir() else []
    return [(it, (at / it).read_text(encoding="utf-8")) for it in names]


def notices():
    """Each text of a licence, once, with the crates that have it; and the crates that have none."""
    texts, without = {}, []
    for crate in linked_crates():
        own = licences(crate)
        if not own:
            without.append(crate)
        for name, text in own:
            texts.setdefault(text, []).append(f"{crate} ({name})")
    return [(crates, text) for text, crates in texts.items()], without
