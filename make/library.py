"""Proves and builds the library for C and Python, `out/libomega.a` and `out/libomega.so.1`, to which `out/libomega.so`
leads, where that is needed.

    python3 make/library.py                 crates side by side, as make/build.py does it; what `make` proved is kept
    python3 make/library.py --left-by-ci    over the statements that `rt ci`, which ran just before, left of the crates

The archive has what it needs of the toolchain inside, as one object of which only the names `omega_*` are seen, so that
it can be linked beside another library of the toolchain. `LIBRARY=FILE python3 make/library.py` packs an archive that
was built elsewhere.
"""

import os
import shutil
import subprocess
import sys
import tempfile
import time

from build import FAILED, Build, lanes_here, lock
from crates import ROOT, Crate, NotBuilt, crates_for, is_stale
from kept import LIBRARIES
from kit import Kit
from progress import say

NAME = "omega"
OUT = os.path.join(ROOT, "out")
# The number rises when a program that was linked with the library would not run with the next.
SONAME = f"lib{NAME}.so.1"
ARCHIVE, SHARED = os.path.join(OUT, f"lib{NAME}.a"), os.path.join(OUT, SONAME)
# What a linker looks for.
LINK = os.path.join(OUT, f"lib{NAME}.so")


def ran_well(words: list[str], folder: str) -> str:
    """What a command says, which has to end well."""
    ran = subprocess.run(words, cwd=folder, stdin=subprocess.DEVNULL, stdout=subprocess.PIPE, stderr=subprocess.STDOUT,
                         text=True, errors="replace")
    if ran.returncode:
        sys.stderr.write(ran.stdout)
        raise NotBuilt(f"{' '.join(words[:2])} ended with status {ran.returncode}, so {NAME} is not built")
    return ran.stdout


def left_by_ci(crates: dict[str, Crate], into: str) -> str:
    """A folder of links to the statements that `rt ci` left, each beside its crate."""
    folder = os.path.join(into, "left")
    os.mkdir(folder)
    for name, crate in crates.items():
        left = os.path.join(crate.folder, "out", "rlib", f"{name}.rlib")
        if not os.path.isdir(left):
            raise NotBuilt(f"rt ci left no statements of {name}")
        os.symlink(left, os.path.join(folder, f"{name}.rlib"))
    return folder


def kept_by_make(kit: Kit, crates: dict[str, Crate]) -> str:
    """The folder of the statements of the crates below, once what is left of them is proved."""
    os.makedirs(LIBRARIES, exist_ok=True)
    if not Build(kit, crates, lanes_here(), lock()).run():
        raise NotBuilt(f"the crates below {NAME} are not proved")
    return LIBRARIES


def built_over(kit: Kit, top: Crate, libraries: str, into: str) -> str:
    """Proves the crate of the library over the statements of those below, and compiles all."""
    made = os.path.join(into, f"lib{NAME}.a")
    try:
        fault = kit.proof_fault(ran_well(kit.archiving(top, libraries, lanes_here(), made), top.folder))
        if fault:
            raise NotBuilt(f"{NAME} is not proved and built: {fault}")
    except NotBuilt as why:
        raise NotBuilt(kit.explained(str(why))) from None
    return made


def objects_of(archives: tuple[str, ...], folder: str) -> list[str]:
    """The names of the objects of archives, which are unpacked into a new folder. No two may have one name, as one
    would be lost."""
    os.mkdir(folder)
    names = [name for archive in archives for name in ran_well(["ar", "t", archive], folder).split()]
    twice = sorted({name for name in names if names.count(name) > 1})
    if twice:
        raise NotBuilt(f"two objects are named {twice[0]}, so {NAME} is not packed")
    for archive in archives:
        ran_well(["ar", "x", archive], folder)
    return names


def pack(allocation: str, made: str, room: str) -> None:
    """The archive with the toolchain's allocation inside, and the shared library. Both show only the exports."""
    os.makedirs(OUT, exist_ok=True)
    one, whole, shared, names, parts = (os.path.join(room, it)
                                        for it in (f"{NAME}.o", "whole.a", "whole.so", "names", "parts"))
    ran_well(["ld", "-r", "-o", one, *objects_of((made, allocation), parts)], parts)
    ran_well(["objcopy", "--wildcard", f"--keep-global-symbol={NAME}_*", one], room)
    ran_well(["ar", "rcsD", whole, one], room)
    with open(names, "w", encoding="ascii") as out:
        out.write(f"{{ global: {NAME}_*; local: *; }};\n")
    ran_well(["cc", "-shared", "-o", shared, one, f"-Wl,--version-script={names}", f"-Wl,-soname,{SONAME}",
              "-Wl,-z,defs", "-Wl,-z,noexecstack"], room)
    for file, target in ((whole, ARCHIVE), (shared, SHARED)):
        shutil.copyfile(file, f"{target}.new")
        os.replace(f"{target}.new", target)
    os.symlink(SONAME, f"{LINK}.new")
    os.replace(f"{LINK}.new", LINK)


def build(is_left_by_ci: bool) -> None:
    began = time.time_ns()
    given = os.environ.get("LIBRARY")
    if not given and not is_stale(SHARED) and os.path.exists(ARCHIVE):
        return
    kit, crates = Kit.found(), crates_for(NAME)
    top = crates.pop(NAME)
    with tempfile.TemporaryDirectory() as room, tempfile.TemporaryDirectory() as packing:
        if given:
            made = os.path.abspath(given)
        else:
            kit.tell()
            libraries = left_by_ci(crates, room) if is_left_by_ci else kept_by_make(kit, crates)
            made = built_over(kit, top, libraries, room)
        pack(kit.allocation(), made, packing)
    for file in (ARCHIVE, SHARED):
        os.utime(file, ns=(began, began))


def main() -> int:
    try:
        build(sys.argv[1:] == ["--left-by-ci"])
    except (NotBuilt, OSError) as why:
        say(str(why))
        return FAILED
    print(ARCHIVE)
    print(LINK)
    return 0


if __name__ == "__main__":
    sys.exit(main())
