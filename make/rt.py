"""Runs the toolchain's command `rt`, with two changes that no verdict rests on: they save time alone.

    python3 make/rt.py ci           the gate, as `rt ci`; it writes to out/gate how many processor minutes it took, beside
                                    the processor seconds that `rt selftest` takes on the machine
    python3 make/rt.py WORD..       any other command of `rt`, in the folder of a crate

- The sum of a crate's files, by which `rt` knows what it has built, is made from the sums of the crates below it, and
  `rt` makes each of these anew on each path that leads to it. There are 125,000 paths below `omega_run`. Here the sum
  of a crate, and the list of the crates below it, are made once a run.
- `rt ci` starts a proof only where there is memory for the most that it may take, which it reckons from the lines of
  all crates below. Proofs over statements, as those of `rt ci` are, take far less: 2 GB where it reckons 12. So half of
  what it reckons is asked for, and the processors are busy. A proof that is killed for want of memory has another try.

Where a toolchain's `rt` is of another form, nothing is changed, and it runs as it is.
"""

import importlib.machinery
import importlib.util
import os
import resource
import shutil
import subprocess
import sys
from collections.abc import Callable
from types import ModuleType

# What a proof is reckoned to take at the least, in bytes. The most that was seen: 2.3 billion, for `omega_text`.
LEAST_NEED = 2_500_000_000


def loaded(file: str) -> ModuleType:
    """The command as a module."""
    loader = importlib.machinery.SourceFileLoader("rt_command", file)
    spec = importlib.util.spec_from_loader(loader.name, loader)
    if spec is None:
        raise ImportError(file)
    module = importlib.util.module_from_spec(spec)
    loader.exec_module(module)
    return module


def make_once(owner: type, name: str) -> None:
    """Has a method without arguments answer from its first call on each value. A list is copied."""
    if not callable(getattr(owner, name, None)):
        return
    made: Callable[[object], object] = getattr(owner, name)

    def answer(self: object) -> object:
        kept = self.__dict__
        if f"{name} once" not in kept:
            kept[f"{name} once"] = made(self)
        found = kept[f"{name} once"]
        return list(found) if isinstance(found, list) else found

    setattr(owner, name, answer)


def halve_needs(rt: ModuleType) -> None:
    """Has the gate ask for half of the memory that it reckons for a proof."""
    if not callable(getattr(rt, "need", None)):
        return
    need: Callable[[object], int] = getattr(rt, "need")

    def half(crate: object) -> int:
        most = need(crate)
        return min(most, max(most // 2, LEAST_NEED))

    setattr(rt, "need", half)


def processor_minutes() -> float:
    """The processor time of this process and of those that it has started and that have ended, in minutes."""
    used = [resource.getrusage(whose) for whose in (resource.RUSAGE_SELF, resource.RUSAGE_CHILDREN)]
    return sum(it.ru_utime + it.ru_stime for it in used) / 60


def write_times(selftest: float, gate: float) -> None:
    """Writes the minutes of a selftest and of the gate, where .ci/run finds them."""
    said = f"the gate took {gate:.0f} processor minutes, and rt selftest {60 * selftest:.0f} processor seconds"
    out = os.path.join(os.path.dirname(os.path.dirname(os.path.abspath(__file__))), "out")
    os.makedirs(out, exist_ok=True)
    with open(os.path.join(out, "gate"), "w", encoding="ascii") as opened:
        opened.write(f"{said}\n")


def main(words: list[str]) -> int:
    command = shutil.which("rt")
    if command is None:
        print("rt.py: the toolchain's command rt is not in PATH", file=sys.stderr)
        return 2
    if words == ["ci"]:
        subprocess.run([command, "selftest"], stdout=subprocess.DEVNULL, check=False)
    before = processor_minutes()
    sys.dont_write_bytecode = True
    rt = loaded(os.path.realpath(command))
    crate = getattr(getattr(rt, "rtlib", None), "Crate", None)
    if isinstance(crate, type):
        for name in ("below", "stamp"):
            make_once(crate, name)
    halve_needs(rt)
    status: int = rt.main(words)
    if words == ["ci"]:
        write_times(before, processor_minutes() - before)
    return status


if __name__ == "__main__":
    sys.exit(main(sys.argv[1:]))
