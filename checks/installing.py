"""The library as it is installed, where it is built (`make libomega`) or this family is named: header, archive, shared
library and the file for pkg-config below a prefix, the Debian package in an empty root, and the wheel in a fresh
virtual environment. There the examples of `docs/library.md` run as they stand. Only the exports can be seen.
"""
import os
import re
import shlex
import shutil
import subprocess
import sys
import tempfile
from functools import partial

from libomega import BUILT, DOCTEST, examples_of, ran_fault
from packages import PACKAGE, bytes_of, sums_fault
from program import ROOT, SECONDS, Cases, Fault

SHARED_NAME = "libomega.so.1"
DEBIAN_LIBRARIES = "usr/lib/x86_64-linux-gnu"
# What a type checker must find to be right: the hints of the package are those of this program.
TYPED = """\
import omega
answer: omega.Solution = omega.solve([0], [0], [[0]])
winner: list[int] = answer.winner
choice: list[int | None] = answer.choice
"""


def made(*words: str) -> None:
    """Packs or installs the library that was built."""
    subprocess.run([sys.executable, PACKAGE, *words, "--library", BUILT], check=True, stdout=subprocess.DEVNULL,
                   stderr=subprocess.DEVNULL)


def page() -> str:
    with open(os.path.join(ROOT, "docs", "library.md")) as file:
        return file.read()


def declared_names() -> set[str]:
    """The functions that the header declares."""
    with open(os.path.join(ROOT, "include", "omega.h")) as file:
        return set(re.findall(r"^\w+ (omega_\w+)\(", file.read(), re.MULTILINE))


def exported_fault(words: list[str]) -> Fault:
    """The names that only the library shows, or only the header, or nothing."""
    ran = subprocess.run(words, capture_output=True, text=True, check=True)
    shown = set(re.findall(r"^[0-9a-f]+ \w (\S+)$", ran.stdout, re.MULTILINE))
    others, missing = sorted(shown - declared_names()), sorted(declared_names() - shown)
    return f"it shows {others[:3]}" if others else f"it lacks {missing}" if missing else None


def name_fault(file: str) -> Fault:
    """What a program that is linked with the shared library will look for, if it is another name."""
    ran = subprocess.run(["objdump", "-p", file], capture_output=True, text=True, check=True)
    found = re.search(r"^\s*SONAME\s+(\S+)$", ran.stdout, re.MULTILINE)
    return None if found and found[1] == SHARED_NAME else f"its name is {found and found[1]}"


def linked_checks(label: str, library: str, sysroot: str, folder: str) -> Cases:
    """The example in C, compiled by what pkg-config says of an installed library, over the archive and shared."""
    env = {**os.environ, "PKG_CONFIG_PATH": os.path.join(library, "pkgconfig"), "PKG_CONFIG_SYSROOT_DIR": sysroot}
    words = ["pkg-config", "--cflags", "--libs", "omega"]
    ran = subprocess.run(words, env=env, capture_output=True, text=True)
    yield f"{label}: pkg-config", ran.stderr or None
    flags, (source, wanted) = shlex.split(ran.stdout), examples_of(page(), "c")[0]
    file = os.path.join(folder, "example.c")
    with open(file, "w") as out:
        out.write(source)
    for kind, more in (("shared", flags), ("archive", [*flags[:-1], "-l:libomega.a"])):
        program = os.path.join(folder, f"example-{kind}")
        ran = subprocess.run(["cc", "-o", program, file, *more], capture_output=True, text=True, timeout=SECONDS)
        path = {**os.environ, "LD_LIBRARY_PATH": library} if kind == "shared" else dict(os.environ)
        yield f"{label}: the example in C, {kind}", ran.stderr or ran_fault([program], wanted, path)


def prefix_checks(room: str) -> Cases:
    """What `make install-lib` leaves below a prefix."""
    prefix = os.path.join(room, "prefix")
    made("install-lib", "--prefix", prefix)
    library = os.path.join(prefix, "lib")
    leads = os.readlink(os.path.join(library, "libomega.so"))
    yield "the link to the shared library", None if leads == SHARED_NAME else f"it leads to {leads}"
    archive = os.path.join(library, "libomega.a")
    yield "the names of the archive", exported_fault(["nm", "-g", "--defined-only", archive])
    shared = os.path.join(library, SHARED_NAME)
    yield "the names of the shared library", exported_fault(["nm", "-D", "--defined-only", shared])
    yield "the name of the shared library", name_fault(shared)
    if shutil.which("pkg-config"):
        yield from linked_checks("prefix", library, "", room)


def debian_checks(package: str, room: str) -> Cases:
    """Installs the package into an empty root, uses what is there, and removes it again."""
    for folder in ("info", "updates", "triggers"):
        os.makedirs(os.path.join(room, "var/lib/dpkg", folder))
    for name in ("status", "available"):
        open(os.path.join(room, "var/lib/dpkg", name), "wb").close()
    words = ["dpkg", f"--root={room}", "--force-depends", "--force-not-root", "--force-bad-path"]
    done = subprocess.run([*words, "--install", package], capture_output=True, text=True)
    yield "the Debian package is installed", done.stderr[-300:] if done.returncode else None
    if shutil.which("pkg-config"):
        with tempfile.TemporaryDirectory() as folder:
            yield from linked_checks("Debian", os.path.join(room, DEBIAN_LIBRARIES), room, folder)
    done = subprocess.run([*words, "--purge", "libomega-dev"], capture_output=True, text=True)
    yield "the Debian package is removed", done.stderr[-300:] if done.returncode else None
    left = [name for _, _, names in os.walk(os.path.join(room, "usr")) for name in names]
    yield "what the Debian package leaves", f"it leaves {left}" if left else None


def wheel_checks(wheel: str, room: str) -> Cases:
    """Installs the wheel into a fresh virtual environment, without an index, and uses it from there."""
    venv, env = os.path.join(room, "venv"), {"PATH": os.environ["PATH"]}
    ran = subprocess.run([sys.executable, "-m", "venv", venv], capture_output=True, text=True, timeout=SECONDS)
    if ran.returncode:
        print("installing: the wheel is passed over, since this Python makes no virtual environment", flush=True)
        return
    python = os.path.join(venv, "bin", "python")
    ran = subprocess.run([python, "-m", "pip", "install", "--no-index", "--quiet", wheel], env=env, cwd=room,
                         capture_output=True, text=True, timeout=SECONDS)
    yield "pip installs the wheel", ran.stderr if ran.returncode else None
    for number, (source, wanted) in enumerate(examples_of(page(), "python")):
        yield f"wheel: example {number} in Python", partial(ran_fault, [python, "-c", source], wanted, env)
    yield "wheel: the examples of docs/python.md", partial(ran_fault, [python, *DOCTEST], b"", env)
    words = [python, "-c", "import omega, os; print(os.path.dirname(omega.__file__))"]
    where = subprocess.run(words, env=env, cwd=room, capture_output=True, text=True).stdout
    yield "the package is that of the wheel", None if where.startswith(venv) else f"it is {where!r}"
    if shutil.which("mypy"):
        words = ["mypy", "--strict", "--python-executable", python, "-c", TYPED]
        ran = subprocess.run(words, env=env, cwd=room, capture_output=True, text=True, timeout=SECONDS)
        yield "mypy takes the hints of the package", ran.stdout if ran.returncode else None


def installing_checks() -> Cases:
    subprocess.run([sys.executable, os.path.join(ROOT, "make", "library.py")], check=True, stdout=subprocess.DEVNULL)
    with tempfile.TemporaryDirectory() as room:
        yield from prefix_checks(room)
        first, again, root = (os.path.join(room, name) for name in ("first", "again", "root"))
        for folder in (first, again):
            made("dist-lib", "--into", folder)
        for name in sorted(os.listdir(first)):
            same = bytes_of(first, name) == bytes_of(again, name)
            yield f"{name} made twice", None if same else "its bytes differ"
            if name.endswith(".whl"):
                yield from wheel_checks(os.path.join(first, name), room)
            elif name.endswith(".deb") and shutil.which("dpkg"):
                os.mkdir(root)
                yield from debian_checks(os.path.join(first, name), root)
            elif name.startswith("SHA256SUMS"):
                yield "sums of the library", sums_fault(first, name)
