"""Installs the built program with its manual and completions, or the library for C, or packs them.

    python3 make/package.py install --program FILE --prefix /usr/local --root /
    python3 make/package.py install-lib --library FOLDER --prefix /usr/local --root /
    python3 make/package.py dist --program FILE --into FOLDER
    python3 make/package.py dist-lib --library FOLDER --into FOLDER

The folder of the library is `out/`, where `make libomega` puts it. `dist-lib` packs a Debian package for C, and a wheel
for Python. All that is packed is byte for byte the same each time it is made of the same program or library.
"""

import argparse
import contextlib
import gzip
import hashlib
import io
import os
import shutil
import subprocess
import sys
import tarfile
import tempfile
from collections.abc import Mapping
from typing import IO, cast

import wheel
from completions import bash_completions, fish_completions, subcommands_of, zsh_completions

ROOT = os.path.dirname(os.path.dirname(os.path.abspath(__file__)))
# The time that packed files have: 24 November 2026, 00:00 UTC.
WHEN = 1_795_478_400
NOTE = """\
omega {version}, for Linux on x86-64

A solver and referee of parity games and omega-automata, proved to answer rightly.

  bin/omega                 the program: copy it into a folder of PATH
  share/man/man1/omega.1    its manual: man -l share/man/man1/omega.1
  share/                    completions for bash, zsh and fish
  LICENSE                   what you may do with it

Try: echo '0 1 0 1; 1 2 1 0;' | bin/omega solve
"""
CONTROL = """\
Package: {package}
Version: {version}
Architecture: amd64
Maintainer: the authors of omega <omega@localhost>
Installed-Size: {size}
Depends: {depends}
Section: {section}
Priority: optional
Description: {description}
"""
PROGRAM = {"package": "omega", "depends": "libc6", "section": "math", "description": """\
proved solver and referee of parity games and omega-automata
 Reads parity games in PGSolver's text and automata in the Hanoi format, solves
 and judges them, and decides emptiness. Its answers are proved to be right."""}
LIBRARY = {"package": "libomega-dev", "depends": "libc6-dev", "section": "libdevel", "description": """\
proved solver and referee of parity games, as a library for C
 Header, archive, shared library and pkg-config file: solves, judges and bounds
 parity games that are given as arrays, combines and decides omega-automata that
 are given as texts, and has the program omega as a function."""}
# What pkg-config says of the library. Whoever links the archive needs nothing else.
CONFIG = """\
prefix={prefix}
libdir=${{prefix}}/{libraries}
includedir=${{prefix}}/include

Name: omega
Description: proved solver and referee of parity games
Version: {version}
Libs: -L${{libdir}} -lomega
Cflags: -I${{includedir}}
"""
# The folder of libraries below /usr in a Debian package.
DEBIAN_LIBRARIES = "lib/x86_64-linux-gnu"


def version_of(program: str) -> str:
    said = subprocess.run([program, "--version"], capture_output=True, text=True, check=True).stdout
    return said.split()[1]


def installed(program: str) -> dict[str, tuple[int, bytes]]:
    """What is installed: by path below the prefix, the mode and the bytes."""
    commands = subcommands_of(program)
    files = {"bin/omega": (0o755, bytes_of(program))}
    manual = bytes_of(os.path.join(ROOT, "docs", "omega.1"))
    files["share/man/man1/omega.1"] = (0o644, manual)
    files["share/bash-completion/completions/omega"] = (0o644, bash_completions(commands).encode())
    files["share/zsh/site-functions/_omega"] = (0o644, zsh_completions(commands).encode())
    files["share/fish/vendor_completions.d/omega.fish"] = (0o644, fish_completions(commands).encode())
    return files


def installed_library(folder: str, prefix: str, libraries: str) -> dict[str, tuple[int, bytes | str]]:
    """What is installed of the library: by path below the prefix, the mode and the bytes, or where a link leads."""
    shared = os.path.join(folder, wheel.SHARED)
    config = CONFIG.format(prefix=prefix, libraries=libraries, version=wheel.version())
    return {
        "include/omega.h": (0o644, bytes_of(os.path.join(ROOT, "include", "omega.h"))),
        f"{libraries}/libomega.a": (0o644, bytes_of(os.path.join(folder, "libomega.a"))),
        f"{libraries}/{wheel.SHARED}": (0o644, bytes_of(shared)),
        f"{libraries}/libomega.so": (0o644, wheel.SHARED),
        f"{libraries}/pkgconfig/omega.pc": (0o644, config.encode()),
    }


def bytes_of(file: str) -> bytes:
    with open(file, "rb") as source:
        return source.read()


def write_below(folder: str, files: Mapping[str, tuple[int, bytes | str]]) -> None:
    for path, (mode, held) in files.items():
        target = os.path.join(folder, path)
        os.makedirs(os.path.dirname(target), exist_ok=True)
        with contextlib.suppress(FileNotFoundError):
            os.unlink(f"{target}.new")
        if isinstance(held, str):
            os.symlink(held, f"{target}.new")
        else:
            with open(f"{target}.new", "wb") as out:
                out.write(held)
            os.chmod(f"{target}.new", mode)
        os.replace(f"{target}.new", target)


def archive(top: str, files: dict[str, tuple[int, bytes]]) -> bytes:
    """A tar archive, packed by gzip, which says nothing of when or by whom it was made."""
    packed = io.BytesIO()
    with gzip.GzipFile(fileobj=packed, mode="wb", mtime=WHEN, filename="") as out:
        with tarfile.open(fileobj=cast(IO[bytes], out), mode="w", format=tarfile.USTAR_FORMAT) as tar:
            for path in sorted(files):
                mode, held = files[path]
                entry = tarfile.TarInfo(f"{top}/{path}")
                entry.size, entry.mode, entry.mtime = len(held), mode, WHEN
                entry.uname = entry.gname = "root"
                tar.addfile(entry, io.BytesIO(held))
    return packed.getvalue()


def debian_package(kind: dict[str, str], version: str, files: Mapping[str, tuple[int, bytes | str]],
                   target: str) -> None:
    """A package of files below /usr, with the licence."""
    with tempfile.TemporaryDirectory() as room:
        os.chmod(room, 0o755)
        whole = {f"usr/{path}": entry for path, entry in files.items()}
        whole[f"usr/share/doc/{kind['package']}/copyright"] = (0o644, bytes_of(os.path.join(ROOT, "LICENSE")))
        size = sum(len(held) for _, held in whole.values()) // 1024 + 1
        whole["DEBIAN/control"] = (0o644, CONTROL.format(version=version, size=size, **kind).encode())
        write_below(room, whole)
        for at, folders, _ in os.walk(room):
            for name in folders:
                os.chmod(os.path.join(at, name), 0o755)
        words = ["dpkg-deb", "--root-owner-group", "-Zgzip", "--build", room, target]
        how = {**os.environ, "SOURCE_DATE_EPOCH": str(WHEN)}
        subprocess.run(words, env=how, check=True, stdout=subprocess.DEVNULL)


def has_debian_tools() -> bool:
    """Whether a Debian package can be made here. Says so if not."""
    if shutil.which("dpkg-deb"):
        return True
    print("omega: no Debian package, since dpkg-deb is not in PATH", file=sys.stderr)
    return False


def tell_sums(into: str, made: list[str], name: str) -> None:
    """Writes the sums of the files that were made, and prints where all are."""
    with open(os.path.join(into, name), "w", encoding="ascii") as sums:
        for file in made:
            sums.write(f"{hashlib.sha256(bytes_of(os.path.join(into, file))).hexdigest()}  {file}\n")
    for file in [*made, name]:
        print(os.path.join(into, file))


def dist(program: str, into: str) -> None:
    files, version = installed(program), version_of(program)
    os.makedirs(into, exist_ok=True)
    packed = {**files, "LICENSE": (0o644, bytes_of(os.path.join(ROOT, "LICENSE"))),
              "README": (0o644, NOTE.format(version=version).encode())}
    top = f"omega-{version}-x86_64-linux"
    made = [f"{top}.tar.gz"]
    with open(os.path.join(into, made[0]), "wb") as out:
        out.write(archive(top, packed))
    if has_debian_tools():
        made.append(f"omega_{version}_amd64.deb")
        manual = "share/man/man1/omega.1"
        of_debian: dict[str, tuple[int, bytes | str]] = {path: it for path, it in files.items() if path != manual}
        of_debian[f"{manual}.gz"] = (0o644, gzip.compress(files[manual][1], mtime=0))
        debian_package(PROGRAM, version, of_debian, os.path.join(into, made[1]))
    tell_sums(into, made, "SHA256SUMS")


def dist_library(library: str, into: str) -> None:
    os.makedirs(into, exist_ok=True)
    made = [wheel.pack(library, into)]
    if has_debian_tools():
        version = wheel.version()
        made.append(f"{LIBRARY['package']}_{version}_amd64.deb")
        files = installed_library(library, "/usr", DEBIAN_LIBRARIES)
        debian_package(LIBRARY, version, files, os.path.join(into, made[1]))
    tell_sums(into, made, "SHA256SUMS.libomega")


def words_of() -> argparse.Namespace:
    words = argparse.ArgumentParser(description=__doc__, formatter_class=argparse.RawDescriptionHelpFormatter)
    tasks = words.add_subparsers(dest="task", required=True)
    for task, what in (("install", "program"), ("dist", "program"), ("install-lib", "library"),
                       ("dist-lib", "library")):
        of_task = tasks.add_parser(task)
        of_task.add_argument(f"--{what}", required=True)
        if task.startswith("install"):
            of_task.add_argument("--prefix", default="/usr/local")
            of_task.add_argument("--root", default="/")
        else:
            of_task.add_argument("--into", default="dist")
    return words.parse_args()


def below(asked: argparse.Namespace) -> str:
    """The folder of the prefix, below another root."""
    return os.path.join(asked.root, asked.prefix.lstrip("/"))


def main() -> int:
    asked = words_of()
    if asked.task == "dist":
        dist(os.path.abspath(asked.program), asked.into)
    elif asked.task == "dist-lib":
        dist_library(asked.library, asked.into)
    elif asked.task == "install":
        write_below(below(asked), installed(os.path.abspath(asked.program)))
    else:
        write_below(below(asked), installed_library(asked.library, asked.prefix, "lib"))
    return 0


if __name__ == "__main__":
    sys.exit(main())
