"""Shims in C, which are preloaded over a program."""
import contextlib
import os
import subprocess
import tempfile
from collections.abc import Iterator

HERE = os.path.dirname(os.path.abspath(__file__))


def built_shim(name: str, folder: str) -> str:
    """The path of the shim of this name, compiled into a folder."""
    path = os.path.join(folder, f"{name}.so")
    subprocess.run(["cc", "-O2", "-shared", "-fPIC", "-o", path, os.path.join(HERE, f"{name}.c"), "-ldl"], check=True)
    return path


@contextlib.contextmanager
def shim(name: str) -> Iterator[tuple[str, str]]:
    """A folder that is removed at the end, and in it the path of the shim of this name, compiled for these runs."""
    with tempfile.TemporaryDirectory() as folder:
        yield folder, built_shim(name, folder)
