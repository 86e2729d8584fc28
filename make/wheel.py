"""The wheel of the Python package: `omega` with the shared library beside it, for Linux on x86-64 and any Python 3.

`pip wheel .` and `pip install .` find this module in `pyproject.toml`, as the backend of the build (PEP 517). It proves
and builds the library first where that is needed. It needs no package of its own, so that nothing is fetched.
"""
import base64
import hashlib
import io
import os
import re
import subprocess
import sys
import zipfile

ROOT = os.path.dirname(os.path.dirname(os.path.abspath(__file__)))
SHARED = "libomega.so.1"
TAG = "py3-none-linux_x86_64"
# The time that packed files have: 24 November 2026, 00:00.
WHEN = (2026, 11, 24, 0, 0, 0)
METADATA = """\
Metadata-Version: 2.1
Name: omega
Version: {version}
Summary: Parity games solved and judged, with answers that are proved to be right
License: {license}
Requires-Python: >=3.10
Classifier: Typing :: Typed
Description-Content-Type: text/markdown

`import omega` solves, judges and bounds parity games, combines and decides omega-automata, makes and judges circuits,
and has the program `omega` as a function. The library behind it, which is inside this package, is proved; the package
itself is tested.
"""
FORMAT = f"""\
Wheel-Version: 1.0
Generator: omega
Root-Is-Purelib: false
Tag: {TAG}
"""


def bytes_of(*path: str) -> bytes:
    with open(os.path.join(*path), "rb") as source:
        return source.read()


def version() -> str:
    """The version that the header for C names."""
    named = re.search(r'^#define OMEGA_VERSION "(.*)"$', bytes_of(ROOT, "include", "omega.h").decode(), re.MULTILINE)
    if not named:
        raise ValueError("include/omega.h names no version")
    return named[1]


def sum_of(held: bytes) -> str:
    """A sum as RECORD has it."""
    return "sha256=" + base64.urlsafe_b64encode(hashlib.sha256(held).digest()).rstrip(b"=").decode()


def described() -> dict[str, bytes]:
    """The files that describe the package, but for RECORD."""
    folder = f"omega-{version()}.dist-info"
    license = bytes_of(ROOT, "LICENSE")
    return {
        f"{folder}/METADATA": METADATA.format(version=version(), license=license.decode().split("\n")[0]).encode(),
        f"{folder}/WHEEL": FORMAT.encode(),
        f"{folder}/LICENSE": license,
    }


def pack(library: str, into: str) -> str:
    """Packs the package with the shared library that is in a folder. Returns the name of the wheel."""
    package = os.path.join(ROOT, "python", "omega")
    names = sorted(name for name in os.listdir(package) if name.endswith((".py", ".typed")))
    files = {f"omega/{name}": bytes_of(package, name) for name in names}
    files[f"omega/{SHARED}"] = bytes_of(library, SHARED)
    files |= described()
    record = f"omega-{version()}.dist-info/RECORD"
    lines = [f"{path},{sum_of(held)},{len(held)}\n" for path, held in files.items()]
    files[record] = "".join([*lines, f"{record},,\n"]).encode()
    packed = io.BytesIO()
    with zipfile.ZipFile(packed, "w", zipfile.ZIP_DEFLATED) as out:
        for path, held in files.items():
            entry = zipfile.ZipInfo(path, WHEN)
            entry.compress_type, entry.external_attr = zipfile.ZIP_DEFLATED, 0o100644 << 16
            out.writestr(entry, held)
    name = f"omega-{version()}-{TAG}.whl"
    with open(os.path.join(into, name), "wb") as wheel:
        wheel.write(packed.getvalue())
    return name


def build_wheel(wheel_directory: str, config_settings: object = None, metadata_directory: object = None) -> str:
    """What pip asks of the backend: the wheel in a folder. Returns its name."""
    subprocess.run([sys.executable, os.path.join(ROOT, "make", "library.py")], check=True, stdout=sys.stderr)
    return pack(os.path.join(ROOT, "out"), wheel_directory)
