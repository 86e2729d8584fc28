"""What the program writes for a text, or the refusal; and pictures of what it draws."""
from __future__ import annotations

import re
import shutil
import subprocess
from collections.abc import Sequence
from typing import Union

from .arrays import Ran, run
from .library import Refusal

Text = Union[str, bytes]
REFUSED = re.compile(rb"omega: (\d+) (\w+)(?: at (\d+))?\n")
# The statuses of an answer: that of `verify` may be `no`.
ANSWERS = (0, 6)
NO_DOT = """\
<svg xmlns="http://www.w3.org/2000/svg" width="460" height="30"><text x="5" y="20">\
There is no picture, since Graphviz's dot is not installed.</text></svg>"""


def bytes_of(text: Text) -> bytes:
    """The bytes of a text. What `str_of` made of other bytes than UTF-8 is these bytes again."""
    return text.encode("utf-8", "surrogateescape") if isinstance(text, str) else bytes(text)


def str_of(text: bytes) -> str:
    return text.decode("utf-8", "surrogateescape")


def ran(words: Sequence[str], input: bytes, file: bytes = b"") -> Ran:
    """A run that gave an answer. Raises `Refusal` with number, name and place if it gave none."""
    done = run(words, input, file)
    if done.status in ANSWERS:
        return done
    refused = REFUSED.match(done.errors)
    if not refused:
        raise ValueError(done.errors.decode(errors="replace").strip())
    number, name, place = refused.groups()
    raise Refusal(int(number), None, int(place) if place else None, name.decode())


def written(words: Sequence[str], input: bytes, file: bytes = b"") -> bytes:
    """What such a run wrote."""
    return ran(words, input, file).output


def picture(drawing: bytes) -> str:
    """The picture that Graphviz makes of a drawing, as an SVG element without a declaration before it, which does not
    go into a page; where it is not installed, a picture that says so."""
    dot = shutil.which("dot")
    if not dot:
        return NO_DOT
    made = subprocess.run([dot, "-Tsvg"], input=drawing, capture_output=True, check=True).stdout.decode()
    return made[made.index("<svg"):]
