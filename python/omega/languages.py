"""Automata as texts: what the library's calls for them take and give."""
from __future__ import annotations

import ctypes
from collections.abc import Sequence
from typing import Any

from . import library
from .library import NO_PLACE, Refusal, Text, TextOutcome


def given(call: str, texts: Sequence[bytes], *more: Any) -> bytes:
    """The text that a call gives for these texts and what else it takes. Raises `Refusal` if it gives none."""
    held, words = Text(), [it for text in texts for it in (text, len(text))]
    try:
        _judge(getattr(library.LIBRARY, f"omega_{call}")(*words, *more, held))
        return ctypes.string_at(held.bytes, held.length)
    finally:
        library.LIBRARY.omega_free(held)


def decided(call: str, texts: Sequence[bytes], *more: Any) -> tuple[bool, bytes]:
    """The verdict of a call for these texts, and the text that it gives. Raises `Refusal` if there is none."""
    verdict = ctypes.c_uint32()
    text = given(call, texts, *more, verdict)
    return verdict.value == 1, text


def _judge(outcome: TextOutcome) -> None:
    """Raises the refusal, if the outcome is one."""
    if outcome.number:
        place = None if outcome.place == NO_PLACE else outcome.place
        raise Refusal(outcome.number, None, place, None, outcome.text or None)
