"""The library of C, over `ctypes`: its structures, its calls, and the refusals that they give.

It is sought in `LIBOMEGA`, then beside this file, where a wheel has it, then in `out/` of the repository, then by the
system. One whose version begins with another number has other structures, and is an OSError.
"""
from __future__ import annotations

import ctypes
import ctypes.util
import os
from typing import Any

# The first number of the versions of the library that have these structures.
INTERFACE = "1"
NO_PLACE = 0xFFFF_FFFF_FFFF_FFFF
NAMES = {1: "Lex", 2: "Number", 3: "Syntax", 4: "TooLong", 13: "TooManyNodes", 14: "TooManyEdges", 20: "Version",
         21: "RepeatedHeader", 22: "MissingAcceptance", 23: "UnknownHeader", 24: "StateRange", 25: "SetRange",
         26: "Proposition", 27: "Alias", 28: "StateTwice", 29: "MixedLabels", 30: "ImplicitCount",
         31: "AcceptanceAtom", 32: "TooDeep", 33: "Expansion", 40: "NotParity", 41: "UniversalBranch",
         42: "TooManyPropositions", 50: "TooWide", 51: "Budget", 53: "BadSolution", 55: "TooLarge",
         56: "NotDeterministic", 57: "BadShape", 58: "Controllable", 59: "Unjudged", 60: "Memory", 70: "Variables",
         71: "LiteralRange", 72: "Defined", 73: "Undefined", 74: "Cycle", 75: "Reset", 76: "Symbol", 77: "Properties",
         78: "Name"}


class Refusal(Exception):
    """Why a call gave no answer: its `number` and `name`. For 57 `array` says which array has a wrong entry, and
    `place` where; for 1 to 3 `place` is that of a byte in the text, and for 56 that of a state. Of a call that is given
    two texts `text` is 1 if the refusal is about the first, and 2 for the second."""

    def __init__(self, number: int, array: str | None = None, place: int | None = None, name: str | None = None,
                 text: int | None = None) -> None:
        self.number, self.array, self.place, self.text = number, array, place, text
        self.name = name or NAMES.get(number, "Refused")
        # The arguments that make it again where it comes from another process.
        super().__init__(number, array, place, name, text)

    def __str__(self) -> str:
        inside = f" in {self.array}" if self.array is not None else ""
        return f"{self.number} {self.name}{inside}" + (f" at {self.place}" if self.place is not None else "")


# As a traceback names it.
Refusal.__module__ = "omega"


class GameArrays(ctypes.Structure):
    _fields_ = [("priorities", ctypes.c_void_p), ("priority_count", ctypes.c_size_t),
                ("owners", ctypes.c_void_p), ("owner_count", ctypes.c_size_t),
                ("starts", ctypes.c_void_p), ("start_count", ctypes.c_size_t),
                ("successors", ctypes.c_void_p), ("successor_count", ctypes.c_size_t)]


class Outcome(ctypes.Structure):
    _fields_ = [("number", ctypes.c_uint32), ("array", ctypes.c_uint32), ("place", ctypes.c_uint64)]


class Lifts(ctypes.Structure):
    _fields_ = [("zero", ctypes.c_uint64), ("one", ctypes.c_uint64)]


class Verdict(ctypes.Structure):
    _fields_ = [("is_right", ctypes.c_uint32), ("player", ctypes.c_uint32), ("stem", ctypes.c_uint64),
                ("cycle", ctypes.c_uint64)]


class OneBound(ctypes.Structure):
    _fields_ = [("low", ctypes.c_uint64), ("high", ctypes.c_uint64), ("fits", ctypes.c_uint64)]


class BoundPair(ctypes.Structure):
    _fields_ = [("zero", OneBound), ("one", OneBound)]


class RunLengths(ctypes.Structure):
    _fields_ = [("status", ctypes.c_uint32), ("output", ctypes.c_uint64), ("errors", ctypes.c_uint64)]


class Text(ctypes.Structure):
    _fields_ = [("bytes", ctypes.c_void_p), ("length", ctypes.c_size_t), ("held", ctypes.c_void_p)]


class TextOutcome(ctypes.Structure):
    _fields_ = [("number", ctypes.c_uint32), ("text", ctypes.c_uint32), ("place", ctypes.c_uint64)]


def _found() -> str:
    """The path of the library."""
    here = os.path.dirname(os.path.abspath(__file__))
    for path in (os.environ.get("LIBOMEGA"), os.path.join(here, "libomega.so.1"),
                 os.path.join(here, os.pardir, os.pardir, "out", "libomega.so.1")):
        if path and os.path.exists(path):
            return path
    found = ctypes.util.find_library("omega")
    if not found:
        raise OSError("libomega.so.1 is not found: make it by `make libomega`, or name it in LIBOMEGA")
    return found


def _loaded(path: str) -> ctypes.CDLL:
    """The library. Raises OSError if it is of another version, or lacks a call."""
    try:
        library = _declared(ctypes.CDLL(path))
    except AttributeError as lacking:
        raise OSError(f"{path} is older than this package: {lacking}") from None
    if _version_of(library).partition(".")[0] != INTERFACE:
        raise OSError(f"{path} has version {_version_of(library)}, and this package is for version {INTERFACE}")
    return library


def _declared(library: ctypes.CDLL) -> ctypes.CDLL:
    """The library, with what its functions take and give."""
    room, game = (ctypes.c_void_p, ctypes.c_size_t), ctypes.POINTER(GameArrays)
    library.omega_solve.argtypes = [game, ctypes.c_uint8, ctypes.c_uint64, *room, *room, ctypes.POINTER(Lifts)]
    library.omega_solve.restype = Outcome
    library.omega_verify.argtypes = [game, *room, *room, ctypes.POINTER(Verdict), *room, *room]
    library.omega_verify.restype = Outcome
    library.omega_bound.argtypes = [game, ctypes.POINTER(BoundPair)]
    library.omega_bound.restype = Outcome
    library.omega_run.argtypes = [*room * 5]
    library.omega_run.restype = RunLengths
    library.omega_version.argtypes = [*room]
    library.omega_version.restype = ctypes.c_size_t
    text, held = (ctypes.c_char_p, ctypes.c_size_t), ctypes.POINTER(Text)
    verdict = ctypes.POINTER(ctypes.c_uint32)
    calls: list[tuple[str, list[Any]]] = [
        ("empty", [*text, ctypes.c_uint8]), ("complement", [*text]), ("meet", [*text, *text]),
        ("contained", [*text, *text, ctypes.c_uint8, verdict]), ("equal", [*text, *text, ctypes.c_uint8, verdict]),
        ("realize", [*text, verdict]), ("formula", [*text]), ("ltl", [*text, ctypes.c_uint8]),
        ("ltl_deterministic", [*text]),
        ("realize_formula", [*text, *text, ctypes.c_uint8, verdict]),
        ("satisfies", [*text, *text, ctypes.c_uint8, verdict]),
        ("circuit", [*text, ctypes.c_uint8]), ("circuit_automaton", [*text]),
        ("verify_circuit", [*text, *text, ctypes.c_uint8, verdict]),
        ("verify_formula_circuit", [*text, *text, *text, ctypes.c_uint8, ctypes.c_uint8, verdict]),
        ("realize_circuit", [*text, ctypes.c_uint8, verdict]),
        ("realize_formula_circuit", [*text, *text, ctypes.c_uint8, ctypes.c_uint8, verdict])]
    for name, words in calls:
        call = getattr(library, f"omega_{name}")
        call.argtypes, call.restype = [*words, held], TextOutcome
    library.omega_free.argtypes, library.omega_free.restype = [held], None
    return library


def _version_of(library: ctypes.CDLL) -> str:
    room = (ctypes.c_uint8 * 64)()
    length = library.omega_version(*room_of(room))
    return bytes(room[:length]).decode()


def version() -> str:
    """The version of the library."""
    return _version_of(LIBRARY)


def room_of(array: Any) -> tuple[Any, int]:
    """An array of C as a pointer and a length."""
    return ctypes.addressof(array), len(array)


LIBRARY = _loaded(_found())
