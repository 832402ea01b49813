"""The calls of the shared library, as include/chukkanalli.h declares them."""

import ctypes
import ctypes.util
import os
from ctypes import POINTER, Structure, c_double, c_int64, c_size_t, c_uint8, c_uint64

SENTENCES = {
    1: "the game is neither Kuhn nor Leduc",
    2: "the seat count is outside 2 to 10 for Kuhn, or not 2 for Leduc",
    3: "the tree has more than 4,000,000 nodes, which is Kuhn with 7 to 10 seats",
    4: "the work memory has fewer than 12 words of 64 bits per node of the tree",
    5: "the seat is not below the seat count",
    6: "D, the parts per set, is 0, or above 64 (Leduc, Kuhn 2 to 4) or above 16 (Kuhn 5 and 6)",
    7: "the table's or profile's length is not exactly the entry count",
    8: "in some set the parts do not add up to D",
    9: "an output is shorter than its answer",
    19: "the position cannot be reached from the start by legal moves",
    20: "the call does not fit the position",
}

KUHN, LEDUC = 0, 1
RECORD = 24  # the bytes that the listing writes for a set
WORDS = 12  # the words of work memory for each node of a tree
MOST = 2**64 - 1


class Refused(ValueError):
    """A call was refused: `number` says why, and `sentence` says it in words."""

    def __init__(self, number):
        self.number, self.sentence = number, SENTENCES.get(number, "refused")
        super().__init__(f"refused with {number}: {self.sentence}")


class Listing(Structure):
    _fields_ = [("refusal", c_uint64), ("nodes", c_uint64), ("sets", c_uint64)]


class Worths(Structure):
    _fields_ = [("refusal", c_uint64), ("count", c_uint64), ("worths", c_int64 * 6)]


class BestReply(Structure):
    _fields_ = [("refusal", c_uint64), ("value", c_int64)]


class NashConv(Structure):
    _fields_ = [("refusal", c_uint64), ("nash_conv", c_uint64), ("units", c_uint64)]


class Values(Structure):
    _fields_ = [("refusal", c_uint64), ("count", c_uint64), ("values", c_double * 6)]


class LeducPosition(Structure):
    _fields_ = [
        ("cards", c_uint8 * 2),
        ("dealt", c_uint64),
        ("public_card", c_uint8),
        ("history", c_uint8 * 8),
        ("acted1", c_uint64),
        ("acted2", c_uint64),
    ]


class LeducWritten(Structure):
    _fields_ = [("refusal", c_uint64), ("position", LeducPosition), ("count", c_uint64)]


_GAME = [c_uint64, c_uint64, POINTER(c_uint64), c_size_t]
_TABLE = [c_uint64, POINTER(c_uint8), c_size_t]
_OUT = [POINTER(c_uint8), c_size_t]
_PROFILE = [POINTER(c_double), c_size_t]
_CALLS = {
    "enumerate_infosets": (Listing, _GAME + _OUT),
    "worths": (Worths, _GAME + _TABLE),
    "best_reply": (BestReply, _GAME + [c_uint64] + _TABLE + _OUT),
    "nash_conv_units": (NashConv, _GAME + _TABLE),
    "compare": (c_int64, [c_uint64] * 4),
    "best_response_values": (Values, _GAME + _PROFILE),
    "profile_values": (Values, _GAME + _PROFILE),
    "nash_conv": (Values, _GAME + _PROFILE),
    "exploitability": (Values, _GAME + _PROFILE),
    "leduc_legal_actions": (LeducWritten, [LeducPosition, c_uint64] + _OUT),
}


def _library():
    """The file that CHUKKANALLI_LIBRARY names; else beside this module where it was installed or built; else the system's."""
    here = os.path.dirname(os.path.abspath(__file__))
    beside = [
        os.path.join(here, "..", "..", "..", "lib", "libchukkanalli.so.0"),
        os.path.join(here, "..", "..", "build", "lib", "libchukkanalli.so.0"),
    ]
    given = os.environ.get("CHUKKANALLI_LIBRARY")
    found = given or next((path for path in beside if os.path.exists(path)), None) or ctypes.util.find_library("chukkanalli")
    if found is None:
        raise ImportError("libchukkanalli.so.0 is not found; `make shared` builds it, and CHUKKANALLI_LIBRARY names it")
    library = ctypes.CDLL(found)
    for name, (result, arguments) in _CALLS.items():
        call = getattr(library, "chukkanalli_" + name)
        call.restype, call.argtypes = result, arguments
    return library


_LIBRARY = _library()


def call(name, *arguments):
    """Makes a call, and raises what it refuses."""
    answer = getattr(_LIBRARY, "chukkanalli_" + name)(*arguments)
    if getattr(answer, "refusal", 0):
        raise Refused(answer.refusal)
    return answer


def number(value):
    """A number for a call: one that 64 bits do not hold is the greatest that they do, which every call refuses."""
    value = int(value)
    return value if 0 <= value <= MOST else MOST
