"""Sessions of Ingthabor from Python: run(session) gives the listing, or raises Refused.

The library is build/libingthabor.so beside this file, which `make shared` builds, or the one that the environment
variable INGTHABOR_LIBRARY names.
"""
import ctypes
import os

MOST_LISTING = 52168
LINES = 1 << 24

_beside = os.path.join(os.path.dirname(os.path.abspath(__file__)), "build", "libingthabor.so")
_call = ctypes.CDLL(os.environ.get("INGTHABOR_LIBRARY", _beside)).ingthabor_guarded
_call.argtypes = [ctypes.c_char_p, ctypes.c_size_t, ctypes.c_char_p, ctypes.c_size_t]
_call.restype = ctypes.c_uint32


class Refused(Exception):
    """Its refusal is 3, 5, 8 or 9; its line counts from 1, and is 0 where no line is to blame."""

    def __init__(self, number):
        self.refusal, self.line = divmod(number, LINES)
        super().__init__(f"refused {self.refusal}, line {self.line}")


def run(session: bytes, room: int = MOST_LISTING) -> bytes:
    """The listing of a session; one of more than `room` bytes is refused."""
    if room < 0:
        raise ValueError("the room for a listing is a number of bytes")
    session = memoryview(session).tobytes()
    listing = ctypes.create_string_buffer(room + 1)
    number = _call(session, len(session), listing, room)
    if number >= LINES:
        raise Refused(number)
    return listing.raw[:number]
