"""The virtual encoder card: runs scripts of register accesses and ticks, by the shared library libcard.

    import card
    run = card.run(b"W,1F8,0000BEEF\\nR,1F8\\n")
    run.output          # b"R,1F8,0000BEEF\\n"
    run.lines, run.code # 2, Code.DONE
    run.check()         # raises card.Refused where a line was refused

The library is the one that CARD_LIBRARY names, else the one built under target/hosts, else the one installed.
"""
import ctypes
import ctypes.util
import enum
import functools
import os
import typing

MAX_SCRIPT = 65_536  # the longest script that is run, in bytes
READ_LINE = 15  # the length of what a read writes
MAX_OUTPUT = (MAX_SCRIPT + 1) // 6 * READ_LINE  # no script writes more

_BUILT = os.path.join(os.path.dirname(os.path.abspath(__file__)), "..", "..", "target", "hosts", "libcard.so.1")


class Code(enum.IntEnum):
    """Why a run stopped."""

    DONE = 0
    OFFSET = 1
    SETTING = 2
    LENGTH = 5
    FORM = 6
    FIELD = 7
    FULL = 8

    @property
    def cause(self) -> str:
        """The cause in words."""
        return _CAUSES[self]


_CAUSES = {
    Code.DONE: "every line was run",
    Code.OFFSET: "the offset is not a multiple of 4, or is above 0x1FC",
    Code.SETTING: "the card does not have the setting that is written",
    Code.LENGTH: "the script has more than 65,536 bytes",
    Code.FORM: "the kind is not R, W or T, or has another number of fields",
    Code.FIELD: "a field is badly written",
    Code.FULL: "the output is full",
}


class Refused(Exception):
    """A run was stopped; `run` has what was done before."""

    def __init__(self, run: "Run"):
        super().__init__(run)
        self.run = run

    def __str__(self) -> str:
        place = "" if self.run.refused is None else "line %d: " % self.run.refused
        return "%srefused with code %d: %s" % (place, self.run.code, self.run.code.cause)


class Run(typing.NamedTuple):
    """How a run ended: the lines run, the bytes written, and why it stopped."""

    lines: int
    output: bytes
    code: Code

    @property
    def refused(self) -> typing.Optional[int]:
        """The number of the refused line, the first being 1; None where no line was refused, or the script as a whole."""
        return None if self.code in (Code.DONE, Code.LENGTH) else self.lines + 1

    @property
    def answers(self) -> typing.List[typing.Tuple[int, int]]:
        """Offset and value of each read, in the script's order."""
        fields = (line.split(b",") for line in self.output.splitlines())
        return [(int(offset, 16), int(value, 16)) for _, offset, value in fields]

    def check(self) -> "Run":
        """The run itself if all lines were run; else raises Refused."""
        if self.code != Code.DONE:
            raise Refused(self)
        return self


class _Answer(ctypes.Structure):
    """struct card_answer of card.h; ctypes places the fields as the C compiler does."""

    _fields_ = [("lines", ctypes.c_uint32), ("bytes", ctypes.c_size_t), ("code", ctypes.c_uint8)]


class Library:
    """A shared library with the call card_run."""

    def __init__(self, path: str):
        self._call = ctypes.CDLL(path).card_run
        self._call.restype = _Answer
        self._call.argtypes = [ctypes.c_char_p, ctypes.c_size_t, ctypes.c_char_p, ctypes.c_size_t]

    def run(self, script: bytes, room: int = 65_536) -> Run:
        """Runs a script on a new card, with so many bytes of room for its output."""
        if room < 0:
            raise ValueError("room below 0")
        # A bytes-like object is copied, since the call lets other threads run and they might change it. The names
        # `script` and `output` keep both alive until the call is over.
        script = bytes(memoryview(script))
        output = ctypes.create_string_buffer(max(room, 1))  # never NULL, not even with no room
        answer = self._call(script, len(script), output, room)
        return Run(answer.lines, ctypes.string_at(output, answer.bytes), Code(answer.code))


@functools.lru_cache(maxsize=None)
def library() -> Library:
    """The library that `run` calls, loaded at the first use."""
    path = os.environ.get("CARD_LIBRARY")
    if path is None and os.path.exists(_BUILT):
        path = _BUILT
    if path is None:
        path = ctypes.util.find_library("card")
    if path is None:
        raise OSError("no libcard: build it with 'make -C hosts/c', install it, or name it in CARD_LIBRARY")
    return Library(path)


def run(script: bytes, room: int = 65_536) -> Run:
    """Runs a script on a new card, with so many bytes of room for its output."""
    return library().run(script, room)
