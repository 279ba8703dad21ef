"""The calls of libmdsal.so."""
import ctypes
import json
import os
import threading
from typing import Any, Sequence

from .errors import fault_of
from .replies import Data, reply_of

U32, U64, SIZE, TEXT = ctypes.c_uint32, ctypes.c_uint64, ctypes.c_size_t, ctypes.c_char_p
# The calls, with their arguments behind the handle, and their result.
CALLS = (
    ("open", [TEXT, SIZE], U32),
    ("step", [U32, TEXT, SIZE], U32),
    ("reply", [TEXT, SIZE], SIZE),
    ("report", [], U32),
    ("frames", [U64], U32),
    ("snapshot", [], U32),
    ("epoch", [U64], U32),
    ("follow", [TEXT, SIZE, U64], U32),
    ("feed", [TEXT, SIZE], U32),
    ("lead", [U32], U32),
    ("look", [U32, TEXT, SIZE], U32),
    ("number", [], U64),
    ("version", [], U32),
    ("left", [], SIZE),
    ("waits", [U32, ctypes.c_uint8], U32),
    ("follow_of", [TEXT, SIZE, ctypes.POINTER(U64), SIZE], U32),
    ("feed_of", [U32, TEXT, SIZE], U32),
    ("frames_of", [U32, U64], U32),
    ("snapshot_of", [U32], U32),
    ("epoch_of", [ctypes.POINTER(U64), SIZE], U32),
    ("look_of", [U32, U32, TEXT, SIZE], U32),
    ("number_of", [U32], U64),
    ("domains", [], SIZE),
    ("close", [], None),
)
# The statuses that have a line.
LINES = (6, 7, 8, 10, 12, 13)
STORES = {"config": 0, "operational": 1}


class Handle(ctypes.Structure):
    _fields_ = [("full", ctypes.c_bool), ("at", ctypes.c_void_p)]


def default_path() -> str:
    """Returns the path of the library: the value of MDSAL_LIBRARY, or libmdsal.so beside this file, or the one that the system finds."""
    beside = os.path.join(os.path.dirname(os.path.abspath(__file__)), "libmdsal.so")
    return os.environ.get("MDSAL_LIBRARY") or (beside if os.path.exists(beside) else "libmdsal.so.0")


def loaded(path: str) -> ctypes.CDLL:
    library = ctypes.CDLL(path)
    for name, takes, gives in CALLS:
        function = getattr(library, f"mdsal_{name}")
        function.argtypes, function.restype = [ctypes.POINTER(Handle), *takes], gives
    return library


def bytes_of(what: Any) -> bytes:
    """Returns a script or a step as bytes: a text, bytes, or an object for `json.dumps`."""
    if isinstance(what, (bytes, bytearray)):
        return bytes(what)
    return (what if isinstance(what, str) else json.dumps(what)).encode()


def number(it: int, bits: int) -> int:
    """Returns the number, if it has no more bits: `ctypes` would take others for another one."""
    if not 0 <= it < 1 << bits:
        raise OverflowError(f"{it} is no number of {bits} bits")
    return it


def numbers(them: int | Sequence[int]) -> tuple[Any, int]:
    """Returns numbers of the first domains as an array with its length; one number is that of domain 0."""
    all_of = [number(it, 64) for it in ([them] if isinstance(them, int) else them)]
    return (U64 * max(1, len(all_of)))(*all_of), len(all_of)


class Session:
    """A handle with its lock and the room for texts."""

    def __init__(self, library: str | None):
        self._library = loaded(library or default_path())
        self._handle, self._lock, self._room = Handle(), threading.RLock(), ctypes.create_string_buffer(4096)

    def close(self) -> None:
        """Frees what the handle holds. It may be called again."""
        with self._lock:
            self._library.mdsal_close(self._handle)

    def __exit__(self, *_: object) -> None:
        self.close()

    def __del__(self) -> None:
        # (also if __init__ failed early; no call runs, since there is no reference to the session)
        if getattr(self, "_handle", None) is not None:
            self._library.mdsal_close(self._handle)

    def _call(self, what: str, name: str, *words: Any) -> bytes:
        """Makes a call, and returns its text. The lock is held until the text is copied."""
        with self._lock:
            status = getattr(self._library, f"mdsal_{name}")(self._handle, *words)
            text = self._reply() if not status or status in LINES else b""
        if status:
            raise fault_of(status, text.decode() or what)
        return text

    def _number(self, name: str, *words: Any) -> int:
        with self._lock:
            return getattr(self._library, f"mdsal_{name}")(self._handle, *words)

    def look(self, store: str, path: str, domain: int = 0) -> Any:
        """Returns what is at the path in the newest tree of the domain, or `None` if there is nothing. It is no step, and adds nothing to the log."""
        text = path.encode()
        it = reply_of(self._call(f"look at {path}", "look_of", number(domain, 32), STORES[store], text, len(text)).decode())
        assert isinstance(it, Data)
        return it.value

    def snapshot(self, domain: int = 0) -> bytes:
        """Returns one frame with all rows: that of the domain's newest commit. A stream may begin with it."""
        return self._call(f"snapshot of domain {domain}", "snapshot_of", number(domain, 32))

    @property
    def number(self) -> int:
        """The number of the newest commit of domain 0, the controller's own, or of its last frame; 0 if there is none."""
        return self._number("number")

    def number_of(self, domain: int) -> int:
        """Returns the number of the domain's newest commit, or of its last frame; 0 if there is none."""
        return self._number("number_of", number(domain, 32))

    @property
    def numbers(self) -> list[int]:
        """The numbers of the newest commits, or of the last frames, of all domains."""
        with self._lock:
            return [self.number_of(it) for it in range(self.domains)]

    @property
    def domains(self) -> int:
        """How many domains there are: the controller's own, and one for each device."""
        return self._number("domains")

    def _reply(self) -> bytes:
        while True:
            length = self._library.mdsal_reply(self._handle, self._room, len(self._room))
            if length <= len(self._room):
                return ctypes.string_at(self._room, length)
            self._room = ctypes.create_string_buffer(2 * length)
