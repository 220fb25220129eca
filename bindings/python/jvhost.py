"""jvhost for Python: judges and runs strangers' Java class files, each guest counted to the step, by libjvhost.so.

One file, with ctypes; it needs Python 3.8 and the library, which it looks for by the variable JVHOST_LIBRARY (a path), and else as the
system finds libjvhost.so.0.

    import jvhost
    seen = jvhost.judge([open("Hi.class", "rb").read()], "Hi")
    print(seen.output, seen.end)

What a host shows of a guest is proved (docs/EMBEDDING.md); this file is not, and it keeps what the library wants of its caller.
"""
import ctypes
import enum
import functools
import os
from typing import Iterable, List, NamedTuple, Optional, Union

__all__ = ["Budget", "Code", "End", "Error", "Host", "Kind", "Observation", "Place", "Verdict", "check", "judge", "version"]

Name = Union[str, bytes]


class Code(enum.IntEnum):
    """What calls answer: `enum jvhost_code` of jvhost.h."""

    OK = 0
    NO_HOST = 1
    HAS_HOST = 2
    NO_GUEST = 3
    NO_FILE = 4
    NO_FILES = 5
    TOO_MANY_FILES = 6
    FILE_TOO_LONG = 7
    INPUT_TOO_LONG = 8
    BUDGET_OUT_OF_RANGE = 9
    TOO_MANY_GUESTS = 10
    HOST_MEMORY = 11
    WRONG_SIZE = 12
    NO_ROOM = 13
    WRONG_VERDICT = 14
    NULL_BYTES = 15
    NO_RANDOM = 16
    OLD_PROCESSOR = 17
    LIBRARY_BROKEN = 18
    NO_LIBRARY = 19
    NO_PLACE = 20


class End(enum.IntEnum):
    """How a guest ended, if it did."""

    RUNNING = 0
    RETURNED = 1
    THREW = 2
    NO_MAIN = 3


class Kind(enum.IntEnum):
    """What is found of a class file: docs/RULES.md has each."""

    ACCEPTED = 0
    VERIFY = 1
    VERSION = 2
    FORMAT = 3
    UNSUPPORTED = 4
    RESERVED = 5
    DUPLICATE = 6
    CIRCULAR = 7
    NO_SUPER = 8
    WRONG_KIND = 9
    NO_ACCESS = 10
    FINAL_BROKEN = 11


class Error(Exception):
    """A call that was refused, and changed nothing. `code` says why."""

    def __init__(self, code: int):
        self.code = Code(code)
        super().__init__(_library.jvhost_code_text(code).decode())


class LibraryFault(enum.IntEnum):
    """What is wrong with files that are no library: `enum jvhost_library_fault_kind` of jvhost.h."""

    VERSION = 0
    FORMAT = 1
    UNSUPPORTED = 2
    RESERVED = 3
    DUPLICATE = 4
    MAIN = 5
    HEADER = 6
    INITIALIZER = 7
    ABOVE_ARRAYS = 8
    NO_STRING = 9
    NO_COMPARABLE = 10
    NO_CHAR_SEQUENCE = 11


class LibraryError(Error):
    """Files are no library: `fault` says why, and `file` is the place of the file that has it, 0 where none has."""

    def __init__(self, fault: LibraryFault, file: int):
        super().__init__(Code.NO_LIBRARY)
        self.fault, self.file = fault, file


class Budget(NamedTuple):
    """What a guest may use: cells for objects, words for frames, bytes that it writes."""

    cells: int = 65_536
    words: int = 65_536
    output: int = 65_536


class Verdict(NamedTuple):
    """The verdict on a class file; with a kind other than VERIFY the other three are 0. Its text is that of `jvhost check`."""

    kind: Kind
    method: int
    offset: int
    rule: int

    def __str__(self) -> str:
        room, length = ctypes.create_string_buffer(64), ctypes.c_size_t()
        _want_ok(_library.jvhost_verdict_text(ctypes.byref(_Verdict(*self)), room, 64, ctypes.byref(length)))
        return room.raw[: length.value].decode()


class Place(NamedTuple):
    """Where an object was thrown: the method, as its class's name, its own and its descriptor, and the offset in its code."""

    class_name: bytes
    method: bytes
    descriptor: bytes
    offset: int


class Observation(NamedTuple):
    """What a guest shows after some number of its own steps. Of a judge's one there are no verdicts, `last`, `end_class` or `place`.
    `place` is where the last object was thrown, caught or not."""

    steps: int
    throws: int
    output: bytes
    end: End
    verdicts: List[Verdict]
    last: Optional[bytes]
    end_class: Optional[bytes]
    place: Optional[Place] = None


# ---- the library


class _Bytes(ctypes.Structure):
    _fields_ = [("bytes", ctypes.c_char_p), ("length", ctypes.c_size_t)]


class _Guest(ctypes.Structure):
    _fields_ = [("size", ctypes.c_size_t), ("files", ctypes.POINTER(_Bytes)), ("file_count", ctypes.c_size_t), ("main", _Bytes),
                ("input", _Bytes), ("cells", ctypes.c_uint32), ("words", ctypes.c_uint32), ("output", ctypes.c_uint32)]


class _Seen(ctypes.Structure):
    _fields_ = [("size", ctypes.c_size_t), ("steps", ctypes.c_uint64), ("throws", ctypes.c_uint64), ("output", ctypes.c_size_t),
                ("verdicts", ctypes.c_size_t), ("end", ctypes.c_uint32)]


class _Verdict(ctypes.Structure):
    _fields_ = [("kind", ctypes.c_uint32), ("method", ctypes.c_uint32), ("offset", ctypes.c_uint32), ("rule", ctypes.c_uint32)]


class _Place(ctypes.Structure):
    _fields_ = [("size", ctypes.c_size_t), ("class_name", ctypes.c_size_t), ("method", ctypes.c_size_t), ("descriptor", ctypes.c_size_t),
                ("offset", ctypes.c_uint32)]


class _Fault(ctypes.Structure):
    _fields_ = [("size", ctypes.c_size_t), ("file", ctypes.c_size_t), ("kind", ctypes.c_uint32)]


class _Handle(ctypes.Structure):
    _fields_ = [("kept", ctypes.c_void_p), ("owned", ctypes.c_void_p), ("holds", ctypes.c_uint32), ("copies", ctypes.c_void_p)]


def _declared():
    library = ctypes.CDLL(os.environ.get("JVHOST_LIBRARY", "libjvhost.so.0"))
    pointer, size, u32, u64 = ctypes.c_void_p, ctypes.c_size_t, ctypes.c_uint32, ctypes.c_uint64
    for name, result, words in (
        ("version", ctypes.c_char_p, []),
        ("code_text", ctypes.c_char_p, [u32]),
        ("new", u32, [pointer]),
        ("new_seeded", u32, [pointer, u64, u64]),
        ("new_with_library", u32, [pointer, pointer, size, pointer]),
        ("free", None, [pointer]),
        ("admit_copy", u32, [pointer, pointer, pointer]),
        ("turn", u32, [pointer, u32, u32, pointer]),
        ("run", u32, [pointer, u32, u32, pointer]),
        ("feed", u32, [pointer, u32, ctypes.c_char_p, size]),
        ("observe", u32, [pointer, u32, pointer]),
        ("output", u32, [pointer, u32, size, pointer, size, pointer]),
        ("last", u32, [pointer, u32, pointer, size, pointer]),
        ("end_class", u32, [pointer, u32, pointer, size, pointer]),
        ("place", u32, [pointer, u32, pointer, pointer, size]),
        ("verdict", u32, [pointer, u32, size, pointer]),
        ("verdict_text", u32, [pointer, pointer, size, pointer]),
        ("check", u32, [pointer, size, pointer, size]),
        ("judge", u32, [pointer, u32, pointer, pointer, size]),
        ("check_beside", u32, [pointer, pointer, size, pointer, size]),
        ("judge_beside", u32, [pointer, pointer, u32, pointer, pointer, size]),
    ):
        function = getattr(library, "jvhost_" + name)
        function.restype, function.argtypes = result, words
    return library


_library = _declared()


def _want_ok(code: int) -> None:
    if code != Code.OK:
        raise Error(code)


def _bytes_of(text: Name) -> bytes:
    return text.encode() if isinstance(text, str) else bytes(text)


def _listed(files: List[bytes]):
    return (_Bytes * max(len(files), 1))(*(_Bytes(it, len(it)) for it in files))


def _guest(files: Iterable[bytes], main: Name, data: bytes, budget: Budget) -> _Guest:
    """A guest in C; what its pointers lead to is kept by it."""
    kept = [bytes(it) for it in files]
    listed, name, data = _listed(kept), _bytes_of(main), bytes(data)
    guest = _Guest(ctypes.sizeof(_Guest), listed, len(kept), _Bytes(name, len(name)), _Bytes(data, len(data)), *budget)
    guest.kept = (kept, listed, name, data)
    return guest


def version() -> str:
    """The version of the library."""
    return _library.jvhost_version().decode()


def check(files: Iterable[bytes]) -> List[Verdict]:
    """The verdicts on files as those of one guest; nothing runs. May be called from any thread."""
    return _checked(_library.jvhost_check, files)


def judge(files: Iterable[bytes], main: Name, data: bytes = b"", steps: int = 10_000_000, budget: Budget = Budget()) -> Observation:
    """What one guest, alone, shows after at most so many steps. May be called from any thread."""
    return _judged(_library.jvhost_judge, _guest(files, main, data, budget), steps)


def _checked(call, files: Iterable[bytes]) -> List[Verdict]:
    kept = [bytes(it) for it in files]
    told = (_Verdict * max(len(kept), 1))()
    _want_ok(call(_listed(kept), len(kept), told, len(kept)))
    return [_verdict(it) for it in told[: len(kept)]]


def _judged(call, guest: _Guest, steps: int) -> Observation:
    seen, room = _Seen(ctypes.sizeof(_Seen)), ctypes.create_string_buffer(max(guest.output, 1))
    _want_ok(call(ctypes.byref(guest), steps, ctypes.byref(seen), room, guest.output))
    return Observation(seen.steps, seen.throws, room.raw[: seen.output], End(seen.end), [], None, None)


def _verdict(told: _Verdict) -> Verdict:
    return Verdict(Kind(told.kind), told.method, told.offset, told.rule)


class Host:
    """A host of up to 64 guests. It is used by one thread at a time, and ends with `close` or the end of its `with`.

        with jvhost.Host() as host:
            guest = host.admit(files, "Main")
            host.run(1000, 10_000)
            print(host.observe(guest).output)
    """

    def __init__(self, seed: Optional[int] = None, library: Iterable[bytes] = ()):
        """With the class files of a library all guests stand on it; LibraryError says what is wrong where they are none. A seed of at most
        128 bits is for tests, and for a host without one: strangers who know it can make the host slow."""
        self._handle = _Handle()
        kept = [bytes(it) for it in library]
        if kept:
            self._stand_on(kept)
        elif seed is None:
            _want_ok(_library.jvhost_new(ctypes.byref(self._handle)))
        else:
            _want_ok(_library.jvhost_new_seeded(ctypes.byref(self._handle), seed & (2**64 - 1), seed >> 64))

    def _stand_on(self, library: List[bytes]) -> None:
        fault = _Fault(ctypes.sizeof(_Fault))
        code = _library.jvhost_new_with_library(ctypes.byref(self._handle), _listed(library), len(library), ctypes.byref(fault))
        if code == Code.NO_LIBRARY:
            raise LibraryError(LibraryFault(fault.kind), fault.file)
        _want_ok(code)

    def close(self) -> None:
        """Ends the host, with its guests. Every other call then raises NO_HOST."""
        if getattr(self, "_handle", None) is not None:
            _library.jvhost_free(ctypes.byref(self._handle))

    __del__ = close

    def __enter__(self) -> "Host":
        return self

    def __exit__(self, *_: object) -> None:
        self.close()

    def check(self, files: Iterable[bytes]) -> List[Verdict]:
        """The verdicts on files as those of one guest, beside the host's library; nothing runs, and the host is as it was."""
        return _checked(functools.partial(_library.jvhost_check_beside, ctypes.byref(self._handle)), files)

    def judge(self, files: Iterable[bytes], main: Name, data: bytes = b"", steps: int = 10_000_000,
              budget: Budget = Budget()) -> Observation:
        """What one guest, alone on the host's library, shows after at most so many steps. The host is as it was, and the guest is none of
        its 64."""
        call = functools.partial(_library.jvhost_judge_beside, ctypes.byref(self._handle))
        return _judged(call, _guest(files, main, data, budget), steps)

    def admit(self, files: Iterable[bytes], main: Name, data: bytes = b"", budget: Budget = Budget()) -> int:
        """Judges the files of a guest and admits it, at its start: its number. The bytes are copied."""
        guest, number = _guest(files, main, data, budget), ctypes.c_uint32()
        _want_ok(_library.jvhost_admit_copy(ctypes.byref(self._handle), ctypes.byref(guest), ctypes.byref(number)))
        return number.value

    def turn(self, guest: int, steps: int) -> int:
        """A guest takes at most so many steps: how many it took."""
        taken = ctypes.c_uint64()
        _want_ok(_library.jvhost_turn(ctypes.byref(self._handle), guest, steps, ctypes.byref(taken)))
        return taken.value

    def run(self, steps: int, rounds: int) -> int:
        """At most so many rounds, in each of which each guest takes at most so many steps: how many rounds there were."""
        taken = ctypes.c_uint32()
        _want_ok(_library.jvhost_run(ctypes.byref(self._handle), steps, rounds, ctypes.byref(taken)))
        return taken.value

    def feed(self, guest: int, data: bytes) -> None:
        """Bytes join behind a guest's input."""
        _want_ok(_library.jvhost_feed(ctypes.byref(self._handle), guest, bytes(data), len(data)))

    def observe(self, guest: int) -> Observation:
        """What a guest shows."""
        seen = _Seen(ctypes.sizeof(_Seen))
        _want_ok(_library.jvhost_observe(ctypes.byref(self._handle), guest, ctypes.byref(seen)))
        verdicts = [self._verdict(guest, it) for it in range(seen.verdicts)]
        last, end_class = (self._name(it, guest) for it in (_library.jvhost_last, _library.jvhost_end_class))
        return Observation(seen.steps, seen.throws, self.output(guest), End(seen.end), verdicts, last, end_class, self._place(guest))

    def output(self, guest: int, start: int = 0) -> bytes:
        """The bytes that a guest has written, from a place on."""
        seen, copied = _Seen(ctypes.sizeof(_Seen)), ctypes.c_size_t()
        _want_ok(_library.jvhost_observe(ctypes.byref(self._handle), guest, ctypes.byref(seen)))
        size = max(seen.output - start, 0)
        room = ctypes.create_string_buffer(max(size, 1))
        _want_ok(_library.jvhost_output(ctypes.byref(self._handle), guest, start, room, size, ctypes.byref(copied)))
        return room.raw[: copied.value]

    def _verdict(self, guest: int, file: int) -> Verdict:
        told = _Verdict()
        _want_ok(_library.jvhost_verdict(ctypes.byref(self._handle), guest, file, ctypes.byref(told)))
        return _verdict(told)

    def _place(self, guest: int) -> Optional[Place]:
        told, room = _Place(ctypes.sizeof(_Place)), ctypes.create_string_buffer(3 * 65_535)
        code = _library.jvhost_place(ctypes.byref(self._handle), guest, ctypes.byref(told), room, 3 * 65_535)
        if code == Code.NO_PLACE:
            return None
        _want_ok(code)
        method, descriptor = told.class_name, told.class_name + told.method
        names = room.raw[: descriptor + told.descriptor]
        return Place(names[:method], names[method:descriptor], names[descriptor:], told.offset)

    def _name(self, call, guest: int) -> Optional[bytes]:
        room, length = ctypes.create_string_buffer(65_535), ctypes.c_size_t()
        _want_ok(call(ctypes.byref(self._handle), guest, room, 65_535, ctypes.byref(length)))
        return room.raw[: length.value] or None
