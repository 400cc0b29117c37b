"""Nodes of the C library, in Python: a node that is not made is an exception, and what becomes of
a line or a frame is a code with its answer."""

import ctypes

INTERFACE = 1
DONE, REFUSED, UNREADABLE, SPENT, MEMORY, BEHIND_ITS_PAST, AWAITING, FULL, NEEDS_FAILOVER = range(9)
NO_NODE, HAS_NODE, UNFETCHED, SHORT, NO_HEADER, NO_STORE, WRONG_UNIT = range(-1, -8, -1)


class Handle(ctypes.Structure):
    _fields_ = [("at", ctypes.c_void_p)]


class Bounds(ctypes.Structure):
    """What a node takes at most."""

    _fields_ = [(name, ctypes.c_uint64) for name in ("frame", "waiting", "held", "letters")]


class Refused(Exception):
    """A call was not done: its code, in words too, and the line of a unit where one is wrong."""

    def __init__(self, calls, code, line=0):
        out, len_ = ctypes.create_string_buffer(100), ctypes.c_uint64()
        calls.ndc_words(code, out, 100, len_)
        super().__init__(out.value.decode() + (f", at line {line}" if line else ""))
        self.code, self.line = code, line


class Library:
    """The library, from a shared object."""

    def __init__(self, path):
        self.calls = ctypes.CDLL(path)
        handle, number = ctypes.POINTER(Handle), ctypes.POINTER(ctypes.c_uint64)
        given, bounds = [ctypes.c_char_p, ctypes.c_uint64], ctypes.POINTER(Bounds)
        self.calls.ndc_interface.restype = ctypes.c_uint32
        self.calls.ndc_close.restype = None
        for name, words in {
            "words": [ctypes.c_int32, *given, number],
            "open": [handle, *given, *given, bounds],
            "load": [handle, *given, bounds, number, number],
            "close": [handle],
            "line": [handle, *given, number],
            "hear": [handle, *given, number],
            "ask": [handle, *given, number],
            "changes": [handle, number, number],
            "stored": [handle, ctypes.c_uint64],
            "store": [handle, number, number],
            "reply": [handle, *given, number],
        }.items():
            getattr(self.calls, f"ndc_{name}").argtypes = words
        if self.calls.ndc_interface() != INTERFACE:
            raise ImportError("the library has another interface")


class Node:
    """A node. It is given back at its end, or by `close`."""

    def __init__(self, library, header=None, name=None, kept=None, bounds=None):
        """The node of a name in a network of this header, in which nothing has happened; or the one
        that was kept."""
        self.calls, self.handle, self.dropped = library.calls, Handle(), 0
        bounds = bounds or Bounds(1_048_576, 100_000, 100_000, 1_000)
        line = ctypes.c_uint64()
        if kept is None:
            code = self.calls.ndc_open(self.handle, header, len(header), name, len(name), bounds)
        else:
            dropped = ctypes.c_uint64()
            code = self.calls.ndc_load(self.handle, kept, len(kept), bounds, dropped, line)
            self.dropped = dropped.value
        if code != DONE:
            raise Refused(self.calls, code, line.value)

    def close(self):
        self.calls.ndc_close(self.handle)

    def __del__(self):
        self.close()

    def answer(self, len_):
        """The last answer."""
        out = ctypes.create_string_buffer(len_.value)
        code = self.calls.ndc_reply(self.handle, out, len_.value, len_)
        if code != DONE:
            raise Refused(self.calls, code)
        return out.raw

    def call(self, call, *given):
        """The code of a call, and its answer."""
        len_ = ctypes.c_uint64()
        code = call(self.handle, *given, len_)
        if code < 0 or code in (SPENT, MEMORY):
            raise Refused(self.calls, code)
        return code, self.answer(len_)

    def line(self, line):
        """What becomes of a line: its code, and the lines that answer it."""
        return self.call(self.calls.ndc_line, line, len(line))

    def hear(self, frame):
        return self.call(self.calls.ndc_hear, frame, len(frame))

    def ask(self, name):
        return self.call(self.calls.ndc_ask, name, len(name))

    def changes(self):
        """The units that are not stored yet, each with its number: the same one again, until it is
        told to be stored."""
        unit = ctypes.c_uint64()
        while True:
            _, text = self.call(self.calls.ndc_changes, unit)
            if not text:
                return
            yield unit.value, text

    def stored(self, unit):
        """Units up to this one are stored: whether it was waiting to be."""
        return self.calls.ndc_stored(self.handle, unit) == DONE

    def store(self):
        """The node whole, and the number of the last unit that is in it."""
        unit = ctypes.c_uint64()
        _, text = self.call(self.calls.ndc_store, unit)
        return unit.value, text


def told(answer, word):
    """What follows a word in the lines of an answer that begin with it."""
    return [line[len(word) + 1 :] for line in answer.splitlines() if line.startswith(word + b" ")]
