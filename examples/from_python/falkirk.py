"""Sessions of the shared object that include/falkirk.h speaks of, by ctypes: `with falkirk.Session(flow) as session: session.ask(line)`."""
import ctypes
import os

HERE = os.path.dirname(os.path.realpath(__file__))
ANSWERED, FLOW_REFUSED, NO_MEMORY, NO_SESSION, RECORD_MISSING, RECORD_DAMAGED, RECORDS_FOREIGN = range(7)


class Handle(ctypes.Structure):
    _fields_ = [("at", ctypes.c_void_p)]


class Bytes(ctypes.Structure):
    _fields_ = [("at", ctypes.c_void_p), ("len", ctypes.c_size_t)]


class Write(ctypes.Structure):
    _fields_ = [("id", ctypes.c_uint64), ("put", ctypes.c_bool), ("at", ctypes.c_void_p), ("len", ctypes.c_size_t)]


library = ctypes.CDLL(os.environ.get("FALKIRK_LIB", f"{HERE}/../../out/lib/libfalkirk.so"))
AT, TEXT = ctypes.POINTER(Handle), (ctypes.c_char_p, ctypes.c_size_t)
CALLS = {"open": (ctypes.c_uint32, *TEXT, ctypes.c_bool), "line": (ctypes.c_uint32, *TEXT), "answer_at": (ctypes.c_bool, ctypes.POINTER(Bytes)),
         "close": (None,), "gather": (ctypes.c_uint32,), "put": (ctypes.c_uint32, ctypes.c_uint64, *TEXT),
         "open_from": (ctypes.c_uint32, *TEXT, ctypes.c_bool), "writes": (ctypes.c_bool, ctypes.c_size_t, ctypes.POINTER(Write))}
for name, (answer, *words) in CALLS.items():
    call = getattr(library, "falkirk_" + name)
    call.restype, call.argtypes = answer, [AT, *words]


class Refused(Exception):
    """The text of the flow breaks a rule: `refused CODE line N`. Or no session goes on from the records: `records CODE`."""


class Session:
    """A session over the text of a flow. With `rests` each line that is accepted ends with steps until none is enabled."""

    def __init__(self, flow, rests=True, kept=None):
        """With a dict of records, which may be empty, it lasts: it goes on from there, and writes there what it keeps."""
        self.handle, self.kept = Handle(), kept
        if kept is None:
            self.done(library.falkirk_open(self.handle, flow, len(flow), rests))
        else:
            self.done(library.falkirk_gather(self.handle))
            for id, record in kept.items():
                self.done(library.falkirk_put(self.handle, id, record, len(record)))
            self.done(library.falkirk_open_from(self.handle, flow, len(flow), rests))
            self.write()

    def done(self, code):
        if code == NO_MEMORY:
            raise MemoryError
        if code == NO_SESSION:
            raise ValueError("the session is closed")
        if code != ANSWERED:
            why = self.answer().decode().strip()
            self.close()
            raise Refused(why or f"records {code}")

    def writes(self):
        """What the session wrote: an id, and its bytes; or None where it was removed."""
        write, told = Write(), []
        while library.falkirk_writes(self.handle, len(told), write):
            told.append((write.id, ctypes.string_at(write.at, write.len) if write.put else None))
        return told

    def write(self):
        """Does the same to what is kept of it."""
        for id, record in self.writes():
            if record is None:
                self.kept.pop(id, None)
            else:
                self.kept[id] = record

    def ask(self, line):
        """The answer to a line, as bytes."""
        self.done(library.falkirk_line(self.handle, line, len(line)))
        if self.kept is not None:
            self.write()
        return self.answer()

    def answer(self):
        """The last answer; of one that goes on, before its first line, what the last line that was kept showed."""
        out = Bytes()
        library.falkirk_answer_at(self.handle, out)
        return ctypes.string_at(out.at, out.len) if out.len else b""

    def close(self):
        library.falkirk_close(self.handle)

    def __enter__(self):
        return self

    def __exit__(self, *_):
        self.close()

    def __del__(self):
        self.close()
