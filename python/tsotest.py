# SPDX-License-Identifier: MIT OR Apache-2.0
"""The commands of tsotest as calls: recordings of multiprocessors judged under Total Store Order (TSO), in process.

    import tsotest

    r = tsotest.Recorder(cores=2)
    r.store(0, 0x40, 1)
    r.load(0, 0x44, 0)
    r.store(1, 0x44, 2)
    r.load(1, 0x40, 0)
    r.commit(0, 0x40, 1)
    r.commit(1, 0x44, 2)
    answer = r.judge()
    print(answer.text, end="")         # ordered: 1 2 3 0
    if answer.is_violation:
        print(tsotest.explain(r.recording(), r.program()).text)

One file over the shared library, `libtsotest.so`, by `ctypes`: for cocotb benches and scripts. The library is that of the
environment variable `TSOTEST_LIBRARY`, else that of the installation or the repository that this file stands in, else the one
that the system's loader finds. Texts, exit statuses and refusals are those of docs/FORMATS.md. Calls may be made by several
threads at once, each `Recorder` by one, or by several that hold a lock over each step of the design and the call that records it. Python
3.8 and later.
"""
import sys

if sys.version_info < (3, 8):
    raise ImportError("tsotest needs Python 3.8 or later, and this is " + sys.version.split()[0])

import ctypes
import ctypes.util
import operator
import os
from collections import deque
from enum import IntEnum
from functools import lru_cache
from pathlib import Path
from typing import NamedTuple

__all__ = [
    "Answer", "Counts", "Finding", "Kind", "NoRecording", "Recorder", "Status",
    "complete", "draw", "explain", "explain_long", "judge", "judge_long", "outcomes", "reduce", "reduce_long", "survey", "verify",
    "version",
]

MAX_CORES, MAX_EVENTS, MAX_ADDRESSES, MAX_LABEL_BYTES = 16, 512, 16, 64
MAX_LONG_CORES, MAX_LONG_EVENTS, MAX_LONG_ADDRESSES = 1024, 16777216, 65536


class Status(IntEnum):
    """The exit status of a command. There is none for out of memory: that is a `MemoryError`."""

    ALLOWED = 0
    """TSO allows the recording; of `verify`, the verdict holds; of `complete`, TSO allows the values."""
    VIOLATION = 2
    """TSO doesn't allow the recording; of `verify`, the verdict doesn't hold; of `complete`, TSO doesn't allow the values."""
    REFUSED = 3
    """A text is refused; the answer's text is the line that says why."""
    UNFINISHED = 4
    """Of `outcomes` and `complete`, there are more states than may be looked at."""


class Answer(NamedTuple):
    """What a command prints, and how it comes out."""

    status: Status
    text: str

    @property
    def is_allowed(self):
        """Whether TSO allows the recording."""
        return self.status == Status.ALLOWED

    @property
    def is_violation(self):
        """Whether it doesn't."""
        return self.status == Status.VIOLATION


class Kind(IntEnum):
    """What is found of a recording of many."""

    ORDERED = 0
    """TSO allows the recording."""
    OVERLOOK = 1
    """A load overlooks a store of its own core."""
    CYCLE = 2
    """Events would each have to come before the next."""
    UNREAD = 3
    """The text is refused."""
    REFUSED = UNREAD
    """Another name of `UNREAD`."""


class Finding(NamedTuple):
    """What is found of a recording of many, and its code."""

    kind: Kind
    code: int

    @property
    def overlook(self):
        """Of an overlook the numbers of the load and the store."""
        return divmod(self.code - 1048576, 1024) if self.kind == Kind.OVERLOOK else None

    @property
    def cycle(self):
        """Of a cycle how many events it has."""
        return self.code - 16 if self.kind == Kind.CYCLE else None

    @property
    def refusal(self):
        """Of a refusal 1 to 7 for N1 to N7, and the event of N5 and N6 or the address of N7."""
        return divmod(self.code, 65536) if self.kind == Kind.UNREAD else None


def _candidates():
    here = Path(__file__).resolve().parent
    if "TSOTEST_LIBRARY" in os.environ:
        yield os.environ["TSOTEST_LIBRARY"]
        return
    # PREFIX/share/tsotest/tsotest.py of an installation, python/tsotest.py of the repository.
    for place in (here.parent.parent / "lib/libtsotest.so", here.parent / "out/libtsotest.so"):
        if place.exists():
            yield str(place)
    found = ctypes.util.find_library("tsotest")
    if found:
        yield found


@lru_cache(maxsize=None)
def _library():
    for place in _candidates():
        library = ctypes.CDLL(place)
        text, out, size = [ctypes.c_char_p, ctypes.c_size_t], [ctypes.c_char_p, ctypes.c_size_t], [ctypes.POINTER(ctypes.c_size_t)]
        for name in ("tsotest_judge", "tsotest_judge_long", "tsotest_explain_long", "tsotest_reduce_long"):
            getattr(library, name).argtypes = [*text, *out, *size]
        library.tsotest_draw.argtypes = [*text, *text, ctypes.c_bool, *out, *size]
        for name in ("tsotest_explain", "tsotest_reduce", "tsotest_verify"):
            getattr(library, name).argtypes = [*text, *text, *out, *size]
        library.tsotest_survey.argtypes = [*text, ctypes.POINTER(ctypes.c_uint64), ctypes.c_size_t, *size]
        for name in ("tsotest_outcomes", "tsotest_complete"):
            getattr(library, name).argtypes = [*text, ctypes.c_size_t, *out, *size]
        library.tsotest_version.argtypes = [*out, *size]
        names = "judge explain draw reduce judge_long explain_long reduce_long verify survey outcomes complete version"
        for name in names.split():
            getattr(library, f"tsotest_{name}").restype = ctypes.c_uint8
        return library
    raise OSError("tsotest: there is no libtsotest.so; TSOTEST_LIBRARY may name it")


def _bytes(text):
    """The bytes of a text: of a `str` its UTF-8, of anything like `bytes` what it holds."""
    return text.encode("utf-8", "surrogatepass") if isinstance(text, str) else bytes(memoryview(text))


def _is_text(it):
    return isinstance(it, (str, bytes, bytearray, memoryview))


def _line(recording):
    """A recording on one line. A line end and a carriage return mean the same to JSON: space, and in a string neither is lawful."""
    return _bytes(recording).replace(b"\n", b"\r") or b"\r"


def _answer(call, *given):
    """What a call answers, with as much room as its text needs. An order is shorter than its recording, so that one call does."""
    room, length = max([65536, *(len(it) for it in given if isinstance(it, bytes))]), ctypes.c_size_t()
    while True:
        out = ctypes.create_string_buffer(room)
        status = call(*given, out, room, ctypes.byref(length))
        if status == 1:
            raise MemoryError("tsotest: out of memory")
        if length.value <= room:
            return Answer(Status(status), out.raw[: length.value].decode())
        room = length.value


def judge(recording):
    """What `tsotest judge` prints of a recording, a `str` or `bytes`: the verdict."""
    text = _bytes(recording)
    return _answer(_library().tsotest_judge, text, len(text))


def explain(recording, program=None):
    """What `tsotest explain` prints: the verdict in words, with the names of the litmus text of its program, if that is given."""
    text, own = _bytes(recording), _bytes(program or b"")
    return _answer(_library().tsotest_explain, text, len(text), own, len(own))


def draw(recording, program=None, *, all=False):
    """What `tsotest draw` prints: the verdict as a graph in the DOT language; with `all` all events of a violation are drawn."""
    text, own = _bytes(recording), _bytes(program or b"")
    return _answer(_library().tsotest_draw, text, len(text), own, len(own), all)


def reduce(recording, program=None):
    """What `tsotest reduce` prints: program, recording and verdict of the events alone that a violation needs."""
    text, own = _bytes(recording), _bytes(program or b"")
    return _answer(_library().tsotest_reduce, text, len(text), own, len(own))


def judge_long(recording):
    """What `tsotest judge --long` prints, of a recording of up to 16,777,216 events."""
    text = _bytes(recording)
    return _answer(_library().tsotest_judge_long, text, len(text))


def explain_long(recording):
    """What `tsotest explain --long` prints: the answer in words."""
    text = _bytes(recording)
    return _answer(_library().tsotest_explain_long, text, len(text))


def reduce_long(recording):
    """What `tsotest reduce --long` prints: the events alone that a violation needs, with their sources."""
    text = _bytes(recording)
    return _answer(_library().tsotest_reduce_long, text, len(text))


def verify(recording, verdict):
    """What `tsotest verify` prints: whether the text of a verdict, whoever gave it, holds of a recording."""
    text, own = _bytes(recording), _bytes(verdict)
    return _answer(_library().tsotest_verify, text, len(text), own, len(own))


def survey(recordings):
    """What is found in many recordings: a list of `Finding`.

    Of one text (`str`, `bytes`, `bytearray`, `memoryview`) each line is a recording, and an empty line is none. Of anything else each
    item is a recording, in any layout, and has one finding: of an item that is no recording, an empty one too, the kind is `UNREAD`.
    """
    text = _bytes(recordings) if _is_text(recordings) else b"\n".join(map(_line, recordings))
    room, count = text.count(b"\n") + 1, ctypes.c_size_t()
    codes = (ctypes.c_uint64 * room)()
    if _library().tsotest_survey(text, len(text), codes, room, ctypes.byref(count)) == 1:
        raise MemoryError("tsotest: out of memory")
    return [Finding(_kind_of(code), code) for code in codes[: count.value]]


def _kind_of(code):
    if code >= 1048576:
        return Kind.OVERLOOK
    if code >= 65536:
        return Kind.UNREAD
    return Kind.CYCLE if code >= 16 else Kind.ORDERED


def outcomes(program, states=1_000_000):
    """What `tsotest outcomes` prints of a litmus program: every outcome that TSO allows, where it has at most this many states."""
    text = _bytes(program)
    return _answer(_library().tsotest_outcomes, text, len(text), states)


def complete(values, states=1_000_000):
    """What `tsotest complete` prints of values alone, such as `values_alone` of a `Recorder` gives: a recording that completes them, and
    which TSO allows; else `impossible`; or `unfinished`, where more than this many states would have to be looked at."""
    text = _bytes(values)
    return _answer(_library().tsotest_complete, text, len(text), states)


def version():
    """What `tsotest --version` prints, without its line end."""
    return _answer(_library().tsotest_version).text.rstrip("\n")


class NoRecording(Exception):
    """What was recorded is no recording. `is_of_design`: as a rule the design is at fault, and then it is a violation that needs
    no judge (a read got what nobody wrote, a write never reached memory, memory took what nobody stored); else the testbench."""

    def __init__(self, message, is_of_design=False):
        super().__init__(message)
        self.is_of_design = is_of_design


class Counts(NamedTuple):
    """How much was recorded; a sum of two is that of their runs. `str` gives a line, and a second one where nothing was tested."""

    runs: int = 0
    """Recordings."""
    events: int = 0
    """What cores executed."""
    foreign_reads: int = 0
    """Reads of a value that another core wrote."""
    commits: int = 0
    """Writes that memory took."""

    def __add__(self, other):
        return Counts(*map(operator.add, self, other))

    def __str__(self):
        line = "{} runs: {} events, {} reads of another core's write, {} committed writes\n".format(*self)
        return line if self.foreign_reads else line + "no read got a value that another core wrote: these runs have tested nothing\n"


class _Event:
    """What a core executed. `given` is the source that the testbench gave, and `source` the one that was found: an event, or `None`."""

    __slots__ = "kind", "core", "address", "read", "written", "given", "source", "number"

    def __init__(self, kind, core, address, read, written):
        self.kind, self.core, self.address, self.read, self.written = kind, core, address, read, written
        self.given, self.source, self.number = "unknown", None, 0


class _Commit(NamedTuple):
    """A write that reached memory, perhaps given by its event, perhaps with the stores that were merged with it."""

    core: int
    address: int
    value: int
    event: object = None
    is_merged: bool = False


class _Numbers:
    """The numbers in a text for values above 2^32 - 1: in order of first use the least ones from 1 on that are no values."""

    def __init__(self, values):
        self._taken, self._numbers, self._next = set(values), {}, 1

    def of(self, value):
        """What the text has for a value."""
        if value < 1 << 32:
            return value
        if value not in self._numbers:
            while self._next in self._taken:
                self._next += 1
            self._numbers[value] = self._next
            self._next += 1
        return self._numbers[value]


class Recorder:
    """Makes the text of a recording from what a testbench sees.

    Record what each core executes, in its program order (`load`, `store`, `rmw`, `failed_cas`, `fence`), and in which order the writes of
    each address reach memory (`commit`). The calls of different cores, and of different addresses, may come in any order. `recording` then
    gives the text. It finds the write that each read got its value from by the value: let no two writes of an address write the same
    value, nor the initial one. Where values repeat, name sources by `source` and commits by `commit_event`. Each call that records an
    event gives its number, from 0.

    A recording has up to 1,024 cores, 16,777,216 events and 65,536 addresses, as far as memory goes: some 500 bytes an event, with its text. `judge`
    judges one of more than 16 cores, 512 events or 16 addresses as `judge_long` does.

    An address and a value are whole numbers from 0 to 2^64 - 1. The text has a number in place of each value above 2^32 - 1, as
    tsotest_record.h says; a message has the value.

    A `NoRecording` says what is wrong. The first one is kept: each later call raises it again, `next` too, since what came after it was
    not recorded. A recording without an event raises it too, unless `allow_empty` was called.
    """

    def __init__(self, cores):
        """Begins a recording of this many cores, 0 to 1,024."""
        self._fault = None
        self.cores, self._events, self._commits, self._initial, self._addresses = self._whole("cores", cores), [], [], {}, set()
        self._may_be_empty = self._is_continued = False
        self._labels = {}
        if self.cores > MAX_LONG_CORES:
            self._fail(f"{cores} cores: a recording has {MAX_LONG_CORES} at most")

    def next(self):
        """The recorder of a run that begins with what this one left in memory: of each address the value that reached it last.

        Cut a run only where the design is quiet: all has retired, no store waits in a buffer, and each core has taken every invalidation.
        """
        self._go_on()
        following = Recorder(self.cores)
        following._initial = {**self._initial, **{it.address: it.value for it in self._commits}}
        following._addresses = set(self._addresses)
        following._may_be_empty, following._is_continued = self._may_be_empty, True
        return following

    def allow_empty(self):
        """Says that this recording, and those that continue it, may have no event."""
        self._may_be_empty = True

    def initial(self, address, value):
        """The value of an address before every write; 0 without this call."""
        address, value = self._used(address), self._value(value)
        self._initial[address] = value

    def load(self, core, address, value):
        """A load, and what it read."""
        return self._event("L", core, address, self._value(value), None)

    def store(self, core, address, value):
        """A store, and what it wrote."""
        return self._event("S", core, address, None, self._value(value))

    def rmw(self, core, address, read, written):
        """An atomic that read and wrote: a swap, an add, a compare-and-swap that succeeded."""
        return self._event("R", core, address, self._value(read), self._value(written))

    def failed_cas(self, core, address, read):
        """A compare-and-swap that wrote nothing."""
        return self._event("C", core, address, self._value(read), None)

    def fence(self, core):
        """A full fence."""
        return self._event("F", core, None, None, None)

    def value(self, event, value):
        """The value that a read got, where it is known only after later events of its core."""
        self._read(event).read = self._value(value)

    def source(self, event, write):
        """The write that a read got its value from: an event, or `None` for the initial value."""
        read = self._read(event)
        if write is not None and not (0 <= write < len(self._events) and self._events[write].written is not None and self._events[write].address == read.address):
            self._fail(f"event {write} is no write of the address that event {event} read")
        read.given = write

    def commit(self, core, address, value):
        """A write of this core reached memory, after all writes of the address that did so before."""
        self._commit(self._core(core), self._used(address), self._value(value))

    def commit_merged(self, core, address, value):
        """A store of this core reached memory from an entry of a store buffer that merges: memory took the stores of this core to this
        address that waited, in program order, and this one last."""
        self._commit(self._core(core), self._used(address), self._value(value), is_merged=True)

    def commit_event(self, event):
        """A write that was recorded already, given by its event, reached memory."""
        self._go_on()
        if not (0 <= event < len(self._events) and self._events[event].written is not None):
            self._fail(f"event {event} is no write")
        it = self._events[event]
        self._commit(it.core, it.address, it.written, event)

    def label(self, event, text):
        """The label of an event, such as a cycle, a pc or an instruction: at most 64 bytes of UTF-8 without a newline."""
        self._go_on()
        if not 0 <= event < len(self._events):
            self._fail(f"event {event}: there is none to label")
        if len(text.encode()) > MAX_LABEL_BYTES:
            self._fail(f"the label of event {event} has more than {MAX_LABEL_BYTES} bytes")
        if "\n" in text:
            self._fail(f"the label of event {event} has a newline")
        self._labels[event] = text

    def labels(self):
        """The labels of the events, a line each, in the order in which the recording numbers them, for `tsotest explain --labels`."""
        self._settle()
        numbered = sorted(range(len(self._events)), key=lambda event: self._events[event].number)
        return "".join(f"{self._labels.get(it, '')}\n" for it in numbered)

    def recording(self):
        """The text of the recording, as `tsotest` itself prints it."""
        names, committed, number_of = self._settle()
        cores = self._cores_text(lambda it: it.source, names, number_of)
        initial = [number_of(self._initial.get(it, 0)) for it in names]
        has_init = any(initial) or any(it.kind == "C" for it in self._events)
        init = f'"init":[{",".join(map(str, initial))}],"version":2' if has_init else '"version":1'
        writes = ",".join("[" + ",".join(str(self._events[event].number) for event in committed.get(it, [])) + "]" for it in names)
        return f'{{"cores":[{cores}],{init},"writes":[{writes}]}}\n'

    def values_alone(self):
        """The text of the values alone, for a bench that sees no commits: of version 3, which `tsotest complete` takes.

        It names the sources that `source` gave and no others, so values may repeat; but the more values are written once, the more is found.
        Commits are not looked at, and `next` needs them. A read of a value that nobody wrote is a fault here, too.
        """
        ordered, writes = self._prepare()
        for event, it in enumerate(self._events):
            if it.read is not None:
                self._check_source(event, it, self._sources(event, it, writes)[0] if it.given == "unknown" else it.given)
        names = self._names(ordered)
        number_of = self._numbers(ordered, names)
        cores = self._cores_text(lambda it: it.given, names, number_of)
        init = ",".join(str(number_of(self._initial.get(it, 0))) for it in names)
        return f'{{"cores":[{cores}],"init":[{init}],"version":3}}\n'

    def program(self):
        """The program that was recorded, as a litmus text, for `explain`, `draw` and `reduce`."""
        names, _, number_of = self._settle()
        lines = [line for core in self._by_core() for line in ("core", *(self._operation(it, names, number_of) for it in core))]
        lines += [f"init {self._name(it, names)} {number_of(self._initial[it])}" for it in names if self._initial.get(it, 0)]
        return "".join(f"{it}\n" for it in lines)

    def judge(self):
        """The verdict on what was recorded: that of `judge_long` where it has more than `judge` takes."""
        text = self.recording()
        used = len({it.address for it in self._events if it.address is not None})
        is_long = self.cores > MAX_CORES or len(self._events) > MAX_EVENTS or used > MAX_ADDRESSES
        return (judge_long if is_long else judge)(text)

    def counts(self):
        """How much was recorded, in one run."""
        _, committed, _ = self._settle()
        foreign = sum(it.read is not None and it.source is not None and self._events[it.source].core != it.core for it in self._events)
        return Counts(1, len(self._events), foreign, sum(map(len, committed.values())))

    def _fail(self, message, is_of_design=False):
        """Keeps a fault, and raises it."""
        self._fault = message, is_of_design
        raise NoRecording(*self._fault)

    def _go_on(self):
        """Raises the fault that is kept."""
        if self._fault:
            raise NoRecording(*self._fault)

    def _whole(self, noun, number):
        """A whole number from 0 to 2^64 - 1; all else is a fault of the testbench."""
        self._go_on()
        try:
            whole = operator.index(number)
        except TypeError:
            whole = -1
        if not 0 <= whole < 1 << 64:
            self._fail(f"{noun} {number!r} is no whole number from 0 to 2^64 - 1")
        return whole

    def _value(self, value):
        return self._whole("the value", value)

    def _core(self, core):
        self._go_on()
        try:
            if 0 <= operator.index(core) < self.cores:
                return operator.index(core)
        except TypeError:
            pass
        return self._fail(f"core {core}: the recording has {self.cores}")

    def _used(self, address):
        address = self._whole("the address", address)
        if address not in self._addresses:
            if len(self._addresses) == MAX_LONG_ADDRESSES:
                self._fail(f"more than {MAX_LONG_ADDRESSES} addresses: 0x{address:x} is one more")
            self._addresses.add(address)
        return address

    def _event(self, kind, core, address, read, written):
        core = self._core(core)
        if len(self._events) == MAX_LONG_EVENTS:
            self._fail(f"more than {MAX_LONG_EVENTS} events")
        self._events.append(_Event(kind, core, None if kind == "F" else self._used(address), read, written))
        return len(self._events) - 1

    def _read(self, event):
        self._go_on()
        if not (0 <= event < len(self._events) and self._events[event].read is not None):
            self._fail(f"event {event} is no read")
        return self._events[event]

    def _commit(self, core, address, value, event=None, is_merged=False):
        if len(self._commits) == MAX_LONG_EVENTS:
            self._fail(f"more than {MAX_LONG_EVENTS} commits")
        self._commits.append(_Commit(core, address, value, event, is_merged))

    def _by_core(self):
        cores = [[] for _ in range(self.cores)]
        for it in self._events:
            cores[it.core].append(it)
        return cores

    def _place(self, event):
        it = self._events[event]
        return f"operation {sum(e.core == it.core for e in self._events[:event])} of core {it.core}"

    def _prepare(self):
        """Numbers the events core by core: the events in this order, and the writes of each address and value."""
        self._go_on()
        if not self._events and not self._may_be_empty:
            self._fail("no event was recorded: is a monitor connected?")
        ordered = [it for core in self._by_core() for it in core]
        for number, it in enumerate(ordered):
            it.number = number
        writes = {}
        for event, it in enumerate(self._events):
            if it.written is not None:
                writes.setdefault((it.address, it.written), []).append(event)
        return ordered, writes

    def _settle(self):
        """Finds what the testbench did not say: the addresses that events use, in order of first use, of each its writes in memory order,
        and what the text has for a value."""
        ordered, writes = self._prepare()
        committed = self._settle_commits(writes)
        for event, it in enumerate(self._events):
            if it.read is not None:
                self._settle_source(event, it, writes)
        names = self._names(ordered)
        return names, committed, self._numbers(ordered, names)

    def _names(self, ordered):
        """The addresses that events use, in order of first use: of each its number."""
        names = {}
        for it in ordered:
            if it.address is not None:
                names.setdefault(it.address, len(names))
        return names

    def _numbers(self, ordered, names):
        """What the text has for a value: each above 2^32 - 1 is numbered by its first use there."""
        initial = [self._initial.get(it, 0) for it in names]
        numbers = _Numbers([*initial, *(it.written for it in ordered)])
        for value in (value for it in ordered for value in (it.read, it.written) if value is not None):
            numbers.of(value)
        for value in initial:
            numbers.of(value)
        return numbers.of

    def _settle_commits(self, writes):
        committed, seen = {}, set()
        stores = {}  # of each core and address, those that no merged commit has passed, in program order
        if any(it.is_merged for it in self._commits):
            for event, it in enumerate(self._events):
                if it.kind == "S":
                    stores.setdefault((it.core, it.address), deque()).append(event)

        def take(event):
            it = self._events[event]
            if event in seen:
                self._fail(f"core {it.core}: the value {it.written} reached 0x{it.address:x} twice", True)
            seen.add(event)
            committed.setdefault(it.address, []).append(event)

        for commit in self._commits:
            event = self._committed(commit, writes) if commit.event is None else commit.event
            if commit.is_merged and self._events[event].kind == "S" and event not in seen:
                waiting = stores[commit.core, commit.address]
                while waiting[0] < event:
                    older = waiting.popleft()
                    if older not in seen:
                        take(older)
            take(event)
        for event, it in enumerate(self._events):
            if it.written is not None and event not in seen:
                self._fail(f"{self._place(event)} wrote {it.written} to 0x{it.address:x}, which never reached memory", True)
        return committed

    def _committed(self, commit, writes):
        """The write of a core that a commit is of, by its value."""
        core, address, value = commit[:3]
        own = [it for it in writes.get((address, value), []) if self._events[it].core == core]
        if len(own) > 1:
            self._fail(f"core {core} wrote {value} to 0x{address:x} twice")
        if not own:
            self._fail(f"core {core}: the value {value} reached 0x{address:x}, and this core executed no such write", True)
        return own[0]

    def _sources(self, event, it, writes):
        """The sources that a read may have by its value: at least one."""
        found = ([None] if it.read == self._initial.get(it.address, 0) else []) + writes.get((it.address, it.read), [])
        if not found:
            cut = "; this run continues another: had each core taken every invalidation before the cut?" if self._is_continued else ""
            self._fail(f"{self._place(event)} read {it.read} from 0x{it.address:x}, which nobody wrote there{cut}", True)
        return found

    def _check_source(self, event, it, source):
        there = self._initial.get(it.address, 0) if source is None else self._events[source].written
        if it.read != there:
            self._fail(f"{self._place(event)} read {it.read} from 0x{it.address:x}, and its source wrote {there}", True)

    def _settle_source(self, event, it, writes):
        it.source = it.given
        if it.given == "unknown":
            found = self._sources(event, it, writes)
            if len(found) > 1:
                self._fail(f"{self._place(event)} read {it.read} from 0x{it.address:x}, of which there are {len(found)} sources")
            it.source = found[0]
        self._check_source(event, it, it.source)

    def _cores_text(self, source_of, names, number_of):
        return ",".join("[" + ",".join(self._event_text(it, source_of(it), names, number_of) for it in core) + "]" for core in self._by_core())

    def _event_text(self, it, source, names, number_of):
        parts = [f'"a":{names[it.address]}'] if it.address is not None else []
        parts.append(f'"k":"{it.kind}"')
        if it.read is not None:
            parts.append(f'"r":{number_of(it.read)}')
            if source != "unknown":
                parts.append(f'"s":{"null" if source is None else self._events[source].number}')
        if it.written is not None:
            parts.append(f'"w":{number_of(it.written)}')
        return "{" + ",".join(parts) + "}"

    def _name(self, address, names):
        return f"x{address:x}" if address < 1 << 28 else f"a{names[address]}"

    def _operation(self, it, names, number_of):
        if it.kind == "F":
            return "fence"
        name = self._name(it.address, names)
        if it.kind == "L":
            return f"ld {name}"
        if it.kind == "C":
            return f"cas {name} {(number_of(it.read) + 1) % (1 << 32)} 0"
        return f"{'st' if it.kind == 'S' else 'swap'} {name} {number_of(it.written)}"
