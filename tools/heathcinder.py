"""Heathcinder from Python: the calls of heathcinder.h, through ctypes.

    import heathcinder
    table = heathcinder.Table(slots=8, ticks_per_second=100)
    guard = table.create(heathcinder.name("GRD1"))
    table.fire_after(guard, ticks=50, routine=7)
    for timer in table.tick():
        print(timer.id, timer.routine, timer.data)

A call that is refused raises Refused, which has the status; nothing was changed then. Numbers of a call are whole and of 32
bits, seconds apart: any other raises ValueError. The library is the one that HEATHCINDER_LIBRARY names, an archive or a shared
object; else the shared object that stands beside this file (tools/install puts it there); else target/libheathcinder.a
(tools/build). Of an archive gcc makes a shared object. It is loaded once, at the first call; where that cannot be, the call
raises ImportError, which says why in one line."""
import ctypes
import enum
import functools
import operator
import os
import subprocess
import tempfile
from pathlib import Path
from typing import NamedTuple


class Status(enum.IntEnum):
    SUCCESSFUL = 0
    INVALID_NAME = 3
    INVALID_ID = 4
    TOO_MANY = 5
    INVALID_SIZE = 8
    INVALID_ADDRESS = 9
    INVALID_NUMBER = 10
    NOT_DEFINED = 11
    UNSATISFIED = 13
    INCORRECT_STATE = 14
    INVALID_CLOCK = 20
    NOT_SOUND = 100
    LIST_TOO_SHORT = 101

    @property
    def text(self):
        return self.name.lower().replace("_", " ")


class Refused(Exception):
    """A call gave this status, which is not SUCCESSFUL. Of bytes that are no recording, `position` is the first word that is wrong, or
    missing."""

    def __init__(self, call, status, position=None):
        super().__init__("%s gave status %d (%s)" % (call, status, status.text))
        self.status = status
        self.position = position


class Fired(NamedTuple):
    """An entry of the list that a tick, leap, set clock or serve writes."""
    id: int
    routine: int
    data: int


class WallTime(NamedTuple):
    year: int
    month: int
    day: int
    hour: int = 0
    minute: int = 0
    second: int = 0
    ticks: int = 0


def name(text):
    """A timer's name from four characters, as HC_NAME's."""
    if len(text) != 4:
        raise ValueError("%r is no name: it has not four characters" % text)
    return int.from_bytes(text.encode("latin-1"), "big")


# ---- The library

WORD = ctypes.c_uint32
WORDS = ctypes.POINTER(WORD)
SIZE = ctypes.c_size_t
SIZES = ctypes.POINTER(SIZE)
SECONDS = ctypes.c_double
MOVED = ctypes.c_int64


class _WallTime(ctypes.Structure):
    _fields_ = [(field, WORD) for field in WallTime._fields]


class _MacroRun(ctypes.Structure):
    _fields_ = [("place", WORD), ("counts", WORD * 8), ("last", WORD)]


TABLE = [WORDS, SIZE]
CALLER = TABLE + [WORD]
LIST = [WORDS, SIZE]
BYTES = [ctypes.c_char_p, SIZE]
START = [WORD, WORD, WORD, WORD]
DATED = [WORD, ctypes.POINTER(_WallTime), WORD, WORD]
PROTOTYPES = {
    "lay_out": TABLE + [WORD, WORD, WORD],
    "create": CALLER + [WORD, WORDS],
    "ident": CALLER + [WORD, WORDS],
    "cancel": CALLER + [WORD],
    "delete": CALLER + [WORD],
    "fire_after": CALLER + START,
    "fire_when": CALLER + DATED,
    "fire_every": CALLER + START,
    "reset": CALLER + [WORD],
    "ticks_left": CALLER + [WORD, WORDS],
    "next_due": TABLE + [WORDS],
    "tick": TABLE + LIST + [WORDS],
    "leap": TABLE + [WORD] + LIST + [WORDS, WORDS],
    "set_clock": TABLE + [ctypes.POINTER(_WallTime)] + LIST + [WORDS, ctypes.POINTER(MOVED)],
    "get_clock": TABLE + [ctypes.POINTER(_WallTime)],
    "initiate_server": TABLE,
    "server_fire_after": CALLER + START,
    "server_fire_when": CALLER + DATED,
    "serve": CALLER + LIST + [WORDS],
    "seconds_to_ticks": [SECONDS, WORD, WORDS],
    "fire_after_seconds": CALLER + [WORD, SECONDS, WORD, WORD],
    "plan_check": LIST + [WORD] + LIST,
    "plan": LIST + [WORD] + LIST,
    "recording_check": BYTES + [WORDS],
    "recording_replay": BYTES + TABLE + LIST + [WORDS],
    "recording_write": [WORD, WORD] + LIST + LIST + BYTES + [WORDS],
    "macro_check": LIST,
    "macro_step": CALLER + LIST + [ctypes.POINTER(_MacroRun), WORDS],
    "macro_run": CALLER + LIST + [ctypes.POINTER(_MacroRun), WORD, WORDS],
    "macro_find": LIST + LIST + [WORD, SIZES, SIZES],
}


def _find():
    """Where the library is, and what is said of it if it cannot be loaded."""
    named = os.environ.get("HEATHCINDER_LIBRARY")
    if named:
        return Path(named).resolve(), "HEATHCINDER_LIBRARY names %s, which is no library" % named
    here = Path(__file__).resolve().parent
    for place in here / "libheathcinder.so", here.parent / "target" / "libheathcinder.a":
        if place.exists():
            return place, "%s cannot be loaded" % place
    raise ImportError("no library %s: make it by tools/build" % place)


def _load(place):
    if not place.exists():
        raise OSError("there is no such file")
    if place.suffix != ".a":
        return ctypes.CDLL(str(place))
    with tempfile.TemporaryDirectory() as folder:
        shared = Path(folder) / "libheathcinder.so"
        try:
            made = subprocess.run(["gcc", "-shared", "-Wl,--whole-archive", place, "-Wl,--no-whole-archive", "-o", shared],
                                  stderr=subprocess.PIPE, text=True)
        except OSError as error:
            raise ImportError("gcc, which makes a shared object of %s, cannot be run: %s" % (place, error.strerror)) from error
        if made.returncode != 0:
            raise OSError("gcc: " + made.stderr.partition("\n")[0])
        return ctypes.CDLL(str(shared))


@functools.lru_cache(maxsize=None)
def library():
    """The calls by their names in C, with their prototypes."""
    place, complaint = _find()
    try:
        loaded = _load(place)
        for call, arguments in PROTOTYPES.items():
            function = getattr(loaded, "hc_" + call, None)
            if function is None:
                raise OSError("it has no hc_" + call)
            function.argtypes, function.restype = arguments, WORD
    except OSError as error:
        why, path = str(error), "%s: " % place
        raise ImportError("%s: %s" % (complaint, why[len(path):] if why.startswith(path) else why)) from error
    return loaded


def _word(number):
    try:
        word = operator.index(number)
    except TypeError:
        raise ValueError("%r is no whole number" % (number,)) from None
    if not 0 <= word < 1 << 32:
        raise ValueError("%d does not fit 32 bits" % word)
    return word


def _seconds(number):
    try:
        return SECONDS(number)
    except (TypeError, OverflowError):
        raise ValueError("%r is no number of seconds" % (number,)) from None


def _words(numbers):
    return (WORD * len(numbers))(*map(_word, numbers))


def _wall_time(when):
    return _WallTime(*map(_word, WallTime(*when)))


def _make(call, *arguments):
    status = Status(getattr(library(), "hc_" + call)(*arguments))
    if status != Status.SUCCESSFUL:
        raise Refused(call, status)


# ---- A table

HEADER_WORDS, SLOT_WORDS, ENTRY_WORDS, MAX_SLOTS = 10, 8, 3, 255
ONE_PARTY, PARTY_1, PARTY_2 = 0, 1, 2


class Table:
    """A table of timers. `words` are its words, which another program may take over; `lay_out` makes it anew, with as many slots
    or fewer. With a split, the first so many slots are party 1's and the others party 2's; a call of a party is party 1's unless
    it says otherwise."""

    def __init__(self, slots, ticks_per_second, split=ONE_PARTY):
        room = min(_word(slots), MAX_SLOTS)
        self.words = (WORD * (HEADER_WORDS + SLOT_WORDS * room))()
        self._list = (WORD * (ENTRY_WORDS * room))()
        self.lay_out(slots, ticks_per_second, split)

    def _call(self, call, *arguments):
        _make(call, self.words, len(self.words), *arguments)

    def _answer(self, call, *arguments):
        answer = WORD()
        self._call(call, *arguments, ctypes.byref(answer))
        return answer.value

    def _entries(self, count):
        return [Fired(*self._list[ENTRY_WORDS * k:ENTRY_WORDS * (k + 1)]) for k in range(count)]

    def lay_out(self, slots, ticks_per_second, split=ONE_PARTY):
        self._call("lay_out", _word(slots), _word(ticks_per_second), _word(split))

    def create(self, name, party=PARTY_1):
        """The id of a new timer."""
        return self._answer("create", _word(party), _word(name))

    def ident(self, name, party=PARTY_1):
        """The id of the timer of that name in the lowest slot."""
        return self._answer("ident", _word(party), _word(name))

    def cancel(self, id, party=PARTY_1):
        self._call("cancel", _word(party), _word(id))

    def delete(self, id, party=PARTY_1):
        self._call("delete", _word(party), _word(id))

    def fire_after(self, id, ticks, routine, data=0, party=PARTY_1):
        self._call("fire_after", _word(party), _word(id), _word(ticks), _word(routine), _word(data))

    def fire_after_seconds(self, id, seconds, routine, data=0, party=PARTY_1):
        self._call("fire_after_seconds", _word(party), _word(id), _seconds(seconds), _word(routine), _word(data))

    def fire_when(self, id, when, routine, data=0, party=PARTY_1):
        self._call("fire_when", _word(party), _word(id), ctypes.byref(_wall_time(when)), _word(routine), _word(data))

    def fire_every(self, id, ticks, routine, data=0, party=PARTY_1):
        self._call("fire_every", _word(party), _word(id), _word(ticks), _word(routine), _word(data))

    def reset(self, id, party=PARTY_1):
        self._call("reset", _word(party), _word(id))

    def ticks_left(self, id, party=PARTY_1):
        """The ticks until the timer fires or is queued; 0 if it does not wait for ticks."""
        return self._answer("ticks_left", _word(party), _word(id))

    def next_due(self):
        """The ticks until the first timer that waits for ticks; 0 if none does."""
        return self._answer("next_due")

    def tick(self):
        """The timers that fire."""
        return self._entries(self._answer("tick", self._list, len(self._list)))

    def leap(self, ticks):
        """The ticks done, and the timers that fire in the last of them."""
        done = WORD()
        count = self._answer("leap", _word(ticks), self._list, len(self._list), ctypes.byref(done))
        return done.value, self._entries(count)

    def set_clock(self, now):
        """The timers that fire, and how far the clock moved, in ticks."""
        count, moved = WORD(), MOVED()
        self._call("set_clock", ctypes.byref(_wall_time(now)), self._list, len(self._list), ctypes.byref(count), ctypes.byref(moved))
        return self._entries(count.value), moved.value

    def get_clock(self):
        now = _WallTime()
        self._call("get_clock", ctypes.byref(now))
        return WallTime(*(getattr(now, field) for field in WallTime._fields))

    def initiate_server(self):
        self._call("initiate_server")

    def server_fire_after(self, id, ticks, routine, data=0, party=PARTY_1):
        self._call("server_fire_after", _word(party), _word(id), _word(ticks), _word(routine), _word(data))

    def server_fire_when(self, id, when, routine, data=0, party=PARTY_1):
        self._call("server_fire_when", _word(party), _word(id), ctypes.byref(_wall_time(when)), _word(routine), _word(data))

    def serve(self, party=PARTY_1):
        """The party's first timer in the queue, or None where it has none there."""
        entries = self._entries(self._answer("serve", _word(party), self._list, len(self._list)))
        return entries[0] if entries else None


# ---- Delays in seconds

def seconds_to_ticks(seconds, ticks_per_second):
    """The smallest whole number of ticks not below so many seconds."""
    ticks = WORD()
    _make("seconds_to_ticks", _seconds(seconds), _word(ticks_per_second), ctypes.byref(ticks))
    return ticks.value


# ---- Packing a break: jobs are pairs of a bench and ticks

def plan(jobs, break_ticks):
    """The start of each job."""
    words = _words([number for job in jobs for number in job])
    starts = (WORD * len(jobs))()
    _make("plan", words, len(words), _word(break_ticks), starts, len(starts))
    return list(starts)


def plan_check(jobs, break_ticks, starts):
    """Refused unless every job ends by the end of the break and no two of a bench overlap."""
    words = _words([number for job in jobs for number in job])
    _make("plan_check", words, len(words), _word(break_ticks), _words(starts), len(starts))


# ---- Recordings of a day's calls, as bytes

CALL_WORDS, AGREE = 11, (1 << 32) - 1


def recording_check(data):
    """Raises Refused, with the position, where the bytes are no recording."""
    position = WORD()
    status = Status(library().hc_recording_check(data, len(data), ctypes.byref(position)))
    if status != Status.SUCCESSFUL:
        raise Refused("recording_check", status, position.value)


def recording_replay(data):
    """The place of the first call whose status differs, which may be 0; None where none does."""
    words, listed = (WORD * (HEADER_WORDS + SLOT_WORDS * MAX_SLOTS))(), (WORD * (ENTRY_WORDS * MAX_SLOTS))()
    place = WORD()
    _make("recording_replay", data, len(data), words, len(words), listed, len(listed), ctypes.byref(place))
    return None if place.value == AGREE else place.value


def recording_write(slots, ticks_per_second, calls, statuses):
    """The bytes of the recording of these calls, each up to eleven words, with the statuses expected of them."""
    words = _words([word for call in calls for word in list(call) + [0] * (CALL_WORDS - len(call))])
    expected, written = _words(statuses), WORD()
    buffer = ctypes.create_string_buffer(20 + 48 * len(statuses))
    _make("recording_write", _word(slots), _word(ticks_per_second), words, len(words), expected, len(expected), buffer, len(buffer),
          ctypes.byref(written))
    return buffer.raw[:written.value]


# ---- Macros: steps are words, five a step

NOWHERE, OWN, SHARED = 0, 1, 2


def macro_check(steps):
    """Refused unless the macro is passed."""
    words = _words(steps)
    _make("macro_check", words, len(words))


def macro_find(own, shared, name):
    """Where a macro of that name stands, in the own library or else the shared one, and its steps; NOWHERE, and none, else."""
    first, second, offset, count = _words(own), _words(shared), SIZE(), SIZE()
    where = library().hc_macro_find(first, len(first), second, len(second), _word(name), ctypes.byref(offset), ctypes.byref(count))
    return where, list((second if where == SHARED else first)[offset.value:offset.value + count.value])


class Macro:
    """A macro that runs on a table as a party's. `run` and `step` answer 1 for a sign, else 0."""

    def __init__(self, steps, table, party=PARTY_1):
        self._steps, self._table, self._party, self._run = _words(steps), table, party, _MacroRun()

    @property
    def place(self):
        return self._run.place

    @property
    def last(self):
        """The status of the last arm or cancel."""
        return Status(self._run.last)

    def step(self):
        return self._table._answer("macro_step", _word(self._party), self._steps, len(self._steps), ctypes.byref(self._run))

    def run(self, budget):
        return self._table._answer("macro_run", _word(self._party), self._steps, len(self._steps), ctypes.byref(self._run), _word(budget))
