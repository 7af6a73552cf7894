"""What tools/record and tools/timeline share: a recording's words, its calls as text, and a table of the library's on which they
are made (heathcinder.py says where that is)."""
import re
import struct
from collections import namedtuple

import heathcinder
from heathcinder import CALL_WORDS, HEADER_WORDS, MAX_SLOTS, SLOT_WORDS, Status
from toolbox import Refused, as_called, shown

WORD = 1 << 32
MAX_TICKS_PER_SECOND, MAX_CALLS = 1000, 1000
FRONT = 4
ID_BASE = 0x12010000

# By number: the name of the call, and its arguments in their order.
START_AFTER, START_WHEN = ("ID", "TICKS", "ROUTINE", "DATA"), ("ID", "DATE", "ROUTINE", "DATA")
CALLS = {
    2: ("create", ("NAME",)), 3: ("ident", ("NAME",)), 4: ("cancel", ("ID",)), 5: ("delete", ("ID",)),
    6: ("fire_after", START_AFTER), 7: ("fire_when", START_WHEN), 8: ("reset", ("ID",)), 9: ("ticks_left", ("ID",)),
    10: ("tick", ()), 11: ("set_clock", ("DATE",)), 12: ("get_clock", ()), 13: ("fire_every", START_AFTER),
    14: ("next_due", ()), 15: ("initiate_server", ()), 16: ("server_fire_after", START_AFTER),
    17: ("server_fire_when", START_WHEN), 18: ("serve", ()), 19: ("leap", ("TICKS",)),
}
NUMBERS = {name: number for number, (name, _) in CALLS.items()}
STATUSES = {status.value: status.name for status in Status}

# A call is (number, words of its arguments).
Recording = namedtuple("Recording", "slots ticks_per_second calls statuses")


# What ends a tool with one line.
FAILURES = (Refused, heathcinder.Refused, ImportError)


def name_of(number):
    return CALLS[number][0]


def arguments_of(number):
    return CALLS[number][1]


def words_of(argument):
    """How many words the argument has."""
    return 7 if argument == "DATE" else 1


def argument_words(number):
    return sum(map(words_of, arguments_of(number)))


def parts_of(number, words):
    """The arguments of a call with these words: each one's name, and its words."""
    at = 0
    for argument in arguments_of(number):
        yield argument, words[at:at + words_of(argument)]
        at += words_of(argument)


# ---- Text

def status_text(status):
    return STATUSES.get(status, str(status))


def name_text(name):
    """Four characters, in quotes where they need them, or a number."""
    characters = struct.pack(">I", name)
    if re.fullmatch(rb"[A-Za-z_][A-Za-z0-9_]{3}", characters):
        return characters.decode()
    if re.fullmatch(rb"[ -&(-~]{4}", characters):
        return "'%s'" % characters.decode()
    return str(name)


def date_text(words):
    text = "%04d-%02d-%02d %02d:%02d:%02d" % tuple(words[:6])
    return text + (".%d" % words[6] if words[6] else "")


def call_text(number, words, labels):
    """The call as a script has it; an id that is a key of labels is shown as its label."""
    texts = [name_of(number)]
    for argument, part in parts_of(number, words):
        if argument == "DATE":
            texts.append(date_text(part))
        elif argument == "NAME":
            texts.append(name_text(part[0]))
        elif argument == "ID":
            texts.append(labels.get(part[0], "0x%x" % part[0]))
        else:
            texts.append(str(part[0]))
    return " ".join(texts)


# ---- What is wrong with a file

def word_at(data, position):
    return struct.unpack_from("<I", data, 4 * position)[0]


def what_stands(data, position):
    """What stands at a position of a recording, and what it must be."""
    if position < FRONT:
        return [("the count of the first section", "2"), ("N, the slots", "1 to %d" % MAX_SLOTS),
                ("T, the ticks in a second", "1 to %d" % MAX_TICKS_PER_SECOND),
                ("the count of calls", "%d at most" % MAX_CALLS)][position]
    calls = word_at(data, FRONT - 1)
    call, word = divmod(position - FRONT, CALL_WORDS)
    if call < calls and word == 0:
        return "the number of call %d" % call, "%d to %d" % (min(CALLS), max(CALLS))
    if call < calls:
        number = word_at(data, position - word)
        fill = word - argument_words(number)
        which = "fill word %d" % fill if fill > 0 else "word %d of the arguments" % word
        return "%s of call %d, %s" % (which, call, name_of(number)), "0"
    behind = position - FRONT - CALL_WORDS * calls
    if behind == 0:
        return "the count of statuses", "%d, the count of calls" % calls
    return ("the status of call %d" % (behind - 1), "any") if behind <= calls else (None, None)


def why_refused(data, position):
    what, must = what_stands(data, position)
    there = len(data) - 4 * position
    if what is None:
        return "word %d: it stands past the end of the recording, %d bytes in all" % (position, there)
    if there <= 0:
        return "word %d, %s, is missing" % (position, what)
    if there < 4:
        return "word %d, %s, has only %d of its 4 bytes" % (position, what, there)
    return "word %d, %s, is %d; it must be %s" % (position, what, word_at(data, position), must)


# ---- The library

def read(data):
    """The recording; where the bytes are none, Refused says where and why."""
    try:
        heathcinder.recording_check(data)
    except heathcinder.Refused as refused:
        raise Refused("no recording: " + why_refused(data, refused.position)) from None
    slots, ticks_per_second, count = struct.unpack_from("<3I", data, 4)
    calls = []
    for k in range(count):
        number, *words = struct.unpack_from("<%dI" % CALL_WORDS, data, 4 * (FRONT + CALL_WORDS * k))
        calls.append((number, words[:argument_words(number)]))
    statuses = struct.unpack_from("<%dI" % count, data, 4 * (FRONT + CALL_WORDS * count + 1))
    return Recording(slots, ticks_per_second, calls, list(statuses))


def write(recording):
    """The bytes of the recording."""
    calls = [[number, *words] for number, words in recording.calls]
    return heathcinder.recording_write(recording.slots, recording.ticks_per_second, calls, recording.statuses)


# What a call gave: the status; the number that it answered; the ticks that passed in it; the entries that it listed, each id,
# routine and data.
Outcome = namedtuple("Outcome", "status answer ticks listed")


def accepted(name, gave):
    """What an accepted call gave, from what heathcinder.py answers for it."""
    if name == "tick":
        return Outcome(Status.SUCCESSFUL, 0, 1, gave)
    if name == "leap":
        return Outcome(Status.SUCCESSFUL, 0, *gave)
    if name == "set_clock":
        return Outcome(Status.SUCCESSFUL, 0, 0, gave[0])
    if name == "serve":
        return Outcome(Status.SUCCESSFUL, 0, 0, [gave] if gave else [])
    return Outcome(Status.SUCCESSFUL, gave if isinstance(gave, int) else 0, 0, [])


class Table(heathcinder.Table):
    """A table of one party, on which recorded calls are made one by one."""

    def kind(self, index):
        """The kind of the slot of this index, from 1."""
        return self.words[HEADER_WORDS + SLOT_WORDS * (index - 1)]

    def clock(self):
        """The clock's seven numbers; None while it is not set."""
        try:
            return self.get_clock()
        except heathcinder.Refused:
            return None

    def make(self, number, words):
        """Makes the call with these words for its arguments."""
        arguments = [part if argument == "DATE" else part[0] for argument, part in parts_of(number, words)]
        try:
            return accepted(name_of(number), getattr(self, name_of(number))(*arguments))
        except heathcinder.Refused as refused:
            return Outcome(refused.status, 0, 0, [])


# ---- Files

def is_script(data):
    """Text, and not the words of a recording, whose first one has zero bytes."""
    return len(data) > 0 and not any(byte < 32 and byte not in b"\t\n\f\r" for byte in data)


def read_recording(path, data):
    """The recording that these bytes of a file are."""
    try:
        if is_script(data):
            raise Refused(as_called("it is a script: make a recording by tools/record write"))
        return read(data)
    except Refused as why:
        raise Refused("%s: %s" % (shown(path), why))
