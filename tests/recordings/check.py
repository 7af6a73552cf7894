#!/usr/bin/env python3
"""Stored recordings, the sample day, and the tools: tests/recordings/check.py SEED PROGRAM

PROGRAM is the program replay. Every file of stored.txt must give its line by PROGRAM, and the same by hc_recording_check and
hc_recording_replay. The sample day must agree, and with any one status changed differ at that call; its recording and its
picture must be what the tools make of it. What tools/record shows of a recording it must write again to the same bytes: of the
stored ones, of the day and of random ones. A bad script or file must be told by its line or word, and why, and a bad call by
the usage. The first difference ends the run with one line and status 1."""
import ctypes
import importlib.machinery
import importlib.util
import os
import random
import re
import struct
import subprocess
import sys
import tempfile
import xml.etree.ElementTree
from pathlib import Path

ROOT = Path(__file__).resolve().parent.parent.parent
TOOLS = ROOT / "tools"
DAY, DAY_SCRIPT, DAY_PICTURE = ROOT / "examples" / "day.rec", ROOT / "examples" / "day.script", ROOT / "docs" / "day.svg"
HIGHEST = 2 ** 32 - 1

sys.dont_write_bytecode = True
sys.path.insert(0, str(TOOLS))
import heathcinder
import recordings


def tool(name):
    loader = importlib.machinery.SourceFileLoader(name, str(TOOLS / name))
    module = importlib.util.module_from_spec(importlib.util.spec_from_loader(name, loader))
    loader.exec_module(module)
    return module


record, timeline = tool("record"), tool("timeline")


def expect(what, expected, came):
    if expected != came:
        print("FAILED recordings: %s: expected %s, came %s" % (what, expected, came))
        sys.exit(1)


# ---- Stored recordings

def bytes_of(text):
    """The bytes that a line of stored.txt says."""
    text = re.sub(r"(\d+)\*\(([^)]*)\)", lambda match: " ".join([match[2]] * int(match[1])), text)
    data = b""
    for part in text.split():
        times, _, word = part.rpartition("*")
        data += bytes.fromhex(part[1:]) if part[0] == "+" else struct.pack("<I", int(word)) * int(times or 1)
    return data


def stored():
    """Name, bytes and line of each."""
    for line in (ROOT / "tests" / "recordings" / "stored.txt").read_text().splitlines():
        if line and not line.startswith("#"):
            name, _, rest = line.partition(":")
            words, _, expected = rest.partition("=>")
            yield name, bytes_of(words), expected.strip()


def line_of_program(program, data):
    done = subprocess.run([program], input=data, stdout=subprocess.PIPE, timeout=60)
    expect("the status of %s" % program, 0, done.returncode)
    return done.stdout.decode()


def line_of_library(data):
    """The line by hc_recording_replay; where it refuses, it answers the position that hc_recording_check answers."""
    table = (heathcinder.WORD * (heathcinder.HEADER_WORDS + heathcinder.SLOT_WORDS * heathcinder.MAX_SLOTS))()
    listed, place = (heathcinder.WORD * (heathcinder.ENTRY_WORDS * heathcinder.MAX_SLOTS))(), heathcinder.WORD()
    try:
        position = heathcinder.recording_check(data)
    except heathcinder.Refused as refused:
        position = refused.position
    status = heathcinder.library().hc_recording_replay(data, len(data), table, len(table), listed, len(listed), ctypes.byref(place))
    expect("the status of hc_recording_replay", 0 if position is None else heathcinder.Status.INVALID_NUMBER, status)
    if position is not None:
        expect("the place that a refused hc_recording_replay answers", position, place.value)
        return "refused %d" % position
    return "agree" if place.value == heathcinder.AGREE else str(place.value)


def shown_again(data):
    """What tools/record writes of what it shows of these bytes."""
    script = "\n".join(record.script_of(recordings.read(data)))
    return recordings.write(record.Script(script).recording())


def try_stored(program):
    counts = {"agree": 0, "place": 0, "refused": 0}
    for name, data, expected in stored():
        expect("'%s' by the program" % name, expected + "\n", line_of_program(program, data))
        expect("'%s' by the library" % name, expected, line_of_library(data))
        if expected.startswith("refused"):
            why = message_of(lambda: recordings.read(data))
            expect("'%s' in words, %s" % (name, why), True,
                   re.match("no recording: word %s[,:] " % expected.split()[1], why) is not None)
        else:
            expect("'%s' shown and written again" % name, data, shown_again(data))
        counts["refused" if expected.startswith("refused") else "agree" if expected == "agree" else "place"] += 1
    expect("the kinds of lines that were met", True, all(counts.values()))
    print("recordings: stored ones as expected: %(agree)d agree, %(place)d differ, %(refused)d refused" % counts)


# ---- The sample day

def output_of(*command, stdin=None):
    done = subprocess.run(command, input=stdin, stdout=subprocess.PIPE, stderr=subprocess.PIPE)
    return done.returncode, done.stdout, done.stderr.decode()


def try_day(program):
    day = DAY.read_bytes()
    calls = recordings.word_at(day, 3)
    expect("the sample day", "agree\n", line_of_program(program, day))
    for k in range(calls):
        changed = bytearray(day)
        at = 4 * (5 + 11 * calls + k)
        struct.pack_into("<I", changed, at, recordings.word_at(day, at // 4) + 1)
        expect("the sample day with the status of call %d changed, by the program" % k, "%d\n" % k,
               line_of_program(program, bytes(changed)))
        expect("the same by the library", k, heathcinder.recording_replay(bytes(changed)))
    expect("tools/record write of the day's script", (0, day, ""), output_of(TOOLS / "record", "write", DAY_SCRIPT))
    _, shown, _ = output_of(TOOLS / "record", "show", DAY)
    expect("what tools/record shows of the day, written", (0, day, ""), output_of(TOOLS / "record", "write", "-", stdin=shown))
    expect("tools/record run", (0, b"agree: %d calls\n" % calls, ""), output_of(TOOLS / "record", "run", DAY_SCRIPT))
    expect("tools/timeline of the day", (0, DAY_PICTURE.read_bytes(), ""), output_of(TOOLS / "timeline", DAY))
    print("recordings: the sample day as expected, and at each of its %d calls with another status" % calls)


# ---- One of each call, as a script and as words

ONE_OF_EACH = """lay_out 2 10
create 'A B ' as timer              # 2
ident 1196573745                    # 3
cancel timer = 14                   # 4
delete 0x12010002 = INVALID_ID      # 5
fire_after timer 3 4 5              # 6
fire_when timer 2026-11-16 12:00:00.9 7 8 = HC_NOT_DEFINED
reset timer
ticks_left timer                    # 9
tick
set_clock 2026-1-2 3:4:5.6          # 11
get_clock
fire_every timer 9 10 11
next_due                            # 14
initiate_server
server_fire_after timer 12 13 14
server_fire_when timer 2026-11-16 12:00:00 15 4294967295
serve x2                            # 18
leap 1000000 = 77"""
TIMER = recordings.ID_BASE + 1
ONE_OF_EACH_WORDS = """2 2 10 19
2 %d 9*0 3 1196573745 9*0 4 {0} 9*0 5 302055426 9*0 6 {0} 3 4 5 6*0 7 {0} 2026 11 16 12 0 0 9 7 8 8 {0} 9*0 9 {0} 9*0 10 10*0
11 2026 1 2 3 4 5 6 3*0 12 10*0 13 {0} 9 10 11 6*0 14 10*0 15 10*0 16 {0} 12 13 14 6*0 17 {0} 2026 11 16 12 0 0 0 15 4294967295
18 10*0 18 10*0 19 1000000 9*0
19 0 0 14 4 0 11 12*0 77""".replace("{0}", str(TIMER)) % int.from_bytes(b"A B ", "big")


def try_one_of_each():
    words = bytes_of(ONE_OF_EACH_WORDS)
    expect("one of each call, written", words, recordings.write(record.Script(ONE_OF_EACH).recording()))
    expect("one of each call, read", {number for number, _ in recordings.read(words).calls}, set(recordings.CALLS))
    expect("one of each call, shown and written again", words, shown_again(words))


# ---- Scripts and files that cannot be used

BAD_SCRIPTS = [
    ("", "no call in it: it begins by lay_out SLOTS TICKS_PER_SECOND"),
    ("# nothing\n\n", "no call in it: it begins by lay_out SLOTS TICKS_PER_SECOND"),
    ("tick", "line 1: a script begins by lay_out SLOTS TICKS_PER_SECOND"),
    ("lay_out 3", "line 1: a script begins by lay_out SLOTS TICKS_PER_SECOND"),
    ("lay_out 2 100 1", "line 1: a recording is of one party: lay_out takes slots and ticks in a second"),
    ("lay_out 0 10", "line 1: 0 slots: they must be 1 to 255"),
    ("lay_out 256 10", "line 1: 256 slots: they must be 1 to 255"),
    ("lay_out 1 0", "line 1: 0 ticks in a second: they must be 1 to 1000"),
    ("lay_out 1 1001", "line 1: 1001 ticks in a second: they must be 1 to 1000"),
    ("lay_out 1 1\ntick\nlay_out 1 1", "line 3: lay_out stands once, before all calls"),
    ("lay_out 1 1\nlay_out 1", "line 2: lay_out stands once, before all calls"),
    ("lay_out 1 1\nlay_out 2 100 1", "line 2: lay_out stands once, before all calls"),
    ("lay_out 1 1\n# a comment\nfireafter 1 2 3 4", "line 3: 'fireafter' is no call; is it fire_after?"),
    ("lay_out 1 1\n\n\nxyzzy", "line 4: 'xyzzy' is no call"),
    ("lay_out 1 1\ncreate GRD1 as a\nfire_after_seconds a 1.5 7 0",
     "line 3: fire_after_seconds is not recorded: write fire_after with its ticks"),
    ("lay_out 1 1\nfire_after 1 2 3", "line 2: it is: fire_after ID TICKS ROUTINE DATA"),
    ("lay_out 1 1\nset_clock 2026-11-16", "line 2: it is: set_clock DATE"),
    ("lay_out 1 1\ntick 4", "line 2: it is: tick"),
    ("lay_out 1 1\nset_clock 2026-11-16 12:00", "line 2: '2026-11-16 12:00' is no date such as 2026-11-16 12:00:00 or "
                                                "2026-11-16 12:00:00.3"),
    ("lay_out 1 1\nleap 4294967296", "line 2: '4294967296' is no number of 32 bits"),
    ("lay_out 1 1\nleap " + "9" * 5000, "line 2: '%s' is no number of 32 bits" % ("9" * 5000)),
    ("lay_out 1 1\nleap -1", "line 2: '-1' is no number of 32 bits"),
    ("lay_out 1 1\ncreate GRD", "line 2: GRD is no name: four characters, in single quotes where one is no letter, digit or "
                                "'_', or a number"),
    ("lay_out 1 1\ncancel guard", "line 2: guard is no label that a create has been given so far"),
    ("lay_out 1 1\ncreate GRD1 as a\ncreate GRD2 as a", "line 3: the label a was given in line 2"),
    ("lay_out 1 1\ncreate GRD1 as a\ncreate GRD2 as b = 5\ncancel b",
     "line 4: b has no id: its create in line 3 is refused with TOO_MANY"),
    ("lay_out 1 1\nident GRD1 as a", "line 2: a label is given as in: create GRD1 as guard"),
    ("lay_out 1 1\ncreate GRD1 as 3a", "line 2: a label is given as in: create GRD1 as guard"),
    ("lay_out 3 1\ncreate GRD1 as g x3", "line 2: the label g is of one create, not of 3"),
    ("lay_out 1 1\ncreate GRD1 as x4", "line 2: a label is given as in: create GRD1 as guard"),
    ("lay_out 1 1\ntick = FOUR", "line 2: 'FOUR' is no status: %s, or a number" % ", ".join(recordings.STATUSES.values())),
    ("lay_out 1 1\ntick = 4 5", "line 2: behind '=' stands one status, and nothing behind it"),
    ("lay_out 1 1\ntick x0", "line 2: x0: a call stands 1 to 1000 times"),
    ("lay_out 1 1\ntick x1001", "line 2: x1001: a call stands 1 to 1000 times"),
    ("lay_out 1 1\ntick x1000\ntick", "line 3: more than 1000 calls"),
]

BAD_FILES = [
    (b"", "word 0, the count of the first section, is missing"),
    (b"\2\0", "word 0, the count of the first section, has only 2 of its 4 bytes"),
    (bytes_of("2 0 1 0 0"), "word 1, N, the slots, is 0; it must be 1 to 255"),
    (bytes_of("2 1 1001 0 0"), "word 2, T, the ticks in a second, is 1001; it must be 1 to 1000"),
    (bytes_of("2 1 1 1001"), "word 3, the count of calls, is 1001; it must be 1000 at most"),
    (bytes_of("2 1 1 1 20 10*0 1 0"), "word 4, the number of call 0, is 20; it must be 2 to 19"),
    (bytes_of("2 1 1 2 10 10*0 4 1 7 8*0 2 0 0"), "word 17, fill word 1 of call 1, cancel, is 7; it must be 0"),
    (bytes_of("2 1 1 1 6 1 2"), "word 7, word 3 of the arguments of call 0, fire_after, is missing"),
    (bytes_of("2 1 1 1 10 10*0 2 0"), "word 15, the count of statuses, is 2; it must be 1, the count of calls"),
    (bytes_of("2 1 1 1 10 10*0 1 +00"), "word 16, the status of call 0, has only 1 of its 4 bytes"),
    (bytes_of("2 1 1 0 0 0 +00"), "word 5: it stands past the end of the recording, 5 bytes in all"),
]


def message_of(call):
    try:
        call()
    except recordings.Refused as why:
        return str(why)
    return "no refusal"


def try_bad():
    for script, why in BAD_SCRIPTS:
        expect("the script %r" % script, why, message_of(lambda: record.Script(script)))
    for data, why in BAD_FILES:
        expect("the file %r" % data, "no recording: " + why, message_of(lambda: recordings.read(data)))
    with tempfile.TemporaryDirectory() as folder:
        script, file = Path(folder) / "bad.script", Path(folder) / "bad.rec"
        script.write_text(BAD_SCRIPTS[9][0])
        file.write_bytes(BAD_FILES[2][0])
        for command in ("write", "run"):
            expect("tools/record %s of a bad script" % command, (2, b"", "record: %s, %s\n" % (script, BAD_SCRIPTS[9][1])),
                   output_of(TOOLS / "record", command, script))
        for command in (["record", "show"], ["record", "run"], ["timeline"]):
            expect("tools/%s of a bad file" % " ".join(command),
                   (2, b"", "%s: %s: no recording: %s\n" % (command[0], file, BAD_FILES[2][1])),
                   output_of(TOOLS / command[0], *command[1:], file))
        for command in (["record", "show"], ["timeline"]):
            expect("tools/%s of a script" % " ".join(command),
                   (2, b"", "%s: %s: it is a script: make a recording by tools/record write\n" % (command[0], script)),
                   output_of(TOOLS / command[0], *command[1:], script))
        for command in (["record", "write"], ["record", "show"], ["record", "run"], ["timeline"]):
            expect("tools/%s of a file that is not there" % " ".join(command),
                   (2, b"", "%s: %s/none: No such file or directory\n" % (command[0], folder)),
                   output_of(TOOLS / command[0], *command[1:], folder + "/none"))
        script.write_text("lay_out 1 10\ncreate GRD1 as guard\nfire_after guard 2 7 0\n\ntick x2\ncancel guard\n")
        expect("tools/record run of a script that differs",
               (1, b"%s, line 6, call 4, cancel guard: expected 0 (SUCCESSFUL), came 14 (INCORRECT_STATE)\n" % bytes(script), ""),
               output_of(TOOLS / "record", "run", script))
        try_odd_names(folder, script.read_text())
    print("recordings: %d bad scripts and %d bad files told as expected" % (len(BAD_SCRIPTS), len(BAD_FILES)))


def try_odd_names(folder, differing):
    """Files whose names are no text, or hold what no picture may, and a script with a mark before its first line."""
    for name, in_line, in_title in (b"a\xff", b"a\\udcff", "a\ufffd"), (b"a\1b", b"a\1b", "a\ufffdb"):
        path = Path(os.fsdecode(os.path.join(os.fsencode(folder), name)))
        path.write_text("\ufeff" + differing)
        status, out, error = output_of(TOOLS / "record", "run", path)
        expect("tools/record run of a script of the name %r" % name, (1, in_line + b", line 6", ""),
               (status, out[len(folder) + 1:].partition(b", call")[0], error))
        path.write_bytes(DAY.read_bytes())
        status, out, error = output_of(TOOLS / "timeline", path)
        expect("tools/timeline of a file of the name %r" % name, (0, "", True),
               (status, error, in_title + ":" in xml.etree.ElementTree.fromstring(out)[0].text))


def try_usage():
    for tool, form, commands in ("record", "{write,show,run} FILE", [[], ["run"], ["paint", "x"], ["run", "x", "y"], ["run", "-x"]]), \
            ("timeline", "FILE", [[], ["x", "y"], ["-x"]]):
        for arguments in commands:
            expect("tools/%s %s" % (tool, " ".join(arguments)),
                   (2, b"", "usage: tools/%s %s; tools/%s --help says more\n" % (tool, form, tool)),
                   output_of(TOOLS / tool, *arguments))
        for option in ("-h", "--help"):
            status, out, error = output_of(TOOLS / tool, option)
            expect("tools/%s %s" % (tool, option), (0, True, ""), (status, b"    tools/%s " % tool.encode() in out, error))


# ---- A picture's words

def try_words():
    """The name of a timer is not drawn over its slot, however long it is; and one of a kind is not several."""
    day = timeline.Day(recordings.Recording(1, 1, [(recordings.NUMBERS["create"], [HIGHEST])], [0]))
    texts = {text.text: text for text in xml.etree.ElementTree.fromstring("\n".join(timeline.draw(day, "one.rec"))).iter()}
    name, slot = texts[str(HIGHEST)], texts["slot 1"]
    expect("anchors of a label", ("start", "end"), (name.get("text-anchor"), slot.get("text-anchor")))
    expect("room between the name of a timer and its slot", True, float(slot.get("x")) - 40 > float(name.get("x")) + 7.5 * 10)
    expect("the title of one call in one slot", True, "one.rec: 1 call, 1 slot, 1 tick in a second" in texts)


# ---- Random recordings, shown and drawn

def random_argument(r, argument, slots):
    number = r.choice([0, 1, 2, r.randrange(50), 1000, 10 ** 6, r.randrange(2 ** 32), HIGHEST])
    if argument == "DATE":
        date = [2026, 11, 16, 12, r.randrange(2), r.randrange(60), r.randrange(10)]
        return date if r.random() < 0.8 else [r.choice([field, number]) for field in date]
    if argument == "NAME":
        return [r.choice([number, 0x47524431, 0x43454c4c, 0x20202020, 0x78313233, 0x41274223, r.randrange(0x20202020, 0x7f7f7f7f)])]
    if argument == "ID":
        return [recordings.ID_BASE + r.randrange(slots + 2) if r.random() < 0.9 else number]
    return [r.randrange(1, 20) if r.random() < 0.7 else number]


def random_recording(r):
    slots, calls = r.choice([1, 2, 6, 255]), []
    for _ in range(r.choice([0, 1, 5, 50, 300])):
        number = r.choice(list(recordings.CALLS) + [2, 2, 10, 10, 19])
        words = [word for argument in recordings.arguments_of(number) for word in random_argument(r, argument, slots)]
        calls += [(number, words)] * (r.randrange(1, 4) if number in (10, 18, 19) else 1)
    statuses = [r.choice([0, 0, 0, 4, 14, r.randrange(2 ** 32)]) for _ in calls]
    return recordings.Recording(slots, r.choice([1, 10, 1000]), calls, statuses)


def try_random(seed, wanted):
    r, calls, drawn = random.Random(seed), 0, 0
    for n in range(wanted):
        recording = random_recording(r)
        data = recordings.write(recording)
        expect("random recording %d, seed %d, read" % (n, seed), recording, recordings.read(data))
        expect("random recording %d, seed %d, shown and written again" % (n, seed), data, shown_again(data))
        xml.etree.ElementTree.fromstring("\n".join(timeline.draw(timeline.Day(recording), "random.rec")))
        calls, drawn = calls + len(recording.calls), drawn + 1
    print("recordings: seed %d, %d random ones of %d calls shown and written again, and drawn" % (seed, drawn, calls))


def main():
    if len(sys.argv) != 3:
        sys.exit(__doc__)
    seed, program = int(sys.argv[1]), sys.argv[2]
    try_stored(program)
    try_day(program)
    try_one_of_each()
    try_bad()
    try_usage()
    try_words()
    try_random(seed, 60)


main()
