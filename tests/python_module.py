#!/usr/bin/env python3
"""Tests tools/heathcinder.py: its statuses and calls are those of the header, every call goes through, and a refusal is raised;
the library is loaded once, and what cannot be loaded is told in one line, by the tools too, and so is output that cannot be
written. The calls' own behaviour is tested in C."""
import os
import re
import shutil
import signal
import subprocess
import sys
import tempfile
from pathlib import Path

ROOT = Path(__file__).resolve().parent.parent
sys.path.append(str(ROOT / "tools"))
import heathcinder  # noqa: E402
from heathcinder import Fired, Refused, Status, Table, WallTime  # noqa: E402

HEADER = (ROOT / "include" / "heathcinder.h").read_text()
MAX = (1 << 32) - 1


def expect(what, is_, should_be):
    if is_ != should_be:
        sys.exit("FAILED python module: %s: %r, not %r" % (what, is_, should_be))


def refusal(call, *arguments):
    """The status with which a call is refused."""
    try:
        call(*arguments)
    except Refused as refused:
        return refused.status
    sys.exit("FAILED python module: %s%r is not refused" % (call.__name__, arguments))


def invalid(call, *arguments):
    """Whether a call raises ValueError."""
    try:
        call(*arguments)
    except ValueError:
        return True
    return False


def test_header():
    statuses = re.findall(r"^#define HC_(\w+) (\d+)u +/\*", HEADER, re.M)
    expect("statuses", [(status.name, str(status.value)) for status in Status], statuses)
    texts = dict(re.findall(r'case HC_(\w+): return "(.*)";', HEADER))
    expect("texts", {status.name: status.text for status in Status}, texts)
    prototypes = {name: arguments.count(",") + 1 for name, arguments in re.findall(r"^uint32_t hc_(\w+)\(([^)]*)\);", HEADER, re.M)}
    expect("calls", {name: len(arguments) for name, arguments in heathcinder.PROTOTYPES.items()}, prototypes)
    expect("name", heathcinder.name("GRD1"), 0x47524431)
    for text in "", "GRD", "GUARD", "GRD\u0142":
        expect("name %r" % text, invalid(heathcinder.name, text), True)


def test_timers():
    table = Table(slots=3, ticks_per_second=10)
    guard, lamp = table.create(1), table.create(2)
    expect("ident", table.ident(2), lamp)
    table.fire_after(guard, 5, 7, 70)
    table.fire_every(lamp, 5, 8, 80)
    expect("next due", (table.next_due(), table.ticks_left(guard)), (5, 5))
    expect("words", (table.words[5], table.words[10 + 3], table.words[18 + 3]), (1, 5, 0))
    expect("quiet tick", table.tick(), [])
    expect("leap", table.leap(1000), (4, [Fired(guard, 7, 70), Fired(lamp, 8, 80)]))
    table.reset(guard)
    table.cancel(guard)
    table.delete(lamp)
    expect("cancel again", refusal(table.cancel, guard), Status.INCORRECT_STATE)
    expect("deleted", refusal(table.ticks_left, lamp), Status.INVALID_ID)


def test_recordings():
    data = heathcinder.recording_write(3, 10, [(2, 1), (2, 2), (10,)], [0, 0, 0])
    expect("recording", (len(data), heathcinder.recording_check(data)), (20 + 48 * 3, None))
    expect("replay", heathcinder.recording_replay(data), None)
    wrong = heathcinder.recording_write(3, 10, [(2, 1), (2, 0), (10,)], [0, 0, 0])
    expect("replay that differs", heathcinder.recording_replay(wrong), 1)
    for short, position in (data[:-1], 4 + 11 * 3 + 3), (b"", 0):
        try:
            heathcinder.recording_check(short)
            expect("no recording", "taken", "refused")
        except heathcinder.Refused as refused:
            expect("no recording", (refused.status, refused.position), (Status.INVALID_NUMBER, position))
    expect("write", refusal(heathcinder.recording_write, 3, 10, [(1, 1)], [0]), Status.INVALID_NUMBER)


def test_macros():
    table = Table(slots=1, ticks_per_second=10)
    guard = table.create(1)
    steps = [1, guard, 2, 7, 70] + [4, 0, 0, 0, 0] + [3, guard, 0, 0, 0] + [7, 0, 0, 0, 0]
    heathcinder.macro_check(steps)
    expect("macro", refusal(heathcinder.macro_check, steps[:5] + steps[15:]), Status.INVALID_NUMBER)
    macro = heathcinder.Macro(steps, table)
    expect("waits", (macro.run(100), macro.place), (0, 2))
    table.tick(), table.tick()
    expect("signs", (macro.step(), macro.step(), macro.place, macro.last), (0, 1, 4, Status.SUCCESSFUL))
    other = heathcinder.Macro(steps, table, party=2)
    expect("as party 2", (other.run(100), other.place, other.last), (0, 4, Status.INVALID_ID))
    expect("find", heathcinder.macro_find([9, 1] + steps[15:], [8, 4] + steps, 8), (heathcinder.SHARED, steps))
    expect("find none", heathcinder.macro_find([], [8, 4] + steps, 9), (heathcinder.NOWHERE, []))


def test_clock():
    table = Table(slots=1, ticks_per_second=10)
    timer = table.create(MAX)
    expect("clock not set", refusal(table.get_clock), Status.NOT_DEFINED)
    expect("set clock", table.set_clock((2024, 2, 29, 12, 0, 0, 3)), ([], 0))
    table.fire_when(timer, (2024, 2, 29, 12, 0, 1), 9, MAX)
    expect("set back", table.set_clock((2024, 2, 29)), ([], -12 * 36000 - 3))
    expect("set forth", table.set_clock(WallTime(2024, 2, 29, 13)), ([Fired(timer, 9, MAX)], 13 * 36000))
    expect("get clock", table.get_clock(), (2024, 2, 29, 13, 0, 0, 0))


def test_server():
    table = Table(slots=2, ticks_per_second=10)
    one, other = table.create(1), table.create(2)
    expect("not initiated", refusal(table.server_fire_after, one, 1, 7), Status.INCORRECT_STATE)
    table.set_clock((2099, 12, 31, 23, 59, 58, 9))
    table.initiate_server()
    table.server_fire_after(one, 1, 7)
    table.server_fire_when(other, (2099, 12, 31, 23, 59, 59), 8, 80)
    expect("queued, not listed", table.tick(), [])
    expect("served", [table.serve() for _ in range(3)], [Fired(one, 7, 0), Fired(other, 8, 80), None])


def test_limits():
    for slots, rate in (0, 10), (256, 10), (MAX, 10), (1, 0), (1, 1001):
        expect("lay out %d %d" % (slots, rate), refusal(Table, slots, rate), Status.INVALID_NUMBER)
    table = Table(1, 1)
    for number in -1, MAX + 1, 1.5, 1.0, "1", None:
        expect("%r for a word" % (number,), invalid(table.create, number), True)
        expect("%r for ticks" % (number,), invalid(table.fire_after, 1, number, 7), True)
        expect("%r in a list" % (number,), invalid(heathcinder.plan, [(1, number)], 10), True)
    for seconds in "1", None, 10 ** 400:
        expect("%r for seconds" % (seconds,), invalid(heathcinder.seconds_to_ticks, seconds, 10), True)


def test_delays():
    table = Table(slots=2, ticks_per_second=10, split=1)
    guard = table.create(1, party=2)
    table.fire_after_seconds(guard, 1.25, 7, 70, party=2)
    expect("seconds", (table.ticks_left(guard, party=2), heathcinder.seconds_to_ticks(0.1, 1000)), (13, 101))
    for seconds in float("nan"), float("inf"), -1, 0:
        expect("%s seconds" % seconds, refusal(table.fire_after_seconds, guard, seconds, 7, 70, 2), Status.INVALID_NUMBER)
    expect("party 1", refusal(table.fire_after_seconds, guard, 1, 7), Status.INVALID_ID)
    expect("minus zero", heathcinder.seconds_to_ticks(-0.0, 1), 0)
    expect("no rate", refusal(heathcinder.seconds_to_ticks, 1, 0), Status.INVALID_NUMBER)


def test_plan():
    jobs = [(1, 3000), (2, 5000), (1, 4000)]
    expect("plan", heathcinder.plan(jobs, 7000), [0, 0, 3000])
    expect("no jobs", heathcinder.plan([], 0), [])
    heathcinder.plan_check(jobs, 7000, [4000, 0, 0])
    expect("overlap", refusal(heathcinder.plan_check, jobs, 7000, [3999, 0, 0]), Status.UNSATISFIED)
    expect("too long", refusal(heathcinder.plan, jobs, 6999), Status.UNSATISFIED)


def ran(command, **environment):
    """Status, standard output and the lines of standard error."""
    done = subprocess.run(command, stdout=subprocess.PIPE, stderr=subprocess.PIPE, text=True, cwd=ROOT,
                          env=dict(os.environ, **environment))
    return done.returncode, done.stdout, done.stderr.splitlines()


TOOL_CALLS = [["record", "write", "examples/day.script"], ["record", "show", "examples/day.rec"],
              ["record", "run", "examples/day.rec"], ["timeline", "examples/day.rec"], ["plan", "examples/break.jobs"]]


def test_loaded_once():
    with tempfile.TemporaryDirectory() as folder:
        gcc, log = Path(folder) / "gcc", Path(folder) / "log"
        gcc.write_text("#!/bin/sh\necho >>'%s'\nexec %s \"$@\"\n" % (log, shutil.which("gcc")))
        gcc.chmod(0o755)
        for tool, *arguments in TOOL_CALLS[1:]:
            log.write_text("")
            status, _, error = ran([ROOT / "tools" / tool, *arguments], PATH="%s:%s" % (folder, os.environ["PATH"]),
                                   HEATHCINDER_LIBRARY=str(ROOT / "target" / "libheathcinder.a"))
            expect("tools/%s: status, errors and runs of gcc" % tool, (status, error, log.read_text()), (0, [], "\n"))


def test_not_loaded():
    use = "import sys; sys.dont_write_bytecode = True; sys.path.append('tools'); import heathcinder; print(heathcinder.Status(5).text)"
    expect("import without a library", ran([sys.executable, "-c", use], HEATHCINDER_LIBRARY="none.a"), (0, "too many\n", []))
    with tempfile.TemporaryDirectory() as folder:
        archive, shared, other = (Path(folder) / name for name in ("bad.a", "bad.so", "other.so"))
        archive.write_text("no archive"), shared.write_text("no shared object")
        subprocess.run(["gcc", "-shared", "-x", "c", "/dev/null", "-o", other], check=True)
        for library, why in ("none.a", "there is no such file"), ("none.so", "there is no such file"), (archive, "gcc: "), \
                (shared, ""), (other, "it has no hc_lay_out"):
            for tool, *arguments in TOOL_CALLS:
                status, out, error = ran([ROOT / "tools" / tool, *arguments], HEATHCINDER_LIBRARY=str(library))
                expected = "%s: HEATHCINDER_LIBRARY names %s, which is no library: %s" % (tool, library, why)
                expect("tools/%s with %s" % (tool, library), (status, out, len(error), error[0][:len(expected)]), (2, "", 1, expected))
        (Path(folder) / "python3").symlink_to(sys.executable)
        library = (ROOT / "target" / "libheathcinder.a").resolve()
        for tool, *arguments in TOOL_CALLS:
            said = "%s: gcc, which makes a shared object of %s, cannot be run: No such file or directory" % (tool, library)
            expect("tools/%s without gcc" % tool,
                   ran([ROOT / "tools" / tool, *arguments], PATH=folder, HEATHCINDER_LIBRARY=str(library)), (2, "", [said]))


def test_output():
    """What cannot be written is told in one line, and nobody who reads no more is told anything."""
    for tool, *arguments in TOOL_CALLS + [["macro", "write", "examples/shared.macros"], ["macro", "--help"]]:
        command = " ".join(["tools/" + tool] + arguments)
        expect(command + " >/dev/full", ran(["sh", "-c", command + " >/dev/full"]),
               (2, "", ["%s: the output cannot be written: No space left on device" % tool]))
        expect(command + " >&-", ran(["sh", "-c", command + " >&-"]), (2, "", [tool + ": the output is closed"]))
        reader, writer = os.pipe()
        os.close(reader)
        done = subprocess.run(command.split(), stdout=writer, stderr=subprocess.PIPE, text=True, cwd=ROOT)
        os.close(writer)
        expect(command + " into a closed pipe", (done.returncode, done.stderr), (-signal.SIGPIPE, ""))


for test in test_header, test_timers, test_clock, test_server, test_delays, test_limits, test_plan, test_recordings, \
        test_macros, test_loaded_once, test_not_loaded, test_output:
    test()
print("python module: every call as expected")
