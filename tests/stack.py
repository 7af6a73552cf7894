#!/usr/bin/env python3
"""What each call of the library takes of the machine, read from the machine code, as the table in docs/KERNEL.md:

    python3 tests/stack.py [--check | --write | --jumps] [ARCHIVE]

For each call: the bytes of stack, from the return address on, with those of every function that it may call and with the red
zone below them; whether it uses the red zone; which SSE registers it uses; and what it needs from elsewhere. Functions that call
themselves, or one another in a cycle, stand in RECURSIVE with the most frames of the cycle that there are at a time; those that jump
through a register, by a table, in JUMPING. Code that cannot be read is an error, as are a cycle or a jump that does not stand
there, a call through a register, writable data, and instructions that the page says are not used: those that count with fractions,
and those that not every x86-64 has. With --check the table in docs/KERNEL.md must be this one, and what the page says of the stack
below it name every call that takes more than DEEP bytes; with --write the table becomes this one. With --jumps it says which calls
come to a jump through a register, and in which functions. ARCHIVE is target/libheathcinder.a by default; it takes objdump and size
(binutils)."""
import re
import subprocess
import sys
from pathlib import Path

ROOT = Path(__file__).resolve().parent.parent
PAGE = ROOT / "docs" / "KERNEL.md"
BEGIN, END = "<!-- stack: made by tests/stack.py -->\n", "<!-- /stack -->\n"
# Nine frames for a macro, whose blocks are at most eight repeats deep.
RECURSIVE = {"macro_check::check_block": 9}
# Jumps by a table of constants, without 'notrack': where indirect branch tracking is on, the processor stops at them.
JUMPING = {"server_check::last_queued", "soundness::is_sound", "links::Table::start", "hc_cancel", "hc_delete", "hc_reset", "hc_serve",
           "macros::step_value", "hc_recording_replay", "hc_fire_after_seconds"}
# The calls that take a number of seconds, and tell by a comparison with itself whether it is one.
COMPARING = {"hc_seconds_to_ticks", "hc_fire_after_seconds", "delay::seconds_to_ticks", "delayed::fire_after_delay"}
ADDRESS = 8
DEEP = 4096
UNUSED = re.compile(
    r"v|cvt|(add|sub|mul|div|sqrt|min|max|cmp|u?comi|round)[sp][sd]$|(popcnt|lzcnt|tzcnt|ldmxcsr|stmxcsr|endbr64)$"
    # of SSE3 to SSE4.2 and what came with them and after, which the first x86-64 has not
    r"|(fisttp\w*|movbe|pclmul\w*|aes\w+|sha(1|256)\w+|andn|bextr|bls(i|r|msk)|bzhi|mulx|pdep|pext|rorx|s[ahl][lr]x|ad[co]x)$"
    r"|(addsub|hadd|hsub|dp|blendv?)p[sd]$|(lddqu|movddup|movs[hl]dup|movntdqa|cmpxchg16b|[ls]ahf|crc32[bwlq]?)$"
    r"|(pabs[bwd]|palignr|ph(add|sub)(d|s?w)|pmaddubsw|pmulhrsw|pshufb|psign[bwd]|pblend(vb|w)|pcmp(eqq|gtq|[ei]str[im]))$"
    r"|((extract|insert)ps|p(extr|insr)[bdq]|phminposuw|mpsadbw|packusdw|pm(ax|in)(s[bd]|u[dw])|pmov[sz]x..|pmul(dq|ld)|ptest)$")


def fail(why):
    sys.exit("FAILED stack: " + why)


def output(*command):
    return subprocess.run(command, stdout=subprocess.PIPE, text=True, check=True).stdout


class Function:
    """Its own frame in bytes, the deepest byte below the stack pointer that it touches, whom it calls with the frame at that
    point, which SSE registers it uses, and whether it jumps through a register."""

    def __init__(self, name, code):
        self.name, self.code = name, code
        self.frame = self.below = 0
        self.calls = {}
        self.sse = set()
        frames = self.follow({}, 0, 0)
        jumps = [place for place, (at, rest, _) in enumerate(code) if at == "jmp" and rest.startswith("*")]
        # one of them may lead to another
        switch = next((frames[place] for place in jumps if place in frames), None)
        self.jumps = switch is not None
        # what a jump by a table leads to has no jump of its own: it follows one that always jumps, or a return
        for place in range(1, len(code)):
            if place not in frames and not code[place][0].startswith(("nop", "cs", "data16", "xchg", "int3")):
                if switch is None:
                    fail("%s: nothing leads to %s %s" % (name, code[place][0], code[place][1]))
                self.follow(frames, place, switch)
        for place in jumps:
            if frames[place] != switch:
                fail("%s: jumps from two frames" % name)

    def follow(self, frames, place, frame):
        """The frame before each instruction that can be reached from this one."""
        todo = [(place, frame)]
        while todo:
            place, frame = todo.pop()
            if place in frames:
                if frames[place] != frame:
                    fail("%s: two frames at %s %s" % (self.name, self.code[place][0], self.code[place][1]))
                continue
            frames[place] = frame
            at, rest, target = self.code[place]
            frame = self.step(at, rest, target, frame)
            if isinstance(target, int) and at.startswith("j"):
                todo.append((target, frame))
            if at not in ("jmp", "ret", "ud2"):
                todo.append((place + 1, frame))
        return frames

    def step(self, at, rest, target, frame):
        """The frame after an instruction; notes what it does."""
        if at == "push":
            frame += 8
        elif at == "pop":
            frame -= 8
        elif at in ("sub", "add") and rest.endswith(",%rsp"):
            amount = re.match(r"\$(-?0x[0-9a-f]+),%rsp", rest)
            if not amount:
                fail("%s moves the stack pointer by %s" % (self.name, rest))
            frame += int(amount[1], 16) * (1 if at == "sub" else -1)
        elif rest.endswith(",%rsp") and not at.startswith(("cmp", "test")):
            fail("%s: %s %s" % (self.name, at, rest))
        elif at == "call" and rest.startswith("*"):
            fail("%s calls through a register" % self.name)
        if UNUSED.match(at) and not (at == "ucomisd" and self.name in COMPARING):
            fail("%s: %s, which docs/KERNEL.md says is not used" % (self.name, at))
        if isinstance(target, str):
            depth = frame + ADDRESS if at == "call" else frame
            self.calls[target] = max(self.calls.get(target, 0), depth)
        for offset in re.findall(r"-(0x[0-9a-f]+)\(%rsp[,)]", rest):
            self.below = max(self.below, int(offset, 16))
        self.frame = max(self.frame, frame)
        self.sse |= set(re.findall(r"%([xyz]mm\d+|mm\d|st)", rest))
        return frame


def resolve(functions):
    """Turns the names of those whom a function calls into keys: an object's own function of the name comes before another's."""
    objects = {name: file for file, name in functions}
    for (file, _), function in functions.items():
        function.calls = {(file if (file, callee) in functions else objects.get(callee), callee): frame
                          for callee, frame in function.calls.items()}


def read(archive):
    """The functions of an archive, by object and name: each object may have its own of a name. An instruction is its name, its
    operands, and where it jumps to: a place in its function, or the name of another."""
    functions, code, places, name, file = {}, [], {}, None, None

    def done():
        if name is not None:
            functions[file, name] = Function(name, [
                (at, rest, places[target] if isinstance(target, int) else target) for at, rest, target in code])

    for line in output("objdump", "-dr", "--no-show-raw-insn", "-M", "att", archive).splitlines():
        opens = re.match(r"(\S+):\s+file format ", line)
        begins = re.match(r"[0-9a-f]+ <(.*)>:$", line)
        relocation = re.match(r"\s+[0-9a-f]+: R_X86_64_(\w+)\s+(\S+)", line)
        instruction = re.match(r"\s+([0-9a-f]+):\s+(\S+)\s*(.*)", line)
        if opens:
            done()
            name, file = None, opens[1]
        elif begins:
            done()
            name, code, places = begins[1], [], {}
        elif relocation and code and (code[-1][0] == "call" or code[-1][0].startswith("j")):
            callee = re.sub(r"[-+]0x[0-9a-f]+$", "", relocation[2]).removeprefix(".text.")
            code[-1] = code[-1][:2] + (callee,)
        elif instruction and not relocation:
            at, rest, target = instruction[2], instruction[3], None
            jump = re.match(r"([0-9a-f]+) <(.*)>", rest)
            if jump and at == "call":
                target = jump[2]
            elif jump and at.startswith("j"):
                target = int(jump[1], 16)
            places[int(instruction[1], 16)] = len(code)
            code.append((at, rest, target))
    done()
    resolve(functions)
    return functions


def below(functions, key, found):
    """The functions that one calls, and those that they call, added to the set."""
    for callee in functions[key].calls:
        if callee in functions and callee not in found:
            found.add(callee)
            below(functions, callee, found)
    return found


def reach(functions, key):
    """Bytes of stack below a function's return address, whether the red zone is used, which SSE registers are, and what is
    called from elsewhere."""
    if key not in functions:
        return 0, False, set(), {key[1]}
    cycle = {other for other in below(functions, key, set()) if key in below(functions, other, set())}
    if {name for _, name in cycle} - RECURSIVE.keys():
        fail("%s is in a cycle of calls" % key[1])
    depth, step, red, sse, others = 0, 0, False, set(), set()
    for member in cycle | {key}:
        function = functions[member]
        depth, red, sse = max(depth, function.frame + function.below), red or function.below > 0, sse | function.sse
        for callee, frame in function.calls.items():
            if callee in cycle:
                step = max(step, frame)
                continue
            deeper, callee_red, callee_sse, callee_others = reach(functions, callee)
            depth, red, sse, others = max(depth, frame + deeper), red or callee_red, sse | callee_sse, others | callee_others
    return depth + step * (RECURSIVE.get(key[1], 1) - 1), red, sse, others


def public(functions):
    """The calls of the library: their names and keys, by name."""
    return sorted((name, (file, name)) for file, name in functions if name.startswith("hc_"))


def check_jumps(functions):
    for name in sorted(JUMPING ^ {name for (_, name), function in functions.items() if function.jumps}):
        fail("%s jumps through a register, or does no longer: put that into JUMPING, and read docs/KERNEL.md again" % name)


def jumps(archive):
    functions = read(archive)
    for name, key in public(functions):
        jumping = {other[1] for other in below(functions, key, {key}) if functions[other].jumps}
        yield "%s: %s\n" % (name, ", ".join(sorted(jumping)) or "none")


def check_data(archive):
    for name, size in re.findall(r"^\s+\d+ \.(\S+)\s+([0-9a-f]+).*$", output("objdump", "-h", archive), re.M):
        if re.match(r"(data|bss|tdata|tbss)(?!\.rel\.ro)", name) and int(size, 16) > 0:
            fail("the archive has writable data: .%s" % name)


def table(archive):
    functions = read(archive)
    check_jumps(functions)
    yield "| Call | Stack, bytes | Red zone | SSE registers | Needs |\n|---|---|---|---|---|\n"
    for name, key in public(functions):
        depth, red, sse, others = reach(functions, key)
        yield "| `%s` | %d | %s | %s | %s |\n" % (
            name, depth + ADDRESS, "yes" if red else "no", ", ".join(sorted(sse)) or "none",
            ", ".join("`%s`" % other for other in sorted(others)) or "nothing")
    sizes = [int(row.split()[0]) for row in output("size", archive).splitlines()[1:]]
    yield "\nAll objects together have {:,} bytes of code and constants.\n".format(sum(sizes))


def check_deep(made, after):
    """The page's item on the stack, in what follows the table, names every deep call."""
    item = re.search(r"^- \*\*Stack\.\*\*.*\n(?:  .*\n)*", after, re.M)
    for name, depth in re.findall(r"^\| `(hc_\w+)` \| (\d+) \|", made, re.M):
        if int(depth) > DEEP and not (item and "`%s`" % name in item[0]):
            fail("docs/KERNEL.md does not say that %s takes %s bytes of stack" % (name, depth))


def main():
    options = [word for word in sys.argv[1:] if word.startswith("-")]
    words = [word for word in sys.argv[1:] if not word.startswith("-")]
    archive = words[0] if words else ROOT / "target" / "libheathcinder.a"
    if options == ["--jumps"]:
        print("".join(jumps(archive)), end="")
        return
    check_data(archive)
    made = "".join(table(archive))
    if not options:
        print(made, end="")
        return
    before, _, rest = PAGE.read_text().partition(BEGIN)
    stands, _, after = rest.partition(END)
    if options == ["--write"]:
        PAGE.write_text(before + BEGIN + made + END + after)
    elif stands != made:
        fail("docs/KERNEL.md has another table: python3 tests/stack.py --write, and read the page again")
    else:
        check_deep(made, after)
        print("stack: docs/KERNEL.md has what %d calls take" % made.count("| `hc_"))


if __name__ == "__main__":
    main()
