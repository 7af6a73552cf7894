#!/usr/bin/env python3
"""Tests tools/macro: what it says of scripts that break each rule, round trips of random macros and libraries, and its verdict
and its entries beside the library's hc_macro_check and hc_macro_find.

    tests/macro_tool.py SEED MACROS LIBRARY

LIBRARY is an archive, which the example is linked with. The first difference ends the run with one line and a status that is
not 0."""
import contextlib
import ctypes
import importlib.machinery
import importlib.util
import io
import os
import random
import subprocess
import sys
import tempfile
from pathlib import Path

sys.dont_write_bytecode = True
ROOT = Path(__file__).resolve().parent.parent
sys.path.insert(0, str(ROOT / "tools"))
import heathcinder  # noqa: E402

TOOL = ROOT / "tools" / "macro"
loader = importlib.machinery.SourceFileLoader("macro", str(TOOL))
macro = importlib.util.module_from_spec(importlib.util.spec_from_loader("macro", loader))
loader.exec_module(macro)

FORMS = {"arm": "arm 0x12010001 4 8 0", "cancel": "cancel 0x12010001", "wait": "wait 0x12010001", "check": "check",
         "repeat": "repeat 2", "end": "end", "sign": "sign"}


def fail(text, *arguments):
    print("FAILED macro_tool: " + text % arguments)
    sys.exit(1)


def tool(folder, *arguments, script=None, words=None):
    """Status, standard output and standard error of the tool, with a file of this content as the last argument."""
    path = Path(folder) / "file"
    if script is not None:
        path.write_text(script)
        arguments += (path,)
    if words is not None:
        path.write_bytes(macro.bytes_of(words) if isinstance(words, list) else words)
        arguments += (path,)
    out, error = io.TextIOWrapper(io.BytesIO()), io.StringIO()
    with contextlib.redirect_stdout(out), contextlib.redirect_stderr(error):
        status = macro.TOOL.run([str(argument) for argument in arguments])
    out.flush()
    return status, out.buffer.getvalue(), error.getvalue().replace(str(path), "FILE")


def expect(what, expected, came):
    if expected != came:
        fail("%s: expected %r, came %r", what, expected, came)


# ---- What is said of scripts

# A script, the status of check, and what it says of it without 'macro: FILE' and the ', ' behind that.
NO_SIGN = "note: no sign: it can never sign"
SCRIPTS = [
    ("sign", 0, []),
    ("  sign  # a comment", 0, []),
    ("# nothing\n", 1, ["line 1: no step: a macro has 1 to 256"]),
    ("check\n" * 255 + "sign", 0, []),
    ("check\n" * 256, 0, [NO_SIGN]),
    ("check\n" * 257, 1, ["line 257: 257 steps: a macro has 1 to 256"]),
    ("repeat 1\n" * 8 + "end\n" * 8 + "sign", 0, []),
    ("repeat 1\n" * 9 + "end\n" * 9, 1, ["line 9: 9 repeats deep: at most 8"]),
    ("repeat 0\nend", 1, ["line 1: repeat 0 times: it must be 1 to 100"]),
    ("repeat 100\nsign\nend", 0, []),
    ("repeat 101\nend", 1, ["line 1: repeat 101 times: it must be 1 to 100"]),
    ("repeat 2\nend\nend", 1, ["line 3: end without a repeat"]),
    ("repeat 2\n\nrepeat 3\nend", 1, ["line 1: repeat without an end"]),
    ("arm 1 2 3 4", 1, ["line 1: arm is not followed at once by a check"]),
    ("cancel 1\nsign", 1, ["line 1: cancel is not followed at once by a check"]),
    ("repeat 2\narm 1 2 3 4\nend\ncheck", 1, ["line 2: arm is not followed at once by a check"]),
    ("step 8 0 0 0 0", 1, ["line 1: kind 8 is none: kinds are 1 to 7"]),
    ("step 0 0 0 0 0", 1, ["line 1: kind 0 is none: kinds are 1 to 7"]),
    ("step 7 0 0 5 0", 1, ["line 1: word 3 of sign must be 0, and is 5"]),
    ("arm 1 0 3 4\ncheck\nsign", 0, ["line 1: note: an arm with ticks 0 has its form, but is refused with status 10 when it runs"]),
    ("arm 1 2 0 4\ncheck\nsign", 0, ["line 1: note: an arm with routine 0 has its form, but is refused with status 9 when it runs"]),
    ("arm 1 0 3 4\nsign", 1, ["line 1: arm is not followed at once by a check",
                              "line 1: note: an arm with ticks 0 has its form, but is refused with status 10 when it runs"]),
    ("arm 1 2 0 4\ncheck", 0, [NO_SIGN, "line 1: note: an arm with routine 0 has its form, but is refused with status 9 when it runs"]),
    ("macro 1\nsign\n\nmacro 2\ncheck", 0, ["line 4: " + NO_SIGN]),
    ("let a 0xffffffff\nwait a\nsign", 0, []),
    ("wait 4294967296", 2, ["line 1: 4294967296 does not fit 32 bits"]),
    ("wait 0x100000000", 2, ["line 1: 0x100000000 does not fit 32 bits"]),
    ("wait " + "9" * 5000, 2, ["line 1: %s does not fit 32 bits" % ("9" * 5000)]),
    ("wait 0000000000000001\nwait 0X0000000001\nsign", 0, []),
    ("wait -1", 2, ["line 1: '-1' is neither a number nor a label"]),
    ("wait guard", 2, ["line 1: 'guard' is neither a number nor a label"]),
    ("let guard 1\nlet guard 2", 2, ["line 2: 'guard' has a number already"]),
    ("let 1 2", 2, ["line 1: let takes LABEL NUMBER, the label of letters, digits and _"]),
    ("let guard", 2, ["line 1: let takes LABEL NUMBER, the label of letters, digits and _"]),
    ("\nstart 1", 2, ["line 2: 'start' is no step"]),
    ("arm 1 2 3", 2, ["line 1: arm takes ID TICKS ROUTINE DATA"]),
    ("check 1", 2, ["line 1: check takes no number"]),
    ("step 4 0 0 0", 2, ["line 1: step takes KIND A B C D"]),
    ("macro 1\nsign\nmacro 'MAP1'\n  sign", 0, []),
    ("macro 1\nsign\nmacro 2\nmacro 3\nend", 1, ["line 3: no step: a macro has 1 to 256", "line 5: end without a repeat"]),
    ("macro 1\nsign\n\nmacro 1\nsign", 0,
     ["line 4: note: 0x00000001 is the name of the macro at line 1, so this one is never found"]),
    ("sign\nmacro 1", 2, ["line 2: steps stand before the first macro's name"]),
    ("macro 'A#B1'  # a comment, and 'one' more\nsign # 'MAP1'\nmacro 0x41234231", 1,
     ["line 3: no step: a macro has 1 to 256", "line 3: note: 0x41234231 is the name of the macro at line 1, so this one is never found"]),
    ("macro 1 2", 2, ["line 1: macro takes NAME"]),
    ("macro 'MAP'", 2, ["line 1: ''MAP'' is neither a number nor a label; four characters stand in single quotes"]),
    ("macro MAP1", 2, ["line 1: 'MAP1' is neither a number nor a label; four characters stand in single quotes"]),
    ("macro 4294967296", 2, ["line 1: 4294967296 does not fit 32 bits"]),
    ("macro 'A B1'\nsign", 0, []),
]

# Scripts of a wait and a sign: what ends a line, what does not, and a mark before the first.
WAIT_AND_SIGN = ["wait 1%ssign" % end for end in ("\n", "\r", "\r\n")] + ["\ufeffwait 1\nsign"] + [
    "wait 1 # a%ssign\nsign" % mark for mark in ("\x0b", "\x0c", "\x1c", "\x85", "\u2028")]

# Words of a macro, and the status and the lines of check.
WORD_FILES = [
    ([7, 0, 0, 0, 0], 0, []),
    ([4, 0, 0, 0, 0], 0, [NO_SIGN]),
    ([], 1, ["place 0: no step: a macro has 1 to 256"]),
    ([4, 0, 0, 0, 0, 4, 0], 1, ["place 1: the last step has 2 of its 5 words"]),
    ([4, 0, 0, 0, 0, 1, 9, 1, 1, 1], 1, ["place 1: arm is not followed at once by a check"]),
]


def said_of(lines):
    return "".join("macro: FILE%s %s\n" % (":" if line == NO_SIGN else ",", line) for line in lines)


def said_of_scripts(folder):
    for script, status, lines in SCRIPTS:
        came = tool(folder, "check", script=script)
        said = said_of(lines)
        expect("check of %r" % script, (status, b"", said), came)
        came = tool(folder, "write", script=script)
        expect("write of %r" % script, (status, status == 0, said), (came[0], came[1] != b"", came[2]))
    for script in WAIT_AND_SIGN:
        expect("write of %r" % script, (0, macro.bytes_of([3, 1, 0, 0, 0, 7, 0, 0, 0, 0]), ""), tool(folder, "write", script=script))
    for words, status, lines in WORD_FILES:
        said = said_of(lines)
        expect("check of %r" % words, (status, b"", said), tool(folder, "check", words=words))


def usage(folder):
    done = subprocess.run([TOOL, "--help"], capture_output=True)
    expect("--help", (0, True, b""), (done.returncode, b"tools/macro write" in done.stdout, done.stderr))
    line = "usage: tools/macro {write,c,check,show,library,list} FILE; tools/macro --help says more\n"
    for arguments in [(), ("write",), ("paint", "x"), ("show", "a", "b"), ("show", "--all")]:
        expect("arguments %r" % (arguments,), (2, b"", line), tool(folder, *arguments))
    none = folder + "/none"
    expect("a file that is not there", (2, b"", "macro: %s: No such file or directory\n" % none), tool(folder, "show", none))
    done = subprocess.run([TOOL, "c", "-"], input=b"sign", capture_output=True)
    expect("standard input", (0, b"HC_MACRO_SIGN, 0, 0, 0, 0,\n", b""), (done.returncode, done.stdout, done.stderr))
    done = subprocess.run([TOOL, "check", "-"], input=b"end", capture_output=True)
    expect("standard input", (1, b"macro: standard input, line 1: end without a repeat\n"), (done.returncode, done.stderr))
    for command, content, why in [("show", b"\0\0\0\0\0\0", "6 bytes are no whole number of words"),
                                  ("show", b"\4" + bytes(27), "2 words after the last whole step"),
                                  ("list", b"check\n", "a script, not words"), ("write", bytes(20), "words, not a script"),
                                  ("c", b"\xff", "neither a script nor words")]:
        expect("%s of %r" % (command, content), (2, b"", "macro: FILE: %s\n" % why), tool(folder, command, words=content))


# ---- Libraries

LIBRARY = """let guard 0x12010001
macro 'MAP1'
    arm guard 4 8 0
    check
    sign
macro 7
    sign
"""


def library_files(folder):
    status, data, said = tool(folder, "write", script=LIBRARY)
    expect("write of a library", (0, ""), (status, said))
    words = macro.words_of("", data)
    expect("words of a library", [0x4d415031, 3, 1, 0x12010001, 4, 8, 0, 4, 0, 0, 0, 0, 7, 0, 0, 0, 0, 7, 1, 7, 0, 0, 0, 0],
           words)
    of_library = "macro: FILE: a library of 2 macros: tools/macro library shows it, tools/macro list says what is passed\n"
    for command in ("check", "show"):
        expect("%s of a library" % command, (2, b"", of_library), tool(folder, command, words=words))
    expect("check of a library whose second macro is not passed", (2, b"", of_library),
           tool(folder, "check", words=words[:-5] + [6, 0, 0, 0, 0]))
    expect("list", (0, b"'MAP1'       3 steps  passed\n0x00000007   1 step   passed\n", ""), tool(folder, "list", words=words))
    status, text, _ = tool(folder, "library", words=words)
    expect("a library again", (0, data), tool(folder, "write", script=text.decode())[:2])
    expect("list of a library cut short",
           (1, b"'MAP1'       3 steps  passed\n",
            "macro: FILE, word 17: the entry is not whole, and nothing is found from here on\n"),
           tool(folder, "list", words=words[:-1]))
    expect("a library cut short", (2, b"", "macro: FILE, word 17: the entry is not whole\n"),
           tool(folder, "library", words=words[:-1]))
    expect("list of macros that are not passed, and a name again",
           (1, b"0x00000001   0 steps  not passed, place 0: no step: a macro has 1 to 256\n"
               b"0x00000001   1 step   passed; never found, since the name stands above\n", ""),
           tool(folder, "list", words=[1, 0, 1, 1, 7, 0, 0, 0, 0]))


# Prints the words of the library in the example's source, and those of an array in C that the tool wrote, in a line each.
IN_C = """#define main example_main
#include "%s/examples/signed_write.c"
#undef main
static const uint32_t written[] = {
#include "words"
};
static void print(const uint32_t *words, size_t count)
{
    for (size_t i = 0; i < count; i++)
        printf("%%u ", (unsigned)words[i]);
    puts("");
}
int main(void)
{
    print(shared_library, LENGTH(shared_library));
    print(written, LENGTH(written));
    return 0;
}
"""


def words_in_c(folder, library):
    script, source, program = ROOT / "examples" / "shared.macros", Path(folder) / "words.c", Path(folder) / "program"
    source.write_text(IN_C % ROOT)
    (Path(folder) / "words").write_bytes(tool(folder, "c", script)[1])
    subprocess.run(["gcc", "-I", ROOT / "include", source, library, "-o", program], check=True)
    lines = subprocess.run([program], capture_output=True, check=True).stdout.splitlines()
    example, written = ([int(word) for word in line.split()] for line in lines)
    words = macro.words_of("", tool(folder, "write", script)[1])
    expect("examples/shared.macros in C", words, written)
    expect("'MAP1' of examples/shared.macros in examples/signed_write.c", words[:len(example)], example)


# ---- Random macros

def random_block(depth, room):
    """Lines of a block of at most so many steps."""
    lines = []
    while len(lines) < room and random.random() > 0.15:
        name = random.choice(["arm", "cancel", "wait", "check", "sign", "repeat", "repeat"])
        if name == "repeat" and depth < macro.MOST_DEPTH and room - len(lines) >= 2:
            lines += ["repeat %d" % random.randint(1, 100)] + random_block(depth + 1, room - len(lines) - 2) + ["end"]
        elif name in ("arm", "cancel") and room - len(lines) >= 2:
            lines += [FORMS[name], "check"]
        elif name in ("wait", "check", "sign"):
            lines.append(FORMS[name])
    return lines


def words_of_script(text):
    return [word for one in macro.read_script("script", text) for word in one.words]


def damaged(words):
    words = list(words)
    at = random.randrange(len(words)) if words else 0
    choice = random.randrange(6)
    if choice == 0:
        return words[:at] + words[at + random.choice([1, 5]):]
    if choice == 1:
        return words[:at] + [random.randrange(9)] + words[at:]
    if choice == 2:
        place = at // 5 * 5
        return words[:place] + [random.randrange(9), 0, 0, 0, 0] + words[place:]
    if words:
        words[at] = random.choice([0, 1, 4, 7, 8, 100, 101, words[at] + 1, random.randrange(1 << 32)]) % (1 << 32)
    return words


def same_again(words):
    """Words of whole steps, as a script and as words again."""
    text = "\n".join(macro.script_lines(words))
    again = words_of_script(text)
    expect("words of %r" % text, words, again)


def random_macros(count):
    passed = refused = 0
    for _ in range(count):
        lines = random_block(0, random.choice([3, 5, 8, 12, 20, 300 if random.random() < 0.1 else 40]))
        words = words_of_script("\n".join(lines))
        for words in (words, damaged(words)):
            broken = macro.breaches(words)
            status = heathcinder.library().hc_macro_check(lent(words), len(words))
            if status != (10 if broken else 0):
                fail("%r: the tool says %r, and hc_macro_check gives %d", words, broken, status)
            passed, refused = passed + (not broken), refused + bool(broken)
            if len(words) % macro.STEP_WORDS == 0:
                same_again(words)
    return passed, refused


def lent(words):
    return (ctypes.c_uint32 * max(len(words), 1))(*words)


def find(own, shared, name):
    """Which library, 0 for none, where in it, and how many words, by the library's look up."""
    offset, length = ctypes.c_size_t(), ctypes.c_size_t()
    which = heathcinder.library().hc_macro_find(lent(own), len(own), lent(shared), len(shared), name, ctypes.byref(offset),
                                                ctypes.byref(length))
    return which, offset.value, length.value


def find_by_entries(libraries, name):
    """The same by the tool's entries."""
    for which, words in enumerate(libraries, 1):
        at = 2
        for entry, steps in macro.entries(words)[0]:
            if entry == name:
                return which, at, len(steps)
            at += 2 + len(steps)
    return 0, 0, 0


def random_libraries(count):
    for _ in range(count):
        libraries = []
        for _ in range(2):
            words = []
            for _ in range(random.randrange(4)):
                steps = random.choice([0, 1, 2, 3])
                words += [random.randrange(4), steps] + [random.randrange(8) for _ in range(5 * steps)]
            libraries.append(words if random.random() < 0.5 else damaged(words))
        name = random.randrange(4)
        expect("find of %d in %r" % (name, libraries), find_by_entries(libraries, name), find(*libraries, name))


def main():
    if len(sys.argv) != 4:
        sys.exit(__doc__)
    seed, count = int(sys.argv[1]), int(sys.argv[2])
    os.environ["HEATHCINDER_LIBRARY"] = sys.argv[3]
    random.seed(seed)
    with tempfile.TemporaryDirectory() as folder:
        said_of_scripts(folder)
        usage(folder)
        library_files(folder)
        words_in_c(folder, sys.argv[3])
        passed, refused = random_macros(count)
        random_libraries(count // 4)
    if passed == 0 or refused == 0:
        fail("expected macros that pass and others, came %d and %d", passed, refused)
    print("macro_tool: seed %d, %d scripts; %d macros passed and %d refused as by the library; %d looked up"
          % (seed, len(SCRIPTS), passed, refused, count // 4))


main()
