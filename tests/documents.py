#!/usr/bin/env python3
"""Checks the documents against what they speak of:

    python3 tests/documents.py [FOLDER]

With a folder, one of installed pages, only the links of those. Else:
- Every relative link of a Markdown file leads to a file or folder, and one with '#' to a heading there.
- Every path in backquotes that begins with a folder of the repository is there; '*' stands for any name. But in the notes of
  changes, which tell what was, so is what is named of a crate: a path below it, as `model/specs/Kinds`, or `specs/Kinds` of any; a
  edit in must-fail or edits, as `model/ahead_of_equals`; an item of its code, as `slots::find`.
- The rows of a table have as many cells as its first one.
- README.md's table of calls has every call of include/heathcinder.h, each with the statuses that its comment there names, in that
  order; before them 100 where it is a call on a table, and 4 where it is one of a party, behind 101, and once where the id's is the
  next; docs/RULES.md's table of rules has the same of the calls on a table. Macros take a table too, but give statuses of their own.
- README.md and docs/KERNEL.md have a row for every status, docs/RTEMS.md names every call with a table.
- docs/RULES.md: a name in backquotes as `Sound.header_tests` is that of a definition in Sound.antt of a crate. In
  docs/ARCHITECTURE.md and docs/DECISIONS.md it may be a field of a record too, as `Standing.clock`.
- Blocks of code that are marked behind the language's name. Those of one document share a folder, in which the repository's
  folders are to be found too:
      file=NAME    is written to NAME there
      run          is run there, by sh
      prints       is what the last such block printed
      is=PATH      is the content of that file of the repository
      part         is compiled: all parts of a document together, as one function's body, behind the document's comment
                   '<!-- parts: .. -->', which says what the reader's own is
- README.md names the toolchain that is there, where one is.
The first line that does not hold ends the run with a status that is not 0."""
import re
import shutil
import subprocess
import sys
import tempfile
from pathlib import Path

ROOT = Path(__file__).resolve().parent.parent
FOLDERS = sorted(path.name for path in ROOT.iterdir() if path.is_dir() and not path.name.startswith("."))
CRATES = sorted(path.name for path in (ROOT / "crates").iterdir())
BLOCK = re.compile(r"^```([^\n]*)\n(.*?)^```$", re.M | re.S)


def fail(page, why):
    sys.exit("FAILED documents: %s: %s" % (page.relative_to(ROOT) if page.is_relative_to(ROOT) else page, why))


def pages(folder=ROOT):
    return sorted(path for path in folder.rglob("*.md") if "target" not in path.relative_to(folder).parts)


# ---- Links and paths

def anchors(page):
    """The names by which a page's headings are linked to."""
    for heading in re.findall(r"^#+ (.*)$", BLOCK.sub("", page.read_text()), re.M):
        yield re.sub(r"[^\w\- ]", "", heading.lower()).replace(" ", "-")


def check_links(page):
    text = re.sub(r"`[^`\n]*`", "", BLOCK.sub("", page.read_text()))
    links = re.findall(r"\]\(([^)\s]+)\)", text) + re.findall(r'(?:src|srcset|href)="([^"]+)"', text)
    for link in links:
        if re.match(r"[a-z]+:", link):
            continue
        path, _, anchor = link.partition("#")
        target = (page.parent / path).resolve() if path else page
        if not target.exists():
            fail(page, "the link %s leads nowhere" % link)
        if anchor and anchor not in anchors(target):
            fail(page, "the link %s leads to no heading" % link)
    return len(links)


def check_paths(page):
    """Paths that are there only when something was made (target/, out/), or named by a pattern in capitals, are left out."""
    for path in re.findall(r"`((?:%s)/[\w./*-]+)`" % "|".join(FOLDERS), BLOCK.sub("", page.read_text())):
        if path.startswith("target/") or "/out/" in path or re.search(r"/[A-Z]+(/|\.|$)", path) and not (ROOT / path).exists():
            continue
        if not any(ROOT.glob(path.rstrip("/"))) and not any(ROOT.glob(path + ".antt")):
            fail(page, "there is no %s" % path)


def check_crates(page):
    text = BLOCK.sub("", page.read_text())
    crates, count = "|".join(CRATES), 0
    for crate, path in re.findall(r"`(?:(%s)/|(?=specs/|proofs/))([\w./*-]+)`" % crates, text):
        below = "crates/%s/" % (crate or "*")
        if not any(any(ROOT.glob(below + form % path.rstrip("/"))) for form in ("%s", "%s.antt", "must-fail/%s.edit", "edits/%s.edit")):
            fail(page, "there is no %s" % (below + path))
        count += 1
    for crate, name in re.findall(r"`(%s)::(\w+)`" % crates, text):
        code = "".join(source.read_text() for source in (ROOT / "crates" / crate / "src").glob("*.rt"))
        if not re.search(r"^(?:pub )?(?:fn|struct|enum|const) %s\b" % name, code, re.M):
            fail(page, "there is no %s::%s" % (crate, name))
        count += 1
    return count


def check_tables(page):
    cells = 0
    for line in BLOCK.sub("", page.read_text()).splitlines():
        bars = len(re.findall(r"(?<!\\)\|", line)) if line.startswith("|") else 0
        if bars and (cells not in (0, bars) or not line.endswith("|")):
            fail(page, "a row has other cells than its table: %s" % line)
        cells = bars


# ---- The calls and their statuses

HEADER = (ROOT / "include" / "heathcinder.h").read_text()


def header_statuses():
    return [(number, name) for name, number in re.findall(r"^#define (HC_\w+) (\d+)u +/\*", HEADER, re.M)]


def with_party(statuses):
    """The statuses of a call on a table, with that of a number that is no party's: right after 100 and 101."""
    place = statuses.index("101") + 1 if "101" in statuses else 1
    return statuses if statuses[place:place + 1] == ["4"] else statuses[:place] + ["4"] + statuses[place:]


def header_calls():
    """For each call of the header: whether it is one on a table, and its statuses."""
    numbers = {name: number for number, name in header_statuses()}
    for comment, call, arguments in re.findall(r"/\*((?:(?!\*/).)*)\*/\nuint32_t (hc_\w+)\(([^)]*)\);", HEADER, re.S):
        statuses = [numbers[name] for name in re.findall(r"(?:^|[.] |\n \* )(HC_[A-Z_]+):", comment)]
        on_table = re.match(r"(const )?uint32_t \*table, size_t words,?( uint32_t party)?", arguments)
        on_table = None if call.startswith("hc_macro_") else on_table
        if on_table and call != "hc_lay_out" and statuses[:1] != ["100"]:
            statuses = ["100"] + statuses
        yield call, bool(on_table), with_party(statuses) if on_table and on_table[2] else statuses


def expect_rows(page, rows, calls):
    for call, statuses in calls.items():
        if call not in rows:
            fail(page, "no row for %s" % call)
        if rows.pop(call) != statuses:
            fail(page, "%s has other statuses in the header: %s" % (call, ", ".join(statuses)))
    if rows:
        fail(page, "no such calls: %s" % ", ".join(rows))


def check_calls():
    calls, on_table = {}, {}
    for call, has_table, statuses in header_calls():
        calls[call] = statuses
        if has_table:
            on_table[call] = statuses

    page, rows = ROOT / "README.md", {}
    for call, _, statuses in re.findall(r"^\| `(hc_\w+)` \| (.*) \| (.*) \|$", page.read_text(), re.M):
        rows[call] = re.findall(r"\d+", statuses)
    expect_rows(page, rows, calls)

    page, rows = ROOT / "docs" / "RULES.md", {}
    rules = re.search(r"^\| Call \| Rules.*\n.*\n((?:\|.*\n)+)", page.read_text(), re.M)[1]
    for names, tests in re.findall(r"^\| (.*) \| (.*) \|$", rules, re.M):
        for name in names.split(", "):
            rows["hc_" + name.replace(" ", "_")] = [test.split()[0] for test in tests.split("; ")]
    expect_rows(page, rows, on_table)

    page = ROOT / "docs" / "RTEMS.md"
    for call in on_table:
        if "| `%s` |" % call not in page.read_text():
            fail(page, "no row for %s" % call)


def check_statuses():
    for number, name in header_statuses():
        for page, row in (ROOT / "README.md", "| %s | `%s` |"), (ROOT / "docs" / "KERNEL.md", "| %s `%s` |"):
            if row % (number, name) not in page.read_text():
                fail(page, "no row for %s" % name)


# ---- Definitions

def records(name):
    """The records of this name, each with its fields."""
    for path in (ROOT / "crates").glob("*/specs/*.antt"):
        yield from re.findall(r"^pub record %s\b.*\n(?: .*\n)*" % name, path.read_text(), re.M)


def check_definitions(page, fields):
    count = 0
    for module, name in re.findall(r"`([A-Z]\w*)\.(?!antt`)([\w-]+)`", page.read_text()):
        places = [path.read_text() for path in (ROOT / "crates").glob("*/*/%s.antt" % module)]
        places += records(module) if fields else []
        if not any(re.search(r"^\s*(?:\w+ )*%s(?: [({].*)? :" % re.escape(name), text, re.M) for text in places):
            fail(page, "no definition %s.%s" % (module, name))
        count += 1
    return count


# ---- Blocks

def blocks(page):
    """Language, mark and text of each block that is marked."""
    for info, text in BLOCK.findall(page.read_text()):
        words = info.split()
        if len(words) > 1:
            yield words[0], words[1], text


def run_blocks(page, folder):
    for name in FOLDERS:
        (folder / name).symlink_to(ROOT / name)
    printed, count = None, 0
    for language, mark, text in blocks(page):
        count += 1
        if mark.startswith("file="):
            (folder / mark[5:]).write_text(text)
        elif mark == "run":
            ran = subprocess.run(["sh", "-e", "-c", text], cwd=folder, stdout=subprocess.PIPE, stderr=subprocess.STDOUT, text=True)
            printed = ran.stdout
            if ran.returncode != 0:
                fail(page, "status %d of %s%s" % (ran.returncode, text, printed))
        elif mark == "prints":
            if text != printed:
                fail(page, "what is printed is not\n%sbut\n%s" % (text, printed))
        elif mark.startswith("is="):
            if text != (ROOT / mark[3:]).read_text():
                fail(page, "a block is not %s" % mark[3:])
        elif mark != "part":
            fail(page, "no such mark: %s" % mark)
    return count


def compile_parts(page, folder):
    parts = [text for language, mark, text in blocks(page) if mark == "part"]
    if not parts:
        return
    prelude = re.search(r"<!-- parts:\n(.*?)-->", page.read_text(), re.S)
    source = folder / "parts.c"
    source.write_text("%svoid parts(void);\nvoid parts(void)\n{\n%s}\n" % (prelude[1] if prelude else "", "".join(parts)))
    gcc = ["gcc", "-std=c99", "-Wall", "-Wextra", "-Werror", "-I", ROOT / "include", "-c", source, "-o", folder / "parts.o"]
    ran = subprocess.run(gcc, stdout=subprocess.PIPE, stderr=subprocess.STDOUT, text=True)
    if ran.returncode != 0:
        fail(page, "its parts do not compile:\n%s" % ran.stdout)


def check_toolchain():
    page = ROOT / "README.md"
    if shutil.which("rt"):
        version = subprocess.run(["rt", "version"], stdout=subprocess.PIPE, text=True).stdout.strip()
        if "`%s`" % version not in page.read_text():
            fail(page, "the toolchain is %s" % version)


def main():
    if len(sys.argv) > 1:
        print("documents: %d links lead somewhere" % sum(check_links(page) for page in pages(Path(sys.argv[1]).resolve())))
        return
    links = marked = crates = 0
    for page in pages():
        links += check_links(page)
        check_paths(page)
        check_tables(page)
        crates += 0 if page.parent.name == "changes" else check_crates(page)
    check_calls()
    check_statuses()
    definitions = check_definitions(ROOT / "docs" / "RULES.md", fields=False)
    for name in "ARCHITECTURE.md", "DECISIONS.md":
        definitions += check_definitions(ROOT / "docs" / name, fields=True)
    check_toolchain()
    for page in pages():
        with tempfile.TemporaryDirectory() as folder:
            marked += run_blocks(page, Path(folder))
            compile_parts(page, Path(folder))
    print("documents: %d links, %d names of crates, %d definitions and %d blocks as they should be" %
          (links, crates, definitions, marked))


if __name__ == "__main__":
    main()
