#!/usr/bin/env python3
"""Writes the page of wrong answers, from the edits and from what the prover said of each in the last `tests/edits.py --every`:

    python3 tests/wrong_answers.py > docs/wrong-answers.md

An edit's first line names the contract or the definition, a colon, and what is wrong. A public function that fewer than two
edits name is an error. With --check nothing is written: the page must list these edits, and each have a report."""
import re
import sys
from pathlib import Path

from edits import UNKNOWN_NAME

ROOT = Path(__file__).resolve().parent.parent
PAGE = ROOT / "docs" / "wrong-answers.md"
HEAD = """# Wrong answers

Each row is an edit of the code or of a definition (`crates/CRATE/must-fail/EDIT.edit` or `crates/CRATE/edits/EDIT.edit`) that gives a wrong answer. The
gate tries every one, and the prover refuses it: at the goals of a function, or at the theorems of a file. What is refused only because it cites
something refused is left out. Every public function has two wrong answers or more; `demand`, `isolation` and `order` have no function, and
their edits are of definitions, as are most of those of `model`.
"""


def fail(why):
    sys.exit("wrong_answers: " + why)


def crates():
    for line in (ROOT / "crates.txt").read_text().splitlines():
        yield line.split(":")[0].split()[0]


def edits(crate):
    """Name, what it is of, what is wrong, for each edit of a crate: of those that `rt ci` tries and of those that tests/edits.py does."""
    paths = [*(ROOT / "crates" / crate / "must-fail").glob("*.edit"), *(ROOT / "crates" / crate / "edits").glob("*.edit")]
    for name in {path.stem for path in paths if sum(path.stem == other.stem for other in paths) > 1}:
        fail("%s has two edits named %s" % (crate, name))
    for path in sorted(paths):
        named = re.match(r"# ([^:]+): (.+)\n", path.read_text())
        if not named:
            fail("%s does not begin with '# CONTRACT: WHAT IS WRONG'" % path)
        yield path.stem, named[1], named[2]


def public_functions(crate):
    """Those that are `pub`, and those of a trait that a type of a library implements, as `from`: these are called by whoever has the type."""
    for source in sorted((ROOT / "crates" / crate / "src").rglob("*.rt")):
        text = source.read_text()
        yield from re.findall(r'^ *pub (?:extern "C" )?fn (\w+)', text, re.M)
        if source.name != "main.rt":
            for body in re.findall(r"^impl(?:<[^>]*>)? [^{\n]+ for [^{\n]+ \{\n(.*?)\n\}\n", text, re.M | re.S):
                yield from re.findall(r"^    fn (\w+)", body, re.M)


def report(crate, edit):
    """What the prover said of an edit."""
    log = ROOT / "target" / "edits" / crate / (edit + ".log")
    if not log.exists():
        fail("no report on %s/%s: run tests/edits.py --every first" % (crate, edit))
    return log.read_text()


def places(crate, edit):
    """Where the prover refused an edit, in the order of its report."""
    found = {}
    for line in report(crate, edit).splitlines():
        error = re.search(r"/(?:proofs|specs)/([^: ]+)\.antt:\d+:\d+: error: `([^`]+)`: (.*)", line)
        # a goal that the edit takes away shows nothing
        if error and not UNKNOWN_NAME.search(error[3]):
            found.setdefault(re.sub("/(Answers|Invariants|Proof)$", "", error[1]), {})[error[2]] = None
        # a function with no proof of its own, whose needs the prover finds by itself
        needs = re.match(r"fn \w+::(\S+): no proof: .*`search` did not prove (.*)", line)
        if needs:
            found.setdefault(needs[1].replace("::", "/"), {}).update(dict.fromkeys(re.findall("`([^`]+)`", needs[2])))
    return "; ".join("%s: %s" % (file, ", ".join("`%s`" % name for name in names)) for file, names in found.items())


def rows(crate):
    listed = list(edits(crate))
    for function in public_functions(crate):
        count = sum(function in of.split(", ") for _, of, _ in listed)
        if count < 2:
            fail("%d edits of %s name %s" % (count, crate, function))
    for name, of, wrong in sorted(listed, key=lambda row: (row[1], row[0])):
        yield "| %s | %s | `%s` |" % (of, wrong, name), name


def page():
    lines = [HEAD]
    for crate in crates():
        table = list(rows(crate))
        if table:
            lines += ["## %s\n" % crate, "| Of | Wrong answer | Edit | Refused at |\n|---|---|---|---|"]
            lines += ["%s %s |" % (row, places(crate, name)) for row, name in table]
            lines.append("")
    return "\n".join(lines)


def check():
    """The page has a row for every edit, and no other."""
    listed = set(re.findall(r"^(\|.*\| `\w+` \|) ", PAGE.read_text(), re.M))
    made = {row for crate in crates() for row, _ in rows(crate)}
    for crate in crates():
        for name, _, _ in edits(crate):
            report(crate, name)
    for row in sorted(listed ^ made):
        fail("%s %s: %s" % (PAGE.relative_to(ROOT), "lacks" if row in made else "has, and there is none", row))


if __name__ == "__main__":
    if sys.argv[1:] == ["--check"]:
        check()
    else:
        sys.stdout.write(page())
