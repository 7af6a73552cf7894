#!/usr/bin/env python3
"""Tries the wrong answers that `rt ci` does not: python3 tests/edits.py [--alone] [--every] [CRATE | CRATE/EDIT]..

The edits in crates/CRATE/edits have the form of those in crates/CRATE/must-fail, and the prover must refuse each. For an edit in
must-fail `rt ci` makes a check of its own, begun with what the crate's check proved. Here edits of the bodies of different functions are
tried in one check: what the prover asks of a function depends on its own body and on the contracts of those that it calls, not on their
bodies. So each must be refused at its own function, for another reason than that something it cites is refused; one that is not is tried
again by itself, as all are under --alone. With --every those in must-fail are tried too: `rt ci` keeps no report on them.

The tree must be proved by `rt all check`, whose libraries the checks here stand on (those of `rt ci` it keeps for itself). Edits are tried in
copies of it, as many at a time as there are cores and memory for. What the prover says of an edit stays in target/edits/CRATE/EDIT.log. An edit
that it does not refuse makes the run fail, as does one that it refuses only since a name is not there."""
import os
import queue
import re
import shutil
import subprocess
import sys
import tempfile
import threading
import time
from pathlib import Path

ROOT = Path(__file__).resolve().parent.parent
LOGS = ROOT / "target" / "edits"
CHECKS_AT_ONCE = 50  # checks of one crate that one worker takes
CHECKS_TO_PREPARE = 10  # from so many on, the crate is checked as it is first, and each check goes on from there
PARTS = "src", "specs", "proofs"
# How the prover says that it refuses something only since it cites something that is refused.
CITES_REFUSED = re.compile(r"that depends? on .*, which was (?:rejected|not admitted)")
# How it says that it does not know a name, which shows nothing of what the edit does.
UNKNOWN_NAME = re.compile(r"that can be named from here|has no field|is not in scope|has no `")
MEMORY_OF_A_CHECK = 4 << 30  # bytes
printing = threading.Lock()


def say(line):
    with printing:
        print("edits: " + line, flush=True)


class Code:
    """The functions of a crate: where the body of each stands, and whose proof is one with another's."""

    def __init__(self, crate):
        self.bodies = {}  # path below the crate -> [(proof's folder, begin, end)]
        home = ROOT / "crates" / crate
        for path in sorted((home / "src").rglob("*.rt")):
            text = path.read_text()
            found = []
            impls = [(each[1], each.start(), text.find("\n}\n", each.end())) for each in re.finditer(r"^impl(?:<[^>]*>)? ([^{\n]+) \{$", text, re.M)]
            for each in re.finditer(r"^( *)[^/\n]*\bfn (\w+)", text, re.M):
                begin = text.find("{\n", each.end())
                end = text.find("\n%s}\n" % each[1], begin)
                if begin < 0 or end < 0 or re.search(r"^[^/\n]*\bfn \w+", text[each.end():end], re.M):
                    sys.exit("edits: the body of %s in %s does not end by a line }" % (each[2], path.relative_to(ROOT)))
                of = next((head for head, first, last in impls if first < each.start() < last), None)
                if of is None:
                    found.append((each[2], begin, end))
                elif " for " not in of:  # a method; a trait's is tried by itself
                    found.append(("%s/%s" % (re.match(r"\w+", of)[0], each[2]), begin, end))
            self.bodies[str(path.relative_to(home))] = found
        # a function that calls itself has its proof in a folder +f, and functions that call one another have one, in a folder +cycle
        self.proofs = {folder.name[1:]: folder.name for folder in (home / "proofs").glob("+*")}
        for path in (home / "src").rglob("*.rt"):
            for cycle, name in re.findall(r"^#\[cycle\((\w+)\)\]\n(?:#.*\n)*[^/\n]*\bfn (\w+)", path.read_text(), re.M):
                self.proofs[name] = "+" + cycle

    def proof(self, path, begin, end):
        """The folder of the proof of the function in whose body this part of a file lies, or nothing."""
        for name, first, last in self.bodies.get(path, ()):
            if first < begin and end <= last:
                return self.proofs.get(name, name)
        return None


class Edit:
    """One edit: its replacements, one after the other, and the proofs of the functions whose bodies they change."""

    def __init__(self, path, code):
        self.crate, self.name = path.parent.parent.name, path.stem
        self.pairs, self.parts, self.proofs = [], [], set()
        file = old = None
        for line in path.read_text().splitlines():
            if line.startswith("file: "):
                file = line[6:]
            elif line.startswith("old: "):
                old = line[5:]
            elif line.startswith("new:"):
                self.pairs.append((file, old, line[4:].removeprefix(" ")))
                old = None
        self.wrong = self.make(ROOT / "crates" / self.crate, {})
        for file, old, new in () if self.wrong else self.pairs:
            text = (ROOT / "crates" / self.crate / file).read_text()
            begin = text.find(old)
            self.parts.append((file, begin, begin + len(old), new))
            self.proofs.add(code.proof(*self.parts[-1][:3]) if text.count(old) == 1 else None)

    def make(self, home, texts):
        """Makes the edit in the texts of a crate's files. Answers what is wrong with it, or nothing."""
        for file, old, new in self.pairs:
            if not file or not re.match(r"(src|specs|proofs)/", file) or not (home / file).is_file():
                return "a 'file:' line names no file of the crate"
            text = texts.get(file) or (home / file).read_text()
            if not old or text.count(old) != 1:
                return "an 'old:' text is in %s %d times" % (file, text.count(old) if old else 0)
            texts[file] = text.replace(old, new)
        return None if self.pairs else "it has no 'old:' and 'new:' pair"

    def in_bodies(self):
        return None not in self.proofs

    def of_its_own(self, report):
        """The lines of a report in which the prover refuses the functions that are edited, for another reason than that what they cite is refused."""
        kept = []
        for line in report.splitlines():
            error = re.search(r"/proofs/([^: ]+):\d+:\d+: error: (.*)", line)
            if error and any(error[1].startswith(proof + "/") for proof in self.proofs) and not CITES_REFUSED.search(error[2]):
                kept.append(line)
            needs = re.match(r"fn \w+::(\S+): no proof: .*`search` did not prove ", line)
            if needs and needs[1].replace("::", "/") in self.proofs:
                kept.append(line)
        return kept


def for_a_name(told):
    """Whether these lines refuse an edit for names alone: an edited text that cannot be read, or a proof that cites what the edit took away."""
    errors = [line for line in told if re.search(r"\.(antt|rt):\d+:\d+: error", line)]
    if any(re.match(r"(?:\./)?(?:src|specs)/", line) and UNKNOWN_NAME.search(line) for line in errors):
        return True
    if any(re.match(r"fn \w+::\S+: no proof: .*`search` did not prove ", line) for line in told):
        return False
    return any(map(UNKNOWN_NAME.search, errors)) and all(UNKNOWN_NAME.search(line) or CITES_REFUSED.search(line) for line in errors)


def groups(edits, alone):
    """The checks to make: lists of edits that are tried together."""
    found = []
    for edit in edits:
        for group in found:
            if not alone and edit.in_bodies() and all(other.in_bodies() and not edit.proofs & other.proofs for other in group):
                group.append(edit)
                break
        else:
            found.append([edit])
    return found


def chosen(words, folders):
    """The edits of these folders to try, by crate."""
    found, named = {}, set()
    for path in sorted(path for folder in folders for path in (ROOT / "crates").glob("*/%s/*.edit" % folder)):
        crate, names = path.parent.parent.name, {path.parent.parent.name, "%s/%s" % (path.parent.parent.name, path.stem)}
        if not words or names & set(words):
            found.setdefault(crate, []).append(path)
            named |= names
    for word in set(words) - named:
        sys.exit("edits: there is no edit %s in crates/*/%s" % (word, " or ".join(folders)))
    return found


class Worker:
    """A copy of the tree in which one check at a time is made."""

    def __init__(self, folder, failed):
        self.folder, self.failed = folder, failed
        # of what a check kept the libraries alone: the check of a crate finds by itself what was kept of it here
        shutil.copytree(ROOT / "crates", folder / "crates", ignore=lambda at, names: [
            name for name in names if name in ("must-fail", "edits") or Path(at).name == "out" and name != "rlib"])
        for name in "crates.txt", "HANDLES":
            if (ROOT / name).exists():
                shutil.copy(ROOT / name, folder)

    def check(self, crate):
        run = subprocess.run(["rt", "check", "--jobs", "1"], cwd=self.folder / "crates" / crate,
                             stdout=subprocess.PIPE, stderr=subprocess.STDOUT, text=True)
        return run.returncode, run.stdout

    def kept(self, crate):
        """Where checks of a crate keep what they checked."""
        return self.folder / "crates" / crate / "out" / "incremental"

    def restore(self, crate):
        for part in PARTS:
            shutil.rmtree(self.folder / "crates" / crate / part, ignore_errors=True)
            if (ROOT / "crates" / crate / part).is_dir():
                shutil.copytree(ROOT / "crates" / crate / part, self.folder / "crates" / crate / part)

    def attempt(self, crate, group, kept):
        """Makes one check with all edits of a group. Answers those that it says nothing of."""
        home, texts = self.folder / "crates" / crate, {}
        if len(group) == 1:
            group[0].make(home, texts)
        else:
            # from the end of each file on, so that no place moves before it is used
            for file, begin, end, new in sorted((part for edit in group for part in edit.parts), reverse=True):
                text = texts.get(file) or (home / file).read_text()
                texts[file] = text[:begin] + new + text[end:]
        for file, text in texts.items():
            (home / file).write_text(text)
        began = time.monotonic()
        status, report = self.check(crate)
        took = time.monotonic() - began
        self.restore(crate)
        if kept:
            shutil.rmtree(self.kept(crate))
            shutil.copytree(kept, self.kept(crate))
        refused = status == 1 and re.search("^logic=not-proved", report, re.M)
        left = []
        for edit in group:
            name = "%s/%s" % (crate, edit.name)
            told = report.splitlines() if len(group) == 1 else edit.of_its_own(report)
            if not refused and len(group) == 1:
                self.failed.append(name)
                if status == 0:
                    say("%s: NOT REFUSED: the crate is still proved with this edit" % name)
                else:
                    why = [line for line in report.splitlines() if not re.match(r"rt: \w+ proved", line)][:5]
                    say("%s: BAD EDIT: it did not reach the prover (exit %d)\n%s" % (name, status, "\n".join(why)))
            elif not refused or not told:
                left.append(edit)
            elif for_a_name(told):
                self.failed.append(name)
                say("%s: REFUSED FOR A NAME, which shows nothing: %s" % (name, next(filter(UNKNOWN_NAME.search, told))))
            else:
                log = LOGS / crate / (edit.name + ".log")
                log.parent.mkdir(parents=True, exist_ok=True)
                log.write_text("\n".join(told) + "\n")
                first = re.search(r"(?:^|/)((?:specs|proofs)/[^: ]+:\d+:\d+): error", "\n".join(told), re.M)
                say("%s: refused, as it must be (%s%.0f s%s)" % (
                    name, "first at %s; " % first[1] if first else "", took, ", %d at once" % len(group) if len(group) > 1 else ""))
        return left

    def work(self, todo):
        while True:
            try:
                crate, checks = todo.get_nowait()
            except queue.Empty:
                return
            kept = None
            if len(checks) >= CHECKS_TO_PREPARE:
                kept = self.folder / "kept"
                shutil.rmtree(kept, ignore_errors=True)
                if self.check(crate)[0] != 0:
                    say("%s: not proved as it is" % crate)
                    self.failed.append(crate)
                    continue
                shutil.copytree(self.kept(crate), kept)
            left = [edit for group in checks for edit in self.attempt(crate, group, kept)]
            for edit in left:
                self.attempt(crate, [edit], kept)


def main():
    words = sys.argv[1:]
    alone = "--alone" in words
    folders = ["edits", "must-fail"] if "--every" in words else ["edits"]
    found = chosen([word for word in words if word not in ("--alone", "--every")], folders)
    checks, failed, count = [], [], 0
    for crate, paths in found.items():
        code = Code(crate)
        edits = [Edit(path, code) for path in paths]
        for edit in edits:
            count += 1
            if edit.wrong:
                say("%s/%s: BAD EDIT: %s" % (crate, edit.name, edit.wrong))
                failed.append("%s/%s" % (crate, edit.name))
        tried = groups([edit for edit in edits if not edit.wrong], alone)
        checks += [(crate, tried[at:at + CHECKS_AT_ONCE]) for at in range(0, len(tried), CHECKS_AT_ONCE)]
    todo = queue.Queue()
    for each in sorted(checks, key=lambda each: -len(each[1])):
        todo.put(each)
    with tempfile.TemporaryDirectory() as folder:
        def start(number):
            try:
                Worker(Path(folder) / str(number), failed).work(todo)
            except Exception as error:
                failed.append("worker %d: %s" % (number, error))
        room = os.sysconf("SC_PAGE_SIZE") * os.sysconf("SC_PHYS_PAGES") // MEMORY_OF_A_CHECK
        workers = min(os.cpu_count() or 1, max(room, 1), todo.qsize())
        threads = [threading.Thread(target=start, args=(number,)) for number in range(workers)]
        for thread in threads:
            thread.start()
        for thread in threads:
            thread.join()
    if failed:
        sys.exit("edits: FAILED: " + " ".join(sorted(failed)))
    say("%d refused" % count)


if __name__ == "__main__":
    main()
