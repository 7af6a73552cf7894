"""What tools/plan, record, timeline and macro share: the files and lines that they read, how they are called and how they
end."""
import os
import re
import signal
import sys
from pathlib import Path
from xml.sax.saxutils import escape

TOOLS = "plan|record|timeline|macro"


class Refused(Exception):
    """What cannot be used, and why, in words for the user."""


# ---- Files and lines

def shown(path):
    return "standard input" if path == "-" else path


def read_bytes(path):
    """The bytes of a file, or of standard input for '-'."""
    try:
        return open(0, "rb", closefd=False).read() if path == "-" else Path(path).read_bytes()
    except OSError as error:
        raise Refused("%s: %s" % (shown(path), error.strerror))


def decoded(data):
    """The text of these bytes, without the mark that may stand before it."""
    return data.decode().removeprefix("\ufeff")


def text_of(path, data):
    """The bytes of a file as text."""
    try:
        return decoded(data)
    except UnicodeDecodeError as error:
        raise Refused("%s: byte %d is no text" % (shown(path), error.start))


def lines_of(text):
    """The lines of a text. Only a new line or a carriage return ends one: a form feed may stand in a comment."""
    return re.split(r"\r\n|\r|\n", text)


def tokens_of(line):
    """The words of a line up to its comment; a name in quotes is one."""
    return re.findall(r"'[^']*'|[^\s#']+|'", re.sub(r"^((?:'[^']*'|[^'#])*)#.*$", r"\1", line))


def counted(number, what):
    return "%d %s%s" % (number, what, "" if number == 1 else "s")


def drawn(text):
    """The text as it stands in an SVG; a character that XML does not allow becomes a mark in its place."""
    return escape(re.sub(r"[^\t\n\r\x20-\ud7ff\ue000-\ufffd\U00010000-\U0010ffff]", "\ufffd", text))


# ---- A tool

def as_called(text):
    """The text with the tools' names as the user calls them: heathcinder-plan for tools/plan where they are installed."""
    own = re.fullmatch("(.+)(?:%s)" % TOOLS, Path(sys.argv[0]).name)
    return re.sub(r"tools/(?=(?:%s)\b)" % TOOLS, own[1], text) if own else text


def say(tool, text):
    print("%s: %s" % (tool, text), file=sys.stderr)


class Tool:
    """A tool is called with a file, and where it does several works with the command for one before it. A work takes the path
    and gives the status. What is a failure is said in one line, with status 2."""

    def __init__(self, name, text, work, file="FILE", failures=(Refused,)):
        self.name, self.text, self.failures = name, text, failures
        self.works = {(command,): one for command, one in work.items()} if isinstance(work, dict) else {(): work}
        self.form = " ".join(["tools/" + name] + (["{%s}" % ",".join(work)] if isinstance(work, dict) else []) + [file])

    def do(self, arguments):
        if "-h" in arguments or "--help" in arguments:
            print(as_called(self.text))
            return 0
        work = self.works.get(tuple(arguments[:-1]))
        if not arguments or work is None or re.match("-.", arguments[-1]):
            print(as_called("usage: %s; tools/%s --help says more" % (self.form, self.name)), file=sys.stderr)
            return 2
        return work(arguments[-1])

    def run(self, arguments):
        """The status."""
        if sys.stdout is None:
            say(self.name, "the output is closed")
            return 2
        sys.stdout.reconfigure(errors="backslashreplace")   # for the name of a file that is no text
        try:
            try:
                status = self.do(arguments)
            except self.failures as why:
                say(self.name, why)
                status = 2
            sys.stdout.flush()
            return status
        except OSError as error:
            os.dup2(os.open(os.devnull, os.O_WRONLY), 1)    # for what is left of the output, which Python writes at its end
            say(self.name, "the output cannot be written: %s" % error.strerror)
            return 2

    def end(self):
        signal.signal(signal.SIGPIPE, signal.SIG_DFL)
        sys.exit(self.run(sys.argv[1:]))
