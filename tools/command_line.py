"""What the tools have in common as programs: how they take their words, read files, and end."""

import argparse
import os
import pathlib
import sys

REFUSED, NOT_WRITTEN, SOME_LEFT_OUT, INTERRUPTED = 1, 5, 7, 130
ENDS = """exit status: 0 all was done, 1 the words or the input are refused, 5 the output could not be written,
130 interrupted"""


class Refusal(Exception):
    """Why a tool can't do what it was asked, in one line."""


class Words(argparse.ArgumentParser):
    """The words of a tool. Those that are no words of it are told in one line."""

    def __init__(self, **how):
        super().__init__(formatter_class=argparse.RawDescriptionHelpFormatter, **how)

    def error(self, message):
        self.exit(REFUSED, f"{self.prog}: {message} (see --help)\n")


def number(kind, low, high):
    """How a word is read that is a number in bounds."""

    def read(word):
        try:
            found = kind(word)
        except ValueError:
            found = None
        if found is None or not low <= found <= high:
            raise argparse.ArgumentTypeError(f"{word[:40]} is no number from {low} to {high}")
        return found

    return read


def run(main):
    """Runs a tool, and ends it with its status; what stops it is told in one line on standard error."""
    try:
        if sys.stdout is None:
            raise BrokenPipeError
        sys.stdout.reconfigure(encoding="utf-8", errors="backslashreplace")
        status = main()
        sys.stdout.flush()
    except Refusal as cause:
        status = told(str(cause), REFUSED)
    except KeyboardInterrupt:
        status = INTERRUPTED
    except OSError:
        # What a tool reads is read by calls that refuse, so it is the standard output that failed.
        status = told("the output could not be written", NOT_WRITTEN)
        drop_output()
    sys.exit(status)


def told(cause, status=0):
    """Tells a cause on standard error, and gives the status back."""
    print(printable(f"{pathlib.Path(sys.argv[0]).name}: {cause}"), file=sys.stderr, flush=True)
    return status


def drop_output():
    """Drops what is left to write, which would fail once more at the end."""
    if sys.stdout is not None:
        os.dup2(os.open(os.devnull, os.O_WRONLY), sys.stdout.fileno())


def content(path):
    """The bytes of a file, or of the standard input where the path is `-`."""
    try:
        if path != "-":
            return pathlib.Path(path).read_bytes()
        if sys.stdin is None:
            raise Refusal("there is no standard input")
        return sys.stdin.buffer.read()
    except (OSError, ValueError) as fault:
        raise Refusal(f"cannot read {path}: {reason(fault)}") from None


def text(path):
    """The text of a file, or of the standard input where the path is `-`."""
    read = content(path)
    try:
        return read.decode()
    except UnicodeDecodeError as fault:
        line = read.count(b"\n", 0, fault.start) + 1
        raise Refusal(f"{shown(path)} line {line}: is no UTF-8") from None


def shown(path):
    """How a path is called where something is told of it."""
    return "standard input" if path == "-" else path


def reason(fault):
    """Why the system refused a call."""
    return getattr(fault, "strerror", None) or str(fault)


def printable(line):
    """A line in which each sign that a terminal would take as more than a sign is a question mark."""
    return "".join(sign if sign.isprintable() else "?" for sign in line)
