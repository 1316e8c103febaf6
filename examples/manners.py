"""How every script of this folder meets who calls it: its words, its input and output, and what ends it.

A script ends with status 2 and one line on standard error where its words are no call of it (the call stands behind
that line), where a file can't be read, where what it reads isn't what it takes, and where its output has no room.
Ctrl-C ends it with a line, as a signal does; who stops reading what it writes ends it quietly. `--help` writes its head.
"""
import argparse
import os
import signal
import sys

WRONG = 2


class Refusal(Exception):
    """What a script can't go on from, in a line for standard error."""


class Words(argparse.ArgumentParser):
    """The words that a script takes, whose help is the script's own head."""

    def __init__(self, doc):
        super().__init__(add_help=False, allow_abbrev=False)
        self.doc = doc
        self.add_argument("-h", "--help", action="help")

    def format_help(self):
        return self.doc.strip() + "\n"

    def error(self, message):
        calls = [part for part in self.doc.split("\n\n") if part.startswith("    ")]
        raise Refusal("\n".join([message, *calls[:1]]))


def reason(why):
    return why.strerror or str(why)


def bytes_in(path):
    """A file's bytes."""
    try:
        with open(path, "rb") as file:
            return file.read()
    except (OSError, ValueError) as why:
        raise Refusal(f"{path}: {reason(why) if isinstance(why, OSError) else why}") from None


def text_in(path):
    """A file's text; a byte that is of no character stands as one of its own."""
    return bytes_in(path).decode("utf-8", "replace")


def lines_in(path):
    """The lines of a file, one after another, with their line feeds."""
    try:
        with open(path, encoding="utf-8", errors="replace", newline="\n") as file:
            yield from file
    except OSError as why:
        raise Refusal(f"{path}: {reason(why)}") from None


def is_terminal(stream):
    return stream is not None and stream.isatty()


def input_lines(what):
    """The lines of standard input as they come, with their line feeds; a terminal is told what is wanted."""
    if sys.stdin is None:
        raise Refusal(f"standard input is closed: {what} is wanted there")
    if is_terminal(sys.stdin):
        print(f"reading the terminal, where {what} is wanted; --help says more", file=sys.stderr)
    sys.stdin.reconfigure(encoding="utf-8", errors="replace", newline="\n")
    return iter(sys.stdin)


def input_bytes(what):
    """All of standard input as it is; a terminal is told what is wanted."""
    input_lines(what)
    return sys.stdin.buffer.read()


def ended_by(number):
    """Ends the process as a signal does that nobody catches."""
    signal.signal(number, signal.SIG_DFL)
    os.kill(os.getpid(), number)


def complain(what):
    """Writes a line to standard error, behind all that was written so far."""
    try:
        sys.stdout.flush()
    except (OSError, AttributeError):
        pass
    print(what, file=sys.stderr)
    return WRONG


def failed(why):
    return complain(f"{why.filename or 'standard output'}: {reason(why)}")


def status_of(main):
    """The status with which a script ends."""
    try:
        if sys.stdout is None:
            raise Refusal("standard output is closed")
        sys.stdout.reconfigure(encoding="utf-8", errors="replace")
        return main(sys.argv[1:]) or 0
    except SystemExit as end:
        return end.code or 0
    except Refusal as why:
        return complain(why)
    except OSError as why:
        return failed(why)
    except KeyboardInterrupt:
        complain("interrupted")
        return ended_by(signal.SIGINT)


def run(main):
    """Runs a script by its words, and ends the process with the status that it returns."""
    if hasattr(signal, "SIGPIPE"):
        signal.signal(signal.SIGPIPE, signal.SIG_DFL)
    status = status_of(main)
    try:
        sys.stdout.flush()
    except OSError as why:
        status = failed(why)
    except AttributeError:
        pass
    sys.stderr.flush()
    os._exit(status)
