#!/usr/bin/env python3
"""Runs a command on a terminal of its own, and writes all that it wrote there, and its status.

    terminal.py [--type TEXT] [--keys SECONDS] [--output FILE] WORD..

TEXT is typed once something was written and nothing follows for a while, or after SECONDS: `^C` in it interrupts, `^D`
ends the input. Standard output goes to FILE where one is named, and else to the terminal. A carriage return is written
as `<`, and what erases a line as `_`. A command that hasn't ended after a minute is ended, with the status `none`.
"""
import argparse
import os
import pty
import select
import signal
import sys
import time

SECONDS = 60
# A command that was quiet for so long reads: an interrupt just before its read would wait for the read's end.
QUIET = 0.3
SHOWN = [(b"\r\n", b"\n"), (b"\r", b"<"), (b"\033[K", b"_")]


def read(terminal, seconds):
    """What is written within some seconds; nothing where nothing is, None at the end."""
    if not select.select([terminal], [], [], seconds)[0]:
        return b""
    try:
        return os.read(terminal, 65536) or None
    except OSError:
        return None


def run(options):
    """What a command wrote, and its status."""
    child, terminal = pty.fork()
    if child == 0:
        for number in (signal.SIGINT, signal.SIGPIPE):
            signal.signal(number, signal.SIG_DFL)
        if options.output:
            os.dup2(os.open(options.output, os.O_WRONLY | os.O_CREAT | os.O_TRUNC, 0o666), 1)
        os.execvp(options.words[0], options.words)
    keys = options.type.replace("^C", "\3").replace("^D", "\4").encode()
    begun, out = time.monotonic(), b""
    while (piece := read(terminal, QUIET)) is not None:
        out += piece
        passed = time.monotonic() - begun
        if keys and (passed > options.keys if options.keys else out and not piece):
            os.write(terminal, keys)
            keys = b""
        if passed > SECONDS:
            os.kill(child, signal.SIGKILL)
            return out, "none"
    return out, os.waitstatus_to_exitcode(os.waitpid(child, 0)[1])


def main():
    parser = argparse.ArgumentParser(description=__doc__)
    parser.add_argument("--type", default="")
    parser.add_argument("--keys", type=float, default=0)
    parser.add_argument("--output")
    parser.add_argument("words", nargs=argparse.REMAINDER)
    out, status = run(parser.parse_args())
    for old, new in SHOWN:
        out = out.replace(old, new)
    sys.stdout.buffer.write(out + f"status {status}\n".encode())


if __name__ == "__main__":
    main()
