"""The command capfw, for the scripts that call it."""
import os
import shutil
import subprocess

from manners import Refusal

BESIDE = os.path.join(os.path.dirname(os.path.dirname(os.path.abspath(__file__))), "bin", "capfw")


def add_program(parser):
    """Lets a script's words say which command it calls: bin/capfw of this clone where they don't."""
    parser.add_argument("--capfw", default=BESIDE, metavar="PROGRAM")


def program_of(options):
    """The path of the command."""
    path = shutil.which(options.capfw)
    if path is None:
        raise Refusal(f"{options.capfw}: no such command")
    return os.path.abspath(path)


def ran(words, folder=None):
    """The status with which a command ends in a folder, and what it writes."""
    done = subprocess.run(words, cwd=folder, stdin=subprocess.DEVNULL, stdout=subprocess.PIPE)
    return done.returncode, done.stdout
