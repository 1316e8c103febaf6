#!/usr/bin/env python3
"""The report of a description in this folder, by the linker and the reports of tests/model: reported.py DESC"""
import sys

sys.dont_write_bytecode = True
import paths  # noqa: E402, F401
from disassemble_rows import in_file  # noqa: E402
from model import linker, reports  # noqa: E402

if __name__ == "__main__":
    print(reports.report(linker.link(*in_file(sys.argv[1]))).rstrip("\n"))
