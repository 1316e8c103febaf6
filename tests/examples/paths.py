"""Where the rows of this folder find what they try and what they try it by: examples/, tests/ and samples/."""
import os
import sys

HERE = os.path.dirname(os.path.abspath(__file__))
TESTS = os.path.dirname(HERE)
TOP = os.path.dirname(TESTS)
EXAMPLES, SAMPLES, BENCH = (os.path.join(TOP, name) for name in ("examples", "samples", "bench"))
ERRORS = os.path.join(TOP, "docs", "use", "errors.md")

# The scripts stand before the tables, some of which have names of theirs.
sys.path[1:1] = [EXAMPLES]
sys.path.append(TESTS)
