"""Answers --help: a script that imports this first prints its own head then, and ends with 0."""
import sys

import __main__

if sys.argv[1:2] in (["-h"], ["--help"]) and __main__.__doc__:
    print(__main__.__doc__.strip())
    sys.exit(0)
