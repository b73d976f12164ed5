#!/usr/bin/env python3
"""junit.py FOLDER | LOG..: `python3 -m regrun junit` of the installed package, or of the checkout that this file stands in."""
import pathlib, sys

sys.path.append(str(pathlib.Path(__file__).resolve().parents[2] / "python"))
from regrun.reports.junit import main

if __name__ == "__main__":
    sys.exit(main())
