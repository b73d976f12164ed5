#!/usr/bin/env python3
"""page.py [SESSION] LOG ..: `python3 -m regrun page` of the checkout that this file stands in."""
import pathlib, sys

sys.path.insert(0, str(pathlib.Path(__file__).resolve().parents[1] / "python"))
from regrun.reports.page import main

if __name__ == "__main__":
    sys.exit(main())
