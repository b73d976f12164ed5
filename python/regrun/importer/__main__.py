"""`python -m regrun.importer FILE`, the same as `python -m regrun import FILE`."""

from .cli import run

if __name__ == "__main__":
    run()
