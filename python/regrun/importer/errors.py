"""The one error of the importer."""

from __future__ import annotations


class SourceError(Exception):
    """A file that can't be imported at all; the text is one line without the file's name.

    `line` is the line of the file, from 1, or 0 where it isn't known.
    """

    def __init__(self, text: str, line: int = 0) -> None:
        super().__init__(text)
        self.text = text
        self.line = line
