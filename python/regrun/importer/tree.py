"""The tree that an XML file becomes."""

from __future__ import annotations

from typing import Dict, Iterator, List, Optional


class Node:
    """An element: its name and attributes without namespaces, its text up to the first child, its children."""

    __slots__ = ("tag", "space", "line", "text", "attributes", "children")

    def __init__(self, tag: str, space: str, line: int, attributes: Dict[str, str]) -> None:
        self.tag = tag
        self.space = space
        self.line = line
        self.text = ""
        self.attributes = attributes
        self.children: List["Node"] = []

    def all(self, tag: str) -> Iterator["Node"]:
        """The children of a name, in order."""
        return (child for child in self.children if child.tag == tag)

    def find(self, *path: str) -> Optional["Node"]:
        """The first child by a path of names, or None."""
        node: Optional[Node] = self
        for tag in path:
            node = next(node.all(tag), None) if node is not None else None
        return node

    def get(self, *path: str, default: str = "") -> str:
        """The text of the first child by a path of names, without blanks around it."""
        node = self.find(*path)
        return node.text.strip() if node is not None else default
