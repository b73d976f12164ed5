"""XML as a tree of nodes with line numbers; DTDs, entities and external references are refused."""

from __future__ import annotations

import io
from typing import Any, Dict, List, Optional
from xml.sax import SAXParseException
from xml.sax.handler import ContentHandler, feature_namespaces

import defusedxml  # type: ignore[import]
import defusedxml.sax  # type: ignore[import]

from .errors import SourceError
from .tree import Node

MOST_BYTES = 32 * 2**20
MOST_ELEMENTS = 500_000
MOST_DEPTH = 64
MOST_TEXT = 65_536


_NO_ATTRIBUTES: Dict[str, str] = {}


class _Handler(ContentHandler):
    """Builds the tree and holds the limits."""

    def __init__(self) -> None:
        super().__init__()
        self.root: Optional[Node] = None
        self.open: List[Node] = []
        self.parts: List[str] = []
        self.elements = 0
        self.size = 0
        self.locator: Any = None

    def setDocumentLocator(self, locator: Any) -> None:
        self.locator = locator

    def startElementNS(self, name: Any, qname: Any, attrs: Any) -> None:
        line = self.locator.getLineNumber() or 0
        self.elements += 1
        if self.elements > MOST_ELEMENTS:
            raise SourceError(f"more than {MOST_ELEMENTS:,} elements", line)
        if len(self.open) >= MOST_DEPTH:
            raise SourceError(f"elements nested more than {MOST_DEPTH} deep", line)
        self._close_text()
        attributes = {key[1]: attrs[key] for key in attrs.keys()} if len(attrs) else _NO_ATTRIBUTES
        node = Node(name[1], name[0] or "", line, attributes)
        if self.open:
            self.open[-1].children.append(node)
        else:
            self.root = node
        self.open.append(node)

    def endElementNS(self, name: Any, qname: Any) -> None:
        self._close_text()
        self.open.pop()

    def characters(self, content: str) -> None:
        self.size += len(content)
        if self.size > MOST_TEXT:
            line = self.locator.getLineNumber() or 0
            raise SourceError(f"a text of more than {MOST_TEXT:,} characters", line)
        self.parts.append(content)

    def _close_text(self) -> None:
        if self.parts and self.open and not self.open[-1].children:
            text = "".join(self.parts)
            self.open[-1].text = "" if text.isspace() else text
        self.parts = []
        self.size = 0


def parse(data: bytes) -> Node:
    """The root element of an XML text."""
    handler = _Handler()
    parser = defusedxml.sax.make_parser()
    parser.forbid_dtd = True
    parser.setFeature(feature_namespaces, True)
    parser.setContentHandler(handler)
    try:
        parser.parse(io.BytesIO(data))
    except defusedxml.DTDForbidden:
        raise SourceError("it has a DTD, and so perhaps entities: refused") from None
    except (defusedxml.EntitiesForbidden, defusedxml.ExternalReferenceForbidden):
        raise SourceError("it has entities or external references: refused") from None
    except SAXParseException as error:
        raise SourceError(f"not XML: {error.getMessage()}", error.getLineNumber() or 0) from None
    except (LookupError, ValueError) as error:
        raise SourceError(f"not XML: {error}") from None
    if handler.root is None:
        raise SourceError("not XML: no element")
    return handler.root
