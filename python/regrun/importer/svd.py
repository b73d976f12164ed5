"""Reads CMSIS-SVD (schema 1.3 and before)."""

from __future__ import annotations

from dataclasses import dataclass, replace
from typing import Dict, Iterator, List, Optional, Tuple

from . import numbers, policy, source
from .choice import Choice
from .errors import SourceError
from .tree import Node
from .report import Report

MOST_DIM = 65_536
MOST_LOOKS = 8
MOST_BASES = 32
MOST_COMPARED = 500_000
WRITING_TESTS = {"NO_REG_BIT_BASH_TEST", "NO_REG_ACCESS_TEST", "NO_REG_SHARED_ACCESS_TEST"}
_INDEXED = ("peripheral", "cluster", "register", "field", "enumeratedValues")
_HOLDERS = ("peripherals", "registers", "fields")
# The three spellings of a field's bits.
_BITS: Tuple[Tuple[str, ...], ...] = (("lsb", "msb"), ("bitOffset", "bitWidth"), ("bitRange",))


@dataclass(frozen=True)
class _Defaults:
    """Properties that are inherited from the device down to the field."""

    size: int = 32
    access: str = "read-write"
    reset: Optional[int] = None
    mask: Optional[int] = None
    protection: str = ""


class _Part:
    """An element together with those that it is derived from, the nearest first."""

    def __init__(self, nodes: List[Node]) -> None:
        self.nodes = nodes
        self.node = nodes[0]
        self.line = nodes[0].line

    def find(self, tag: str) -> Optional[Node]:
        """The child of the nearest element that has one."""
        found = (node.find(tag) for node in self.nodes)
        return next((child for child in found if child is not None), None)

    def get(self, tag: str, default: str = "") -> str:
        """The text of that child."""
        child = self.find(tag)
        return child.text.strip() if child is not None else default

    def merged(self, holder: str, tags: Tuple[str, ...]) -> List[Node]:
        """The children in the holders of all elements; a nearer one replaces one of its name."""
        result: Dict[str, List[Node]] = {}
        for node in reversed(self.nodes):
            within = node if not holder else node.find(holder)
            own: Dict[str, List[Node]] = {}
            for child in within.children if within is not None else ():
                if child.tag in tags:
                    key = f"{child.get('name')} {child.get('alternateGroup')}"
                    own.setdefault(key, []).append(child)
            result.update(own)
        return [child for children in result.values() for child in children]


class _Reader:
    def __init__(self, root: Node, report: Report, choice: Choice) -> None:
        self.root = root
        self.report = report
        self.choice = choice
        self.paths: Dict[int, str] = {}
        self.index: Dict[str, Node] = {}
        self.values_by_name: Dict[str, List[Node]] = {}
        self.values_in: Dict[str, Dict[str, List[Node]]] = {}
        self.compared = 0
        self._index(root, "")

    def _index(self, node: Node, path: str) -> None:
        for child in node.children:
            if child.tag in _HOLDERS:
                self._index(child, path)
            elif child.tag in _INDEXED:
                inner = f"{path}.{child.get('name')}" if path else child.get("name")
                self.paths[id(child)] = inner
                self.index.setdefault(inner, child)
                if child.tag == "enumeratedValues":
                    self.values_by_name.setdefault(child.get("name"), []).append(child)
                self._index(child, inner)

    def part(self, node: Node) -> Optional[_Part]:
        """The element with those that it is derived from, or None where one isn't there."""
        nodes = [node]
        while "derivedFrom" in nodes[-1].attributes:
            name = nodes[-1].attributes["derivedFrom"].strip()
            base = self._base(nodes[-1], name)
            if base is None:
                where = self.paths.get(id(node), "").rstrip(".")
                text = f"derivedFrom `{name}` isn't in the file, or not once"
                self.report.left_out(node.line, where, text)
                return None
            if any(base is known for known in nodes):
                raise SourceError(f"derivedFrom `{name}` makes a loop", nodes[-1].line)
            if len(nodes) >= MOST_BASES:
                raise SourceError(f"derivedFrom of more than {MOST_BASES} steps", node.line)
            nodes.append(base)
        return _Part(nodes)

    def _base(self, node: Node, name: str) -> Optional[Node]:
        """What a name means in the innermost scope that has it; itself only where nothing else has it."""
        scope = self.paths.get(id(node), "").rpartition(".")[0]
        itself: Optional[Node] = None
        while True:
            found = self._look_up(f"{scope}.{name}" if scope else name, 0)
            if found is not None and found.tag == node.tag:
                if found is not node:
                    return found
                itself = node
            if not scope:
                return self._values_named(node, name) or itself
            scope = scope.rpartition(".")[0]

    def _values_named(self, node: Node, name: str) -> Optional[Node]:
        """Enumerated values by their name, or the end of their path, in the innermost scope that has some; None if several."""
        if node.tag != "enumeratedValues":
            return None
        if name not in self.values_in:
            self.values_in[name] = self._scopes_of(name, node.line)
        scope = self.paths[id(node)]
        while scope:
            scope = scope.rpartition(".")[0]
            there = [one for one in self.values_in[name].get(scope, ()) if one is not node]
            if there:
                return there[0] if len(there) == 1 else None
        return None

    def _scopes_of(self, name: str, line: int) -> Dict[str, List[Node]]:
        """For each scope the enumerated values of a name below it, three at most."""
        scopes: Dict[str, List[Node]] = {}
        named = self.values_by_name.get(name.rpartition(".")[2], [])
        self.compared += len(named)
        if self.compared > MOST_COMPARED:
            raise SourceError("derivedFrom of too many enumerated values of one name", line)
        for one in named:
            path = self.paths[id(one)]
            scope = path if f".{path}".endswith(f".{name}") else ""
            while scope:
                scope = scope.rpartition(".")[0]
                held = scopes.setdefault(scope, [])
                if len(held) < 3:
                    held.append(one)
        return scopes

    def _look_up(self, path: str, depth: int) -> Optional[Node]:
        """The element of a path, also where it stands only in what its owner is derived from."""
        found = self.index.get(path)
        head, _, last = path.rpartition(".")
        if found is not None or not head or depth > MOST_LOOKS:
            return found
        owner = self._look_up(head, depth + 1)
        if owner is None or "derivedFrom" not in owner.attributes:
            return None
        base = self._look_up(owner.attributes["derivedFrom"].strip(), depth + 1)
        return self._look_up(f"{self.paths[id(base)]}.{last}", depth + 1) if base else None

    def number(self, part: _Part, tag: str, default: Optional[int] = None) -> int:
        """The number in a child. Raises NumberError."""
        text = part.get(tag)
        if not text:
            if default is None:
                raise numbers.NumberError(f"no {tag}")
            return default
        return numbers.svd(text)

    def defaults(self, part: _Part, outer: _Defaults) -> _Defaults:
        """The inherited properties with those of this element over them."""
        result = outer
        if part.get("size"):
            result = replace(result, size=self.number(part, "size"))
        if part.get("access"):
            result = replace(result, access=self.access(part.get("access")))
        if part.get("resetValue"):
            result = replace(result, reset=self.number(part, "resetValue"))
        if part.get("resetMask"):
            result = replace(result, mask=self.number(part, "resetMask"))
        if part.get("protection"):
            result = replace(result, protection=part.get("protection"))
        return result

    @staticmethod
    def access(text: str) -> str:
        if text not in policy.ACCESSES:
            raise numbers.NumberError(f"access `{text}` isn't one of the standard")
        return text

    def elements(self, part: _Part, where: str) -> List[Tuple[str, int]]:
        """The name and the step of each element of an array, or of the one that there is."""
        name = part.get("name")
        if not name:
            raise numbers.NumberError("no name")
        if not part.get("dim"):
            return [(name, 0)]
        count = self.number(part, "dim")
        if count > MOST_DIM:
            raise numbers.NumberError(f"dim {count} is above {MOST_DIM}")
        step = self.number(part, "dimIncrement", 0 if count < 2 else None)
        labels = self._labels(part, count, where)
        return [(_element(name, label), step * at) for at, label in enumerate(labels)]

    def _labels(self, part: _Part, count: int, where: str) -> List[str]:
        text = part.get("dimIndex")
        counted = [str(at) for at in range(count)]
        if not text:
            return counted
        labels = [label.strip() for label in text.split(",")]
        first, sign, last = text.partition("-")
        if sign and "," not in text:
            labels = _range(first.strip(), last.strip(), count)
        if len(labels) == count:
            return labels
        self.report.changed(
            part.line, where, f"dimIndex `{text}` isn't {count} labels: counted from 0"
        )
        return counted

    def chip(self) -> source.Chip:
        name = self.root.get("name") or "device"
        version = self.root.attributes.get("schemaVersion", "")
        chip = source.Chip(name, f"CMSIS-SVD {version}".strip(), text=self.root.get("description"))
        device = _Part([self.root])
        try:
            width = self.number(device, "width", 32)
            unit = self.number(device, "addressUnitBits", 8)
            defaults = self.defaults(device, _Defaults())
        except numbers.NumberError as error:
            raise SourceError(str(error), self.root.line) from None
        space = source.Space("bus", [], [source.Port("bus")], width, unit, line=self.root.line)
        for node in (
            child for holder in self.root.all("peripherals") for child in holder.all("peripheral")
        ):
            space.blocks.extend(self.peripheral(node, defaults))
        chip.spaces.append(space)
        return chip

    def peripheral(self, node: Node, outer: _Defaults) -> Iterator[source.Block]:
        where = node.get("name")
        part = self.part(node)
        if part is None:
            return
        try:
            elements = self.elements(part, where)
            base = self.number(part, "baseAddress")
            defaults = self.defaults(part, outer)
        except numbers.NumberError as error:
            self.report.left_out(node.line, where, str(error))
            return
        self._note_merged(part, where)
        for name, step in elements:
            if not self.choice.block(name):
                continue
            block = source.Block(name, base + step, [], 0, part.get("description"), node.line)
            affix = (part.get("prependToName"), part.get("appendToName"))
            for child in part.merged("registers", ("register", "cluster")):
                block.items.extend(self.item(child, defaults, name, affix, 0))
            if block.items:
                yield block
            else:
                self.report.noted(node.line, name, "it has no registers")

    def _note_merged(self, part: _Part, where: str) -> None:
        own = part.node.find("registers")
        if len(part.nodes) > 1 and own is not None and own.children:
            base = part.node.attributes["derivedFrom"]
            self.report.noted(part.line, where, f"its own registers were added to those of {base}")
        if part.get("protection"):
            self.report.noted(
                part.line, where, f"protection `{part.get('protection')}` isn't described"
            )

    def item(
        self, node: Node, outer: _Defaults, path: str, affix: Tuple[str, str], depth: int
    ) -> Iterator[source.Item]:
        where = f"{path}.{node.get('name')}"
        if depth > 32:
            raise SourceError(f"{where}: clusters are nested too deep", node.line)
        part = self.part(node)
        if part is None:
            return
        try:
            elements = self.elements(part, where)
            offset = self.number(part, "addressOffset")
            defaults = self.defaults(part, outer)
        except numbers.NumberError as error:
            self.report.left_out(node.line, where, str(error))
            return
        for name, step in elements:
            self.choice.count_item(node.line)
            if node.tag == "cluster":
                group = source.Group(name, offset + step, [], part.get("description"), node.line)
                for child in part.merged("", ("register", "cluster")):
                    group.items.extend(
                        self.item(child, defaults, f"{path}.{name}", affix, depth + 1)
                    )
                yield group
            else:
                full = affix[0] + name + affix[1]
                yield self.register(part, full, offset + step, defaults, f"{path}.{full}")

    def register(
        self, part: _Part, name: str, offset: int, defaults: _Defaults, where: str
    ) -> source.Register:
        text = part.get("description") or part.get("displayName")
        register = source.Register(name, offset, defaults.size, text=text, line=part.line)
        register.rights = policy.rights(defaults.access)
        self._constrain(part, register, where)
        self._note_read(part, where)
        if defaults.protection and part.get("protection"):
            self.report.noted(
                part.line, where, f"protection `{defaults.protection}` isn't described"
            )
        fields = part.merged("fields", ("field",))
        for node in fields:
            register.fields.extend(self.field(node, part, register, defaults, where))
        if not fields:
            register.fields.extend(self._whole(part, register, defaults, where))
        return register

    def _whole(
        self, part: _Part, register: source.Register, defaults: _Defaults, where: str
    ) -> Iterator[source.Field]:
        whole = source.Field("value", 0, register.bits, line=part.line)
        try:
            self._fill(whole, part, part, defaults)
            yield whole
        except numbers.NumberError as error:
            self.report.left_out(part.line, where, str(error))

    def _constrain(self, part: _Part, register: source.Register, where: str) -> None:
        constraint = part.find("writeConstraint")
        if constraint is None:
            return
        if constraint.get("writeAsRead") == "true":
            register.skip |= WRITING_TESTS
            text = "only what was read may be written: the sequences that write leave it out"
            self.report.changed(constraint.line, where, text)
        else:
            text = "a writeConstraint isn't described: the sequences write other values too"
            self.report.noted(constraint.line, where, text)

    def _note_read(self, part: _Part, where: str) -> None:
        if part.get("readAction") == "modifyExternal":
            text = "what a read changes elsewhere (modifyExternal) isn't described"
            self.report.noted(part.line, where, text)

    def field(
        self,
        node: Node,
        register_part: _Part,
        register: source.Register,
        outer: _Defaults,
        path: str,
    ) -> Iterator[source.Field]:
        where = f"{path}.{node.get('name')}"
        part = self.part(node)
        if part is None:
            return
        try:
            lsb, width = self._bits(part, where)
            elements = self.elements(part, where)
            access = self.access(part.get("access") or outer.access)
            values = self.values(part, where)
            self._constrain(part, register, where)
            self._note_read(part, where)
            for name, step in elements:
                self.choice.count_field(node.line)
                text = part.get("description")
                field = source.Field(name, lsb + step, width, text=text, line=node.line)
                field.values = values
                self._fill(field, part, register_part, replace(outer, access=access))
                yield field
        except numbers.NumberError as error:
            self.report.left_out(node.line, where, str(error))

    def _fill(self, field: source.Field, part: _Part, register: _Part, defaults: _Defaults) -> None:
        field.access = defaults.access
        field.write = _action(part, register, "modifiedWriteValues", "modify")
        field.read = _action(part, register, "readAction", "modifyExternal")
        if defaults.reset is not None and 0 < field.width <= 64 and field.lsb < 2**16:
            ones = (1 << field.width) - 1
            known = ones if defaults.mask is None else (defaults.mask >> field.lsb) & ones
            value = (defaults.reset >> field.lsb) & known
            field.resets[source.HARD] = source.Reset(value, known)

    def _bits(self, part: _Part, where: str) -> Tuple[int, int]:
        """The lowest bit and the width, as the nearest element spells them that does. Raises NumberError."""
        spelled = (tags for node in part.nodes for tags in _BITS if any(map(node.get, tags)))
        tags = next(spelled, ())
        if "msb" in tags:
            lsb, msb = self.number(part, "lsb"), self.number(part, "msb")
        elif "bitOffset" in tags:
            lsb = self.number(part, "bitOffset")
            msb = lsb + self._width(part, where) - 1
        elif tags:
            high, _, low = part.get("bitRange").strip("[] ").partition(":")
            lsb, msb = numbers.svd(low or high), numbers.svd(high)
        else:
            raise numbers.NumberError("no bit positions")
        if msb < lsb:
            raise numbers.NumberError(f"its bits end at {msb}, below its first, {lsb}")
        return lsb, msb - lsb + 1

    def _width(self, part: _Part, where: str) -> int:
        """The width of a field with a bitOffset; without a bitWidth that of what it is derived from."""
        if part.get("bitWidth"):
            return self.number(part, "bitWidth")
        if len(part.nodes) > 1:
            return self._bits(_Part(part.nodes[1:]), where)[1]
        self.report.changed(part.line, where, "no bitWidth: taken as 1")
        return 1

    def values(self, part: _Part, where: str) -> List[source.EnumeratedValue]:
        """The enumerated values, those of several usages one behind the other."""
        owner = next((node for node in part.nodes if node.find("enumeratedValues")), None)
        result: List[source.EnumeratedValue] = []
        for node in owner.all("enumeratedValues") if owner is not None else ():
            values = self.part(node)
            for one in values.merged("", ("enumeratedValue",)) if values is not None else ():
                value = one.get("value") or "other"
                result.append(
                    source.EnumeratedValue(one.get("name"), value, one.get("description"))
                )
        return result


def _action(part: _Part, register: _Part, tag: str, nothing: str) -> str:
    """The word of a field or its register; `nothing` is the one that leaves the field as a write does."""
    text = part.get(tag) or register.get(tag)
    if not text or text == nothing:
        return "-"
    if text not in (policy.WRITES if tag == "modifiedWriteValues" else policy.READS):
        raise numbers.NumberError(f"{tag} `{text}` isn't one of the standard")
    return text


def _element(name: str, label: str) -> str:
    return name.replace("%s", label) if "%s" in name else f"{name}[{label}]"


def _range(first: str, last: str, most: int) -> List[str]:
    if first.isdigit() and last.isdigit() and len(first) < 8 and len(last) < 8:
        start, end = int(first), int(last)
        return [str(at) for at in range(start, min(end + 1, start + most + 1))]
    if len(first) == 1 and len(last) == 1 and first.isalpha() and last.isalpha():
        return [chr(at) for at in range(ord(first), ord(last) + 1)]
    return []


def read(root: Node, report: Report, choice: Choice) -> source.Chip:
    """What a CMSIS-SVD file says. Raises SourceError."""
    return _Reader(root, report, choice).chip()
