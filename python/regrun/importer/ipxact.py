"""Reads IP-XACT components: IEEE 1685-2009 (spirit), 1685-2014 and 1685-2022."""

from __future__ import annotations

from dataclasses import dataclass, replace
from itertools import product
from typing import Dict, Iterator, List, Optional, Set, Tuple, Union

from . import numbers, policy, source
from .choice import Choice
from .errors import SourceError
from .tree import Node
from .report import Report

VERSIONS = {
    "http://www.spiritconsortium.org/XMLSchema/SPIRIT/1685-2009": "IP-XACT 1685-2009",
    "http://www.spiritconsortium.org/XMLSchema/SPIRIT/1.5": "SPIRIT 1.5",
    "http://www.spiritconsortium.org/XMLSchema/SPIRIT/1.4": "SPIRIT 1.4",
    "http://www.accellera.org/XMLSchema/IPXACT/1685-2014": "IP-XACT 1685-2014",
    "http://www.accellera.org/XMLSchema/IPXACT/1685-2022": "IP-XACT 1685-2022",
}
MOST_DIM = 65_536
MOST_DEPTH = 32
WRITING_TESTS = {"NO_REG_BIT_BASH_TEST", "NO_REG_ACCESS_TEST", "NO_REG_SHARED_ACCESS_TEST"}
_KINDS = {"hard": "HARD", "soft": "SOFT"}

_Items = Iterator[source.Item]


@dataclass(frozen=True)
class _Outer:
    """What an element has from those around it."""

    path: str
    access: str
    volatile: bool
    space: str
    unit: int
    depth: int = 0

    def at(self, node: Node) -> str:
        """The path of a child in the file."""
        return f"{self.path}.{node.get('name')}" if self.path else node.get("name")

    def within(self, node: Node, access: str, volatile: bool) -> "_Outer":
        return replace(
            self, path=self.at(node), access=access, volatile=volatile, depth=self.depth + 1
        )


class _Reader:
    def __init__(self, root: Node, report: Report, choice: Choice) -> None:
        self.root = root
        self.report = report
        self.choice = choice
        self.parameters: Dict[str, Node] = {}
        self.values: Dict[str, int] = {}
        self.open: Set[str] = set()
        maps = [one for holder in root.all("memoryMaps") for one in holder.all("memoryMap")]
        self.several = len(maps) > 1
        self._gather(root)

    def _gather(self, node: Node) -> None:
        for child in node.children:
            if child.tag in ("parameter", "moduleParameter"):
                value = child.find("value")
                mark = child.attributes.get("parameterId") or child.get("name")
                if value is not None:
                    self.parameters.setdefault(value.attributes.get("id") or mark, value)
                    self.parameters.setdefault(mark, value)
            elif child.tag not in ("memoryMaps", "model", "vendorExtensions"):
                self._gather(child)

    # Numbers

    def value_of(self, name: str) -> int:
        """The value of a parameter. Raises NumberError."""
        if name in self.values:
            return self.values[name]
        node = self.parameters.get(name)
        if node is None:
            raise numbers.NumberError(f"the parameter `{name}` isn't in the file")
        if name in self.open:
            raise numbers.NumberError(f"the parameter `{name}` needs itself")
        if len(self.open) >= numbers.MOST_DEPTH:
            raise numbers.NumberError("parameters that need each other are nested too deep")
        self.open.add(name)
        try:
            self.values[name] = numbers.expression(node.text, self.value_of)
        finally:
            self.open.discard(name)
        return self.values[name]

    def number(self, node: Node, tag: str, default: Optional[int] = None) -> int:
        """The number in a child, at least 0. Raises NumberError."""
        child = node.find(tag)
        if child is None or not child.text.strip():
            if default is None:
                raise numbers.NumberError(f"no {tag}")
            return default
        value = numbers.expression(child.text, self.value_of)
        if child.attributes.get("dependency"):
            text = f"{tag} has a dependency, which isn't evaluated: taken as {value:#x}"
            self.report.changed(child.line, "", text)
        if value < 0:
            raise numbers.NumberError(f"{tag} {value} is below 0")
        return value

    def present(self, node: Node, where: str) -> bool:
        """Whether an element with `isPresent` is there."""
        try:
            there = bool(self.number(node, "isPresent", 1))
        except numbers.NumberError as error:
            self.report.left_out(node.line, where, str(error))
            return False
        if not there:
            self.report.noted(node.line, where, "isPresent is 0: not there")
        return there

    def boolean(self, node: Node, tag: str, default: bool) -> bool:
        """A truth value in a child. Raises NumberError."""
        text = node.get(tag)
        if text in ("true", "false"):
            return text == "true"
        return bool(self.number(node, tag, int(default)))

    # The component and its maps

    def chip(self) -> source.Chip:
        version = VERSIONS.get(self.root.space, "IP-XACT")
        chip = source.Chip(self.root.get("name") or "component", version)
        chip.text, chip.nested = self.root.get("description"), self.several
        ports = self._ports()
        for holder in self.root.all("memoryMaps"):
            for node in holder.all("memoryMap"):
                chip.spaces.extend(self.space(node, ports.get(node.get("name"), [])))
        there = {
            node.get("name") for holder in self.root.all("memoryMaps") for node in holder.children
        }
        for name in sorted(set(ports) - there):
            self.report.left_out(
                0, name, "a bus interface has this memory map, which isn't in the file"
            )
        self._gather_notes()
        return chip

    def _gather_notes(self) -> None:
        for holder in self.root.all("addressSpaces"):
            for node in holder.all("addressSpace"):
                text = "an address space, what the component reaches as a master: not imported"
                self.report.noted(node.line, node.get("name"), text)
        for holder in self.root.all("remapStates"):
            for node in holder.all("remapState"):
                text = "a remap state: the memory maps come as they are without it"
                self.report.noted(node.line, node.get("name"), text)

    def _ports(self) -> Dict[str, List[source.Port]]:
        """For each memory map the bus interfaces that show it."""
        result: Dict[str, List[source.Port]] = {}
        for holder in self.root.all("busInterfaces"):
            for node in holder.all("busInterface"):
                side = node.find("slave") or node.find("target")
                reference = side.find("memoryMapRef") if side is not None else None
                if reference is not None:
                    name = reference.attributes.get("memoryMapRef") or reference.text.strip()
                    result.setdefault(name, []).append(self._port(node))
        return result

    def _port(self, node: Node) -> source.Port:
        kind = node.find("busType")
        named = kind.attributes.get("name", "") if kind is not None else ""
        adapter = "apb" if named.lower().startswith("apb") else "plain"
        endian = "big" if node.get("endianness") == "big" else "little"
        return source.Port(node.get("name"), adapter, endian)

    def space(self, node: Node, ports: List[source.Port]) -> Iterator[source.Space]:
        name = node.get("name")
        if not self.present(node, name) or self._defined_elsewhere(node, name):
            return
        try:
            unit = self.number(node, "addressUnitBits", 8)
        except numbers.NumberError as error:
            self.report.left_out(node.line, name, str(error))
            return
        space = source.Space(
            name, [], ports or [source.Port(name)], 0, unit, node.get("description")
        )
        space.line = node.line
        access = self.access(node, "read-write")
        outer = _Outer(name if self.several else "", access, False, name, unit)
        for child in node.children:
            space.blocks.extend(self.within_map(child, outer, 0))
        widths = [one.bits for one in space.blocks if one.bits]
        space.bits = max(widths, default=32)
        if space.blocks:
            yield space

    def within_map(
        self, node: Node, outer: _Outer, base: int
    ) -> Iterator[Union[source.Block, source.Memory]]:
        where = outer.at(node)
        if node.tag in ("addressBlock", "bank") and self._defined_elsewhere(node, where):
            return
        if node.tag == "addressBlock":
            yield from self.block(node, outer, base)
        elif node.tag == "bank":
            yield from self.bank(node, outer, base)
        elif node.tag in ("subspaceMap", "memoryRemap"):
            self.report.left_out(node.line, where, f"a {node.tag} isn't read")

    def bank(
        self, node: Node, outer: _Outer, base: int
    ) -> Iterator[Union[source.Block, source.Memory]]:
        """A serial bank: its blocks stand one behind the other."""
        where = outer.at(node)
        if node.attributes.get("bankAlignment", "serial") != "serial":
            self.report.left_out(node.line, where, "a parallel bank isn't read")
            return
        if outer.depth > MOST_DEPTH:
            raise SourceError(f"{where}: banks are nested too deep", node.line)
        try:
            start = base + self.number(node, "baseAddress", 0)
            inner = outer.within(node, self.access(node, outer.access), outer.volatile)
            for child in node.children:
                if child.tag in ("addressBlock", "bank"):
                    yield from self.within_map(child, inner, start)
                    start += self._length(child)
        except numbers.NumberError as error:
            self.report.left_out(node.line, where, str(error))

    def _length(self, node: Node) -> int:
        if node.tag == "bank":
            return sum(
                self._length(one) for one in node.children if one.tag in ("addressBlock", "bank")
            )
        return self.number(node, "range")

    def block(
        self, node: Node, outer: _Outer, base: int
    ) -> Iterator[Union[source.Block, source.Memory]]:
        name = node.get("name")
        where = outer.at(node)
        if not self.present(node, where) or not self.choice.block(name, outer.space, where):
            return
        try:
            offset = base + self.number(node, "baseAddress", 0)
            width = self.number(node, "width")
            access = self.access(node, outer.access)
            if node.get("usage") == "memory":
                yield self.memory(node, offset, width, access, outer.unit)
                return
            volatile = self.boolean(node, "volatile", False)
        except numbers.NumberError as error:
            self.report.left_out(node.line, where, str(error))
            return
        block = source.Block(name, offset, [], width, _text(node), node.line)
        inner = replace(outer.within(node, access, volatile), depth=0)
        for child in node.children:
            block.items.extend(self.item(child, inner))
        if block.items:
            yield block
        else:
            self.report.noted(node.line, where, "it has no registers")

    def memory(self, node: Node, offset: int, width: int, access: str, unit: int) -> source.Memory:
        self.choice.count_item(node.line)
        size = self.number(node, "range") * unit // max(width, 1)
        memory = source.Memory(
            node.get("name"), offset, width, size, text=_text(node), line=node.line
        )
        memory.access = "ro" if access == "read-only" else "rw"
        memory.rights = "wo" if policy.rights(access) == "wo" else "rw"
        return memory

    # Registers

    def item(self, node: Node, outer: _Outer) -> _Items:
        where = outer.at(node)
        if node.tag not in ("register", "registerFile"):
            return
        if outer.depth > MOST_DEPTH:
            raise SourceError(f"{where}: register files are nested too deep", node.line)
        if not self.present(node, where) or self._defined_elsewhere(node, where):
            return
        try:
            read = self.registers if node.tag == "register" else self.groups
            yield from read(node, outer, where)
        except numbers.NumberError as error:
            self.report.left_out(node.line, where, str(error))

    def _defined_elsewhere(self, node: Node, where: str) -> bool:
        reference = next((one for one in node.children if one.tag.endswith("DefinitionRef")), None)
        if reference is not None and reference.tag != "enumerationDefinitionRef":
            text = f"its definition `{reference.text.strip()}` stands in another file"
            self.report.left_out(node.line, where, text)
            return True
        return False

    def groups(self, node: Node, outer: _Outer, where: str) -> _Items:
        """The elements of a register file."""
        offset = self.number(node, "addressOffset")
        volatile = self.boolean(node, "volatile", outer.volatile)
        inner = outer.within(node, self.access(node, outer.access), volatile)
        stride = self.number(node, "range", 0) if node.find("dim") or node.find("array") else 0
        for label, step in self.elements(node, stride):
            self.choice.count_item(node.line)
            group = source.Group(
                node.get("name") + label, offset + step, [], _text(node), node.line
            )
            for child in node.children:
                group.items.extend(self.item(child, inner))
            yield group

    def elements(self, node: Node, stride: int) -> List[Tuple[str, int]]:
        """The label and the step of each element of an array; one without a label where it is none."""
        holder = node.find("array") or node
        counts = [self._dim(one) for one in holder.all("dim")]
        if not counts:
            return [("", 0)]
        stride = self.number(holder, "stride", stride)
        stride = self.number(holder, "bitStride", stride)
        total = 1
        for count in counts:
            total *= count
        if total > MOST_DIM:
            raise numbers.NumberError(f"an array of {total} is above {MOST_DIM}")
        places = product(*(range(count) for count in counts))
        return [
            ("".join(f"[{one}]" for one in at), stride * step) for step, at in enumerate(places)
        ]

    def _dim(self, node: Node) -> int:
        count = numbers.expression(node.text, self.value_of)
        if not 0 <= count <= MOST_DIM:
            raise numbers.NumberError(f"dim {count} isn't from 0 to {MOST_DIM}")
        return count

    def registers(self, node: Node, outer: _Outer, where: str) -> _Items:
        """The elements of a register."""
        offset = self.number(node, "addressOffset")
        bits = self.number(node, "size")
        access = self.access(node, outer.access)
        inner = outer.within(node, access, self.boolean(node, "volatile", outer.volatile))
        fields: List[source.Field] = []
        skip: Set[str] = set()
        for child in node.all("field"):
            fields.extend(self.field(child, node, inner, skip))
        if node.find("field") is None:
            fields.append(self._whole(node, bits, inner))
        alternates = self._alternates(node, bits, outer, inner, skip)
        for label, step in self.elements(node, -(-bits // max(outer.unit, 1))):
            self.choice.count_item(node.line)
            name = node.get("name") + label
            register = source.Register(
                name, offset + step, bits, fields, text=_text(node), line=node.line
            )
            register.rights = policy.rights(access)
            register.skip = set(skip)
            yield register
            for other, rights, more in alternates:
                name = other.get("name") + label
                yield source.Register(
                    name,
                    offset + step,
                    bits,
                    more,
                    rights,
                    set(skip),
                    _text(other),
                    other.line,
                )

    def _whole(self, node: Node, bits: int, inner: _Outer) -> source.Field:
        whole = source.Field(
            "value", 0, bits, inner.access, volatile=inner.volatile, line=node.line
        )
        self._resets(node, node, whole)
        return whole

    def _alternates(
        self, node: Node, bits: int, outer: _Outer, inner: _Outer, skip: Set[str]
    ) -> List[Tuple[Node, str, List[source.Field]]]:
        """The other registers at the address of this one, each with its own rights and fields."""
        result: List[Tuple[Node, str, List[source.Field]]] = []
        for holder in node.all("alternateRegisters"):
            for one in holder.all("alternateRegister"):
                if not self.present(one, outer.at(one)):
                    continue
                try:
                    access = self.access(one, inner.access)
                    own = outer.within(one, access, self.boolean(one, "volatile", inner.volatile))
                    fields: List[source.Field] = []
                    for child in one.all("field"):
                        fields.extend(self.field(child, one, own, skip))
                    if one.find("field") is None:
                        fields.append(self._whole(one, bits, own))
                    result.append((one, policy.rights(access), fields))
                except numbers.NumberError as error:
                    self.report.left_out(one.line, outer.at(one), str(error))
        return result

    # Fields

    def field(
        self, node: Node, register: Node, outer: _Outer, skip: Set[str]
    ) -> Iterator[source.Field]:
        where = outer.at(node)
        if not self.present(node, where) or self._defined_elsewhere(node, where):
            return
        try:
            rules = self._rules(node, where)
            width = self.number(node, "bitWidth")
            if self.boolean(rules, "reserved", False):
                self.report.noted(node.line, where, "reserved: no field")
                return
            lsb = self.number(node, "bitOffset")
            for label, step in self.elements(node, width):
                self.choice.count_field(node.line)
                field = source.Field(node.get("name") + label, lsb + step, width, line=node.line)
                field.text = _text(node)
                field.volatile = self.boolean(node, "volatile", outer.volatile)
                field.access = self.access(rules, outer.access)
                field.write = self._action(rules, "modifiedWriteValue", policy.WRITES)
                field.read = self._action(rules, "readAction", policy.READS)
                field.values = self._values(node)
                self._resets(node, register, field)
                yield field
            self._tests(rules, where, skip)
        except numbers.NumberError as error:
            self.report.left_out(node.line, where, str(error))

    def _rules(self, node: Node, where: str) -> Node:
        """The element that holds a field's access: itself, or since 2022 one of its access policies."""
        holder = node.find("fieldAccessPolicies")
        policies = list(holder.all("fieldAccessPolicy")) if holder is not None else []
        if not policies:
            return node
        chosen = self._of_modes(policies, node, where)
        if chosen.find("fieldAccessPolicyDefinitionRef") is not None:
            raise numbers.NumberError("its access policy stands in another file")
        return chosen

    def _of_modes(self, policies: List[Node], node: Node, where: str) -> Node:
        """Of an element's access policies the first one without a mode, or else the first."""
        chosen = min(policies, key=lambda one: one.find("modeRef") is not None)
        if len(policies) > 1 or chosen.find("modeRef") is not None:
            mode = chosen.get("modeRef") or "no mode"
            self.report.changed(
                node.line, where, f"of its access policies by mode the one of {mode} is taken"
            )
        return chosen

    def access(self, node: Node, outer: str) -> str:
        """The access of an element, or the one around it. Raises NumberError."""
        holder = node.find("accessPolicies")
        policies = list(holder.all("accessPolicy")) if holder is not None else []
        if policies:
            text = self._of_modes(policies, node, node.get("name")).get("access")
        else:
            text = node.get("access")
        if not text:
            return outer
        if text not in policy.ACCESSES:
            raise numbers.NumberError(f"access `{text}` isn't one of the standard")
        return text

    @staticmethod
    def _action(node: Node, tag: str, words: "frozenset[str]") -> str:
        text = node.get(tag) or "-"
        if text not in words:
            raise numbers.NumberError(f"{tag} `{text}` isn't one of the standard")
        return text

    @staticmethod
    def _values(node: Node) -> List[source.EnumeratedValue]:
        holder = node.find("enumeratedValues")
        return [
            source.EnumeratedValue(one.get("name"), one.get("value"), _text(one))
            for one in (holder.all("enumeratedValue") if holder is not None else ())
        ]

    def _resets(self, node: Node, register: Node, field: source.Field) -> None:
        ones = (1 << min(field.width, 64)) - 1
        for reset in _reset_nodes(node):
            kind = reset.attributes.get("resetTypeRef") or source.HARD
            value = self.number(reset, "value")
            known = self.number(reset, "mask", ones) & ones
            field.resets[self._kind(kind, reset)] = source.Reset(value, known)
        whole = register.find("reset")
        if not field.resets and whole is not None and field.lsb < 2**16:
            value = self.number(whole, "value") >> field.lsb
            known = (self.number(whole, "mask", ones << field.lsb) >> field.lsb) & ones
            field.resets[source.HARD] = source.Reset(value & known, known)

    def _kind(self, kind: str, node: Node) -> str:
        name = _KINDS.get(kind.lower(), kind)
        if name != kind:
            self.report.changed(node.line, "", f"the reset type `{kind}` is the kind {name}")
        return name

    def _tests(self, node: Node, where: str, skip: Set[str]) -> None:
        """`testable` and `writeAsRead` as the sequences that leave the register out."""
        testable = node.find("testable")
        if testable is not None and testable.text.strip() in ("false", "0"):
            skip.add("NO_REG_TESTS")
            self.report.changed(
                testable.line, where, "not testable: all sequences leave its register out"
            )
            return
        constraint = testable.attributes.get("testConstraint", "") if testable is not None else ""
        limits = node.find("writeValueConstraint")
        if limits is not None and limits.get("writeAsRead") == "true":
            constraint = constraint or "writeAsRead"
        elif limits is not None:
            text = "a writeValueConstraint isn't described: the sequences write other values too"
            self.report.noted(limits.line, where, text)
        if constraint in ("restore", "writeAsRead", "readOnly"):
            skip.update(WRITING_TESTS)
            text = f"{constraint}: the sequences that write leave its register out"
            self.report.changed((testable or limits or node).line, where, text)


def _reset_nodes(node: Node) -> Iterator[Node]:
    for holder in node.all("resets"):
        yield from holder.all("reset")


def _text(node: Node) -> str:
    return node.get("description") or node.get("displayName")


def read(root: Node, report: Report, choice: Choice) -> source.Chip:
    """What an IP-XACT component says. Raises SourceError."""
    return _Reader(root, report, choice).chip()
