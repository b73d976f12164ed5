"""Reads the register descriptions of OpenTitan's reggen, in Hjson."""

from __future__ import annotations

from typing import Dict, Iterator, List, Optional, Set, Tuple

from . import hjsontree, numbers, policy, source
from .choice import Choice
from .errors import SourceError
from .hjsontree import Table
from .report import Report

MOST_COUNT = 65_536
WRITING_TESTS = {"NO_REG_BIT_BASH_TEST", "NO_REG_ACCESS_TEST", "NO_REG_SHARED_ACCESS_TEST"}

# The access words of reggen in the words of policy.py. `r0w1c` reads as 0 and a write of 1 clears.
ACCESSES: Dict[str, Tuple[str, str, str]] = {
    "none": (policy.NO_ACCESS, "-", "-"),
    "ro": ("read-only", "-", "-"),
    "rc": ("read-only", "-", "clear"),
    "rw": ("read-write", "-", "-"),
    "wo": ("write-only", "-", "-"),
    "r0w1c": ("write-only", "oneToClear", "-"),
    "rw1c": ("read-write", "oneToClear", "-"),
    "rw1s": ("read-write", "oneToSet", "-"),
    "rw0c": ("read-write", "zeroToClear", "-"),
}

# For each of reggen's tests the sequences that do alike, and for each exclusion whether it concerns
# a test after a reset, and one that writes.
TEST_SEQUENCES: Dict[str, Set[str]] = {
    "CsrHwResetTest": {"NO_REG_HW_RESET_TEST"},
    "CsrBitBashTest": {"NO_REG_BIT_BASH_TEST"},
    "CsrRwTest": {"NO_REG_ACCESS_TEST", "NO_REG_SHARED_ACCESS_TEST"},
    "CsrAliasingTest": set(),
    "CsrMemAccessTest": set(),
    "CsrNonInitTests": WRITING_TESTS,
    "CsrAllTests": WRITING_TESTS | {"NO_REG_HW_RESET_TEST"},
}
EXCLUSIONS: Dict[str, Tuple[bool, bool]] = {
    "CsrExclInitCheck": (True, False),
    "CsrExclWriteCheck": (False, True),
    "CsrExclCheck": (True, True),
    "CsrExclWrite": (False, True),
    "CsrExclAll": (True, True),
}


class _Reader:
    def __init__(self, root: Table, report: Report, choice: Choice) -> None:
        self.root = root
        self.report = report
        self.choice = choice
        self.width = self._top_number("regwidth", 32)
        self.bytes = max(1, self.width // 8)
        self.parameters: Dict[str, str] = {}
        for one in root.tables("param_list"):
            self.parameters[one.text("name")] = one.text("default")
        self.locks: Set[str] = set()
        self.place = 0

    def _top_number(self, key: str, default: int) -> int:
        try:
            return numbers.expression(self.root.text(key) or str(default))
        except numbers.NumberError as error:
            raise SourceError(f"{key}: {error}", self.root.line) from None

    def number(self, text: str, what: str = "number") -> int:
        """A number, a parameter or an expression of both. Raises NumberError."""
        if not text:
            raise numbers.NumberError(f"no {what}")
        return numbers.expression(text, self._parameter)

    def _parameter(self, name: str) -> int:
        if name not in self.parameters:
            raise numbers.NumberError(f"the parameter `{name}` isn't in the file")
        return numbers.expression(self.parameters[name])

    def chip(self) -> source.Chip:
        name = self.root.text("name")
        if not name or "registers" not in self.root:
            raise SourceError("no `name` or no `registers`: not a file of reggen", self.root.line)
        chip = source.Chip(name, "reggen hjson", text=self.root.text("one_line_desc"))
        registers = self.root["registers"]
        parts = {"": registers} if isinstance(registers, list) else registers
        if not isinstance(parts, dict):
            raise SourceError("`registers` is no list and no object of lists", self.root.line)
        holders = parts if isinstance(parts, Table) else Table(parts)
        ports = [one.text("name") for one in self.root.tables("bus_interfaces")]
        for at, key in enumerate(holders):
            port = key or next((port for port in ports if port), "") or "bus"
            entries = holders.tables(key) if key else self.root.tables("registers")
            block = self.block(f"{name}_{key}" if key else name, entries, at == 0)
            if block is not None:
                space = source.Space(port, [block], [source.Port(port)], self.width)
                chip.spaces.append(space)
        return chip

    def block(self, name: str, entries: List[Table], first: bool) -> Optional[source.Block]:
        if not self.choice.block(name):
            return None
        block = source.Block(name, 0, line=self.root.line, text=self.root.text("one_line_desc"))
        self.place = 0
        if first:
            block.items.extend(self._automatic())
        for entry in entries:
            block.items.extend(self.entry(entry, name))
        self._lock(block)
        return block

    def _lock(self, block: source.Block) -> None:
        """A register that locks others is left alone by what writes: else these would be locked."""
        for item in block.items:
            if isinstance(item, source.Register) and item.name in self.locks:
                item.skip |= WRITING_TESTS
                text = "it locks other registers: the sequences that write leave it out"
                self.report.changed(item.line, f"{block.name}.{item.name}", text)

    # Interrupts and alerts, whose registers reggen makes itself

    def _automatic(self) -> Iterator[source.Register]:
        interrupts, alerts = self.root.tables("interrupt_list"), self.root.tables("alert_list")
        if interrupts and self.root.text("no_auto_intr_regs") != "true":
            yield self._made("INTR_STATE", interrupts, "rw1c", "Interrupt state, made by reggen")
            yield self._made("INTR_ENABLE", interrupts, "rw", "Interrupt enable, made by reggen")
            yield self._made("INTR_TEST", interrupts, "wo", "Interrupt test, made by reggen")
        if alerts and self.root.text("no_auto_alert_regs") != "true":
            yield self._made("ALERT_TEST", alerts, "wo", "Alert test, made by reggen")

    def _made(self, name: str, signals: List[Table], access: str, text: str) -> source.Register:
        self.choice.count_item(self.root.line)
        register = source.Register(name, self.place, self.width, text=text, line=signals[0].line)
        self.place += self.bytes
        lsb = 0
        for one in signals:
            width = self._signal_width(one)
            status = one.text("type") == "status" and access == "rw1c"
            field = source.Field(one.text("name"), lsb, width, line=one.line, text=one.text("desc"))
            field.access, field.write, field.read = ACCESSES["ro" if status else access]
            field.volatile = access == "rw1c"
            field.resets[source.HARD] = source.Reset(0, (1 << min(width, 64)) - 1)
            register.fields.append(field)
            lsb += width
        if access == "wo":
            register.skip.add("NO_REG_ACCESS_TEST")
            what = "interrupts" if name == "INTR_TEST" else "alerts"
            text = f"what a write does to the {what} isn't described; seq access leaves it out"
            self.report.noted(register.line, f"{self.root.text('name')}.{name}", text)
        return register

    def _signal_width(self, one: Table) -> int:
        try:
            return self.number(one.text("width") or "1")
        except numbers.NumberError as error:
            raise SourceError(f"width of {one.text('name')}: {error}", one.line) from None

    # The entries of a list of registers

    def entry(self, entry: Table, path: str) -> Iterator[source.Item]:
        inner = entry.get("multireg", entry.get("window"))
        named = inner if isinstance(inner, Table) else entry
        where = f"{path}.{named.text('name')}" if "name" in named else path
        try:
            if "skipto" in entry:
                self._skip_to(self.number(entry.text("skipto")), entry, where)
            elif "reserved" in entry:
                self.place += self.bytes * self.number(entry.text("reserved"))
            elif "window" in entry:
                yield from self.window(_inner(entry, "window"), path)
            elif "multireg" in entry:
                yield from self.multireg(_inner(entry, "multireg"), path)
            elif "sameaddr" in entry:
                yield from self.same_address(entry, path)
            else:
                yield self.register(entry, path)
                self.place += self.bytes
        except numbers.NumberError as error:
            self.report.left_out(entry.line, where, str(error))
            self.place += self.bytes

    def _skip_to(self, place: int, entry: Table, where: str) -> None:
        if place < self.place:
            text = f"skipto {place:#x} is below {self.place:#x}, which was reached"
            self.report.changed(entry.line, where, text)
        self.place = place

    def same_address(self, entry: Table, path: str) -> Iterator[source.Item]:
        for one in entry.tables("sameaddr"):
            yield self.register(one, path)
        self.place += self.bytes

    def window(self, entry: Table, path: str) -> Iterator[source.Item]:
        name = entry.text("name") or "window"
        where = f"{path}.{name}"
        self.choice.count_item(entry.line)
        size = self.number(entry.text("items") or "1")
        if not 0 < size <= 2**32:
            raise numbers.NumberError(f"a window of {size} items")
        length = size * self.bytes
        align = 1 << (length - 1).bit_length()
        self.place = -(-self.place // align) * align
        memory = source.Memory(name, self.place, self.width, size, line=entry.line)
        memory.text = entry.text("desc")
        access = entry.text("swaccess") or "rw"
        memory.access = "ro" if access == "ro" else "rw"
        memory.rights = "wo" if access == "wo" else "rw"
        if access not in ("ro", "rw", "wo"):
            self.report.left_out(entry.line, where, f"swaccess {access} of a window: taken as rw")
        valid = entry.text("validbits")
        if valid and self.number(valid) != self.width:
            memory.skip.add("NO_MEM_WALK_TEST")
            text = f"only {valid} bits of a location are there: mem-walk leaves it out"
            self.report.changed(entry.line, where, text)
        self.place += length
        yield memory

    def register(self, entry: Table, path: str) -> source.Register:
        """A register at the place that was reached. Raises NumberError."""
        name = entry.text("name")
        if not name:
            raise numbers.NumberError("a register without a name")
        self.choice.count_item(entry.line)
        where = f"{path}.{name}"
        register = source.Register(name, self.place, self.width, line=entry.line)
        register.text = entry.text("desc")
        self._tags(entry, where, register.skip)
        fields = entry.tables("fields")
        for at, one in enumerate(fields):
            plain = name if len(fields) == 1 else f"field{at + 1}"
            register.fields.extend(self.field(one, entry, plain, where))
            self._tags(one, f"{where}.{one.text('name') or plain}", register.skip)
        self._notes(entry, where, register)
        return register

    def _notes(self, entry: Table, where: str, register: source.Register) -> None:
        lock = entry.text("regwen")
        if lock:
            self.locks.add(lock)
            self.report.noted(
                entry.line, where, f"regwen {lock}: that it can be locked isn't described"
            )
        if entry.text("shadowed") == "true":
            register.skip |= WRITING_TESTS
            text = "shadowed, each value is written twice: the sequences that write leave it out"
            self.report.changed(entry.line, where, text)
        if register.name == "INTR_TEST" or register.name.startswith("INTR_TEST_"):
            register.skip.add("NO_REG_ACCESS_TEST")
            text = "what a write does to the interrupts isn't described; seq access leaves it out"
            self.report.noted(entry.line, where, text)

    def _tags(self, entry: Table, where: str, skip: Set[str]) -> None:
        tags = entry.get("tags", [])
        for tag in tags if isinstance(tags, list) else []:
            parts = str(tag).split(":")
            if parts[0] == "excl" and len(parts) == 3:
                self._exclude(parts[1], parts[2], entry, where, skip)
            else:
                self.report.noted(entry.line, where, f"the tag `{tag}` isn't read")

    def _exclude(self, test: str, kind: str, entry: Table, where: str, skip: Set[str]) -> None:
        if test not in TEST_SEQUENCES or kind not in EXCLUSIONS:
            self.report.left_out(entry.line, where, f"the tag `excl:{test}:{kind}` isn't known")
            return
        initial, writing = EXCLUSIONS[kind]
        wanted = set(TEST_SEQUENCES[test])
        if not initial:
            wanted.discard("NO_REG_HW_RESET_TEST")
        if not writing:
            wanted -= WRITING_TESTS
        skip |= wanted
        text = f"`excl:{test}:{kind}` is skip {', '.join(sorted(wanted)) or 'nothing'}"
        self.report.noted(entry.line, where, text)

    # Fields

    def field(self, one: Table, register: Table, plain: str, path: str) -> Iterator[source.Field]:
        name = one.text("name") or plain
        where = f"{path}.{name}"
        try:
            self.choice.count_field(one.line)
            lsb, width = self._bits(one.text("bits"))
            field = source.Field(name, lsb, width, line=one.line, text=one.text("desc"))
            access = one.text("swaccess") or register.text("swaccess")
            if access not in ACCESSES:
                raise numbers.NumberError(f"swaccess `{access}` isn't one of reggen")
            field.access, field.write, field.read = ACCESSES[access]
            hardware = one.text("hwaccess") or register.text("hwaccess") or "hro"
            field.volatile = hardware in ("hrw", "hwo")
            self._reset(one, register, field)
            for value in one.tables("enum"):
                spelled = (value.text("name"), value.text("value"), value.text("desc"))
                field.values.append(source.EnumeratedValue(*spelled))
            yield field
        except numbers.NumberError as error:
            self.report.left_out(one.line, where, str(error))

    def _bits(self, text: str) -> Tuple[int, int]:
        high, sign, low = text.partition(":")
        msb = self.number(high, "bits")
        lsb = self.number(low) if sign else msb
        if not 0 <= lsb <= msb < 2**16:
            raise numbers.NumberError(f"bits `{text}`")
        return lsb, msb - lsb + 1

    def _reset(self, one: Table, register: Table, field: source.Field) -> None:
        ones = (1 << min(field.width, 64)) - 1
        text = one.text("resval")
        whole = register.text("resval")
        if text:
            value = None if text.lower() == "x" else self._value(text, field.width)
        elif whole:
            value = None if whole.lower() == "x" else (self.number(whole) >> field.lsb) & ones
        else:
            value = 0
        if value is not None:
            field.resets[source.HARD] = source.Reset(value, ones)

    def _value(self, text: str, width: int) -> int:
        """A reset value; `true` and `false` are those of a field that is a multi-bit truth value."""
        if text in ("true", "false"):
            return _multi_bit(text == "true", width)
        value = self.number(text)
        return value & ((1 << width) - 1) if value < 0 else value

    # Several registers of one kind

    def multireg(self, entry: Table, path: str) -> Iterator[source.Item]:
        count = self.number(entry.text("count"), "count")
        if not 0 < count <= MOST_COUNT:
            raise numbers.NumberError(f"count {count} isn't from 1 to {MOST_COUNT}")
        model = self.register(entry, path)
        single = len(model.fields) == 1
        compact = (entry.text("compact") or ("true" if single else "false")) == "true"
        top = max((one.lsb + one.width for one in model.fields), default=1)
        per = max(1, self.width // top) if compact and single else 1
        registers = -(-count // per)
        stride = self.number(entry.text("stride") or str(self.bytes))
        begin = self.place
        for at in range(registers):
            self.choice.count_item(entry.line)
            name = f"{model.name}_{at}" if registers > 1 else model.name
            copy = source.Register(name, begin + at * stride, self.width, line=entry.line)
            copy.text, copy.skip = model.text, set(model.skip)
            for index in range(per * at, min(count, per * (at + 1))):
                copy.fields.extend(self._copies(model, index, top * (index - per * at), count))
            yield copy
        self.place = begin + registers * stride
        lock = entry.text("regwen")
        if lock and entry.text("regwen_multi") == "true":
            self.locks.update(f"{lock}_{at}" for at in range(registers))

    def _copies(
        self, model: source.Register, index: int, shift: int, count: int
    ) -> Iterator[source.Field]:
        for one in model.fields:
            self.choice.count_field(one.line)
            name = f"{one.name}_{index}" if count > 1 else one.name
            copy = source.Field(name, one.lsb + shift, one.width, one.access, one.write, one.read)
            copy.volatile, copy.resets, copy.values = one.volatile, dict(one.resets), one.values
            copy.text, copy.line = one.text, one.line
            yield copy


def _multi_bit(true: bool, width: int) -> int:
    """OpenTitan's multi-bit truth values: 0x6 and 0x9 in each four bits, the top cut to the width."""
    value = 0
    for at in range(0, width, 4):
        value |= (0x6 if (at // 4) % 2 == (0 if true else 1) else 0x9) << at
    return value & ((1 << width) - 1)


def _inner(entry: Table, key: str) -> Table:
    inner = entry[key]
    if not isinstance(inner, Table):
        raise SourceError(f"`{key}` isn't an object", entry.line)
    return inner


def read(data: bytes, report: Report, choice: Choice) -> source.Chip:
    """What a file of reggen says. Raises SourceError."""
    try:
        text = data.decode("utf-8-sig")
    except UnicodeDecodeError as error:
        line = data.count(b"\n", 0, error.start) + 1
        raise SourceError("not UTF-8", line) from None
    return _Reader(hjsontree.parse(text), report, choice).chip()
