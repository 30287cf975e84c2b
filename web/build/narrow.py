"""Gives a WebAssembly module with a 64-bit memory a 32-bit one.

Each address is cut to its lower 32 bits where it is used; numbers keep their 64 bits. So the program does the same as long as
each of its addresses is below 4 GiB, as those of its heap and its stack are. Sizes and results of memory.size and memory.grow
are converted. Custom sections are left out. What this file does not know is refused. The same module gives the same bytes."""

from __future__ import annotations

I32, I64, F32, F64 = 0x7F, 0x7E, 0x7D, 0x7C
WRAP, EXTEND_SIGNED, EXTEND = b"\xa7", b"\xac", b"\xad"
GET, SET = b"\x20", b"\x21"

# The instructions by what follows their code.
PLAIN = frozenset([0x00, 0x01, 0x05, 0x0B, 0x0F, 0x1A, 0x1B, *range(0x45, 0xC5)])
SIGNED = frozenset([0x02, 0x03, 0x04, 0x41, 0x42])
INDEXED = frozenset([0x0C, 0x0D, 0x10, *range(0x20, 0x25)])
FLOATS = {0x43: 4, 0x44: 8}
BRANCH_TABLE, CALL_INDIRECT, TYPED_SELECT, MEMORY_SIZE, MEMORY_GROW, PREFIXED = 0x0E, 0x11, 0x1C, 0x3F, 0x40, 0xFC
LOADS = frozenset(range(0x28, 0x36))
STORED = {0x36: I32, 0x37: I64, 0x38: F32, 0x39: F64, 0x3A: I32, 0x3B: I32, 0x3C: I64, 0x3D: I64, 0x3E: I64}
# Of the instructions with a prefix: those that saturate, and those of memory.
SATURATING, COPY, FILL = range(8), 10, 11

SECTIONS_KEPT = frozenset([6, 7, 8, 12])
CUSTOM, TYPES, IMPORTS, FUNCTIONS, TABLES, MEMORIES, ELEMENTS, CODE, DATA = 0, 1, 2, 3, 4, 5, 9, 10, 11
PAGES = 65536


class Refused(Exception):
    """The module has something that this file does not know."""


class Reader:
    """A place in bytes."""

    def __init__(self, data: bytes, at: int = 0, end: int | None = None) -> None:
        self.data, self.at, self.end = data, at, len(data) if end is None else end

    def byte(self) -> int:
        self.at += 1
        return self.data[self.at - 1]

    def take(self, n: int) -> bytes:
        self.at += n
        return self.data[self.at - n : self.at]

    def unsigned(self) -> int:
        result = shift = 0
        while True:
            it = self.byte()
            result |= (it & 0x7F) << shift
            shift += 7
            if not it & 0x80:
                return result

    def signed(self) -> int:
        result = shift = 0
        while True:
            it = self.byte()
            result |= (it & 0x7F) << shift
            shift += 7
            if not it & 0x80:
                return result - (1 << shift) if it & 0x40 else result


def unsigned(n: int) -> bytes:
    """The shortest form of an unsigned number."""
    out = bytearray()
    while True:
        low, n = n & 0x7F, n >> 7
        out.append(low | (0x80 if n else 0))
        if not n:
            return bytes(out)


def signed(n: int) -> bytes:
    """The shortest form of a signed number."""
    out = bytearray()
    while True:
        low, n = n & 0x7F, n >> 7
        is_last = (n == 0 and not low & 0x40) or (n == -1 and bool(low & 0x40))
        out.append(low if is_last else low | 0x80)
        if is_last:
            return bytes(out)


class Function:
    """A function's body. The values that lie above an address on the stack go through locals that are added to it."""

    def __init__(self, it: Reader, parameters: int, is_wide_table: bool) -> None:
        self.it, self.is_wide_table = it, is_wide_table
        self.groups = [(it.unsigned(), it.byte()) for _ in range(it.unsigned())]
        self.first_added = parameters + sum(n for n, _ in self.groups)
        self.added: list[tuple[int, int]] = []

    def local(self, kind: int, which: int = 0) -> bytes:
        """The index of an added local of this type."""
        if (kind, which) not in self.added:
            self.added.append((kind, which))
        return unsigned(self.first_added + self.added.index((kind, which)))

    def narrowed(self) -> bytes:
        out = bytearray()
        while self.it.at < self.it.end:
            out += self.instruction()
        groups = [*self.groups, *((1, kind) for kind, _ in self.added)]
        return unsigned(len(groups)) + b"".join(unsigned(n) + bytes([kind]) for n, kind in groups) + bytes(out)

    def instruction(self) -> bytes:
        it = self.it
        code = it.byte()
        head = bytes([code])
        if code in PLAIN:
            return head
        if code in INDEXED:
            return head + unsigned(it.unsigned())
        if code in SIGNED:
            return head + signed(it.signed())
        if code in LOADS:
            return WRAP + head + self.place()
        if code in STORED:
            value = self.local(STORED[code])
            return SET + value + WRAP + GET + value + head + self.place()
        if code in FLOATS:
            return head + it.take(FLOATS[code])
        return self.rare(code, head)

    def rare(self, code: int, head: bytes) -> bytes:
        it = self.it
        if code == BRANCH_TABLE:
            count = it.unsigned()
            return head + unsigned(count) + b"".join(unsigned(it.unsigned()) for _ in range(count + 1))
        if code == CALL_INDIRECT:
            return (WRAP if self.is_wide_table else b"") + head + unsigned(it.unsigned()) + unsigned(it.unsigned())
        if code == TYPED_SELECT:
            count = it.unsigned()
            return head + unsigned(count) + it.take(count)
        if code == MEMORY_SIZE:
            return head + it.take(1) + EXTEND
        if code == MEMORY_GROW:
            # A refused growth is -1 in both sizes.
            return WRAP + head + it.take(1) + EXTEND_SIGNED
        if code == PREFIXED:
            return self.prefixed(it.unsigned())
        raise Refused(f"instruction {code:02x}")

    def place(self) -> bytes:
        """Alignment and offset of a load or a store."""
        alignment, offset = self.it.unsigned(), self.it.unsigned()
        if offset >> 32:
            raise Refused("an offset of 4 GiB or more")
        return unsigned(alignment) + unsigned(offset)

    def prefixed(self, code: int) -> bytes:
        head = bytes([PREFIXED]) + unsigned(code)
        if code in SATURATING:
            return head
        if code not in (COPY, FILL):
            raise Refused(f"instruction fc {code}")
        # From the top: a length, then an address or a byte, then an address.
        length, middle = self.local(I32, 0), self.local(I32, 1)
        cut = WRAP + SET + length + (WRAP if code == COPY else b"") + SET + middle + WRAP + GET + middle + GET + length
        return cut + head + self.it.take(2 if code == COPY else 1)


def limits(it: Reader) -> tuple[bytes, bool]:
    """The limits of a memory or a table without the bit of 64-bit addresses, and whether it was set."""
    flags = it.unsigned()
    if flags & ~5:
        raise Refused(f"limits with flags {flags}")
    numbers = [it.unsigned() for _ in range(1 + (flags & 1))]
    if flags & 4:
        numbers[1:] = [min(n, PAGES) for n in numbers[1:]]
    return bytes([flags & 1]) + b"".join(map(unsigned, numbers)), bool(flags & 4)


def offset(it: Reader) -> bytes:
    """The offset of a segment, as a constant of 32 bits."""
    code = it.byte()
    if code not in (0x41, 0x42):
        raise Refused("an offset that is no constant")
    n = it.signed()
    if it.byte() != 0x0B or not 0 <= n < 1 << 32:
        raise Refused("an offset that is no constant below 4 GiB")
    return b"\x41" + signed(n - (1 << 32) if n >> 31 else n) + b"\x0b"


class Module:
    """A module whose sections are narrowed one after another."""

    def __init__(self) -> None:
        self.parameters: list[int] = []
        self.functions: list[int] = []
        self.is_wide_table = False

    def section(self, kind: int, it: Reader) -> bytes:
        if kind in SECTIONS_KEPT:
            return it.take(it.end - it.at)
        start, narrowed = it.at, {
            TYPES: self.types, IMPORTS: self.imports, FUNCTIONS: self.function_types, TABLES: self.tables,
            MEMORIES: self.memories, ELEMENTS: self.elements, CODE: self.code, DATA: self.data,
        }.get(kind)
        if narrowed is None:
            raise Refused(f"section {kind}")
        return narrowed(it) or it.data[start : it.end]

    def types(self, it: Reader) -> None:
        for _ in range(it.unsigned()):
            if it.byte() != 0x60:
                raise Refused("a type that is no function's")
            self.parameters.append(it.unsigned())
            it.take(self.parameters[-1])
            it.take(it.unsigned())

    def imports(self, it: Reader) -> None:
        for _ in range(it.unsigned()):
            it.take(it.unsigned())
            it.take(it.unsigned())
            if it.byte():
                raise Refused("an import that is no function")
            it.unsigned()

    def function_types(self, it: Reader) -> None:
        self.functions = [it.unsigned() for _ in range(it.unsigned())]

    def tables(self, it: Reader) -> bytes:
        out = bytearray(unsigned(count := it.unsigned()))
        for _ in range(count):
            out.append(it.byte())
            numbers, is_wide = limits(it)
            self.is_wide_table |= is_wide
            out += numbers
        return bytes(out)

    def memories(self, it: Reader) -> bytes:
        out = bytearray(unsigned(count := it.unsigned()))
        for _ in range(count):
            numbers, is_wide = limits(it)
            if not is_wide:
                raise Refused("a memory that has no 64-bit addresses")
            out += numbers
        return bytes(out)

    def elements(self, it: Reader) -> bytes:
        out = bytearray(unsigned(count := it.unsigned()))
        for _ in range(count):
            if it.unsigned():
                raise Refused("a segment of a table that is not plain")
            out += b"\0" + offset(it)
            start = it.at
            for _ in range(it.unsigned()):
                it.unsigned()
            out += it.data[start : it.at]
        return bytes(out)

    def code(self, it: Reader) -> bytes:
        out = bytearray(unsigned(it.unsigned()))
        for index in self.functions:
            size = it.unsigned()
            function = Function(Reader(it.data, it.at, it.at + size), self.parameters[index], self.is_wide_table).narrowed()
            it.take(size)
            out += unsigned(len(function)) + function
        return bytes(out)

    def data(self, it: Reader) -> bytes:
        out = bytearray(unsigned(count := it.unsigned()))
        for _ in range(count):
            if it.unsigned():
                raise Refused("a segment that is not active")
            out += b"\0" + offset(it) + unsigned(size := it.unsigned()) + it.take(size)
        return bytes(out)


def narrow(wide: bytes) -> bytes:
    """The module with a 32-bit memory."""
    it = Reader(wide)
    if it.take(8) != b"\0asm\1\0\0\0":
        raise Refused("bytes that are no module")
    out, module = bytearray(wide[:8]), Module()
    while it.at < it.end:
        kind, size = it.byte(), it.unsigned()
        part = Reader(wide, it.at, it.at + size)
        it.take(size)
        if kind != CUSTOM:
            made = module.section(kind, part)
            out += bytes([kind]) + unsigned(len(made)) + made
    return bytes(out)
