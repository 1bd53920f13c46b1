"""Makes a WebAssembly module with a 64-bit memory into one with a 32-bit memory, which every engine has.

    lower.py IN.wasm OUT.wasm [--check]

Pointers stay 64 bits wide: each address is cut to its low 32 bits where memory is accessed, and nothing else changes.
No memory here has an address of 2^32 or more, and an access there traps in the module that is read. So what does not
trap there does the same here. With --check the module that is written traps there too, by a test before each access:
for runs of tests, which show that no address is ever cut. An instruction that is not known stops it, and engines
validate types, so an address that was not cut does not load.
"""
import sys

from wasm import (
    I32,
    I32_CONST,
    I32_WRAP,
    I64,
    I64_CONST,
    I64_EXTEND_S,
    I64_EXTEND_U,
    LANES,
    LOADS,
    LOCAL_GET,
    LOCAL_SET,
    LOCAL_TEE,
    MEMORY_COPY,
    MEMORY_FILL,
    MEMORY_GROW,
    MEMORY_SIZE,
    STORES,
    V128,
    V128_CONST,
    Reader,
    bodies,
    fail,
    instructions,
    leb,
    parameters,
    sections,
    signed_leb,
    vector,
)

PUSHES = {LOCAL_GET, I32_CONST, I64_CONST, V128_CONST}  # instructions that only push a value


class Code:
    """The code of a function as it is written, and the locals that are added for values above an address."""

    def __init__(self, groups, first_local, check):
        self.groups, self.next_local, self.check = groups, first_local + sum(count for count, _ in groups), check
        self.added, self.out = {}, []

    def put(self, code, raw):
        self.out.append((code, raw))

    def on_local(self, code, local):
        self.put(code, bytes([code]) + leb(local))

    def local(self, kind, use):
        """A local of this type for this use."""
        if (kind, use) not in self.added:
            self.added[kind, use] = self.next_local
            self.groups.append((1, kind))
            self.next_local += 1
        return self.added[kind, use]

    def cut(self):
        """Cuts the number on top of the stack to 32 bits."""
        code, raw = self.out[-1]
        if code == I64_EXTEND_U:
            self.out.pop()
        elif code == I64_CONST and 0 <= Reader(raw, 1).signed() < 1 << 31:
            self.out[-1] = I32_CONST, bytes([I32_CONST]) + raw[1:]  # the same bytes spell it
        else:
            if self.check:
                address = self.local(I64, "address")
                self.on_local(LOCAL_TEE, address)
                self.put(None, b"\x42\x20\x88\x50\x45\x04\x40\x00\x0b")  # if (address >> 32) unreachable
                self.on_local(LOCAL_GET, address)
            self.put(I32_WRAP, bytes([I32_WRAP]))

    def cut_below(self, kind):
        """Cuts the number below the value on top of the stack."""
        if self.out[-1][0] in PUSHES:
            above = self.out.pop()
            self.cut()
            self.out.append(above)
        else:
            value = self.local(kind, "value")
            self.on_local(LOCAL_SET, value)
            self.cut()
            self.on_local(LOCAL_GET, value)

    def cut_three(self, *kinds):
        """Cuts those of the three values on top of the stack that have 64 bits."""
        locals = [self.local(kind, place) for place, kind in enumerate(kinds)]
        for local in reversed(locals):
            self.on_local(LOCAL_SET, local)
        for local, kind in zip(locals, kinds):
            self.on_local(LOCAL_GET, local)
            if kind == I64:
                self.cut()

    def add(self, code, operand, raw):
        if code in LOADS:
            self.cut()
        elif code in STORES:
            self.cut_below(STORES[code])
        elif code in LANES:
            self.cut_below(V128)
        elif code == MEMORY_COPY:
            self.cut_three(I64, I64, I64)
        elif code == MEMORY_FILL:
            self.cut_three(I64, I32, I64)
        elif code == MEMORY_GROW:
            self.put(I32_WRAP, bytes([I32_WRAP]))
        if (code in LOADS or code in STORES or code in LANES) and operand[1] >> 32:
            fail("an offset of 2^32 or more")
        self.put(code, raw)
        if code == MEMORY_SIZE:
            self.put(I64_EXTEND_U, bytes([I64_EXTEND_U]))
        elif code == MEMORY_GROW:
            self.put(I64_EXTEND_S, bytes([I64_EXTEND_S]))  # -1 stays -1

    def written(self):
        groups = vector([leb(count) + bytes([kind]) for count, kind in self.groups])
        code = groups + b"".join(raw for _, raw in self.out)
        return leb(len(code)) + code


def memory(content):
    reader = Reader(content)
    if reader.take(2) != b"\1\4":
        fail("not one memory of 64 bits without a limit")
    return b"\1\0" + leb(reader.number())


def data(content):
    reader, segments = Reader(content), []
    for _ in range(reader.number()):
        kind, code, at, end = reader.number(), reader.byte(), reader.signed(), reader.byte()
        if (kind, code, end) != (0, I64_CONST, 0x0B) or not 0 <= at < 1 << 31:
            fail("a segment that does not stand at a constant")
        content = reader.content()
        segments.append(b"\0" + bytes([I32_CONST]) + signed_leb(at) + b"\x0b" + leb(len(content)) + content)
    return vector(segments)


def code(content, parameters_of, check):
    written = []
    for own, (groups, body) in zip(parameters_of, bodies(content)):
        function = Code(groups, own, check)
        for instruction in instructions(body):
            function.add(*instruction)
        written.append(function.written())
    return vector(written)


def lowered(module, check=False):
    out, types, parameters_of = [module[:8]], [], []
    for kind, content in sections(module):
        if kind == 1:
            types = parameters(content)
        elif kind == 3:
            reader = Reader(content)
            parameters_of = [types[reader.number()] for _ in range(reader.number())]
        elif kind == 5:
            content = memory(content)
        elif kind == 10:
            content = code(content, parameters_of, check)
        elif kind == 11:
            content = data(content)
        elif kind == 4:
            continue  # a table that the linker makes for calls by pointers: what used it would be refused
        elif kind not in (0, 6, 7, 12):  # names and the like, globals, exports, how many segments
            fail(f"section {kind}")  # an import, a start, elements of a table
        if kind or Reader(content).content() != b"target_features":
            out.append(bytes([kind]) + leb(len(content)) + content)
    return b"".join(out)


if __name__ == "__main__":
    with open(sys.argv[1], "rb") as source:
        result = lowered(source.read(), "--check" in sys.argv)
    with open(sys.argv[2], "wb") as target:
        target.write(result)
