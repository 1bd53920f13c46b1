"""Reads sections and instructions of a WebAssembly module: those that modules of this project have, and no others."""
import sys

I32, I64, F64, V128 = 0x7F, 0x7E, 0x7C, 0x7B
CALL, LOCAL_GET, LOCAL_SET, LOCAL_TEE, GLOBAL_GET, I32_CONST, I64_CONST = 0x10, 0x20, 0x21, 0x22, 0x23, 0x41, 0x42
MEMORY_SIZE, MEMORY_GROW, F64_CONST, I32_WRAP, I64_EXTEND_S, I64_EXTEND_U = 0x3F, 0x40, 0x44, 0xA7, 0xAC, 0xAD
BULK, SIMD = 0xFC00, 0xFD00
MEMORY_COPY, MEMORY_FILL = BULK + 10, BULK + 11
V128_STORE, V128_CONST = SIMD + 11, SIMD + 12

LOADS = {*range(0x28, 0x36), *range(SIMD, SIMD + 11), SIMD + 92, SIMD + 93}
STORES = {0x36: I32, 0x37: I64, 0x39: F64, 0x3A: I32, 0x3B: I32, 0x3C: I64, 0x3D: I64, 0x3E: I64, V128_STORE: V128}
LANES = set(range(SIMD + 84, SIMD + 92))  # loads and stores of a lane: the vector is above the address
BARE = {0x00, 0x01, 0x05, 0x0B, 0x0F, 0x1A, 0x1B}  # unreachable, nop, else, end, return, drop, select


def fail(why):
    sys.exit(f"{sys.argv[0]}: {why}")


def leb(number):
    out = bytearray()
    while number >> 7:
        out.append(number & 127 | 128)
        number >>= 7
    return bytes(out + bytes([number]))


def signed_leb(number):
    out = bytearray()
    while not -64 <= number < 64:
        out.append(number & 127 | 128)
        number >>= 7
    return bytes(out + bytes([number & 127]))


def vector(items):
    return leb(len(items)) + b"".join(items)


class Reader:
    def __init__(self, data, at=0):
        self.data, self.at = data, at

    def more(self):
        return self.at < len(self.data)

    def take(self, count):
        self.at += count
        if self.at > len(self.data):
            fail("cut short")
        return self.data[self.at - count : self.at]

    def byte(self):
        return self.take(1)[0]

    def number(self):
        value = shift = 0
        while True:
            byte = self.byte()
            value |= (byte & 127) << shift
            shift += 7
            if byte < 128:
                return value

    def signed(self):
        start, value = self.at, self.number()
        size = 7 * (self.at - start)
        return value - (1 << size) if value >> (size - 1) else value

    def content(self):
        return self.take(self.number())


def sections(module):
    """The number and the content of each section."""
    reader = Reader(module)
    if reader.take(8) != b"\0asm\1\0\0\0":
        fail("no module")
    while reader.more():
        yield reader.byte(), reader.content()


def parameters(content):
    """How many parameters each type of the section of types has."""
    reader, counts = Reader(content), []
    for _ in range(reader.number()):
        if reader.byte() != 0x60:
            fail("a type that is no function")
        counts.append(reader.number())
        reader.take(counts[-1])
        reader.take(reader.number())
    return counts


def bodies(content):
    """The locals and the code of each function: groups (how many, of what type), and a reader at its instructions."""
    reader = Reader(content)
    for _ in range(reader.number()):
        body = Reader(reader.content())
        groups = [(body.number(), body.byte()) for _ in range(body.number())]
        yield groups, body


def instructions(reader):
    """The number, the operand and the bytes of each instruction, in its shortest form. The operand of an access is its
    alignment and its offset, with the lane."""
    while reader.more():
        code, operand, written = reader.byte(), None, b""
        head = bytes([code])
        if code >= 0xFC:
            number = reader.number()
            if number > 255:
                fail(f"instruction {code:#x} {number}")
            code = (code << 8) + number
            head += leb(number)
        if code in LOADS or code in STORES or code in LANES:
            operand = [reader.number() for _ in range(2)]
            written = leb(operand[0]) + leb(operand[1])
            if operand[0] > 4:
                fail("an alignment above 16")
            if code in LANES:
                written += reader.take(1)
        elif code in (0x02, 0x03, 0x04, I32_CONST, I64_CONST):  # block, loop, if: the type
            operand = reader.signed()
            written = signed_leb(operand)
        elif code in (0x0C, 0x0D, CALL, LOCAL_GET, LOCAL_SET, LOCAL_TEE, GLOBAL_GET, 0x24):  # br, br_if; global.set
            operand = reader.number()
            written = leb(operand)
        elif code == 0x0E:  # br_table
            operand = [reader.number() for _ in range(reader.number() + 1)]
            written = leb(len(operand) - 1) + b"".join(map(leb, operand))
        elif code in (MEMORY_SIZE, MEMORY_GROW, MEMORY_FILL):
            written = reader.take(1)
        elif code == MEMORY_COPY:
            written = reader.take(2)
        elif code == F64_CONST:
            written = reader.take(8)
        elif code in (V128_CONST, SIMD + 13):  # i8x16.shuffle
            written = reader.take(16)
        elif SIMD + 21 <= code <= SIMD + 34:  # extract_lane, replace_lane
            written = reader.take(1)
        elif code not in BARE and not 0x45 <= code <= 0xC4 and not SIMD + 13 < code < SIMD + 256:
            fail(f"instruction {code:#x}")
        yield code, operand, head + written
