"""The most bytes of stack that a call of an export takes: stack.py MODULE.wasm ROOM. It stops if they are more.

No function of the module is called by a pointer: the script stops at such a call. So the bound is the sum of the frames
on the deepest path of calls. Functions that call themselves, by way of others or not, are those that go through the
members of collections (circles.py): on a path each is as often as geometries are inside one another.
"""
import sys

from circles import groups
from wasm import CALL, GLOBAL_GET, I64_CONST, LOCAL_GET, LOCAL_SET, Reader, bodies, fail, instructions, sections

FRAME = [I64_CONST, 0x7D]  # i64.sub
# A geometry is in at most 32 collections.
LEVELS = 33


def frame_and_calls(body):
    """How far the function goes below the pointer of the stack, the first global, and the functions that it calls."""
    code = [(number, operand) for number, operand, _ in instructions(body)]
    gets = [place for place, (number, _) in enumerate(code) if number == GLOBAL_GET]
    frame = 0
    if gets:
        after = code[gets[0] + 1]
        if after[0] == LOCAL_SET:  # the frame is made later, of the local
            starts = [place for place, step in enumerate(code) if step == (LOCAL_GET, after[1])]
        else:
            starts = gets
        starts = [place for place in starts if [number for number, _ in code[place + 1 : place + 3]] == FRAME]
        if len(gets) != 1 or len(starts) != 1:
            fail("a frame that is not of one size")
        frame = code[starts[0] + 1][1]
    return frame, {operand for number, operand in code if number == CALL}


def exported(content):
    reader = Reader(content)
    for _ in range(reader.number()):
        name, kind, index = reader.content().decode(), reader.byte(), reader.number()
        if kind == 0:
            yield name, index


def bounds_of(functions):
    """The most bytes of stack that a call of each function takes."""
    bounds = {}
    for group, is_circle in groups({number: calls for number, (_, calls) in enumerate(functions)}):
        frames = sum(functions[number][0] for number in group)
        others = {other for number in group for other in functions[number][1]}.difference(group)
        below = max((bounds[other] for other in others), default=0)
        bounds.update(dict.fromkeys(group, (LEVELS if is_circle else 1) * frames + below))
    return bounds


if __name__ == "__main__":
    with open(sys.argv[1], "rb") as source:
        module = dict(sections(source.read()))
    bounds, bound = bounds_of([frame_and_calls(body) for _, body in bodies(module[10])]), 0
    for name, index in exported(module[7]):
        bound = max(bound, bounds[index])
        print(f"stack of {name}: {bounds[index]} bytes")
    if bound > int(sys.argv[2]):
        fail(f"{bound} bytes of stack are more than {sys.argv[2]}")
