"""Encoded polylines: a text is cut into numbers first, and its points are sums over the whole list."""
import re
from itertools import accumulate

from geometry import LEAST, MOST, differences, signed, zigzag

WHOLE = re.compile(rb"[\x5f-\x7e]{0,12}[\x3f-\x5e]")
FIRST = re.compile(rb"[\x3f-\x7e]{0,13}")


def spelled(number):
    form, groups = zigzag(number), []
    while form >= 32:
        groups.append(form % 32 + 95)
        form //= 32
    return bytes(groups + [form + 63])


def encode(points):
    return b"".join(spelled(dy) + spelled(dx) for dx, dy in differences(points))


def number_at(text, offset):
    """The form of the number there and its length; or None, where the fault is and its reason."""
    whole = WHOLE.match(text, offset)
    if not whole:
        first = FIRST.match(text, offset).group()
        if len(first) == 13:
            return None, offset, "number too long"
        if offset + len(first) == len(text):
            return None, offset, "number cut short"
        return None, offset + len(first), "bad character"
    groups = [(unit - 63) % 32 for unit in whole.group()]
    if len(groups) == 13 and groups[-1] >= 16:
        return None, offset, "number too long"
    if len(groups) > 1 and groups[-1] == 0:
        return None, offset, "padded number"
    return sum(group * 32**place for place, group in enumerate(groups)), len(groups), None


def decode(text, most):
    """The points and None, or None and (offset, reason)."""
    numbers, offsets, offset, fault = [], [], 0, None
    while offset < len(text) and len(numbers) < 2 * most:
        form, length, reason = number_at(text, offset)
        if reason:
            fault = length, reason
            break
        numbers.append(signed(form))
        offsets.append(offset)
        offset += length
    if not fault and offset < len(text):
        fault = offset, "too many points"
    if not fault and len(numbers) % 2:
        fault = offset, "latitude without longitude"
    ys, xs = list(accumulate(numbers[0::2])), list(accumulate(numbers[1::2]))
    outside = [2 * place for place, y in enumerate(ys) if not LEAST <= y <= MOST]
    outside += [2 * place + 1 for place, x in enumerate(xs) if not LEAST <= x <= MOST]
    if outside:
        return None, (offsets[min(outside)], "coordinate out of range")
    if fault:
        return None, fault
    return list(zip(xs, ys)), None
