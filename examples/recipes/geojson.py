"""Features of GeoJSON, one after another, from a text that is read piece by piece."""
import json
import re

from tables import Fault

PIECE = 1 << 18
BLANKS = re.compile("[ \t\r\n\x1e]*")
# How near to the end of what is held a value or a fault may be another one with more text: a number cut before its
# exponent, or a word. A string may be cut anywhere.
CUT = 16


def no_constant(name):
    raise Fault(f"{name} is no number of JSON")


DECODE = json.JSONDecoder(parse_constant=no_constant).raw_decode


class Values:
    """The values of JSON in a text."""

    def __init__(self, file):
        self.file, self.held, self.place, self.ended = file, "", 0, False

    def read_more(self):
        """Holds what is not taken, and as much again."""
        rest = self.held[self.place :]
        piece = self.file.read(max(PIECE, len(rest)))
        self.held, self.place, self.ended = rest + piece, 0, not piece

    def next(self):
        """The next character that is no blank, which is not taken; "" at the end."""
        while True:
            self.place = BLANKS.match(self.held, self.place).end()
            if self.place < len(self.held) or self.ended:
                return self.held[self.place : self.place + 1]
            self.read_more()

    def take(self, characters):
        """Takes the next character, which is one of these."""
        found = self.next()
        if not found or found not in characters:
            raise Fault(f"no JSON: {found or 'the end'} in place of {' or '.join(characters)}")
        self.place += 1
        return found

    def value(self):
        """Takes the next value. If what is held may cut it, it is read again with more."""
        while True:
            self.next()
            try:
                value, end = DECODE(self.held, self.place)
                if end + CUT < len(self.held) or self.ended:
                    self.place = end
                    return value
            except json.JSONDecodeError as fault:
                far = fault.pos + CUT < len(self.held) and not fault.msg.startswith("Unterminated string")
                if far or self.ended:
                    raise Fault(f"no JSON: {fault.msg}: {self.held[fault.pos : fault.pos + 40]!r}") from None
            except RecursionError:
                raise Fault("nested too deep") from None
            self.read_more()

    def items(self, first, last):
        """Takes an array or an object: goes on at each of its items, which the caller takes."""
        self.take(first)
        if self.next() == last:
            return self.take(last)
        while True:
            yield
            if self.take("," + last) == last:
                return

    def features(self):
        """Takes an object: the features of a FeatureCollection one by one, or else the object itself."""
        if self.next() == "[":
            raise Fault("an array in place of a FeatureCollection; jq -c '.[]' makes lines of one")
        whole, streamed = {}, False
        for _ in self.items("{", "}"):
            if self.next() != '"':
                self.take('"')
            name = self.value()
            self.take(":")
            if name == "features" and self.next() == "[":
                streamed = True
                for _ in self.items("[", "]"):
                    yield self.value()
            else:
                whole[name] = self.value()
        if not streamed:
            yield whole


def features_of(file):
    """The features of a text of GeoJSON: of a FeatureCollection, a Feature or a geometry, or of lines of these."""
    values = Values(file)
    while values.next():
        yield from values.features()
