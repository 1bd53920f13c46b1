"""Stops at a function of an LLVM module that calls itself, by way of others or not: circles.py MODULE.ll.

Those that go through the members of collections may: on a path of calls they are as often as geometries are inside one
another.
"""
import re
import sys

# What functions that go through the members of collections are called.
OF_MEMBERS = (
    "twkb_flat::built_geometry::",
    "twkb_flat::twkb_tree++geometry++",
    "twkb_geojson::geometry_text::",
    "twkb_geojson::twkb_tree++geometry++",
)
DEFINED = re.compile(r'^define .*?@("[^"]+"|[\w.]+)\(')
CALLED = re.compile(r'\bcall .*?@("[^"]+"|[\w.]+)\(')


class Groups:
    """Functions that call one another in a circle are one group, and any other function is a group. A group comes after
    those that it calls."""

    def __init__(self, calls):
        self.calls, self.found = calls, []
        self.order, self.least, self.path, self.done = {}, {}, [], set()
        for name in calls:
            if name not in self.order:
                self.enter(name)

    def enter(self, name):
        self.order[name] = self.least[name] = len(self.order)
        self.path.append(name)
        for other in self.calls[name]:
            if other not in self.order:
                self.enter(other)
            if other not in self.done:
                self.least[name] = min(self.least[name], self.least[other])
        if self.least[name] == self.order[name]:
            place = self.path.index(name)
            self.found.append(self.path[place:])
            self.done.update(self.path[place:])
            del self.path[place:]


def groups(calls):
    """Each group of functions, and whether it is a circle; of each function there is whom it calls."""
    sys.setrecursionlimit(10**5)
    for group in Groups(calls).found:
        yield group, any(calls[name].intersection(group) for name in group)


def calls_in(text):
    """Whom each function of a module calls."""
    calls, name = {}, None
    for line in text.splitlines():
        defined = DEFINED.match(line)
        if defined:
            name = defined[1].strip('"')
            calls[name] = set()
        elif name:
            calls[name].update(called.strip('"') for called in CALLED.findall(line))
    return {name: called.intersection(calls) for name, called in calls.items()}


def main(path):
    with open(path, encoding="utf-8") as module:
        calls = calls_in(module.read())
    for group, is_circle in groups(calls):
        if is_circle and not any(name.startswith(OF_MEMBERS) for name in group):
            sys.exit(f"circles.py: {', '.join(group)}: a function calls itself")


if __name__ == "__main__":
    main(sys.argv[1])
