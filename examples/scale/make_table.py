#!/usr/bin/env python3
"""Writes a table of N geometries of all kinds, the same for the same N. make_table.py N > table.csv"""
import random
import sys


def polyline(points):
    """The encoded polyline of points (x, y)."""
    text, last_x, last_y = [], 0, 0
    for x, y in points:
        for step in (y - last_y, x - last_x):
            form = 2 * step if step >= 0 else -2 * step - 1
            while form >= 32:
                text.append(chr(form % 32 + 32 + 63))
                form //= 32
            text.append(chr(form + 63))
        last_x, last_y = x, y
    return "".join(text)


def walk(random_numbers, count):
    """Points that begin anywhere on the earth and go on in small steps."""
    x, y = random_numbers.randint(-18000000, 18000000), random_numbers.randint(-9000000, 9000000)
    points = []
    for _ in range(count):
        points.append((x, y))
        x, y = x + random_numbers.randint(-100, 100), y + random_numbers.randint(-100, 100)
    return points


def rows(random_numbers, number):
    """The rows of the geometry with that number."""

    def line(count):
        return polyline(walk(random_numbers, count))

    return [
        lambda: [f"0,point,,5,{line(1)}"],
        lambda: [f"0,linestring,,5,{line(random_numbers.randint(0, 60))}"],
        lambda: ["0,polygon,,5,", f"1,ring,,,{line(30)}", f"1,ring,,,{line(5)}"],
        lambda: ["0,multipoint,,0,"] + [f"1,point,{number + k},,{line(1)}" for k in range(5)],
        lambda: ["0,multilinestring,,6,"] + [f"1,linestring,,,{line(k)}" for k in range(4)],
        lambda: [
            "0,collection,,5,",
            f"1,point,7,5,{line(1)}",
            f"1,collection,{-number},0,",
            f"2,linestring,,0,{line(20)}",
            "2,multipolygon,,0,",
            "3,polygon,,,",
            f"4,ring,,,{line(9)}",
        ],
    ][number % 6]()


def main():
    random_numbers = random.Random(1)
    print("depth,kind,id,precision,polyline")
    for number in range(int(sys.argv[1])):
        print("\n".join(rows(random_numbers, number)))


if __name__ == "__main__":
    main()
