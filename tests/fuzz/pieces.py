"""Streams and arrays in calls of any window and any room, beside the second implementation of each call and of the whole."""
from itertools import accumulate

import blob
from arrays import arrays_of, bytes_of_points, bytes_of_rows, index_outside, named_by
from library import STOP_IF_FULL


# The second implementation goes through all that is left at each call: long streams have larger windows and rooms.
MOST_CALLS = 20


def ends_in(stream, count):
    """Where so many blobs of a stream end, by the items in them."""
    ends, place = [], 0
    for _ in range(count):
        place = blob.items_of(stream, place)[0][-1].end
        ends.append(place)
    return ends


def some_room(chance, count):
    return max(count + chance.choice((0, 0, 0, 1, -1, -2, -count, 5)), 0)


def fitting(sizes, rooms):
    """How many items in turn there is room for, if each takes so much of each room. Rooms that are None are not looked at."""
    sums = [0] * len(rooms)
    for number, own in enumerate(sizes):
        sums = [total + size for total, size in zip(sums, own)]
        if any(room is not None and total > room for total, room in zip(sums, rooms)):
            return number
    return len(sizes)


class Pieces:
    """Needs `library`, and the numbers of reasons by their texts in `blob_reasons` and `reasons`."""

    def wanted_of_read(self, stream, rooms, nest, flags):
        """What a call gives."""
        geometries, _, fault = blob.spelled_in(stream, nest)
        arrays, all_ends = list(map(arrays_of, geometries)), ends_in(stream, len(geometries))
        sizes = [(len(rows), len(points), 1) for rows, points in arrays]
        whole = fitting(sizes, (*rooms[:2], rooms[2] or None))
        is_full = whole < len(arrays)
        status = 5 if is_full else 1 if fault else 0
        place, reason = (fault[0], self.blob_reasons[fault[1]]) if status == 1 else (0, 0)
        counted = sizes[: whole + 1] if is_full and flags else sizes
        needed = [sum(own[column] for own in counted) for column in (0, 1)]
        rows, points = ([part for pair in arrays[:whole] for part in pair[column]] for column in (0, 1))
        ends = all_ends[:whole]
        fields = status, reason, place, whole, len(rows), len(points), *needed, ends[-1] if ends else 0
        return fields, bytes_of_rows(rows), bytes_of_points(points), ends if rooms[2] else []

    def read_call(self, stream, rooms, limits, flags):
        """What a call gives, which is what the second implementation gives."""
        wanted = self.wanted_of_read(stream, rooms, limits[0], flags)
        found = self.library.read(stream, rooms, limits, flags)
        assert (
            found == wanted
        ), f"read {stream.hex()} into {rooms}, limits {limits}, flags {flags}: {found}, not {wanted}"
        return found

    def read_in_windows(self, chance, stream, limits):
        """A stream that is read by windows and rooms that grow if nothing is taken is read as by one call."""
        enough = [len(stream) + 1] * 3
        whole = self.read_call(stream, enough, limits, chance.randrange(2))
        window = chance.randrange(1 + len(stream) // MOST_CALLS, len(stream) + 2)
        rooms = [chance.randrange(4) + count // MOST_CALLS for count in (*whole[0][4:6], whole[0][3])]
        rows, points, ends, place, done = b"", b"", [], 0, 0
        while True:
            part = stream[place : place + window]
            fields, *some = self.read_call(part, rooms, limits, STOP_IF_FULL)
            status, reason, fault, count, taken = *fields[:4], fields[-1]
            rows, points, ends = rows + some[0], points + some[1], ends + [place + end for end in some[2]]
            place, done, is_last = place + taken, done + count, place + window >= len(stream)
            if status == 5 and taken == 0:
                rooms = [*map(max, rooms, fields[6:8]), max(rooms[2], 1)]
            elif status == 1 and (is_last or reason != self.blob_reasons["truncated"]):
                fault += place - taken
                break
            elif status == 1 and taken == 0:
                window *= 2
            elif status == 0 and is_last:
                break
        ends = ends if rooms[2] else whole[3]
        found = (status, reason, fault, done), rows, points
        assert found == (whole[0][:4], *whole[1:3]), f"in windows {stream.hex()} is read otherwise, limits {limits}"
        assert ends == whole[3][len(whole[3]) - len(ends) :], f"in windows {stream.hex()} has other ends"

    def wanted_of_write(self, rows, points, rooms, nest, style, flags):
        """What a call gives."""
        geometries, fault = named_by(rows, points, nest)
        blobs = [blob.canonical(geometry, style == 0) for geometry in geometries]
        done = fitting([(len(own), 1) for own in blobs], (rooms[0], rooms[1] or None))
        is_full = done < len(blobs)
        status = 5 if is_full else 1 if fault else 0
        place, reason = (fault[0], self.reasons[fault[1]]) if status == 1 else (0, 0)
        index, output = index_outside(rows, points, fault) if status == 1 else 0, b"".join(blobs[:done])
        counted = blobs[: done + 1] if is_full and flags else blobs
        arrays, ends = list(map(arrays_of, geometries[:done])), list(accumulate(map(len, blobs[:done])))
        taken = [sum(len(pair[column]) for pair in arrays) for column in (0, 1)]
        fields = (status, reason, place, index, done, len(output), sum(map(len, counted)), *taken)
        return fields, output, ends if rooms[1] else []

    def write_call(self, rows, points, rooms, limits, style, flags):
        """What a call gives, which is what the second implementation gives."""
        wanted = self.wanted_of_write(rows, points, rooms, limits[0], style, flags)
        found = self.library.write(bytes_of_rows(rows), bytes_of_points(points), rooms, limits, style, flags)
        told = f"write {rows} and {points} into {rooms}, limits {limits}, style {style}, flags {flags}"
        assert found == wanted, f"{told}: {found}, not {wanted}"
        return found

    def write_in_pieces(self, chance, rows, points, limits, style, whole):
        """Rows and points that are written by rooms that grow if nothing is taken give the stream of one call."""
        rooms = [chance.randrange(8) + whole[0][5] // MOST_CALLS, chance.randrange(3) + whole[0][4] // MOST_CALLS]
        output, ends, done, row, point = b"", [], 0, 0, 0
        while True:
            fields, sent, some = self.write_call(rows[row:], points[point:], rooms, limits, style, STOP_IF_FULL)
            ends, output, done = (ends + [len(output) + end for end in some], output + sent, done + fields[4])
            if fields[0] != 5:
                break
            row, point = row + fields[7], point + fields[8]
            if fields[7] == 0:
                rooms = [max(rooms[0], fields[6]), max(rooms[1], 1)]
        fault = fields[2] + row if fields[0] == 1 else 0
        found = (*fields[:2], fault, fields[3], done, len(output)), output
        assert found == (whole[0][:6], whole[1]), f"in pieces {rows} and {points} are written otherwise"
        whole_ends = whole[2][len(whole[2]) - len(ends) :]
        assert not whole[2] or ends == whole_ends, f"in pieces {rows} and {points} have other ends"
