"""What the scripts share: their words, rows of tables, keys beside them, and faults in one line."""
import argparse
import csv
import io
import os
import sys

HEADER = "depth,kind,id,precision,polyline\n"
# Words for a missing value that are encoded polylines too, of points near (0, 0). The other usual ones are none.
MISSING_WORDS = {"NULL", "\\N", "NA", "NaN", "NaT", "NONE", "[NULL]"}
# A field may be a polyline of any length.
csv.field_size_limit(1 << 30)


class Fault(Exception):
    """What is wrong with an input, and where."""


class Ended(Exception):
    """A program that a script runs has ended with this status, and has said why."""


def words_of(script, *words):
    """The words of the command line: each a name, or a name and what argparse needs to know of it."""
    parser = argparse.ArgumentParser(description=script, formatter_class=argparse.RawDescriptionHelpFormatter)
    for name, more in words:
        parser.add_argument(name, **more)
    return parser.parse_args()


def precision_of(word):
    if not -8 <= int(word) <= 7:
        raise argparse.ArgumentTypeError(f"{word} is not from -8 to 7")
    return int(word)


def delimiter_of(word):
    word = "\t" if word in ("\\t", "tab") else word
    if len(word) != 1 or word in '"\r\n':
        raise argparse.ArgumentTypeError(f"{word!r} is not one character")
    return word


PRECISION = ("precision", {"type": precision_of, "help": "decimals, from -8 to 7"})
DELIMITER = (
    "--delimiter",
    {
        "type": delimiter_of,
        "default": ",",
        "metavar": "CHARACTER",
        "help": "what is between fields, a comma if it is not given; tab for a tab",
    },
)
NULL = (
    "--null",
    {
        "action": "append",
        "default": [],
        "metavar": "TEXT",
        "help": "a text that means a missing value, such as NULL; it may be given several times",
    },
)
STOPS_COLUMNS = (
    "--columns",
    {
        "nargs": 3,
        "metavar": ("KEY", "LATITUDE", "LONGITUDE"),
        "default": ["stop_id", "stop_lat", "stop_lon"],
        "help": "the columns to use",
    },
)
SHAPES_COLUMNS = (
    "--columns",
    {
        "nargs": 4,
        "metavar": ("KEY", "SEQUENCE", "LATITUDE", "LONGITUDE"),
        "default": ["shape_id", "shape_pt_sequence", "shape_pt_lat", "shape_pt_lon"],
        "help": "the columns to use",
    },
)
REST = ("--rest", {"metavar": "FILE", "help": "the file for the other columns"})
REST_BACK = ("rest", {"metavar": "REST", "help": "the file with the other columns"})


def input_text():
    """Standard input as UTF-8, with or without a byte order mark."""
    return io.TextIOWrapper(sys.stdin.buffer, "utf-8-sig", newline="")


def input_records(delimiter=","):
    """The records of CSV on standard input."""
    return csv.reader(input_text(), delimiter=delimiter)


def columns_of(records, *names):
    """The header of CSV, and the places of these names in it."""
    header = next(records, [])
    for name in names:
        if name not in header:
            other = next((mark for mark in ";\t|," if len(header) == 1 and mark in header[0]), None)
            tip = f"; for its delimiter: --delimiter {'tab' if other == chr(9) else repr(other)}" if other else ""
            raise Fault(f"no column {name}; the header has {', '.join(header) or 'no column':.200}{tip}")
        if header.count(name) > 1:
            raise Fault(f"{header.count(name)} columns are named {name}")
    return header, [header.index(name) for name in names]


def for_records(records, fields, put):
    """Calls put with each record of CSV after its header; each has so many fields.

    A fault gets the record's number, and its last line, if that is another number. An empty line is no record.
    """
    number = 1
    for record in records:
        if not record:
            continue
        number += 1
        try:
            if len(record) != fields:
                raise Fault(f"{len(record)} fields, and {fields} in the header")
            put(record)
        except Fault as fault:
            line = "" if records.line_num == number else f", line {records.line_num}"
            raise Fault(f"record {number}{line}: {fault}") from None


def table_rows():
    """The rows of a table on standard input, after its header."""
    rows = input_records()
    if ",".join(next(rows, [])) + "\n" != HEADER:
        raise Fault(f"no table: the first line of one is {HEADER.strip()}")
    return rows


class Rest:
    """The file of `--rest`, if it is given: the records of a CSV without the fields at some places."""

    def __init__(self, words, header, places):
        self.file, self.places = open(words.rest, "w", encoding="utf-8", newline="") if words.rest else None, places
        self.writer = self.file and csv.writer(self.file, delimiter=words.delimiter, lineterminator="\n")
        if self.file:
            self.writer.writerow(header)

    def __enter__(self):
        return self

    def __exit__(self, *_):
        if self.file:
            self.file.close()

    def put(self, record):
        """Writes a record, whose fields at the places become empty."""
        if self.file:
            for place in self.places:
                record[place] = None
            self.writer.writerow(record)


def value_of(field, nulls):
    """The text of a field, empty if it is one of these texts for a missing value."""
    return "" if field in nulls else field


def key_line(key):
    """The line of a key in a file beside the table."""
    if "\n" in key or "\r" in key:
        raise Fault("the key has a line end")
    return key + "\n"


def run(main, last=""):
    """Runs a script. A fault in what it is given is one line and status 1.

    What is written then ends with a text that the next command refuses, so that a pipe without `pipefail` does not end
    with status 0.
    """
    try:
        main()
        sys.stdout.flush()
        return
    except BrokenPipeError:
        # What reads the output has ended, and says why.
        fault = 3
    except KeyboardInterrupt:
        fault = 130
    except Ended as found:
        (fault,) = found.args
    except UnicodeDecodeError as found:
        fault = f"not UTF-8, so it may be compressed or UTF-16: byte {found.object[found.start]:02x} in what is read"
    except OSError as found:
        fault = f"{found.filename}: {found.strerror}" if found.filename else found.strerror
    except (Fault, csv.Error) as found:
        fault = str(found)
    try:
        sys.stdout.write(last)
        sys.stdout.flush()
    except OSError:
        os.dup2(os.open(os.devnull, os.O_WRONLY), sys.stdout.fileno())
    sys.exit(fault if isinstance(fault, int) else f"{os.path.basename(sys.argv[0])}: {fault}")
