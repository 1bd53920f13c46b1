"""Times of the native library: native_times.py LIBRARY.so TABLE STREAM ROUNDS prints those of its conversions."""
import ctypes
import sys
import time

sys.dont_write_bytecode = True
from cases import NAMES, loaded, options_of


def least(call, number, source, room, rounds):
    """The least processor time of a conversion, in milliseconds, over buffers that are there already."""
    output = ctypes.create_string_buffer(room)
    given = ctypes.create_string_buffer(source, len(source))
    best, options = 1e9, options_of((16, 1 << 20, 1 << 24), 0)
    for _ in range(rounds):
        start = time.process_time()
        report = call(
            number, ctypes.addressof(given), len(source), ctypes.addressof(output), room, options, len(options)
        )
        best = min(best, time.process_time() - start)
        if report.status != 0:
            sys.exit(f"status {report.status}")
    return 1000 * best


def main():
    library, rounds = loaded(sys.argv[1]), int(sys.argv[4])
    sources = [open(name, "rb").read() for name in sys.argv[2:4]]
    room = 20 * len(sources[0])
    for number, source in enumerate((sources[0], *4 * sources[1:])):
        print(NAMES[number], least(library.polytwkb_convert, number, source, room, rounds))


if __name__ == "__main__":
    main()
