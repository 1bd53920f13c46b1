"""The blobs of a stream, one by one, by the lines of `polytwkb show`."""
import os
import subprocess

from tables import Ended, Fault


def blobs_of(path):
    """Each blob of the stream in a file, and its offset; Ended, if the status of `polytwkb show` is not 0."""
    if not os.path.isfile(path):
        raise Fault(f"{path} is no file")
    with open(path, "rb") as stream, open(path, "rb") as shown:
        headers = subprocess.Popen(["polytwkb", "show"], stdin=shown, stdout=subprocess.PIPE, text=True)
        for header in headers.stdout:
            level, offset, _, _, _, length, _ = header.split()
            if level == "0":
                yield int(offset), stream.read(int(length))
    status = headers.wait()
    if status:
        raise Ended(status)
