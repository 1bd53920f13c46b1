"""Lists of (latitude, longitude) to TWKB blobs and back, by the package polyline and polytwkb."""
import csv
import io
import subprocess

import polyline

COLUMNS = ["depth", "kind", "id", "precision", "polyline"]


def polytwkb(command, given):
    """What polytwkb writes; its line is raised where it refuses what it is given."""
    run = subprocess.run(["polytwkb", command], input=given, capture_output=True)
    if run.returncode != 0:
        raise ValueError(run.stderr.decode().strip())
    return run.stdout


def blobs_of(routes):
    """The stream of routes, each a list of (latitude, longitude), with five decimals."""
    text = io.StringIO()
    table = csv.writer(text)
    table.writerow(COLUMNS)
    for route in routes:
        table.writerow([0, "linestring", "", 5, polyline.encode(route, 5)])
    return polytwkb("pack", text.getvalue().encode())


def routes_of(stream):
    """The lists of (latitude, longitude) of the linestrings in a stream."""
    rows = csv.DictReader(io.StringIO(polytwkb("unpack", stream).decode()))
    return [polyline.decode(row["polyline"], int(row["precision"])) for row in rows if row["kind"] == "linestring"]


routes = [
    [(46.94797, 7.44781), (46.94758, 7.44432), (46.9469, 7.44107), (46.94886, 7.4391)],
    [(38.5, -120.2), (40.7, -120.95), (43.252, -126.453)],
]
stream = blobs_of(routes)
print(f"{len(stream)} bytes: {stream.hex()}")
print("back: the same routes" if routes_of(stream) == routes else "back: other routes")

try:
    routes_of(stream[:50])
except ValueError as fault:
    print(fault)
