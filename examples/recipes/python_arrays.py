"""The lines of a stream of blobs in arrays of numpy, and such arrays as a stream again."""
import numpy
import polytwkb

TABLE = """depth,kind,id,precision,polyline
0,linestring,,5,yop}Gysml@lAxTfChSgKhK
0,linestring,,5,cip}Guill@\\E~@vD
"""
blobs = polytwkb.pack(TABLE)
print(f"{len(blobs)} bytes: {blobs.hex()}")

rows, points = map(numpy.asarray, polytwkb.read(blobs))
print(rows[["kind", "counts", "precision"]])
lines = numpy.split(points, numpy.cumsum(rows["counts"])[:-1])
for line in lines:
    print(line.shape, line.min(axis=0), line.max(axis=0))

columns = {"kind": polytwkb.Kind.LINESTRING, "counts": [len(line) for line in lines], "precision": 5}
written = polytwkb.write(columns, numpy.concatenate(lines))
print("back:", "the same bytes" if written == blobs else "other bytes")

try:
    polytwkb.read(blobs[:-1])
except polytwkb.Refused as refused:
    print(refused)
try:
    polytwkb.write(columns, points[:-1])
except polytwkb.Refused as refused:
    print(refused)
