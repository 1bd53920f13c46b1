"""Tables of Google encoded polylines to streams of TWKB blobs and back, exactly, by the proved library libpolytwkb.

A table is CSV with the columns depth, kind, id, precision and polyline; a stream is blobs one after the other. A call converts any number
of geometries: give it many. What the library refuses is the exception `Refused`, with the reason and the place.
"""
from ._arrays import Arrays, read
from ._boxes import Boxes, boxes
from ._check import check
from ._columns import Points
from ._conversions import Header, Limits, pack, show, split, to_geojson, unpack
from ._csv import pack_column, unpack_column
from ._geometries import geometries
from ._library import VERSION as __version__
from ._offsets import Packed
from ._packing import pack_geometries
from ._points import in_degrees, in_units
from ._polylines import decode, decode_flat, encode
from ._ragged import GeometryType, Ragged, pack_ragged, ragged
from ._refused import Refused
from ._rows import NO_PRECISION, Kind, Row, Rows
from ._shapes import shapes
from ._streams import stream
from ._wkb_calls import from_wkb, to_wkb
from ._writing import write

__all__ = [
    "NO_PRECISION",
    "Arrays",
    "Boxes",
    "GeometryType",
    "Header",
    "Kind",
    "Limits",
    "Packed",
    "Points",
    "Ragged",
    "Refused",
    "Row",
    "Rows",
    "__version__",
    "boxes",
    "check",
    "decode",
    "decode_flat",
    "encode",
    "from_wkb",
    "geometries",
    "in_degrees",
    "in_units",
    "pack",
    "pack_column",
    "pack_geometries",
    "pack_ragged",
    "ragged",
    "read",
    "shapes",
    "show",
    "split",
    "stream",
    "to_geojson",
    "to_wkb",
    "unpack",
    "unpack_column",
    "write",
]
