"""A column of shapes of GeoPandas to a column of TWKB blobs and back."""
import geopandas
import polytwkb
from shapely import wkt

SHAPES = {
    "station": "POINT (7.44107 46.9469)",
    "route": "LINESTRING (7.44781 46.94797, 7.44432 46.94758, 7.44107 46.9469, 7.4391 46.94886)",
    "square": "POLYGON ((7.4438 46.9471, 7.4446 46.9471, 7.4446 46.9477, 7.4438 46.9477, 7.4438 46.9471))",
}
frame = geopandas.GeoDataFrame(
    index=list(SHAPES), geometry=[wkt.loads(text) for text in SHAPES.values()], crs="EPSG:4326"
)
frame.loc["unknown", "geometry"] = None

frame["twkb"] = polytwkb.pack_geometries(frame.geometry, 5).blobs
for name, blob in frame["twkb"].items():
    print(name, f"{len(blob)} bytes: {blob.hex()}" if blob else "has no shape")

back = geopandas.GeoSeries(polytwkb.shapes(frame["twkb"]), index=frame.index, crs=frame.crs)
print("back:", "the same shapes" if back.dropna().geom_equals(frame.geometry.dropna()).all() else "other shapes")

shapes, refused = polytwkb.shapes([*frame["twkb"], frame["twkb"]["square"][:-1]], errors="collect")
print(len(shapes), "items,", refused[0])
high = wkt.loads("POINT Z (7.44107 46.9469 540)")
try:
    polytwkb.pack_geometries([*frame.geometry, high], 5)
except TypeError as fault:
    print(fault)
print(polytwkb.pack_geometries(high, 5, heights="drop") == frame["twkb"]["station"])
