"""Other programs that are built on GDAL. One that is not there is skipped by name."""
import shutil

from osgeo import gdal

from driver import case, put, read, run, good, BIG, COUNT, Skipped


def in_python(module, program):
    """What a program prints in the Python of the system, which has the module if it is there at all."""
    if run(f"/usr/bin/python3 -c 'import {module}'")[0] != 0:
        raise Skipped(f"the module {module} is not there")
    return good("QT_QPA_PLATFORM=offscreen /usr/bin/python3 -W ignore -", program.encode())


@case
def with_fiona():
    kinds = in_python(
        "fiona",
        "import fiona\nwith fiona.open('k.twkb', allow_unsupported_drivers=True) as c: print([f['geometry']['type'] for f in c])",
    )
    assert b"['MultiPoint', 'GeometryCollection', 'Point']" in kinds, kinds


@case
def with_geopandas():
    program = "import geopandas\nprint(len(geopandas.read_file('k.twkb', allow_unsupported_drivers=True)))"
    assert in_python("geopandas", program) == b"3\n"


@case
def with_mapserver():
    if not shutil.which("map2img"):
        raise Skipped("map2img of MapServer is not there")
    good("ogr2ogr -f TWKB part.twkb %s -limit 20000" % BIG)
    put(
        "m.map",
        b'MAP\nSIZE 200 200\nEXTENT 6 45 10 48\nIMAGETYPE png\nLAYER\nNAME "r"\nTYPE LINE\nSTATUS DEFAULT\nCONNECTIONTYPE OGR\n'
        b'CONNECTION "part.twkb"\nDATA "part"\nCLASS\nSTYLE\nCOLOR 255 0 0\nWIDTH 1\nEND\nEND\nEND\nEND\n',
    )
    good("map2img -m m.map -o m.png")
    data = gdal.Open("m.png")
    band = data.GetRasterBand(2).ReadAsArray()
    assert len(set(band.flatten().tolist())) > 1, "an empty map"


QGIS = """
from qgis.core import *
application = QgsApplication([], False)
application.initQgis()
layer = QgsVectorLayer('%s', 'r', 'ogr')
assert layer.isValid()
print('N', layer.featureCount(), layer.dataProvider().name())
part = layer.getFeatures(QgsFeatureRequest(QgsRectangle(7, 46, 7.2, 46.1)))
assert sum(1 for _ in part) > 0
options = QgsVectorFileWriter.SaveVectorOptions()
options.driverName = 'TWKB'
print(QgsVectorFileWriter.writeAsVectorFormatV3(layer, 'q.twkb', QgsCoordinateTransformContext(), options))
"""


@case
def with_qgis():
    said = in_python("qgis.core", QGIS % BIG)
    assert f"N {COUNT} ogr".encode() in said, said
    assert len(read("q.twkb")) == COUNT
