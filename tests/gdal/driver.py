"""What the cases share: files, the driver by osgeo, and the programs of GDAL. Cases run in a folder of their own."""
import os
import subprocess
import sys

from osgeo import gdal, ogr

BIG = os.environ["TWKB_BIG"]  # a stream of many lines in full style at precision 5
COUNT = int(os.environ["TWKB_COUNT"])  # of its lines
CASES, SAID, KEPT = [], [], []

# A multipoint with ids, a collection with members of precisions 5 and 3, an empty point.
K = bytes.fromhex(
    "04070b04020206020e1004020206a7022a02a3031a00c09a0c00c09a0c0104000000c09a0cc09a0c00bf9a0cbf9a0c"
    "62030902080208020202080801"
    "1200"
)
KINDS = [
    "POINT (1.25 -2.5)",
    "LINESTRING (0 0,1 1,2 0)",
    "POLYGON ((0 0,4 0,4 4,0 0),(1 1,2 1,2 2,1 1))",
    "MULTIPOINT ((1 2),(3 4))",
    "MULTILINESTRING ((0 0,1 1),(2 2,3 3,4 4))",
    "MULTIPOLYGON (((0 0,1 0,1 1,0 0)),((5 5,9 5,9 9,5 5),(6 6,7 6,7 7,6 6)))",
    "GEOMETRYCOLLECTION (POINT (1 2),GEOMETRYCOLLECTION (LINESTRING (0 0,1 1)),MULTIPOINT ((1 1)))",
    "POINT EMPTY",
    "LINESTRING EMPTY",
    "POLYGON EMPTY",
    "MULTIPOINT EMPTY",
    "MULTILINESTRING EMPTY",
    "MULTIPOLYGON EMPTY",
    "GEOMETRYCOLLECTION EMPTY",
    "GEOMETRYCOLLECTION (POINT EMPTY,POINT (3 3))",
    "LINESTRING (180 90,-180 -90)",
]
NO_EMPTIES = [kind for kind in KINDS if "EMPTY" not in kind]


class Skipped(Exception):
    """What a case needs is not there."""


def case(function):
    CASES.append(function)
    return function


def put(name, data):
    with open(name, "wb") as file:
        file.write(data)
    return name


def get(name):
    with open(name, "rb") as file:
        return file.read()


def read(name, options=()):
    """The features of a file; errors are in SAID."""
    SAID.clear()
    data = gdal.OpenEx(name, gdal.OF_VECTOR, open_options=list(options))
    assert data, SAID
    KEPT.append([feature.Clone() for feature in data.GetLayer(0)])  # a geometry is its feature's
    return KEPT[-1]


def wkts(name, options=()):
    return [feature.GetGeometryRef().ExportToWkt() for feature in read(name, options)]


def feature_of(layer, geometry, values):
    feature = ogr.Feature(layer.GetLayerDefn())
    for index, value in enumerate(values):
        if value is not None:
            feature.SetField(index, value)
    if geometry is not None:
        made = ogr.CreateGeometryFromWkt(geometry) if isinstance(geometry, str) else geometry
        feature.SetGeometry(made)
    return feature


def write(name, geometries, options=(), srs=None, fields=(), values=None):
    """The answers of CreateFeature; values are those of the fields, a tuple for each geometry."""
    SAID.clear()
    data = ogr.GetDriverByName("TWKB").CreateDataSource(name)
    layer = data.CreateLayer("layer", srs, ogr.wkbUnknown, list(options))
    assert layer, SAID
    for field in fields:
        layer.CreateField(field)
    answers = []
    for place, geometry in enumerate(geometries):
        answers.append(layer.CreateFeature(feature_of(layer, geometry, values[place] if values else ())))
    layer = data = None
    return answers


def errors():
    return [text for level, text in SAID if level >= gdal.CE_Failure]


def warnings():
    return [text for level, text in SAID if level == gdal.CE_Warning]


def run(line, stdin=None):
    line = ["bash", "-c", "set -o pipefail; " + line]
    done = subprocess.run(line, input=stdin, stdout=subprocess.PIPE, stderr=subprocess.PIPE, check=False)
    return done.returncode, done.stdout, done.stderr.decode(errors="replace")


def good(line, stdin=None):
    code, out, err = run(line, stdin)
    assert code == 0 and "ERROR" not in err, (line, code, err)
    return out


def bad(line, word, stdin=None):
    code, _, err = run(line, stdin)
    assert code != 0 and word in err, (line, code, err)


def peak(line):
    """Kilobytes of the largest process of a line that works."""
    if not os.path.exists("/usr/bin/time"):
        raise Skipped("/usr/bin/time is not there")
    code, _, err = run("/usr/bin/time -f 'peak %M' " + line)
    assert code == 0, err
    return int(err.split("peak ")[1].split()[0])


def run_cases(names):
    """Runs the cases, or those with these names; the number of those that fail."""
    gdal.PushErrorHandler(lambda level, number, text: SAID.append((level, text)))
    failed, skipped, chosen = 0, 0, [one for one in CASES if not names or one.__name__ in names]
    put("k.twkb", K)
    for function in chosen:
        KEPT.clear()
        try:
            function()
        except Skipped as why:
            skipped += 1
            print(f"skip  {function.__name__}: {why}")
        except Exception as error:
            failed += 1
            line = error.__traceback__.tb_next.tb_lineno
            print(f"FAIL  {function.__name__}, line {line}: {type(error).__name__} {error}"[:700])
        sys.stdout.flush()
    print(f"{len(chosen)} cases, {skipped} skipped, {failed} fail")
    return failed
