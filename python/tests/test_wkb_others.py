"""WKB by programs of others: GDAL's OGR reads and writes it, SpatiaLite, and PostGIS. One that is not there is skipped by its name."""
import glob
import os
import pwd
import shutil
import subprocess
import tempfile
import unittest

import polytwkb
from wkb_forms import FORMS

try:
    from osgeo import ogr

    ogr.UseExceptions()
except ImportError:
    ogr = None

SPATIALITE = shutil.which("spatialite")
BINDIR = next(iter(sorted(glob.glob("/usr/lib/postgresql/*/bin"), reverse=True)), None)
POSTGIS = glob.glob("/usr/share/postgresql/*/extension/postgis.control")
WKT = [text for text, _, _ in FORMS]
WKBS = [bytes.fromhex(digits) for _, digits, _ in FORMS]
BLOBS = polytwkb.from_wkb(WKBS, 0).blobs


def user_of_server():
    """The user that a server runs as, which is not root; None if there is none."""
    if os.getuid():
        return []
    try:
        pwd.getpwnam("postgres")
    except KeyError:
        return None
    return ["runuser", "-u", "postgres", "--"] if shutil.which("runuser") else None


@unittest.skipUnless(ogr, "OGR: python3-gdal is not there")
class Ogr(unittest.TestCase):
    def test_both_ways(self):
        for text, wkb, blob in zip(WKT, WKBS, BLOBS):
            with self.subTest(wkt=text):
                (made,) = polytwkb.to_wkb(blob)
                self.assertTrue(ogr.CreateGeometryFromWkb(made).Equals(ogr.CreateGeometryFromWkt(text)))
                self.assertEqual(
                    ogr.CreateGeometryFromWkb(made).ExportToIsoWkt(), ogr.CreateGeometryFromWkt(text).ExportToIsoWkt()
                )
                shape = ogr.CreateGeometryFromWkt(text)
                for order in (ogr.wkbNDR, ogr.wkbXDR):
                    self.assertEqual(polytwkb.from_wkb(bytes(shape.ExportToIsoWkb(order)), 0), blob)
                    # OGR's older form has 0 0 for an empty point.
                    if "POINT EMPTY" not in text:
                        self.assertEqual(polytwkb.from_wkb(bytes(shape.ExportToWkb(order)), 0), blob)

    def test_heights(self):
        shape = ogr.CreateGeometryFromWkt("LINESTRING ZM (1 2 3 4, 5 6 7 8)")
        with self.assertRaisesRegex(polytwkb.Refused, "byte 1: Z and M coordinates"):
            polytwkb.from_wkb(bytes(shape.ExportToIsoWkb()), 0)
        shape = ogr.CreateGeometryFromWkt("POINT Z (1 2 3)")
        with self.assertRaisesRegex(polytwkb.Refused, "byte 1: Z coordinates"):
            polytwkb.from_wkb(bytes(shape.ExportToWkb(ogr.wkbXDR)), 0)


@unittest.skipUnless(SPATIALITE, "SpatiaLite: spatialite is not there")
class Spatialite(unittest.TestCase):
    def ask(self, query):
        ran = subprocess.run(
            [SPATIALITE, "-silent", ":memory:", query], stdout=subprocess.PIPE, stderr=subprocess.DEVNULL
        )
        return ran.stdout.decode().splitlines()[-1].split("|")

    def test_both_ways(self):
        """Of geometries that are not empty, which SpatiaLite has no form for."""
        for text, blob in zip(WKT, BLOBS):
            if "EMPTY" in text:
                continue
            (made,) = polytwkb.to_wkb(blob)
            equal, written = self.ask(
                f"SELECT AsText(GeomFromWKB(x'{made.hex()}')) = AsText(GeomFromText('{text}')),"
                f" hex(AsBinary(GeomFromText('{text}')))"
            )
            with self.subTest(wkt=text):
                self.assertEqual((equal, polytwkb.from_wkb(written, 0)), ("1", blob))


@unittest.skipUnless(BINDIR and POSTGIS and user_of_server() is not None, "PostGIS: postgresql-postgis is not there")
class Postgis(unittest.TestCase):
    def setUp(self):
        folder = tempfile.TemporaryDirectory()
        self.addCleanup(folder.cleanup)
        self.folder = folder.name
        if user_of_server():
            shutil.chown(self.folder, "postgres")
        self.server("initdb", "-D", f"{self.folder}/data", "-A", "trust", "-U", "postgres")
        self.addCleanup(self.server, "pg_ctl", "-D", f"{self.folder}/data", "-m", "immediate", "-w", "stop")
        words = f"-k {self.folder} -c listen_addresses="
        self.server(
            "pg_ctl", "-D", f"{self.folder}/data", "-l", f"{self.folder}/log", "-w", "-t", "120", "-o", words, "start"
        )
        self.ask("CREATE EXTENSION postgis")

    def server(self, program, *words):
        command = [*user_of_server(), os.path.join(BINDIR, program), *words]
        subprocess.run(command, check=True, stdout=subprocess.DEVNULL, cwd="/")

    def ask(self, query):
        command = [os.path.join(BINDIR, "psql"), "-h", self.folder, "-U", "postgres", "-XAtc", query]
        return subprocess.run(command, check=True, stdout=subprocess.PIPE).stdout.decode().rstrip("\n").split("|")

    def test_both_ways(self):
        for text, blob in zip(WKT, BLOBS):
            (made,) = polytwkb.to_wkb(blob)
            shape = f"ST_GeomFromText('{text}', 4326)"
            forms = [f"ST_AsBinary({shape}, 'NDR')", f"ST_AsBinary({shape}, 'XDR')", f"ST_AsEWKB({shape}, 'XDR')"]
            same, *written = self.ask(
                f"SELECT ST_AsText(ST_GeomFromWKB('\\x{made.hex()}')) = ST_AsText({shape}), "
                + ", ".join(f"encode({form}, 'hex')" for form in [*forms, f"ST_AsEWKB({shape})"])
                + f", {shape}::text"
            )
            with self.subTest(wkt=text):
                self.assertEqual((same, polytwkb.from_wkb(written, 0).blobs), ("t", [blob] * 5))
        (high,) = self.ask("SELECT 'POINT ZM (1 2 3 4)'::geometry::text")
        with self.assertRaisesRegex(polytwkb.Refused, "^geometry 0: byte 1: Z and M coordinates"):
            polytwkb.from_wkb(high, 0)


if __name__ == "__main__":
    unittest.main()
