#!/usr/bin/python3
"""Runs the cases of the driver in this folder: GDAL_DRIVER_PATH=out/gdal/3.6 TWKB_BIG=big.twkb TWKB_COUNT=n cases.py FILE [NAME..]

FILE is one of the files of cases, without .py. Needs the Python of python3-gdal.
"""
import importlib
import os
import sys

sys.dont_write_bytecode = True
sys.path.insert(0, os.path.dirname(os.path.abspath(__file__)))

from osgeo import gdal

gdal.DontUseExceptions()

import driver

if __name__ == "__main__":
    if not gdal.GetDriverByName("TWKB"):
        sys.exit("no driver: is GDAL_DRIVER_PATH right?")
    importlib.import_module(sys.argv[1])
    sys.exit(driver.run_cases(sys.argv[2:]) > 0)
