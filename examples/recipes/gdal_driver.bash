# The driver for GDAL: that of the repository, or one that is installed. After common.bash.
need ogr2ogr ogrinfo
for made in "$here"/../../out/gdal/*/ogr_TWKB.so; do
  [ ! -e "$made" ] || export GDAL_DRIVER_PATH=${made%/*}
done
ogrinfo --formats > formats.txt
grep -q '^ *TWKB ' formats.txt || {
  echo "skipped: needs the driver polytwkb-gdal"
  exit 0
}
