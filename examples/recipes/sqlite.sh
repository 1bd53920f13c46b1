#!/usr/bin/env bash
# A column of polylines in SQLite to digits of blobs, these into a column of blobs, and the column back to polylines.
source "$(dirname "$0")/common.bash"
need sqlite3

sqlite3 -bail my.db << 'END'
CREATE TABLE routes (id TEXT, polyline TEXT);
INSERT INTO routes VALUES ('12', 'yop}Gysml@lAxTfChSgKhK'), ('N3, at night', 'cip}Guill@\E~@vD'), ('14', NULL);
END

sqlite3 -csv -header my.db 'SELECT rowid AS n, polyline FROM routes' |
  polytwkb pack --column polyline --precision 5 --hex=bare > my.csv
sqlite3 my.db 'ALTER TABLE routes ADD COLUMN twkb BLOB' '.import --csv my.csv digits'
sqlite3 my.db "SELECT 'UPDATE routes SET twkb = x''' || polyline || ''' WHERE rowid = ' || n || ';'
    FROM digits WHERE polyline <> ''" > my.sql
sqlite3 -bail -cmd BEGIN my.db '.read my.sql' COMMIT

sqlite3 -csv -header my.db 'SELECT rowid AS n, hex(twkb) AS polyline FROM routes' |
  polytwkb unpack --column polyline --hex > again.csv

sqlite3 my.db 'SELECT id, hex(twkb) FROM routes ORDER BY rowid'
cmp - again.csv << 'END'
n,polyline
1,yop}Gysml@lAxTfChSgKhK
2,cip}Guill@\E~@vD
3,
END
[ "$(sqlite3 my.db 'SELECT count(*) FROM routes WHERE twkb IS NULL')" = 1 ]
