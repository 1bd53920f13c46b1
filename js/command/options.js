/**
 * What the command converts, its options, and the texts of help: the list that its words and its help are read from. An
 * option without the name of a value is a flag.
 */

const NEST = {
    long: 'max-nest',
    value: '0 to 32',
    least: 0,
    most: 32,
    help: 'How many collections a geometry may be in [default: 16]',
};
const STYLE = {
    long: 'style',
    value: 'STYLE',
    choices: ['full', 'plain'],
    help: 'full: blobs with sizes and boxes; plain: without [default: full]',
};
/** What only the native command has: help lists it, and it is refused by its name. */
const native = (long, value, help) => ({long, value, help, isNative: true});
/** An option of a column. A CSV has one, so another option that needs it is refused without it. */
const ofColumn = (long, value, help, more = {}) => ({long, value, help, needs: 'column', ...more});
const DELIMITER =
    ofColumn('delimiter', 'C', 'What is between the fields of the CSV: a character, or tab [default: a comma]');
const PRECISION = {
    least: -8,
    most: 7
};
const PACK_COLUMN = [
    ofColumn('column', 'NAME', 'Packs this column of a CSV, in place of a table', {needs: 'precision'}),
    ofColumn('precision', '-8 to 7', 'Decimals of the coordinates; --column asks for it', PRECISION),
    ofColumn('ids', 'KEY', 'Packs the lines of the column as one multilinestring, with the ids of this column'),
    native('hex', undefined, 'Writes the CSV again, with hexadecimal digits of blobs in the column, after \\x'),
    native('hex=bare', undefined, 'The same, without \\x before the digits'),
    ofColumn('null', 'WORD', 'A word for a missing value in the column; may be given again', {isList: true}),
    DELIMITER,
];
const UNPACK_COLUMN = [
    ofColumn(
        'column', 'NAME', 'A CSV with this one column of polylines, in place of the table',
        {needs: undefined, excludes: 'geojson'}),
    DELIMITER,
    native(
        'hex', undefined, 'Reads a CSV with hexadecimal digits of blobs in the column, and writes it with polylines'),
    native('hex=bare', undefined, 'The same: there may be \\x before the digits, or not'),
];
const GEOJSON = {
    long: 'geojson',
    help: 'A line of GeoJSON for each geometry, in place of the table',
};
const COLLECTION = native(
    'collection', undefined,
    'With --geojson: one FeatureCollection, a feature for each geometry, in place of the lines');
const OUTPUT = {
    long: 'output',
    short: 'o',
    value: 'FILE',
    help: 'The file to write, whole or not at all [default: standard output]',
};

/** The order in which options that need another one, or exclude it, are looked at. */
export const CHECKED = ['precision', 'null', 'delimiter', 'ids', 'column'];

const usageOf = name => `polytwkb ${name} [OPTIONS] [-o FILE] [FILE]`;

export const COMMANDS = [
    {
        name: 'pack',
        about: 'Reads a table and writes a stream of blobs, one for each geometry',
        options: [NEST, STYLE, ...PACK_COLUMN, OUTPUT],
    },
    {
        name: 'unpack',
        about: 'Reads a stream of blobs and writes a table, the header line first',
        options: [NEST, ...UNPACK_COLUMN, GEOJSON, COLLECTION, OUTPUT],
    },
    {
        name: 'show',
        about: 'Reads a stream of blobs and writes a line for each TWKB header in it',
        options: [NEST, OUTPUT],
    },
].map(command => ({...command, usage: usageOf(command.name)}));

/** The word of each command that is no option. */
export const FILE = {
    value: 'FILE',
    help: 'The file to read [default: standard input]',
};

export const PROGRAM = {
    name: 'polytwkb',
    about: 'Converts between CSV tables of encoded polylines and streams of TWKB blobs',
    usage: usageOf(COMMANDS.map(({name}) => name).join('|')),
};

/** The end of a command's help. */
export const ELSEWHERE = `'polytwkb --help' describes tables, streams and exit statuses.`;

/** What `--help` adds. */
export const MORE = `Each command reads FILE and writes the file of -o:

  polytwkb pack places.csv -o places.twkb
  polytwkb show places.twkb
  polytwkb unpack places.twkb

Without FILE, or with -, a command reads standard input: on a terminal what is
typed, up to Ctrl-D at the start of a line. Without -o, or with '-o -', it writes
standard output. The file of -o is written whole, or stays as it was.
'polytwkb <COMMAND> --help' lists the options of a command.

Table: CSV with the header line below (any other is refused: 'bad header'), then
a row for each geometry, followed by the rows of its parts.

  depth,kind,id,precision,polyline
  0,collection,,5,
  1,point,7,5,_p~iF~ps|U
  1,linestring,8,5,_p~iF~ps|U_ulLnnqC_mqNvxq\`@

  depth      0 begins a geometry; its parts have depth 1, their parts 2, and so on
  kind       point, linestring, polygon (its parts are rings), ring, multipoint,
             multilinestring, multipolygon or collection (its parts are any but
             rings)
  id         a whole number for a part of a multi kind or of a collection; all
             parts of one geometry have an id, or none
  precision  decimals of the coordinates, -8 to 7; for depth 0 and for parts of
             a collection, empty elsewhere
  polyline   the points of a point, linestring or ring as Google encoded
             polyline, latitude before longitude; empty elsewhere

Stream: one TWKB blob for each geometry of depth 0, with nothing between them.

Lines of show: level, offset, kind, precision, metadata byte, length, points.

  level      how many collections the geometry is in
  offset     the byte at which it begins, from 0
  metadata   hexadecimal: 01 box + 02 size + 04 ids + 08 extended + 10 empty
  length     its bytes, header and parts included
  points     its points, those of its parts included

Exit status:

  0  all was converted
  1  the input was refused: standard error names the record or byte, and why
  2  the command line was refused
  3  a file could not be opened, reading or writing failed, or the reader of the
     output ended, as head does
  4  out of memory`;
