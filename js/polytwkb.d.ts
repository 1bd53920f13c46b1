/**
 * Tables of Google encoded polylines to streams of TWKB blobs and back, exactly, by the proved library polytwkb,
 * retargeted to WebAssembly in polytwkb.wasm.
 *
 * A table is CSV with the columns depth, kind, id, precision and polyline; a stream is blobs one after the other. A
 * call converts any number of geometries: give it many. What is refused is the exception Refused; a wrong type is a
 * TypeError; a limit, a style or a precision out of range, and want of memory (OutOfMemory), are RangeErrors. Before
 * the first call, wait for load().
 */

/** The version of this package and of its module. */
export const version: string;

/** A module of WebAssembly, or where it is: a URL, a response of fetch, its bytes, or compiled. */
export type Source = string|URL|Response|BufferSource|WebAssembly.Module;

/**
 * Loads the module, by default polytwkb.wasm beside this file; a relative URL is that of the page or the worker, as for
 * fetch, and in Node of the current folder. Later calls do nothing, but after a call that the end of the stack cut off
 * one takes a new instance. A module of another version is refused at once. Needs WebAssembly with 128-bit SIMD:
 * Chromium and Edge 91, Firefox 89, Safari 16.4, Node 20.
 */
export function load(source?: Source|Promise<Source>): Promise<void>;

/** Bytes. They are copied before they are read. */
export type Bytes = ArrayBufferView|ArrayBufferLike;

/** The most that one geometry may have, its members included. */
export class Limits {
    /** What is left out is standard: 16, 2^20 and 2^24. */
    constructor(limits?: Partial<Limits>);
    /** Collections that a geometry may be in, 0 to 32. */
    readonly nest: number;
    /** Rows, 1 to 2^20. */
    readonly nodes: number;
    /** Points, 0 to 2^24. */
    readonly points: number;
}

/** An input is refused. Its message is the line of the command, such as `byte 13: truncated`. No caller makes one. */
export class Refused<Output = unknown> extends Error {
    private constructor();
    readonly name: 'Refused';
    /** Why, as a number of include/polytwkb.h, such as 41. */
    readonly reason: number;
    /** Its name there, such as `BLOB_TRUNCATED`. */
    readonly code: string;
    /** What it means, such as `truncated`. */
    readonly text: string;
    /**
     * The record of a table or of a CSV, from 1; the byte of a stream or of a polyline, the row of arrays, or the point
     * of a list, from 0.
     */
    readonly place: number;
    /** The byte of the refused polyline, in its record or alone; of arrays the row's first point out of range, from 0; else 0. */
    readonly textOffset: number;
    /** How many geometries came before, and are whole; of a list, null counts too. */
    readonly done: number;
    /** What the call would have returned of these alone. */
    readonly output: Output;
    /** What a worker can post: an error that is posted keeps its message alone. */
    toJSON(): RefusedJSON<Output>;
    /** The refusal that was posted. */
    static fromJSON<Output>(posted: RefusedJSON<Output>): Refused<Output>;
}

/** A refusal as an object without methods. */
export type RefusedJSON<Output = unknown> =
    Pick<Refused<Output>, 'message'|'reason'|'text'|'place'|'textOffset'|'done'|'output'>;

/** The engine gives no more memory. One call needs its input, its output and some more, at most 4 GB together. */
export class OutOfMemory extends RangeError {
    readonly name: 'OutOfMemory';
}

/** How blobs are written: with sizes and boxes, or `'plain'`, without either. */
export type Styled = Partial<Limits>&{style?: 'full' | 'plain'};

/** Packs a table to a stream of blobs. */
export function pack(table: string|Bytes, options?: Styled): Uint8Array;

/** Unpacks a stream of blobs to a table. A table past the longest string of the engine (512 MB) needs unpackBytes. */
export function unpack(blobs: Bytes, options?: Partial<Limits>): string;

/** The same, as bytes. */
export function unpackBytes(blobs: Bytes, options?: Partial<Limits>): Uint8Array;

/** How the CSV of a column is read. */
export interface CsvOptions {
    /** The name of a column of whole numbers: the records are the lines of one multilinestring, with these ids. */
    ids?: string|Bytes|null;
    /** Words for a missing value, beside the empty field, such as `['NULL']`. */
    nulls?: Iterable<string|Bytes>;
    /** What is between two fields: one ASCII character, but no quote, CR or LF; a comma, if it is left out. */
    delimiter?: string;
}

/**
 * Packs a column of a CSV, whose fields are encoded polylines, to a stream: a linestring for each record after the
 * header, in its order, and an empty one for an empty field. The precision is the number of decimals, -8 to 7. The place
 * of a refusal is the record, and the header is record 1.
 */
export function packColumn(
    csv: string|Bytes, column: string|Bytes, precision: number, options?: Styled&CsvOptions): Uint8Array;

/**
 * Unpacks a stream of linestrings to a CSV of one column: its name, then an encoded polyline for each blob, with quotes
 * if it has the delimiter. All have to have one precision, which the CSV has not.
 */
export function unpackColumn(blobs: Bytes, column: string, options?: Partial<Limits>&{delimiter?: string}): string;

/**
 * The geometries of a stream as text of GeoJSON, a line for each. Coordinates are exact decimals, of units past 2^53 too.
 * Ids of members are in a member `ids`, before the coordinates; an empty point has `[]`. A text past the longest string of
 * the engine needs toGeojsonBytes.
 */
export function toGeojson(blobs: Bytes, options?: Partial<Limits>): string;

/** The same, as bytes. */
export function toGeojsonBytes(blobs: Bytes, options?: Partial<Limits>): Uint8Array;

/** A TWKB header in a stream. */
export interface Header {
    /** How many collections it is in: 0 for a blob. */
    level: number;
    /** Where it begins, in bytes from the start of the stream. */
    offset: number;
    kind: 'point'|'linestring'|'polygon'|'multipoint'|'multilinestring'|'multipolygon'|'collection';
    /** Decimals of the coordinates, -8 to 7. */
    precision: number;
    /** The metadata byte. */
    metadata: number;
    /** Bytes, from its first to the last of its geometry. */
    length: number;
    /** Points of its geometry. */
    points: number;
}

/** The headers in a stream, in their order. */
export function show(blobs: Bytes, options?: Partial<Limits>): Header[];

/** A stream of blobs, and where they are in it: what `packGeometries` returns, and `write` with `offsets: true`. */
export interface Packed {
    blobs: Uint8Array;
    /**
     * Where the blob of each geometry begins, in bytes, and last where the stream ends: one more than there are
     * geometries. No bytes are those of a geometry that is null.
     */
    offsets: Float64Array;
}

/**
 * The blobs of a stream, each as bytes of its own: a column for a database. If the offsets are given with the stream,
 * nothing is read, and null stays null; offsets that do not end with the stream are a RangeError.
 */
export function split(blobs: Bytes, options?: Partial<Limits>): Uint8Array[];
export function split(packed: Packed): (Uint8Array|null)[];

/** A stream of blobs whose bytes come in pieces. */
export type Pieces = Response|ReadableStream<Bytes>|AsyncIterable<Bytes>|Iterable<Bytes>;

/**
 * Geometries as arrays, with a row for each row of their table: a geometry, a member, a part of a multi geometry, or a
 * ring, in preorder.
 */
export interface Arrays<Coordinates extends Float64Array|BigInt64Array = Float64Array | BigInt64Array> {
    /** Of each row how many rows it is under: 0 begins a geometry. */
    depths: Uint8Array;
    /** 1 point, 2 linestring, 3 polygon, 4 multipoint, 5 multilinestring, 6 multipolygon, 7 collection, 8 ring. */
    kinds: Uint8Array;
    /** Decimals, -8 to 7, of geometries and members of collections; -128 of other rows. */
    precisions: Int8Array;
    /** 1 if the row has an id, else 0. */
    hasIds: Uint8Array;
    /** The id; 0 if it has none. */
    ids: BigInt64Array;
    /** Where the points of each row begin in `xy`, counted in points, and last how many points there are. */
    offsets: Uint32Array;
    /** x, y, x, y, .. of all points: degrees, or whole units of 10^-precision degrees. */
    xy: Coordinates;
}

/** Arrays that were read, and where the blobs are that they were read from. */
export interface PlacedArrays<Coordinates extends Float64Array|BigInt64Array = Float64Array | BigInt64Array> extends
    Arrays<Coordinates> {
    /**
     * Where the blob of each geometry begins in the stream, in bytes, and last where the last one ends: one more than
     * there are rows of depth 0.
     */
    blobOffsets: Float64Array;
}

type Unplaced = {
    blobOffsets?: false
};
type Placing = {
    blobOffsets: true
};

/**
 * Reads a stream of blobs into arrays: in degrees, each coordinate the number nearest to its units times 10^-precision,
 * by the precision of the geometry that it is in; with `degrees: false` in whole units. With `blobOffsets: true` the
 * arrays have `blobOffsets` too, of the same reading.
 */
export function read(blobs: Bytes, options?: Partial<Limits>&{degrees?: true}&Unplaced): Arrays<Float64Array>;
export function read(blobs: Bytes, options: Partial<Limits>&{degrees: false}&Unplaced): Arrays<BigInt64Array>;
export function read(blobs: Bytes, options: Partial<Limits>&{degrees: boolean}&Unplaced): Arrays;
export function read(blobs: Bytes, options: Partial<Limits>&{degrees?: true}&Placing): PlacedArrays<Float64Array>;
export function read(blobs: Bytes, options: Partial<Limits>&{degrees: false}&Placing): PlacedArrays<BigInt64Array>;
export function read(blobs: Bytes, options: Partial<Limits>&{degrees: boolean}&Placing): PlacedArrays;
export function read(
    blobs: Bytes,
    options:
        Partial<Limits>&{
            degrees?: boolean;
            blobOffsets?: boolean
        },
    ): Arrays&Partial<PlacedArrays>;

/** Arrays that are written. Without `hasIds` and `ids` no row has an id. */
export type Writable = Omit<Arrays, 'hasIds'|'ids'|'xy'>&Partial<Pick<Arrays, 'hasIds'|'ids'>>&
    {xy: Float64Array | Float32Array | BigInt64Array};

/**
 * Writes arrays, as `read` gives them, to a stream of blobs. Degrees may be a Float32Array too. Degrees are rounded as `encode` rounds them, each by the precision of the geometry that it is in. Refused, at its row
 * from 0, if a row is against the rules of a table, and if points are missing or left over; `output` has the blobs of
 * the complete geometries before. Arrays of other types are a TypeError; of other lengths, and degrees that are not
 * finite, a RangeError. With `offsets: true` the stream is returned with the offset of each blob.
 */
export function write(
    arrays: Writable,
    options?: Styled&{offsets?: false},
    ): Uint8Array;
export function write(
    arrays: Writable,
    options: Styled&{offsets: true},
    ): Packed;
export function write(
    arrays: Writable,
    options: Styled&{offsets: boolean},
    ): Uint8Array|Packed;

/** x and y: the longitude and the latitude, though the text of a polyline has the latitude first. */
export type Point = [x: number, y: number];

/**
 * The encoded polyline of points. Typed arrays have x, y, x, y, .. of all points. Without a precision coordinates are
 * whole numbers and pass unchanged. With a precision from -8 to 7 they are degrees, and each becomes the whole number nearest to it
 * times 10^precision, of two the one farther from 0. Up to 10^14 units a number that is the nearest one to a half counts
 * as that half: docs/FORMATS.md has the rule. Refused, at its point, if a coordinate is outside -2^62 to 2^62 - 1.
 */
export function encode(points: Iterable<ArrayLike<number|bigint>>, precision?: number): string;
export function encode(points: BigInt64Array): string;
export function encode(points: Float64Array|Float32Array, precision: number): string;

/**
 * The points of an encoded polyline: whole numbers, or with a precision from -8 to 7 degrees, each the number nearest
 * to its whole number times 10^-precision. Without a precision, a coordinate below -2^53 or from 2^53 on is a RangeError:
 * decodeFlat has it.
 */
export function decode(text: string|Bytes, precision?: number): Point[];

/** The same points as x, y, x, y, ..: whole numbers of any size, or with a precision degrees. */
export function decodeFlat(text: string|Bytes, precision?: undefined): BigInt64Array;
export function decodeFlat(text: string|Bytes, precision: number): Float64Array;

/** Ids of the members: whole numbers, and BigInt from 2^53 on and from -2^53 down. */
export type Ids = (number|bigint)[];

/** A geometry as GeoJSON has it; an empty point has no coordinates. `Own` is what it has beside, its members too. */
export type Shape<P, Own = unknown> = Own&(|{
    type: 'Point';
    coordinates: P|[]
}|{
    type: 'LineString';
    coordinates: P[]
}|{
    type: 'Polygon';
    coordinates: P[][]
}|{
    type: 'MultiPoint';
    coordinates: P[];
    ids?: Ids
}|{
    type: 'MultiLineString';
    coordinates: P[][];
    ids?: Ids
}|{
    type: 'MultiPolygon';
    coordinates: P[][][];
    ids?: Ids
}|{
    type: 'GeometryCollection';
    geometries: Shape<P, Own>[];
    ids?: Ids
});

/** In degrees: each coordinate is the number nearest to its whole number times 10^-precision. */
export type Geometry = Shape<Point>;

/** In whole units, with their decimals. `JSON.stringify` takes no BigInt, of which ids past 2^53 are too. */
export type UnitGeometry = Shape<[x: bigint, y: bigint], {precision: number}>;

/** A column of a database: each item is the bytes of one blob, or null. */
export type Column = Iterable<Bytes|null|undefined>;

type Raising = {
    errors?: 'raise'
};
type Collecting = {
    errors: 'collect'
};
type Either = {
    errors?: 'raise'|'collect'
};
/** What a call returns of a column whose refused items are collected. */
export type Collected<Shape> = {
    geometries: (Shape|null)[]; refused: Refused<null>[]
};

/**
 * The geometries of a stream in degrees, or with `degrees: false` in whole units; or those of a column, each at the
 * place of its blob, and null at that of null. An item that is not exactly one blob is Refused, with the item in `done`
 * and its byte in `place`; with `errors: 'collect'` it becomes null, and the refusals are returned too.
 */
export function geometries(blobs: Bytes, options?: Partial<Limits>&{degrees?: true}&Raising): Geometry[];
export function geometries(blobs: Bytes, options: Partial<Limits>&{degrees: false}&Raising): UnitGeometry[];
export function geometries(
    blobs: Bytes,
    options: Partial<Limits>&{degrees: boolean}&Raising,
    ): Geometry[]|UnitGeometry[];
export function geometries(blobs: Column, options?: Partial<Limits>&{degrees?: true}&Raising): (Geometry|null)[];
export function geometries(
    blobs: Column,
    options: Partial<Limits>&{degrees: false}&Raising,
    ): (UnitGeometry|null)[];
export function geometries(
    blobs: Column,
    options: Partial<Limits>&{degrees: boolean}&Raising,
    ): (Geometry|null)[]|(UnitGeometry | null)[];
export function geometries(
    blobs: Column,
    options: Partial<Limits>&{degrees?: true}&Collecting,
    ): Collected<Geometry>;
export function geometries(
    blobs: Column,
    options: Partial<Limits>&{degrees: false}&Collecting,
    ): Collected<UnitGeometry>;
export function geometries(
    blobs: Column,
    options: Partial<Limits>&{degrees: boolean}&Collecting,
    ): Collected<Geometry>|Collected<UnitGeometry>;
export function geometries(
    blobs: Column,
    options?: Partial<Limits>&{degrees?: true}&Either,
    ): (Geometry|null)[]|Collected<Geometry>;
export function geometries(
    blobs: Column,
    options?: Partial<Limits>&{degrees?: boolean}&Either,
    ): (Geometry|null)[]|(UnitGeometry | null)[]|Collected<Geometry>|Collected<UnitGeometry>;

/** What `stream` and `transform` give: blobs as bytes, arrays as `read` gives them, or geometries in a list. */
export type StreamOptions = Partial<Limits>&(|{gives?: 'blobs'}|{
    gives: 'arrays';
    degrees?: boolean;
    blobOffsets?: boolean
}|{
    gives: 'geometries';
    degrees?: boolean
});
type InDegrees<Options, Degrees, Units> =
    Options extends {degrees?: infer Given} ? (Given extends false ? Units : Degrees) : Degrees;
type GivenArrays<Options, Coordinates extends Float64Array|BigInt64Array> =
    Options extends {blobOffsets: true} ? PlacedArrays<Coordinates>: Arrays<Coordinates>;
/** What a turn gives, by the options. */
export type Given<Options> = Options extends {gives: 'arrays'} ?
    GivenArrays<Options, InDegrees<Options, Float64Array, BigInt64Array>>:
    Options extends {gives: 'geometries'} ? InDegrees<Options, Geometry[], UnitGeometry[]>: Uint8Array;

/**
 * The blobs of a stream as far as its bytes have come: each turn gives those that are whole since the last, one after
 * the other, as bytes. With `gives: 'arrays'` or `gives: 'geometries'` a turn gives what `read` or `geometries` would give
 * of blobs that are whole since the last, and a large piece may be more than one turn; with `blobOffsets: true` arrays
 * have the offsets of their blobs in the whole stream. Takes memory for a piece and for the largest geometry. Throws
 * Refused, with its place in the whole stream, after the blobs before it, also if the last blob is cut. Leaving the loop
 * cancels the source.
 */
export function stream<Options extends StreamOptions = {}>(
    source: Pieces|Promise<Pieces>,
    options?: Options,
    ): AsyncGenerator<Given<Options>, void>;

/**
 * What `stream` gives, as the two ends of `pipeThrough`: `body.pipeThrough(transform({ gives: 'geometries' }))`. All
 * before a fault is read before the fault. A signal is an option of `pipeThrough`, or of `fetch`.
 */
export function transform<Options extends StreamOptions = {}>(
    options?: Options,
    ): {readable: ReadableStream<Given<Options>>; writable: WritableStream<Bytes>};

/** What is packed: a geometry as GeoJSON has it, a Feature, or null. */
export type Packable =|{
    type: string;
    coordinates?: unknown;
    geometries?: unknown;
    geometry?: Packable;
    features?: unknown;
    properties?: unknown;
    id?: unknown;
    bbox?: unknown;
    ids?: readonly(number | bigint | null)[]|null;
    precision?: number
}
|null;

/**
 * Packs geometries to a stream of blobs with so many decimals, -8 to 7: the counterpart of `geometries`. They are a
 * list, a FeatureCollection, or one geometry. Degrees are rounded as `encode` rounds them; coordinates that are BigInt
 * are whole units. Without a precision each geometry has its own, as those in whole units have. `ids` of a geometry are
 * those of its members; `ids: false` leaves them out. A height is a TypeError, and `heights: 'drop'` leaves it out.
 * null, and a Feature without a geometry, has no blob. `split` of the result is a column for a database. Refused if one
 * is against the rules of a table, with its place in the list from 0.
 */
export function packGeometries(
    geometries: Iterable<Packable>|Exclude<Packable, null>,
    precision?: number,
    options?:
        Styled&{
            ids?: boolean;
            heights?: 'raise'|'drop'
        },
    ): Packed;

/**
 * The geometries of a stream, or of a column, as WKB (OGC 06-103r4, ISO 13249-3): little-endian, in two dimensions and in
 * degrees. The coordinates of an empty point are NaN. WKB has no ids: a geometry with ids is Refused, at its blob, and
 * with `ids: 'drop'` they are left out. `errors` is that of `geometries`.
 */
export function toWkb(blobs: Bytes, options?: WkbOptions&Raising): Uint8Array[];
export function toWkb(blobs: Column, options?: WkbOptions&Raising): (Uint8Array|null)[];
export function toWkb(blobs: Column, options: WkbOptions&Collecting): CollectedWkb;
export function toWkb(blobs: Column, options?: WkbOptions&Either): (Uint8Array|null)[]|CollectedWkb;
type WkbOptions = Partial<Limits>&{ids?: 'raise' | 'drop'};
type CollectedWkb = {
    wkb: (Uint8Array|null)[]; refused: Refused<null>[]
};

/**
 * Packs WKB, of one geometry or of each item of a column, to a stream of blobs with so many decimals: members have those
 * of the call, and the library rounds. In either byte order, as ISO or as EWKB. The number of a reference system (SRID)
 * is passed over. An empty point has coordinates that are NaN. Refused, with the item in `done` and its byte in `place`,
 * also if it has third or fourth coordinates, or an empty point in a multipoint.
 */
export function fromWkb(wkb: Bytes|Column, precision: number, options?: Styled): Packed;

/** The least x and y and the greatest: as the bbox of GeoJSON. */
export type Box<Coordinate extends number|bigint = number> =
    [left: Coordinate, bottom: Coordinate, right: Coordinate, top: Coordinate];

/** A box in whole units, with their decimals: the most that a member of the geometry has. */
export type UnitBox = {
    box: Box<bigint>; precision: number
};

/**
 * The box of each geometry of a stream, or of a column, computed from its points, in degrees, or with `degrees: false` in
 * whole units; null if it has no points. `errors` is that of `geometries`.
 */
export function boxes(blobs: Bytes|Column, options?: Partial<Limits>&{degrees?: true}&Raising): (Box|null)[];
export function boxes(blobs: Bytes|Column, options: Partial<Limits>&{degrees: false}&Raising): (UnitBox|null)[];
export function boxes(
    blobs: Bytes|Column,
    options: Partial<Limits>&{degrees: boolean}&Raising,
    ): (Box|null)[]|(UnitBox | null)[];
export function boxes(blobs: Column, options: Partial<Limits>&{degrees?: true}&Collecting): CollectedBoxes<Box>;
export function boxes(blobs: Column, options: Partial<Limits>&{degrees: false}&Collecting): CollectedBoxes<UnitBox>;
export function boxes(
    blobs: Column,
    options?: Partial<Limits>&{degrees?: boolean}&Either,
    ): (Box|null)[]|(UnitBox | null)[]|CollectedBoxes<Box>|CollectedBoxes<UnitBox>;
type CollectedBoxes<Sides> = {
    boxes: (Sides|null)[]; refused: Refused<null>[]
};
