/** Geometries for maps, in the form of GeoJSON. */
import {NO_PRECISION, POINT_WORDS, ROW_WORDS} from './arrays.js';
import {madeOf} from './column.js';
import {degreesOf, limitsAmong} from './inputs.js';
import {exactPointsAt, numberAt, pointsAt, scaleOf} from './rounding.js';

const TYPES = [
    '',
    'Point',
    'LineString',
    'Polygon',
    'MultiPoint',
    'MultiLineString',
    'MultiPolygon',
    'GeometryCollection',
];
const [POINT, COLLECTION] = [1, 7];
const HAS_POINTS = [false, true, true, false, false, false, false, false, true]; // by kind, up to a ring

/** The lists that members are put into, by depth, and what they are put under. */
class Tree {
    constructor(rows, degrees) {
        this.rows = rows;
        this.degrees = degrees;
        this.found = [];
        this.above = [];
        this.lists = [];
        this.word = rows.point;
        this.precision = 0;
        this.scale = null;
    }

    /** The coordinates of a row: its points, or the list that its members are put into. */
    coordinates(kind, count) {
        if (!HAS_POINTS[kind] || count === 0) return [];
        const {rows: {words}, word, scale} = this;
        this.word += POINT_WORDS * count;
        if (!this.degrees) return kind === POINT ? exactPointsAt(words, word, 1)[0] : exactPointsAt(words, word, count);
        if (kind === POINT) return [numberAt(words, word, scale), numberAt(words, word + 2, scale)];
        return pointsAt(words, word, count, scale);
    }

    geometry(type, coordinates) {
        const geometry = type === TYPES[COLLECTION] ? {type, geometries: coordinates} : {type, coordinates};
        if (!this.degrees) geometry.precision = this.precision;
        return geometry;
    }

    put(row) {
        const {rows, above, lists} = this, {words} = rows, word = rows.row + ROW_WORDS * row;
        const count = words[word + 2], depth = words[word + 4], last = words[word + 5];
        const kind = last & 0xffff, own = last >> 24;
        if (own !== NO_PRECISION) {
            this.precision = own;
            this.scale = scaleOf(own);
        }
        const coordinates = this.coordinates(kind, count);
        if (depth && (last >> 16) & 0xff) (above[depth - 1].ids ??= []).push(rows.id(row));
        // parts of multi geometries and rings have no precision of their own, and are put as coordinates
        const it = own === NO_PRECISION ? null : this.geometry(TYPES[kind], coordinates);
        (depth ? lists[depth - 1] : this.found).push(it ?? coordinates);
        above[depth] = it;
        lists[depth] = coordinates;
    }
}

function geometriesOf(rows, degrees) {
    const tree = new Tree(rows, degrees);
    for (let row = 0; row < rows.rows; row++) tree.put(row);
    return tree.found;
}

export const makingGeometries = degrees => rows => geometriesOf(rows, degrees);

export function geometries(blobs, options = {}) {
    const limits = limitsAmong(options, 'degrees', 'errors');
    return madeOf(blobs, options, limits, 'geometries', makingGeometries(degreesOf(options)));
}
