/** Geometries in the form of GeoJSON as a stream of blobs. */
import {flagOf, limitsAmong, precisionOf, wordOf} from './inputs.js';
import {kindOf} from './kinds.js';
import {Refused} from './refused.js';
import {Rows, packed} from './rows.js';
import {write} from './writing.js';

const KINDS = new Map([
    ['Point', 1],
    ['LineString', 2],
    ['Polygon', 3],
    ['MultiPoint', 4],
    ['MultiLineString', 5],
    ['MultiPolygon', 6],
    ['GeometryCollection', 7],
]);
const [POINT, POLYGON, COLLECTION, RING] = [1, 3, 7, 8];
const PART = new Map([[POLYGON, RING], [4, POINT], [5, 2], [6, POLYGON]]); // the kind of the parts of a kind
const DEEPEST = 32; // no limit takes a row in more collections

/** Rows of geometries that are added one after the other. */
class Shapes extends Rows {
    constructor(precision, {hasIds, drops}) {
        super();
        this.precision = precision;
        this.hasIds = hasIds;
        this.drops = drops;
    }

    point(point) {
        if (!isListed(point)) throw notListed(point, 'points');
        const {length} = point;
        if (length < 2 || point[1] === undefined) throw new TypeError('a point is a pair of numbers');
        if (length > 2 && !this.drops) throw new TypeError("a point has a height: heights: 'drop' leaves heights out");
        this.xy.put(point[0], point[1]);
    }

    /** The members of a geometry, each with its id. */
    members(geometry, name) {
        const members = listOf(geometry[name], name), ids = this.hasIds ? geometry.ids : undefined;
        if (ids === undefined || ids === null) return members.map(member => [member, null]);
        if (listOf(ids, 'ids').length !== members.length) {
            throw new RangeError(`there are ${ids.length} ids for ${members.length} members`);
        }
        return members.map((member, at) => [member, idOf(ids[at])]);
    }

    /** A geometry with its members. */
    add(geometry, depth, id) {
        if (depth > DEEPEST) throw new RangeError(`it is in more than ${DEEPEST} collections`);
        const kind = KINDS.get(geometry.type);
        if (!kind) throw new RangeError(`a geometry has no type ${geometry.type}`);
        const own = this.precision ?? precisionOf(geometry.precision);
        if (kind === COLLECTION) {
            this.put(kind, depth, id, own);
            for (const [member, number] of this.members(geometry, 'geometries'))
                this.add(geometryOf(member), depth + 1, number);
        } else if (PART.has(kind)) {
            this.put(kind, depth, id, own);
            this.parts(PART.get(kind), this.members(geometry, 'coordinates'), depth + 1);
        } else {
            this.points(kind, geometry.coordinates, depth, id, own);
        }
    }

    /** A row of a kind that has points; the coordinates of a point are in no list. */
    points(kind, coordinates, depth, id, precision) {
        if (!isListed(coordinates)) throw notListed(coordinates, 'coordinates');
        if (kind !== POINT) {
            for (let at = 0; at < coordinates.length; at++) this.point(coordinates[at]);
        } else if (coordinates.length) {
            this.point(coordinates);
        }
        this.put(kind, depth, id, precision);
    }

    /** The parts of a geometry, from their coordinates. */
    parts(kind, parts, depth) {
        for (const [coordinates, id] of parts) {
            if (PART.has(kind)) {
                this.put(kind, depth, id);
                this.parts(PART.get(kind), listOf(coordinates, 'coordinates').map(part => [part, null]), depth + 1);
            } else {
                this.points(kind, coordinates, depth, id);
            }
        }
    }
}

const isListed = given => Array.isArray(given) || ArrayBuffer.isView(given) && !(given instanceof DataView);

const notListed = (given, what) => new TypeError(`${what} are a list, not ${kindOf(given)}`);

/** A list, also of a typed array. */
function listOf(given, what) {
    if (Array.isArray(given)) return given;
    if (isListed(given)) return Array.from(/** @type {Float64Array} */ (given));
    throw notListed(given, what);
}

function idOf(id) {
    if (id === null || id === undefined) return null;
    const number = typeof id === 'bigint' ? id : Number.isSafeInteger(id) ? BigInt(id) : null;
    if (number === null || BigInt.asIntN(64, number) !== number)
        throw new RangeError(`an id is a whole number of 64 bits, not ${id}`);
    return number;
}

/** A geometry, also of a feature. */
function geometryOf(given) {
    const geometry = given?.type === 'Feature' ? given.geometry : given;
    if (geometry === null || typeof geometry !== 'object')
        throw new TypeError(`a geometry is an object, not ${kindOf(geometry)}`);
    return geometry;
}

/** The geometries of a list, of a collection of features, or the one that is given. */
function listed(given) {
    if (given?.type === 'FeatureCollection') return listOf(given.features, 'features');
    if (typeof given?.type === 'string') return [given];
    if (typeof given?.[Symbol.iterator] === 'function' && typeof given !== 'string') return [...given];
    throw new TypeError(`geometries are a list, not ${kindOf(given)}`);
}

/** Whether there is no geometry: null, or a feature without one. */
const isGap = given => ((given?.type === 'Feature' ? given.geometry : given) ?? null) === null;

function placed(fault, at) {
    const Type = fault instanceof TypeError ? TypeError : RangeError;
    return new Type(`geometry ${at}: ${fault.message}`);
}

/** Adds the geometries of a list, and answers at which of its places there are any. */
function addAll(rows, given) {
    const places = [];
    for (const [at, geometry] of given.entries()) {
        try {
            if (isGap(geometry)) continue;
            rows.add(geometryOf(geometry), 0, null);
            places.push(at);
        } catch (fault) {
            throw placed(fault, at);
        }
    }
    return places;
}

export function packGeometries(geometries, precision, options = {}) {
    const limits = limitsAmong(options, 'style', 'ids', 'heights'), {style} = options;
    const leaves = {
        hasIds: flagOf(options, 'ids', true),
        drops: wordOf(options, 'heights', 'raise', 'drop') === 'drop'
    };
    const rows = new Shapes(precision === undefined ? null : precisionOf(precision), leaves),
          given = listed(geometries);
    const places = addAll(rows, given);
    try {
        return packed(write(rows.arrays, {...limits, style, offsets: true}), places, given.length);
    } catch (fault) {
        if (!(fault instanceof Refused)) throw fault;
        const {reason, text, done, output} = fault, place = places[done];
        throw new Refused(reason, text, `geometry ${place}`, {place, done: place}, packed(output, places, place));
    }
}
