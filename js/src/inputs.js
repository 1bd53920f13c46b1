/** What callers pass: bytes, texts, limits, styles and precisions, checked. */
import {kindOf} from './kinds.js';
import {bytesAt} from './module.js';

const RANGES = {
    nest: [0, 32],
    nodes: [1, 2 ** 20],
    points: [0, 2 ** 24]
};
const LIMITS = Object.keys(RANGES);
const STYLES = new Map([['full', 0], ['plain', 1]]);
const SHORT = 64; // over so few bytes a loop of our own is faster than an encoder

const encoder = new TextEncoder();

export function checkObject(given, what) {
    if (given === null || typeof given !== 'object') throw new TypeError(`${what} are an object, not ${kindOf(given)}`);
}

/** Options, of which all but limits have these names. One of another name would do nothing, so it is refused. */
export function checkOptions(given, ...names) {
    if (given instanceof Limits) return;
    checkObject(given, 'options');
    const unknown = Object.keys(given).find(name => !LIMITS.includes(name) && !names.includes(name));
    if (unknown !== undefined)
        throw new TypeError(`there is no option ${unknown}: ${[...names, ...LIMITS].join(', ')}`);
}

/** An option that is true or false. */
export function flagOf(options, name, standard) {
    const {[name]: given = standard} = options;
    if (typeof given !== 'boolean') throw new TypeError(`${name} is true or false, not ${kindOf(given)}`);
    return given;
}

/** An option that is one of some words, of which the first is standard. */
export function wordOf(options, name, ...words) {
    const {[name]: given = words[0]} = options;
    if (!words.includes(given)) throw new RangeError(`${name} is '${words.join("' or '")}', not ${given}`);
    return given;
}

/** Whether degrees are asked for, and not whole units. */
export const degreesOf = options => flagOf(options, 'degrees', true);

/** The most that one geometry may have, its members included. */
export class Limits {
    /** @param {{ nest?: number, nodes?: number, points?: number }} limits */
    constructor(limits = {}) {
        checkOptions(limits);
        const {nest = 16, nodes = 2 ** 20, points = 2 ** 24} = limits;
        this.nest = limit('nest', nest);
        this.nodes = limit('nodes', nodes);
        this.points = limit('points', points);
        Object.freeze(this);
    }
}

function limit(name, given) {
    if (!Number.isInteger(given)) throw new TypeError(`${name} is a whole number, not ${given}`);
    const [least, most] = RANGES[name];
    if (given < least || given > most) throw new RangeError(`${name}: from ${least} to ${most}, not ${given}`);
    return given;
}

/** Limits as arguments of the module. */
export function limitsOf(limits) {
    const {nest, nodes, points} = limits instanceof Limits ? limits : new Limits(limits);
    return [nest, nodes, points];
}

/** The limits among options, of which others have these names. */
export function limitsAmong(options, ...names) {
    checkOptions(options, ...names);
    const {nest, nodes, points} = options;
    return new Limits({nest, nodes, points});
}

/** The style among options, as the module has it. */
export function styleOf({style = 'full'}) {
    if (typeof style !== 'string') throw new TypeError(`a style is a string, not ${kindOf(style)}`);
    const number = STYLES.get(style);
    if (number === undefined) throw new RangeError(`a style is 'full' or 'plain', not '${style}'`);
    return number;
}

export function precisionOf(precision) {
    if (!Number.isInteger(precision)) throw new TypeError(`a precision is a whole number, not ${kindOf(precision)}`);
    if (precision < -8 || precision > 7) throw new RangeError(`a precision is from -8 to 7, not ${precision}`);
    return precision;
}

const isShared = given => globalThis.SharedArrayBuffer !== undefined && given instanceof SharedArrayBuffer;

export const isBuffer = given => ArrayBuffer.isView(given) || given instanceof ArrayBuffer || isShared(given);

/** Bytes, as a view of them. */
export function viewOf(given, what) {
    if (ArrayBuffer.isView(given)) return new Uint8Array(given.buffer, given.byteOffset, given.byteLength);
    if (isBuffer(given)) return new Uint8Array(given);
    throw new TypeError(`${what}, not ${kindOf(given)}`);
}

/** Bytes, to be copied into the module. No code of the caller's, such as a getter of limits, may run before that. */
export function bytesOf(given, what) {
    const view = viewOf(given, what), {length} = view;
    return {length, put: at => bytesAt(at, length).set(view)};
}

export const textOf = (given, what) => bytesOf(typeof given === 'string' ? encoded(given) : given, what);

/** The bytes of a text. For a short one an encoder takes longer than all else. */
function encoded(text) {
    if (text.length >= SHORT) return encoder.encode(text);
    const bytes = new Uint8Array(text.length);
    for (let place = 0; place < bytes.length; place++) {
        bytes[place] = text.charCodeAt(place);
        if (text.charCodeAt(place) > 127) return encoder.encode(text);
    }
    return bytes;
}
