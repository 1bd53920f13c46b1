/** Lists of blobs, as a column of a database has them: each item is the bytes of one blob, or null. */
import {found as read, readAll} from './arrays.js';
import {isBuffer, viewOf, wordOf} from './inputs.js';
import {kindOf} from './kinds.js';
import {bytesAt, reasonText} from './module.js';
import {Reason} from './reasons.js';
import {Refused} from './refused.js';

const isList = given => !isBuffer(given) && typeof given === 'object' && typeof given?.[Symbol.iterator] === 'function';

const FEW = 16; // items that are read together after one that is refused
const UNKNOWN = undefined;

/** Whether refused items are kept apart. */
const collectsOf = options => wordOf(options, 'errors', 'raise', 'collect') === 'collect';

/** The bytes of items, which a message calls `what`. */
export function viewsOf(items, what = 'blob') {
    if (!isList(items)) throw new TypeError(`${what} is bytes or a list of them, not ${kindOf(items)}`);
    return Array.from(
        items, (item, at) => item === null || item === undefined ? null : viewOf(item, `${what} ${at} is bytes`));
}

/** Items as one input, one after the other. */
function joined(views) {
    const length = views.reduce((sum, view) => sum + view.length, 0);
    return {
        length,
        put(at) {
            const bytes = bytesAt(at, length);
            let place = 0;
            for (const view of views) {
                bytes.set(view, place);
                place += view.length;
            }
        },
    };
}

/** What `made` makes of the rows of items as one stream up to a fault, where each blob is, and which fault. */
function readItems(views, limits, made) {
    const {output, fault} = readAll(joined(views), limits, (rows, wasm) => {
        const {offsets} = rows;
        try {
            return {all: made(rows, wasm), offsets, refusal: null};
        } catch (refusal) {
            if (!(refusal instanceof Refused)) throw refusal;
            return {all: refusal.output, offsets, refusal};
        }
    }, true);
    return {...output, fault: output.refusal ?? fault};
}

/** What `made` makes of the rows of the first of some items, at least of one: unknown, if it may be refused. */
function settled(views, limits, made) {
    const {all, offsets} = readItems(views, limits, made), found = [];
    for (let start = 0, blob = 0, item = 0; item < views.length; start += views[item++].length) {
        // blobs of an item that has more than one
        while (blob < all.length && offsets[blob] < start) blob++;
        // a blob that does not end with its item takes of the next ones, which are read again
        if (offsets[blob] !== start) break;
        const isWhole = blob < all.length && offsets[blob + 1] === start + views[item].length;
        found.push(isWhole ? all[blob] : UNKNOWN);
        if (blob === all.length) break;
    }
    return found;
}

/** What `made` makes of the rows of an item, and why it is refused, if it is. */
function itemOf(view, limits, made) {
    const {all, offsets, fault} = readItems([view], limits, made), end = offsets[1];
    if (end < view.length) return [null, {reason: Reason.BLOB_SIZE_MISMATCH, place: end}];
    if (offsets.length === 1 && !fault) return [null, {reason: Reason.BLOB_TRUNCATED, place: 0}];
    return [fault ? null : all[0], fault];
}

/**
 * Calls `take` with each item: what `made` makes of its rows, and why it is refused, if it is. Items are read together
 * up to one that is none; after it so many as are twice those before it, so that few are read in vain.
 */
function eachItem(views, limits, made, take) {
    for (let next = 0, most = views.length; next < views.length;) {
        const run = next ? views.slice(next, next + most) : views, found = settled(run, limits, made);
        for (let at = 0; at < found.length; at++) {
            if (found[at] !== UNKNOWN) take(next + at, found[at], null);
            else take(next + at, ...itemOf(run[at], limits, made));
        }
        next += found.length;
        most = Math.max(FEW, 2 * found.length);
    }
}

/** What `made` makes of the rows of a stream, or of a list of blobs, whose refused items may be kept apart. */
export function madeOf(blobs, options, limits, name, made, hasEnds = false) {
    const collects = collectsOf(options);
    if (!isList(blobs) && !collects) return read(blobs, limits, made, hasEnds);
    if (!isList(blobs)) throw new TypeError('errors are collected of a list of blobs, and not of a stream');
    const {found, refused} = column(blobs, limits, made, collects);
    return collects ? {[name]: found, refused} : found;
}

/** What `made` makes of the rows of the items, in their places; what it makes of null is null. */
function column(items, limits, made, collects) {
    const views = viewsOf(items), blobs = views.filter(view => view !== null), isAll = blobs.length === views.length;
    const places = isAll ? null : [...views.keys()].filter(at => views[at] !== null);
    const found = new Array(views.length).fill(null), refused = [];
    eachItem(blobs, limits, made, (item, it, fault) => {
        const at = isAll ? item : places[item];
        found[at] = it;
        if (!fault) return;
        const {reason, text = reasonText(reason), place} = fault, where = `blob ${at}: byte ${place}`;
        const refusal = new Refused(reason, text, where, {place, done: at}, collects ? null : found.slice(0, at));
        if (!collects) throw refusal;
        refused.push(refusal);
    });
    return {found, refused};
}
