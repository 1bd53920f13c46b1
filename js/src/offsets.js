/** The blobs of a stream, each as bytes. */
import {Limits, isBuffer, viewOf} from './inputs.js';
import {kindOf} from './kinds.js';
import {refusalOf} from './module.js';
import {Windows} from './windows.js';

/** The blobs of a stream whose offsets are known; null for a geometry without a blob. */
function cut(bytes, offsets) {
    const blobAt = at => offsets[at] < offsets[at + 1] ? bytes.slice(offsets[at], offsets[at + 1]) : null;
    return Array.from({length: offsets.length - 1}, (_, at) => blobAt(at));
}

/** The same, of what a caller gives. */
function cutGiven({blobs, offsets}) {
    const bytes = viewOf(blobs, 'a stream of blobs is bytes');
    if (!(offsets instanceof Float64Array)) throw new TypeError(`offsets are a Float64Array, not ${kindOf(offsets)}`);
    const isWrong = offsets.some((offset, at) => !Number.isInteger(offset) || offset < (at ? offsets[at - 1] : 0));
    if (isWrong || offsets[0] !== 0 || offsets[offsets.length - 1] !== bytes.length) {
        throw new RangeError('offsets begin at 0, never go back, and end where the blobs end');
    }
    return cut(bytes, offsets);
}

const isPacked = given => typeof given === 'object' && given !== null && !isBuffer(given) && 'offsets' in given;

export function split(blobs, limits) {
    if (isPacked(blobs)) {
        if (limits !== undefined)
            throw new TypeError('limits are checked in a stream that is read: its offsets are known');
        return cutGiven(blobs);
    }
    const most = new Limits(limits), found = [],
          windows = new Windows(most, rows => cut(rows.blobs, rows.offsets), true);
    windows.give(viewOf(blobs, 'a stream of blobs is bytes'));
    for (const part of windows.take(true))
        for (const blob of part) found.push(blob);
    if (windows.fault) throw refusalOf(windows.fault, found);
    return found;
}
