/** A column of a CSV to a stream, and a stream to a CSV of one column. */
import {Conversion, spelled} from './conversions.js';
import {bytesOf, isBuffer, limitsAmong, limitsOf, precisionOf, styleOf, textOf, viewOf} from './inputs.js';
import {kindOf} from './kinds.js';
import {bytesAt, called, filled, refusalOf} from './module.js';
import {Status} from './reasons.js';

// What a precision is less than its number among the options, of which 0 is none.
const PRECISION_SHIFT = 9;
const NO_DELIMITERS = '"\r\n\0';
// A record of a column is not twice as long as its blob, but for the shortest ones, and has a line end.
const TIMES = 3;

const encoder = new TextEncoder();

/** The bytes of a name or of a word, which the module takes with a zero byte after it. */
function wordOf(what, given) {
    if (typeof given !== 'string' && !isBuffer(given))
        throw new TypeError(`${what} is a string or bytes, not ${kindOf(given)}`);
    const word = typeof given === 'string' ? encoder.encode(given) : viewOf(given, what);
    if (word.includes(0)) throw new RangeError(`${what} has no zero byte`);
    return [...word, 0];
}

function idsOf({ids}) {
    if (ids === undefined || ids === null) return [0];
    const word = wordOf('a column of ids', ids);
    if (word.length === 1) throw new RangeError('a column of ids has a name');
    return word;
}

function nullsOf({nulls = []}) {
    if (typeof nulls === 'string' || typeof nulls?.[Symbol.iterator] !== 'function')
        throw new TypeError(`nulls are a list of words, not ${kindOf(nulls)}`);
    return Array.from(nulls, word => wordOf('a word for a missing value', word)).flat();
}

function delimiterOf({delimiter = ','}) {
    if (typeof delimiter !== 'string') throw new TypeError(`a delimiter is a string, not ${kindOf(delimiter)}`);
    const code = delimiter.charCodeAt(0);
    if (delimiter.length !== 1 || code > 127 || NO_DELIMITERS.includes(delimiter))
        throw new RangeError(`a delimiter is one ASCII character, but no quote, CR or LF, not '${delimiter}'`);
    return code;
}

/** The name of a column, of a column of ids, and the words for a missing value, as the module takes them. */
export const wordsOf = (column, options) => [...wordOf('a column', column), ...idsOf(options), ...nullsOf(options)];

/**
 * The report of a conversion of a column, and where its output is. The words lie after the input. The
 * numbers are limits and style as the module has them, the precision and the byte between two fields.
 */
export function columnIn(wasm, conversion, input, room, words, [nest, nodes, points, style, precision, delimiter]) {
    const {length} = input, both = {
        length: length + words.length,
        put: at => {
            input.put(at);
            bytesAt(at + length, words.length).set(words);
        }
    };
    const numbers = [nest, nodes, points, style, precision + PRECISION_SHIFT, delimiter];
    const call = (from, to, most) =>
        wasm.convert_column(conversion, from, length, to, most, from + length, words.length, ...numbers);
    return filled(both, room, 1, call);
}

/** What `result` makes of the bytes that a conversion writes; if the input is refused, of those before the fault. */
function converted(conversion, input, room, words, numbers, result) {
    return called(wasm => {
        const {report, start} = columnIn(wasm, conversion, input, room, words, numbers);
        const output = result(bytesAt(start, report.sent));
        if (report.status === Status.REFUSED) throw refusalOf(report, output);
        return output;
    });
}

export function packColumn(csv, column, precision, options = {}) {
    const most = limitsOf(limitsAmong(options, 'ids', 'nulls', 'delimiter', 'style')), form = styleOf(options);
    const words = wordsOf(column, options), numbers = [...most, form, precisionOf(precision), delimiterOf(options)];
    const input = textOf(csv, 'a CSV is a string or bytes');
    return converted(Conversion.PACK, input, input.length + 64, words, numbers, bytes => bytes.slice());
}

export function unpackColumn(blobs, column, options = {}) {
    const most = limitsOf(limitsAmong(options, 'delimiter'));
    if (typeof column !== 'string') throw new TypeError(`a column is a string, not ${kindOf(column)}`);
    const words = wordOf('a column', column), numbers = [...most, 0, 0, delimiterOf(options)];
    const input = bytesOf(blobs, 'a stream of blobs is bytes'), room = TIMES * input.length + 2 * words.length + 64;
    return converted(Conversion.UNPACK, input, room, words, numbers, bytes => spelled(bytes));
}
