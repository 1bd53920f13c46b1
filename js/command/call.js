/** Calls of the module that answer with their report too. */
import {Conversion} from '../src/conversions.js';
import {limitsOf} from '../src/inputs.js';
import {bytesAt, called, filled} from '../src/module.js';

const copied = (wasm, {start, report: {sent}}) => bytesAt(start, sent).slice();

/** The report of a conversion and a copy of its output, as `made` makes it, after a first guess at the room for that. */
export const convertedOf = (name, input, room, limits, {style = 0, made = copied} = {}) => called(wasm => {
    const conversion = Conversion[name.toUpperCase()], most = limitsOf(limits);
    const call = (from, to, size) => wasm.convert(conversion, from, input.length, to, size, ...most, style);
    const found = filled(input, room, 1, call);
    return {report: found.report, output: made(wasm, found)};
});
