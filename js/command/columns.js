/** A column of a CSV that is packed, or a stream that is unpacked to one: whole, when all of it has come. */
import {Conversion} from '../src/conversions.js';
import {columnIn, wordsOf} from '../src/csv.js';
import {bytesOf, limitsOf, styleOf} from '../src/inputs.js';
import {bytesAt, called} from '../src/module.js';
import {Status} from '../src/reasons.js';
import {Windows} from '../src/windows.js';

const TIMES = 3; // the column of a stream is this many times as long, by a first guess

/** The bytes of the input, which are held until its end. */
export class Columns extends Windows {
    constructor(limits, style, conversion, {name, precision = 0, ids, nulls, delimiter}) {
        super(limits, null, false);
        this.conversion = Conversion[conversion.toUpperCase()];
        this.words = wordsOf(name, {ids, nulls});
        this.numbers = [...limitsOf(limits), styleOf({style}), precision, delimiter];
    }

    * take(isEnd) {
        if (!isEnd) return;
        const {held, conversion, words, numbers} = this, input = bytesOf(held, 'a CSV or a stream is bytes');
        const room = (conversion === Conversion.PACK ? 1 : TIMES) * input.length + 2 * words.length + 64;
        const {report, output} = called(wasm => {
            const found = columnIn(wasm, conversion, input, room, words, numbers);
            return {report: found.report, output: bytesAt(found.start, found.report.sent).slice()};
        });
        if (report.status === Status.REFUSED) this.fault = report;
        yield output;
    }
}
