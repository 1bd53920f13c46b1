/** Why a call ends without an answer. */
import {First, Reason} from './reasons.js';

const CODES = Object.fromEntries(Object.entries(Reason).map(([code, reason]) => [reason, code]));

/** An input is refused. */
export class Refused extends Error {
    constructor(reason, text, where, {place, textOffset = 0, done = 0}, output) {
        super(where ? `${where}: ${text}` : text);
        this.reason = reason;
        this.code = CODES[reason];
        this.text = text;
        this.place = place;
        this.textOffset = textOffset;
        this.done = done;
        this.output = output;
    }

    /** What a worker can post, since an error that is posted keeps its message alone. `fromJSON` takes it. */
    toJSON() {
        const {message, reason, text, place, textOffset, done, output} = this;
        return {message, reason, text, place, textOffset, done, output};
    }

    static fromJSON({message, reason, text, place, textOffset, done, output}) {
        return Object.assign(new Refused(reason, text, '', {place, textOffset, done}, output), {message});
    }
}
Refused.prototype.name = 'Refused';

/** The engine gives no more memory. */
export class OutOfMemory extends RangeError {}
OutOfMemory.prototype.name = 'OutOfMemory';

/** Where the report of a conversion says that its input is refused, as the command words it. */
export function whereOf({reason, place, textOffset = 0}) {
    if (reason >= First.LINE) return `byte ${place}`;
    if (reason >= First.CSV) return `record ${place}`;
    if (reason >= First.WHOLE) return '';
    if (reason >= First.BLOB) return `byte ${place}`;
    return reason >= First.POLYLINE ? `record ${place}: polyline at ${textOffset}` : `record ${place}`;
}
