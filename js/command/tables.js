/** Tables that are packed by windows of their records, in the memory of a window and of its largest geometry. */
import {bytesAt} from '../src/module.js';
import {split} from '../src/offsets.js';
import {Reason, Status} from '../src/reasons.js';
import {Windows} from '../src/windows.js';
import {convertedOf} from './call.js';
import {hasRecord, Records} from './records.js';
import {HEADER} from './streams.js';

const [FULL, PLAIN] = [0, 1];
const OFTEN = 2 ** 16; // fewer bytes of a geometry are looked at each time that some come, as in a stream
const FIRST = 2; // the number of the record after the header
const MOST = 2 ** 32; // each record has a number below this

/** The table of some records: from the second window on, the header comes before them again. */
const tableOf = (records, isFirst) =>
    isFirst ? {length: records.length, put: at => bytesAt(at, records.length).set(records)} : {
        length: HEADER.length + records.length,
        put: at => {
            bytesAt(at, HEADER.length).set(HEADER);
            bytesAt(at + HEADER.length, records.length).set(records);
        },
    };

/** Blobs of a stream without the last. */
function withoutLast(blobs) {
    const last = split(blobs, {nest: 32}).pop();
    return blobs.subarray(0, blobs.length - last.length);
}

/**
 * The records of a table. A geometry is written when the first record after it is accepted, so the blobs of a window are
 * kept until the next window is packed.
 */
export class Tables extends Windows {
    constructor(limits, style) {
        super(limits, null, false);
        this.style = style === 'plain' ? PLAIN : FULL;
        this.records = new Records();
        this.count = 0; // of records in the windows before, the header left out
        this.isFirst = true;
        this.kept = null;
    }

    * take(isEnd, isPause) {
        this.records.see(this.held);
        const {root} = this.records;
        if (isEnd) {
            yield* this.pack(this.length);
            if (!this.fault) yield* this.give();
        } else if (root) {
            yield* this.pack(root);
        }
        if (!isEnd && !this.fault && isPause) yield* this.look();
    }

    /** Packs so many bytes, which are whole geometries. */
    * pack(length) {
        const {report, output} = this.convert(length);
        yield* this.judge(report);
        if (this.fault) {
            yield output;
            return;
        }
        if (this.count + report.taken >= MOST) {
            this.fault = {...report, reason: Reason.TOO_MANY_RECORDS, place: 0};
            return;
        }
        this.kept = output;
        this.count += Math.max(report.taken - 1, 0);
        this.isFirst = false;
        this.drop(0, length);
        this.records.drop(length);
    }

    /** Looks at the whole records of a geometry that goes on, since no more of it is there for now. */
    * look() {
        const {length, held, isFirst, records: {whole}} = this;
        if (!whole || length < this.due || isFirst && !hasRecord(held.subarray(0, whole))) return;
        this.due = length < OFTEN ? length + 1 : 2 * length;
        const {report, output} = this.convert(whole);
        yield* this.judge(report);
        if (this.fault) yield output;
    }

    /** Gives the blobs of the window before; if the first record after it is refused, not the last blob. */
    * judge(report) {
        const {status, place} = report, isRefused = status === Status.REFUSED;
        if (isRefused) this.fault = {...report, place: this.count + place};
        if (isRefused && place === FIRST && this.kept?.length) this.kept = withoutLast(this.kept);
        yield* this.give();
    }

    * give() {
        const {kept} = this;
        this.kept = null;
        if (kept) yield kept;
    }

    convert(length) {
        const input = tableOf(this.held.subarray(0, length), this.isFirst), room = input.length + 64;
        return convertedOf('pack', input, room, this.limits, {style: this.style});
    }
}
