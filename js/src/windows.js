/** Streams that are read by windows of their bytes, in the memory of a window and of its largest geometry. */
import {readSome} from './arrays.js';
import {Reason} from './reasons.js';

const WINDOW = 2 ** 18; // bytes, if the first blob is not longer
// Fewer bytes of a blob are looked at each time that some come; more, when they are twice as many.
const OFTEN = 2 ** 16;
const HEADER = 13; // the most bytes of type, metadata, extended byte and size
const [SIZE, EXTENDED] = [2, 8]; // bits of the metadata byte

/** Where the blob at the start of bytes ends by its size, if it has one and its first bytes are there; else 0. */
function endOf(bytes) {
    if (bytes.length < 2 || !(bytes[1] & SIZE)) return 0;
    let at = bytes[1] & EXTENDED ? 3 : 2;
    for (let size = 0, unit = 1; at < bytes.length; unit *= 128) {
        const byte = bytes[at++];
        size += (byte & 127) * unit;
        if (byte < 128) return at + size;
    }
    return 0;
}

/** The bytes of a stream that have come and are no whole blob yet. */
export class Windows {
    /** What `made` makes of the rows of each window is given; `hasEnds` if it needs the offsets of blobs. */
    constructor(limits, made, hasEnds) {
        this.limits = limits;
        this.made = made;
        this.hasEnds = hasEnds;
        this.bytes = new Uint8Array(OFTEN);
        this.start = this.end = 0; // of those that are held
        this.offset = 0; // of the first of them in the stream
        this.done = 0;
        this.due = 1;
        this.fault = null;
    }

    get length() { return this.end - this.start; }

    get held() { return this.bytes.subarray(this.start, this.end); }

    /** Takes the bytes of a whole stream, which are not copied. */
    give(bytes) {
        this.bytes = bytes;
        this.end = bytes.length;
    }

    add(piece) {
        if (this.end + piece.length > this.bytes.length) this.makeRoom(this.length + piece.length);
        this.bytes.set(piece, this.end);
        this.end += piece.length;
    }

    makeRoom(least) {
        const {bytes, held, length} = this;
        if (least > bytes.length) this.bytes = new Uint8Array(Math.max(least, 2 * bytes.length));
        this.bytes.set(held);
        this.start = 0;
        this.end = length;
    }

    /**
     * Takes off the whole blobs, and gives what is made of those of each window; `fault` is why the stream is refused
     * after them, if it is. At its end a blob that is cut is refused.
     */
    * take(isEnd) {
        for (let size = WINDOW; this.length >= (isEnd ? 1 : this.due) && !this.fault;) {
            const {held, length, offset} = this, least = Math.max(size, endOf(held.subarray(0, HEADER)));
            const window = held.subarray(0, least), isAll = window.length === length;
            const {output, done, taken, fault} = this.read(window);
            const isCut = fault?.reason === Reason.BLOB_TRUNCATED && !(isEnd && isAll);
            if (fault && !isCut) this.fault = {...fault, place: offset + fault.place, done: this.done + fault.done};
            this.drop(done, taken);
            size = isCut && !done ? 2 * size : WINDOW;
            if (isCut && isAll) this.wait();
            if (done) yield output;
        }
    }

    read(window) {
        const {limits, made, hasEnds, offset} = this;
        return readSome(window, limits, (rows, wasm) => made(rows, wasm, offset), hasEnds);
    }

    drop(done, taken) {
        this.start += taken;
        this.offset += taken;
        this.done += done;
        this.due = 1;
    }

    /** Sets how many bytes of a cut blob are to be there when it is looked at again. */
    wait() {
        const {length, held} = this, more = length < OFTEN ? length + 1 : 2 * length;
        const end = endOf(held.subarray(0, HEADER));
        this.due = end > length ? Math.min(end, Math.max(more, OFTEN)) : more;
    }
}
