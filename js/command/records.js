/** Where records of a table begin and end, as its bytes come. */

const [LINE_FEED, RETURN, QUOTE, COMMA, ZERO] = [...'\n\r",0'].map(character => character.charCodeAt(0));

// What the next byte is in: a record or a field that has not begun, one that has, one in quotes, or one after its quotes.
const [RECORD, START, FIELD, QUOTED, CLOSED] = [0, 1, 2, 3, 4];

function next(state, byte) {
    if (state === QUOTED) return byte === QUOTE ? CLOSED : QUOTED;
    if (byte === COMMA) return START;
    if (byte === LINE_FEED || byte === RETURN) return RECORD;
    return byte === QUOTE && state !== FIELD ? QUOTED : FIELD;
}

/** Whether a record at this place has the depth 0. */
function isRoot(bytes, at) {
    if (bytes[at] === ZERO) return bytes[at + 1] === COMMA;
    return bytes[at] === QUOTE && bytes[at + 1] === ZERO && bytes[at + 2] === QUOTE && bytes[at + 3] === COMMA;
}

const isMarked = bytes => bytes[0] === 0xef && bytes[1] === 0xbb && bytes[2] === 0xbf;

/** Whether bytes at the start of a table have a record, and not only a byte order mark and line ends. */
export const hasRecord = bytes =>
    bytes.subarray(isMarked(bytes) ? 3 : 0).some(byte => byte !== LINE_FEED && byte !== RETURN);

/** Places in the bytes that are held. A root may be missed if its first bytes come apart. */
export class Records {
    constructor() {
        this.seen = 0;
        this.state = RECORD;
        this.root = 0; // where the last record of depth 0 begins, or 0
        this.whole = 0; // where the last whole record ends
    }

    /** Takes the bytes that have come after those that were seen. */
    see(bytes) {
        const {seen, state} = this, isOpen = state === QUOTED || state === CLOSED;
        if (!isOpen && bytes.indexOf(QUOTE, seen) < 0) this.seePlain(bytes);
        else this.seeQuoted(bytes);
        this.seen = bytes.length;
    }

    /** Without quotes, each line end ends a record. */
    seePlain(bytes) {
        const from = Math.max(this.seen - (this.state === RECORD ? 1 : 0), 0);
        const lines = Buffer.from(bytes.buffer, bytes.byteOffset + from, bytes.length - from);
        const root = lines.lastIndexOf('\n0,'), end = lines.lastIndexOf('\n');
        if (root >= 0) this.root = from + root + 1;
        if (end >= 0) this.whole = from + end + 1;
        if (lines.length) this.state = next(FIELD, lines[lines.length - 1]);
    }

    seeQuoted(bytes) {
        let {state} = this;
        for (let at = this.seen; at < bytes.length; at++) {
            if (state === RECORD && isRoot(bytes, at)) this.root = at;
            state = next(state, bytes[at]);
            if (state === RECORD) this.whole = at + 1;
        }
        this.state = state;
    }

    /** Forgets so many bytes. */
    drop(length) {
        this.seen -= length;
        this.whole = Math.max(this.whole - length, 0);
        this.root = Math.max(this.root - length, 0);
    }
}
