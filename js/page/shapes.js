/** The geometries of a stream as flat lists: points, the parts that they make, and the headers that have them. */

export const [DOT, LINE, RING] = [0, 1, 2];
const POLYGON = 3;
const PARTS = {
    1: DOT,
    2: LINE,
    8: RING
}; // what the points of a kind are
const NO_PRECISION = -128; // of a row that has no header

/** A list of numbers of one type that grows. */
export class Numbers {
    constructor(Type) {
        this.all = new Type(1024);
        this.length = 0;
    }

    push(number) {
        if (this.length === this.all.length) {
            const longer = new this.all.constructor(2 * this.length);
            longer.set(this.all);
            this.all = longer;
        }
        this.all[this.length++] = number;
    }

    get list() { return this.all.slice(0, this.length); }
}

export class Shapes {
    constructor() {
        this.xs = new Numbers(Float64Array);
        this.ys = new Numbers(Float64Array);
        // of each part: its first point, what it is, and which area a ring belongs to
        this.starts = new Numbers(Uint32Array);
        this.kinds = new Numbers(Uint8Array);
        this.areas = new Numbers(Uint32Array);
        this.area = 0;
        // the boxes of lines and rings, each left, right, bottom and top, and of each part how many are before it
        this.boxes = new Numbers(Float64Array);
        this.boxed = new Numbers(Uint32Array);
        // of each header, in the order of the stream: its first part, and its row in the table
        this.parts = new Numbers(Uint32Array);
        this.rows = new Numbers(Uint32Array);
        this.row = 1;
        this.bounds = {left: Infinity, right: -Infinity, bottom: Infinity, top: -Infinity};
    }

    get points() { return this.xs.length; }

    /** Where a part ends. */
    end(part) { return part + 1 < this.starts.length ? this.starts.all[part + 1] : this.points; }

    /** Adds geometries that `read` of the package gives. */
    add({kinds, precisions, offsets, xy}) {
        const {points} = this;
        for (let row = 0; row < kinds.length; row++) {
            if (precisions[row] !== NO_PRECISION) {
                this.parts.push(this.starts.length);
                this.rows.push(this.row);
            }
            this.row++;
            if (kinds[row] === POLYGON) this.area++;
            else this.part(kinds[row], points + offsets[row], xy.subarray(2 * offsets[row], 2 * offsets[row + 1]));
        }
        this.addPoints(xy);
    }

    /** The part that a row is, if its kind has points. */
    part(kind, start, xy) {
        if (!(kind in PARTS)) return;
        this.starts.push(start);
        this.kinds.push(PARTS[kind]);
        this.areas.push(this.area);
        this.boxed.push(this.boxes.length);
        if (PARTS[kind] !== DOT) this.box(xy);
    }

    box(xy) {
        let [left, right, bottom, top] = [Infinity, -Infinity, Infinity, -Infinity];
        for (let at = 0; at < xy.length; at += 2) {
            const x = xy[at], y = xy[at + 1];
            if (x < left) left = x;
            if (x > right) right = x;
            if (y < bottom) bottom = y;
            if (y > top) top = y;
        }
        for (const side of [left, right, bottom, top]) this.boxes.push(side);
    }

    addPoints(xy) {
        const {xs, ys, bounds} = this;
        for (let at = 0; at < xy.length; at += 2) {
            const x = xy[at], y = xy[at + 1];
            xs.push(x);
            ys.push(y);
            if (x < bounds.left) bounds.left = x;
            if (x > bounds.right) bounds.right = x;
            if (y < bounds.bottom) bounds.bottom = y;
            if (y > bounds.top) bounds.top = y;
        }
    }
}
