// TWKB blobs to GeoJSON by a decoder of a page that checks nothing but what it can't go past, to compare with. For
// coordinates and ids up to 2^52, since numbers are exact up to 2^53, and for precisions from 0 up.

const BOX = 1, SIZE = 2, IDS = 4, EXTENDED = 8, EMPTY = 16;
const TYPES = [
    '',
    'Point',
    'LineString',
    'Polygon',
    'MultiPoint',
    'MultiLineString',
    'MultiPolygon',
    'GeometryCollection',
];

class Reader {
    constructor(bytes) {
        this.bytes = bytes;
        this.offset = 0;
    }

    byte() {
        if (this.offset === this.bytes.length) throw new Error(`byte ${this.offset}: truncated`);
        return this.bytes[this.offset++];
    }

    varint() {
        for (let value = 0, unit = 1;; unit *= 128) {
            const byte = this.byte();
            value += (byte % 128) * unit;
            if (value > Number.MAX_SAFE_INTEGER) throw new Error(`byte ${this.offset}: number past 2^53`);
            if (byte < 128) return value;
        }
    }

    signed() {
        const form = this.varint();
        return form % 2 ? -(form + 1) / 2 : form / 2;
    }

    list(count, read) { return Array.from({length: count}, read); }

    point() {
        this.x += this.signed();
        this.y += this.signed();
        return [this.x / this.scale, this.y / this.scale];
    }

    line() { return this.list(this.varint(), () => this.point()); }

    area() { return this.list(this.varint(), () => this.line()); }

    geometry() {
        const header = this.byte(), metadata = this.byte(), kind = header % 16, form = header >> 4;
        const precision = form % 2 ? -(form + 1) / 2 : form / 2;
        if (metadata & EXTENDED && this.byte() & 3) throw new Error('Z or M');
        if (metadata & SIZE) this.varint();
        if (metadata & BOX) this.list(4, () => this.signed());
        [this.x, this.y, this.scale] = [0, 0, 10 ** precision];
        return this.body(kind, metadata);
    }

    body(kind, metadata) {
        const type = TYPES[kind], empty = metadata & EMPTY;
        if (kind === 1) return {type, coordinates: empty ? [] : this.point()};
        if (kind === 2) return {type, coordinates: empty ? [] : this.line()};
        if (kind === 3) return {type, coordinates: empty ? [] : this.area()};
        const count = empty ? 0 : this.varint();
        const ids = metadata & IDS && count ? {ids: this.list(count, () => this.signed())} : {};
        if (kind === 7) return {type, ...ids, geometries: this.list(count, () => this.geometry())};
        const read = [() => this.point(), () => this.line(), () => this.area()][kind - 4];
        return {type, ...ids, coordinates: this.list(count, read)};
    }
}

/** The geometries of a stream. */
export function geometries(bytes) {
    const reader = new Reader(bytes), found = [];
    while (reader.offset < bytes.length) found.push(reader.geometry());
    return found;
}
