// What callers in TypeScript write; the declarations take it, and refuse what is marked.
import {Arrays, Box, Geometry, Header, Limits, OutOfMemory, Packed, PlacedArrays, Point, Refused, UnitBox, UnitGeometry, boxes, decode, decodeFlat, encode, fromWkb, geometries, load, pack, packColumn, packGeometries, read, show, split, stream, toGeojson, toGeojsonBytes, toWkb, transform, unpack, unpackBytes, unpackColumn, version, write,} from '../polytwkb.js';

async function all(response: Response, file: ArrayBuffer): Promise<void> {
    await load();
    await load(new URL('https://example.org/polytwkb.wasm'));
    await load(fetch('polytwkb.wasm'));
    const blobs: Uint8Array = pack('text', {style: 'plain', nest: 3});
    const table: string = unpack(blobs, new Limits({points: 5}));
    const bytes: Uint8Array = unpackBytes(file), headers: Header[] = show(bytes), parts: Uint8Array[] = split(file);
    const geojson: string[] = toGeojson(blobs, {nest: 3}).split('\n'), text: Uint8Array = toGeojsonBytes(file);
    geojson.length + text.length;
    const lines5: Uint8Array =
        packColumn('g\nAC\n', 'g', 5, {ids: 'id', nulls: ['NULL', file], delimiter: ';', nest: 1});
    const csv: string =
        unpackColumn(packColumn(file, file, 5, {style: 'plain'}), 'g', {delimiter: '\t'}) + lines5.length;
    csv.trim();
    const points: Point[] = decode(encode([[1, 2n]]), 5), flat: BigInt64Array = decodeFlat(table);
    const again: string = encode(flat) + encode(points, 5) + version + headers[0].kind + parts.length;
    const found: Geometry[] = geometries(blobs);
    for (const geometry of found) {
        if (geometry.type === 'Polygon') geometry.coordinates[0][0][0].toFixed();
        if (geometry.type === 'GeometryCollection') geometry.geometries[0].type.length.toFixed();
    }
    const exact: bigint|undefined = geometries(blobs, {degrees: false}).map(it => it.precision && 1n)[0] || undefined;
    const degrees: Float64Array = read(blobs).xy, whole: Arrays<BigInt64Array> = read(blobs, {degrees: false});
    degrees.fill(whole.offsets[0]);
    const {depths, kinds, precisions, offsets, xy} = whole, lines = {depths, kinds, precisions, offsets, xy};
    unpack(write(whole, {style: 'plain', nest: 2})) + unpack(write(read(blobs))) + unpack(write(lines));
    for await (const part of stream(response)) split(part);
    for await (const part of stream(fetch('shapes.twkb'), {nest: 2})) unpack(part);
    for await (const part of stream(response, new Limits({nest: 2}))) unpack(part);
    for await (const {xy, blobOffsets} of stream(response, {gives: 'arrays', blobOffsets: true}))
        xy.fill(blobOffsets[0]);
    for await (const {xy} of stream(response, {gives: 'arrays', degrees: false, nest: 2})) xy.fill(1n);
    for await (const shapes of stream(response, {gives: 'geometries'})) shapes.map(shape => shape.type).join();
    for await (const [shape] of stream(response, {gives: 'geometries', degrees: false})) shape.precision.toFixed();
    const transformed: ReadableStream<Geometry[]>|undefined =
        response.body?.pipeThrough(transform({gives: 'geometries'}));
    const bodies: ReadableStream<Uint8Array>|undefined = response.body?.pipeThrough(transform(), {signal: undefined});
    String(transformed) + String(bodies);
    const column: (Geometry|null)[] = geometries([blobs, null]),
                  units: UnitGeometry[] = geometries(blobs, {degrees: false});
    const {geometries: some, refused} = geometries([blobs], {errors: 'collect'}), flag: boolean = some.length > 1;
    const packed: Float64Array = packGeometries(column, 5, {heights: 'drop'}).offsets;
    const cells: (Uint8Array|null)[] = split(packGeometries(column, 5)), places: Packed = write(whole, {offsets: true});
    const placed: PlacedArrays<Float64Array> = read(blobs, {blobOffsets: true}),
                  ends: Float64Array = placed.blobOffsets;
    const exactly: BigInt64Array = read(blobs, {degrees: false, blobOffsets: true, nest: 2}).xy,
                   bytesAgain: Uint8Array = write(placed);
    const perhaps: Float64Array|undefined = read(blobs, {blobOffsets: flag}).blobOffsets;
    const one: Uint8Array|Packed = write(whole, {style: 'plain', offsets: flag});
    split({blobs, offsets: ends}).length + cells.length + places.offsets[0] + exactly.length + bytesAgain.length;
    unpack('offsets' in one ? one.blobs : one) + String(perhaps);
    split(packGeometries(units).blobs).length + refused[0].place + packed.length +
        read(blobs, {degrees: flag}).xy.length;
    for (const unit of units)
        if (unit.type === 'GeometryCollection') unit.geometries[0].precision.toFixed();
    const either: Geometry[]|UnitGeometry[] = geometries(blobs, {degrees: flag});
    either.length + geometries([blobs], {degrees: flag}).length +
        geometries([blobs], {degrees: flag, errors: 'collect'}).geometries.length;
    // what README shows: literals of features and of collections of them, and points as GeoJSON has them
    const geometry: Geometry = {type: 'Point', coordinates: [2, 1]}, positions: number[][] = [[2, 1], [3, 4]];
    const features = packGeometries(
        [
            {type: 'Feature', id: 7, bbox: [2, 1, 2, 1], properties: {name: 'here'}, geometry},
            {type: 'Feature', properties: {}, geometry: null}
        ],
        5);
    const collection =
        packGeometries({type: 'FeatureCollection', features: [{type: 'Feature', properties: {}, geometry}]}, 5);
    const literal = packGeometries([{type: 'LineString', coordinates: [[2, 1], [3, 4]], bbox: [2, 1, 3, 4]}, null], 5);
    const line: string = encode(positions, 5) + encode(read(blobs).xy, 5) + encode(new Float32Array(2), 5);
    const turned: Float64Array = decodeFlat(line, 5);
    write({depths, kinds, precisions, offsets, xy: new Float32Array(turned)});
    const errors: 'raise'|'collect' = flag ? 'raise' : 'collect', maybe = geometries([blobs, null], {errors});
    const many: number = Array.isArray(maybe) ? maybe.length : maybe.refused.length;
    many + features.offsets.length + collection.offsets.length + literal.offsets.length;
    const wkb: Uint8Array[] = toWkb(blobs), gaps: (Uint8Array|null)[] = toWkb([blobs, null], {ids: 'drop', nest: 3});
    const kept: (Uint8Array|null)[] = toWkb([blobs], {errors: 'collect'}).wkb, either2 = toWkb([blobs], {errors});
    split(fromWkb(gaps, 5, {style: 'plain'})).length + fromWkb(wkb[0], 5).offsets.length + kept.length;
    const sides: (Box|null)[] = boxes(blobs), sidesOfUnits: (UnitBox|null)[] = boxes([blobs, null], {degrees: false});
    const top: number = sides[0]?.[3] ?? 0, least: bigint = sidesOfUnits[0]?.box[0] ?? 0n;
    String(boxes(blobs, {degrees: flag}).length + boxes([blobs], {errors: 'collect'}).refused.length + top) + least;
    String(Array.isArray(either2)) + String(boxes([blobs], {errors, degrees: flag}));
    try {
        pack(again);
    } catch (fault) {
        if (fault instanceof Refused) fault.place.toFixed(exact ? 1 : 2);
        if (fault instanceof OutOfMemory) fault.message.trim();
    }
    // @ts-expect-error a style is full or plain
    pack('text', {style: 'Full'});
    // @ts-expect-error what is optional is in one object
    pack('text', 'full');
    // @ts-expect-error a stream is bytes
    unpack('text');
    // @ts-expect-error an array of numbers is no typed array
    write({...whole, kinds: [1]});
    // @ts-expect-error no such option
    read(blobs, {exact: true});
    // @ts-expect-error the offsets of blobs are there if they were asked for
    read(blobs).blobOffsets.length;
    // @ts-expect-error a stream with its offsets is no bytes
    unpack(write(whole, {offsets: true}));
    // @ts-expect-error nothing is read, so no limit is checked
    split(packGeometries(column, 5), {nest: 2});
    // @ts-expect-error no caller makes a refusal
    new Refused('x');
    // @ts-expect-error there is no such form
    stream(response, {gives: 'rows'});
    // @ts-expect-error offsets of blobs are those of arrays
    for await (const part of stream(response, {gives: 'geometries'})) part.blobOffsets;
    // @ts-expect-error a BigInt64Array has whole numbers
    encode(flat, 5);
    // @ts-expect-error WKB needs a precision
    fromWkb(wkb);
    // @ts-expect-error degrees need a precision
    encode(degrees);
}

void all;
