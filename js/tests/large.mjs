// Inputs of hundreds of MB: a table is packed and unpacked to the same again, or refused for want of memory.
//
//     node large.mjs MEGABYTES..
import * as polytwkb from '../polytwkb.js';

const HEADER = Buffer.from('depth,kind,id,precision,polyline\n');
const LINE = `0,linestring,,5,${'_p~iF~ps|U_ulLnnqC_mqNvxq`@'.repeat(300)}\n`;

function tableOf(megabytes) {
    const times = Math.ceil((megabytes * 1e6) / LINE.length), table = Buffer.alloc(HEADER.length + times * LINE.length);
    HEADER.copy(table);
    table.fill(LINE, HEADER.length);
    return table;
}

function backAndForth(table) {
    const start = performance.now(), blobs = polytwkb.pack(table), packed = performance.now();
    const again = polytwkb.unpackBytes(blobs), unpacked = performance.now();
    if (Buffer.compare(again, table)) throw new Error('another table comes back');
    const speeds = [packed - start, unpacked - packed].map(time => Math.round(table.length / time / 1000));
    return `${blobs.length} bytes, the same again; pack ${speeds[0]} MB/s, unpack ${speeds[1]} MB/s`;
}

await polytwkb.load();
for (const megabytes of process.argv.slice(2).map(Number)) {
    const table = tableOf(megabytes);
    let said;
    try {
        said = backAndForth(table);
    } catch (fault) {
        if (!(fault instanceof polytwkb.OutOfMemory)) throw fault;
        said = `${fault.name}: ${fault.message}`;
    }
    console.log(`${megabytes} MB: ${said}`);
    if (polytwkb.decode('AAGG').length !== 2) throw new Error('the next call does not work');
}
