// A program that a bundler takes, with the module as a file beside it.
import file from 'polytwkb-module';
import {geometries, load, pack, unpack} from 'polytwkb';

await load(new URL(file, import.meta.url));
const table = 'depth,kind,id,precision,polyline\n0,point,,0,AC\n', blobs = pack(table);
if (unpack(blobs) !== table || geometries(blobs)[0].coordinates[1] !== 1) throw new Error('differs');
console.log('packs and unpacks');
