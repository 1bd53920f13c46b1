/*
 * Tables of Google encoded polylines to streams of TWKB blobs and back, exactly, by the proved library polytwkb,
 * retargeted to WebAssembly in polytwkb.wasm. Call load() once, and wait for it; then every call answers at once.
 * polytwkb.d.ts says what each does.
 */
export {read} from './src/arrays.js';
export {boxes} from './src/boxes.js';
export {pack, show, toGeojson, toGeojsonBytes, unpack, unpackBytes} from './src/conversions.js';
export {packColumn, unpackColumn} from './src/csv.js';
export {geometries} from './src/geometries.js';
export {Limits} from './src/inputs.js';
export {load, version} from './src/module.js';
export {split} from './src/offsets.js';
export {packGeometries} from './src/packing.js';
export {decode, decodeFlat, encode} from './src/polylines.js';
export {OutOfMemory, Refused} from './src/refused.js';
export {stream, transform} from './src/stream.js';
export {toWkb} from './src/wkb.js';
export {fromWkb} from './src/wkb_reader.js';
export {write} from './src/writing.js';
