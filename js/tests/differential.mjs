// Compares modules with the native library: each case of cases.py by each module, and by the package.
//
//     node differential.mjs CASES MODULE.wasm..
import {openSync, readFileSync, readSync} from 'node:fs';
import {basename} from 'node:path';
import * as polytwkb from '../polytwkb.js';
import {Comparing, checking, checkingPackage, records} from './compare.js';

const [cases, ...files] = process.argv.slice(2);
await polytwkb.load();
const modules = await Promise.all(files.map(async file => [basename(file), await checking(readFileSync(file))]));
const comparing = new Comparing([...modules, ['package', checkingPackage(polytwkb)]]);
const input = openSync(cases), piece = Buffer.alloc(1 << 24);
let held = Buffer.alloc(0);
for (let got; (got = readSync(input, piece)) > 0;) {
    const bytes = Buffer.concat([held, piece.subarray(0, got)]), {found, used} = records(bytes);
    for (const record of found) comparing.add(record);
    held = bytes.subarray(used);
}
for (const line of comparing.told) console.log(line);
if (held.length) console.log('the file of cases is cut short');
console.log(comparing.line);
process.exit(comparing.wrong || held.length || !comparing.count ? 1 : 0);
