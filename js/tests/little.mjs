// With little memory each call answers as ever or raises OutOfMemory, and the next call works.
//
//     node --wasm-max-mem-pages=N little.mjs CASES
import {readFileSync} from 'node:fs';
import * as polytwkb from '../polytwkb.js';
import {checkingPackage, records} from './compare.js';

class Lacked extends Error {}

/** A call of the package whose want of memory is told apart. */
const lacking = call => (...given) => {
    try {
        return call(...given);
    } catch (fault) {
        throw fault instanceof polytwkb.OutOfMemory ? new Lacked() : fault;
    }
};

await polytwkb.load();
const calls = Object.entries(polytwkb).map(([name, it]) => [name, /^[a-z]/.test(name) && it.call ? lacking(it) : it]);
const check = checkingPackage(Object.fromEntries(calls));
let lacked = 0, right = 0;
for (const record of records(readFileSync(process.argv[2])).found) {
    const fault = check(record);
    if (fault.startsWith('Error\n')) lacked++;
    else if (fault) {
        console.log(fault);
        process.exit(1);
    } else right++;
}
console.log(`${right} right, ${lacked} lacked memory`);
process.exit(right && lacked ? 0 : 1);
