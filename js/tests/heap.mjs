// The heap of packaging/wasm/heap.c beside a model: blocks lie apart and keep what is written, a refused growth leaves
// all as it was, and none is left at the end.
//
//     node [--wasm-max-mem-pages=N] heap.mjs HEAP.wasm
import assert from 'node:assert/strict';
import {readFileSync} from 'node:fs';

const {instance: {exports: wasm}} = await WebAssembly.instantiate(readFileSync(process.argv[2]));
const [ROUNDS, STEPS, MOST] = [300, 200, [20, 300, 5000, 70000, 400000]];
let state = Number(process.env.SEED ?? 1);
const random = most => (state = (state * 1103515245 + 12345) % 2 ** 31) % most;
const memory = () => new Uint8Array(wasm.memory.buffer);

/** A round: blocks as they should be. */
class Model {
    constructor() {
        this.base = wasm.buffers(16 + random(5000)) >>> 0; // the first 16 bytes take what a call answers
        assert.ok(this.base);
        Object.assign(this, {blocks: [], lacked: 0});
    }

    get answer() {
        const view = new DataView(wasm.memory.buffer);
        return view.getUint32(this.base, true) ? Number(view.getBigUint64(this.base + 8, true)) : null;
    }

    written(at, size) {
        const mark = 1 + random(255);
        memory().fill(mark, at, at + size);
        return {at, size, mark};
    }

    take(size) {
        wasm.rattle_alloc(BigInt(this.base), BigInt(size), 8n);
        const at = this.answer;
        if (at) this.blocks.push(this.written(at, size));
        else this.lacked++;
    }

    change(place, size) {
        const block = this.blocks[place];
        wasm.rattle_realloc(BigInt(this.base), BigInt(block.at), BigInt(block.size), BigInt(size), 8n);
        const at = this.answer;
        if (!at) {
            this.lacked++;
            return;
        }
        const bytes = memory().subarray(at, at + Math.min(size, block.size));
        assert.ok(bytes.every(byte => byte === block.mark), 'a byte is lost');
        this.blocks[place] = this.written(at, size);
    }

    drop(place) {
        const [block] = this.blocks.splice(place, 1);
        wasm.rattle_dealloc(BigInt(block.at));
    }

    check() {
        const bytes = memory(), blocks = [...this.blocks].sort((left, right) => left.at - right.at);
        for (const [place, {at, size, mark}] of blocks.entries()) {
            const before = place ? blocks[place - 1].at + blocks[place - 1].size : this.base + 16;
            assert.ok(at % 16 === 0 && at >= before && at + size <= bytes.length);
            for (const offset of [0, size >> 1, size - 1]) assert.equal(bytes[at + offset], mark);
        }
    }

    step() {
        const {blocks} = this, size = 1 + random(MOST[random(MOST.length)]), kind = blocks.length ? random(10) : 0;
        if (kind < 4) this.take(size);
        else if (kind < 8) this.change(random(3) ? blocks.length - 1 : random(blocks.length), size);
        else this.drop(random(blocks.length));
        this.check();
    }

    end() {
        wasm.rattle_alloc(BigInt(this.base), 2n ** 62n, 8n);
        assert.equal(this.answer, null);
        wasm.rattle_alloc(BigInt(this.base), 0n, 8n);
        this.blocks.push({at: this.answer, size: 8});
        while (this.blocks.length) this.drop(random(this.blocks.length));
        assert.equal(wasm.kept(), 0);
    }
}

let lacked = 0;
for (let round = 0; round < ROUNDS; round++) {
    const model = new Model();
    for (let step = 0; step < STEPS; step++) model.step();
    model.end();
    lacked += model.lacked;
}
console.log(`${ROUNDS * STEPS} calls, ${lacked} lacked memory; ${wasm.memory.buffer.byteLength / 65536} pages`);
if (process.execArgv.length) assert.ok(lacked > 0);
