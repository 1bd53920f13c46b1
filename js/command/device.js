/** Files and standard streams that are read and written at once, so that no output is left when the process ends. */
import * as fs from 'node:fs';

export const Status = {
    DONE: 0,
    REFUSED: 1,
    DEVICE: 3,
    MEMORY: 4,
};

/** A run ends with this status and this line. */
export class Stop extends Error {
    constructor(status, line, name) {
        super(name === undefined ? line : `${name}: ${line}`);
        this.status = status;
    }
}

const BLOCK = 2 ** 16;
const PAUSE = 5; // milliseconds until a device that had nothing is asked again
const clock = new Int32Array(new SharedArrayBuffer(4));

/** Reads or writes; again if a device does not wait by itself. */
function patiently(act) {
    for (;;) {
        try {
            return act();
        } catch (fault) {
            if (fault.code !== 'EAGAIN') throw fault;
            Atomics.wait(clock, 0, 0, PAUSE);
        }
    }
}

/** Bytes of a file with this name, or of standard input. */
export class Source {
    constructor(file, name) {
        this.file = file;
        this.name = name;
    }

    /** Reads into a block, and answers how many bytes have come: 0 at the end. */
    read(block) {
        try {
            return patiently(() => fs.readSync(this.file, block, 0, block.length, null));
        } catch (fault) {
            if (fault.code === 'EOF') return 0; // of a pipe of Windows
            throw new Stop(Status.DEVICE, 'read failed', this.name);
        }
    }

    close() { fs.closeSync(this.file); }
}

/** Writes all of some bytes. */
export function writeAll(file, bytes) {
    for (let from = 0; from < bytes.length;)
        from += patiently(() => fs.writeSync(file, bytes, from, bytes.length - from));
}

/** Takes bytes for a file with this name, or for standard output, and writes them in blocks. */
export class Sink {
    constructor(file, name) {
        this.file = file;
        this.name = name;
        this.block = new Uint8Array(BLOCK);
        this.length = 0;
        this.hasFailed = false;
    }

    put(bytes) {
        if (this.length + bytes.length > BLOCK) this.flush();
        if (bytes.length > BLOCK) this.write(bytes);
        else {
            this.block.set(bytes, this.length);
            this.length += bytes.length;
        }
    }

    flush() {
        const {block, length} = this;
        this.length = 0;
        this.write(block.subarray(0, length));
    }

    write(bytes) {
        try {
            writeAll(this.file, bytes);
        } catch {
            this.hasFailed = true;
            throw new Stop(Status.DEVICE, 'write failed', this.name);
        }
    }
}
