/** A run of the command. */
import {load, refusalOf} from '../src/module.js';
import {Limits} from '../src/inputs.js';
import {Columns} from './columns.js';
import {Sink, Source, Status, Stop, writeAll} from './device.js';
import {Output, openInput} from './files.js';
import {HEADER, Streams} from './streams.js';
import {Tables} from './tables.js';
import {Answer, requestIn} from './words.js';

const BLOCK = 2 ** 18;
const [INPUT, OUTPUT, ERRORS] = [0, 1, 2];

/** Converts the windows of a source up to its end or a fault, and answers the fault. */
function convert(source, windows, sink) {
    const block = new Uint8Array(BLOCK);
    for (let count = -1; count !== 0 && !windows.fault;) {
        count = source.read(block);
        windows.add(block.subarray(0, count));
        for (const output of windows.take(count === 0, count < BLOCK)) sink.put(output);
    }
    return windows.fault;
}

/** What takes the pieces of the input, and gives those of the output. */
function windowsOf({conversion, nest, style, column}) {
    const limits = new Limits({nest});
    if (column) return new Columns(limits, style, conversion, column);
    return conversion === 'pack' ? new Tables(limits, style) : new Streams(limits, conversion);
}

/** Converts all, and writes what can be written of an input that is refused or fails. */
function carryOut(request, source, sink) {
    const {conversion, column, input} = request, windows = windowsOf(request);
    let fault;
    try {
        if (conversion === 'unpack' && !column) sink.put(HEADER);
        fault = convert(source, windows, sink);
    } catch (stop) {
        if (!sink.hasFailed) sink.flush();
        throw stop;
    }
    sink.flush();
    if (fault) throw new Stop(Status.REFUSED, refusalOf(fault, null).message, input);
}

/** Converts to a file, whole or not at all. */
function toFile(request, source) {
    const output = new Output(request.output);
    try {
        carryOut(request, source, new Sink(output.file, request.output));
    } catch (stop) {
        output.drop();
        throw stop;
    }
    source.close(); // it may be the file that is replaced
    output.keep();
}

async function carriedOut(words) {
    const request = requestIn(words), {input, output} = request;
    const source = new Source(input === undefined ? INPUT : openInput(input), input);
    await load();
    if (output === undefined) carryOut(request, source, new Sink(OUTPUT));
    else toFile(request, source);
}

/** Prints a text. A failure is not reported. */
function print(file, text) {
    try {
        writeAll(file, new TextEncoder().encode(text));
    } catch {
        // nobody reads it
    }
}

/** Tells why a run ended, and answers the status. */
function told(fault) {
    if (fault instanceof Answer) {
        print(fault.status ? ERRORS : OUTPUT, fault.message);
        return fault.status;
    }
    if (!(fault instanceof Stop || fault instanceof RangeError)) throw fault;
    // of memory, which the engine refuses by a RangeError
    const {status, message} = fault instanceof Stop ? fault : new Stop(Status.MEMORY, 'out of memory');
    print(ERRORS, `polytwkb: ${message}\n`);
    return status;
}

/** Runs the command with these words, and answers the exit status. */
export async function run(words) {
    try {
        await carriedOut(words);
        return Status.DONE;
    } catch (fault) {
        return told(fault);
    }
}
