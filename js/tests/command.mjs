// The rows of tests/vectors/runs.txt through the command of an installed package, whose folder is given:
//
//     node command.mjs NODE_MODULES
import assert from 'node:assert/strict';
import {execFile} from 'node:child_process';
import {existsSync, mkdtempSync, readFileSync, rmSync, writeFileSync} from 'node:fs';
import {tmpdir} from 'node:os';
import {join, resolve} from 'node:path';
import {pathToFileURL} from 'node:url';
import {bytes, rowsOf, table} from './rows.mjs';

const AT_ONCE = 4;
const modules = resolve(process.argv[2]), program = join(modules, '.bin', 'polytwkb');
const {Answer, requestIn} = await import(pathToFileURL(join(modules, 'polytwkb', 'command', 'words.js')).href);

const RUN = /^run polytwkb ?(.*?) < (rows|hex|text) ?(.*)$/;
const ASKED =
    /^asks for Some\(Request \{ job: (.*), limits: Limits \{ nest: (\d+), .* \}, input: (.*), output: (.*) \}\)$/;
const CONVERT = /^Convert\((\w+)(?:\((\w+)\))?\)$/;
const PACK = /^PackColumn\(ColumnWords \{ style: (\w+), (.*), nulls: (.*), delimiter: (\d+) \}\)$/;
const UNPACK = /^UnpackColumn\((".*"), (\d+)\)$/;

/** What a run prints, and its status. */
const ran = (words, input, folder) => new Promise(resolved => {
    const child = execFile(program, words, {cwd: folder, encoding: 'buffer'}, (fault, output, errors) => {
        resolved({status: fault ? fault.code : 0, output, errors: errors.toString()});
    });
    child.stdin.on('error', () => {}); // it may end before it has read all
    child.stdin.end(input);
});

/** The input of a row. */
function inputOf(form, given) {
    if (form === 'hex') return bytes(given);
    return Buffer.from(form === 'rows' ? table(given) : given.replaceAll('/', '\n'));
}

/** Text of help has slashes of its own, so both are compared as the rows write them. */
const written = text => text.replaceAll('\n', '/');

/** Runs a row whose words name no file, or the file that it reads and the one that it writes. */
async function check([line, [status, output, errors]]) {
    const [, text, form, given] = RUN.exec(line), words = text.split(' ').filter(Boolean);
    const input = inputOf(form, given), due = Number(status.slice(7));
    const folder = mkdtempSync(join(tmpdir(), 'polytwkb-row-'));
    const {input: from, output: to} =
        due < 2 && /^(pack|unpack|show)/.test(text) && !/ -h| --help/.test(text) ? requestIn(words) : {};
    if (from) writeFileSync(join(folder, from), input);
    const found = await ran(words, from ? '' : input, folder);
    assert.equal(found.status, due, line);
    assert.equal(written(found.errors), errors.slice(6).trimStart(), line);
    // a file is not written in part, which the rows have the bytes of
    if (to && due) assert.ok(!existsSync(join(folder, to)), line);
    else if (text.startsWith('pack') && !text.includes('-h'))
        assert.equal(
            (to ? readFileSync(join(folder, to)) : found.output).toString('hex'), output.slice(6).trimStart(), line);
    else assert.equal(written(found.output.toString()), output.slice(6).trimStart(), line);
    rmSync(folder, {recursive: true});
}

function nameIn(text) {
    const named = /^Some\("(.*)"\)$/.exec(text);
    return named ? named[1] : undefined;
}

/** The fields of a struct as they are printed, of which names are texts. */
const fieldIn = (text, name) => new RegExp(`\\b${name}: (?:Some\\()?"?([^",)]*)`).exec(text)?.[1];

/** What is asked for as the command prints it. */
function jobIn(text) {
    const pack = PACK.exec(text), unpack = UNPACK.exec(text);
    if (unpack) {
        const [, name, delimiter] = unpack;
        return {
            conversion: 'unpack',
            style: 'Full',
            column:
                {name: JSON.parse(name), precision: undefined, ids: undefined, nulls: [], delimiter: Number(delimiter)}
        };
    }
    if (!pack) {
        const [, conversion, style = 'Full'] = CONVERT.exec(text);
        return {conversion, style};
    }
    const [, style, fields, nulls, delimiter] = pack, ids = fieldIn(fields, 'ids');
    const words = JSON.parse(nulls).map(codes => Buffer.from(codes).toString());
    return {
        conversion: 'pack',
        style,
        column: {
            name: fieldIn(fields, 'name'),
            precision: Number(fieldIn(fields, 'precision')),
            ids: ids === 'None' ? undefined : ids,
            nulls: words,
            delimiter: Number(delimiter)
        }
    };
}

function checkWords([line, [asked]]) {
    const words = line.split(' ').slice(2), match = ASKED.exec(asked);
    if (!match) {
        assert.equal(asked, 'asks for None', line);
        assert.throws(() => requestIn(words), Answer, line);
        return;
    }
    const [, job, nest, input, output] = match, {conversion, style, ...column} = jobIn(job);
    const expected = {
        conversion: conversion.toLowerCase(),
        nest: Number(nest),
        style: style.toLowerCase(),
        input: nameIn(input),
        output: nameIn(output),
        ...column
    };
    assert.deepEqual(requestIn(words), expected, line);
}

// options that only the native command has
const isNative = line => / --(hex|collection)\b/.test(line);
const rows = rowsOf('runs').filter(([line]) => !isNative(line)),
      runs = rows.filter(([line]) => line.startsWith('run ')),
      asked = rows.filter(([line]) => line.startsWith('words '));
assert.equal(runs.length + asked.length, rows.length);
assert.ok(runs.length > 80 && asked.length > 10);
asked.forEach(checkWords);
for (let at = 0; at < runs.length; at += AT_ONCE) await Promise.all(runs.slice(at, at + AT_ONCE).map(check));
console.log(`${runs.length} runs, ${asked.length} lines of words`);
