/** The page: what is opened, and how its picture, headers, table and bytes lead to one another. */
import {Lines} from './lines.js';
import {Picture} from './picture.js';

const at = id => document.getElementById(id);
const KINDS = ['point', 'linestring', 'polygon', 'multipoint', 'multilinestring', 'multipolygon', 'collection'];
const BITS = ['box', 'size', 'ids', 'extended', 'empty'];
const [WIDTH, LONGEST] = [16, 400]; // bytes in a line, and of a row that are shown

// ---- the worker

const worker = new Worker(new URL('./worker.js', import.meta.url), {type: 'module'});
const asked = new Map();

worker.onmessage = ({data: {id, value, fault, progress}}) => {
    if (progress !== undefined) {
        at('sizes').textContent = `${grouped(progress)} bytes`;
        return;
    }
    const {resolve, reject} = asked.get(id);
    asked.delete(id);
    if (fault) reject(new Error(fault));
    else resolve(value);
};

function ask(call, ...given) {
    const id = crypto.getRandomValues(new Uint32Array(1))[0];
    return new Promise((resolve, reject) => {
        asked.set(id, {resolve, reject});
        worker.postMessage({id, call, given});
    });
}

// ---- what is opened

let opened = null;
let chosen = null; // a header
let turns = 0; // how many were opened

const grouped = number => String(number).replace(/\B(?=(\d{3})+$)/g, '\u202f');
const isTable = bytes => new TextDecoder().decode(bytes.subarray(0, 9)).replace(/^[\ufeff"]+/, '').startsWith('depth');

/** The bytes that a text spells in hexadecimal, or null. */
function bytesOfHex(text) {
    const digits = text.replace(/\\x|0x|[\s,:]/gi, '');
    if (!digits || digits.length % 2 || /[^0-9a-f]/i.test(digits)) return null;
    return Uint8Array.from({length: digits.length / 2}, (_, place) => parseInt(digits.substr(2 * place, 2), 16));
}

/** Shows a table and its fault as soon as it is packed, and the rest when its stream is read. */
async function open(given) {
    const turn = ++turns, isLast = () => turn === turns; // none was opened meanwhile
    at('refused').hidden = true;
    try {
        const first = isTable(given) ? {...await ask('pack', given), table: given} : {bytes: given};
        if (!isLast()) return;
        showFirst(first);
        const rest = await ask('read', first.bytes, Boolean(first.table));
        if (isLast()) showRest({...rest, ...first}, !first.table);
    } catch (fault) {
        if (isLast()) tell(fault.message);
    }
}

/** Shows the bytes, and the table if it was given. */
function showFirst(first) {
    opened = first;
    chosen = null;
    lists.headers.reset(0);
    lists.bytes.reset(Math.floor(opened.bytes.length / WIDTH) + 1);
    picture.clear();
    at('legend').replaceChildren();
    showTable();
}

/** Shows what was read of the stream; also the table, if the stream was given. */
function showRest(all, isStream) {
    opened = all;
    lists.headers.reset(opened.headers.offset.length);
    if (isStream) showTable();
    at('picture').classList.toggle('empty', opened.sizes.points === 0);
    tellSizes();
    tellKinds();
    picture.fit(opened.bounds);
    document.dispatchEvent(new CustomEvent('opened', {detail: opened}));
}

/** Shows the table, if it is there, and the fault. */
function showTable() {
    const {lines = [], fault} = opened;
    opened.wrongLine = fault?.isRecord ? lineOfRecord(fault.place) : -1;
    lists.table.reset(lines.length);
    if (fault) tellFault();
}

function tell(text) {
    at('refused').textContent = text;
    at('refused').hidden = false;
}

function tellFault() {
    const {message, code, done} = opened.fault;
    const before = `${grouped(done)} geometr${done === 1 ? 'y' : 'ies'}`;
    tell(`Refused: ${message} (${code}). Shown is what is before it: ${before}.`);
    showFault();
    document.dispatchEvent(new CustomEvent('refused', {detail: opened.fault}));
}

function showFault() {
    const {fault} = opened;
    if (fault.isRecord) lists.table.show(opened.wrongLine);
    else lists.bytes.show(Math.floor(fault.place / WIDTH));
}

/** The line of a record, from 1: blank lines are no records. It looks at each line, so it is asked once a table. */
function lineOfRecord(record) {
    const {table: bytes, lines} = opened;
    let line = 0;
    for (let seen = 0; line < lines.length; line++) {
        const end = line + 1 < lines.length ? lines[line + 1] : bytes.length;
        let at = lines[line];
        while (at < end && (bytes[at] === 10 || bytes[at] === 13)) at++;
        if (at < end && ++seen === record) break;
    }
    return Math.min(line, lines.length - 1);
}

function tellSizes() {
    const {points, table: text, full, plain} = opened.sizes;
    at('sizes').textContent = `table ${grouped(text)} bytes, full ${grouped(full)}, plain ${grouped(plain)}, ` +
        `${grouped(points)} points`;
}

function tellKinds() {
    at('legend').replaceChildren(...KINDS.filter(kind => opened.counts[kind]).map(kind => {
        const entry = document.createElement('span'), mark = document.createElement('i');
        mark.className = kind;
        entry.append(mark, `${kind} ${grouped(opened.counts[kind])} `);
        return entry;
    }));
}

// ---- lists

function textOf(bytes, lines, line) {
    const end = line + 1 < lines.length ? lines[line + 1] : bytes.length;
    return new TextDecoder().decode(bytes.subarray(lines[line], Math.min(end, lines[line] + LONGEST)));
}

function drawHeader(header, element) {
    const {offset, kind, precision, metadata, length, points, level} = opened.headers;
    const bits = BITS.filter((_, bit) => metadata[header] & (1 << bit)).join(' ') || '-';
    const name = `${'  '.repeat(level[header])}${KINDS[kind[header]]}`, right = number => String(number).padStart(8);
    element.textContent = [
        right(offset[header]),
        name.padEnd(18),
        right(precision[header]),
        bits.padEnd(12),
        right(length[header]),
        right(points[header]),
    ].join('  ');
    element.classList.toggle('chosen', header === chosen);
    element.onclick = () => choose(header);
}

function drawRow(line, element) {
    const {table: bytes, lines, wrongLine} = opened;
    element.textContent = textOf(bytes, lines, line).trimEnd();
    element.classList.toggle('wrong', line === wrongLine);
    element.classList.toggle('chosen', chosen !== null && line >= opened.rows[chosen] && line < rowAfter(chosen));
}

const hexOf = byte => byte.toString(16).padStart(2, '0');

function drawBytes(line, element) {
    const {bytes, fault} = opened, start = line * WIDTH, place = document.createElement('span');
    place.className = 'offset';
    place.textContent = `${String(start).padStart(9)}  `;
    element.append(place);
    const [from, to] = chosen === null ? [0, 0] : bytesOfHeader(chosen);
    const wrong = fault && !fault.isRecord ? fault.place : -1;
    const end = Math.min(start + WIDTH, Math.max(bytes.length, wrong + 1));
    for (let offset = start; offset < end; offset++) {
        const byte = document.createElement(offset >= from && offset < to ? 'mark' : 'span');
        if (offset === wrong) byte.className = 'wrong';
        byte.textContent = `${offset < bytes.length ? hexOf(bytes[offset]) : '--'} `;
        element.append(byte);
    }
}

const bytesOfHeader = header => {
    const start = opened.headers.offset[header];
    return [start, start + opened.headers.length[header]];
};

/** The next header that is no member of this one. */
function nextOf(header) {
    const {level} = opened.headers;
    let next = header + 1;
    while (next < level.length && level[next] > level[header]) next++;
    return next;
}

function rowAfter(header) {
    const next = nextOf(header);
    return next < opened.rows.length ? opened.rows[next] : opened.lines.length;
}

/** Shows a header everywhere. */
function choose(header) {
    chosen = header;
    lists.headers.show(header);
    lists.table.show(opened.rows[header]);
    lists.bytes.show(Math.floor(opened.headers.offset[header] / WIDTH));
    picture.mark(header, nextOf(header));
    document.dispatchEvent(new CustomEvent('chosen', {detail: header}));
}

const lists = {
    headers: new Lines(at('headers'), drawHeader),
    table: new Lines(at('table'), drawRow),
    bytes: new Lines(at('bytes'), drawBytes),
};
const picture = new Picture(at('picture'), ask, choose);

// ---- where it comes from

const openText = text => open(bytesOfHex(text) ?? new TextEncoder().encode(text));
const openFile = async file => open(new Uint8Array(await file.arrayBuffer()));

function opening(transfer) {
    const [file] = transfer.files;
    if (file) openFile(file);
    else openText(transfer.getData('text'));
}

at('file').addEventListener('change', ({target}) => target.files[0] && openFile(target.files[0]));
at('example').addEventListener('click', () => openFrom('example.csv'));
at('refused').addEventListener('click', showFault);
document.addEventListener('paste', event => {
    event.preventDefault();
    opening(event.clipboardData);
});
document.addEventListener('dragover', event => {
    event.preventDefault();
    document.body.classList.add('over');
});
document.addEventListener('dragleave', () => document.body.classList.remove('over'));
document.addEventListener('drop', event => {
    event.preventDefault();
    document.body.classList.remove('over');
    opening(event.dataTransfer);
});

async function openFrom(url) {
    try {
        const response = await fetch(url);
        if (!response.ok) throw new Error(`${url}: status ${response.status}`);
        await open(new Uint8Array(await response.arrayBuffer()));
    } catch (fault) {
        tell(fault.message);
    }
}

openFrom(new URLSearchParams(location.search).get('open') ?? 'example.csv');
