// The page and the package in a browser: what in_browser.html does. The server of browser.mjs gets the result. Until
// then it holds back a picture, so that the browser ends, with a screenshot, only after it.
import * as polytwkb from '../polytwkb.js';
import {Comparing, checking, checkingPackage, records} from './compare.js';
import {faultsOf} from './readme.js';

document.body.append(Object.assign(new Image(), {src: '/wait', hidden: true}));
const frame = document.getElementById('page');
const said = [];
const HEADER = 'depth,kind,id,precision,polyline\n';
const LONGEST = 600; // seconds that a test may take
const [ELEMENTS, LETTERS] = [3000, 20000]; // more than these of a page, or in a path, take a browser long

function check(name, holds, found = '') { said.push(holds ? `ok    ${name}` : `FAIL  ${name}: ${found}`); }

const fetched = async path => new Uint8Array(await (await fetch(path)).arrayBuffer());
const next = (target, event) => new Promise(resolve => target.addEventListener(event, resolve, {once: true}));
const within = selector => frame.contentDocument.querySelector(selector);
const textOf = selector => within(selector).textContent;
const marks = selector => [...frame.contentDocument.querySelectorAll(selector)].map(it => it.textContent.trim());

/** Pastes a text, and waits until it is shown and drawn. */
async function pasted(text) {
    const page = frame.contentDocument, transfer = new frame.contentWindow.DataTransfer();
    transfer.setData('text/plain', text);
    const opened = next(page, 'opened');
    const event = new frame.contentWindow.Event('paste', {bubbles: true, cancelable: true});
    Object.defineProperty(event, 'clipboardData', {value: transfer});
    page.dispatchEvent(event);
    await opened;
    await next(within('svg'), 'drawn');
}

async function dropped(bytes) {
    const {contentDocument: page, contentWindow: window} = frame, transfer = new window.DataTransfer();
    transfer.items.add(new window.File([bytes], 'it'));
    const opened = next(page, 'opened');
    const event = new window.Event('drop', {bubbles: true, cancelable: true});
    Object.defineProperty(event, 'dataTransfer', {value: transfer});
    page.dispatchEvent(event);
    await opened;
}

async function started() {
    frame.src = '../page/index.html';
    await next(frame, 'load');
    if (!marks('#headers div').length) await next(frame.contentDocument, 'opened');
    await next(within('svg'), 'drawn');
}

async function testExample() {
    const drawn = ['.lines path', '.dots path'].every(name => /^M.*/.test(within(name)?.getAttribute('d')));
    check('the example is drawn', drawn && marks('.areas path').length === 3, within('svg').outerHTML.slice(0, 500));
    check('its headers are listed', marks('#headers div').length === 8, marks('#headers div'));
    check('kinds are told apart', /polygon 1 .*multipoint 2 /.test(textOf('#legend')), textOf('#legend'));
    const chosen = next(frame.contentDocument, 'chosen');
    within('#headers div[data-line="0"]').click();
    await chosen;
    await next(within('svg'), 'drawn');
    check('a header leads to the picture', /Z$/.test(within('.chosen.area path').getAttribute('d')));
    check('a header leads to its bytes', marks('#bytes mark').length > 100, marks('#bytes mark').length);
    check('a header leads to its rows', marks('#table .chosen').length === 4, marks('#table .chosen'));
    const svg = within('svg').getBoundingClientRect(), seen = next(frame.contentDocument, 'chosen');
    const [, x, y] = /^M(\S+) (\S+?)h0/.exec(within('.dots path').getAttribute('d'));
    const {PointerEvent} = frame.contentWindow;
    const words = {bubbles: true, clientX: svg.left + Number(x), clientY: svg.top + Number(y), pointerId: 1};
    within('svg').setPointerCapture = () => {};
    for (const name of ['pointerdown', 'pointerup']) within('svg').dispatchEvent(new PointerEvent(name, words));
    check('the picture leads to a header', (await seen).detail === 2);
}

async function testRefusals() {
    await pasted(`${HEADER}0,point,,0,AC\n0,point,,0,AA\n0,pont,,0,\n`);
    const says = (name, words) => check(name, words.test(textOf('#refused')), textOf('#refused'));
    says('a refused record', /record 4: unknown kind \(BAD_KIND\).* 1 geometry/);
    check('it is shown in the table', marks('#table .wrong')[0] === '0,pont,,0,', marks('#table .wrong'));
    await pasted('04 07 0b 04 02 02 06 02 0e 10 04 02 02 06 02 00 02 02 02');
    says('a refused byte', /byte 19: truncated \(BLOB_TRUNCATED\).* 1 geometry/);
    check('it is shown in the bytes', marks('#bytes .wrong')[0] === '--', marks('#bytes .wrong'));
    await pasted('\\x0407090402020602080402');
    says('a wrong type of blob', /byte \d+: /);
    await pasted(`${HEADER}0,multipoint,,0,\n1,point,7,,AC\n1,point,8,,GE\n`);
    check('what is right is not refused', within('#refused').hidden);
    check('it packs', marks('#bytes div')[0] === '0  04 07 0b 04 02 02 06 02 0e 10 04 02 02 06', marks('#bytes div'));
    check('it tells sizes', /table 78 bytes, full 14, plain 9, 2 points/.test(textOf('#sizes')), textOf('#sizes'));
}

/**
 * Ten megabytes of lines: the page shows frames while the worker is at work, and gets no more elements and paths than a
 * browser draws at once.
 */
async function testLarge() {
    const places = Array.from({length: 1000}, (_, place) => [(place * 7919) % 1000, (place * 104729) % 997]);
    const rows = `0,linestring,,2,${polytwkb.encode(places)}\n0,point,,2,${polytwkb.encode([[5, 7]])}\n`;
    const blobs = polytwkb.pack(HEADER + rows.repeat(3400)), start = performance.now(), events = [];
    const said = new MutationObserver(() => events.push('message')), {requestAnimationFrame} = frame.contentWindow;
    const shown = () => {
        events.push('frame');
        if (!events.includes('end')) requestAnimationFrame(shown);
    };
    said.observe(within('#sizes'), {childList: true, characterData: true, subtree: true});
    requestAnimationFrame(shown);
    await dropped(blobs);
    await next(within('svg'), 'drawn');
    events.push('end');
    said.disconnect();
    const took = Math.round(performance.now() - start), megabytes = (blobs.length / 1e6).toFixed(1);
    const order = events.filter((event, at) => event !== events[at - 1]).join(' ');
    check(
        `frames are shown while ${megabytes} MB are read (${took} ms)`, order.includes('message frame message'), order);
    const count = frame.contentDocument.querySelectorAll('*').length;
    const letters =
        Math.max(...[...frame.contentDocument.querySelectorAll('path')].map(path => path.getAttribute('d').length));
    check(`the page has ${count} elements then`, blobs.length > 1e7 && count < ELEMENTS, count);
    check(`its longest path has ${letters} letters`, letters > 0 && letters <= LETTERS, letters);
    const box = within('#table');
    box.scrollTop = box.scrollHeight;
    const last = () => within('#table div[data-line="6800"]');
    check('the table scrolls to its last row', await until(last), marks('#table div'));
}

/** Waits until something holds, for some seconds. */
async function until(holds) {
    for (let tries = 0; tries < 200 && !holds(); tries++) await new Promise(resolve => setTimeout(resolve, 50));
    return holds();
}

const ROWS = 400000;

/** Ten megabytes of rows, the last of which is refused. */
function tableOfLateFault() {
    const points = Array.from({length: 1000}, (_, at) => [1.1e9 + 700001 * ((at * 7919) % 1000), 3e8 + 200003 * at]);
    const rows = points.map(point => `0,point,,7,${polytwkb.encode([point])}\n`).join('');
    return new TextEncoder().encode(`${HEADER}${rows.repeat(ROWS / points.length)}0,pont,,7,\n`);
}

/** A late fault is shown, and each other row can be scrolled to, before the stream is read. */
async function testLateFault() {
    const table = tableOfLateFault(), megabytes = (table.length / 1e6).toFixed(1), start = performance.now();
    const after = () => Math.round(performance.now() - start), page = frame.contentDocument, opened = dropped(table);
    const first = await Promise.race(['refused', 'opened'].map(event => next(page, event).then(() => event)));
    check(`a fault in the last row of ${megabytes} MB comes before its stream (${after()} ms)`, first === 'refused');
    const [wrong] = marks('#table .wrong'), said = textOf('#refused');
    const isShown = wrong === '0,pont,,7,' && said.includes(`record ${ROWS + 2}: unknown kind`);
    check('it is the fault of the last row', isShown, `${wrong} ${said}`);
    const box = within('#table'), line = at => within(`#table div[data-line="${at}"]`)?.getBoundingClientRect();
    const {top, bottom} = box.getBoundingClientRect(), sees = at => line(at)?.bottom > top && line(at)?.top < bottom;
    check('the fault is in sight', sees(ROWS + 1), marks('#table div'));
    for (const [part, at] of [[0, 0], [1, ROWS + 1], [0.5, ROWS / 2]]) {
        box.scrollTop = part * (box.scrollHeight - box.clientHeight);
        check(`it scrolls to line ${at}`, await until(() => sees(at)), marks('#table div'));
    }
    await opened;
    const isRead = marks('#headers div').length > 0 && textOf('#sizes').includes('399\u202f999 points');
    check(`the stream before it is shown (${after()} ms)`, isRead, textOf('#sizes'));
    check('the table stays where it was scrolled to', sees(ROWS / 2), marks('#table div'));
}

/** Of two that are opened at once, the second is shown, also if the first takes longer. */
async function testTwo() {
    const first = `${HEADER}0,point,,0,AA\n`, blob = '01 02 02 04 02';
    for (const [name, second] of Object.entries({table: `${HEADER}0,point,,0,AC\n`, stream: blob})) {
        await Promise.all([first, second].map(pasted));
        check(
            `a ${name} is shown that is opened just after a table`, marks('#bytes div')[0] === `0  ${blob}`,
            marks('#bytes div'));
    }
}

async function testPackage() {
    await polytwkb.load();
    const comparing = new Comparing([
        ['module', await checking(await fetched('../polytwkb.wasm'))],
        ['package', checkingPackage(polytwkb)],
    ]);
    for (const record of records(await fetched('/cases')).found) comparing.add(record);
    check(`random calls as the native library: ${comparing.line}`, comparing.count && !comparing.wrong, comparing.told);
    const readme = await (await fetch('../README.md')).text();
    const faults = await faultsOf(readme, new URL('../polytwkb.js', location.href).href);
    check('it does what its README shows', faults.length === 0, faults);
    const got = [];
    for await (const part of polytwkb.stream(fetch('/stream'))) got.push(...polytwkb.geometries(part));
    check('a fetched stream comes blob by blob', got.length === 2600, got.length);
    const {body} = await fetch('/stream'), whole = JSON.stringify(got.splice(0));
    const reader = body.pipeThrough(polytwkb.transform({gives: 'geometries'})).getReader();
    for (let part = await reader.read(); !part.done; part = await reader.read()) got.push(...part.value);
    check('and through a transform as geometries', JSON.stringify(got) === whole, got.length);
}

async function testExamples() {
    const expected = {'/stream': /^2600 geometries in all/, '/cut': /^2 geometries, and .*: byte 13: truncated/};
    for (const [url, words] of Object.entries(expected)) {
        frame.src = `../examples/worker/index.html?open=${url}`;
        await next(frame, 'load');
        const found = await until(() => words.test(textOf('#told')));
        check(`the worker of the example reads ${url}`, found, textOf('#told'));
    }
    if (!(await fetch('/leaflet/leaflet.js')).ok) {
        said.push('skip  Leaflet: libjs-leaflet is not there');
        return;
    }
    frame.src = '../examples/leaflet/index.html?open=/shapes';
    await next(frame, 'load');
    const drawn = () => frame.contentDocument.querySelectorAll('path.leaflet-interactive').length;
    check('the example draws on a map of Leaflet', await until(() => drawn() === 2), drawn());
}

/** Runs a test. One that takes too long fails by its name, which the server has if the page does not answer any more. */
async function run(test) {
    await fetch('/began', {method: 'POST', body: test.name});
    let timer;
    const late = new Promise((_, reject) => {
        timer = setTimeout(() => reject(new Error(`${test.name} has no end after ${LONGEST} s`)), 1000 * LONGEST);
    });
    await Promise.race([test(), late]);
    clearTimeout(timer);
}

/** What docs/page.png shows: the example, with its collection chosen. */
async function testPicture() {
    await started();
    within('#headers div[data-line="3"]').click();
    await next(within('svg'), 'drawn');
    check('the picture has the collection', marks('#headers .chosen').length === 1, marks('#headers .chosen'));
}

async function main() {
    const tests = [
        testPackage,
        started,
        testExample,
        testRefusals,
        testTwo,
        testLateFault,
        testLarge,
        testExamples,
        testPicture,
    ];
    const only = new URLSearchParams(location.search).get('only');
    for (const test of tests.filter(({name}) => !only || name === only)) await run(test);
}

await main().catch(fault => check('the tests end', false, `${fault.message} ${fault.stack}`));
await fetch('/result', {method: 'POST', body: [...said, `# ${navigator.userAgent}`].join('\n')});
