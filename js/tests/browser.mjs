// The package and the page in headless browsers: a line for each check.
//
//     node browser.mjs CASES FOLDER BROWSER..
//     node browser.mjs picture FOLDER BROWSER..
//
// CASES are those of cases.py; pictures of the page are left in FOLDER, with `picture` without the checks. Ends what it
// starts, by its id.
import {spawn} from 'node:child_process';
import {createReadStream, existsSync, mkdtempSync, readFileSync, rmSync, statSync} from 'node:fs';
import {createServer} from 'node:http';
import {tmpdir} from 'node:os';
import {extname, join, normalize, resolve} from 'node:path';
import {fileURLToPath} from 'node:url';
import * as polytwkb from '../polytwkb.js';

const [cases, folder, ...browsers] = process.argv.slice(2);
const SECONDS = 1200;
const WHICH = cases === 'picture' ? '?only=testPicture' : '';
const TOP = fileURLToPath(new URL('..', import.meta.url));
const KINDS = {
    '.html': 'text/html',
    '.js': 'text/javascript',
    '.wasm': 'application/wasm',
    '.css': 'text/css'
};
const POINT = Buffer.from([1, 2, 2, 4, 2]);
let told = null, held = null, began = 'the start';

/** A stream that is sent in pieces which end inside of blobs. */
async function sendStream(response) {
    const whole = Buffer.concat(Array(2600).fill(POINT));
    for (let at = 0; at < whole.length; at += 997) {
        response.write(whole.subarray(at, at + 997));
        await new Promise(resolve => setTimeout(resolve, 2));
    }
    response.end();
}

function take(request, response, end) {
    let body = '';
    request.on('data', data => (body += data)).on('end', () => {
        response.end();
        end(body);
    });
}

/** What the page posts: the name of each test that begins, and at last the lines of all. */
const POSTED = {
    '/began': name => (began = name),
    '/result': lines => {
        held?.writeHead(204).end();
        told(lines);
    },
};

const SHAPES = `depth,kind,id,precision,polyline
0,point,,0,
0,linestring,,5,yop}Gysml@lAxTfChSgKhK
0,polygon,,0,
1,ring,,,???wBoA??vBnA?
1,ring,,,Sg@g@??g@f@??f@
`;
// The example's map, with Debian's Leaflet in place of the one that the network has.
const LEAFLET = '/usr/share/javascript';
const FROM_NETWORK = /https:\/\/unpkg.com\/leaflet@[^/]*\/dist/g;
const mapOf = path => readFileSync(join(TOP, path), 'utf8').replaceAll(FROM_NETWORK, '/leaflet');

const MADE = {
    '/stream': response => sendStream(response),
    '/cut': response => response.end(Buffer.concat([POINT, POINT, POINT.subarray(0, 3)])),
    '/shapes': response => response.end(polytwkb.pack(SHAPES)),
    '/examples/leaflet/index.html': (response, path) => {
        response.writeHead(200, {'Content-Type': 'text/html'});
        response.end(mapOf(path));
    },
};

function send(path, response) {
    const top = path.startsWith('/leaflet/') ? LEAFLET : TOP;
    const file = path === '/cases' ? cases : join(top, normalize(path));
    if (!existsSync(file) || !statSync(file).isFile()) return response.writeHead(404).end();
    response.writeHead(200, {'Content-Type': KINDS[extname(file)] ?? 'application/octet-stream'});
    return createReadStream(file).pipe(response);
}

const server = createServer((request, response) => {
    const path = new URL(request.url, 'http://here').pathname;
    if (request.method === 'POST') take(request, response, POSTED[path]);
    else if (path === '/wait') held = response;
    else if (MADE[path]) MADE[path](response, path);
    else send(path, response);
});
await polytwkb.load();
await new Promise(resolve => server.listen(0, '127.0.0.1', resolve));
const base = `http://127.0.0.1:${server.address().port}`;

/** Has a browser show a page, and leave a picture of it; its status. */
async function shown(browser, url, picture) {
    const profile = mkdtempSync(join(tmpdir(), 'polytwkb-browser-'));
    const words = browser.includes('firefox') ?
        ['--headless', '--no-remote', '--profile', profile, '--window-size=1180,820', '--screenshot', picture, url] :
        [
            '--headless', '--no-sandbox', '--disable-gpu', '--no-first-run', `--user-data-dir=${profile}`,
            '--hide-scrollbars', '--window-size=1180,820', `--screenshot=${picture}`, url
        ];
    const child = spawn(browser, words, {stdio: 'ignore'});
    const timer = setTimeout(() => child.kill('SIGKILL'), SECONDS * 1000);
    const status = await new Promise(resolve => child.on('exit', resolve).on('error', fault => resolve(fault.message)));
    clearTimeout(timer);
    rmSync(profile, {recursive: true, force: true, maxRetries: 40, retryDelay: 500});
    return status;
}

let wrong = 0;
for (const browser of browsers) {
    began = 'the start';
    const result = new Promise(resolve => (told = resolve)), picture = resolve(folder, `${browser}.png`);
    const status = await shown(browser, `${base}/tests/in_browser.html${WHICH}`, picture);
    const text = await Promise.race([result, `FAIL  ${began}: no result, and the browser ended with ${status}`]);
    for (const line of text.split('\n')) {
        console.log(line.replace(/^(ok  |FAIL)  /, `$1  ${browser}: `));
        if (line.startsWith('FAIL')) wrong++;
    }
}
server.close();
process.exit(wrong ? 1 : 0);
