// Times of a redraw of the page, whole and zoomed in, by turns with that of other folders, whose paths must be the same:
//
//     node redraw.mjs [FOLDER ..]
//
// FOLDER is `js/page` of another checkout. 44,000 lines of 50 points; medians of eight turns, in milliseconds of the processor.
import {pathToFileURL} from 'node:url';

const LINES = 44000, POINTS = 50, STEP = 0.0006;
const folders = [new URL('../page/', import.meta.url), ...process.argv.slice(2).map(name => pathToFileURL(`${name}/`))];
let state = 7;
const random = () => (state = (state * 48271) % 2147483647) / 2147483647;

const xy = new Float64Array(2 * LINES * POINTS),
      offsets = Uint32Array.from({length: LINES + 1}, (_, row) => row * POINTS);
for (let at = 0; at < xy.length; at += 2) {
    const begins = at % (2 * POINTS) === 0;
    xy[at] = begins ? 5 + 5 * random() : xy[at - 2] + STEP * (random() - 0.5);
    xy[at + 1] = begins ? 45 + 3 * random() : xy[at - 1] + STEP * (random() - 0.5);
}
const geometries = {
    kinds: new Uint8Array(LINES).fill(2),
    precisions: new Int8Array(LINES).fill(5),
    offsets,
    xy
};

const pages = await Promise.all(folders.map(async folder => {
    const [{Shapes}, {drawn}] =
        await Promise.all(['shapes.js', 'drawing.js'].map(name => import(new URL(name, folder))));
    const shapes = new Shapes();
    shapes.add(geometries);
    return {shapes, drawn};
}));
const [width, height, {left, right, top, bottom}] = [1200, 800, pages[0].shapes.bounds];
const scale = width / (right - left);
const views = {
    whole: {left, top, scale, width, height},
    zoomed: {left: (left + right) / 2, top: (top + bottom) / 2, scale: 20 * scale, width, height},
};

for (const [name, view] of Object.entries(views)) {
    const times = pages.map(() => []);
    let paths;
    for (let turn = 0; turn < 9; turn++) {
        for (const [at, {shapes, drawn}] of pages.entries()) {
            const start = process.cpuUsage(), made = drawn(shapes, view), {user} = process.cpuUsage(start);
            if ((paths ??= JSON.stringify(made)) !== JSON.stringify(made))
                throw new Error(`${folders[at]}: other paths`);
            if (turn > 0) times[at].push(user / 1000); // the first turn is compiled
        }
    }
    for (const list of times) console.log(name, list.sort((one, other) => one - other)[4].toFixed(1));
}
