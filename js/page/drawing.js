/** Paths of SVG for what a view shows of the shapes: no more than its pixels can tell. */
import {DOT, RING} from './shapes.js';

const MOST_VERTICES = 100000;
const MOST_AREAS = 3000;
const SMALL = 3; // pixels: a smaller area is drawn as a dot
const FAR = 20000; // pixels: what lies farther outside is drawn there
const CELL = 3; // pixels: one dot is drawn for all in such a square
const LONGEST = 20000; // letters of a path: a browser takes far more than twice the time for twice as many

/** A number of pixels that is no farther outside than that. */
const inside = pixels => pixels > FAR ? FAR : pixels < -FAR ? -FAR : pixels;

/** A view: x and y of its upper left corner, pixels for a unit, and its size in pixels. */
class Pen {
    constructor({left, top, scale, width, height}, step) {
        Object.assign(this, {left, top, scale, width, height, step, vertices: 0, cells: new Set()});
    }

    across(x) { return inside((x - this.left) * this.scale); }

    down(y) { return inside((this.top - y) * this.scale); }

    /** A dot, if none is drawn near it. */
    dot(x, y) {
        const across = this.across(x), down = this.down(y);
        if (across < -5 || down < -5 || across > this.width + 5 || down > this.height + 5) return '';
        const cell = Math.floor(across / CELL) * 65536 + Math.floor(down / CELL);
        if (this.cells.has(cell)) return '';
        this.cells.add(cell);
        this.vertices++;
        return `M${across.toFixed(1)} ${down.toFixed(1)}h0`;
    }

    /** A line through some points, without those that come too near to the one before. */
    line(shapes, from, to) {
        const {step, left, top, scale} = this, xs = shapes.xs.all, ys = shapes.ys.all, half = step / 2;
        let path = '', lastAcross = NaN, lastDown = NaN;
        for (let point = from; point < to; point++) {
            const right = (xs[point] - left) * scale, below = (top - ys[point]) * scale;
            // mostly it is nearer than half a step, and no rounding tells more
            if (Math.abs(right - lastAcross) < half && Math.abs(below - lastDown) < half) continue;
            const across = Math.round(inside(right) / step) * step, down = Math.round(inside(below) / step) * step;
            if (across === lastAcross && down === lastDown) continue;
            path += `${path ? 'L' : 'M'}${across} ${down}`;
            lastAcross = across;
            lastDown = down;
            this.vertices++;
        }
        return path && !path.includes('L') ? `${path}h0` : path;
    }
}

/** The box of a line or a ring in pixels, and whether the view meets it. */
function boxOf(pen, shapes, part) {
    const sides = shapes.boxes.all, at = shapes.boxed.all[part];
    const left = pen.across(sides[at]), right = pen.across(sides[at + 1]);
    const bottom = pen.down(sides[at + 2]), top = pen.down(sides[at + 3]);
    const seen = right >= 0 && bottom >= 0 && left <= pen.width && top <= pen.height;
    return {seen, size: Math.max(right - left, bottom - top)};
}

/** What is drawn of the parts from one on, up to another. */
class Drawn {
    constructor(pen, shapes) { Object.assign(this, {pen, shapes, areas: [], lines: [], dots: [], small: []}); }

    part(part) {
        const {pen, shapes} = this, from = shapes.starts.all[part], to = shapes.end(part);
        if (from === to) return;
        if (shapes.kinds.all[part] === DOT) this.dots.push(pen.dot(shapes.xs.all[from], shapes.ys.all[from]));
        else if (boxOf(pen, shapes, part).seen) this.lines.push(pen.line(shapes, from, to));
    }

    /** The rings of an area, of which this part is the first; the part after them. */
    area(first, last) {
        const {pen, shapes} = this, area = shapes.areas.all[first];
        let end = first + 1;
        while (end < last && shapes.kinds.all[end] === RING && shapes.areas.all[end] === area) end++;
        const from = shapes.starts.all[first], {seen, size} = boxOf(pen, shapes, first);
        if (!seen || from === shapes.end(first)) return end;
        if (size < SMALL || this.areas.length === MOST_AREAS) {
            this.small.push(pen.dot(shapes.xs.all[from], shapes.ys.all[from]));
        } else {
            let path = '';
            for (let part = first; part < end; part++) {
                path += `${pen.line(shapes, shapes.starts.all[part], shapes.end(part))}Z`;
            }
            this.areas.push(path);
        }
        return end;
    }

    parts(first, last) {
        const {kinds} = this.shapes;
        for (let part = first; part < last && this.pen.vertices <= MOST_VERTICES;) {
            if (kinds.all[part] === RING) part = this.area(part, last);
            else this.part(part++);
        }
    }
}

/** Lines or dots as paths of no more than so many letters. A line that has more goes on in the next path. */
function pathsOf(parts) {
    const paths = [];
    let path = '';
    for (let part of parts) {
        while (part.length > LONGEST) {
            const end = part.lastIndexOf('L', LONGEST), last = part.lastIndexOf('L', end - 1);
            paths.push(part.slice(0, end));
            part = `M${part.slice(last + 1)}`;
        }
        if (path.length + part.length > LONGEST) {
            paths.push(path);
            path = '';
        }
        path += part;
    }
    return path ? [...paths, path] : paths;
}

/** The paths of some parts, by a step that keeps them within what a browser draws at once. */
export function drawn(shapes, view, first = 0, last = shapes.starts.length) {
    for (let step = 0.5;; step *= 2) {
        const pen = new Pen(view, step), made = new Drawn(pen, shapes);
        made.parts(first, last);
        if (pen.vertices > MOST_VERTICES && step < 16) continue;
        const {areas, lines, dots, small} = made;
        return {areas, lines: pathsOf(lines), dots: pathsOf(dots), small: pathsOf(small)};
    }
}

/** How far a point lies from the line between two others, squared. */
function distance(x, y, fromX, fromY, toX, toY) {
    const [alongX, alongY] = [toX - fromX, toY - fromY], length = alongX * alongX + alongY * alongY;
    const part = length ? Math.max(0, Math.min(1, ((x - fromX) * alongX + (y - fromY) * alongY) / length)) : 0;
    return (x - fromX - part * alongX) ** 2 + (y - fromY - part * alongY) ** 2;
}

/** Whether a line between two points passes to the right of another. */
function crosses(x, y, fromX, fromY, toX, toY) {
    return fromY > y !== toY > y && x < fromX + (y - fromY) * (toX - fromX) / (toY - fromY);
}

/** The part that is nearest to a place, if it is near enough; else an area around the place; else -1. */
export function partAt(shapes, x, y, near) {
    const xs = shapes.xs.all, ys = shapes.ys.all;
    let best = near * near, found = -1, around = -1, inside = false;
    for (let part = 0; part < shapes.starts.length; part++) {
        const from = shapes.starts.all[part], to = shapes.end(part), isRing = shapes.kinds.all[part] === RING;
        const area = shapes.areas.all[part];
        if (!isRing || !part || shapes.areas.all[part - 1] !== area) inside = false;
        for (let point = from; point < to; point++) {
            const before = point > from ? point - 1 : isRing ? to - 1 : point;
            const far = distance(x, y, xs[before], ys[before], xs[point], ys[point]);
            if (far <= best) [best, found] = [far, part];
            if (isRing && crosses(x, y, xs[before], ys[before], xs[point], ys[point])) inside = !inside;
        }
        if (isRing && inside) around = part;
        else if (isRing && around >= 0 && shapes.areas.all[around] === area) around = -1;
    }
    return found >= 0 ? found : around;
}
