/** The picture: drawn by the worker for what is in sight; dragged and zoomed. */

const MARGIN = 0.06;
const NEAR = 8; // pixels from what is pointed at
const NOTHING = {
    areas: [],
    lines: [],
    dots: [],
    small: []
};

export class Picture {
    /** `ask` asks the worker; `choose` is called with the header that is pointed at. */
    constructor(section, ask, choose) {
        Object.assign(this, {ask, choose, chosen: null, busy: false, again: false});
        this.svg = section.querySelector('svg');
        this.pointer = section.querySelector('#pointer');
        this.view = {left: 0, top: 0, scale: 1};
        this.listen();
        new ResizeObserver(() => this.draw()).observe(this.svg);
    }

    listen() {
        const {svg} = this;
        svg.addEventListener('wheel', event => this.zoom(event), {passive: false});
        svg.addEventListener('pointerdown', event => this.press(event));
        svg.addEventListener('pointermove', event => this.move(event));
        svg.addEventListener('pointerup', event => this.release(event));
        svg.addEventListener('dblclick', () => this.fit(this.bounds));
    }

    get size() {
        const {width, height} = this.svg.getBoundingClientRect();
        return {width, height};
    }

    /** The place of an event. */
    placeOf({clientX, clientY}) {
        const {left, top} = this.svg.getBoundingClientRect(), {view} = this;
        return {x: view.left + (clientX - left) / view.scale, y: view.top - (clientY - top) / view.scale};
    }

    /** Shows all that lies in some bounds. */
    fit(bounds) {
        this.bounds = bounds;
        const {left, right, bottom, top} = bounds;
        if (left > right) {
            this.draw();
            return;
        }
        const {width, height} = this.size, [wide, high] = [right - left || 1e-9, top - bottom || 1e-9];
        const scale = Math.min(width / wide, height / high, 1e9) * (1 - 2 * MARGIN);
        this.view = {scale, left: (left + right - width / scale) / 2, top: (bottom + top + height / scale) / 2};
        this.draw();
    }

    zoom(event) {
        event.preventDefault();
        const {x, y} = this.placeOf(event), {view} = this, by = Math.exp(-event.deltaY / 400);
        this.view = {scale: view.scale * by, left: x - (x - view.left) / by, top: y + (view.top - y) / by};
        this.draw();
    }

    press(event) {
        this.svg.setPointerCapture(event.pointerId);
        this.held = {x: event.clientX, y: event.clientY, view: this.view, moved: false};
    }

    move(event) {
        const {x, y} = this.placeOf(event), tenths = Math.ceil(Math.log10(this.view.scale)) + 1;
        const digits = Math.max(0, Math.min(8, tenths));
        this.pointer.textContent = `${x.toFixed(digits)}, ${y.toFixed(digits)}`;
        if (!this.held) return;
        const {view} = this.held, [across, down] = [event.clientX - this.held.x, event.clientY - this.held.y];
        if (Math.abs(across) + Math.abs(down) > 3) this.held.moved = true;
        if (!this.held.moved) return;
        this.view = {...view, left: view.left - across / view.scale, top: view.top + down / view.scale};
        this.draw();
    }

    async release(event) {
        const {held} = this;
        this.held = null;
        if (!held || held.moved) return;
        const {x, y} = this.placeOf(event);
        const header = await this.ask('headerAt', x, y, NEAR / this.view.scale);
        if (header >= 0) this.choose(header);
    }

    clear() {
        this.chosen = null;
        this.put(NOTHING, NOTHING);
    }

    /** Marks a header, and those in it, up to the next. */
    mark(header, next) {
        this.chosen = [header, next];
        this.draw();
    }

    /** Has the worker draw what is in sight, one view at a time. */
    async draw() {
        this.again = true;
        if (this.busy) return;
        this.busy = true;
        try {
            while (this.again) await this.drawOnce();
        } finally {
            this.busy = false;
        }
        this.svg.dispatchEvent(new Event('drawn'));
    }

    async drawOnce() {
        this.again = false;
        const view = {...this.view, ...this.size};
        const [all, marked] = await Promise.all([
            this.ask('picture', view),
            this.chosen ? this.ask('chosen', view, ...this.chosen) : NOTHING,
        ]);
        this.put(all, marked);
    }

    put(all, marked) {
        for (const name of Object.keys(NOTHING)) this.fill(`.${name}`, all[name]);
        this.fill('.chosen.area', marked.areas);
        this.fill('.chosen.line', marked.lines);
        this.fill('.chosen.dot', [...marked.dots, ...marked.small]);
    }

    /** Puts paths into a group in place of those that it has. */
    fill(group, paths) {
        const {svg} = this;
        svg.querySelector(group).replaceChildren(...paths.map(path => {
            const element = document.createElementNS(svg.namespaceURI, 'path');
            element.setAttribute('d', path);
            return element;
        }));
    }
}
