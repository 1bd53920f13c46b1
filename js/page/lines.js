/** A list of lines of one height in a box, of which only those in sight are in the page: it may have millions. */

const HEIGHT = 18; // as page.css has it
const TALLEST = 8e6; // pixels that browsers let a box scroll over

export class Lines {
    /** `draw(line, element)` fills the element of a line. */
    constructor(box, draw) {
        Object.assign(this, {box, draw, count: 0, shown: new Map()});
        this.space = document.createElement('i');
        Object.assign(this.space.style, {position: 'absolute', top: 0, width: '1px'});
        box.append(this.space);
        box.addEventListener('scroll', () => this.paint());
        new ResizeObserver(() => this.paint()).observe(box);
    }

    /** Begins anew with so many lines. */
    reset(count) {
        this.count = count;
        this.box.classList.toggle('empty', count === 0);
        this.space.style.height = `${Math.min(count * HEIGHT, TALLEST)}px`;
        this.clear();
        this.box.scrollTop = 0;
        this.paint();
    }

    clear() {
        for (const element of this.shown.values()) element.remove();
        this.shown.clear();
    }

    /** How far the lines lie above the top of the box for each pixel that it is scrolled. */
    get ratio() {
        const seen = this.box.clientHeight, all = this.count * HEIGHT;
        return all > TALLEST ? (all - seen) / (TALLEST - seen) : 1;
    }

    /** Brings a line into sight. */
    show(line) {
        const {box, ratio} = this, top = line * HEIGHT, above = box.scrollTop * ratio;
        if (top < above || top + HEIGHT > above + box.clientHeight) {
            box.scrollTop = (top - box.clientHeight / 3) / ratio;
        }
        this.clear();
        this.paint();
    }

    paint() {
        const {box, shown, ratio} = this, above = box.scrollTop * ratio;
        const first = Math.max(0, Math.floor(above / HEIGHT) - 5);
        const last = Math.min(this.count, Math.ceil((above + box.clientHeight) / HEIGHT) + 5);
        for (const [line, element] of shown) {
            if (line >= first && line < last) continue;
            element.remove();
            shown.delete(line);
        }
        for (let line = first; line < last; line++) {
            const element = shown.get(line) ?? this.made(line);
            element.style.top = `${line * HEIGHT - above + box.scrollTop}px`;
        }
    }

    made(line) {
        const element = document.createElement('div');
        element.dataset.line = line;
        this.draw(line, element);
        this.box.append(element);
        this.shown.set(line, element);
        return element;
    }
}
