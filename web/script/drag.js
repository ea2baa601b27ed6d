// Hazards moved in the drawing: by the pointer, whole or by an edge, and by the arrow keys.

const EDGE = 7;
const OFFSET_MAX = INTERFACE.hazard[3].high;

function clamp(number, low, high) {
    return Math.min(Math.max(number, low), high);
}

// The round distance that a pixel can show: a power of ten of millimetres.
function snapOf(perPixel) {
    return 10 ** Math.max(0, Math.floor(Math.log10(Math.max(1, perPixel))));
}

function snapped(number, step) {
    return Math.round(number / step) * step;
}

// A hazard moved by a distance along and a distance across; part says which of its edges move.
function movedHazard(job, hazard, part, along, across) {
    const {begin, end} = job.header;
    const moved = {...hazard};
    if (part.whole) {
        const shift = clamp(along, begin - hazard.start, end - hazard.end);
        const out = clamp(across, -hazard.near, OFFSET_MAX - hazard.far);
        return {...moved, start: hazard.start + shift, end: hazard.end + shift, near: hazard.near + out, far: hazard.far + out};
    }
    if (part.start) moved.start = clamp(hazard.start + along, begin, hazard.end - 1);
    if (part.end) moved.end = clamp(hazard.end + along, hazard.start + 1, end);
    if (part.near) moved.near = clamp(hazard.near + across, 0, hazard.far);
    if (part.far) moved.far = clamp(hazard.far + across, hazard.near, OFFSET_MAX);
    return moved;
}

class Dragging {
    constructor(svg, canvas) {
        this.svg = svg;
        this.canvas = canvas;
        this.held = null;
        this.waiting = null;
        svg.addEventListener('pointerdown', (event) => this.down(event));
        svg.addEventListener('pointermove', (event) => this.move(event));
        svg.addEventListener('pointerup', (event) => this.up(event));
        svg.addEventListener('pointercancel', (event) => this.up(event));
        svg.addEventListener('pointerleave', () => { if (!this.held) page.point(null); });
        svg.addEventListener('keydown', (event) => this.key(event));
        svg.addEventListener('focusin', (event) => this.focused(event));
    }

    // Where an event is in the drawing's own units.
    place(event) {
        const box = this.svg.getBoundingClientRect();
        const {frame, top, height} = this.canvas.drawing;
        return {x: (event.clientX - box.left) * frame.width / box.width, y: top + (event.clientY - box.top) * height / box.height};
    }

    hazardOf(event) {
        const group = event.target.closest ? event.target.closest('[data-hazard]') : null;
        return group ? Number(group.dataset.hazard) : -1;
    }

    // Which edges are taken hold of: those that are near, of a hazard that is chosen and large enough.
    partOf(index, {x, y}) {
        const box = this.canvas.drawing.hazardBox(page.job.hazards[index]);
        const part = {};
        if (index === page.chosen && box[2] - box[0] > 3 * EDGE) {
            if (Math.abs(x - box[0]) < EDGE) part.start = true;
            else if (Math.abs(x - box[2]) < EDGE) part.end = true;
        }
        if (index === page.chosen && Math.abs(box[3] - box[1]) > 3 * EDGE) {
            if (Math.abs(y - box[1]) < EDGE) part.near = true;
            else if (Math.abs(y - box[3]) < EDGE) part.far = true;
        }
        return Object.keys(part).length ? part : {whole: true};
    }

    down(event) {
        if (!this.canvas.drawing || event.button > 0) return;
        const index = this.hazardOf(event);
        const place = this.place(event);
        if (index < 0) {
            page.point(place);
            return;
        }
        const part = this.partOf(index, place);
        this.held = {index, part, from: [event.clientX, event.clientY], hazard: {...page.job.hazards[index]}, moved: false};
        page.choose(index);
        this.svg.setPointerCapture(event.pointerId);
        this.canvas.hazards[index].element.focus({preventScroll: true});
        event.preventDefault();
    }

    move(event) {
        if (!this.canvas.drawing) return;
        if (!this.held) {
            page.point(this.place(event));
            return;
        }
        // One redraw for each frame, with the last place of the pointer.
        const isFirst = !this.waiting;
        this.waiting = [event.clientX, event.clientY];
        if (isFirst) requestAnimationFrame(() => this.drag());
    }

    drag() {
        const place = this.waiting;
        this.waiting = null;
        if (!this.held || !place || !this.canvas.drawing) return;
        const {frame} = this.canvas.drawing;
        const {index, part, from, hazard} = this.held;
        // By how far the pointer went on the screen: the page may have moved under it.
        const scale = frame.width / this.svg.getBoundingClientRect().width;
        const [perAlong, perAcross] = [scale / frame.along, scale * frame.deepest / frame.depthRoom];
        const out = hazard.side === RIGHT ? 1 : -1;
        const along = snapped((place[0] - from[0]) * perAlong, snapOf(perAlong));
        const across = snapped((place[1] - from[1]) * out * perAcross, snapOf(perAcross));
        const moved = movedHazard(page.job, hazard, part, along, across);
        const known = page.job.hazards[index];
        if (HAZARD_KEYS.every((key) => known[key] === moved[key])) return;
        if (!this.held.moved) page.beginDrag();
        this.held.moved = true;
        this.svg.classList.add('dragging');
        page.job.hazards[index] = moved;
        page.dragged();
    }

    up() {
        if (this.waiting) this.drag();
        const {held} = this;
        this.held = null;
        this.svg.classList.remove('dragging');
        if (held && held.moved) page.endDrag();
    }

    focused(event) {
        const index = this.hazardOf(event);
        if (index >= 0 && index !== page.chosen && !this.held) page.choose(index);
    }

    key(event) {
        const index = this.hazardOf(event);
        if (index < 0 || event.ctrlKey || event.metaKey) return;
        const {frame} = this.canvas.drawing;
        const [perAlong, perAcross] = event.altKey ? [1, 1] : [snapOf(5 / frame.along), snapOf(5 * frame.deepest / frame.depthRoom)];
        const out = page.job.hazards[index].side === RIGHT ? 1 : -1;
        const steps = {ArrowLeft: [-perAlong, 0], ArrowRight: [perAlong, 0], ArrowUp: [0, -out * perAcross], ArrowDown: [0, out * perAcross]};
        const count = page.job.hazards.length;
        if (event.key in steps) this.step(index, steps[event.key], event.shiftKey);
        else if (event.key === 'PageDown') this.focus((index + 1) % count);
        else if (event.key === 'PageUp') this.focus((index + count - 1) % count);
        else if (event.key === 'Delete') page.withdraw(index);
        else if (event.key === 'Enter' || event.key === ' ') page.choose(index);
        else return;
        event.preventDefault();
    }

    focus(index) {
        page.choose(index);
        this.canvas.hazards[index].element.focus();
    }

    step(index, [along, across], changesSize) {
        const part = changesSize ? (along ? {end: true} : {far: true}) : {whole: true};
        page.job.hazards[index] = movedHazard(page.job, page.job.hazards[index], part, along, across);
        page.changed();
    }
}
