// Puts a drawing on the page: only what changed is put in anew.
class Canvas {
    constructor(svg) {
        this.svg = svg;
        this.shown = new Map();
        this.hazards = [];
        this.drawing = null;
        this.box = '';
        svg.innerHTML = DEFINITIONS;
        this.hazardLayer = null;
    }

    group(name) {
        const element = document.createElementNS('http://www.w3.org/2000/svg', 'g');
        element.dataset.group = name;
        this.svg.append(element);
        return {element, marks: []};
    }

    // The marks of a group: those that are the same stay.
    paintGroup(shown, marks) {
        while (shown.marks.length > marks.length) shown.marks.pop().element.remove();
        marks.forEach((text, i) => {
            if (!shown.marks[i]) {
                shown.marks.push({element: document.createElementNS('http://www.w3.org/2000/svg', 'g'), text: ''});
                shown.element.append(shown.marks[i].element);
            }
            const mark = shown.marks[i];
            if (mark.text === text) return;
            mark.element.innerHTML = text;
            mark.text = text;
        });
    }

    layers(drawing) {
        const {before, after} = drawing.order();
        for (const name of before) this.shown.set(name, this.group(name));
        this.hazardLayer = this.group('hazards').element;
        for (const name of after) this.shown.set(name, this.group(name));
    }

    paint(drawing, labelOf) {
        if (!this.hazardLayer) this.layers(drawing);
        this.drawing = drawing;
        for (const [name, marks] of drawing.groups) this.paintGroup(this.shown.get(name), marks);
        this.paintHazards(drawing, labelOf);
        const box = `0 ${shortNumber(drawing.top)} ${shortNumber(drawing.frame.width)} ${shortNumber(drawing.height)}`;
        if (box !== this.box) {
            this.svg.setAttribute('viewBox', box);
            this.svg.setAttribute('height', shortNumber(drawing.height));
            this.box = box;
        }
    }

    paintHazards(drawing, labelOf) {
        const count = drawing.job.hazards.length;
        while (this.hazards.length > count) this.hazards.pop().element.remove();
        while (this.hazards.length < count) this.hazards.push(this.hazardElement(this.hazards.length));
        const chosen = drawing.scene.chosen < 0 ? 0 : drawing.scene.chosen;
        this.hazards.forEach((known, i) => {
            const text = drawing.hazards[i] || '';
            if (known.text !== text) {
                known.element.innerHTML = text;
                known.text = text;
            }
            const hazard = drawing.job.hazards[i];
            const form = language + settings.unit + settings.stations + drawing.plan.refusals.hazards.has(i);
            if (known.hazard !== hazard || known.form !== form) {
                known.element.setAttribute('aria-label', labelOf(i));
                Object.assign(known, {hazard, form});
            }
            const tab = i === chosen && text ? '0' : '-1';
            if (known.tab !== tab) {
                known.element.setAttribute('tabindex', tab);
                known.element.setAttribute('aria-pressed', i === drawing.scene.chosen ? 'true' : 'false');
                known.tab = tab;
            }
        });
    }

    hazardElement(index) {
        const element = document.createElementNS('http://www.w3.org/2000/svg', 'g');
        element.setAttribute('class', 'hazard');
        element.setAttribute('role', 'button');
        element.dataset.hazard = index;
        this.hazardLayer.append(element);
        return {element, text: '', hazard: null, form: '', tab: ''};
    }

    // Nothing that was drawn is left.
    clear() {
        this.drawing = null;
        this.svg.innerHTML = DEFINITIONS;
        this.shown.clear();
        this.hazards = [];
        this.hazardLayer = null;
    }
}
