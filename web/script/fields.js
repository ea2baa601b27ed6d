// The road's form and the table of hazards. A field shows what is typed until it is left; its number goes to the job at
// once, and what the engine says of it comes back to the same field.

const byId = (id) => document.getElementById(id);

function element(name, attributes = {}, ...children) {
    const made = document.createElement(name);
    for (const [key, value] of Object.entries(attributes)) {
        if (key === 'class') made.className = value;
        else if (key === 'text') made.textContent = value;
        else made.setAttribute(key, value);
    }
    made.append(...children);
    return made;
}

// A number as its field shows it, in the unit that is chosen.
function shownNumber(value, unit) {
    if (value === null) return '';
    if (unit === 'station') return stationWords(value);
    return unit === 'length' && settings.unit === 'm' ? metres(value) : String(value);
}

function lengthWords(mm) {
    return settings.unit === 'm' ? metres(mm) : String(mm);
}

function stationWords(mm) {
    return settings.stations === 'km' && typeof mm === 'number' ? kilometres(mm) : lengthWords(mm);
}

function unitWord() {
    return said(settings.unit === 'm' ? 'page.m' : 'page.mm');
}

// Writes a field's value, unless somebody is typing in it.
function setField(input, text) {
    if (input !== document.activeElement && input.value !== text) input.value = text;
}

function setText(id, text) {
    const place = byId(id);
    if (place.textContent !== text) place.textContent = text;
}

function markField(input, words) {
    input.classList.toggle('wrong', Boolean(words));
    if (words) input.setAttribute('aria-invalid', 'true');
    else input.removeAttribute('aria-invalid');
}

// The header number that a refusal of the road is about. One that is too great to be written in six bytes is named by the
// byte where it begins.
function refusedField(job, refused) {
    if (refused.number === INTERFACE.numbers.BARRIER_HEADER_RANGE) return refused.value;
    let at = 0;
    const numbers = headerNumbers(job, 0);
    for (let i = 0; i < numbers.length; i++) {
        if (at === refused.value) return i + 1;
        at += bytesOfNumbers([numbers[i]]).length;
    }
    return 0;
}

class RoadForm {
    constructor(form, changed) {
        this.form = form;
        this.changed = changed;
        this.items = new Map();
        this.wrong = new Map();
        for (const field of INTERFACE.header) this.items.set(field.key, this.made(field));
        form.addEventListener('submit', (event) => event.preventDefault());
    }

    made(field) {
        const id = 'road-' + field.key;
        const input = element('input', {id, inputmode: 'decimal', autocomplete: 'off', 'aria-describedby': `${id}-note ${id}-fault`});
        const label = element('label', {for: id});
        const unit = element('span', {class: 'quiet'});
        const note = element('span', {class: 'note', id: id + '-note'});
        const fault = element('p', {class: 'fault', id: id + '-fault'});
        const item = element('div', {class: 'item'}, label, element('div', {class: 'entry'}, input, unit), note, fault);
        if (field.key === 'panel') this.form.append(this.panelSwitch());
        this.form.append(item);
        input.addEventListener('input', () => this.entered(field, input.value));
        input.addEventListener('change', () => this.show(page.job));
        return {field, input, label, unit, note, fault, item};
    }

    panelSwitch() {
        this.switch = element('input', {type: 'checkbox', id: 'use-panels'});
        this.switch.addEventListener('change', () => {
            page.job.panels = this.switch.checked;
            if (page.job.panels && page.job.header.panel === null) page.job.header.panel = 4000;
            this.changed();
        });
        this.switchWords = element('span');
        return element('div', {class: 'item whole'}, element('label', {class: 'check'}, this.switch, this.switchWords));
    }

    entered(field, text) {
        const found = typed(text, field.unit, settings.unit === 'm', 0);
        page.job.header[field.key] = found.wrong ? null : found.value;
        if (found.wrong) this.wrong.set(field.key, found.wrong);
        else this.wrong.delete(field.key);
        this.changed();
    }

    // The words beside a field: what it is, its range, what two norms call it.
    words() {
        for (const {field, label, note} of this.items.values()) {
            label.textContent = said('road.' + field.key);
            const norms = field.norms ? [said('road.norms', [...new Set(field.norms)].join(', '))] : [];
            note.textContent = [this.range(field), said(`road.${field.key}.note`), ...norms].join('; ');
        }
        this.switchWords.textContent = said('road.usePanels');
    }

    range(field) {
        const form = (number) => (field.unit === 'number' ? String(number) : lengthWords(number));
        if (field.key === 'end') return said('road.endRange', form(field.high), form(field.span));
        return said('road.range', form(field.low), form(field.high));
    }

    show(job) {
        for (const {field, input, unit, item} of this.items.values()) {
            if (!this.wrong.has(field.key)) setField(input, shownNumber(job.header[field.key], field.unit));
            unit.textContent = field.unit === 'number' || (field.unit === 'station' && settings.stations === 'km') ? '' : unitWord();
            if (field.key === 'panel') item.hidden = !job.panels;
        }
        this.switch.checked = job.panels;
    }

    // A job that is another one has no wrong words of the one before.
    reset() {
        this.wrong.clear();
    }

    // Marks the fields: what is typed wrong, and the engine's refusal of the road. Gives what has to be said of them.
    mark(job, refused) {
        const rows = [];
        for (const {field, input, fault} of this.items.values()) {
            let words = '';
            if (this.wrong.has(field.key) && (field.key !== 'panel' || job.panels)) words = said(this.wrong.get(field.key));
            else if (refused && refusedField(job, refused) === field.number) words = reasonOf(refused) + ': ' + remedyOf(refused) + (field.unit === 'number' ? '' : ' ' + said('page.mm'));
            fault.textContent = words;
            markField(input, words);
            if (words) rows.push({target: input.id, what: said('road.' + field.key), words});
        }
        return rows;
    }
}

// The table's columns: a hazard's name is the engine's number for it, its label the name that people give it.
const HAZARD_COLUMNS = [
    {key: 'name', words: 'hazards.number', unit: 'number', rounding: 0},
    {key: 'label', words: 'hazards.label'},
    {key: 'side', words: 'hazards.side'},
    {key: 'start', words: 'hazards.start', unit: 'station', rounding: -1},
    {key: 'end', words: 'hazards.end', unit: 'station', rounding: 1},
    {key: 'near', words: 'hazards.near', unit: 'length', rounding: -1},
    {key: 'far', words: 'hazards.far', unit: 'length', rounding: 1},
    {key: 'level', words: 'hazards.level'},
];

class HazardTable {
    constructor(table, changed) {
        this.table = table;
        this.body = table.tBodies[0];
        this.changed = changed;
        this.rows = [];
        this.count = 0;
    }

    words() {
        const heads = HAZARD_COLUMNS.map(({key, words}) => {
            const cell = element('th', {scope: 'col', role: 'columnheader', text: said(words)});
            const range = this.range(key);
            if (range) cell.append(element('small', {text: range}));
            return cell;
        });
        byId('hazard-heads').replaceChildren(element('th', {role: 'columnheader'}), ...heads, element('th', {role: 'columnheader'}));
        for (const row of this.rows) row.shown = null;
    }

    range(key) {
        if (key === 'label') return '';
        if (key === 'name') return said('hazards.range.number', INTERFACE.constants.BARRIER_NAME_MAX);
        if (key === 'side' || key === 'level') return '';
        if (key === 'near') return said('road.range', lengthWords(0), lengthWords(INTERFACE.hazard[3].high));
        if (key === 'far') return said('road.range', 'n', lengthWords(INTERFACE.hazard[4].high));
        return said('hazards.range.' + key);
    }

    choice(options) {
        const made = element('select');
        for (const [value, words] of options) made.append(element('option', {value, text: words}));
        return made;
    }

    input(key) {
        if (key === 'side') return this.choice([['0', ''], ['1', '']]);
        if (key === 'level') return this.choice(LEVELS.map((level) => [level, 'NC-' + level]));
        if (key === 'label') return element('input', {class: 'label', maxlength: LABEL_MAX, autocomplete: 'off'});
        const short = ['name', 'near', 'far'].includes(key) ? ' short' : '';
        return element('input', {class: 'number' + short, inputmode: 'decimal', autocomplete: 'off'});
    }

    added() {
        const row = {inputs: {}, wrong: new Map(), element: this.body.insertRow()};
        row.choose = element('input', {type: 'radio', name: 'chosen'});
        row.element.setAttribute('role', 'row');
        row.element.append(element('td', {role: 'cell'}, row.choose));
        for (const {key} of HAZARD_COLUMNS) {
            const input = this.input(key);
            row.inputs[key] = input;
            row.element.append(element('td', {role: 'cell'}, input));
            input.addEventListener('input', () => this.entered(row, key));
            input.addEventListener('change', () => {
                row.shown = null;
                this.show(page.job, page.chosen);
            });
            input.addEventListener('focus', () => page.choose(this.rows.indexOf(row)));
        }
        row.remove = element('button', {type: 'button'});
        row.remove.addEventListener('click', () => page.withdraw(this.rows.indexOf(row)));
        row.element.append(element('td', {role: 'cell'}, row.remove));
        // What is wrong with the hazard stands below it, in a row of its own.
        row.faults = element('td', {role: 'cell', class: 'faults fault', id: 'hazard-faults-' + ++this.count, colspan: HAZARD_COLUMNS.length + 2});
        row.below = this.body.insertRow();
        row.below.setAttribute('role', 'row');
        row.below.append(row.faults);
        row.below.hidden = true;
        row.choose.addEventListener('change', () => page.choose(this.rows.indexOf(row)));
        return row;
    }

    remove(index) {
        const [row] = this.rows.splice(index, 1);
        row.element.remove();
        row.below.remove();
    }

    rowWords(row) {
        const {name} = row.shown;
        if (row.named === name + language) return;
        row.named = name + language;
        row.remove.textContent = said('hazards.withdraw');
        row.remove.setAttribute('aria-label', said('hazards.withdrawNamed', name));
        row.choose.setAttribute('aria-label', said('hazards.choose', name));
        for (const {key, words} of HAZARD_COLUMNS) {
            row.inputs[key].setAttribute('aria-label', said('hazards.field', said(words), name));
            row.inputs[key].setAttribute('aria-describedby', row.faults.id);
        }
        [...row.inputs.side.options].forEach((option, i) => { option.textContent = said(i ? 'page.left' : 'page.right'); });
    }

    entered(row, key) {
        const index = this.rows.indexOf(row);
        const hazard = {...page.job.hazards[index]};
        const text = row.inputs[key].value;
        row.wrong.delete(key);
        if (key === 'label') hazard.label = cleanLabel(text);
        else if (key === 'side' || key === 'level') hazard[key] = Number(text);
        else this.enterNumber(row, hazard, key, text);
        page.job.hazards[index] = hazard;
        this.changed();
    }

    enterNumber(row, hazard, key, text) {
        const {unit, rounding} = HAZARD_COLUMNS.find((column) => column.key === key);
        const found = typed(text, unit, settings.unit === 'm', rounding);
        const wide = key === 'name' && !found.wrong && found.value > INTERFACE.constants.BARRIER_NAME_MAX;
        if (found.wrong || wide) {
            // A name is handed over in 16 bits, so that one that is greater is tested here.
            row.wrong.set(key, found.wrong || 'name');
            if (key !== 'name') hazard[key] = null;
        } else hazard[key] = found.value;
    }

    wrongNames() {
        return this.rows.some((row) => row.wrong.has('name'));
    }

    show(job, chosen) {
        while (this.rows.length > job.hazards.length) this.remove(this.rows.length - 1);
        while (this.rows.length < job.hazards.length) this.rows.push(this.added());
        const form = language + settings.unit + settings.stations;
        job.hazards.forEach((hazard, i) => {
            const row = this.rows[i];
            const isChosen = i === chosen;
            if (row.shown === hazard && row.form === form && row.isChosen === isChosen) return;
            Object.assign(row, {shown: hazard, form, isChosen});
            this.rowWords(row);
            for (const {key, unit} of HAZARD_COLUMNS) {
                if (row.wrong.has(key)) continue;
                setField(row.inputs[key], unit ? shownNumber(hazard[key], unit) : String(hazard[key]));
            }
            row.choose.checked = isChosen;
            row.element.classList.toggle('chosen', isChosen);
        });
    }

    reset() {
        for (const row of this.rows) {
            row.wrong.clear();
            row.named = '';
            row.shown = null;
        }
    }

    // Marks fields and rows: what is typed wrong, and what the engine refused of each hazard.
    mark(job, refused) {
        const found = [];
        this.rows.forEach((row, i) => {
            const faults = new Map();
            for (const [key, words] of row.wrong) faults.set(key, words === 'name' ? said('hazards.mayBe', said('hazards.number'), this.range('name')) : said(words));
            const refusal = refused.get(i);
            if (refusal) this.refusalFaults(job, i, refusal, faults);
            this.markRow(row, faults);
            for (const [key, words] of faults) {
                const column = HAZARD_COLUMNS.find((known) => known.key === key);
                found.push({target: this.fieldId(row, key, i), what: said('hazards.field', said(column.words), job.hazards[i].name), words});
            }
        });
        return found;
    }

    fieldId(row, key, i) {
        row.inputs[key].id = `hazard-${i}-${key}`;
        return row.inputs[key].id;
    }

    refusalFaults(job, i, refusal, faults) {
        const {BARRIER_NAME, BARRIER_HAZARD_RANGE, BARRIER_HAZARD_NEAR} = INTERFACE.numbers;
        const words = reasonOf(refusal) + ': ' + remedyOf(refusal);
        if (refusal.number === BARRIER_NAME) faults.set('name', words);
        else if (refusal.number === BARRIER_HAZARD_NEAR) faults.set('near', words);
        else if (refusal.number === BARRIER_HAZARD_RANGE) {
            const place = hazardFault(job, job.hazards[i]);
            const key = place < 0 ? 'start' : HAZARD_KEYS[place];
            faults.set(key, said('hazards.mayBe', said('hazards.' + key), this.range(key) || said('hazards.range.' + key)));
        } else faults.set('name', words);
    }

    markRow(row, faults) {
        if (!faults.size && row.isRight) return;
        row.isRight = !faults.size;
        for (const {key} of HAZARD_COLUMNS) markField(row.inputs[key], faults.get(key));
        row.element.classList.toggle('wrong', faults.size > 0);
        const words = [...faults.values()].join('; ');
        if (row.faults.textContent !== words) row.faults.textContent = words;
        row.below.hidden = !words;
    }
}
