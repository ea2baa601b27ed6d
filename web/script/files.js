// Jobs in and out: files, the page's address, what the browser stores, sheets to print; and what the controls do.

const STORED = 'barrier_engine.page';
const SHEETS_MAX = 200;
const UNDO_MAX = 100;
let settings = {unit: 'm', stations: 'length', paper: 'a3', sheet: '', lengths: '2.5 4', limit: '65536'};
let page = null;

// Hands a file to the reader of the page. Nothing is sent: it is made here and saved here.
function saveFile(name, type, content) {
    const link = element('a', {href: URL.createObjectURL(new Blob([content], {type})), download: name});
    document.body.append(link);
    link.click();
    link.remove();
    setTimeout(() => URL.revokeObjectURL(link.href), 1000);
}

class PageFiles {
    fileName(ending) {
        const words = (this.job.title || 'job').normalize('NFD').replace(/[^A-Za-z0-9]+/g, '-').replace(/^-+|-+$/g, '');
        return (words || 'job') + ending;
    }

    // Reads a job; one that cannot be read leaves the page as it is, and is said.
    read(bytes, place) {
        try {
            this.take(jobOfFile(bytes));
            place.textContent = '';
            return true;
        } catch (error) {
            if (!(error instanceof Malformed)) throw error;
            place.textContent = error.message + '. ' + said('files.notRead');
            return false;
        }
    }

    readText() {
        this.textTouched = false;
        if (!this.read(new TextEncoder().encode(byId('text').value), byId('text-fault'))) this.textTouched = true;
    }

    readFile(file) {
        if (file.size > INPUT_MAX) {
            this.say(said('text.tooLong', INPUT_MAX) + '. ' + said('files.notRead'));
            return;
        }
        file.arrayBuffer().then((data) => this.read(new Uint8Array(data), byId('message')));
    }

    // Saves something of a whole job, or says that there is none; of a plan, only where there is one.
    save(needsPlan, make) {
        if (!isWhole(this.job)) this.say(said('files.notAll'));
        else if (needsPlan && !this.plan.sides) this.say(said('files.refusedNothing'));
        else {
            this.say('');
            make();
        }
    }

    svgDocument() {
        return new Drawing({...this.scene(1200, this.windowNow()), chosen: -1, reach: null}).document(this.job.title || said('page.title'));
    }

    // What survives a reload: the job, what is kept, how it is shown.
    stored() {
        const job = isWhole(this.job) ? fragmentOf(this.job) : this.fragment;
        return {job, states: this.states.map((state) => state && state.hazards), settings, language, window: this.window};
    }

    store() {
        if (!isWhole(this.job) || !fitsForm(this.job)) return;
        const kept = this.stored();
        if (this.fragment && this.fragment !== kept.job) this.past = [...this.past.slice(1 - UNDO_MAX), this.fragment];
        this.fragment = kept.job;
        byId('undo').disabled = !this.past.length;
        try {
            localStorage.setItem(STORED, JSON.stringify(kept));
        } catch (error) {
            // Storage may be forbidden or full: the address still has the job.
        }
        try {
            if (location.hash.slice(1) !== kept.job) history.replaceState(null, '', '#' + kept.job);
        } catch (error) {
            location.replace('#' + kept.job);
        }
    }

    // The job as it was before the last change; states stay as they are kept.
    undo() {
        this.store();
        if (!this.past.length) return;
        this.fragment = this.past.pop();
        this.job = jobOfFragment(this.fragment);
        this.chosen = clamp(this.chosen, this.job.hazards.length ? 0 : -1, this.job.hazards.length - 1);
        this.forgetTyped();
        this.showSwitches();
        this.changed();
    }

    // Nothing that is typed and wrong is left of another job.
    forgetTyped() {
        if (document.activeElement && document.activeElement.matches('input, textarea')) document.activeElement.blur();
        this.hints = null;
        this.lotsWrong = false;
        this.road.reset();
        this.table.reset();
        byId('lots').value = this.job.lots.map(stationWords).join(' ');
        byId('title').value = this.job.title;
    }

    // The job of the address, else the one that was stored, else the printed example.
    restore() {
        const kept = this.storedBefore();
        if (kept) this.restoreSettings(kept);
        const inAddress = location.hash.length > 1;
        try {
            if (inAddress) this.job = jobOfFragment(location.hash);
            else if (kept) this.job = jobOfFragment(kept.job);
        } catch (error) {
            this.say(error instanceof Malformed ? error.message : said('link.wrong'));
        }
        if (kept && (!inAddress || location.hash.slice(1) === kept.job)) this.restoreStates(kept);
        this.chosen = this.job.hazards.length ? 0 : -1;
    }

    storedBefore() {
        try {
            const kept = JSON.parse(localStorage.getItem(STORED));
            return kept && typeof kept.job === 'string' ? kept : null;
        } catch (error) {
            return null;
        }
    }

    restoreSettings(kept) {
        for (const key of Object.keys(settings)) if (kept.settings && typeof kept.settings[key] === 'string') settings[key] = kept.settings[key].slice(0, 60);
        if (!['m', 'mm'].includes(settings.unit)) settings.unit = 'm';
        if (!['length', 'km'].includes(settings.stations)) settings.stations = 'length';
        if (!['a3', 'a4'].includes(settings.paper)) settings.paper = 'a3';
        if (LANGUAGES.includes(kept.language)) language = kept.language;
    }

    restoreStates(kept) {
        (Array.isArray(kept.states) ? kept.states : []).slice(0, this.states.length).forEach((hazards, number) => {
            const right = Array.isArray(hazards) && hazards.length <= INTERFACE.constants.BARRIER_HAZARDS_MAX &&
                hazards.every((hazard) => hazard && ['name', ...HAZARD_KEYS].every((key) => Number.isSafeInteger(hazard[key]) && hazard[key] >= 0));
            if (!right) return;
            const clean = hazards.map((hazard) => ({...hazardOfNumbers(HAZARD_KEYS.map((key) => hazard[key]), hazard.name, cleanLabel(hazard.label || ''))}));
            this.states[number] = {id: ++this.stateCount, hazards: clean, at: JSON.stringify(clean)};
        });
        const window = kept.window;
        if (Array.isArray(window) && window.length === 2 && window.every(Number.isFinite) && window[0] < window[1]) this.window = window;
    }

    // Another address: another job.
    addressChanged() {
        if (location.hash.slice(1) === this.fragment || location.hash.length < 2) return;
        try {
            this.take(jobOfFragment(location.hash));
        } catch (error) {
            if (!(error instanceof Malformed)) throw error;
            this.say(error.message + '. ' + said('files.notRead'));
        }
    }

    copyLink() {
        this.store();
        const copied = navigator.clipboard ? navigator.clipboard.writeText(location.href) : Promise.reject(new Error('none'));
        copied.then(() => this.say(said('files.copied')), () => this.say(said('files.linkIs')));
    }

    // Words of everything that stands still, and of what is made by script.
    applyWords() {
        document.documentElement.lang = language;
        document.title = said('page.title');
        for (const place of document.querySelectorAll('[data-words]')) place.textContent = said(place.dataset.words);
        for (const place of document.querySelectorAll('[data-words-label]')) {
            place.setAttribute('aria-label', said(place.dataset.wordsLabel));
            place.title = said(place.dataset.wordsLabel);
        }
        byId('stations-fall').parentElement.title = said('page.stationsFallNote');
        byId('panels-help').textContent = said('panels.help', lengthWords(1), lengthWords(INTERFACE.constants.BARRIER_STOCK_PANEL_MAX));
        const heads = (id, keys) => byId(id).replaceChildren(...keys.map((key) => element('th', {scope: 'col', text: key ? said(key) : ''})));
        heads('run-heads', ['runs.run', 'runs.start', 'runs.end', 'runs.length', 'runs.level', '']);
        heads('overhang-heads', ['', 'runs.before', 'runs.after']);
        this.road.words();
        this.table.words();
        this.runs.show([]);
        this.quantities.show([]);
        this.panelOptions = null;
        this.refusalsText = null;
        this.showSwitches();
    }

    showSwitches() {
        byId('language').value = language;
        byId('unit').value = settings.unit;
        byId('station-form').value = settings.stations;
        byId('drives-left').checked = this.job.left;
        byId('stations-fall').checked = this.job.fall;
        byId('paper').value = settings.paper;
        byId('sheet').value = settings.sheet;
        byId('title').value = this.job.title;
        setField(byId('lots'), this.job.lots.map(stationWords).join(' '));
        setField(byId('panel-lengths'), settings.lengths);
        setField(byId('panel-limit'), settings.limit);
    }

    // The switches of language and unit change every word and number.
    switched() {
        this.applyWords();
        this.changed();
        this.stateWords();
    }

    switchUnit(unit) {
        const lengths = byId('panel-lengths').value.trim().split(/\s+/).map((word) => typed(word, 'length', settings.unit === 'm', 0));
        settings.unit = unit;
        if (lengths.every((length) => !length.wrong)) settings.lengths = lengths.map(({value}) => (unit === 'm' ? metres(value).replace(/\.?0+$/, '') : String(value))).join(' ');
        this.switched();
    }

    enterLots(text) {
        const words = text.trim().split(/\s+/).filter(Boolean);
        const found = words.slice(0, LOTS_MAX + 2).map((word) => typed(word, 'station', settings.unit === 'm', 0));
        const wrong = found.find((one) => one.wrong);
        const lots = found.map((one) => one.value);
        let fault = '';
        if (wrong) fault = said(wrong.wrong);
        else if (words.length > LOTS_MAX + 1) fault = said('lots.many', LOTS_MAX);
        else if (lots.length === 1) fault = said('lots.two');
        else if (lots.some((lot, i) => i > 0 && lot < lots[i - 1])) fault = said('lots.rise');
        else if (lots.some((lot) => lot > INTERFACE.constants.BARRIER_STATION_MAX)) fault = said('typed.long');
        this.lotsWrong = Boolean(fault);
        byId('lots-fault').textContent = fault;
        markField(byId('lots'), fault);
        this.job.lots = fault ? [] : lots;
        this.changed();
    }

    enterWindow() {
        const [from, to] = ['window-from', 'window-to'].map((id) => {
            const text = byId(id).value.trim();
            const found = typed(text.replace(/^-/, ''), 'station', settings.unit === 'm', 0);
            return found.wrong ? null : (text.startsWith('-') ? -1 : 1) * Number(found.value);
        });
        const wrong = from === null || to === null || from >= to;
        markField(byId('window-from'), wrong && 'wrong');
        markField(byId('window-to'), wrong && 'wrong');
        if (!wrong) this.showWindow([from, to]);
    }

    showWindow(window) {
        this.window = window;
        this.showDrawing();
        this.settle();
    }

    // Zooms by a factor about a station; at least a metre stays in the window.
    zoom(factor, about) {
        if (!this.canDraw()) return;
        const [first, last] = this.windowNow();
        const {begin, end} = this.job.header;
        const middle = about === undefined ? (first + last) / 2 : about;
        const span = clamp((last - first) * factor, 1000, 1.5 * (end - begin) + 500000);
        const share = (middle - first) / (last - first);
        const from = Math.round(middle - share * span);
        this.showWindow([from, Math.round(from + span)]);
    }

    pan(share) {
        if (!this.canDraw()) return;
        const [first, last] = this.windowNow();
        const {begin, end} = this.job.header;
        const shift = clamp(Math.round((last - first) * share), begin - last + 1000, end - first - 1000);
        this.showWindow([first + shift, last + shift]);
    }

    listen() {
        const on = (id, event, act) => byId(id).addEventListener(event, act);
        on('language', 'change', () => { language = byId('language').value; this.switched(); });
        on('unit', 'change', () => this.switchUnit(byId('unit').value));
        on('station-form', 'change', () => { settings.stations = byId('station-form').value; this.switched(); });
        on('drives-left', 'change', () => { this.job.left = byId('drives-left').checked; this.changed(); });
        on('stations-fall', 'change', () => { this.job.fall = byId('stations-fall').checked; this.changed(); });
        on('title', 'input', () => { this.job.title = cleanLabel(byId('title').value); this.settle(); });
        on('add', 'click', () => this.add());
        on('undo', 'click', () => this.undo());
        document.addEventListener('keydown', (event) => {
            const isTyping = event.target.matches('input:not([type=checkbox], [type=radio], [type=file]), textarea');
            if (event.key !== 'z' || !(event.ctrlKey || event.metaKey) || event.shiftKey || isTyping) return;
            event.preventDefault();
            this.undo();
        });
        on('lots', 'input', () => this.enterLots(byId('lots').value));
        on('level-station', 'input', () => this.showLevel());
        for (const id of ['panel-run', 'panel-lengths', 'panel-limit', 'panel-first']) on(id, 'input', () => this.enterPanels());
        on('whole', 'click', () => this.showWindow(null));
        on('zoom-in', 'click', () => this.zoom(0.5));
        on('zoom-out', 'click', () => this.zoom(2));
        on('pan-back', 'click', () => this.pan(-0.3));
        on('pan-on', 'click', () => this.pan(0.3));
        for (const id of ['window-from', 'window-to']) on(id, 'change', () => this.enterWindow());
        byId('drawing').addEventListener('wheel', (event) => this.wheel(event), {passive: false});
        this.listenToFiles(on);
    }

    enterPanels() {
        settings.lengths = byId('panel-lengths').value.slice(0, 60);
        settings.limit = byId('panel-limit').value.slice(0, 60);
        this.showPanels();
        this.settle();
    }

    wheel(event) {
        if (!event.ctrlKey || !this.canvas.drawing) return;
        event.preventDefault();
        const {frame} = this.canvas.drawing;
        this.zoom(event.deltaY > 0 ? 1.25 : 0.8, frame.stationAt(this.drag.place(event).x));
    }

    listenToFiles(on) {
        on('open', 'change', () => {
            const [file] = byId('open').files;
            if (file) this.readFile(file);
            byId('open').value = '';
        });
        on('save-text', 'click', () => this.save(false, () => saveFile(this.fileName('.job'), 'text/plain', textOfJob(this.job))));
        on('save-bytes', 'click', () => this.save(false, () => saveFile(this.fileName('.bytes'), 'application/octet-stream', jobBytes(this.job))));
        on('save-csv', 'click', () => this.save(true, () => {
            const name = byId('csv-table').value;
            saveFile(this.fileName('-' + name + '.csv'), 'text/csv', csvOf(this.planner, this.plan, name, settings.stations === 'km'));
        }));
        on('save-svg', 'click', () => this.save(true, () => saveFile(this.fileName('.svg'), 'image/svg+xml', this.svgDocument())));
        on('copy-link', 'click', () => this.copyLink());
        on('new', 'click', () => this.take(printedJob()));
        on('empty', 'click', () => this.removeAll());
        on('text', 'input', () => { this.textTouched = true; });
        on('read-text', 'click', () => this.readText());
        on('paper', 'change', () => { settings.paper = byId('paper').value; this.settle(); });
        on('sheet', 'input', () => { settings.sheet = byId('sheet').value.slice(0, 20); this.settle(); });
        on('print', 'click', () => this.save(true, () => { if (this.makeSheets()) window.print(); }));
        window.addEventListener('beforeprint', () => this.makeSheets());
        window.addEventListener('hashchange', () => this.addressChanged());
    }

    // The stretches of road that each have a sheet.
    sheetParts() {
        const found = settings.sheet.trim() === '' ? null : typed(settings.sheet, 'length', true, 0);
        const {begin, end} = this.job.header;
        if (!found || found.wrong || found.value < 1000) return [this.windowNow()];
        const count = Math.ceil((end - begin) / found.value);
        if (count > SHEETS_MAX) return null;
        return Array.from({length: count}, (_, i) => [begin + i * found.value, Math.min(end, begin + (i + 1) * found.value)]);
    }

    // Sheets to print: a drawing for each stretch, then the tables. A refused job has none.
    makeSheets() {
        const place = byId('sheets');
        place.className = settings.paper;
        if (!this.plan.sides) {
            place.replaceChildren(element('p', {text: said('files.refusedNothing')}));
            return false;
        }
        const parts = this.sheetParts();
        if (!parts) {
            this.say(said('files.manySheets', SHEETS_MAX));
            place.replaceChildren(element('p', {text: said('files.manySheets', SHEETS_MAX)}));
            return false;
        }
        const pages = parts.map((part, i) => this.sheetOf(part, i, parts.length));
        place.replaceChildren(...pages, this.tablesSheet());
        return true;
    }

    sheetHead(words) {
        const title = this.job.title || said('page.title');
        return [element('h1', {text: words ? title + ', ' + words : title}), element('p', {class: 'figures', text: this.figures()})];
    }

    // The header in one line.
    figures() {
        const rows = INTERFACE.header.filter((field) => field.key !== 'panel' || this.job.panels);
        const words = rows.map((field) => said('road.' + field.key) + ' ' + shownNumber(this.job.header[field.key], field.unit));
        if (this.job.left) words.push(said('page.drivesLeft'));
        if (this.job.fall) words.push(said('page.stationsFall'));
        return words.join('; ') + ' (' + unitWord() + '). ' + said('page.engine') + ' ' + this.engine.version() + '.';
    }

    sheetOf(part, i, count) {
        const width = settings.paper === 'a3' ? 1400 : 1160;
        const drawing = new Drawing({...this.scene(width, part), chosen: -1, reach: null});
        const holder = element('div', {class: 'picture'});
        holder.innerHTML = drawing.document(this.job.title).replace(/id="over"/, 'id="over-' + i + '"').replace(/url\(#over\)/g, 'url(#over-' + i + ')');
        const words = count > 1 ? said('files.sheetOf', i + 1, count) : '';
        return element('div', {class: 'sheet'}, ...this.sheetHead(words), holder);
    }

    tablesSheet() {
        const [quantities, overhangs, runs] = ['quantities', 'overhangs', 'runs'].map((id) => {
            const copy = byId(id).cloneNode(true);
            copy.removeAttribute('id');
            copy.hidden = false;
            copy.querySelectorAll('[id]').forEach((one) => one.removeAttribute('id'));
            copy.querySelectorAll('button').forEach((one) => one.parentElement.remove());
            return element('div', {}, element('h2', {text: said(id === 'runs' ? 'runs.title' : id === 'quantities' ? 'lots.title' : 'runs.overhang')}), copy);
        });
        // Short tables stay in one piece; of long ones several columns stand side by side.
        const columns = (kind, part) => element('div', {class: part.querySelectorAll('tr').length > 30 ? kind : ''}, part);
        return element('div', {class: 'sheet'}, ...this.sheetHead(''), quantities, overhangs, columns('narrow', runs), columns('broad', this.hazardsTable()));
    }

    hazardsTable() {
        const heads = ['hazards.number', 'hazards.label', 'hazards.side', 'hazards.start', 'hazards.end', 'hazards.near', 'hazards.far', 'hazards.level'];
        const rows = this.job.hazards.map((hazard) => [hazard.name, hazard.label, said(hazard.side === RIGHT ? 'page.right' : 'page.left'),
            stationWords(hazard.start), stationWords(hazard.end), lengthWords(hazard.near), lengthWords(hazard.far), 'NC-' + hazard.level]);
        const table = element('table', {}, element('thead', {}, element('tr', {}, ...heads.map((key) => element('th', {text: said(key)})))));
        table.append(element('tbody', {}, ...rows.map((row) => element('tr', {}, ...row.map((text) => element('td', {text: String(text)}))))));
        return element('div', {}, element('h2', {text: said('hazards.title')}), table);
    }
}
