// The page: what is chosen, what is shown, and when.

const SETTLE = 250;

class Page extends PageFiles {
    constructor(engine) {
        super();
        this.engine = engine;
        this.planner = new Planner(engine);
        this.job = printedJob();
        this.states = new Array(INTERFACE.constants.BARRIER_STATES).fill(null);
        this.stateCount = 0;
        this.chosen = 0;
        this.window = null;
        this.plan = null;
        this.hints = null;
        this.pointed = null;
        this.redraw = null;
        this.frames = [];
        this.settling = 0;
        this.fragment = '';
        this.past = [];
    }

    start() {
        this.canvas = new Canvas(byId('drawing'));
        this.road = new RoadForm(byId('road'), () => this.changed());
        this.table = new HazardTable(byId('hazards'), () => this.changed());
        this.runs = new TableBody(byId('runs').tBodies[0]);
        this.overhangs = new TableBody(byId('overhangs').tBodies[0]);
        this.quantities = new TableBody(byId('quantities').tBodies[0]);
        this.drag = new Dragging(byId('drawing'), this.canvas);
        this.restore();
        this.listen();
        this.applyWords();
        byId('version').textContent = this.engine.version();
        this.resized();
        this.changed();
        new ResizeObserver(() => this.resized()).observe(byId('drawing').parentElement);
    }

    // Everything anew: a job was changed.
    changed() {
        this.refresh(false);
        this.settle();
    }

    beginDrag() {
        this.hints = this.canvas.drawing ? this.canvas.drawing.used : null;
    }

    // A hazard is being dragged: the layout stays, and what takes long waits until it is let go.
    dragged() {
        const begin = performance.now();
        this.refresh(true);
        // Read so that style and layout are part of what is measured.
        byId('drawing').getBoundingClientRect();
        this.redraw = performance.now() - begin;
        this.frames = [...this.frames.slice(-600), this.redraw];
        this.showTimes();
        this.settle();
    }

    endDrag() {
        this.hints = null;
        this.changed();
    }

    refresh(isDrag) {
        this.plan = this.planner.plan(this.job, this.states);
        if (this.table.wrongNames()) this.plan.sides = null;
        this.table.show(this.job, this.chosen);
        this.road.show(this.job);
        this.showState();
        this.showDrawing();
        this.showRuns();
        this.showQuantities();
        this.showHazard();
        this.showStates();
        if (!isDrag) this.showHazardCount();
        setText('panel-answer', '');
        setText('level-answer', '');
        this.showPointed();
    }

    // What waits until nothing has changed for a moment: panels, text, address, storage, the engine's time.
    settle() {
        clearTimeout(this.settling);
        this.settling = setTimeout(() => this.settled(), SETTLE);
    }

    settled() {
        this.showPanels();
        this.showLevel();
        this.showText();
        this.store();
        this.engineTime = this.plan.sides ? this.planner.measure() : null;
        this.showTimes();
    }

    // What is said of the job: planned, or what is refused, each with its place.
    showState() {
        const {plan} = this;
        const rows = [...this.road.mark(this.job, plan.refusals.header), ...this.table.mark(this.job, plan.refusals.hazards)];
        const done = Boolean(plan.sides);
        document.querySelector('section.state').classList.toggle('refused', !done);
        // Written only where they change: a screen reader says them each time.
        setText('state-words', said(done ? 'plan.done' : 'plan.refused'));
        setText('summary', done ? said('plan.summary', ...plan.sides.flatMap((side) => [side.runs.length, metres(side.total)])) : said('plan.nothing'));
        const shown = rows.slice(0, 6).map((row) => this.refusalRow(row));
        if (plan.refusals.header && !rows.length) shown.push(element('div', {text: this.refusalText(plan.refusals.header)}));
        const text = shown.map((one) => one.textContent).join('\n');
        if (text !== this.refusalsText) byId('refusals').replaceChildren(...shown);
        this.refusalsText = text;
        if (!done) this.engineTime = null;
    }

    refusalText(refused) {
        return said('plan.refusedBy', refused.call, refused.number, refused.value) + ': ' + reasonOf(refused) + '; ' + remedyOf(refused);
    }

    refusalRow({target, what, words}) {
        const link = element('a', {href: '#' + target, text: what});
        link.addEventListener('click', (event) => {
            event.preventDefault();
            byId(target).focus();
        });
        return element('div', {}, link, ': ' + words);
    }

    // The window that is drawn: one that was asked for, or the whole road with its overhangs.
    windowNow() {
        const {begin, end} = this.job.header;
        if (this.window && this.window[1] > begin && this.window[0] < end) return this.window;
        if (!this.plan.sides) return [begin, end];
        const [right, left] = this.plan.sides;
        return [begin - Math.max(right.before, left.before), end + Math.max(right.after, left.after)];
    }

    canDraw() {
        const {begin, end} = this.job.header;
        return typeof begin === 'number' && typeof end === 'number' && begin < end && end <= INTERFACE.constants.BARRIER_STATION_MAX;
    }

    scene(width, window) {
        return {
            plan: this.plan, job: this.job, window, width, chosen: this.chosen, reach: this.reachOfChosen(),
            station: stationWords, millimetres: settings.unit === 'mm' && settings.stations !== 'km',
        };
    }

    showDrawing() {
        const svg = byId('drawing');
        if (!this.canDraw()) {
            this.canvas.clear();
            svg.setAttribute('aria-label', said('draw.altRefused'));
            svg.setAttribute('height', '40');
            return;
        }
        const {width} = this;
        if (this.hints && width !== this.canvas.drawing.frame.width) this.hints = null;
        const window = this.hints ? [this.canvas.drawing.frame.first, this.canvas.drawing.frame.last] : this.windowNow();
        const drawing = new Drawing(this.scene(width, window), this.hints || {}, this.hints && this.drawn);
        this.drawn = this.hints ? drawing.memory() : null;
        this.canvas.paint(drawing, (i) => this.hazardLabel(i));
        setField(byId('window-from'), window[0] < 0 ? metres(window[0]) : stationWords(window[0]));
        setField(byId('window-to'), stationWords(window[1]));
        const {begin, end} = this.job.header;
        const {sides} = this.plan;
        const counts = sides && [this.job.hazards.length, ...sides.map((side) => side.runs.length)];
        const label = sides ? said('draw.alt', stationWords(begin), stationWords(end), ...counts) : said('draw.altRefused');
        if (svg.getAttribute('aria-label') !== label) svg.setAttribute('aria-label', label);
    }

    hazardLabel(i) {
        const hazard = this.job.hazards[i];
        const name = hazard.label ? hazard.name + ' ' + hazard.label : hazard.name;
        const refusal = this.plan.refusals.hazards.get(i);
        if (refusal) return said('draw.refused', name, reasonOf(refusal));
        const side = said(hazard.side === RIGHT ? 'page.right' : 'page.left');
        const numbers = [['start', 'station'], ['end', 'station'], ['near', 'length'], ['far', 'length']].map(([key, unit]) => shownNumber(hazard[key], unit));
        return said('draw.hazard', name, side, ...numbers, hazard.level);
    }

    // The room for the drawing is measured only when it changes: to ask for it lays out the whole page.
    resized() {
        const place = byId('drawing').parentElement;
        const width = Math.max(320, Math.floor(place.clientWidth - 2 * parseFloat(getComputedStyle(place).paddingLeft)));
        if (width === this.width) return;
        this.width = width;
        if (this.plan) this.showDrawing();
    }

    showTimes() {
        byId('engine-time').textContent = this.engineTime ? said('plan.time', this.engineTime.toFixed(1)) + '.' : '';
        byId('redraw-time').textContent = this.redraw ? said('plan.redraw', this.redraw.toFixed(1)) + '.' : '';
    }

    // Runs and overhangs, as the engine's schedules have them.
    showRuns() {
        const {sides} = this.plan;
        const row = (side, run, i) => [runName(side, i + 1), stationWords(run.start), stationWords(run.end), lengthWords(run.length), 'NC-' + run.level];
        const rows = sides ? sides.flatMap((side) => side.runs.map((run, i) => row(side.side, run, i))) : [];
        this.runs.show(rows, (row, i, places) => this.panelButton(row, i, places[0]));
        byId('runs').hidden = !rows.length;
        byId('no-runs').textContent = sides ? (rows.length ? '' : said('runs.none')) : said('plan.refused');
        this.overhangs.show(sides ? sides.map((side) => [said(side.side === RIGHT ? 'page.rightSide' : 'page.leftSide'), lengthWords(side.before), lengthWords(side.after)]) : []);
        byId('overhang-part').hidden = !sides;
    }

    // A button whose name has that of its run, which is in the row's first cell.
    panelButton(row, i, head) {
        head.id = 'run-' + i;
        const button = element('button', {type: 'button', id: 'run-panels-' + i, 'aria-labelledby': `run-panels-${i} run-${i}`, text: said('runs.panels')});
        button.addEventListener('click', () => {
            byId('panel-run').value = row.cells[0].textContent;
            this.showPanels();
            byId('panel-run').focus();
        });
        row.append(element('td', {}, button));
    }

    showQuantities() {
        const {plan} = this;
        byId('quantities').hidden = !plan.sides;
        if (!plan.sides) {
            this.quantities.show([]);
            return;
        }
        const {columns, rows} = quantityRows(this.planner, plan);
        const heads = ['', said('lots.from'), said('lots.to'), ...columns.map(({side, level}) => said(side === RIGHT ? 'page.R' : 'page.L') + ' NC-' + level), said('lots.all')];
        if (heads.join('|') !== this.quantityHeads) byId('quantity-heads').replaceChildren(...heads.map((text) => element('th', {scope: 'col', text})));
        this.quantityHeads = heads.join('|');
        this.quantities.show(rows.map(({name, ends, found, all}) => [name, ...(ends ? ends.map(stationWords) : ['', '']), ...found.map(lengthWords), lengthWords(all)]));
        this.lotWarnings();
    }

    lotWarnings() {
        const {lots, header} = this.job;
        if (this.lotsWrong) return;
        const words = [];
        if (lots.length > 1 && (lots[0] > header.begin || lots[lots.length - 1] < header.end)) words.push(said('lots.short'));
        if (lots.length > 1 && (lots[0] < header.begin || lots[lots.length - 1] > header.end)) words.push(said('lots.past'));
        byId('lots-fault').textContent = words.join(' ');
    }

    showHazardCount() {
        byId('hazard-count').textContent = this.job.hazards.length ? said('hazards.count', this.planner.standing.size, this.job.hazards.length) : said('hazards.none');
        const full = this.job.hazards.length >= INTERFACE.constants.BARRIER_HAZARDS_MAX;
        byId('add').disabled = full;
        byId('add').title = full ? said('hazards.full', INTERFACE.constants.BARRIER_HAZARDS_MAX) : '';
    }

    choose(index) {
        if (index === this.chosen || index < 0) return;
        this.chosen = index;
        this.table.show(this.job, this.chosen);
        if (this.plan) {
            this.showDrawing();
            this.showHazard();
        }
    }

    add() {
        const {begin, end} = this.job.header;
        const zone = Number(this.job.header.zone) || 9000;
        const near = Math.min(OFFSET_MAX - 2000, Math.max(0, Math.min((Number(this.job.header.offset) || 0) + (Number(this.job.header.deflection) || 0) + 500, zone)));
        const [first, last] = this.canDraw() ? this.windowNow() : [0, 1000];
        const start = this.canDraw() ? clamp(snapped((first + last) / 2, 1000), begin, Math.max(begin, end - 1)) : 0;
        this.job.hazards.push({name: freeName(this.job), label: '', side: RIGHT, start, end: this.canDraw() ? Math.min(end, start + 5000) : 1000, near, far: near + 2000, level: 2});
        this.chosen = this.job.hazards.length - 1;
        this.changed();
        const row = this.table.rows[this.chosen];
        row.inputs.label.focus();
    }

    removeAll() {
        this.job.hazards = [];
        this.chosen = -1;
        this.forgetTyped();
        this.changed();
    }

    withdraw(index) {
        this.job.hazards.splice(index, 1);
        this.table.remove(index);
        this.chosen = Math.min(this.chosen, this.job.hazards.length - 1);
        this.changed();
        const row = this.table.rows[Math.min(index, this.job.hazards.length - 1)];
        (row ? row.remove : byId('add')).focus();
    }

    // The chosen hazard: envelope, corner points, smallest offset, how far its withdrawal reaches.
    showHazard() {
        if (!this.hazardPanel) this.hazardPanel = new HazardPanel(byId('hazard'));
        this.hazardPanel.show(this.plan, this.chosen);
    }

    reachOfChosen() {
        const hazard = this.job.hazards[this.chosen];
        return this.plan.sides && hazard && this.planner.hasReach() ? this.planner.reach(this.job, hazard) : null;
    }

    // A place of the drawing that is pointed at: the level that is required there.
    point(place) {
        this.pointed = null;
        const {drawing} = this.canvas;
        if (place && drawing && place.x >= drawing.frame.left && place.x <= drawing.frame.right) {
            const station = Math.floor(drawing.frame.stationAt(place.x));
            if (station >= 0) this.pointed = {station, side: place.y >= 0 ? RIGHT : LEFT};
        }
        this.showPointed();
    }

    levelWords(side, station) {
        const level = this.planner.level(this.plan, side, station);
        const name = said(side === RIGHT ? 'page.rightSide' : 'page.leftSide');
        return said('level.is', name, stationWords(station), level ? said('level.nc', level) : said('level.none'));
    }

    showPointed() {
        const words = this.pointed && this.plan.sides ? this.levelWords(this.pointed.side, this.pointed.station) : '';
        setText('readout', words);
    }

    // The level at the station that is typed, on both sides.
    showLevel() {
        const input = byId('level-station');
        const found = input.value.trim() === '' ? null : typed(input.value, 'station', settings.unit === 'm', 0);
        markField(input, found && found.wrong);
        if (!found || found.wrong || !this.plan.sides) {
            byId('level-answer').textContent = found && found.wrong ? said(found.wrong) : found ? said('plan.refused') : '';
            return;
        }
        byId('level-answer').textContent = [RIGHT, LEFT].map((side) => this.levelWords(side, found.value)).join('; ');
    }

    // Panels for one run: its length goes to the engine, less what is laid before.
    showPanels() {
        const select = byId('panel-run');
        const runs = this.plan.sides ? this.plan.sides.flatMap((side) => side.runs.map((run, i) => ({name: runName(side.side, i + 1), length: run.length}))) : [];
        const before = select.value;
        const options = runs.map(({name, length}) => `${name}: ${lengthWords(length)}`);
        if (options.join('|') !== this.panelOptions) select.replaceChildren(...runs.map(({name}, i) => element('option', {value: name, text: options[i]})));
        this.panelOptions = options.join('|');
        if (runs.some(({name}) => name === before)) select.value = before;
        const run = runs.find(({name}) => name === select.value);
        byId('panel-answer').textContent = run ? this.panelWords(run.length) : this.plan.sides ? said('panels.noRun') : said('plan.refused');
    }

    panelWords(length) {
        const read = (text, unit) => typed(text, unit, settings.unit === 'm', 0);
        const lengths = byId('panel-lengths').value.trim().split(/\s+/).filter(Boolean).slice(0, 9).map((word) => read(word, 'length'));
        const [limit, first] = ['panel-limit', 'panel-first'].map((id) => read(byId(id).value, 'number'));
        const wrong = [...lengths, limit, first].find((one) => one.wrong);
        if (wrong) return said(wrong.wrong);
        const sizes = lengths.map((one) => one.value);
        const rest = BigInt(length) - BigInt(first.value) * BigInt(sizes.length ? sizes.reduce((a, b) => (a > b ? a : b)) : 0);
        if (rest < 0n) return said('panels.past');
        try {
            return this.layoutWords(sizes, Number(rest), limit.value, first.value);
        } catch (refused) {
            if (!(refused instanceof Refused)) throw refused;
            return this.refusalText(refused);
        }
    }

    layoutWords(sizes, rest, limit, first) {
        const reply = this.planner.layout(sizes, rest, limit);
        const each = sizes.map((size, i) => said('panels.each', reply.counts[i], lengthWords(size))).join(', ');
        const found = reply.found ? said('panels.found', sumOf(reply.counts), each, lengthWords(reply.overrun)) : said('panels.none');
        const left = first ? said('panels.rest', lengthWords(rest)) + '; ' : '';
        return left + found + '; ' + said('panels.tries', reply.tries, lengthWords(reply.floor));
    }

    // The eight states of the open job.
    showStates() {
        const list = byId('states');
        if (!list.children.length) this.states.forEach((_, number) => list.append(this.stateRow(number)));
        this.states.forEach((state, number) => {
            const row = list.children[number];
            const [keep, back] = row.querySelectorAll('button');
            const refused = this.plan.refusals.states.has(number);
            const words = !state ? said('states.empty') : said(refused ? 'states.refused' : state.at === this.hazardsText() ? 'states.same' : 'states.has', state.hazards.length);
            const place = row.querySelector('span');
            if (place.textContent !== words) place.textContent = words;
            keep.disabled = !this.plan.sides;
            back.disabled = !state || refused || !this.planner.opened;
        });
    }

    stateRow(number) {
        const keep = element('button', {type: 'button'});
        const back = element('button', {type: 'button'});
        keep.addEventListener('click', () => this.keepState(number));
        back.addEventListener('click', () => this.returnState(number));
        return element('li', {}, element('b', {text: String(number)}), element('span'), keep, back);
    }

    stateWords() {
        [...byId('states').children].forEach((row, number) => {
            const [keep, back] = row.querySelectorAll('button');
            keep.textContent = said('states.keep');
            back.textContent = said('states.return');
            keep.setAttribute('aria-label', said('states.keepIn', number));
            back.setAttribute('aria-label', said('states.returnTo', number));
        });
    }

    hazardsText() {
        return JSON.stringify(this.job.hazards);
    }

    keepState(number) {
        this.states[number] = {id: ++this.stateCount, hazards: this.job.hazards.map((hazard) => ({...hazard})), at: this.hazardsText()};
        this.planner.keep(number, this.job, this.states);
        this.changed();
    }

    returnState(number) {
        const state = this.states[number];
        this.planner.returnTo(number, this.job, state);
        this.job.hazards = state.hazards.map((hazard) => ({...hazard}));
        this.chosen = Math.min(Math.max(this.chosen, 0), this.job.hazards.length - 1);
        this.table.reset();
        this.changed();
    }

    showText() {
        if (byId('text') === document.activeElement || this.textTouched || !isWhole(this.job)) return;
        byId('text').value = textOfJob(this.job);
    }

    // Another job on the page: nothing of the one before is left.
    take(job) {
        this.job = job;
        this.states.fill(null);
        this.chosen = job.hazards.length ? 0 : -1;
        this.window = null;
        this.textTouched = false;
        this.forgetTyped();
        this.showSwitches();
        this.say('');
        this.changed();
    }

    say(words) {
        byId('message').textContent = words;
    }
}
