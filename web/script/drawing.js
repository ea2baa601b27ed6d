// The drawing: the left side, the road, the right side, each in bands from its edge outwards, and the lots.
//
// It is made of groups of marks, each a text of SVG; on the page only the marks whose text changed are put in anew, so that
// a hazard can be dragged among 256. Every mark has its attributes in itself, so that the same text is the SVG file.

const BAND = {lane: 11, bar: 6, step: 8, row: 14, gap: 6};
const LEAST = 4;
const HOLD = 22;

// One side of the road. y is the outer edge of what is laid out so far.
class SideBands {
    constructor(drawing, side) {
        this.drawing = drawing;
        this.side = side;
        this.out = side === RIGHT ? 1 : -1;
        this.y = this.out * drawing.frame.half;
    }

    advance(height) {
        const inner = this.y;
        this.y += this.out * height;
        return [inner, this.y];
    }
}

const HAZARD_MARKS = new WeakMap();

class Drawing {
    // scene: plan, job, window, width, chosen, reach, words for stations; hints keep the layout while a hazard is dragged, and
    // then a side whose hazards are those of the drawing before is taken from it.
    constructor(scene, hints = {}, before = null) {
        this.scene = scene;
        this.job = scene.job;
        this.plan = scene.plan;
        this.groups = new Map();
        this.hazards = [];
        this.left = [{}, {}];
        this.notes = [new Map(), new Map()];
        this.bands = [];
        this.hints = hints;
        this.before = before;
        this.used = {lanes: [], stations: []};
        this.frame = new Frame(scene, hints);
        this.used.deepest = this.frame.deepest;
        this.draw();
    }

    // A group's marks: one text, or a list of them.
    put(name, marks) {
        this.groups.set(name, Array.isArray(marks) ? marks : [marks]);
    }

    leaveOut(side, what, count) {
        if (count > 0) this.left[side][what] = count;
    }

    ofSide(job, side) {
        return job.hazards.map((hazard) => (hazard.side === side ? hazard : null));
    }

    // Whether a side can be taken from the drawing before: nothing on it has changed.
    isAsBefore(side) {
        const {before} = this;
        if (!before || before.plan.sides === null || !this.plan.sides || before.hints !== this.hints || before.scene.chosen !== this.scene.chosen) return false;
        const [mine, theirs] = [this.ofSide(this.job, side), this.ofSide(before, side)];
        return mine.length === theirs.length && mine.every((hazard, i) => hazard === theirs[i]);
    }

    takeSide(side) {
        const {before} = this;
        for (const [name, marks] of before.groups) if (name.endsWith(String(side))) this.groups.set(name, marks);
        this.job.hazards.forEach((hazard, i) => { if (hazard.side === side) this.hazards[i] = before.hazardMarks[i]; });
        [this.left[side], this.notes[side]] = [before.left[side], before.notes[side]];
        [this.used.lanes[side], this.used.stations[side]] = [before.used.lanes[side], before.used.stations[side]];
        return before.bands[side];
    }

    draw() {
        this.road();
        const sides = [RIGHT, LEFT].map((side) => {
            const bands = this.isAsBefore(side) ? this.takeSide(side) : new SideBands(this, side);
            if (!this.groups.has('heading' + side)) this.drawSide(bands);
            return bands;
        });
        this.bands = sides;
        this.ends(sides);
        this.bottom = this.lots(sides, sides[RIGHT].y);
        this.bottom = this.legend(this.bottom + 6);
        this.bottom = this.remarks(this.bottom);
        this.top = sides[LEFT].y - 4;
        this.height = this.bottom - this.top;
        this.before = null;
    }

    // What the next drawing may take from this one; the job's own list of hazards goes on changing.
    memory() {
        return {plan: this.plan, scene: this.scene, hints: this.hints, groups: this.groups, hazards: this.job.hazards.slice(), hazardMarks: this.hazards, left: this.left,
            notes: this.notes, used: this.used, bands: this.bands};
    }

    title(y, words) {
        return this.frame.narrow ? '' : svgText(8, y, words, {size: 9.5, fill: PALETTE.quiet});
    }

    axis(y, words, size = 9) {
        return svgText(this.frame.left - 5, y, words, {size, anchor: 'end', fill: PALETTE.quiet});
    }

    // The road itself, its stations and which way its lanes go.
    road() {
        const {frame, job} = this;
        const [begin, end] = [frame.x(job.header.begin), frame.x(job.header.end)];
        const parts = [svgRect(begin, -frame.half, end, frame.half, PALETTE.road)];
        if (job.header.opposite > 0) parts.push(svgLine([[begin, 0], [end, 0]], '#ffffff', 1.5, ' stroke-dasharray="12 8"'));
        parts.push(...this.stationMarks(begin, end), ...this.traffic());
        this.put('road', parts.join(''));
    }

    stationMarks(begin, end) {
        const {frame, scene} = this;
        const step = frame.step(Math.max(...[frame.first, frame.last].map((t) => textWidth(scene.station(t), 9.5))));
        const short = (t) => (step % 1000 === 0 && !scene.millimetres ? scene.station(t).slice(0, -4) : scene.station(t));
        const found = [];
        for (let t = Math.ceil(frame.first / step) * step; t <= frame.last; t += step) {
            const x = frame.x(t);
            const half = textWidth(short(t), 9.5) / 2;
            if (x - half < frame.left - 20 || x + half > frame.width) continue;
            for (const y of [-frame.half, frame.half]) found.push(svgLine([[x, y], [x, y * 0.75]], PALETTE.quiet, 0.7));
            if (x > begin && x < end) found.push(svgRect(x - half - 2, -7, x + half + 2, 7, PALETTE.road));
            found.push(svgText(x, 0, short(t), {size: 9.5, anchor: 'middle'}));
        }
        return found;
    }

    traffic() {
        const {frame, job} = this;
        const lane = frame.half / 2;
        return [RIGHT, LEFT].flatMap((side) => {
            const y = side === RIGHT ? lane : -lane;
            const rises = job.header.opposite > 0 ? (side === RIGHT) !== job.left : !job.fall;
            const words = job.header.opposite > 0 ? said(rises ? 'draw.forward' : 'draw.opposite') : said('draw.oneWay');
            const x = frame.left - 18;
            const ahead = rises ? 1 : -1;
            return [this.title(y, words), svgLine([[x - 9, y], [x + 9, y]], PALETTE.quiet, 1),
                svgLine([[x + ahead * 4, y - 3.5], [x + ahead * 9, y], [x + ahead * 4, y + 3.5]], PALETTE.quiet, 1)];
        });
    }

    drawSide(bands) {
        this.planView(bands);
        this.hazardLabels(bands);
        bands.advance(BAND.gap);
        this.envelopes(bands);
        bands.advance(BAND.gap);
        this.levels(bands);
        this.runNames(bands);
        this.runStations(bands);
        this.heading(bands);
    }

    planView(bands) {
        const {frame, job} = this;
        const [inner, outer] = bands.advance(frame.depthRoom);
        const [begin, end] = [frame.x(job.header.begin), frame.x(job.header.end)];
        const parts = [svgRect(begin, inner, end, outer, PALETTE.verge)];
        const rows = [['offset', 'M', PALETTE.barrier], ['zone', 'C', PALETTE.zone]].filter(([key]) => job.header[key] !== null);
        const labels = [];
        for (const [key, letter, stroke] of rows) {
            const y = frame.y(bands.side, Number(job.header[key]));
            parts.push(svgLine([[begin, y], [end, y]], stroke, 0.8, ' stroke-dasharray="2 4"'));
            labels.push([y, letter + (frame.narrow ? '' : ' ' + metres(job.header[key]))]);
        }
        // Two labels that would lie over each other are pushed apart.
        if (labels.length === 2 && Math.abs(labels[0][0] - labels[1][0]) < 11) labels[1][0] = labels[0][0] + bands.out * 11;
        for (const [y, words] of labels) parts.push(this.axis(y, words));
        if (!frame.narrow) parts.push(this.title((inner + outer) / 2, said('draw.plan')));
        this.put('verge' + bands.side, parts.join(''));
        this.put('reach' + bands.side, this.reachBand(bands.side, inner, outer));
        this.job.hazards.forEach((hazard, i) => { if (hazard.side === bands.side) this.hazards[i] = this.knownHazard(hazard, i); });
        this.put('barrier' + bands.side, this.barriers(bands.side));
    }

    reachBand(side, inner, outer) {
        const {reach} = this.scene;
        if (!reach || reach.side !== side || !this.frame.shows(reach.from, reach.to)) return '';
        return svgRect(this.frame.x(reach.from), inner, this.frame.x(reach.to), outer, PALETTE.reach, ' fill-opacity="0.9"');
    }

    colour(hazard, i) {
        if (this.plan.refusals.hazards.has(i)) return PALETTE.wrong;
        // Where nothing is planned, the colour is that of the level that the hazard asks for.
        if (this.plan.sides && !this.plan.alone[i].envelope) return PALETTE.none;
        return PALETTE.levels[hazard.level] || PALETTE.none;
    }

    // What a hazard's marks depend on beside the hazard: as long as it is the same, they are not made anew.
    hazardKey(i) {
        const {frame} = this;
        return [frame.first, frame.last, frame.width, frame.deepest, frame.half, this.job.header.offset, this.job.hazards.length > 30, i === this.scene.chosen,
            this.plan.refusals.hazards.has(i), Boolean(this.plan.sides), i].join();
    }

    knownHazard(hazard, i) {
        const key = this.hazardKey(i);
        const known = HAZARD_MARKS.get(hazard);
        if (known && known.key === key && known.alone === this.plan.alone[i]) return known.text;
        const text = this.hazard(hazard, i);
        HAZARD_MARKS.set(hazard, {key, alone: this.plan.alone[i], text});
        return text;
    }

    // A hazard's own group: itself, the approaches as if it stood alone, a frame where it is chosen or refused.
    hazard(hazard, i) {
        const {frame} = this;
        if ([hazard.start, hazard.end, hazard.near, hazard.far].some((number) => typeof number !== 'number')) return '';
        const alone = this.plan.alone[i];
        const [start, end] = alone && alone.envelope ? alone.envelope : [hazard.start, hazard.end];
        if (!frame.shows(Math.min(start, hazard.start), Math.max(end, hazard.end))) return '';
        const box = this.hazardBox(hazard);
        const wrong = this.plan.refusals.hazards.has(i);
        const marked = wrong ? ` stroke="${PALETTE.wrong}" stroke-width="2.5" stroke-dasharray="4 2"` : ` stroke="#3e4c59" stroke-width="0.7"`;
        const parts = [svgRect(...box, this.colour(hazard, i), `${marked} class="body"${wrong ? ' fill-opacity="0.35"' : ''}`)];
        if (i === this.scene.chosen) parts.push(this.chosenFrame(box));
        if (alone && this.plan.sides) parts.push(...this.approach(hazard, alone));
        parts.push(this.hold(box));
        return parts.join('');
    }

    // What a finger can take hold of, where a hazard is small and there are not too many.
    hold(box) {
        const [left, right] = [(box[0] + box[2] - HOLD) / 2, (box[0] + box[2] + HOLD) / 2];
        const [top, bottom] = [(box[1] + box[3] - HOLD) / 2, (box[1] + box[3] + HOLD) / 2];
        if (this.job.hazards.length > 60 || box[2] - box[0] > HOLD || Math.abs(box[3] - box[1]) > 2 * HOLD) return '';
        return svgRect(left, Math.min(top, box[1], box[3]), right, Math.max(bottom, box[1], box[3]), 'none', ' pointer-events="all"');
    }

    chosenFrame([x1, y1, x2, y2]) {
        return svgRect(x1 - 3, Math.min(y1, y2) - 3, x2 + 3, Math.max(y1, y2) + 3, 'none', ` stroke="${PALETTE.ink}" stroke-width="1.6" class="chosen"`);
    }

    hazardBox(hazard) {
        const {frame} = this;
        const [x1, x2] = [frame.freeX(hazard.start), frame.freeX(hazard.end)];
        const middle = (x1 + x2) / 2;
        const half = Math.max(x2 - x1, LEAST) / 2;
        let near = frame.y(hazard.side, hazard.near);
        const far = frame.y(hazard.side, hazard.far);
        if (Math.abs(far - near) < LEAST) near = far - (hazard.side === RIGHT ? 1 : -1) * LEAST;
        const edges = [Math.max(middle - half, frame.left - 2), near, Math.min(middle + half, frame.right + 2), far];
        return edges[0] < edges[2] ? edges : [edges[2], near, edges[2], far];
    }

    approach(hazard, {envelope, corners}) {
        if (!envelope || !corners) return [];
        const {frame, job} = this;
        const points = cornerPoints(corners).sort((a, b) => a[0] - b[0] || a[1] - b[1]);
        const found = [this.stationLine(hazard.side, points, 0.9, '')];
        const rises = corners.upstream.station <= corners.hazard.station;
        const [other, behind] = rises ? [hazard.end, envelope[1]] : [hazard.start, envelope[0]];
        if (other !== behind) {
            const line = [[other, job.header.offset], [behind, job.header.offset]].sort((a, b) => a[0] - b[0]);
            found.push(this.stationLine(hazard.side, line, 0.9, ' stroke-dasharray="4 2"'));
        }
        const dots = cornerPoints(corners).filter(([station]) => frame.holds(station));
        if (dots.length) {
            const path = dots.map(([x, y]) => `M${shortNumber(frame.x(x))} ${shortNumber(frame.y(hazard.side, y))}h0`).join('');
            found.push(`<path d="${path}" stroke="${PALETTE.barrier}" stroke-width="${job.hazards.length > 30 ? 3 : 4.4}" stroke-linecap="round" fill="none"/>`);
        }
        return found;
    }

    // A line through stations and offsets, cut at the window's ends.
    stationLine(side, points, width, more) {
        const {frame} = this;
        const inside = cutLine(points, frame.first, frame.last);
        return inside.length ? svgLine(inside.map(([x, y]) => [frame.x(x), frame.y(side, y)]), PALETTE.barrier, width, more) : '';
    }

    barriers(side) {
        if (!this.plan.sides) return [];
        const {frame} = this;
        const found = [];
        for (const barrier of barriersOf(this.plan, this.plan.sides[side])) {
            const [start, end] = [barrier.runs[0].start, barrier.runs[barrier.runs.length - 1].end];
            if (!frame.shows(start, end)) continue;
            found.push(this.stationLine(side, cutLine(barrier.points, start, end), 3, ''));
            const y = frame.y(side, this.job.header.offset);
            for (const run of barrier.runs.slice(1)) if (frame.holds(run.start)) found.push(svgLine([[frame.x(run.start), y - 4], [frame.x(run.start), y + 4]], PALETTE.barrier, 1.2));
            if (barrier.note) this.note(side, barrier.note, this.barrierName(side, barrier.runs));
        }
        return found;
    }

    barrierName(side, runs) {
        const names = runs.map((run) => runName(side, run.number));
        return names.length === 1 ? names[0] : names[0] + '-' + names[names.length - 1];
    }

    note(side, key, what) {
        if (!this.notes[side].has(key)) this.notes[side].set(key, []);
        this.notes[side].get(key).push(what);
    }

    // The hazards of a side that are in the window, by their middles.
    shown(side) {
        const {frame} = this;
        const inside = [];
        this.job.hazards.forEach((hazard, i) => {
            if (hazard.side === side && this.hazards[i] && frame.shows(hazard.start, hazard.end)) inside.push({hazard, i, x: frame.x((hazard.start + hazard.end) / 2)});
        });
        return inside.sort((a, b) => a.x - b.x || a.i - b.i);
    }

    hazardLabels(bands) {
        const {frame} = this;
        const [inner, outer] = bands.advance(BAND.row + 4);
        const inside = this.shown(bands.side);
        const whole = inside.map(({hazard}) => (hazard.label ? fitting(hazard.name + ' ' + hazard.label, 9.5, 150) : String(hazard.name)));
        let place = spread(inside.map(({x}) => x), whole.map((words) => textWidth(words, 9.5) + 8), frame.left - 4, frame.width - 2);
        let words = whole;
        if (!place || inside.some(({x}, i) => Math.abs(x - place[i]) > 70)) {
            words = inside.map(({hazard}) => String(hazard.name));
            place = spread(inside.map(({x}) => x), words.map((word) => textWidth(word, 9.5) + 6), frame.left - 4, frame.width - 2);
        }
        let kept = inside.map((_, i) => i);
        if (!place || inside.some(({x}, i) => Math.abs(x - place[i]) > 70)) {
            place = inside.map(({x}) => x);
            kept = thinned(place, words.map((word) => textWidth(word, 9.5) + 6), frame.left - 4, frame.width - 2);
            this.leaveOut(bands.side, 'hazards', inside.length - kept.length);
        }
        const parts = kept.map((i) => {
            const {hazard, x} = inside[i];
            const line = [[x, frame.y(bands.side, hazard.far)], [x, inner], [place[i], inner + bands.out * 5]];
            return svgLine(line, PALETTE.leader, 0.5) + svgText(place[i], (inner + outer) / 2 + bands.out * 3, words[i], {size: 9.5, anchor: 'middle'});
        });
        this.put('labels' + bands.side, parts);
    }

    // A bar for each hazard: its stretch, its approaches, what hangs over.
    envelopes(bands) {
        const {frame} = this;
        const most = frame.narrow ? 4 : 8;
        const inside = [];
        if (this.plan.sides) {
            this.job.hazards.forEach((hazard, i) => {
                const [start, end] = this.plan.alone[i].envelope || [hazard.start, hazard.end];
                if (hazard.side === bands.side && frame.shows(start, end)) inside.push({hazard, i, start, end});
            });
        }
        const lanes = lanesOf(inside.map(({start, end}) => [frame.x(start) - 1, Math.max(frame.x(end), frame.x(start) + LEAST) + 1]));
        const count = this.hints.lanes ? this.hints.lanes[bands.side] : Math.min(most, Math.max(1, 1 + Math.max(-1, ...lanes)));
        this.used.lanes[bands.side] = count;
        const [inner] = bands.advance(BAND.lane * count);
        this.leaveOut(bands.side, 'envelopes', lanes.filter((lane) => lane >= count).length);
        const light = {};
        const full = {};
        const over = [];
        inside.forEach(({hazard, i, start, end}, at) => {
            if (lanes[at] >= count) return;
            const middle = inner + bands.out * BAND.lane * (lanes[at] + 0.5);
            const bar = (a, b) => this.bar(a, b, middle - BAND.bar / 2, middle + BAND.bar / 2);
            const colour = this.colour(hazard, i);
            if (this.plan.alone[i].envelope) {
                const [begin, stop] = [this.job.header.begin, this.job.header.end];
                (light[colour] = light[colour] || []).push(bar(Math.max(start, begin), Math.min(end, stop)));
                if (start < begin) over.push(bar(start, begin));
                if (end > stop) over.push(bar(stop, end));
            }
            (full[colour] = full[colour] || []).push(bar(hazard.start, hazard.end));
        });
        const parts = [this.title(inner + bands.out * BAND.lane / 2, said('draw.envelopes'))];
        for (const [colour, bars] of Object.entries(light)) parts.push(svgBars(bars, colour, ' fill-opacity="0.45"'));
        parts.push(svgBars(over, 'url(#over)', ' stroke="#3e4c59" stroke-width="0.6"'));
        for (const [colour, bars] of Object.entries(full)) parts.push(svgBars(bars, colour));
        this.put('envelopes' + bands.side, parts.join(''));
    }

    // A bar between stations, at least so wide that it is seen.
    bar(start, end, top, bottom) {
        const [x1, x2] = [this.frame.x(start), this.frame.x(end)];
        const wide = Math.max(x2 - x1, 2.5);
        return [x1, top, Math.min(x1 + wide, this.frame.right + 2), bottom];
    }

    levels(bands) {
        const {frame, job} = this;
        const [inner, outer] = bands.advance(6 * BAND.step);
        const floor = Math.max(inner, outer);
        bands.strip = [Math.min(inner, outer), floor];
        const parts = [this.title((inner + outer) / 2, said('draw.levels'))];
        for (let level = 0; level < 7; level++) {
            const y = floor - BAND.step * level;
            parts.push(svgLine([[frame.left, y], [frame.right, y]], PALETTE.faint, level ? 0.5 : 1));
            if (level) parts.push(this.axis(y + BAND.step / 2, 'NC-' + level, 7.5));
        }
        this.put('levelAxis' + bands.side, parts.join(''));
        this.put('levels' + bands.side, this.plan.sides ? this.levelBars(this.plan.sides[bands.side], floor) : '');
        this.put('over' + bands.side, this.plan.sides ? this.overhangBars(this.plan.sides[bands.side], floor, job) : '');
    }

    levelBars(side, floor) {
        const {frame} = this;
        const byLevel = {};
        for (const run of side.runs) {
            if (!frame.shows(run.start, run.end)) continue;
            const [x1, x2] = [frame.x(run.start), frame.x(run.end)];
            (byLevel[run.level] = byLevel[run.level] || []).push([x1, floor, Math.max(x2, x1 + 0.6), floor - BAND.step * run.level]);
        }
        return Object.entries(byLevel).map(([level, bars]) => svgBars(bars, PALETTE.levels[level])).join('');
    }

    // Across the foot line: the reply has no level for what hangs over.
    overhangBars(side, floor, job) {
        const bars = [];
        const {begin, end} = job.header;
        if (side.before && this.frame.shows(begin - side.before, begin)) bars.push(this.bar(begin - side.before, begin, floor - 3, floor + 3));
        if (side.after && this.frame.shows(end, end + side.after)) bars.push(this.bar(end, end + side.after, floor - 3, floor + 3));
        return svgBars(bars, 'url(#over)', ' stroke="#3e4c59" stroke-width="0.6"');
    }

    runNames(bands) {
        const {frame} = this;
        const [inner, outer] = bands.advance(BAND.row);
        const runs = this.plan.sides ? this.plan.sides[bands.side].runs.map((run, i) => ({...run, name: runName(bands.side, i + 1)})).filter((run) => frame.shows(run.start, run.end)) : [];
        const middles = runs.map((run) => (frame.x(run.start) + frame.x(run.end)) / 2);
        const kept = thinned(middles, runs.map((run) => textWidth(run.name, 9.5) + 4), frame.left - 4, frame.width);
        this.leaveOut(bands.side, 'runs', runs.length - kept.length);
        const parts = kept.map((i) => svgText(middles[i], (inner + outer) / 2, runs[i].name, {size: 9.5, anchor: 'middle'}));
        this.put('names' + bands.side, [this.title((inner + outer) / 2, said('draw.runs')), ...parts]);
    }

    // The ends of the runs in the window, and those of what hangs over.
    runEnds(bands) {
        if (!this.plan.sides) return [];
        const side = this.plan.sides[bands.side];
        const found = new Map();
        for (const run of side.runs) for (const t of [run.start, run.end]) found.set(t, false);
        if (side.before) found.set(this.job.header.begin - side.before, true);
        if (side.after) found.set(this.job.header.end + side.after, true);
        return [...found].filter(([t]) => this.frame.holds(t)).sort((a, b) => a[0] - b[0]);
    }

    runStations(bands) {
        const {frame, scene} = this;
        const ends = this.runEnds(bands);
        let at = ends.map(([t]) => frame.x(t));
        let words = ends.map(([t]) => scene.station(t));
        let colours = ends.map(([, hangs]) => (hangs ? PALETTE.zone : PALETTE.ink));
        const widths = words.map((word) => textWidth(word, 9.5) + 8);
        let middles = spread(at, widths, frame.left - 20, frame.width - 2);
        const far = middles ? Math.max(0, ...at.map((x, i) => Math.abs(x - middles[i]))) : Infinity;
        const upright = this.hints.stations ? this.hints.stations[bands.side].upright : far > 60;
        if (upright || far > 60) {
            middles = spread(at, words.map(() => 11), frame.left - 14, frame.width - 6);
            if (!upright || !middles || Math.max(0, ...at.map((x, i) => Math.abs(x - middles[i]))) > 60) {
                const kept = thinned(at, upright ? words.map(() => 11) : widths, frame.left - 14, frame.width - 2);
                this.leaveOut(bands.side, 'stations', at.length - kept.length);
                [at, words, colours] = [at, words, colours].map((list) => kept.map((i) => list[i]));
                middles = at;
            }
        }
        const most = this.hints.stations ? this.hints.stations[bands.side].most : upright ? Math.max(0, ...words.map((word) => textWidth(word, 9.5))) : 10;
        this.used.stations[bands.side] = {upright, most};
        const [inner, fan] = bands.advance(14);
        bands.advance(most + 4);
        const parts = at.map((x, i) => {
            const line = svgLine([[x, inner - bands.out * (BAND.row - 2)], [x, inner + bands.out * 3], [middles[i], fan]], PALETTE.leader, 0.5);
            const options = {size: 9.5, anchor: upright ? (bands.out > 0 ? 'end' : 'start') : 'middle', fill: colours[i], upright};
            return line + svgText(middles[i], upright ? fan + bands.out * 2 : fan + bands.out * 6, words[i], options);
        });
        this.put('stations' + bands.side, [this.title(fan + bands.out * 6, said('draw.stations')), ...parts]);
    }

    // How much barrier the side has, and what its neighbours have to be told.
    heading(bands) {
        const name = said(bands.side === RIGHT ? 'page.rightSide' : 'page.leftSide');
        let rows = [name];
        if (this.plan.sides) {
            const side = this.plan.sides[bands.side];
            const isPart = this.frame.first > this.job.header.begin || this.frame.last < this.job.header.end;
            rows = [said(isPart ? 'draw.totalWhole' : 'draw.total', name, side.runs.length, metres(side.total))];
            if (side.before) rows.push(said('draw.overBegin', metres(side.before)));
            if (side.after) rows.push(said('draw.overEnd', metres(side.after)));
        }
        const [inner] = bands.advance(8 + 15 * rows.length);
        const ordered = bands.out > 0 ? rows : rows.slice().reverse();
        const parts = ordered.map((row, i) => {
            const isFirst = row === rows[0];
            const options = {size: this.frame.narrow ? 10.5 : 12, bold: isFirst, fill: isFirst ? PALETTE.ink : PALETTE.zone};
            return svgText(8, inner + bands.out * (10 + 15 * i), fitting(row, 12, this.frame.width - 10), options);
        });
        this.put('heading' + bands.side, parts.join(''));
    }

    // The ends of the contract, over both plan views and along the levels.
    ends(sides) {
        const {frame, job} = this;
        const parts = [];
        for (const station of [job.header.begin, job.header.end]) {
            if (!frame.holds(station)) continue;
            const x = frame.x(station);
            for (const way of [-1, 1]) parts.push(svgLine([[x, way * 8], [x, way * (frame.half + frame.depthRoom)]], PALETTE.ink, 1));
            for (const {strip} of sides) parts.push(svgLine([[x, strip[0]], [x, strip[1]]], PALETTE.ink, 1));
        }
        this.put('ends', parts.join(''));
    }

    // A strip of lots, and their boundaries over the levels of both sides.
    lots(sides, y) {
        const {frame, job} = this;
        const parts = [];
        if (job.lots.length > 1) {
            parts.push(this.title(y + 8, said('draw.lots')));
            job.lots.slice(1).forEach((end, i) => {
                const start = job.lots[i];
                if (!frame.shows(start, end)) return;
                const [x1, x2] = [frame.x(start), frame.x(end)];
                parts.push(svgRect(x1, y, x2, y + 16, i % 2 ? '#f5f7fa' : '#e4e7eb'));
                for (const station of [start, end].filter((t) => frame.holds(t))) {
                    const x = frame.x(station);
                    parts.push(svgLine([[x, y], [x, y + 16]], PALETTE.quiet, 0.7));
                    for (const {strip} of sides) parts.push(svgLine([[x, strip[0]], [x, strip[1]]], PALETTE.quiet, 0.7, ' stroke-dasharray="3 2"'));
                }
                if (x2 - x1 >= textWidth(String(i + 1), 9.5) + 4) parts.push(svgText((x1 + x2) / 2, y + 8, String(i + 1), {size: 9.5, anchor: 'middle'}));
            });
        }
        this.put('lots', parts.join(''));
        return job.lots.length > 1 ? y + 22 : y;
    }

    // What the colours and lines mean, in as many rows as the width makes of it.
    legend(y) {
        const {frame} = this;
        const parts = [];
        let x = 8;
        const place = (width) => {
            if (x + width > frame.width - 6 && x > 8) {
                x = 8;
                y += 16;
            }
            const at = x;
            x += width + 14;
            return at;
        };
        const swatch = (fill, words, stroke = '') => {
            const at = place(18 + textWidth(words, 9.5));
            parts.push(svgRect(at, y + 2, at + 13, y + 12, fill, stroke), svgText(at + 17, y + 7, words, {size: 9.5}));
        };
        LEVELS.forEach((level) => swatch(PALETTE.levels[level], 'NC-' + level));
        swatch(PALETTE.none, said('draw.outside'));
        swatch('url(#over)', said('draw.past'), ' stroke="#3e4c59" stroke-width="0.6"');
        if (this.scene.reach) swatch(PALETTE.reach, said('draw.reach'));
        for (const [width, dash, key] of [[3, '', 'draw.barrier'], [0.9, '', 'draw.approach'], [0.9, ' stroke-dasharray="4 2"', 'draw.farApproach']]) {
            const words = said(key);
            const at = place(32 + textWidth(words, 9.5));
            parts.push(svgLine([[at, y + 7], [at + 26, y + 7]], PALETTE.barrier, width, dash), svgText(at + 31, y + 7, words, {size: 9.5}));
        }
        this.put('legend', parts.join(''));
        return y + 20;
    }

    // What the drawing says of itself: nothing is left out without a word.
    sentences() {
        const found = [said('draw.scales')];
        if (this.job.hazards.some((hazard) => typeof hazard.far === 'number' && hazard.far > this.frame.deepest)) found[0] += ' ' + said('draw.deep', metres(Math.floor(this.frame.deepest)));
        const [right, left] = this.notes;
        for (const key of new Set([...right.keys(), ...left.keys()])) found.push(said(key, [...(right.get(key) || []), ...(left.get(key) || [])].join(', ')));
        const counts = ['hazards', 'envelopes', 'runs', 'stations'].map((what) => [what, (this.left[RIGHT][what] || 0) + (this.left[LEFT][what] || 0)])
            .filter(([, count]) => count > 0).map(([what, count]) => said('draw.left.' + what, count));
        if (counts.length) found.push(said('draw.left', counts.join(', ')));
        return found;
    }

    remarks(y) {
        const parts = [];
        for (const sentence of this.sentences()) {
            let row = '';
            const rows = [];
            for (const word of sentence.split(' ')) {
                if (row && textWidth(row + ' ' + word, 9.5) > this.frame.width - 14) {
                    rows.push(row);
                    row = word;
                } else row = row ? row + ' ' + word : word;
            }
            for (const line of [...rows, row]) {
                parts.push(svgText(8, y + 7, line, {size: 9.5, fill: PALETTE.quiet}));
                y += 14;
            }
        }
        this.put('remarks', parts.join(''));
        return y + 6;
    }

    // The groups in the order in which they are drawn; hazards stand over the verge and under the barrier.
    order() {
        const both = (name) => [name + RIGHT, name + LEFT];
        const before = ['road', ...both('verge'), ...both('reach')];
        const bands = ['barrier', 'labels', 'envelopes', 'levelAxis', 'levels', 'over', 'names', 'stations', 'heading'];
        const after = [...bands.flatMap(both), 'ends', 'lots', 'legend', 'remarks'];
        return {before, after};
    }

    // The text of an SVG file.
    document(title) {
        const {before, after} = this.order();
        const group = (name) => this.groups.get(name).join('');
        const body = [...before.map(group), ...this.hazards.filter(Boolean), ...after.map(group)].join('\n');
        const box = `0 ${shortNumber(this.top)} ${shortNumber(this.frame.width)} ${shortNumber(this.height)}`;
        const size = `width="${shortNumber(this.frame.width)}" height="${shortNumber(this.height)}"`;
        return `<svg xmlns="http://www.w3.org/2000/svg" viewBox="${box}" ${size} font-family="Helvetica, Arial, sans-serif">` +
            `<title>${escaped(title)}</title>${DEFINITIONS}<rect x="0" y="${shortNumber(this.top)}" width="100%" height="100%" fill="#ffffff"/>\n${body}\n</svg>\n`;
    }
}

function runName(side, number) {
    return said(side === RIGHT ? 'page.R' : 'page.L') + number;
}
