// What the engine says of the job: the open job, its schedules, each hazard alone, lots, one hazard, one station.
//
// The open job in the engine's memory has the hazards that stand. A change withdraws and adds only what changed, so that
// a hazard can be dragged; a change of the road opens the job again.

class Planner {
    constructor(engine) {
        this.engine = engine;
        this.opened = '';
        this.standing = new Map();
        this.stateRefusals = new Map();
        this.alone = new WeakMap();
    }

    // Plans the job. What is found is all there is: nothing of the plan before is left in it.
    plan(job, states) {
        const found = {job, refusals: {header: null, hazards: new Map(), states: new Map()}, sides: null, alone: [], bytes: null};
        if (!isWhole(job)) {
            this.close();
            return found;
        }
        if (!this.open(job, states, found.refusals)) return found;
        this.stand(job, found.refusals.hazards);
        if (found.refusals.hazards.size) return found;
        found.bytes = jobBytes(job);
        found.sides = [RIGHT, LEFT].map((side) => this.side(job, side));
        found.alone = job.hazards.map((hazard) => this.hazardAlone(job, hazard));
        return found;
    }

    close() {
        this.opened = '';
        this.standing.clear();
    }

    // Opens the job where the road or the states changed. The states are kept again: opening empties all eight.
    open(job, states, refusals) {
        const bytes = headerBytes(job);
        const key = this.key(job, states);
        if (key === this.opened) {
            refusals.states = this.stateRefusals;
            return true;
        }
        this.close();
        this.alone = new WeakMap();
        const reply = this.engine.reply('barrier_open', bytes);
        if (reply.number !== 0) {
            refusals.header = new Refused('barrier_open', reply.number, reply.value);
            return false;
        }
        states.forEach((state, number) => { if (state) this.keepAgain(job, state, number, refusals.states); });
        this.stateRefusals = refusals.states;
        this.opened = key;
        return true;
    }

    // By this the open job in memory is known to be this road's, with these states kept.
    key(job, states) {
        return [headerBytes(job).join(), job.left, job.fall, states.map((state) => (state ? state.id : '')).join()].join(';');
    }

    keepAgain(job, state, number, refused) {
        const wrong = new Map();
        this.stand({...job, hazards: state.hazards}, wrong);
        if (wrong.size) refused.set(number, wrong.values().next().value);
        else this.engine.done('barrier_keep', number);
    }

    // Makes the hazards that stand those of the job; those that are refused are noted by their index.
    stand(job, refused) {
        const wanted = new Map();
        job.hazards.forEach((hazard, index) => {
            if (!wanted.has(hazard.name)) wanted.set(hazard.name, {index, numbers: hazardNumbers(job, hazard)});
            else refused.set(index, new Refused('barrier_add', INTERFACE.numbers.BARRIER_NAME, hazard.name));
        });
        for (const [name, numbers] of this.standing) {
            if (!wanted.has(name) || String(wanted.get(name).numbers) !== numbers) this.withdraw(name);
        }
        for (const [name, {index, numbers}] of wanted) {
            if (this.standing.has(name)) continue;
            const reply = this.engine.reply('barrier_add', name, numbers);
            if (reply.number === 0) this.standing.set(name, String(numbers));
            else refused.set(index, new Refused('barrier_add', reply.number, reply.value));
        }
    }

    withdraw(name) {
        this.engine.done('barrier_withdraw', name);
        this.standing.delete(name);
    }

    // One side of the road, in the road's own stations.
    side(job, side) {
        const written = this.engine.openSchedule(engineSide(job, side));
        const runs = runsOfSchedule(written.bytes).map((run) => {
            const [start, end] = signedRange(job, run.start, run.end);
            return {...run, start, end};
        });
        if (job.fall) runs.reverse();
        const [before, after] = job.fall ? [written.after, written.before] : [written.before, written.after];
        const rises = job.header.opposite > 0 ? (side === RIGHT) !== job.left : !job.fall;
        const schedule = job.fall ? scheduleOfRuns(runs) : written.bytes;
        const [amounts] = this.amounts(schedule, [[job.header.begin, job.header.end]]);
        return {side, runs, before, after, rises, schedule, amounts, total: sumOf(amounts)};
    }

    // The envelope and the corners of one hazard as if it stood alone, from calls on a job of it alone.
    hazardAlone(job, hazard) {
        const known = this.alone.get(hazard);
        if (known) return known;
        const bytes = aloneBytes(job, hazard);
        const found = {envelope: this.envelope(job, bytes, hazard), corners: this.corners(job, bytes, 0, 0, 0)};
        this.alone.set(hazard, found);
        return found;
    }

    // Not cut at the road's ends; null where nobody reaches the hazard.
    envelope(job, bytes, hazard) {
        const written = this.engine.plan(bytes, engineSide(job, hazard.side));
        const runs = runsOfSchedule(written.bytes);
        return runs.length ? signedRange(job, runs[0].start - written.before, runs[0].end + written.after) : null;
    }

    // Null where there are none; the corners are counted from a sheet corner.
    corners(job, bytes, index, station, offset) {
        const reply = this.engine.reply('barrier_corners', bytes, index, job.fall ? 0 : station, offset);
        if (reply.number === INTERFACE.numbers.BARRIER_NO_APPROACH) return null;
        if (reply.number !== 0) throw new Refused('barrier_corners', reply.number, reply.value);
        const turn = (corner) => ({...corner, station: job.fall ? job.header.begin + job.header.end - corner.station - station : corner.station});
        return {upstream: turn(reply.upstream), flare: turn(reply.flare), hazard: turn(reply.hazard)};
    }

    // The millimetres of each level, from 1 on, in each range.
    amounts(schedule, ranges) {
        const rows = ranges.map(() => []);
        const most = INTERFACE.constants.BARRIER_RANGES_MAX;
        for (const level of LEVELS) {
            for (let first = 0; first < ranges.length; first += most) {
                const some = ranges.slice(first, first + most);
                const reply = this.engine.done('barrier_quantities', schedule, level, some.flat());
                some.forEach((range, i) => rows[first + i].push(reply.quantities[i]));
            }
        }
        return rows;
    }

    level(plan, side, station) {
        const {job} = plan;
        const asked = job.fall ? turned(job, BigInt(station) + 1n) : station;
        return this.engine.done('barrier_level', plan.bytes, engineSide(job, side), asked).value;
    }

    // The smallest M for which the approach is no longer; null where there is none.
    offset(plan, index, longest) {
        const reply = this.engine.done('barrier_offset', plan.bytes, index, longest);
        return reply.found ? reply.value : null;
    }

    layout(lengths, run, limit) {
        return this.engine.done('barrier_layout', lengths, run, limit);
    }

    hasReach() {
        return this.engine.has('barrier_open_reach');
    }

    // How far the withdrawal of a hazard that stands reaches, in the road's own stations; null where it has no envelope.
    reach(job, hazard) {
        const reply = this.engine.done('barrier_open_reach', hazard.name);
        if (reply.start === reply.end) return null;
        const [from, to] = signedRange(job, reply.from, reply.to);
        return {from, to, side: engineSide(job, reply.side)};
    }

    // Keeps what stands; states is what is kept from now on.
    keep(number, job, states) {
        this.engine.done('barrier_keep', number);
        this.stateRefusals.delete(number);
        this.opened = this.key(job, states);
    }

    // Returns to a state that is kept; what stands is noted, as it was when it was kept.
    returnTo(number, job, state) {
        this.engine.done('barrier_return', number);
        this.standing.clear();
        for (const hazard of state.hazards) this.standing.set(hazard.name, String(hazardNumbers(job, hazard)));
    }

    // The engine's time for both sides, in microseconds: the least of five means, each of as many calls as take some
    // milliseconds, since browsers' clocks are coarse and other programs run beside.
    measure() {
        return Math.min(...[0, 1, 2, 3, 4].map(() => this.meanTime()));
    }

    meanTime() {
        const begin = performance.now();
        let count = 0;
        let elapsed = 0;
        while (elapsed < 4 && count < 1000) {
            this.engine.reply('barrier_open_schedule', RIGHT);
            this.engine.reply('barrier_open_schedule', LEFT);
            count++;
            elapsed = performance.now() - begin;
        }
        return elapsed * 1000 / count;
    }
}

function sumOf(numbers) {
    return numbers.reduce((sum, number) => sum + number, 0);
}

// The place of the first of a hazard's numbers that is out of its range: refusal 4 names the hazard only.
function hazardFault(job, hazard) {
    const {begin, end} = job.header;
    const fits = [
        hazard.side <= 1,
        hazard.start >= begin && hazard.start < end,
        hazard.end > hazard.start && hazard.end <= end,
        hazard.near <= INTERFACE.hazard[3].high,
        hazard.far >= hazard.near && hazard.far <= INTERFACE.hazard[4].high,
        hazard.level >= 1 && hazard.level <= 6,
    ];
    return fits.indexOf(false);
}
