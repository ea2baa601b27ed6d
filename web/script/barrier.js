// Where the barrier of a schedule stands in the plan view: as examples/python/barrier_picture/barrier.py draws it.
//
// Runs that touch make one barrier. It stands at the barrier offset M, and bends away at its upstream end as the approach
// does that begins it, through the corner points of that approach's hazard.

// What of a line, whose stations rise, lies between two stations.
function cutLine(points, start, end) {
    const found = [];
    for (let i = 1; i < points.length; i++) {
        const [x1, y1] = points[i - 1];
        const [x2, y2] = points[i];
        const low = Math.max(x1, start);
        const high = Math.min(x2, end);
        if (low >= high) continue;
        for (const x of [low, high]) {
            const point = [x, y1 + (y2 - y1) * (x - x1) / (x2 - x1)];
            const last = found[found.length - 1];
            if (!last || last[0] !== point[0] || last[1] !== point[1]) found.push(point);
        }
    }
    return found;
}

function touchingRuns(runs) {
    const groups = [];
    runs.forEach((run, i) => {
        const group = groups[groups.length - 1];
        if (group && group[group.length - 1].end === run.start) group.push({...run, number: i + 1});
        else groups.push([{...run, number: i + 1}]);
    });
    return groups;
}

function cornerPoints(corners) {
    return [corners.upstream, corners.flare, corners.hazard].map((corner) => [corner.station, corner.offset]);
}

// members: the hazards of this side with corners and envelopes.
function barrierOf(job, side, runs, members) {
    const start = runs[0].start;
    const end = runs[runs.length - 1].end;
    const base = job.header.offset;
    const way = side.rises ? 1 : -1;
    const straight = [[start, base], [end, base]];
    const inside = members.filter(({envelope}) => envelope[0] < end && envelope[1] > start);
    if (!inside.length) return {runs, points: straight};
    const key = ({corners}) => [way * corners.upstream.station, way * corners.flare.station];
    const first = inside.reduce((best, one) => {
        const [a, b] = [key(one), key(best)];
        return a[0] < b[0] || (a[0] === b[0] && a[1] < b[1]) ? one : best;
    });
    if (first.corners.upstream.offset === base) return {runs, points: straight};
    if (inside.some(({corners}) => way * corners.flare.station < way * first.corners.flare.station)) {
        return {runs, points: straight, note: 'draw.unflared'};
    }
    const {upstream, flare} = first.corners;
    const line = [[upstream.station, upstream.offset], [flare.station, flare.offset], [side.rises ? end : start, base]];
    line.sort((a, b) => a[0] - b[0] || a[1] - b[1]);
    return {runs, points: line, note: inside.length > 1 ? 'draw.several' : null};
}

function barriersOf(plan, side) {
    const members = [];
    plan.job.hazards.forEach((hazard, i) => {
        const {envelope, corners} = plan.alone[i];
        if (hazard.side === side.side && envelope && corners) members.push({envelope, corners});
    });
    return touchingRuns(side.runs).map((runs) => barrierOf(plan.job, side, runs, members));
}
