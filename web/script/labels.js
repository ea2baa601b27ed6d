// Where labels stand so that none lies over another. The page's drawing is laid out as examples/python/picture.py's.

function textWidth(text, size) {
    return Array.from(text).length * size * 0.57;
}

// Middles near the wanted ones, which rise, so that no two widths overlap; null where they do not fit between low and high.
function spread(wanted, widths, low, high) {
    if (!wanted.length) return [];
    const taken = [0];
    for (let i = 1; i < widths.length; i++) taken.push(taken[i - 1] + (widths[i - 1] + widths[i]) / 2);
    const first = low + widths[0] / 2;
    const last = high - widths[widths.length - 1] / 2 - taken[taken.length - 1];
    if (last < first) return null;
    const clusters = [];
    wanted.forEach((place, i) => {
        let total = place - taken[i];
        let count = 1;
        while (clusters.length && clusters[clusters.length - 1][0] / clusters[clusters.length - 1][1] > total / count) {
            const [more, members] = clusters.pop();
            total += more;
            count += members;
        }
        clusters.push([total, count]);
    });
    const means = clusters.flatMap(([total, count]) => new Array(count).fill(total / count));
    return means.map((mean, i) => Math.min(Math.max(mean, first), last) + taken[i]);
}

// The indices of labels that can stand exactly where they are wanted, the first first.
function thinned(middles, widths, low, high) {
    const kept = [];
    let end = low;
    middles.forEach((middle, i) => {
        if (middle - widths[i] / 2 >= end && middle + widths[i] / 2 <= high) {
            kept.push(i);
            end = middle + widths[i] / 2;
        }
    });
    return kept;
}

// A lane for each stretch, so that no two of a lane overlap: the first that is free.
function lanesOf(stretches) {
    const order = stretches.map((_, i) => i).sort((a, b) => stretches[a][0] - stretches[b][0] || stretches[a][1] - stretches[b][1]);
    const ends = [];
    const lanes = [];
    for (const index of order) {
        const [start, end] = stretches[index];
        let lane = ends.findIndex((taken) => taken <= start);
        if (lane < 0) lane = ends.push(end) - 1;
        ends[lane] = end;
        lanes[index] = lane;
    }
    return lanes;
}

// Text cut to a width.
function fitting(text, size, room) {
    if (textWidth(text, size) <= room) return text;
    const letters = Array.from(text);
    while (letters.length && textWidth(letters.join('') + '...', size) > room) letters.pop();
    return letters.join('').trimEnd() + '...';
}
