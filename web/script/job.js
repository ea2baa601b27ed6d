// The job as the page has it, in the road's own sides and stations.
//
// A hazard is never changed in place: another one is put where it stood, so that what is known of a hazard can be kept with
// it. A number is a Number, a BigInt where it is too great for one, or null where what stands in its field is no number.
// How the road is driven is not in a job's bytes: sides are swapped and the road is turned round for the engine, and all
// that it replies is swapped and turned back, as barrier.h, "Sides and traffic", has it.

const RIGHT = 0;
const LEFT = 1;
const LEVELS = [1, 2, 3, 4, 5, 6];
const LABEL_MAX = 60;
const NUMBER_MAX = 2 ** 42 - 1;
const HEADER_KEYS = INTERFACE.header.map((field) => field.key);
const HAZARD_KEYS = INTERFACE.hazard.map((field) => field.key);

// Document 01's printed example: a one-way road of 1 km with a culvert headwall.
function printedJob() {
    return {
        title: '',
        header: {
            begin: 0, end: 1000000, forward: 101000, opposite: 0, zone: 9000, way: 0, offset: 3000, deflection: 1000,
            along: 15, across: 1, straight: 13340, continuity: 0, panel: null,
        },
        panels: false,
        left: false,
        fall: false,
        hazards: [{name: 0, label: 'culvert headwall', side: RIGHT, start: 200000, end: 210000, near: 5000, far: 9000, level: 3}],
        lots: [],
    };
}

function swaps(job) {
    return job.left !== job.fall;
}

function engineSide(job, side) {
    return swaps(job) && side !== null && side <= 1 ? 1 - side : side;
}

// A + B - x, in the numbers' own kind; what is outside of the road stays outside.
function turned(job, x) {
    const whole = BigInt(job.header.begin) + BigInt(job.header.end) - BigInt(x);
    return plainNumber(BigInt.asUintN(64, whole));
}

// A range [start, end), there and back.
function turnedRange(job, start, end) {
    return job.fall ? [turned(job, end), turned(job, start)] : [start, end];
}

function signedRange(job, start, end) {
    const sum = job.header.begin + job.header.end;
    return job.fall ? [sum - end, sum - start] : [start, end];
}

// The six numbers of a hazard as the engine takes them.
function hazardNumbers(job, hazard) {
    const [start, end] = turnedRange(job, hazard.start, hazard.end);
    return [engineSide(job, hazard.side), start, end, hazard.near, hazard.far, hazard.level];
}

function headerNumbers(job, hazardCount) {
    const kept = HEADER_KEYS.filter((key) => key !== 'panel').map((key) => job.header[key]);
    return [job.panels ? 2 : 1, ...kept, ...(job.panels ? [job.header.panel] : []), hazardCount];
}

function headerKeys(job) {
    return HEADER_KEYS.filter((key) => key !== 'panel' || job.panels);
}

// Whether every field has a number in it.
function isWhole(job) {
    return headerKeys(job).every((key) => job.header[key] !== null) &&
        job.hazards.every((hazard) => HAZARD_KEYS.every((key) => hazard[key] !== null));
}

// Whether every number can be written in six bytes, and so be read again.
function fitsForm(job) {
    const numbers = [...headerNumbers(job, 0), ...job.hazards.flatMap((hazard) => HAZARD_KEYS.map((key) => hazard[key]))];
    return numbers.every((number) => number <= NUMBER_MAX);
}

function jobBytes(job) {
    const numbers = headerNumbers(job, job.hazards.length);
    for (const hazard of job.hazards) numbers.push(...hazardNumbers(job, hazard));
    return bytesOfNumbers(numbers);
}

// A job of the same header and one hazard: its envelope and corners are those of a hazard as if it stood alone.
function aloneBytes(job, hazard) {
    return bytesOfNumbers([...headerNumbers(job, 1), ...hazardNumbers(job, hazard)]);
}

function headerBytes(job) {
    return bytesOfNumbers(headerNumbers(job, 0));
}

// Of bytes whose sides and stations are the road's own already.
function jobOfNumbers(header, panels, rows) {
    const job = printedJob();
    job.panels = panels;
    job.hazards = rows.map((row, index) => hazardOfNumbers(row, index, ''));
    HEADER_KEYS.filter((key) => key !== 'panel' || panels).forEach((key, i) => { job.header[key] = header[i]; });
    if (!panels) job.header.panel = null;
    return job;
}

function hazardOfNumbers(row, name, label) {
    const hazard = {name, label};
    HAZARD_KEYS.forEach((key, i) => { hazard[key] = row[i]; });
    return hazard;
}

// A job from its bytes; Malformed where they cannot be read as one. Ranges are for the engine to judge.
function jobOfBytes(bytes) {
    const [kind, first] = getNumber(bytes, 0);
    if (kind !== 1 && kind !== 2) throw new Malformed(said('bytes.kind', kind));
    let [numbers, at] = getNumbers(bytes, first, 12 + kind);
    const count = numbers.pop();
    if (count > INTERFACE.constants.BARRIER_HAZARDS_MAX) throw new Malformed(said('bytes.many', count));
    const rows = [];
    for (let i = 0; i < count; i++) {
        let row;
        [row, at] = getNumbers(bytes, at, HAZARD_KEYS.length);
        rows.push(row);
    }
    if (at !== bytes.length) throw new Malformed(said('bytes.left', at));
    return jobOfNumbers(numbers, kind === 2, rows);
}

// The lowest number under which no hazard stands.
function freeName(job) {
    const taken = new Set(job.hazards.map((hazard) => hazard.name));
    let name = 0;
    while (taken.has(name)) name++;
    return name;
}

// The job in a page's address: its bytes, in the road's own sides and stations, and what is not in them.
function fragmentOf(job) {
    const plain = {...job, left: false, fall: false};
    let letters = '';
    for (const byte of jobBytes(plain)) letters += String.fromCharCode(byte);
    const parts = new URLSearchParams();
    parts.set('job', btoa(letters).replace(/\+/g, '-').replace(/\//g, '_').replace(/=+$/, ''));
    if (job.hazards.some((hazard) => hazard.label)) parts.set('names', job.hazards.map((hazard) => hazard.label).join('\n'));
    if (job.hazards.some((hazard, i) => hazard.name !== i)) parts.set('numbers', job.hazards.map((hazard) => hazard.name).join('.'));
    if (job.left) parts.set('drives', 'left');
    if (job.fall) parts.set('stations', 'fall');
    if (job.lots.length) parts.set('lots', job.lots.join('.'));
    if (job.title) parts.set('title', job.title);
    return parts.toString();
}

// A text without control characters, cut: names and titles from anywhere.
function cleanLabel(text) {
    const letters = Array.from(String(text)).filter((letter) => !isControl(letter) && letter !== '"');
    return letters.slice(0, LABEL_MAX).join('').trim();
}

function numbersOf(text, most) {
    if (!text) return [];
    const words = text.split('.');
    if (words.length > most || !words.every((word) => /^[0-9]{1,13}$/.test(word))) throw new Malformed(said('link.wrong'));
    return words.map(Number);
}

// The job of an address; Malformed where it has none that can be read.
function jobOfFragment(fragment) {
    const parts = new URLSearchParams(fragment.replace(/^#/, ''));
    const base64 = (parts.get('job') || '').replace(/-/g, '+').replace(/_/g, '/');
    let letters;
    try {
        letters = atob(base64);
    } catch (error) {
        throw new Malformed(said('link.wrong'));
    }
    const job = jobOfBytes(Uint8Array.from(letters, (letter) => letter.charCodeAt(0)));
    const labels = (parts.get('names') || '').split('\n');
    const names = numbersOf(parts.get('numbers'), job.hazards.length);
    job.hazards = job.hazards.map((hazard, i) => {
        const name = names.length === job.hazards.length ? Math.min(names[i], INTERFACE.constants.BARRIER_NAME_MAX) : hazard.name;
        return {...hazard, label: cleanLabel(labels[i] || ''), name};
    });
    job.left = parts.get('drives') === 'left';
    job.fall = parts.get('stations') === 'fall';
    job.lots = numbersOf(parts.get('lots'), LOTS_MAX + 1);
    if (job.lots.length === 1 || job.lots.some((lot, i) => i > 0 && lot < job.lots[i - 1])) throw new Malformed(said('link.wrong'));
    job.title = cleanLabel(parts.get('title') || '');
    return job;
}

const LOTS_MAX = 256;
