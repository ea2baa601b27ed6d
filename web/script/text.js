// The text form of a job, as examples/README.md, "A job by hand", describes it: one field on a line. What is wrong with a
// text is said in the words of the other programs that read it, with line and column.

const INPUT_MAX = 1048576;
const SHOWN_MAX = 40;
const PLACES = {kind: 1, begin: 2, end: 3, opposite: 5, panel: 14, count: 15};
const TEXT_FIELDS = {
    kind: {places: [1], unit: 'number'},
    road: {places: [2, 3], unit: 'station'},
    'runout-forward': {places: [4], unit: 'length'},
    'runout-opposite': {places: [5], unit: 'length'},
    'clear-zone': {places: [6], unit: 'length'},
    centreline: {places: [7], unit: 'length'},
    'barrier-offset': {places: [8], unit: 'length'},
    deflection: {places: [9], unit: 'length'},
    flare: {places: [10, 11], unit: 'number'},
    straight: {places: [12], unit: 'length'},
    continuity: {places: [13], unit: 'length'},
    panel: {places: [14], unit: 'length'},
    hazards: {places: [15], unit: 'number'},
};
const TEXT_CHOICES = {drives: ['right', 'left'], stations: ['rise', 'fall']};
const HAZARD_UNITS = ['station', 'station', 'length', 'length', 'number'];
const BLANKS = ' \t\r';

function isControl(letter) {
    return letter < ' ' || (letter >= '\x7f' && letter < '\xa0');
}

function shownWord(letters) {
    const cut = letters.slice(0, SHOWN_MAX).map((letter) => (isControl(letter) ? '?' : letter)).join('');
    return letters.length <= SHOWN_MAX ? cut : cut + '...';
}

// place: {line, column}; word: letters, where one is shown.
function wrongText(place, key, word, ...values) {
    const words = said(key, ...values);
    const whole = word === undefined ? words : words + ': ' + shownWord(word);
    return new Malformed(said('text.place', place.line, place.column) + ' ' + whole);
}

function lower(text) {
    return text.replace(/[A-Z]/g, (letter) => letter.toLowerCase());
}

// The words of a line, each with its letters and place, and the comment behind them.
function wordsOfLine(letters, line) {
    const found = [];
    let at = 0;
    while (at < letters.length && letters[at] !== '#') {
        const place = {line, column: at + 1};
        if (BLANKS.includes(letters[at])) at++;
        else if (letters[at] === '"') {
            const end = letters.indexOf('"', at + 1);
            if (end < 0) throw wrongText(place, 'text.unclosed');
            const next = letters[end + 1];
            if (next !== undefined && next !== '#' && !BLANKS.includes(next)) throw wrongText({line, column: end + 2}, 'text.blank');
            found.push({letters: letters.slice(at + 1, end), place, quoted: true});
            at = end + 1;
        } else {
            let end = at;
            while (end < letters.length && letters[end] !== '#' && !BLANKS.includes(letters[end])) end++;
            found.push({letters: letters.slice(at, end), place, quoted: false});
            at = end;
        }
    }
    for (const word of found) word.text = word.letters.join('');
    return {words: found, comment: letters.slice(at + 1)};
}

function digitsOfWord(word, first, rest) {
    if (first.length > DIGITS_MAX) throw wrongText(word.place, 'text.digits', word.letters, DIGITS_MAX);
    const value = BigInt(first + rest);
    if (value >= 1n << 64n) throw wrongText(word.place, 'text.great', word.letters);
    return plainNumber(value);
}

function numberOfWord(word, unit) {
    if (unit === 'station' && /^[0-9.,]*\+[0-9.,+]*$/.test(word.text)) {
        const found = /^([0-9]+)\+([0-9]{3})(?:\.([0-9]{3}))?$/.exec(word.text);
        if (!found) throw wrongText(word.place, 'text.kilometres', word.letters);
        return digitsOfWord(word, found[1], found[2] + (found[3] || '000'));
    }
    if (/^[0-9]+$/.test(word.text)) return digitsOfWord(word, word.text, '');
    if (/^[.,]*[0-9][0-9.,]*$/.test(word.text)) throw wrongText(word.place, unit === 'number' ? 'text.whole' : 'text.millimetres', word.letters);
    if (/^-[0-9]+$/.test(word.text)) throw wrongText(word.place, 'text.below', word.letters);
    throw wrongText(word.place, 'text.number', word.letters);
}

function sideOfWord(word) {
    if (word.text === 'right') return RIGHT;
    if (word.text === 'left') return LEFT;
    if (['right', 'left'].includes(lower(word.text))) throw wrongText(word.place, 'text.smallSide', word.letters);
    if (!/^[0-9]+$/.test(word.text)) throw wrongText(word.place, 'text.side', word.letters);
    return numberOfWord(word, 'number');
}

function labelOfComment(comment) {
    const letters = comment.map((letter) => (isControl(letter) ? ' ' : letter));
    while (letters[0] === ' ') letters.shift();
    return letters.slice(0, LABEL_MAX).join('').replace(/ +$/, '');
}

function labelOfWord(word) {
    if (word.letters.length < 1 || word.letters.length > LABEL_MAX) throw wrongText(word.place, 'text.name', undefined, LABEL_MAX);
    if (word.letters.some(isControl)) throw wrongText(word.place, 'text.nameControl');
    return word.text;
}

class TextReader {
    constructor() {
        this.header = new Map();
        this.hazards = [];
        this.choices = {};
    }

    hazard(words, comment) {
        const named = words.length === 8 && words[7].quoted;
        if (!(named || words.length === 7) || words.slice(1, 7).some((word) => word.quoted)) throw wrongText(words[0].place, 'text.hazard');
        const numbers = [sideOfWord(words[1]), ...words.slice(2, 7).map((word, i) => numberOfWord(word, HAZARD_UNITS[i]))];
        const label = named ? labelOfWord(words[7]) : labelOfComment(comment);
        this.hazards.push({numbers, label, places: [words[2].place, words[3].place]});
    }

    field(words) {
        const {places, unit} = TEXT_FIELDS[words[0].text];
        if (words.length !== 1 + places.length) throw wrongText(words[0].place, places.length === 1 ? 'text.one' : 'text.two', words[0].letters);
        if (this.header.has(places[0])) throw wrongText(words[0].place, 'text.second', words[0].letters);
        const numbers = words.slice(1).map((word) => numberOfWord(word, unit));
        places.forEach((place, i) => this.header.set(place, numbers[i]));
    }

    choice(words) {
        const name = words[0].text;
        const [usual, other] = TEXT_CHOICES[name];
        const wants = () => wrongText(words[0].place, 'text.choice', undefined, name, usual, other);
        if (words.length !== 2) throw wants();
        if (name in this.choices) throw wrongText(words[0].place, 'text.second', words[0].letters);
        if (![usual, other].includes(lower(words[1].text))) throw wants();
        if (![usual, other].includes(words[1].text)) throw wrongText(words[1].place, 'text.smallChoice', words[1].letters, usual, other);
        this.choices[name] = {other: words[1].text === other, place: words[0].place};
    }

    line(letters, number) {
        const {words, comment} = wordsOfLine(letters, number);
        if (!words.length) return;
        const name = words[0];
        const has = (table) => Object.prototype.hasOwnProperty.call(table, name.text);
        if (name.text === 'hazard' && !name.quoted) {
            this.hazard(words, comment);
            return;
        }
        if (name.quoted || !(has(TEXT_FIELDS) || has(TEXT_CHOICES))) {
            const known = ['hazard', ...Object.keys(TEXT_FIELDS), ...Object.keys(TEXT_CHOICES)].includes(lower(name.text)) && !name.quoted;
            throw wrongText(name.place, known ? 'text.small' : 'text.field', name.letters);
        }
        for (const word of words.slice(1, 9)) if (word.quoted) throw wrongText(word.place, 'text.onlyHazard');
        if (has(TEXT_CHOICES)) this.choice(words);
        else this.field(words);
    }

    complete(lines) {
        if (!this.header.has(PLACES.kind)) this.header.set(PLACES.kind, this.header.has(PLACES.panel) ? 2 : 1);
        if (!this.header.has(PLACES.count)) this.header.set(PLACES.count, this.hazards.length);
        for (const [name, {places}] of Object.entries(TEXT_FIELDS)) {
            if (name !== 'panel' && !this.header.has(places[0])) throw wrongText({line: lines, column: 1}, 'text.missing', Array.from(name));
        }
    }

    testFalling() {
        const falls = this.choices.stations;
        if (!falls || !falls.other) return;
        if (this.header.get(PLACES.opposite) !== 0) throw wrongText(falls.place, 'text.twoWay');
        const [begin, end] = [this.header.get(PLACES.begin), this.header.get(PLACES.end)];
        for (const {numbers, places} of this.hazards) {
            places.forEach((place, i) => {
                if (numbers[1 + i] < begin || numbers[1 + i] > end) throw wrongText(place, 'text.offRoad');
            });
        }
    }

    // What the page can show: a kind or a hazard count that does not fit the lines has no field here.
    job(lines) {
        this.complete(lines);
        this.testFalling();
        const panels = this.header.has(PLACES.panel);
        if (this.header.get(PLACES.kind) !== (panels ? 2 : 1)) throw new Malformed(said('text.kind', this.header.get(PLACES.kind)));
        if (this.header.get(PLACES.count) !== this.hazards.length) throw new Malformed(said('text.count', this.header.get(PLACES.count), this.hazards.length));
        const header = INTERFACE.header.filter((field) => field.key !== 'panel' || panels).map((field) => this.header.get(field.number));
        const job = jobOfNumbers(header, panels, this.hazards.map((read) => read.numbers));
        job.hazards = job.hazards.map((hazard, i) => ({...hazard, label: this.hazards[i].label}));
        job.left = Boolean(this.choices.drives && this.choices.drives.other);
        job.fall = Boolean(this.choices.stations && this.choices.stations.other);
        return job;
    }
}

// How many bytes the letter at an index takes in UTF-8; 0 where there is none.
function letterBytes(bytes, at) {
    const first = bytes[at];
    const count = first < 0x80 ? 1 : first >= 0xc2 && first < 0xe0 ? 2 : first >= 0xe0 && first < 0xf0 ? 3 : first >= 0xf0 && first < 0xf5 ? 4 : 0;
    for (let i = 1; i < count; i++) if ((bytes[at + i] & 0xc0) !== 0x80) return 0;
    const second = bytes[at + 1];
    if ((first === 0xe0 && second < 0xa0) || (first === 0xed && second > 0x9f) || (first === 0xf0 && second < 0x90) || (first === 0xf4 && second > 0x8f)) return 0;
    return count;
}

function placeAfter(text) {
    const lines = text.split('\n');
    return {line: lines.length, column: Array.from(lines[lines.length - 1]).length + 1};
}

function testUtf16(bytes) {
    const marked = (bytes[0] === 0xff && bytes[1] === 0xfe) || (bytes[0] === 0xfe && bytes[1] === 0xff);
    if (marked || (bytes.length > 1 && (bytes[0] === 0) !== (bytes[1] === 0))) throw wrongText({line: 1, column: 1}, 'text.utf16');
}

// Text from a file's bytes, with the place of what is none.
function decoded(bytes) {
    testUtf16(bytes);
    const marked = bytes[0] === 0xef && bytes[1] === 0xbb && bytes[2] === 0xbf;
    const rest = marked ? bytes.subarray(3) : bytes;
    const decoder = new TextDecoder('utf-8', {ignoreBOM: true});
    for (let at = 0, step; at < rest.length; at += step) {
        step = letterBytes(rest, at);
        if (step === 0) throw wrongText(placeAfter(decoder.decode(rest.subarray(0, at))), 'text.utf8');
    }
    const text = decoder.decode(rest);
    if (text.includes('\0')) throw wrongText(placeAfter(text.slice(0, text.indexOf('\0'))), 'text.zero');
    return text;
}

function testInput(bytes) {
    if (bytes.length > INPUT_MAX) throw new Malformed(said('text.tooLong', INPUT_MAX));
    if (!bytes.length) throw new Malformed(said('text.nothing'));
}

// The job of a text, whose bytes these are.
function jobOfText(bytes) {
    const reader = new TextReader();
    const lines = decoded(bytes).split('\n');
    lines.forEach((line, i) => reader.line(Array.from(line), i + 1));
    return reader.job(lines.length);
}

// A job from a file's bytes: those of a job begin with 1 or 2, and no text does.
function jobOfFile(bytes) {
    testInput(bytes);
    if (bytes[0] === 1 || bytes[0] === 2) return jobOfBytes(bytes);
    testUtf16(bytes);
    if (bytes[0] < 0x20 && ![9, 10, 13].includes(bytes[0])) throw new Malformed(said('text.neither'));
    return jobOfText(bytes);
}

// The text whose job this is.
function textOfJob(job) {
    const h = job.header;
    const rows = [
        `road ${h.begin} ${h.end}`, `runout-forward ${h.forward}`, `runout-opposite ${h.opposite}`, `clear-zone ${h.zone}`,
        `centreline ${h.way}`, `barrier-offset ${h.offset}`, `deflection ${h.deflection}`, `flare ${h.along} ${h.across}`,
        `straight ${h.straight}`, `continuity ${h.continuity}`,
    ];
    if (job.panels) rows.push(`panel ${h.panel}`);
    if (job.left) rows.push('drives left');
    if (job.fall) rows.push('stations fall');
    for (const hazard of job.hazards) {
        const side = hazard.side === RIGHT ? 'right' : hazard.side === LEFT ? 'left' : hazard.side;
        const words = ['hazard', side, hazard.start, hazard.end, hazard.near, hazard.far, hazard.level];
        rows.push(words.concat(hazard.label ? ['"' + hazard.label + '"'] : []).join(' '));
    }
    return rows.join('\n') + '\n';
}
