// The number form of jobs and schedules, and millimetres as people read and write them.

class Malformed extends Error {}

// The shortest form: groups of seven bits, lowest first.
function putNumber(value, into) {
    if (typeof value === 'bigint') {
        for (; value > 0x7fn; value >>= 7n) into.push(Number(value & 0x7fn) | 0x80);
        into.push(Number(value));
        return;
    }
    for (; value > 0x7f; value = Math.floor(value / 128)) into.push((value % 128) | 0x80);
    into.push(value);
}

function bytesOfNumbers(numbers) {
    const found = [];
    for (const number of numbers) putNumber(number, found);
    return Uint8Array.from(found);
}

// The number at an index, and the index after it. At most six bytes, so it is exact.
function getNumber(bytes, at) {
    let value = 0;
    let weight = 1;
    for (let i = at; i < Math.min(at + 6, bytes.length); i++) {
        value += (bytes[i] & 0x7f) * weight;
        weight *= 128;
        if (bytes[i] < 0x80) {
            if (bytes[i] === 0 && i > at) throw new Malformed(said('bytes.shortest', at));
            return [value, i + 1];
        }
    }
    throw new Malformed(said(bytes.length - at < 6 ? 'bytes.end' : 'bytes.long', at));
}

function getNumbers(bytes, at, count) {
    const found = [];
    for (let i = 0; i < count; i++) {
        const [value, next] = getNumber(bytes, at);
        found.push(value);
        at = next;
    }
    return [found, at];
}

// The runs of a schedule. A record has the distance from the run before, the length and the level.
function runsOfSchedule(bytes) {
    let [count, at] = getNumber(bytes, 0);
    const runs = [];
    let end = 0;
    for (; count > 0; count--) {
        let numbers;
        [numbers, at] = getNumbers(bytes, at, 3);
        const [distance, length, level] = numbers;
        runs.push({start: end + distance, end: end + distance + length, length, level});
        end += distance + length;
    }
    return runs;
}

// The writing of runs with rising stations, for the calls that take a schedule.
function scheduleOfRuns(runs) {
    const numbers = [runs.length];
    let end = 0;
    for (const run of runs) {
        numbers.push(run.start - end, run.length, run.level);
        end = run.end;
    }
    return bytesOfNumbers(numbers);
}

function padded(number, digits) {
    return String(number).padStart(digits, '0');
}

// Whole millimetres as metres with three decimals, exactly; a number below 0 too.
function metres(mm) {
    if (typeof mm === 'bigint') return mm / 1000n + '.' + padded(mm % 1000n, 3);
    const size = Math.abs(mm);
    return (mm < 0 ? '-' : '') + Math.floor(size / 1000) + '.' + padded(size % 1000, 3);
}

function kilometres(mm) {
    const size = Math.abs(mm);
    return (mm < 0 ? '-' : '') + Math.floor(size / 1000000) + '+' + padded(Math.floor(size / 1000) % 1000, 3) + '.' + padded(size % 1000, 3);
}

// A number of digits, exact. No length or station has more than 20.
function ofDigits(digits) {
    return plainNumber(BigInt(digits));
}

const DIGITS_MAX = 20;

// What is typed in a field, in millimetres: {value}, or {wrong} with the key of what is wrong with it.
// unit: length, station or number. rounding: -1 down, 1 up, 0 where a part below a millimetre is not taken.
function typed(text, unit, inMetres, rounding) {
    const words = text.trim();
    if (words.length > 60) return {wrong: 'typed.long'};
    if (words === '') return {wrong: 'typed.empty'};
    if (words.startsWith('-')) return {wrong: 'typed.below'};
    const signed = /^([0-9]+)\+([0-9]{3})(?:\.([0-9]{3}))?$/.exec(words);
    if (signed && unit === 'station') {
        const digits = signed[1] + signed[2] + (signed[3] || '000');
        return digits.length > DIGITS_MAX ? {wrong: 'typed.long'} : {value: ofDigits(digits)};
    }
    if (/,/.test(words)) return {wrong: 'typed.comma'};
    const found = /^([0-9]+)(?:\.([0-9]*))?$/.exec(words);
    if (!found || (found[1].length + 3 > DIGITS_MAX)) return {wrong: found ? 'typed.long' : 'typed.number'};
    if (unit === 'number' || !inMetres) return found[2] === undefined ? {value: ofDigits(found[1])} : {wrong: unit === 'number' ? 'typed.whole' : 'typed.millimetres'};
    return ofMetres(found[1], found[2] || '', rounding);
}

function ofMetres(whole, decimals, rounding) {
    const value = BigInt(whole + decimals.slice(0, 3).padEnd(3, '0'));
    const part = /[1-9]/.test(decimals.slice(3));
    if (part && rounding === 0) return {wrong: 'typed.part'};
    return {value: plainNumber(part && rounding > 0 ? value + 1n : value)};
}
